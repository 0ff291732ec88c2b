"""What the tests of the program share: the program and the launcher that are tried, runs, files, and comparisons."""
import difflib
import os
import re
import resource
import subprocess
import types

from surroundings import default_signals

ROOT = os.path.dirname(os.path.dirname(os.path.dirname(os.path.realpath(__file__))))
EXAMPLES = f"{ROOT}/examples"
OUT = f"{ROOT}/crates/antelope_cli/out"
NEW_IMAGE = bytes(256 * 4096)
SENSORS = b"CREATE RELATION n; CREATE ATTRIBUTE v DOMAIN INT IN n;"
RUN = ("run", "image", "-")
NOT_BUILT = "the program is not built, or older than its sources: it is proved and built first"
# wrong arguments
NO_FORM = (
    *("", "run", "run image", "run image - -", "RUN image -", "dump", "dump image -", "look", "look image -"),
    *("LOOK image", "serve image", "fly image -", "repair", "repair image -", "Repair image"),
    *("check", "check image -", "Check image", "check image n=1"),
    *("gen image 1", "gen image -1 4", "gen image 1 0", "gen image 1 100001", "gen image 4294967296 1"),
    *("gen image 00000000001 1", "gen image 1 0000001", "plan image", "plan image 32768", "plan image 000001"),
    *("plan image n=1 n=2", "plan image n=", "plan image =1", "plan image n=32768", "plan image n=000001"),
    *("plan image Int=5", "plan image 1n=1", "plan image n=1=1", "plan image 5 n=1", "plan image n=1 5"),
    *("plan image a23456789_123456=1", "plan image a=1 b=1 c=1 d=1 e=1 f=1 g=1 h=1 i=1", "dump image n=1"),
)

# is_proved: not one that SORACHEST_PROGRAM names, which may take more stack and time
tried = types.SimpleNamespace(program=f"{OUT}/antelope_cli", launcher=f"{ROOT}/antelope", is_proved=True)


class Skipped(Exception):
    """What a test needs is not here."""


def marked(got, wanted):
    """Two texts from shortly before they differ, with marks below where they do; of other things both."""
    kinds = {type(got), type(wanted)}
    if kinds == {tuple} and len(got) == len(wanted):
        return "\n".join(marked(*it) for it in zip(got, wanted) if it[0] != it[1])
    if kinds not in ({bytes}, {str}):
        return f"{got!r:.300}, and not {wanted!r:.300}"
    end = "\n" if kinds == {str} else b"\n"
    at = len(os.path.commonprefix([got, wanted]))
    begin = max(got.rfind(end, 0, at) + 1, at - 100)
    parts = [[repr(line) for line in it[begin:at + 300].splitlines(True)] for it in (wanted, got)]
    lines = [it.rstrip("\n") for it in difflib.ndiff(*parts)]
    return "\n  ".join([f"from line {got.count(end, 0, at) + 1} on, - wanted and + come:", *lines])


def same(got, wanted, what):
    if got != wanted:
        raise AssertionError(f"{what}: {marked(got, wanted)}")


def run(*words, script=b"", status=0, limit=None, **how):
    """What the program wrote, which ended with this status and was silent on standard error."""
    command = [tried.program, *words]
    if limit:
        command = ["sh", "-c", f'{limit}; exec "$@"', "sh", *command]
    how = {"stdout": subprocess.PIPE, "stderr": subprocess.PIPE, **how}
    if "stdin" not in how:
        how["input"] = script
    ended = subprocess.run(command, **how)
    same(ended.stderr or b"", b"", f"standard error of {words}")
    same(ended.returncode, status, f"status of {words}{f' after {limit}' if limit else ''}")
    return ended.stdout


def start(*words, at=None, **how):
    """The program, or its launcher, begun, with pipes for its input and output."""
    also = how.pop("preexec_fn", None)

    def prepare():
        default_signals()
        if also:
            also()

    pipes = {"stdin": subprocess.PIPE, "stdout": subprocess.PIPE, "stderr": subprocess.PIPE, **how}
    return subprocess.Popen([at or tried.program, *words], bufsize=0, preexec_fn=prepare, **pipes)


def replies(begun, wanted):
    """Reads replies of the program as long as these are, which are these."""
    got = b""
    while len(got) < len(wanted):
        part = begun.stdout.read(len(wanted) - len(got))
        if not part:
            break
        got += part
    same(got, wanted, "replies")


def ended(begun):
    """The status of the program and what it wrote."""
    output, _ = begun.communicate()
    return begun.returncode, output


def end(begun, status=0, wrote=b""):
    output, errors = begun.communicate()
    same(errors or b"", b"", "standard error")
    same(begun.returncode, status, "status")
    same(output, wrote, "output")


def read(path):
    with open(path, "rb") as file:
        return file.read()


def hash_tables():
    """How many hash tables the sources have: 2, or fewer in a copy by port/tables."""
    return int(re.search(rb"MOST_TABLES: u16 = (\d);", read(f"{ROOT}/crates/db_model/src/schemas.rt"))[1])


def write(path, content):
    with open(path, "wb") as file:
        file.write(content)


def length(path, size):
    """Makes a file of this many zeros."""
    with open(path, "wb") as file:
        file.truncate(size)


def unchanged(path, was):
    if read(path) != was:
        raise AssertionError(f"{path} was changed")


def files(*names):
    same(sorted(os.listdir(".")), sorted(names), "the files in the folder")


def needs(path):
    if not os.path.exists(path):
        raise Skipped(f"there is no {path}")


def little_memory():
    """Leaves this process less memory than an image of 4,095 sectors is long."""
    resource.setrlimit(resource.RLIMIT_AS, (14_000_000, 14_000_000))
