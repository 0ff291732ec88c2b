"""Strict runs, `ask`, the prompt, and what is said of refusals."""
import fcntl
import os
import random
import re
import shutil
import signal
import struct
import subprocess
import termios
import time

from .common import NEW_IMAGE, ROOT, RUN, SENSORS, Skipped, length, needs, read, run, same, start, tried, write
from .clones import built, launch, lines_of, made
from .serial import open_pty


def strictly(script, *words):
    write("script", script)
    return launch(tried.launcher, "--strict", *(words or ("run", "image", "script")))


def test_a_strict_run_without_refusals_ends_with_0():
    run("run", "image", "-")
    script = b"CREATE RELATION n; CREATE ATTRIBUTE t DOMAIN STRING(9) IN n; INSERT ('no space') INTO n; SELECT t FROM n;"
    same(strictly(script), ("ok\nok\nok\n'no space'\nrows 1\n", "", 0), "the run")


# what the launcher says of replies, from the pages of the language
NO_RELATION = "no relation: there is no relation of that name"
NO_COMMAND = "this is not a command: it goes wrong at the mark"
NO_VALUE = "no value 1: value 1 does not fit its attribute, or there are too few or too many values"


def refusals(number, of, first, line, *shown):
    """What is said of refused commands: how many, the first, and then of each its number, its reply and its text."""
    where = f", in line {line} of the script" if line else ""
    said = f"antelope: {number} of {of} commands were refused, the first is command {first}{where}\n"
    for command, reply, *text in shown:
        said += f"antelope: command {command}: {reply}\n" + "".join(f"    {it}\n" for it in text)
    return said


def test_a_strict_run_tells_the_refusals():
    run("run", "image", "-", script=b"CREATE RELATION s; CREATE ATTRIBUTE t DOMAIN STRING(9) IN s;")
    for script, wanted in (
        (b"SELECT v FROM n;", refusals(1, 1, 1, 1, (1, NO_RELATION, "SELECT v FROM n"))),
        (b"CREATE RELATION n;\n ; \n\n;INSERT (';')\nINTO n;",
         refusals(1, 2, 2, 4, (2, NO_VALUE, "INSERT (';')"))),
        (b"SELECT v FROM\n'; \n;PACK n;",
         refusals(1, 2, 1, 1, (1, f"no syntax 13: {NO_COMMAND}", "SELECT v FROM", " " * 13 + "^"))),
        (b"PACK n;;\r\n\tPACK n;\r\nPACK\r\nm;PACK k;",
         refusals(2, 4, 3, 3, (3, NO_RELATION, "PACK"), (4, NO_RELATION, "PACK k"))),
        (b"PACK n;" + b"x" * 600 + b";PACK m;",
         refusals(2, 3, 2, 1, (2, "no long: a command has at most 512 bytes", "x" * 100), (3, NO_RELATION, "PACK m"))),
        (b"PACK n; PACK n;\n PACK n",
         refusals(1, 3, 3, 2, (3, "no unfinished: the last command does not end with ;", "PACK n"))),
        (b"INSERT (';x') INTO s;\nPACK m;PACK '\n;",
         refusals(2, 3, 2, 2, (2, NO_RELATION, "PACK m"), (3, f"no syntax 4: {NO_COMMAND}", "PACK '", "    ^"))),
        (b"PACK\nn\nx;", refusals(1, 1, 1, 1, (1, f"no syntax 6: {NO_COMMAND}", "n", " ^"))),
        (b"SELECT t\tFRM s;PACK \xc3\xa4;",
         refusals(2, 2, 1, 1, (1, f"no syntax 8: {NO_COMMAND}", "SELECT t?FRM s", " " * 8 + "^"),
                  (2, f"no syntax 4: {NO_COMMAND}", "PACK ??", "    ^"))),
        (b"PACK n; PACK '; PACK n;\n; PACK m;",
         refusals(2, 3, 2, 1, (2, f"no syntax 4: {NO_COMMAND}", "PACK '; PACK n;", "    ^"), (3, NO_RELATION, "PACK m"))),
    ):
        output, said, status = strictly(script)
        same((said, status), (wanted, 11), f"what {script} came to")
        same(launch(tried.launcher, "run", "image", "script")[1:], ("", 0), "the same without --strict")
    write("a=b 'c", b"PACK m;")
    said = launch(tried.launcher, "--strict", "run", "image", "a=b 'c")[1:]
    same(said, (refusals(1, 1, 1, 1, (1, NO_RELATION, "PACK m")), 11), "a strange name")
    said = launch(tried.launcher, "--strict", *RUN, input=b"PACK n; PACK m;")
    same(said, ("ok\nno relation\n", refusals(1, 2, 2, 0, (2, NO_RELATION)), 11), "from standard input")


def test_only_the_first_refusals_are_shown():
    run("run", "image", "-")
    shown = [(it, NO_RELATION, "PACK n") for it in range(1, 11)]
    said = strictly(b"PACK n;\n" * 25)[1]
    same(said, refusals(25, 25, 1, 1, *shown) + lines_of("and 15 more were refused"), "what is said of 25 refusals")


def test_a_long_line_is_shown_around_its_mark():
    run("run", "image", "-")
    said = strictly(b"SELECT " + b"a" * 10 + b" FROM n WHERE k = " + b"1 + " * 30 + b"? 1;")[1]
    # the last of 33 tokens in a row ends after the plus, 35 + 119 bytes from the first
    first = "SELECT aaaaaaaaaa FROM n WHERE k = " + "1 + " * 30 + "? 1"
    wanted = (1, f"no syntax 154: {NO_COMMAND}", first[94:], " " * 60 + "^")
    same(said, refusals(1, 1, 1, 1, wanted), "what is said")


def test_each_reply_of_the_language_has_a_sentence():
    page = read(f"{ROOT}/docs/AQL.md").decode()
    known = re.findall(r"^\| `no ([a-z]+)[^|]*` \|", page, re.M)
    same((len(known) >= 18, known[0]), (True, "syntax"), "the replies of docs/AQL.md")
    for reply in known:
        write("repo-replies", f"no {reply} 1 2\n".encode())
        path = built(b"#!/bin/sh\ncat repo-replies\n")
        said = launch("repo/antelope", "--strict", *RUN, path=path)[1].splitlines()
        same(len(said), 2, f"the lines on {reply}")
        # frames come to serve alone
        same("docs/AQL.md" in said[1], reply == "frame", f"that {said[1]!r} says what it means")
        shutil.rmtree("repo")
        shutil.rmtree("bin")


def test_refusals_that_cannot_be_counted_end_with_125():
    run("run", "image", "-")
    write("script", b"PACK n;")
    os.mkdir("small")
    mount = ["mount", "-t", "tmpfs", "-o", "size=4k", "tmpfs", "small"]
    if subprocess.run(mount, stderr=subprocess.DEVNULL).returncode:
        raise Skipped("no small file system can be mounted here")
    try:
        fill = ["dd", "if=/dev/zero", "of=small/full", "bs=4096", "count=2"]
        same(subprocess.run(fill, stderr=subprocess.DEVNULL).returncode, 1, "that the file system is full")
        environment = {**os.environ, "TMPDIR": f"{os.getcwd()}/small"}
        command = [tried.launcher, "--strict", "run", "image", "script"]
        ended = subprocess.run(command, env=environment, stdout=subprocess.PIPE, stderr=subprocess.PIPE)
    finally:
        subprocess.run(["umount", "small"])
    said = lines_of(f"the refusals could not be counted: {os.getcwd()}/small may be full")
    same((ended.stdout, ended.stderr.decode(), ended.returncode), (b"no relation\n", said, 125), "its end")


def test_a_strict_run_that_is_ended_leaves_nothing_behind():
    os.mkdir("own")
    environment = {**os.environ, "TMPDIR": f"{os.getcwd()}/own"}
    for number in range(40):
        begun = start("--strict", *RUN, at=tried.launcher, env=environment)
        time.sleep(random.uniform(0, 0.06))
        begun.send_signal(signal.SIGTERM if number % 2 else signal.SIGINT)
        begun.communicate()
        same(os.listdir("own"), [], f"folders that the {number}th run left")
    needs("/proc/self/environ")
    # what the launcher looked for with `find` when the signal came may still be ending
    ends = time.monotonic() + 5
    while begun_with(f"TMPDIR={os.getcwd()}/own") and time.monotonic() < ends:
        time.sleep(0.05)
    same(begun_with(f"TMPDIR={os.getcwd()}/own"), [], "processes that are left")


def begun_with(variable):
    """The processes that have this variable in their environment."""
    return [it for it in os.listdir("/proc") if it.isdigit() and variable.encode() in environment_of(it)]


def environment_of(process):
    """What a process was begun with, as long as it is there."""
    try:
        return read(f"/proc/{process}/environ")
    except OSError:
        return b""


# Commands as arguments, and a prompt


def test_commands_are_asked_as_arguments():
    create = ("CREATE RELATION n", "create attribute v domain int in n;", "INSERT (7) INTO n; INSERT (-1) INTO n")
    output, said, status = launch(tried.launcher, "ask", "image", *create)
    same((output, said, status), ("ok\n" * 4, lines_of(made("image")), 0), "commands that make an image")
    same(launch(tried.launcher, "ask", "image", "SELECT v FROM n"), ("7\n-1\nrows 2\n", "", 0), "a question")
    said = lines_of(f"command 1: no syntax 8: {NO_COMMAND}") + "    SELECT v FRM n\n            ^\n"
    output = launch(tried.launcher, "ask", "image", "SELECT v FRM n", "SELECT 'v FROM n", "SELECT MAX(v) FROM n")
    said += lines_of(f"command 2: no syntax 6: {NO_COMMAND}") + "    SELECT 'v FROM n\n          ^\n"
    same(output, ("no syntax 8\nno syntax 6\n7\nrows 1\n", said, 11), "refused ones")
    said = lines_of("no attribute 1: name 1 of the command is not an attribute of the relation") + "    SELECT k FROM n\n"
    same(launch(tried.launcher, "ask", "image", "SELECT k FROM n"), ("no attribute 1\n", said, 11), "a refused one alone")
    same(launch(tried.launcher, "ask", "image", input=b"SELECT v FROM n;")[::2], ("7\n-1\nrows 2\n", 0), "standard input")
    longest = "SELECT v FROM n" + " " * 497
    same(launch(tried.launcher, "ask", "image", longest)[::2], ("7\n-1\nrows 2\n", 0), "one of 512 bytes")


def test_rows_are_asked_as_csv():
    run("run", "image", "-", script=b"CREATE RELATION n; CREATE ATTRIBUTE v DOMAIN INT IN n;"
        b"CREATE ATTRIBUTE t DOMAIN STRING(9) IN n; INSERT (7, 'a,b') INTO n; INSERT (-1, '') INTO n; INSERT (5, ' \"x-') INTO n;")
    rows = '7,"a,b"\n-1,\n5," ""x-"\n'
    same(launch(tried.launcher, "--csv", "ask", "image", "SELECT v, t FROM n"), (rows, "", 0), "rows")
    commands = ("select v ,\n t FROM n WHERE v > 0;", "PACK n; SELECT MAX(v),MEAN( v )FROM n WHERE v>9", "JOIN n, n ON v PROJECT t",
                "SELECT v FROM n WHERE v > 9", "OPEN 1 SELECT v FROM n", "FETCH 1")
    wanted = 'v,t\n7,"a,b"\n5," ""x-"\nMAX(v),MEAN(v)\n,\nt\n"a,b"\n\n" ""x-"\n7\n'
    same(launch(tried.launcher, "--header", "ask", "image", *commands), (wanted, "", 0), "rows after their names")
    said = lines_of(f"command 2: {NO_RELATION}") + "    PACK m\n"
    came = launch(tried.launcher, "--header", "ask", "image", "SELECT v FROM n", "PACK m", "SELECT COUNT(v) FROM n")
    same(came, ("v\n7\n-1\n5\nCOUNT(v)\n3\n", said, 11), "one that is refused")
    with open("/dev/full", "wb") as full:
        same(launch(tried.launcher, "--csv", "ask", "image", "SELECT v FROM n", stdout=full)[2], 5, "a full output")


def typed(*lines, words=("image",)):
    """What a prompt shows when these lines are typed, each once the prompt is there, and the end of it."""
    near, far = open_pty()
    environment = {**os.environ, "SORACHEST_PROMPT": "yes"}
    streams = {"stdin": far, "stdout": far, "stderr": far, "env": environment, "start_new_session": True}
    begun = start("ask", *words, at=tried.launcher, **streams)
    os.close(far)
    shown, answered = b"", 0
    for line in (*lines, "\4"):
        while not shown[answered:].endswith(b"aql> ") and (part := read_some(near)):
            shown += part
        answered = len(shown)
        os.write(near, line.encode() + (b"" if line == "\4" else b"\n"))
    while part := read_some(near):
        shown += part
    os.close(near)
    return shown.decode().replace("\r\n", "\n"), begun.wait()


def read_some(near):
    """What comes from a terminal, and nothing where its other end was closed."""
    try:
        return os.read(near, 4096)
    except OSError:
        return b""


def test_a_prompt_answers_line_by_line():
    run("run", "image", "-", script=SENSORS + b"INSERT (7) INTO n;")
    shown, status = typed("SELECT v FROM n", "", "OPEN 1 SELECT v FROM n; FETCH 1", "SELECT v FRM n", "PACK k; FETCH 1;")
    wanted = "image: type commands, help, or Ctrl-D to end\n"
    wanted += "aql> SELECT v FROM n\n7\nrows 1\naql> \n"
    wanted += "aql> OPEN 1 SELECT v FROM n; FETCH 1\nok\n7\nrows 1\n"
    wanted += f"aql> SELECT v FRM n\nno syntax 8\nantelope: no syntax 8: {NO_COMMAND}\n    SELECT v FRM n\n            ^\n"
    wanted += f"aql> PACK k; FETCH 1;\nno relation\nrows 0\nantelope: command 1: {NO_RELATION}\n    PACK k\naql> \n"
    same((shown, status), (wanted, 0), "the session")
    same(run("run", "image", "-", script=b"SELECT v FROM n;"), b"7\nrows 1\n", "what is there afterwards")


def test_a_prompt_makes_an_image_and_ends_with_quit():
    shown, status = typed("CREATE RELATION n", "help", "quit", words=("new",))
    same(status, 0, "its status")
    same(["aql> CREATE RELATION n\nok\n" in shown, "\nCREATE INDEX relation.name TYPE kind" in shown], [True, True], shown)
    same(shown.endswith("aql> quit\n" + lines_of(made("new"))), True, f"the end of {shown!r}")


def test_a_prompt_that_is_interrupted_lets_the_image_go():
    near, far = open_pty()
    begun = start("ask", "image", at=tried.launcher, stdin=far, stdout=far, stderr=far)
    os.close(far)
    shown = b""
    while not shown.endswith(b"aql> "):
        shown += os.read(near, 100)
    same(run("run", "image", "-", status=7), b"", "what another run may do")
    begun.send_signal(signal.SIGINT)
    same(begun.wait(), 130, "its status")
    os.close(near)
    same(run("run", "image", "-", script=b"CREATE RELATION n;"), b"ok\n", "what another run may do then")


def test_a_prompt_is_edited_where_rlwrap_is_there():
    os.mkdir("bin")
    write("bin/rlwrap", b'#!/bin/sh\necho "$SORACHEST_PROMPT: $*"\n')
    os.chmod("bin/rlwrap", 0o755)
    environment = {**os.environ, "PATH": f"{os.getcwd()}/bin:{os.environ['PATH']}"}
    near, far = open_pty()
    for columns, wanted in ((80, f"yes: -C antelope {tried.launcher} ask image\r\n"), (0, "image: type commands")):
        fcntl.ioctl(near, termios.TIOCSWINSZ, struct.pack("HHHH", 24, columns, 0, 0))
        begun = start("ask", "image", at=tried.launcher, stdin=far, stdout=far, stderr=far, env=environment)
        shown = b""
        while len(shown) < len(wanted):
            shown += os.read(near, 1)
        same(shown.decode(), wanted, f"what begins on {columns} columns")
        if not columns:
            os.write(near, b"\4")
        same(begun.wait(), 0, "its status")
    os.close(near)
    os.close(far)


def test_a_prompt_tells_why_it_cannot_begin_or_go_on():
    write("image", b"\1" + NEW_IMAGE[1:])
    shown, status = typed()
    same((shown.splitlines()[0], status, "antelope repair image" in shown), ("no image 1 0", 6, True), "an unsound image")
    length("image", 4 * 4096)
    insert = "; ".join(["INSERT (1) INTO n"] * 200)
    shown, status = typed("CREATE RELATION n; CREATE ATTRIBUTE v DOMAIN LONG IN n", *[insert] * 5)
    same((status, "no space 32\nantelope: the flash in image is full" in shown), (3, True), f"a full flash: {shown[-300:]}")
    same(run("run", "image", "-", script=b"SELECT COUNT(v) FROM n;"), b"812\nrows 1\n", "the rows")


def test_a_strict_run_keeps_other_statuses():
    length("small", 4 * 4096)
    script = b"CREATE RELATION n; CREATE ATTRIBUTE v DOMAIN LONG IN n;" + b"INSERT (1) INTO n;\n" * 900
    output, said, status = strictly(script, "run", "small", "script")
    same((output, status), ("ok\n" * 814 + "no space 32\n", 3), "the run")
    same("1 of 815 commands were refused, the first is command 815, in line 813 of the script" in said, True, said)
    same("no space 32: the flash has no 32 free pages in a row\n    INSERT (1) INTO n\n" in said, True, said)
    image = bytearray(read("small"))
    image[9] = 1
    write("small", image)
    output, said, status = strictly(script, "run", "small", "script")
    same((output, status, "refused" in said), ("no image 1 0\n", 6, False), "an image that is not sound")
    same(strictly(script, "run", "new", "nothing")[::2], ("", 7), "no script")
    needs("/dev/full")
    with open("/dev/full", "wb") as full:
        same(launch(tried.launcher, "--strict", "run", "new", "script", stdout=full)[2], 5, "a full output")
