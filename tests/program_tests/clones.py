"""What the tests of the launcher share: clones in which stand-ins prove and build, and what a launcher said."""
import os
import re
import shutil
import subprocess

from .common import ROOT, length, read, same, tried, write


def copy_launcher(folder):
    """Copies the launcher, and what belongs to it, into a folder."""
    shutil.copy(f"{ROOT}/antelope", folder)
    shutil.copy(f"{ROOT}/VERSION", folder)
    shutil.copytree(f"{ROOT}/launcher", f"{folder}/launcher")


def launch(at, *words, path=None, **how):
    """What the launcher wrote on both streams, and its status."""
    environment = {**os.environ, "PATH": path} if path else None
    streams = {"stdout": subprocess.PIPE, "stderr": subprocess.PIPE, **how}
    if "stdin" not in how:
        streams = {"input": b"", **streams}
    ended = subprocess.run([at, *words], env=environment, **streams)
    return (ended.stdout or b"").decode(), (ended.stderr or b"").decode(), ended.returncode


def lines_of(*said):
    """These lines as the launcher says them."""
    return "".join(f"antelope: {it}\n" for it in said)


def made(image):
    return f"{image} did not exist and was created"


RT = """#!/bin/sh
# takes the place of rt: proves a crate unless it is told not to, and makes a program
name=$(basename "$PWD")
echo "$1 $name" >>../../asked
[ ! -e ../../slow ] || { echo $$ >../../slow; sleep 1; }
cat
[ ! -e "../../fails-$name" ] || exit 1
[ "$1" = run ] || exit 0
mkdir -p out && cp ../../made out/antelope_cli && chmod +x out/antelope_cli
exit 1
"""
UNPROVED = """#!/bin/sh
# stands for the compiler without proofs
repo=$(dirname "$(dirname "$0")")
echo unproved >>"$repo/asked"
[ ! -e "$repo/slow-unproved" ] || sleep 1
[ ! -e "$repo/fails-unproved" ] || { echo "an error in a source" >&2; exit 1; }
cp "$repo/made" "$1" && chmod +x "$1"
"""
BUILT = ["lib base", "lib middle", "run antelope_cli"]


def repository(content=b'#!/bin/sh\ncat\necho "$*"\n'):
    """A repository of four crates with a launcher, the path on which `rt` is a stand-in, and a file for an image."""
    write("image", b"")
    for folder in ("bin", *(f"repo/crates/{it}/src" for it in ("base", "aside", "middle", "antelope_cli"))):
        os.makedirs(folder)
    copy_launcher("repo")
    os.mkdir("repo/.ci")
    for part in ("build", "crates"):
        shutil.copy(f"{ROOT}/.ci/{part}", f"repo/.ci/{part}")
    write("repo/crates.txt", b"# crates\nbase:\naside: base\nmiddle: base itoa\nantelope_cli: middle\n")
    for name, size in (("base", 1000), ("middle", 2000), ("antelope_cli", 1000)):
        length(f"repo/crates/{name}/src/lib.rt", size)
    write("repo/made", content)
    for name, text in (("bin/rt", RT), ("repo/.ci/unproved", UNPROVED)):
        write(name, text.encode())
        os.chmod(name, 0o755)
    return f"{os.getcwd()}/bin:{os.environ['PATH']}"


def built(content):
    """A repository with a launcher over this program, which is built, and its path."""
    path = repository(content)
    os.makedirs("repo/crates/antelope_cli/out")
    write("repo/crates/antelope_cli/out/antelope_cli", content)
    os.chmod("repo/crates/antelope_cli/out/antelope_cli", 0o755)
    return path


def asked():
    """What the stand-in was asked for, which is forgotten."""
    if not os.path.exists("repo/asked"):
        return []
    text = read("repo/asked").decode().split("\n")[:-1]
    os.remove("repo/asked")
    return text


def rows_of(page, title):
    """The cells of the first table of a page whose head begins with this."""
    rows = re.search(rf"^\| {title} \|.*\n\|[-| ]*\n((?:\|.*\n)+)", read(f"{ROOT}/{page}").decode(), re.M)
    if not rows:
        raise AssertionError(f"{page} has no table of {title}")
    return [[it.strip() for it in line.strip("|").split(" | ")] for line in rows[1].splitlines()]


def without_rights():
    """How a program is begun that may not write everywhere, as root may."""
    os.chmod(".", 0o755)
    return {"user": 65534, "group": 65534, "extra_groups": []} if os.geteuid() == 0 else {}


def begin_launch(path, *words):
    streams = {"stdin": subprocess.DEVNULL, "stdout": subprocess.PIPE, "stderr": subprocess.PIPE}
    return subprocess.Popen(["repo/antelope", *words], env={**os.environ, "PATH": path}, **streams)


def told(status, line, *words, **how):
    """Tests that the launcher ends with a status and says this line, and that it made no image beside."""
    output, said, ended = launch(tried.launcher, *words, **how)
    same((said, ended), (lines_of(line), status), f"what {words} said, and its status")
    return output
