"""The commands and scripts that the documents show."""
import contextlib
import os
import re
import shutil
import signal
import subprocess
import sys

from .common import EXAMPLES, ROOT, end, read, replies, run, same, start, tried, write
from .clones import lines_of
from .serial import opened_pty


# what cannot be run here, by how a command begins, and why
NOT_RUN = {
    ".ci/run": "it runs this test",
    "port/boot": "tests/device runs it",
    "c/build": "tests/library does so",
    "./example": "tests/library does so",
    "page/build": "tests/library does so",
}
TWO_KEYS = b"CREATE RELATION s; CREATE ATTRIBUTE k DOMAIN INT IN s; INSERT (5) INTO s; INSERT (-1) INTO s;"
# what a call of `try` says before all else, and the pages leave out
LEFT_OUT = (
    "antelope: compiling the program without its proofs: less than a minute, once",
    "antelope: a try: this program was compiled without its proofs",
)
SOCAT = """#!/usr/bin/env python3
# stands for `socat pty,raw,echo=0,link=LINK EXEC:'COMMAND'` where there is none
import os, pty, shlex, subprocess, sys, tty
near, far = pty.openpty()
tty.setraw(far)
os.symlink(os.ttyname(far), sys.argv[1].split("link=")[1])
subprocess.run(shlex.split(sys.argv[2][len("EXEC:"):]), stdin=near, stdout=near)
"""


def commands_of(page):
    """The commands that a page shows after `$ `, and the lines that it shows below each."""
    shown, indent = [], None
    for line in read(f"{ROOT}/{page}").decode().splitlines():
        begins = re.fullmatch(r"( *)\$ (.*)", line)
        if begins:
            indent = begins[1]
            shown.append((begins[2], []))
        elif not line.strip() or line.startswith("```") or indent is None or not line.startswith(indent):
            indent = None
        else:
            shown[-1][1].append(line[len(indent):])
    return shown


def as_a_clone():
    """Makes this folder look like a clone, and returns what its commands are run with."""
    for name in (it for it in os.listdir(ROOT) if not it.startswith(".") and not it.endswith((".img", ".aql"))):
        os.symlink(tried.launcher if name == "antelope" else f"{ROOT}/{name}", name)
    os.mkdir(".stand-ins")
    if not shutil.which("socat"):
        write(".stand-ins/socat", SOCAT.encode())
        os.chmod(".stand-ins/socat", 0o755)
    path = f"{os.getcwd()}/.stand-ins:{os.environ['PATH']}"
    return {"env": {**os.environ, "PATH": path, "PYTHONDONTWRITEBYTECODE": "1"}, "stdin": subprocess.DEVNULL}


def why_not_run(command):
    """Why a command is not run here, if it is not."""
    return next((why for it, why in NOT_RUN.items() if re.search(rf"(^|[|&;] *){re.escape(it)}\b", command)), None)


def as_script(commands, line):
    """A script that runs commands in order, and prints the number and the status of each after its output."""
    script = "exec 2>&1\n"
    for number, (command, _) in enumerate(commands):
        # a name in /tmp is one for a machine, on which tests may run side by side
        command = command.replace("/tmp/", f"{os.getcwd()}/").replace("/dev/ttyUSB0", line)
        script += f"{command}\n"
        if command.endswith("&"):
            waited = re.findall(rf"{re.escape(os.getcwd())}/[^,'\s]+", command)
            script += "".join(f"until [ -e '{it}' ]; do sleep 0.01; done\n" for it in waited)
        script += f'echo "-- {number} $?"\n'
    return script


def run_in_one_shell(commands):
    """What came of commands that were typed in one shell: for each, what it wrote, and its status."""
    how = as_a_clone()
    with opened_pty() as (_, far):
        write(".typed", as_script(commands, os.ttyname(far)).encode())
        streams = {"stdout": subprocess.PIPE, "stderr": subprocess.DEVNULL, "start_new_session": True}
        shell = subprocess.Popen(["sh", ".typed"], **streams, **how)
        output = ""
        while not output.endswith(f"-- {len(commands) - 1} 0\n") and (part := shell.stdout.readline()):
            output += part.decode()
        # what goes on beside the shell ends with it
        with contextlib.suppress(ProcessLookupError):
            os.killpg(shell.pid, signal.SIGTERM)
        shell.communicate()
    parts = re.split(r"^-- (\d+) (\d+)\n", output, flags=re.M)
    return [(wrote, int(status)) for wrote, status in zip(parts[::3], parts[2::3])]


def all_shown_run(page):
    """Runs the commands of a page in one shell, and compares what they write, on both streams, with what is shown."""
    commands = commands_of(page)
    for command in (it for it, _ in commands if why_not_run(it)):
        print(f"{page}: {command!r} is not run: {why_not_run(command)}")
    commands = [it for it in commands if not why_not_run(it[0])]
    came = run_in_one_shell(commands)
    for (command, shown), (wrote, status) in zip(commands, came):
        lines = [it for it in wrote.splitlines() if it not in LEFT_OUT]
        if "|" in command:
            # what comes first, a message or the end of a pipeline, is open
            lines, shown = sorted(lines), sorted(shown)
        same("".join(f"{it}\n" for it in lines), "".join(f"{it}\n" for it in shown), f"{page}: what {command!r} wrote")
        # `grep` ends with 1 where it finds nothing, and a message says what a status means
        is_right = status == 0 or "grep" in command and status == 1 or any(it.startswith("antelope: ") for it in shown)
        same(is_right, True, f"{page}: that {command!r} ended with {status} is right")
    same(len(came), len(commands), f"{page}: commands that were carried out")


def test_the_commands_that_the_pages_show_write_what_is_shown():
    pages = sorted(f"docs/{it}" for it in os.listdir(f"{ROOT}/docs") if it.endswith(".md"))
    pages = [it for it in ("README.md", "examples/README.md", *pages) if commands_of(it)]
    same([it for it in ("README.md", "docs/AQL.md") if it not in pages], [], "pages without a command")
    here = os.getcwd()
    for page in pages:
        os.mkdir(page.replace("/", "-"))
        os.chdir(page.replace("/", "-"))
        all_shown_run(page)
        os.chdir(here)


def test_the_script_that_the_readme_shows_is_the_first_example():
    script = read(f"{EXAMPLES}/first.aql").decode().splitlines(keepends=True)
    shown = "\n" + "".join(f"    {it}" for it in script) + "\n"
    same(read(f"{ROOT}/README.md").decode().count(shown), 1, "how often it is shown")


def test_what_the_promises_name_is_there():
    ended = subprocess.run([f"{ROOT}/docs/clauses", "--check"], stdout=subprocess.PIPE, stderr=subprocess.STDOUT)
    said = ended.stdout.decode()
    same((ended.returncode, said.endswith("all are there\n"), said.count("\n")), (0, True, 1), f"what it said: {said}")
    # the script takes the page from its own folder
    os.mkdir("docs")
    shutil.copy(f"{ROOT}/docs/clauses", "docs")
    shutil.copy(f"{ROOT}/crates.txt", ".")
    os.symlink(f"{ROOT}/crates", "crates")
    page = read(f"{ROOT}/docs/PROMISES.md").decode()
    same("`top`" in page or "`top:" in page, True, "that the page names top")
    write("docs/PROMISES.md", page.replace("`top", "`topp").encode())
    ended = subprocess.run(["docs/clauses", "--check"], stdout=subprocess.PIPE, stderr=subprocess.STDOUT)
    same((ended.returncode, b"topp" in ended.stdout), (1, True), f"what it said of another name: {ended.stdout[:200]}")


def test_the_python_that_the_readme_shows_answers_as_shown():
    how = as_a_clone()
    run("run", "station.img", f"{EXAMPLES}/first.aql")
    shown = re.findall(r"^    >>> .*\n(?:    \S.*\n)*", read(f"{ROOT}/README.md").decode(), re.M)
    same(len(shown), 1, "the number of blocks")
    write("shown", shown[0].encode())
    command = [sys.executable, "-m", "doctest", "shown"]
    ended = subprocess.run(command, stdout=subprocess.PIPE, stderr=subprocess.PIPE, **how)
    same((ended.stdout.decode(), ended.returncode), ("", 0), "what differs")
    same([it for it in ended.stderr.decode().splitlines() if it not in LEFT_OUT], [], "what was said")


def test_the_exchange_that_aql_shows_is_answered_so():
    run("run", "image", "-", script=TWO_KEYS)
    page = read(f"{ROOT}/docs/AQL.md").decode()
    shown = re.findall(r"^    (to the program|from it) +((?:[0-9a-f]{2} ?)+)", page, re.M)
    same(len(shown), 6, "the number of frames")
    begun = start("serve", "image", "-")
    for direction, frame in shown:
        if direction == "from it":
            replies(begun, bytes.fromhex(frame))
        else:
            begun.stdin.write(bytes.fromhex(frame))
    end(begun)


def test_the_loop_that_operating_shows_serves_on_behind_the_limit():
    how = as_a_clone()
    run("run", "station.img", f"{EXAMPLES}/first.aql")
    shown = re.findall(r"^    while .*\n(?:    .*\n)+", read(f"{ROOT}/docs/OPERATING.md").decode(), re.M)
    same(len(shown), 1, "the number of loops")
    with opened_pty() as (near, far):
        loop = shown[0].replace("/dev/ttyUSB0", os.ttyname(far))
        begun = subprocess.Popen(["sh", "-c", loop], stderr=subprocess.PIPE, **how)
        for _ in range(4096):
            os.write(near, b"\xc0" * 4096)
        # one byte past the limit, and after it a frame for the next run
        os.write(near, b"\xc0\1SELECT MAX(celsius) FROM readings\xc0")
        reply = b""
        while not reply.endswith(b"\xc0"):
            reply += os.read(near, 100)
        same(reply, b"\00121\nrows 1\n\xc0", "the reply")
    said = begun.communicate()[1].decode()
    line = "standard input has more than 16,777,216 bytes; the commands that were complete within these were carried out"
    # that the line was hung up may come as an end, or as a fault
    hung_up = "standard input could not be read to its end; station.img is as left by the commands that had arrived whole"
    if said != lines_of(line) + lines_of(hung_up):
        same(said, lines_of(line), "how its runs ended")
    same(begun.returncode, 0, "the status of the loop")
