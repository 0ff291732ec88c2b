"""The examples, their stack, and clients on a serial line."""
import os
import re
import subprocess
import sys

from random_scripts import broken_line

from .common import EXAMPLES, SENSORS, end, hash_tables, needs, read, replies, run, same, start, tried, write
from .serial import served


def test_each_example_has_its_replies():
    scripts = sorted(it for it in os.listdir(EXAMPLES) if it.endswith(".aql"))
    for script in scripts:
        replies = read(f"{EXAMPLES}/{script[:-4]}.expected")
        same(run("run", f"{script}.img", f"{EXAMPLES}/{script}"), replies, f"the replies to {script}")
    if not scripts:
        raise AssertionError("there are no examples")


def test_every_form_runs_on_64_KiB_of_stack():
    # what is promised is promised of the proved build of the first compiler: 64 KiB, and 40 without hash tables
    most = 40 + 12 * hash_tables() if tried.is_proved and not tried.program.endswith(".by-rattle") else 320
    small = {"limit": f"ulimit -s {most}", "env": {"PATH": os.environ["PATH"]}}
    for script in sorted(it for it in os.listdir(EXAMPLES) if it.endswith(".aql")):
        run("run", f"{script}.img", f"{EXAMPLES}/{script}", **small)
    run("gen", "gen.img", "7", "2000", **small)
    for image in ("station.aql.img", "joins.aql.img", "gen.img"):
        run("plan", image, "100", **small)
        run("dump", image, **small)
        run("look", image, **small)
        run("repair", image, **small)
    run("serve", "gen.img", "-", script=b"\1OPEN 1 SELECT k, v FROM w WHERE k > 5\xc0\1FETCH 1\xc0", **small)


def test_frames_are_answered_one_by_one():
    begun = start("serve", "image", "-")
    for frame, reply in (
        ("c0c00541c0", "006e6f206672616d650ac0"),
        ("01db41c0", "006e6f206672616d650ac0"),
        ("01c0", "016e6f2073796e74617820300ac0"),
    ):
        begun.stdin.write(bytes.fromhex(frame))
        replies(begun, bytes.fromhex(reply))
    begun.stdin.write(b"\x01P")
    end(begun, wrote=bytes.fromhex("006e6f20756e66696e69736865640ac0"))


def heard(line):
    """What a line asks for, as docs/AQL.md has it: the client of each frame and its command, or its reply."""
    parts = line.split(b"\xc0")
    for part in filter(None, parts[:-1]):
        bare = re.sub(b"\xdb[\xdc\xdd]", b"", part)
        frame = re.sub(b"\xdb([\xdc\xdd])", lambda it: b"\xc0" if it[1] == b"\xdc" else b"\xdb", part)
        if b"\xdb" in bare or not 1 <= frame[0] <= 4:
            yield 0, None, b"no frame\n"
        else:
            yield frame[0], frame[1:], b"no long\n" if len(frame) > 513 else None
    if parts[-1]:
        yield 0, None, b"no unfinished\n"


def as_in_a_script(command):
    """A command of a frame for a script, where one is of it: not if it is cut at a `;`, or a line end changes its length."""
    command = command.lstrip(b" \t\r\n")
    is_cut = b";" in re.sub(b"'[^'\n]*('|\n|$)", b"", command)
    return None if is_cut or not command or len(command) > 500 else command


def test_broken_frames_are_answered_by_the_rules():
    frames, counted = 0, 0
    for seed in range(100):
        line = broken_line(seed, 40, with_cursors=False)
        write("line", line)
        wanted = list(heard(line))
        got = run("serve", f"image{seed}", "line").split(b"\xc0")
        same((got.pop(), [it[0] for it in got]), (b"", [client for client, _, _ in wanted]), f"whom line {seed} is answered")
        script = [as_in_a_script(command or b"") for _, command, reply in wanted]
        write("script", b"\n;".join(it for it in script if it) + b"\n;")
        replies = iter(re.findall(rb"(?:[^nor].*\n)*(?:ok|rows \d+|no .*)\n", run("run", f"other{seed}", "script")))
        for (_, command, reply), text, answer in zip(wanted, script, got):
            frames += 1
            if text and not reply:
                counted += 1
                reply = next(replies)
                begins = len(command) - len(text)
                at = re.fullmatch(rb"no syntax (\d+)\n", reply)
                reply = b"no syntax %d\n" % (int(at[1]) + begins) if at else reply
            same(answer[1:], reply or answer[1:], f"the reply of line {seed} to {command}")
        same(next(replies, b""), b"", f"a reply of the script to line {seed} without a frame")
        os.remove(f"image{seed}")
        os.remove(f"other{seed}")
    print(f"{frames} frames, {counted} of them as by a script")
    same(counted > 3000, True, f"that {counted} of {frames} frames are many")


def test_clients_on_a_line_fetch_their_rows():
    needs(f"{EXAMPLES}/client.py")
    run("run", "image", "-", script=SENSORS + b"INSERT (5) INTO n; INSERT (-1) INTO n;")
    with served("image") as line:
        ask = [sys.executable, f"{EXAMPLES}/client.py", line, "SELECT v FROM n"]
        for _ in range(2):
            client = subprocess.run(ask, stdin=subprocess.DEVNULL, stdout=subprocess.PIPE, stderr=subprocess.PIPE)
            same((client.returncode, client.stdout, client.stderr), (0, b"5\n-1\n", b""), "what the client wrote")
