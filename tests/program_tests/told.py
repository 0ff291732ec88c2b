"""What the launcher says of a status, and its signals and streams."""
import os
import shutil
import signal
import subprocess
import tty

from .common import (
    NEW_IMAGE, RUN, SENSORS, end, ended, files, length, needs, read, replies, run, same, start, tried,
    unchanged, write,
)
from .clones import built, launch, lines_of, rows_of, told, without_rights
from .serial import served


def test_each_status_of_the_program_has_a_line():
    statuses = [int(row[0].strip("| ")) for row in rows_of("docs/OPERATING.md", "status")]
    same(statuses[-10:], list(range(1, 11)), "the statuses of docs/OPERATING.md")
    for status in statuses[-10:]:
        path = built(b"#!/bin/sh\nexit %d\n" % status)
        write("image", b"")
        output, said, ended = launch("repo/antelope", *RUN, path=path)
        same((output, ended), ("", status), "the output and the status")
        same("image" in said if status != 8 else "16,777,216" in said, True, f"the image is named in {said!r}")
        same(len(said.splitlines()) == 1 or status == 1, True, f"{said!r} is a line")
        shutil.rmtree("repo")
        shutil.rmtree("bin")
        os.remove("image")


MAY_BE = "the disk may be full, its name too long, or a limit on files too low"


def test_causes_of_7_are_told():
    write("image", NEW_IMAGE)
    os.mkdir("folder")
    os.symlink("nothing", "link")
    told(7, "folder is a directory", "run", "folder", "-")
    told(7, "link is a link to nothing", "run", "link", "-")
    told(7, "there is no directory none", "dump", "none/image")
    told(7, "there is no script", "run", "image", "script")
    told(7, "there is no script", "run", "new", "script")
    command = "SELECT MAX(v) FROM n;"
    told(7, f"there is no file '{command}'; antelope ask image takes commands as arguments", "run", "image", command)
    told(7, f"{'a' * 256} could not be made: {MAY_BE}", "run", "a" * 256, "-")
    for words in (("run", "", "-"), ("run", "new", ""), ("serve", "image", ""), ("dump", "")):
        told(7, "an empty argument names no file", *words)
    files("folder", "image", "link")


def test_a_lock_on_the_image_is_told():
    first = start("run", "image", "-")
    first.stdin.write(SENSORS)
    replies(first, b"ok\nok\n")
    holder = f"process {first.pid} has image: {tried.program} run image -"
    os.symlink("image", "link")
    same(told(7, holder, "run", "image", "-"), "", "output")
    same(told(7, holder.replace("image:", "link:"), "dump", "link"), "", "output by another name")
    end(first)


def test_missing_rights_are_told():
    built(read(tried.program))
    for name in ("image", "script"):
        write(name, NEW_IMAGE)
    os.chmod("script", 0)
    os.chmod("image", 0o444)
    nobody = without_rights()
    for words, line in (
        (RUN, "you may not read and write image"),
        (("run", "new", "-"), "you may not make a file in ."),
    ):
        same(launch("repo/antelope", *words, **nobody), ("", lines_of(line), 7), f"{words}")
    os.chmod("image", 0o666)
    said = launch("repo/antelope", "run", "image", "script", **nobody)
    same(said, ("", lines_of("you may not read script"), 7), "a script that may not be read")
    os.mkdir("closed")
    write("closed/image", NEW_IMAGE)
    os.chmod("closed/image", 0o666)
    os.chmod("closed", 0o711)
    said = launch("repo/antelope", "--sync", "run", "closed/image", "-", **nobody)
    same(said, ("", lines_of("you may not read the directory closed, which --sync needs"), 7), "a folder that may not be read")


def test_a_wrong_length_is_told():
    for size, why in ((0, "too few"), (16_383, "too few"), (16_385, "no multiple of 4,096"), (16_777_216, "too many")):
        length("image", size)
        told(10, f"image has {size} bytes, {why}: an image has 4 to 4,095 sectors of 4,096 bytes", *RUN)
    os.mkfifo("fifo")
    told(10, "fifo is not a regular file", "run", "fifo", "-")


def test_what_stopped_a_run_is_told():
    run("run", "image", "-", script=SENSORS)
    os.mkdir("folder")
    whole = "image is as left by the commands that had arrived whole"
    told(2, f"folder is a directory, which could not be read to its end; {whole}", "run", "image", "folder")
    closed = subprocess.run(["sh", "-c", '"$@" <&-', "sh", tried.launcher, *RUN], stderr=subprocess.PIPE)
    same(closed.stderr.decode(), lines_of(f"standard input could not be read to its end; {whole}"), "a closed input")
    needs("/dev/full")
    with open("/dev/full", "wb") as full:
        line = "standard output could not be written; image is as left by the commands that were carried out"
        told(5, line, *RUN, input=b"INSERT (1) INTO n;", stdout=full)
    line = "/dev/zero has more than 16,777,216 bytes; the commands that were complete within these were carried out"
    told(8, line, "run", "image", "/dev/zero")
    length("small", 4 * 4096)
    script = b"CREATE RELATION n; CREATE ATTRIBUTE v DOMAIN LONG IN n;" + b"INSERT (1) INTO n;" * 900
    line = "the flash in small is full: the last command changed nothing"
    plan = "27 sectors are enough for one more row in each relation, and it has 4"
    same(told(3, f"{line}; {plan}", "run", "small", "-", input=script), "ok\n" * 814 + "no space 32\n", "replies")
    same(run("plan", "small", "1"), b"sectors needed 27 present 4\n", "the plan")


def test_an_image_that_is_not_sound_is_told():
    run("run", "image", "-", script=SENSORS)
    image = bytearray(read("image"))
    image[9] = 1
    write("image", image)
    output, said, status = launch(tried.launcher, *RUN)
    same((output, status), ("no image 1 0\n", 6), "its output")
    parts = ("image is not sound, and was not changed", "docs/FORMATS.md", "antelope check image prints what antelope repair image would change")
    same([it for it in parts if it not in said], [], f"what is wanting in {said!r}")
    for form in ("check", "repair"):
        output, said, status = launch(tried.launcher, form, "image")
        same((output, status), ("no image 1 0\n", 6), f"the output of {form}")
        parts = ("image cannot be repaired, since no power cut leaves such an image", "docs/FORMATS.md", "clients/reader.py")
        same([it for it in parts if it not in said], [], f"what is wanting in {said!r}")
    unchanged("image", image)


def test_a_repair_tells_which_relations_are_there_now():
    length("image", 16 * 4096)
    same(launch(tried.launcher, "repair", "image"), ("sound\n", lines_of("image now has no relation"), 0), "of none")
    run("run", "image", "-", script=SENSORS + b"INSERT (1) INTO n; CREATE INDEX n.v TYPE INLINE; CREATE RELATION m; INSERT (2) INTO n;")
    image = bytearray(read("image"))
    # the last byte of the file that begins after this name is the mark of the second row
    place = image.index(b"T0") - 10 + 32 + 3
    image[place + 2] = 0
    write("image", image)
    relations = ("n (v INT) rows 1 removed 1 slots left 32766", "m () rows 0 removed 0 slots left 32768")
    now = lines_of(*(f"image now has relation {it}" for it in relations))
    same(launch(tried.launcher, "repair", "image"), ("row of n taken back\nrepaired\n", now, 0), "of two")
    same(launch(tried.launcher, "check", "image"), ("sound\n", "", 0), "a check of what is sound")


def test_a_limit_on_files_is_told_and_leaves_no_image():
    length("small", 4 * 4096)
    write("script", b"x;" * 2000)
    whole = "standard output could not be written; small is as left by the commands that were carried out"
    with open("replies", "wb") as replies:
        for blocks, words, status, line in (
            (8, RUN, 7, f"image could not be made: {MAY_BE}"),
            (40, ("run", "small", "script"), 5, whole),
        ):
            command = ["sh", "-c", f'ulimit -f {blocks}; exec "$@"', "sh", tried.launcher, *words]
            ended = subprocess.run(command, stdin=subprocess.DEVNULL, stdout=replies, stderr=subprocess.PIPE)
            same((ended.stderr.decode(), ended.returncode), (lines_of(line), status), f"the end of {words}")
    files("replies", "script", "small")


# Signals and streams through the launcher


def test_signals_reach_the_program():
    for number in (signal.SIGTERM, signal.SIGINT, signal.SIGHUP, signal.SIGQUIT):
        for strict in ([], ["--strict"]):
            begun = start(*strict, *RUN, at=tried.launcher)
            begun.stdin.write(SENSORS)
            replies(begun, b"ok\nok\n")
            begun.send_signal(number)
            begun.wait()
            output, said = begun.communicate()
            same((output, begun.returncode), (b"", 128 + number), f"the end by {number}")
            same(f"signal {int(number)} ended the program" in said.decode(), True, f"{said}")
            # nobody has the image any more, so the program has ended
            same(run("run", "image", "-", script=b"SELECT v FROM n;"), b"rows 0\n", "replies")
            os.remove("image")


def test_a_program_that_was_killed_ends_with_its_signal():
    path = built(b"#!/bin/sh\nkill -9 $$\n")
    output, said, status = launch("repo/antelope", *RUN, path=path)
    same((output, status, "signal 9 ended the program" in said), ("", 137, True), "the end of the launcher")


def test_a_program_that_cannot_be_begun_ends_with_125():
    for content in (b"#!/no/such/interpreter\n", b"\x7fELF\1\1\1"):
        path = built(content)
        for strict in ([], ["--strict"]):
            how = {"env": {**os.environ, "PATH": path, "status": "0"}, "stdout": subprocess.PIPE, "stderr": subprocess.PIPE}
            ended = subprocess.run(["repo/antelope", *strict, *RUN], stdin=subprocess.DEVNULL, **how)
            program = f"{os.getcwd()}/repo/crates/antelope_cli/out/antelope_cli"
            last = ended.stderr.decode().splitlines()[-1]
            same((last, ended.stdout, ended.returncode), (f"antelope: {program} could not be started", b"", 125), f"{content}")
        shutil.rmtree("repo")
        shutil.rmtree("bin")


def others(change):
    """What is said of a run during which others change its image."""
    begun = start("run", "image", "-", at=tried.launcher)
    begun.stdin.write(SENSORS)
    replies(begun, b"ok\nok\n")
    change()
    output, said = begun.communicate()
    same((output, begun.returncode), (b"", 0), "its end")
    return said.decode()


def test_an_image_that_others_touch_during_a_run_is_told():
    run("run", "image", "-")
    was = read("image")
    same(others(lambda: None), "", "what is said where nobody did")
    write("image", was)
    gone = "image was removed or renamed by others during the run: what the run wrote is no longer in it"
    same(others(lambda: os.rename("image", "other")), lines_of(gone), "a renamed image")
    os.rename("other", "image")
    write("image", was)
    write("new", was)
    replaced = "image was replaced by others during the run: what the run wrote is not in it"
    same(others(lambda: os.rename("new", "image")), lines_of(replaced), "a replaced image")
    cut = "image was changed by others during the run: it had 1048576 bytes and has 4096"
    same(others(lambda: os.truncate("image", 4096)), lines_of(cut), "an image that was cut")
    os.remove("image")
    same(others(lambda: os.remove("image")), lines_of(gone), "a removed image that was made")


def test_the_launcher_asks_for_synced_writes():
    path = built(b'#!/bin/sh\necho "${ANTELOPE_SYNC-no}"\n')
    for words, wanted in (("", "no"), ("--sync", "yes"), ("--strict --sync", "yes"), ("--sync --strict", "yes")):
        output, _, status = launch("repo/antelope", *words.split(), *RUN, path=path)
        same((output, status), (f"{wanted}\n", 0), f"with {words}")
    write("repo/made", read("repo/crates/antelope_cli/out/antelope_cli"))
    output, _, status = launch("repo/antelope", "--sync", "try", *RUN, path=path)
    same((output, status), ("yes\n", 0), "a try")


def test_replies_come_through_the_launcher_at_once():
    for strict in ([], ["--strict"]):
        begun = start(*strict, *RUN, at=tried.launcher)
        begun.stdin.write(b"CREATE RELATION n; CREATE RELA")
        replies(begun, b"ok\n")
        begun.stdin.write(b"TION n;")
        replies(begun, b"no exists\n")
        same(ended(begun), (11 if strict else 0, b""), "its end")
        os.remove("image")


def test_the_launcher_serves_a_line():
    run("run", "image", "-", script=SENSORS + b"INSERT (5) INTO n;")
    with served("image", at=tried.launcher) as line:
        port = os.open(line, os.O_RDWR | os.O_NOCTTY)
        tty.setraw(port)
        for frame, reply in (
            (b"\1OPEN 1 SELECT v FROM n\xc0", b"\1ok\n\xc0"),
            (b"\1FETCH 1\xc0", b"\0015\nrows 1\n\xc0"),
            (b"\2FETCH 1\xc0", b"\2no cursor\n\xc0"),
        ):
            os.write(port, frame)
            got = b""
            while len(got) < len(reply):
                got += os.read(port, len(reply) - len(got))
            same(got, reply, f"the reply to {frame}")
        os.close(port)
