"""What kills, full disks and machines that lose their power leave, and its repair."""
import contextlib
import os
import random
import shutil
import signal
import subprocess
import time

from .common import NEW_IMAGE, ROOT, SENSORS, Skipped, ended, length, read, run, same, start, unchanged, write


INDEXED = b"CREATE RELATION n; CREATE ATTRIBUTE v DOMAIN LONG IN n; CREATE INDEX n.v TYPE MAXHEAP;"
KILLERS = (signal.SIGKILL, signal.SIGINT, signal.SIGTERM)


def inserts(begin, many):
    return b"".join(b"INSERT (%d) INTO n;\n" % it for it in range(begin, begin + many))


def repaired(image, least, most):
    """The output of a repair. Afterwards the rows of the image must be the numbers from 0 on, at least and at most this many."""
    said = run("repair", image).decode().splitlines()
    rows = run("run", image, "-", script=b"SELECT v FROM n;").decode().splitlines()[:-1]
    same(rows, [str(it) for it in range(len(rows))], "the rows")
    if not least <= len(rows) <= most:
        raise AssertionError(f"{len(rows)} rows, and not {least} to {most}")
    same(run("repair", image), b"sound\n", "a second repair")
    return said, len(rows)


def test_repair_of_a_sound_image_leaves_it():
    same(run("repair", "image"), b"sound\n", "a new image")
    unchanged("image", NEW_IMAGE)
    run("gen", "image", "7", "300")
    was = read("image")
    same(run("repair", "image", script=b"x"), b"sound\n", "one with rows")
    unchanged("image", was)


def test_repair_of_a_strange_image_leaves_it():
    run("run", "image", "-", script=SENSORS + inserts(0, 5))
    # flags that no header has, a name that no file has, and a mark that no row has
    name = read("image").index(b"T0")
    for at, byte, line in (
        (9, 1, b"no image 1 0\n"),
        (name + 1, 0x39, b"no image 14 1\n"),
        (name - 10 + 32 + 2, 2, b"no image 19 0\n"),
    ):
        image = bytearray(read("image"))
        image[at] = byte
        write("strange", image)
        same(run("repair", "strange", status=6), line, f"byte {at}")
        unchanged("strange", image)


def test_a_check_reads_alone_and_tells_what_a_repair_would_do():
    run("run", "image", "-", script=INDEXED + inserts(0, 3))
    was = read("image")
    same(run("check", "image", script=b"x"), b"sound\n", "one with rows")
    unchanged("image", was)
    image = bytearray(was)
    # two bytes of a fourth row of five
    place = image.index(b"T0") - 10 + 32 + 3 * 5
    image[place:place + 2] = b"\x07\x01"
    write("image", image)
    same(run("check", "image"), b"row of n taken back\nindex on n.v built anew\nto be repaired\n", "what is to come")
    unchanged("image", image)
    same(run("check", "image", limit="exec >/dev/full", status=5), b"", "where it cannot be said")
    unchanged("image", image)
    image[9] = 1
    write("image", image)
    same(run("check", "image", status=6), b"no image 1 0\n", "one that no cut leaves")
    unchanged("image", image)


def test_a_collection_erases_the_sectors_that_hold_only_old_data():
    run("run", "image", "-", script=b"".join(b"CREATE RELATION %c; " % it for it in b"abcde"))
    was = read("image")
    same(run("collect", "image", script=b"x"), b"sectors erased 0\n", "while nothing is old")
    unchanged("image", was)
    # CAT has the pages 0 to 5, T0 6 to 21, the log of CAT 22 to 37, and T1 to T4 16 each after it: of what is removed
    # the sectors 3 and 4 hold nothing else, and the pages of T1 and T3 in other sectors are isolated
    run("run", "image", "-", script=b"REMOVE RELATION b; REMOVE RELATION c; REMOVE RELATION d;")
    was, dumped = bytearray(read("image")), run("dump", "image")
    same(run("collect", "image", limit="exec >/dev/full", status=5), b"", "where it cannot be said")
    collected = bytearray(was[:3 * 4096] + bytes(2 * 4096) + was[5 * 4096:])
    for page in (*range(38, 48), *range(80, 86)):
        collected[256 * page + 9] |= 34
    unchanged("image", collected)
    write("image", was)
    same(run("collect", "image"), b"sectors erased 2\n", "where two sectors are old")
    unchanged("image", collected)
    same((run("dump", "image"), run("collect", "image")), (dumped, b"sectors erased 0\n"), "after it")
    # the header of CAT names a log at page 254, where none is
    was[:] = b"\xff" + was[1:]
    write("image", was)
    same(run("collect", "image", status=6), b"no image 8 0\n", "an image that is not sound")
    unchanged("image", was)


def test_a_row_that_was_cut_is_taken_back():
    run("run", "image", "-", script=INDEXED + inserts(0, 3))
    image = bytearray(read("image"))
    # the fourth row of T0, of which two bytes came, stands after the three of five bytes
    place = image.index(b"T0") - 10 + 32 + 3 * 5
    image[place:place + 2] = b"\x07\x01"
    write("image", image)
    same(run("run", "image", "/dev/null", status=6), b"no image 19 0\n", "the image as it was cut")
    same(repaired("image", 3, 3)[0], ["row of n taken back", "index on n.v built anew", "repaired"], "what was said")


def test_killed_loads_are_repaired():
    run("run", "whole", "-", script=INDEXED)
    begun = time.monotonic()
    run("run", "whole", "-", script=inserts(0, 400))
    seconds = time.monotonic() - begun
    mended = 0
    for number in range(100):
        if number % 10 == 0:
            run("run", f"image{number}", "-", script=INDEXED)
            image, rows = f"image{number}", 0
        write("script", inserts(rows, 400))
        begun = start("run", image, "script", stdin=subprocess.DEVNULL)
        time.sleep(random.uniform(0, seconds))
        begun.send_signal(KILLERS[number % 3])
        written = rows + ended(begun)[1].count(b"ok\n")
        said, rows = repaired(image, written, written + 1)
        mended += said != ["sound"]
    if not mended:
        raise AssertionError("each image was sound")


def test_a_load_on_a_full_file_system_is_repaired():
    os.mkdir("small")
    mount = ["mount", "-t", "tmpfs", "-o", "size=140k", "tmpfs", "small"]
    if subprocess.run(mount, stderr=subprocess.DEVNULL).returncode:
        raise Skipped("no small file system can be mounted here")
    try:
        # a file with holes, which the system fills as they are written to
        length("small/image", len(NEW_IMAGE))
        run("run", "small/image", "-", script=INDEXED)
        written = run("run", "small/image", "-", script=inserts(0, 5000), status=4).count(b"ok\n")
        write("image", read("small/image"))
    finally:
        subprocess.run(["umount", "small"])
    said, _ = repaired("image", written, written + 1)
    same(said[-1], "repaired", "the last line")


def calls_of(*words, **how):
    """What the program wrote, and the calls that it made for its image: ("W", place, bytes), ("S",) or ("A", bytes written)."""
    if not shutil.which("cc"):
        raise Skipped("there is no cc")
    if not os.path.exists("calls.so"):
        subprocess.run(["cc", "-shared", "-fPIC", "-O1", f"{ROOT}/tests/calls.c", "-o", "calls.so", "-ldl"], check=True)
    with contextlib.suppress(FileNotFoundError):
        os.remove("calls")
    told = {"LD_PRELOAD": os.path.abspath("calls.so"), "CALLS": os.path.abspath("calls")}
    output = run(*words, **{**how, "env": {**os.environ, **told, **how.get("env", {})}})
    notes, at, calls = read("calls"), 0, []
    while at < len(notes):
        kind, at = chr(notes[at]), at + 1
        numbers = {"W": 2, "S": 0, "A": 1}[kind]
        found = [int.from_bytes(notes[at + 8 * it:at + 8 * it + 8], "little") for it in range(numbers)]
        at += 8 * numbers
        if kind == "W":
            found[1:], at = [notes[at:at + found[1]]], at + found[1]
        calls.append((kind, *found))
    return output, calls


def left_by_power(image, calls):
    """What a disk may keep of an image: each write before the last sync, and any of the later ones."""
    kept = max((number for number, call in enumerate(calls) if call[0] == "S"), default=0)
    later = [call for call in calls[kept:] if call[0] == "W"]
    image = bytearray(image)
    for _, place, content in [it for it in calls[:kept] if it[0] == "W"] + random.sample(later, random.randint(0, len(later))):
        image[place:place + len(content)] = content
    return image


SYNCED = {"ANTELOPE_SYNC": "yes"}


def test_synced_writes_are_on_the_disk_one_by_one():
    script = INDEXED + inserts(0, 40) + b"REMOVE FROM n WHERE v < 9; CREATE INDEX n.v TYPE INLINE; PACK n;"
    output, calls = calls_of("run", "image", "-", script=script, env=SYNCED)
    kinds = "".join(it[0] for it in calls)
    # the zeros of a new image and its name; then each write with its own sync, and replies between them
    same(kinds[:258], "W" * 256 + "SS", "the calls that make an image")
    same(kinds[258:].replace("WS", "").strip("A"), "", "the calls that are no write with its sync, and no reply")
    same(sum(it[1] for it in calls if it[0] == "A"), len(output), "what was written")
    without = calls_of("run", "other", "-", script=script)[1]
    same([it for it in without if it[0] != "S"], [it for it in calls if it[0] != "S"], "the writes without it")
    same([it for it in without if it[0] == "S"], [], "the syncs without it")
    same(read("image"), read("other"), "the images")
    run("gen", "old", "7", "2000")
    kinds = "".join(it[0] for it in calls_of("collect", "old", env=SYNCED)[1])
    # what earlier runs wrote and the image's name; then each erase with its own sync, and the reply
    same((kinds[:4], kinds[2:].replace("WS", "").strip("A")), ("SSWS", ""), "the calls of a collection")


def test_a_machine_without_power_keeps_what_was_replied():
    run("run", "image", "-", script=INDEXED)
    was = read("image")
    _, calls = calls_of("run", "image", "-", script=inserts(0, 300), env=SYNCED)
    same([it[0] for it in calls[:3]], ["S", "S", "W"], "the calls for the file that is found and its name, and the first write")
    mended = 0
    for _ in range(100):
        front = calls[:random.randrange(len(calls))]
        written = sum(it[1] for it in front if it[0] == "A") // len(b"ok\n")
        write("cut", left_by_power(was, front))
        said, _ = repaired("cut", written, written + 1)
        mended += said != ["sound"]
    if not mended:
        raise AssertionError("each image was sound")
