"""Tests of images that are read without the program, whole ones and damaged ones."""
import contextlib
import random
import subprocess
import threading

import reader
from client_tests.common import PROGRAM, SENSORS, made, program, read, same, tool


def scripts():
    """Scripts that leave images of many kinds, and how many sectors they are for."""
    wide = "CREATE RELATION n; CREATE ATTRIBUTE v DOMAIN INT IN n; CREATE ATTRIBUTE at DOMAIN TIME IN n;"
    wide += "CREATE ATTRIBUTE t DOMAIN STRING(32) IN n;"
    narrow = "CREATE RELATION m; CREATE ATTRIBUTE k DOMAIN LONG IN m;"
    row = "INSERT ({}, {}, '{}') INTO n;"
    rows = "".join(row.format(it * 37 % 1000 - 500, it * 140737488, "abc~ -"[it % 7:]) for it in range(700))
    kinds = "CREATE INDEX n.v TYPE MAXHEAP; CREATE INDEX n.at TYPE INLINE;"
    yield "", 4
    yield "CREATE RELATION n; CREATE RELATION m; REMOVE RELATION n;", 4
    yield wide + row.format(-(2**15), 2**47 - 1, "~" * 32) + row.format(2**15 - 1, 0, ""), 8
    yield wide + rows + kinds, 256
    hashed = "CREATE INDEX m.k TYPE MEMHASH;" + "INSERT (-2147483648) INTO m;" * 40
    yield wide + kinds + rows + narrow + hashed, 256
    removed = "REMOVE FROM n WHERE v < 0; REMOVE FROM n WHERE v = 37;"
    yield wide + kinds + rows + removed + row.format(1, 2**46, "last"), 64
    yield wide + rows + "REMOVE FROM n WHERE v > 100; PACK n;" + kinds, 64
    yield wide + rows + narrow + "INSERT (1) INTO m; REMOVE RELATION n; CREATE RELATION o;", 64
    often = "".join(row.format(it, it, "x") + "REMOVE FROM n; PACK n;" for it in range(60))
    yield wide + kinds + "REMOVE INDEX n.v; REMOVE INDEX n.at;" + often, 16
    yield "".join(narrow.replace(" m", f" r{it}") + f"INSERT ({it}) INTO r{it};" for it in range(8)), 256
    yield wide + rows + "REMOVE FROM n;" + row.format(1, 2**46, "x") + kinds + "REMOVE FROM n WHERE v = 1;", 32


def is_dumped(image):
    wanted = program("dump", image)
    database = reader.Database(read(image))
    same(database.troubles, [], f"troubles of {image}")
    same("".join(reader.script(database)) == wanted, True, f"the dump of {image} is the program's")


def test_fifty_images_are_read_as_they_are_dumped():
    for at, (script, sectors) in enumerate(scripts()):
        replies = made(f"script{at}", script, sectors)
        same([it for it in replies.splitlines() if it.startswith("no ")], [], f"refusals of script {at}")
        is_dumped(f"script{at}")
    for seed in range(42):
        program("gen", f"gen{seed}", str(seed), str((10, 100, 700, 3000, 9000)[seed % 5]))
        is_dumped(f"gen{seed}")


def test_what_is_in_an_image_is_told():
    made("image", SENSORS + "REMOVE FROM s WHERE k = 5; CREATE INDEX s.k TYPE MAXHEAP;")
    same(tool("reader", "image")[0], "s (k LONG, t STRING(5)): 2 rows, 1 removed\ns.k: MAXHEAP\n", "the summary")
    same(tool("reader", "image", "--csv", "s")[0], 'k,t\n-1,\n7,"it?,-"\n', "the CSV")
    same(tool("reader", "image", "--dump")[0], program("dump", "image"), "the dump")
    tool("reader", "image", "--csv", "u", status=1)
    tool("reader", "none", status=1)


def test_rows_of_killed_runs_are_read():
    script = "CREATE RELATION n; CREATE ATTRIBUTE v DOMAIN LONG IN n; CREATE INDEX n.v TYPE MAXHEAP;"
    chance = random.Random(11)
    for at in range(12):
        made(f"image{at}", script)
        done = killed(f"image{at}", chance.randrange(1, 2500))
        rows = [it for (it,) in reader.Database(read(f"image{at}")).relations[0].rows]
        same(rows, list(range(len(rows))), "the rows are those that were sent")
        same(len(rows) >= done, True, f"{len(rows)} rows of at least {done}")


def killed(image, count):
    """Kills a run of INSERTs once it has answered this many; returns how many it had answered."""
    pipes = {"stdin": subprocess.PIPE, "stdout": subprocess.PIPE}
    with subprocess.Popen([PROGRAM, "run", image, "-"], **pipes) as begun:
        feeder = threading.Thread(target=feed, args=(begun.stdin,))
        feeder.start()
        replies = begun.stdout.read(len("ok\n") * count)
        begun.kill()
        replies += begun.stdout.read()
        feeder.join()
    return replies.count(b"ok\n")


def feed(stdin):
    with contextlib.suppress(OSError):
        stdin.write("".join(f"INSERT ({it}) INTO n;" for it in range(9000)).encode())
        stdin.close()


def test_what_cannot_be_read_is_told():
    # CAT has 6 pages, and T0 stands after it; the catalog's last changes are in its log
    made("image", SENSORS)
    whole = read("image")
    rows = whole.index(b"\5\0\0\0abc")
    attribute = whole.rindex(b"k".ljust(16, b"\0") + b"\2\0")
    for damage, says, left in (
        ({8: 2}, "pages 0 to 5: no extent begins there", 0),
        ({6 * 256 + 16: 1}, "page 6", 0),
        ({0x1000 * 200: 77}, "page 3200: no extent begins there", 3),
        ({rows + 9: 9}, "the row in slot 0 cannot be read", 2),
        ({rows + 5: 0xFC}, "the row in slot 0 cannot be read", 2),
        ({rows + 30: 1}, "after the last row there are 1 bytes of another", 3),
        ({attribute + 16: 9}, "its schema cannot be read", 0),
        ({32 + 1408: 7}, "index 0: it cannot be read", 3),
    ):
        image = bytearray(whole)
        for at, byte in damage.items():
            image[at] = byte
        with open("image", "wb") as file:
            file.write(image)
        wrote, said = tool("reader", "image", "--dump", status=1)
        same((wrote.count("INSERT"), says in said), (left, True), f"what was said of {damage}: {said}")
    for length, left in ((len(whole) // 2 + 17, 3), (256 * 6, 0), (5, 0), (0, 0)):
        with open("image", "wb") as file:
            file.write(whole[:length])
        wrote, said = tool("reader", "image", "--dump", status=1)
        same((wrote.count("INSERT"), "sectors" in said), (left, True), f"what was said of {length} bytes: {said}")
    with open("image", "wb") as file:
        file.write(whole)
        file.truncate(4096 * 4096)
    for image, left in (("image", 3), ("/dev/zero", 0)):
        wrote, said = tool("reader", image, "--dump", status=1)
        same((wrote.count("INSERT"), "more than 16773120 bytes" in said), (left, True), f"what was said of {image}: {said}")


def test_of_two_files_of_one_name_one_is_read():
    # PACK writes the rows anew: with the flag of the old file taken back the image is one that was cut between
    made("image", SENSORS + "REMOVE FROM s WHERE k = 5; PACK s;")
    image = bytearray(read("image"))
    headers = [it for it in range(0, len(image), 256) if image[it + 10:it + 13] == b"T0\0"]
    same([image[it + 9] for it in headers], [15, 23, 3], "the old file, its log and the new file")
    for it in headers:
        image[it + 9] &= ~4
    database = reader.Database(bytes(image))
    same(["two files T0" in it for it in database.troubles], [True], "what is told")
    same(database.relations[0].rows, [[-1, ""], [7, "it?,-"]], "the rows")
