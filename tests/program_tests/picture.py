"""The picture of an image."""
import collections
import os
import re
import subprocess

from .common import EXAMPLES, ROOT, length, read, run, same, write


def picture(*words):
    """What the picture and standard error say, and the status."""
    ended = subprocess.run([f"{ROOT}/docs/picture", *words], stdout=subprocess.PIPE, stderr=subprocess.PIPE)
    return ended.stdout.decode(), ended.stderr.decode(), ended.returncode


def drawn(image):
    """The marks of the pages of an image, whose last line counts them, and the units that are named."""
    output, said, status = picture(image)
    same((said, status), ("", 0), "the end of the picture")
    *rows, last = output.splitlines()
    rows = [it.split("  ", 2) for it in (it.strip() for it in rows)]
    marks = "".join(it[1] for it in rows)
    pages = os.stat(image).st_size // 256
    marks += "." * (pages - len(marks))
    same(last, f"{pages // 16} sectors, of {pages} pages {marks.count('.')} free", "the last line")
    same([it[0] for it in rows], [str(it) for it in range(len(rows))], "the sectors")
    return marks, [unit for it in rows for unit in it[2:] for unit in unit.split("; ")]


def test_a_picture_is_the_one_that_the_formats_show():
    run("run", "image", f"{EXAMPLES}/first.aql")
    run("run", "image", "-", script=b"CREATE INDEX readings.celsius TYPE MAXHEAP;REMOVE FROM readings WHERE minute = 0;")
    output, said, status = picture("image")
    same((said, status), ("", 0), "the end of the picture")
    page = [it[4:] for it in read(f"{ROOT}/docs/FORMATS.md").decode().splitlines()]
    at = next((at for at, it in enumerate(page) if it.startswith("    0  CCCCCC")), len(page))
    shown = [it[:len(wanted)] for it, wanted in zip(page[at:], output.splitlines())]
    same("\n".join(shown) + "\n", output, "the picture")


def test_a_picture_shows_what_a_generated_image_has():
    for seed, sectors in (("7", 128), ("1", 256), ("2", 256), ("3", 256)):
        length("image", sectors * 4096)
        run("gen", "image", seed, "8000")
        marks, units = drawn("image")
        image = read("image")
        pages = [image[at:at + 256] for at in range(0, len(image), 256)]
        same([it for it, mark in zip(pages, marks) if mark == "." and any(it)], [], "what free pages hold")
        sizes = collections.Counter()
        for name, size, obsolete in re.findall(r"^(.*), (\d+) pages(, obsolete)?$", "\n".join(units), re.M):
            letter = name.replace("log of ", "")[0]
            sizes["-" if obsolete else letter.lower() if "log" in name else letter] += int(size)
        isolated = marks.count("-") - sizes["-"]
        same(isolated > 0, True, "there are isolated pages, as each such run leaves them")
        same({**sizes, "-": marks.count("-")}, dict(collections.Counter(marks.replace(".", ""))), "the pages of the units")


def test_a_picture_marks_what_is_no_file_that_stands():
    run("run", "whole", f"{EXAMPLES}/first.aql")
    log = "    1  {}cccccccccc  log of CAT, 16 pages\n    2  cccccc..........\n"
    free = "256 sectors, of 4096 pages {} free\n"
    isolated = "".join(f"{it:5}  {'.' * 16}\n" for it in (3, 4, 5)) + "    6  ....-...........\n"
    for place, flags, marks, what, more, left in (
        (6, 2, "+", ", under construction", "", 4058),
        (6, 7, "-", ", obsolete", "", 4058),
        (100, 34, "T", "", isolated, 4057),
        (100, 255, "T", "", isolated, 4057),
    ):
        image = bytearray(read("whole"))
        image[place * 256 + 9] = flags
        write("image", image)
        first = f"    0  CCCCCC{marks * 10}  CAT, 6 pages; T0, 16 pages{what}\n"
        wanted = first + log.format(marks * 6) + more + free.format(left)
        same(picture("image"), (wanted, "", 0), f"the picture with {flags} at page {place}")


def test_a_picture_of_a_damaged_image_ends():
    run("run", "whole", f"{EXAMPLES}/first.aql")
    place, first = 6 * 256, "    0  CCCCCC  CAT, 6 pages\n"
    # T0 lies after the 6 pages of CAT
    for at, byte, why in (
        (6, 0, "the extent at page 6 has no pages"),
        (7, 255, "the extent at page 6 has 65296 pages, and ends beyond the flash"),
        (8, 2, "page 6 is neither free nor isolated, and begins with no header"),
        (9, 1, "page 6 is neither free nor isolated, and begins with no header"),
        (10, 255, "page 6 is neither free nor isolated, and begins with no header"),
        (26, 1, "page 6 is neither free nor isolated, and begins with no header"),
    ):
        image = bytearray(read("whole"))
        image[place + at] = byte
        write("image", image)
        same(picture("image"), (first, f"picture: image: {why}\n", 1), f"the picture with {byte} at {at}")
    length("none", 4 * 4096)
    same(picture("none"), ("4 sectors, of 64 pages 64 free\n", "", 0), "the picture of an erased image")


def test_a_picture_of_no_image_says_why():
    write("text", b"# Sorachest\n")
    wrong = "is no image: it has {} bytes, and not 4 to 4095 sectors of 4096"
    same(picture("text"), ("", f"picture: text {wrong.format(12)}\n", 1), "a text")
    length("long", 4096 * 4096)
    same(picture("long"), ("", f"picture: long {wrong.format('more than 16773120')}\n", 1), "a long file")
    same(picture("none"), ("", "picture: none: No such file or directory\n", 1), "no file")
    same(picture("."), ("", "picture: .: Is a directory\n", 1), "a folder")
    for words in ((), ("text", "text")):
        same(picture(*words), ("", "usage: docs/picture IMAGE\n", 1), f"{words}")
    help_, said, status = picture("--help")
    same(("docs/picture IMAGE" in help_, said, status), (True, "", 0), "--help")
