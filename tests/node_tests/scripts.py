"""Scripts by the library, beside the program: replies, status and image are the same, byte for byte."""
import random
import re
import shutil
import subprocess

from library_tests.common import EXAMPLES, ended, erased, example, needs, read, same, write
from node_tests.common import compiled, program
from random_scripts import EDGES, broken, damaged, script


def beside(made, form, image, script=None, before=()):
    """A form by the library, and by the program on a copy of the image: what both wrote, and how much memory was used."""
    shutil.copy(image, "other")
    with open(script or "/dev/null", "rb") as file:
        done = subprocess.run([*before, made, form, image], stdin=file, stdout=subprocess.PIPE, stderr=subprocess.PIPE)
    wanted = program(form, "other", *([script] if script else []))
    same((done.returncode, done.stdout), wanted, f"status and replies of {form} {script}")
    same(read(image) == read("other"), True, f"that the image after {form} {script} is the program's")
    return done.stdout, int(re.search(rb"memory (\d+)", done.stderr)[1])


def names():
    return ("first", "station", "joins", "cursors")


def test_examples_answer_as_the_program():
    for way in ("plain", "sanitized", "threads"):
        made = compiled("forms", way)
        erased("image")
        for name in names():
            beside(made, "run", "image", example(name))
        for form in ("look", "dump", "check", "repair", "collect"):
            beside(made, form, "image")
        erased("image")
        same(beside(made, "run", "image", example("first"))[0], read(f"{EXAMPLES}/first.expected"), "the replies to first.aql")


def test_examples_answer_so_where_each_access_is_watched():
    needs("valgrind")
    made = compiled("forms", "watched")
    erased("image", 16)
    for name in ("first", "joins", "cursors"):
        beside(made, "run", "image", example(name), ["valgrind", "--quiet", "--error-exitcode=99", "--leak-check=full"])


def test_random_scripts_answer_as_the_program():
    ways = {way: compiled("forms", way) for way in ("plain", "threads", "sanitized")}
    lines, refused = 0, 0
    for seed in range(60):
        write("script", script(seed, 600).encode())
        erased("image", 24 + seed)
        wrote, _ = beside(ways["plain" if seed % 6 else "sanitized" if seed % 12 else "threads"], "run", "image", "script")
        lines, refused = lines + wrote.count(b"\n"), refused + wrote.count(b"\nno ")
        if seed % 10 == 0:
            for form in ("look", "dump", "check", "repair", "collect"):
                beside(ways["plain"], form, "image")
    print(f"{lines} lines were the same, {refused} of them refusals")
    same(lines > 60 * 600 and refused > 60 * 10, True, f"that {lines} lines and {refused} refusals are many")


def test_broken_scripts_answer_as_the_program():
    made, replies = compiled("forms", "sanitized"), 0
    for seed in range(200):
        rnd = random.Random(seed)
        # a quote that is open ends with the line, and the last command with the sign
        write("script", broken(rnd, script(seed, 40).encode(), EDGES) + b"\n;")
        erased("image", 16)
        replies += beside(made, "run", "image", "script")[0].count(b"\n")
    print(f"{replies} lines of broken scripts were the same")


def test_broken_images_are_judged_as_by_the_program():
    made, refused = compiled("forms", "sanitized"), 0
    erased("image", 16)
    write("script", script(1, 300).encode())
    program("run", "image", "script")
    was = read("image")
    for seed in range(120):
        rnd = random.Random(seed)
        write("image", damaged(rnd, was))
        wrote = beside(made, rnd.choice(("look", "dump")), "image")[0]
        refused += wrote.startswith(b"no image ")
        beside(made, "repair", "image")
    print(f"{refused} of 120 images were refused")
    same(0 < refused < 120, True, f"that {refused} of 120 images were refused")


def test_generated_images_are_read_as_by_the_program():
    made = compiled("forms")
    for seed in range(20, 30):
        erased("image", 128)
        program("gen", "image", str(seed), "700")
        for form in ("look", "dump", "check", "repair", "collect"):
            beside(made, form, "image")
        beside(made, "run", "image", example("first"))


def test_a_flash_that_a_cut_left_is_judged_as_by_the_program():
    made = compiled("forms")
    erased("cut")
    program("run", "cut", example("first"))
    image = bytearray(read("cut"))
    # a row's header and two bytes, as README.md has it
    image[1583:1585] = b"\x1e\0"
    write("cut", image)
    same(beside(made, "run", "cut", example("first"))[0], b"no image 19 0\n", "what is told of it")
    same(beside(made, "check", "cut")[0], b"row of readings taken back\nto be repaired\n", "what is foretold")
    same(beside(made, "repair", "cut")[0], b"row of readings taken back\nrepaired\n", "what is put right")
    image[9] = 1
    write("cut", image)
    for form in ("run", "look", "dump", "check", "repair", "collect"):
        same(beside(made, form, "cut", example("first") if form == "run" else None)[0], b"no image 1 0\n", f"what {form} tells")


def test_the_memory_that_the_header_asks_for_is_enough():
    made, used = compiled("forms"), []
    erased("image")
    used += [beside(made, "run", "image", example(name))[1] for name in names()]
    for seed in range(10):
        write("script", script(seed, 400).encode())
        erased("image", 64)
        used.append(beside(made, "run", "image", "script")[1])
        used += [beside(made, form, "image")[1] for form in ("look", "dump", "check", "repair", "collect")]
    lent = int(re.search(r" of (\d+)", ended([made, "look", "image"])[2])[1])
    print(f"the deepest of these calls took {max(used)} bytes of memory")
    same(max(used) + 2048 <= lent, True, f"that {lent} bytes are enough for them, and 2,048 for interrupts")
