"""The static library, called from C."""
import os
import random
import re

from library_tests.common import (
    ARCHIVE, EXAMPLES, HERE, ROOT, all_forms_beside, beside, ended, erased, example, needs, program, read, same, write,
)
from random_scripts import EDGES, broken, broken_line, damaged, script

WARNINGS = ["-std=c11", "-O1", "-g", "-Wall", "-Wextra", "-Werror", f"-I{ROOT}/c"]


def compiled(source, *how):
    """The path of a program in C over the library."""
    needs("cc")
    status, _, said = ended(["cc", *WARNINGS, *how, source, ARCHIVE, "-o", os.path.abspath("made"), "-pthread"])
    same((status, said), (0, ""), f"what the compiler said of {source}")
    return os.path.abspath("made")


def calls():
    made = compiled(f"{HERE}/calls.c", "-D_POSIX_C_SOURCE=200809L")
    return lambda *words: ended([made, *words])


def test_every_form_answers_as_the_program():
    all_forms_beside(calls())


def test_every_form_answers_as_the_program_where_each_access_is_watched():
    needs("valgrind")
    made = compiled(f"{HERE}/calls.c", "-D_POSIX_C_SOURCE=200809L", "-DWATCHED")
    watch = ["valgrind", "--quiet", "--error-exitcode=99", "--leak-check=full", made]
    erased("image", 16)
    for name in ("first", "joins", "cursors"):
        beside(lambda *words: ended([*watch, *words]), "image", "run", example(name))
    for words in (["dump"], ["look"], ["plan", "100"], ["check"], ["repair"], ["collect"]):
        beside(lambda *given: ended([*watch, *given]), "image", *words)


def test_the_example_answers_as_the_program():
    made = compiled(f"{ROOT}/c/example.c")
    for name in ("first", "station"):
        done = ended(["sh", "-c", 'exec "$0" image <"$1"', made, example(name)])
        same(done, (0, read(f"{EXAMPLES}/{name}.expected"), ""), f"what it wrote of {name}")
        same(program("run", "other", example(name))[0], 0, "the status of the program")
        same(read("image") == read("other"), True, f"that the image after {name} is the program's")


def run_example(before, image, script=None):
    """The example over an image, in a shell that has said something before: its status, what it wrote and what it said."""
    words = ["sh", "-c", f'{before}; exec "$0" "$1" <"$2"', os.path.abspath("made"), image, script or "/dev/null"]
    return ended(words)


def test_the_example_leaves_what_is_no_image_as_it_is():
    compiled(f"{ROOT}/c/example.c")
    # too long for an image, of no length of one, and not sound
    unsound = bytearray(256 * 4096)
    unsound[9] = 1
    for content, status in ((b"film" * 5_000_000, 1), (b"a letter", 10), (bytes(unsound), 6)):
        write("film", content)
        done = run_example(":", "film", example("first"))
        same(done[0], status, f"the status over {len(content)} bytes, of which it said {done[2]}")
        same(read("film") == content, True, f"that {len(content)} bytes are as they were")
    same(sorted(it for it in os.listdir(".") if it.startswith("film")), ["film"], "the files beside it")


def test_the_example_leaves_what_it_may_not_read_as_it_is():
    compiled(f"{ROOT}/c/example.c")
    os.mkdir("folder")
    same(run_example(":", "folder", example("first"))[:2], (1, b""), "what it does to a folder")
    same(run_example(":", "folder/none/image", example("first"))[:2], (1, b""), "what it does where there is no folder")
    if os.geteuid() == 0:
        return
    erased("image")
    os.chmod("image", 0o222)
    same(run_example(":", "image", example("first"))[:2], (1, b""), "what it does to a file that it may not read")
    os.chmod("image", 0o644)
    same(read("image") == bytes(256 * 4096), True, "that the file is as it was")


def test_the_example_leaves_an_image_that_it_cannot_write_whole():
    compiled(f"{ROOT}/c/example.c")
    same(run_example(":", "image", example("first"))[0], 0, "the status at first")
    was = read("image")
    # blocks of 512 bytes; the signal would end it
    done = run_example("trap '' XFSZ; ulimit -S -f 1024", "image", example("station"))
    same((done[0], done[1]), (1, b""), "its status and replies where the disk is full")
    same((read("image") == was, os.path.exists("image.new")), (True, False), "that the image is as it was, and nothing beside it")


def test_the_example_tells_that_its_replies_were_lost():
    made = compiled(f"{ROOT}/c/example.c")
    done = ended(["sh", "-c", 'exec "$0" image <"$1" >/dev/full', made, example("first")])
    same(done[0], 1, "the status")
    same(program("run", "other", example("first"))[0] == 0 and read("image") == read("other"), True, "that all was carried out")


def test_the_readme_shows_what_the_example_writes():
    last = read(f"{EXAMPLES}/first.expected").decode().splitlines()[-1]
    page = read(f"{ROOT}/README.md").decode()
    same(page.count(f"    $ ./example chip.img <examples/first.aql | tail -n 1\n    {last}\n\n"), 1, "how often it is shown")


def test_a_room_that_is_full_ends_with_5():
    call = calls()
    for room in (0, 1, 8, 20):
        erased("image")
        status, replies, _ = call("run", "image", example("first"), str(room))
        same((status, replies), (5, read(f"{EXAMPLES}/first.expected")[:room]), f"what stands in {room} bytes")
    erased("other")
    program("run", "other", example("first"))
    same(call("run", "image", example("first"), "34")[0], 5, "the status where the last line is cut off")


def test_broken_scripts_are_answered_as_by_the_program():
    call, replies, statuses = calls(), 0, set()
    for seed in range(200):
        write("script", broken(random.Random(seed), script(seed, 40).encode(), EDGES))
        erased("image", 16)
        status, wrote = beside(call, "image", "run", "script")
        statuses.add(status)
        replies += wrote.count(b"\n")
    print(f"{replies} lines of broken scripts were the same")
    same((statuses, replies > 5_000), ({0}, True), f"their statuses, and that {replies} replies are many")


def test_broken_frames_are_answered_as_by_the_program():
    call, kinds = calls(), {b"no frame": 0, b"no long": 0, b"no unfinished": 0, b"ok": 0}
    for seed in range(200):
        write("line", broken_line(seed, 40))
        erased("image", 16)
        status, wrote = beside(call, "image", "serve", "line")
        same(status, 0, f"the status of line {seed}")
        for it in kinds:
            kinds[it] += wrote.count(it)
    print(f"of broken frames: {kinds}")
    same(min(kinds.values()) > 10, True, f"that there are some of each kind: {kinds}")


def test_broken_images_are_judged_as_by_the_program():
    call, refused, repaired = calls(), 0, 0
    erased("image", 16)
    write("script", script(1, 300).encode())
    program("run", "image", "script")
    was = read("image")
    for seed in range(120):
        write("image", damaged(random.Random(seed), was))
        for words in (["look"], ["dump"], ["plan", "9"], ["check"]):
            status, _ = beside(call, "image", *words)
        refused += status == 6
        status, wrote = beside(call, "image", "repair")
        repaired += wrote.endswith(b"repaired\n")
        # what a repair calls sound can be used
        if status == 0:
            same(beside(call, "image", "run", "script")[0] in (0, 3), True, f"the status of a run over image {seed}")
    print(f"of 120 broken images {refused} were refused, and {repaired} repaired")
    same(min(refused, repaired) > 5, True, f"that {refused} and {repaired} are some")


def test_a_length_that_no_image_has_ends_with_10():
    call = calls()
    for length in (0, 4096, 3 * 4096, 4 * 4096 + 1, 4096 * 4096):
        content = b"\1" * length
        write("image", content)
        for form in ("run", "serve", "dump", "look", "check", "repair", "collect"):
            same(call(form, "image", example("first"))[:2], (10, b""), f"{form} over {length} bytes")
        same(call("plan", "image", "1")[:2], (10, b""), f"plan over {length} bytes")
        same(read("image") == content, True, "that it is as it was")


def test_no_call_takes_more_stack_than_the_header_says():
    call, most = calls(), 0
    for name in ("first", "station", "joins", "cursors"):
        most = max(most, int(re.fullmatch(r"stack (\d+)\n", call("run", "image", example(name))[2])[1]))
    for words in (["dump", "image"], ["look", "image"], ["plan", "image", "9"], ["check", "image"], ["repair", "image"], ["collect", "image"]):
        most = max(most, int(re.fullmatch(r"stack (\d+)\n", call(*words)[2])[1]))
    print(f"the deepest of these calls took {most} bytes of stack")
    same(most <= 96 * 1024, True, "that 96 KiB were enough")
