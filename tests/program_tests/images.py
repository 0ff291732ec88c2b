"""Images and scripts, arguments, locks, and the statuses 1 to 10 that the program ends with."""
import collections
import os
import resource
import subprocess

from .common import (
    NEW_IMAGE, NO_FORM, SENSORS, end, ended, files, length, little_memory, needs, read, replies, run, same,
    start, tried, unchanged, write,
)


def test_a_new_image_is_erased():
    same(run("run", "image", "-"), b"", "replies")
    files("image")
    unchanged("image", NEW_IMAGE)


def test_a_new_image_has_its_room_on_the_disk():
    run("run", "image", "-")
    write("zeros", NEW_IMAGE)
    same(os.stat("image").st_blocks, os.stat("zeros").st_blocks, "the blocks of the image")


def test_a_new_image_is_seen_whole_and_locked():
    # a name that is taken meanwhile is not used, and of many runs each sees no image, or a whole one
    write(".antelope-0", b"")
    write("script", b"CREATE RELATION n;")
    for _ in range(20):
        begun = [start("run", "image", "script", stdin=subprocess.DEVNULL) for _ in range(6)]
        came = collections.Counter(ended(it) for it in begun)
        same(set(came) - {(0, b"ok\n"), (0, b"no exists\n"), (7, b"")}, set(), "other ends")
        same(came[0, b"ok\n"], 1, "runs that made the relation")
        files(".antelope-0", "image", "script")
        os.remove("image")


def test_rows_stand_in_the_image_as_the_formats_say():
    script = (
        b"CREATE RELATION s; CREATE ATTRIBUTE k DOMAIN LONG IN s; CREATE ATTRIBUTE t DOMAIN STRING(3) IN s;"
        b"INSERT (5, 'abc') INTO s; INSERT (-1, '') INTO s; SELECT t, k FROM s;"
    )
    same(run("run", "image", "-", script=script), b"ok\n" * 5 + b"'abc',5\n'',-1\nrows 2\n", "replies")
    image = read("image")
    same(len(image), len(NEW_IMAGE), "the length of the image")
    if bytes.fromhex("0500000061626301ffffffff00000001") not in image:
        raise AssertionError("the rows are not in the image")


def test_the_first_change_makes_the_catalog():
    run("run", "image", "-", script=b"CREATE RELATION s;")
    header = bytes.fromhex("00001e0080000600010343415400000000000000000000000000000000000000")
    same(read("image")[:32], header, "the first header")


def test_a_second_run_finds_the_rows_and_no_cursor():
    run("run", "image", "-", script=SENSORS + b"INSERT (7) INTO n; OPEN 1 SELECT v FROM n;")
    same(run("run", "image", "-", script=b"FETCH 1; SELECT v FROM n;"), b"no cursor\n7\nrows 1\n", "replies")


def test_a_script_comes_from_a_file():
    write("script", SENSORS)
    same(run("run", "image", "script", stdin=subprocess.DEVNULL), b"ok\nok\n", "replies")
    unchanged("script", SENSORS)


def test_replies_come_while_the_script_is_written():
    os.mkfifo("fifo")
    for script in ("fifo", "-"):
        begun = start("run", f"{script}.img", script)
        feed = open(script, "wb", buffering=0) if script == "fifo" else begun.stdin
        feed.write(b"CREATE RELATION n; CREATE RELA")
        replies(begun, b"ok\n")
        feed.write(b"TION n;")
        replies(begun, b"no exists\n")
        feed.write(b"CLOSE")
        if script == "fifo":
            feed.close()
        end(begun, wrote=b"no unfinished\n")


def test_scripts_that_are_too_long_or_endless_end_with_8():
    needs("/dev/zero")
    length("spaces", 0)
    write("spaces", b" " * 16_777_216)
    run("run", "image", "spaces")
    with open("spaces", "ab") as file:
        file.write(b" ")
    run("run", "image", "spaces", status=8)
    run("run", "image", "/dev/zero", status=8)
    unchanged("image", NEW_IMAGE)


def test_a_flash_without_room_ends_with_3():
    length("image", 4 * 4096)
    script = b"CREATE RELATION n; CREATE ATTRIBUTE v DOMAIN LONG IN n;" + b"INSERT (1) INTO n;" * 900
    same(run("run", "image", "-", script=script, status=3), b"ok\n" * 814 + b"no space 32\n", "replies")
    same(run("run", "image", "-", script=b"SELECT COUNT(v) FROM n;"), b"812\nrows 1\n", "the count")


def test_an_image_that_is_not_sound_ends_with_6():
    run("run", "image", "-", script=SENSORS)
    image = bytearray(read("image"))
    image[9] = 1
    write("image", image)
    os.mkfifo("fifo")
    same(run("run", "image", "-", script=b"CREATE RELATION m;", status=6), b"no image 1 0\n", "output")
    same(run("gen", "image", "1", "4", status=6), b"no image 1 0\n", "output")
    unchanged("image", image)


# Words


def test_words_of_no_form_end_with_1():
    for words in (*NO_FORM, "--help", "help"):
        same(run(*words.split(), script=SENSORS, status=1), b"", "output")
    same(run("gen", "image", "", "1", status=1), b"", "output")
    files()


def test_words_that_are_no_text_end_with_1():
    for words in ([b"run", b"image\xff", b"-"], [b"run", b"image", b"\xc3"], [b"run", b"image", b"-", b"\x80"]):
        same(run(*words, script=SENSORS, status=1), b"", "output")
    files()


def test_any_text_names_an_image():
    for name in ("-", "--help", "run", "a b", "\u6e29\u5ea6.img", "a" * 255):
        run("run", name, "-", script=SENSORS)
        same(run("run", f"./{name}", "-", script=b"SELECT v FROM n;"), b"rows 0\n", "replies")


# Status 7


def test_an_image_that_cannot_be_opened_or_made_ends_with_7():
    os.mkdir("folder")
    os.symlink("nothing", "link")
    for name in ("folder", "folder/", ".", "none/image", "link", "", "a" * 256):
        run("run", name, "-", script=SENSORS, status=7)
    files("folder", "link")


def test_a_script_that_cannot_be_opened_leaves_no_image():
    for script in ("script", "none/script", "", "script/"):
        run("run", "image", script, status=7)
    files()


def test_a_script_that_cannot_be_opened_leaves_the_image():
    run("run", "image", "-", script=SENSORS)
    was = read("image")
    run("run", "image", "script", status=7)
    unchanged("image", was)


def test_an_image_that_cannot_have_its_length_is_not_left():
    # SIGXFSZ stays ignored, as Python has it, so a file that would pass the limit is an error
    run("run", "image", "-", status=7, limit="ulimit -f 8", restore_signals=False)
    files()


def test_without_file_numbers_no_image_is_left():
    run("run", "image", "-", status=7, limit="ulimit -n 4")
    files()
    write("script", b"")
    for numbers in (4, 5):
        run("run", "image", "script", status=7, limit=f"ulimit -n {numbers}")
        files("script")
    run("run", "image", "script", limit="ulimit -n 6")


# The lock


def test_a_second_run_on_an_image_ends_with_7():
    first = start("run", "image", "-")
    first.stdin.write(SENSORS)
    replies(first, b"ok\nok\n")
    was = read("image")
    os.link("image", "other")
    for name in ("image", "other"):
        for words in (("run", name, "-"), ("run", name, "none"), ("gen", name, "1", "4")):
            same(run(*words, script=b"INSERT (2) INTO n;", status=7), b"", "output")
    unchanged("image", was)
    first.stdin.write(b"INSERT (1) INTO n;")
    end(first, wrote=b"ok\n")
    same(run("run", "other", "-", script=b"SELECT v FROM n;"), b"1\nrows 1\n", "replies")


def test_of_many_runs_at_once_each_is_whole_or_refused():
    run("run", "image", "-", script=SENSORS)
    write("script", b"INSERT (1) INTO n; INSERT (2) INTO n;")
    for _ in range(10):
        begun = [start("run", "image", "script", stdin=subprocess.DEVNULL) for _ in range(8)]
        statuses = [ended(it)[0] for it in begun]
        same(set(statuses) - {0, 7}, set(), "statuses but 0 and 7")
        rows = 2 * statuses.count(0)
        same(run("run", "image", "-", script=b"REMOVE FROM n; PACK n;"), b"rows %d\nok\n" % rows, "rows")


def test_of_two_runs_at_once_none_loses_what_it_made():
    write("script", b"CREATE RELATION n;")
    for _ in range(40):
        begun = [start("run", "image", it, stdin=subprocess.DEVNULL) for it in ("none", "script")]
        came = [ended(it) for it in begun]
        same({it[0] for it in came} - {0, 7}, set(), "statuses but 0 and 7")
        if (0, b"ok\n") in came:
            same(run("run", "image", "-", script=b"REMOVE RELATION n;"), b"ok\n", "what is there")
            os.remove("image")
        files("script")


def test_a_run_that_was_killed_leaves_no_lock():
    first = start("run", "image", "-")
    first.stdin.write(SENSORS)
    replies(first, b"ok\nok\n")
    first.kill()
    first.communicate()
    same(run("run", "image", "-", script=b"SELECT v FROM n;"), b"rows 0\n", "replies")


# Statuses 9 and 10


def test_memory_that_is_wanting_ends_with_9():
    # the limit is set between two programs, since a shell needs more memory than this one
    words = ["run", "image", "-", *["x" * 100_000] * 12]
    seen = set()
    for kilobytes in range(1024, 20_000, 16):
        def limited(most=1024 * kilobytes):
            resource.setrlimit(resource.RLIMIT_CORE, (0, 0))
            resource.setrlimit(resource.RLIMIT_AS, (most, most))

        how = {"stdin": subprocess.DEVNULL, "stdout": subprocess.PIPE, "stderr": subprocess.PIPE}
        try:
            ended = subprocess.run([tried.program, *words], preexec_fn=limited, **how)
        except OSError:
            continue  # too little to begin it
        seen.add(ended.returncode)
        if ended.returncode == 9:
            same((ended.stdout, ended.stderr), (b"", b""), "output")
        if ended.returncode == 1:
            break
    files()
    if 9 not in seen or 1 not in seen:
        raise AssertionError(f"the statuses were {sorted(seen)}")


def test_a_run_without_memory_for_the_image_answers_the_same():
    length("image", 4095 * 4096)
    script = SENSORS + b"INSERT (7) INTO n; SELECT v FROM n; REMOVE RELATION n;"
    for how in ({"preexec_fn": little_memory}, {}):
        same(run("run", "image", "-", script=script, **how), b"ok\n" * 3 + b"7\nrows 1\nok\n", "the replies")


def calls_that_read(script, **how):
    """With how many calls a run of a script read, from all files."""
    write("script", script)
    begun = start("run", "image", "script", stdin=subprocess.DEVNULL, stdout=subprocess.DEVNULL, **how)
    os.waitid(os.P_PID, begun.pid, os.WEXITED | os.WNOWAIT)
    counts = dict(it.split(": ") for it in read(f"/proc/{begun.pid}/io").decode().splitlines())
    same(ended(begun)[0], 0, "status")
    return int(counts["syscr"])


def test_no_page_is_read_from_the_file_twice():
    needs("/proc/self/io")
    reads = calls_that_read(SENSORS + b"INSERT (7) INTO n;" * 300 + b"SELECT COUNT(v) FROM n;" * 300)
    # the image has 256 sectors; the script and the libraries are read too
    if reads > 2 * 256:
        raise AssertionError(f"there were {reads} reads")


def test_rows_of_one_key_are_found_without_walking_all_of_them():
    needs("/proc/self/io")

    def reads_of_rows(many):
        length("image", 4095 * 4096)
        run("run", "image", "-", script=SENSORS + b"CREATE INDEX n.v TYPE MAXHEAP;", stdout=subprocess.DEVNULL)
        opening = calls_that_read(b"", preexec_fn=little_memory)
        for script in (b"INSERT (7) INTO n;" * many, b"OPEN 1 SELECT v FROM n WHERE v = 7;" + b"FETCH 1;" * many):
            yield (calls_that_read(script, preexec_fn=little_memory) - opening) / many

    # a chain of four times as many rows is four times as long
    for what, few, more in zip(("an INSERT", "a FETCH"), reads_of_rows(1024), reads_of_rows(4096)):
        if more > 2 * few:
            raise AssertionError(f"{what} took {few:.1f} reads with 1,024 rows, and {more:.1f} with 4,096")


def test_an_image_of_another_length_ends_with_10():
    for size in (0, 1, 3 * 4096, 4 * 4096 - 1, 4 * 4096 + 1, 4096 * 4096):
        length("image", size)
        for script in ("-", "none"):
            same(run("run", "image", script, script=SENSORS, status=10), b"", "output")
        same(os.stat("image").st_size, size, "the length of the image")
    for sectors in (4, 4095):
        length("image", sectors * 4096)
        same(run("run", "image", "-", script=SENSORS), b"ok\nok\n", "replies")
    needs("/dev/null")
    run("run", "/dev/null", "-", script=SENSORS, status=10)
