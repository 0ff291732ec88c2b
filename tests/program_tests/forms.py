"""Streams that are closed, full or broken, and what gen, plan, dump and look write."""
import contextlib
import os

from .common import (
    EXAMPLES, NEW_IMAGE, SENSORS, end, hash_tables, length, little_memory, needs, read, replies, run, same,
    start, unchanged, write,
)


def test_output_that_cannot_be_written_ends_with_5():
    needs("/dev/full")
    run("run", "image", "-", script=SENSORS)
    with open("/dev/full", "wb") as full:
        run("run", "image", "-", script=b"INSERT (1) INTO n; INSERT (2) INTO n;", status=5, stdout=full)
        run("run", "image", "-", script=b" ; ", status=0, stdout=full)
        run("gen", "other", "1", "4", status=5, stdout=full)
        run("look", "image", status=5, stdout=full)
    run("run", "image", "-", script=b"INSERT (3) INTO n;", status=5, limit="exec >&-")
    reader, writer = os.pipe()
    os.close(reader)
    run("run", "image", "-", script=b"INSERT (4) INTO n;", status=5, stdout=writer)
    os.close(writer)
    # at 5 the command without a whole reply was carried out
    same(run("run", "image", "-", script=b"SELECT v FROM n;"), b"1\n3\n4\nrows 3\n", "rows")


def test_input_that_cannot_be_read_ends_with_2():
    os.mkdir("folder")
    run("run", "image", "folder", status=2)
    run("run", "image", "-", status=2, limit="exec <&-")
    run("run", "image", "-", status=2, limit="exec <folder")
    unchanged("image", NEW_IMAGE)


def test_streams_that_do_not_block_end_a_run_as_soon_as_it_would_wait():
    write("script", b"x;" * 50_000)
    for at, words, status in ((0, ("run", "image", "-"), 2), (1, ("run", "image", "script"), 5)):
        ends = os.pipe()
        os.set_blocking(ends[at], False)
        run(*words, status=status, **{("stdin", "stdout")[at]: ends[at]})
        for it in ends:
            os.close(it)


def test_a_chip_that_was_read_out_and_not_inverted_has_no_relation():
    write("image", b"\xff" * len(NEW_IMAGE))
    same(run("look", "image"), b"flash sectors 256 pages free 0 in files 0 in logs 0 to be collected 4096\n", "what is on it")


def test_closed_streams_do_not_reach_the_image():
    write("script", SENSORS + b"SELECT v FROM n;")
    for streams, status in (("<&-", 0), (">&-", 5), ("2>&-", 0), ("<&- >&-", 5), ("<&- >&- 2>&-", 5)):
        run("run", "image", "script", status=status, limit=f"exec {streams}")
        run("run", "image", "-", script=b"CREATE RELATION o; REMOVE RELATION o;")
        os.remove("image")


def test_forms_without_an_input_read_none():
    for form in ("gen image 1 4", "plan image 100", "dump image", "look image", "check image", "repair image", "collect image"):
        words = form.split()
        begun = start(*words)
        # it may have ended by now
        with contextlib.suppress(BrokenPipeError):
            begun.stdin.write(SENSORS)
        same(begun.wait(), 0, f"status of {words}")
        begun.communicate()
        run(*words, status=0, limit="exec <&-")


def test_a_flash_that_fails_ends_with_4():
    length("image", 64 * 4096)
    run("run", "image", "-", script=SENSORS, status=4, limit="ulimit -f 2", restore_signals=False)
    # what a run keeps in memory it does not read again, so this one has none for it
    length("other", 4095 * 4096)
    first = start("run", "other", "-", preexec_fn=little_memory)
    first.stdin.write(SENSORS)
    replies(first, b"ok\nok\n")
    os.truncate("other", 0)
    first.stdin.write(b"INSERT (1) INTO n;")
    end(first, status=4)


# Forms


def test_generated_commands_are_summed_up():
    same(run("gen", "image", "1", "4"), b"commands 4 ok 4 rows 0 refused 0\n", "the line")
    same(run("gen", "other", "0001", "000064"), b"commands 64 ok 63 rows 1 refused 0\n", "the line")


def test_a_plan_tells_sectors():
    same(run("plan", "image", "100"), b"sectors needed 5 present 256\n", "the line")
    unchanged("image", NEW_IMAGE)


def test_a_plan_counts_rows_for_named_relations():
    script = SENSORS + b"CREATE INDEX n.v TYPE MAXHEAP;" + b"INSERT (7) INTO n;" * 256
    script += b"CREATE RELATION m; CREATE ATTRIBUTE v DOMAIN INT IN m;"
    same(run("run", "image", "-", script=script), b"ok\n" * 261, "replies")
    image = read("image")
    # rows of 3 bytes in n and m, and n's tree; beside three files 10 sectors more, and 9 gaps
    same(run("plan", "image", "m=5000"), b"sectors needed 89 present 256\n", "rows for m")
    same(run("plan", "image", "5000"), b"sectors needed 661 present 256\n", "rows for each")
    same(run("plan", "image", "m=20000", "n=5000"), b"sectors needed 685 present 256\n", "rows for both")
    for words in (("N=1",), ("m=1", "k=0")):
        same(run("plan", "image", *words), b"no relation\n", "a name that is not there")
    unchanged("image", image)


def test_a_dump_makes_the_same_database():
    script = b"CREATE RELATION n;\nCREATE ATTRIBUTE v DOMAIN INT IN n;\n" + b"INSERT (7) INTO n;\n" * 256
    script += b"CREATE INDEX n.v TYPE MAXHEAP;\n"
    same(run("run", "image", "-", script=script), b"ok\n" * 259, "replies")
    same(run("dump", "image"), script, "the dump")
    run("run", "other", "-", script=run("dump", "image"))
    same(run("dump", "other"), script, "the dump")
    same(run("dump", "erased"), b"", "the dump of an erased image")


def test_a_look_counts_rows_and_pages():
    nothing = b"flash sectors 256 pages free 4096 in files 0 in logs 0 to be collected 0\n"
    same(run("look", "image"), nothing, "a new image")
    unchanged("image", NEW_IMAGE)
    run("run", "image", f"{EXAMPLES}/first.aql")
    first = b"relation readings (minute INT, celsius INT) rows 3 removed 0 slots left 32765\n"
    # CAT has 6 pages, T0 has 16 and the log of CAT has 16
    flash = b"flash sectors 256 pages free 4058 in files 22 in logs 16 to be collected 0\n"
    same(run("look", "image"), first + flash, "rows")
    more = b"CREATE INDEX readings.celsius TYPE MAXHEAP; REMOVE FROM readings WHERE minute = 10;"
    run("run", "image", "-", script=more)
    rows = b"relation readings (minute INT, celsius INT) rows 2 removed 1 slots left 32765\n"
    # and X0 has 16, and so has the log of T0
    flash = b"flash sectors 256 pages free 4026 in files 38 in logs 32 to be collected 0\n"
    same(run("look", "image"), rows + b"index readings.celsius MAXHEAP\n" + flash, "a removed row and an index")
    more = b"CREATE INDEX readings.minute TYPE INLINE; REMOVE INDEX readings.celsius;"
    # in a copy without hash tables there is no index of the third kind
    if hash_tables() == 0:
        return
    run("run", "image", "-", script=more + b"CREATE INDEX readings.celsius TYPE MEMHASH;")
    indexes = b"index readings.celsius MEMHASH\nindex readings.minute INLINE\n"
    # X0 is obsolete
    flash = b"flash sectors 256 pages free 4026 in files 22 in logs 32 to be collected 16\n"
    image = read("image")
    same(run("look", "image"), rows + indexes + flash, "indexes in the order of their slots")
    unchanged("image", image)


def test_a_look_spells_schemas():
    domains = b"CREATE ATTRIBUTE l DOMAIN LONG IN m; CREATE ATTRIBUTE t DOMAIN TIME IN m;"
    domains += b"CREATE ATTRIBUTE s DOMAIN STRING(12) IN m;"
    run("run", "image", "-", script=b"CREATE RELATION e; CREATE RELATION m;" + domains)
    none = b"rows 0 removed 0 slots left 32768\n"
    lines = b"relation e () " + none + b"relation m (l LONG, t TIME, s STRING(12)) " + none
    # CAT and its log, T0 and T1
    flash = b"flash sectors 256 pages free 4042 in files 38 in logs 16 to be collected 0\n"
    same(run("look", "image"), lines + flash, "the lines")


def test_a_look_refuses_what_is_not_sound():
    image = b"\1" + NEW_IMAGE[1:]
    write("image", image)
    same(run("look", "image", status=6), b"no image 1 0\n", "output")
    unchanged("image", image)
