"""A copy of the sources with fewer hash tables, which is compiled without its proofs."""
import os
import subprocess

from .common import EXAMPLES, ROOT, SENSORS, Skipped, hash_tables, read, run, same

KEYS = b"INSERT (3) INTO n; INSERT (1) INTO n;"
INDEX = b"CREATE INDEX n.v TYPE MEMHASH;"


def copied(tables):
    """A launcher in a copy of the sources with this many hash tables."""
    if hash_tables() < 2:
        raise Skipped("these sources are such a copy")
    how = {"stdin": subprocess.DEVNULL, "stdout": subprocess.PIPE, "stderr": subprocess.STDOUT}
    same(subprocess.run([f"{ROOT}/port/tables", tables, "copy"], **how).stdout, b"", "what the copying says")
    compiled = subprocess.run(["copy/antelope", "try", "run", "made", os.devnull], **how)
    same(compiled.returncode, 0, f"the status of a try in the copy, which said {compiled.stdout!r}")
    return "copy/crates/antelope_cli/out/unproved/antelope_cli"


def answered(program, image, script, status=0):
    """What the program of a copy answers."""
    ended = subprocess.run([program, "run", image, "-"], input=script, stdout=subprocess.PIPE)
    same(ended.returncode, status, f"the status of {script!r}")
    return ended.stdout


def test_a_copy_without_hash_tables_differs_by_them_alone():
    program = copied("0")
    for script in sorted(it for it in os.listdir(EXAMPLES) if it.endswith(".aql")):
        replies = run("run", "image", f"{EXAMPLES}/{script}")
        other = subprocess.run([program, "run", "other", f"{EXAMPLES}/{script}"], check=True, stdout=subprocess.PIPE)
        same(other.stdout, replies, f"the replies to {script}")
        same(read("other") == read("image"), True, f"that the images of {script} are the same")
        os.remove("image")
        os.remove("other")
    made = SENSORS + KEYS
    same(answered(program, "image", made + INDEX), b"ok\n" * 4 + b"no full hashtables 0\n", "the replies")
    queries = b"SELECT v FROM n WHERE v = 3;"
    same(answered(program, "image", queries), b"3\nrows 1\n", "a query")
    # an image with a hash table, which only other sources make
    run("run", "image", "-", script=INDEX)
    same(answered(program, "image", queries, status=6), b"no image 17 0\n", "an image with a hash table")
    run("run", "image", "-", script=b"REMOVE INDEX n.v;")
    same(answered(program, "image", queries), b"3\nrows 1\n", "the image without it")


test_a_copy_without_hash_tables_differs_by_them_alone.seconds = 1200


def test_a_copy_is_asked_for_with_its_tables_and_a_new_folder():
    os.mkdir("there")
    usage = b"usage: port/tables 0|1 FOLDER\n"
    for words, said in (
        ((), usage),
        (("2", "copy"), usage),
        (("0",), usage),
        (("0", "there"), b"tables: there is something at there already\n"),
        (("0", f"{ROOT}/copy"), f"tables: {ROOT}/copy is inside these sources\n".encode()),
    ):
        how = {"stdin": subprocess.DEVNULL, "stdout": subprocess.PIPE, "stderr": subprocess.PIPE}
        ended = subprocess.run([f"{ROOT}/port/tables", *words], **how)
        same((ended.returncode, ended.stdout, ended.stderr), (1, b"", said), f"tables {words}")
    same(sorted(os.listdir(".")), ["there"], "the folder")
