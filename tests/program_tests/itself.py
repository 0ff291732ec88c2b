"""These tests themselves."""
import shutil
import subprocess

from .common import NOT_BUILT, ROOT, same
from .clones import BUILT, asked, launch, repository


def test_a_comparison_that_fails_marks_what_differs():
    wanted = b"ok\n" * 1000 + b"rows 12\nok\n"
    try:
        same(b"ok\n" * 1000 + b"rows 13\nok\n", wanted, "replies")
    except AssertionError as why:
        lines = [it.strip() for it in str(why).splitlines()]
    same(lines[0], "replies: from line 1001 on, - wanted and + come:", "the first line")
    same(lines[1:5], [r"- b'rows 12\n'", "?         ^", r"+ b'rows 13\n'", "?         ^"], "the marks")


def test_a_name_of_no_test_is_an_error():
    ended = subprocess.run([f"{ROOT}/tests/program", "nosuchtest"], stdout=subprocess.PIPE, stderr=subprocess.PIPE)
    same((ended.returncode, ended.stdout), (1, b"there is no test nosuchtest\n0 passed, 1 failed\n"), "its end")


def test_a_build_is_not_begun_without_a_line():
    path = repository()
    shutil.copytree(f"{ROOT}/tests/program_tests", "repo/tests/program_tests")
    for name in ("program", "surroundings.py", "random_scripts.py"):
        shutil.copy(f"{ROOT}/tests/{name}", f"repo/tests/{name}")
    output, said, status = launch("repo/tests/program", "a_comparison_that_fails_marks_what_differs", path=path)
    same((output.splitlines()[0], status), (NOT_BUILT, 0), "its first line and its status")
    same(asked(), BUILT, "what was built")


def test_a_name_of_no_row_of_the_bench_is_an_error():
    ended = subprocess.run([f"{ROOT}/bench/run", "nosuchrow"], stdout=subprocess.PIPE, stderr=subprocess.PIPE)
    said = b"there is no nosuchrow; the names are inserts, " in ended.stderr
    same((ended.returncode, ended.stdout, said), (1, b"", True), "its end")


def test_a_name_of_no_life_of_the_bench_is_an_error():
    ended = subprocess.run([f"{ROOT}/bench/life", "nosuchlife"], stdout=subprocess.PIPE, stderr=subprocess.PIPE)
    said = b"there is no nosuchlife; the lives are days-3-11, " in ended.stderr
    same((ended.returncode, ended.stdout, said), (1, b"", True), "its end")


def test_a_seed_of_the_bench_that_is_no_number_is_an_error():
    ended = subprocess.run([f"{ROOT}/bench/cuts", "nosuchseed"], stdout=subprocess.PIPE, stderr=subprocess.PIPE)
    same((ended.returncode, ended.stdout, b"nosuchseed" in ended.stderr), (2, b"", True), "its end")
