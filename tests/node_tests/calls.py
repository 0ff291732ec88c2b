"""Each call and each misuse, as sessions.c has them, and random calls, as fuzz.c makes them."""
import re

from library_tests.common import ended, needs, same
from node_tests.common import NODE, compiled

WATCH = ["valgrind", "--quiet", "--error-exitcode=99", "--leak-check=full"]
# under a watch its turns take minutes
LONG = "a_session_outlives_the_input_of_a_run"


def tried(way, before=(), without=()):
    """Carries out the tests of sessions.c one by one."""
    made = compiled("sessions", way)
    names = ended([made, "names"])[1].decode().split()
    same(len(names) >= 16, True, f"that {len(names)} tests are all")
    failed = {it: done for it in names if it not in without and (done := ended([*before, made, it])) != (0, b"", "")}
    same(failed, {}, "what failed")


def test_calls_answer_what_the_header_says():
    tried("plain")


def test_calls_answer_so_under_sanitizers():
    tried("sanitized")


def test_calls_answer_so_where_each_access_is_watched():
    tried("watched", WATCH, [LONG, "what_was_answered_is_there_after_a_failure"])


def test_a_thread_does_in_place_of_a_switched_stack():
    tried("threads")


def test_such_a_thread_races_with_nobody():
    tried("races", without=[LONG])


def fuzzed(way, seeds, many, before=()):
    made = compiled("fuzz", way)
    for seed in seeds:
        status, told, said = ended([*before, made, str(seed), str(many)])
        same((status, said), (0, ""), f"the end of the calls of seed {seed}, which told {told.decode()}")
        failures, repairs = re.search(rb"(\d+) failures, (\d+) repairs", told).groups()
        same(int(failures) > many // 200 and int(repairs) > many // 1000, True, f"that {told} are many")


def test_random_calls():
    fuzzed("plain", range(1, 11), 20_000)


def test_random_calls_under_sanitizers():
    fuzzed("sanitized", range(11, 16), 10_000)


def test_random_calls_over_a_thread():
    fuzzed("threads", range(16, 18), 2_000)


def test_random_calls_where_each_access_is_watched():
    fuzzed("watched", [18], 1_000, WATCH)


def test_the_header_is_one_of_c_and_of_cpp():
    needs("cc", "c++")
    for compiler, language in (("cc", "-std=c99"), ("cc", "-std=c17"), ("c++", "-std=c++11"), ("c++", "-std=c++20")):
        kind = "c++" if compiler == "c++" else "c"
        words = [compiler, language, "-Wall", "-Wextra", "-Wpedantic", "-Werror", "-fsyntax-only", "-x", kind]
        done = ended([*words, f"{NODE}/sorachest_node.h"])
        same(done[0], 0, f"the status of {compiler} {language}, which said {done[2]}")
