"""The launcher: forms and arguments, what it builds and when, and `try`."""
import os
import re
import shutil
import signal
import subprocess
import time

from .common import NO_FORM, ROOT, RUN, files, read, run, same, tried, write
from .clones import (
    BUILT, asked, begin_launch, built, copy_launcher, launch, lines_of, made, repository, rows_of,
    without_rights,
)


def test_the_launcher_runs_the_program_here():
    os.symlink(tried.launcher, "link")
    first, second = (launch(at, "run", "image", "-", input=b"CREATE RELATION n;") for at in (tried.launcher, "./link"))
    same(first, ("ok\n", lines_of(made("image")), 0), "the first run")
    same(second, ("no exists\n", "", 0), "the second run")
    same(launch(tried.launcher, "run", "image", "-", input=b"SELECT v FROM n;"), ("no attribute 1\n", "", 0), "its output")
    write("script", b"SELECT v FROM n")
    same(launch(tried.launcher, "run", "image", "script"), ("no unfinished\n", "", 0), "a script from a file")
    files("image", "link", "script")


def test_forms_that_write_say_that_they_made_their_image():
    for words in ("run a -", "serve b -", "gen c 1 4"):
        image = words.split()[1]
        same(launch(tried.launcher, *words.split())[1:], (lines_of(made(image)), 0), words)
        same(launch(tried.launcher, *words.split())[1:], ("", 0), f"{words}, again")


def test_forms_that_only_read_make_no_image():
    for words in ("plan typo 0", "plan typo n=1", "dump typo", "look typo", "check typo", "repair typo", "collect typo", "ask typo SELECT"):
        same(launch(tried.launcher, *words.split()), ("", lines_of("there is no typo"), 7), words)
    files()
    run("run", "image", "-")
    for words in ("plan image 0", "dump image", "look image", "check image"):
        same(launch(tried.launcher, *words.split())[1:], ("", 0), words)


# wrong arguments, what is wrong with them, and the command that was meant
WRONG = (
    ("run", "IMAGE is missing", "run IMAGE SCRIPT"),
    ("run image", "SCRIPT is missing", "run IMAGE SCRIPT"),
    ("run image - x", "'x' is one argument too many", "run IMAGE SCRIPT"),
    ("serve image", "INPUT is missing", "serve IMAGE INPUT"),
    ("check image -", "'-' is one argument too many", "check IMAGE"),
    ("repair image -", "'-' is one argument too many", "repair IMAGE"),
    ("plan image", "ROWS is missing", "plan IMAGE ROWS"),
    ("plan image 40000", "40000 rows are too many: ROWS is 0 to 32767", "plan IMAGE ROWS"),
    ("plan image 123456789012345678901234567890", "123456789012345678901234567890 rows are too many: ROWS is 0 to 32767",
     "plan IMAGE ROWS"),
    ("plan image 000001", "000001 has more than 5 digits: ROWS is 0 to 32767", "plan IMAGE ROWS"),
    ("plan image many", "ROWS must be a number from 0 to 32767, not 'many'", "plan IMAGE ROWS"),
    ("plan image n=32768", "32768 rows are too many: ROWS is 0 to 32767", "plan IMAGE NAME=ROWS .."),
    ("plan image n=", "ROWS is missing: it is a number from 0 to 32767", "plan IMAGE NAME=ROWS .."),
    ("plan image Int=5", "'Int' cannot be the name of a relation", "plan IMAGE NAME=ROWS .."),
    ("plan image 1n=1", "'1n' cannot be the name of a relation", "plan IMAGE NAME=ROWS .."),
    ("plan image n=1 n=2", "n is named twice", "plan IMAGE NAME=ROWS .."),
    ("plan image n=1 5", "'5' is not NAME=ROWS, such as readings=1000", "plan IMAGE NAME=ROWS .."),
    ("plan image a=1 b=1 c=1 d=1 e=1 f=1 g=1 h=1 i=1", "at most eight relations may be named", "plan IMAGE NAME=ROWS .."),
    ("gen image 1 0", "0 is too small: COUNT is 1 to 100000", "gen IMAGE SEED COUNT"),
    ("gen image 1 100001", "100001 commands are too many: COUNT is 1 to 100000", "gen IMAGE SEED COUNT"),
    ("gen image 1 0000001", "0000001 has more than 6 digits: COUNT is 1 to 100000", "gen IMAGE SEED COUNT"),
    ("gen image 4294967296 1", "4294967296 is too large: SEED is 0 to 4294967295", "gen IMAGE SEED COUNT"),
    ("gen image -1 4", "SEED must be a number from 0 to 4294967295, not '-1'", "gen IMAGE SEED COUNT"),
    ("ask", "IMAGE is missing", "ask IMAGE COMMAND .."),
    ("--csv ask", "IMAGE is missing", "ask IMAGE COMMAND .."),
    ("--csv ask image", "--csv and --header need a COMMAND", "ask IMAGE COMMAND .."),
    ("--header --strict run image -", "--csv and --header work with ask, not with run", "run IMAGE SCRIPT"),
    ("--strict dump image", "--strict works with run, not with dump", "dump IMAGE"),
)


def test_forms_of_the_usage_are_those_of_the_documents():
    usage = launch(tried.launcher, "help")
    same((usage[1:], "For example: " in usage[0]), (("", 0), True), "help")
    same(launch(tried.launcher, "--help"), usage, "--help")
    forms = [it.split("  ")[0] for it in re.findall(r"^    (\w+ [A-Z].*)", usage[0], re.M)]
    forms = [it for it in forms if it.split()[0] not in ("try", "install")]
    same(forms[:2], ["run IMAGE SCRIPT", "ask IMAGE COMMAND .."], "the first forms")
    manual = read(f"{ROOT}/docs/antelope.1").decode()
    shown = [re.sub(r"\\f[BIR]", "", it) for it in re.findall(r"^\.TP\n(\\fB\w+\\fR \\fI[A-Z].*)", manual, re.M)]
    same(shown, forms, "the forms of the manual page")
    same(sorted(row[0].strip("| `") for row in rows_of("README.md", "command")), sorted(forms), "the forms of README.md")
    names = {it.split()[0] for it in forms}
    bash = re.search("forms='(.*?)'", read(f"{ROOT}/docs/completions/antelope.bash").decode())[1].split()
    zsh = re.findall(r"^    '(\w+):", read(f"{ROOT}/docs/completions/_antelope").decode(), re.M)
    same((set(bash), set(zsh) - {"try", "install", "help"}), (names, names), "the forms that are completed")


def test_each_form_is_a_call_of_the_libraries():
    forms = {it.split()[0] for it in re.findall(r"^    (\w+ IMAGE.*)", launch(tried.launcher, "help")[0], re.M)} - {"ask", "gen"}
    declared = r"sorachest_(\w+)\(uint8_t \*image"
    for path, pattern in (
        ("c/sorachest.h", declared), ("crates/sorachest_c/src/lib.rt", r"fn sorachest_(\w+)\(image"),
        ("page/library.mjs", r"#call\('sorachest_(\w+)', image"), ("tests/library_tests/calls.c", r"= sorachest_(\w+)\(image"),
    ):
        same(sorted(re.findall(pattern, read(f"{ROOT}/{path}").decode())), sorted(forms), f"the calls in {path}")
    node = set(re.findall(r"^int sorachest_(\w+)\(struct sorachest \*db, const struct", read(f"{ROOT}/node/sorachest_node.h").decode(), re.M))
    same(sorted(node), sorted(forms - {"run", "serve", "plan"} | {"open"}), "the calls for firmware over a closed database")


def test_what_is_wrong_with_words_of_no_form_is_told():
    path = repository()
    usage = launch("repo/antelope", "help", path=path)[0]
    for words, wrong, form in WRONG:
        said = lines_of(wrong) + f"usage: antelope {form}\nantelope help shows all commands\n"
        same(launch("repo/antelope", *words.split(), path=path), ("", said, 1), words)
    for words, wrong in (
        ("fly image -", "there is no command 'fly'"), ("RUN image -", "there is no command 'RUN'"), ("help run", "there is no command 'help'"),
        ("--fast run", "there is no option --fast"), ("--version x", "there is no option --version"),
    ):
        same(launch("repo/antelope", *words.split(), path=path), ("", lines_of(wrong) + usage, 1), words)
    for words in ((), ("--strict",)):
        same(launch("repo/antelope", *words, path=path), ("", usage, 1), words)
    for words in (*NO_FORM, "gen image  1"):
        output, said, status = launch("repo/antelope", *words.split(" " if "  " in words else None), path=path)
        same((output, "usage: antelope " in said, status), ("", True, 1), words)
    same(asked(), [], "what was built")


def test_words_at_their_limits_are_of_a_form():
    path = built(b'#!/bin/sh\necho "$*"\n')
    for words in ("gen i 0 1", "gen i 4294967295 100000", "gen i 0000000001 000001", "plan i 0", "plan i 32767",
                  "plan i a23456789_12345=1", "plan i a=0 b=32767 c=00001 d=1 e=1 f=1 g=1 TIME=1"):
        same(run(*words.split(), script=b"")[-1:], b"\n", f"the program's line to {words}")
        same(launch("repo/antelope", *words.split(), path=path), (f"{words}\n", "", 0), words)


def test_the_keywords_and_ranges_are_those_of_the_definitions():
    language = read(f"{ROOT}/crates/db_model/specs/Keywords.antt").decode()
    keywords = sorted(re.findall(r'^keyword_text \w+ = codes "(\w+)"$', language, re.M))
    same(len(keywords), 35, "the keywords of the language")
    forms = read(f"{ROOT}/launcher/forms.sh").decode()
    same(sorted(re.search(r"^keywords='([^']*)'", forms, re.M)[1].split()), keywords, "the keywords of the launcher")
    table = read(f"{ROOT}/clients/sorachest/table.py").decode()
    named = re.search(r"^KEYWORDS = \(\n(.*?)\n\)", table, re.M | re.S)[1]
    same(sorted(" ".join(re.findall(r'"([^"]*)"', named)).split()), keywords, "the keywords of the clients")
    words = read(f"{ROOT}/crates/run_words/specs/Words.antt").decode()
    defined = sorted(set(re.findall(r"number_word (\d+ \d+ \d+)", words)))
    same(sorted(set(re.findall(r'is_number "[^"]*" (\d+ \d+ \d+)', forms))), defined, "the ranges of numbers")


def test_the_launcher_tells_its_version():
    version = read(f"{ROOT}/VERSION").decode().strip()
    same(bool(re.fullmatch(r"\d+\.\d+\.\d+", version)), True, f"that {version} is a version")
    ask = ["git", "-C", ROOT, "log", "-1", "--format= (%h of %cs)"]
    known = subprocess.run(ask, stdout=subprocess.PIPE, stderr=subprocess.DEVNULL).stdout.decode().rstrip("\n")
    same(launch(f"{ROOT}/antelope", "--version"), (f"antelope {version}{known}\n", "", 0), "the line in a clone")
    os.mkdir("installed")
    copy_launcher("installed")
    same(launch("installed/antelope", "--version"), (f"antelope {version}\n", "", 0), "the line where it is installed")


def test_the_first_call_tells_what_it_does():
    path = repository()
    output, said, status = launch("repo/antelope", *RUN, path=path, input=b"in\n")
    same((output, status), ("in\nrun image -\n", 0), "its output")
    same(asked(), BUILT, "what was built")
    same("3 crates: about an hour on four processors, two on two" in said, True, f"the time is in {said}")
    told = re.findall(r"^antelope: (\w+) is proved, (\d) of 3, 0 min, about (\d+) min left$", said, re.M)
    same([it[:2] for it in told], [("base", "1"), ("middle", "2"), ("antelope_cli", "3")], "what it said")
    first, second, last = (int(it[2]) for it in told)
    # nothing is measured yet, so three and one of four parts of an hour and more are left
    if not (44 <= first <= 180 and first // 3 - 1 <= second <= first // 3 + 1 and last == 0):
        raise AssertionError(f"minutes left: {first}, {second}, {last}")
    same(launch("repo/antelope", *RUN, path=path), ("run image -\n", "", 0), "the second call")
    same(asked(), [], "what was built by the second call")


def test_a_call_that_was_broken_off_is_gone_on_with():
    path = repository()
    write("repo/fails-middle", b"")
    output, said, status = launch("repo/antelope", *RUN, path=path, input=b"in")
    same((output, status), ("", 125), "its output")
    same("middle was not proved" in said, True, "what failed is named")
    os.remove("repo/fails-middle")
    same(launch("repo/antelope", *RUN, path=path, input=b"in")[::2], ("inrun image -\n", 0), "its output")
    same(asked()[-3:], BUILT, "what was built")


def test_an_old_program_is_never_run():
    path = repository()
    launch("repo/antelope", *RUN, path=path)
    later = time.time() + 1000
    os.utime("repo/crates/base/src/lib.rt", (later, later))
    write("repo/fails-antelope_cli", b"")
    for _ in range(2):
        same(launch("repo/antelope", *RUN, path=path, input=b"in")[::2], ("", 125), "its output")
    os.remove("repo/fails-antelope_cli")
    os.utime("repo/crates/base/src/lib.rt")
    same(launch("repo/antelope", *RUN, path=path, input=b"in")[::2], ("inrun image -\n", 0), "its output")


def test_two_first_calls_build_once():
    path = repository()
    write("repo/slow", b"")
    begun = [begin_launch(path, *RUN) for _ in range(2)]
    came = sorted((it.communicate()[1].decode().count("waits for it"), it.returncode) for it in begun)
    same(came, [(0, 0), (1, 0)], "how many waited, and the statuses")
    same(asked(), BUILT, "what was built")


def test_a_build_that_was_killed_leaves_no_lock():
    path = repository()
    write("repo/slow", b"")
    begun = begin_launch(path, *RUN)
    while not read("repo/slow").strip():
        time.sleep(0.01)
    begun.kill()
    os.kill(int(read("repo/slow")), signal.SIGKILL)
    begun.communicate()
    os.remove("repo/slow")
    same(launch("repo/antelope", *RUN, path=path)[::2], ("run image -\n", 0), "the next call")


def test_a_folder_that_cannot_be_written_ends_with_125():
    path = repository()
    os.mkdir("repo/crates/antelope_cli/out", 0o555)
    where = f"{os.getcwd()}/repo/crates/antelope_cli/out"
    same(launch("repo/antelope", *RUN, path=path, **without_rights()), ("", lines_of(f"{where} cannot be written"), 125), "it")
    same(asked(), [], "what was built")


TRIED = "a try: this program was compiled without its proofs"
COMPILES = "compiling the program without its proofs: less than a minute, once"


def test_a_try_compiles_once_and_builds_nothing():
    path = repository()
    write("script", b"SELECT")
    for words, wanted in (
        ("run image script", "run image script"), ("serve image -", "serve image -"), ("gen image 1 4", "gen image 1 4"),
        ("plan image a=7 b=8", "plan image a=7 b=8"), ("--sync try dump image", "dump image"),
    ):
        write("image", b"")
        options = [] if "try" in words else ["try"]
        output, said, status = launch("repo/antelope", *options, *words.split(), path=path, input=b"")
        same((output, status), (f"{wanted}\n", 0), words)
        same(said, lines_of(COMPILES, TRIED) if words == "run image script" else lines_of(TRIED), f"what {words} said")
    same(asked(), ["unproved"], "what was built")
    same(launch("repo/antelope", "try", *RUN, path=path, input=b"in\n")[0], "in\nrun image -\n", "its input")


def test_a_try_of_a_script_keeps_no_image():
    path = repository(b'#!/bin/sh\ncat "$3"\ntouch "$2" && echo "${2##*/}"\n')
    write("script", b"SELECT\n")
    for word, content in (("script", b""), ("-", b"SELECT\n")):
        output, said, status = launch("repo/antelope", "try", word, path=path, input=content)
        same((output, status), ("SELECT\nimage\n", 0), f"its output from {word}")
        same(lines_of(f"{TRIED}, and its image is not kept") in said, True, f"what it said: {said}")
    files("bin", "image", "repo", "script")


def test_a_try_of_no_form_ends_with_125():
    path = repository()
    write("script", b"SELECT")
    for words, wrong in (
        ([], "try takes a command, or one argument: a script file, or -"),
        (["no such file"], "'no such file' is neither a command nor a readable script"),
        (["script", "script"], "there is no command 'script'"),
        (["gen", "image", "1", "0"], "0 is too small: COUNT is 1 to 100000"),
    ):
        output, said, status = launch("repo/antelope", "try", *words, path=path)
        same((output, said.splitlines()[0], status), ("", f"antelope: {wrong}", 125), f"{words}")
    same(asked(), [], "what was built")


def test_a_try_that_cannot_be_compiled_ends_with_125():
    path = repository()
    write("repo/fails-unproved", b"")
    said = lines_of(COMPILES) + "an error in a source\n" + lines_of("the program was not compiled")
    same(launch("repo/antelope", "try", *RUN, path=path), ("", said, 125), "its end")
    os.remove("repo/fails-unproved")
    same(launch("repo/antelope", "try", *RUN, path=path)[::2], ("run image -\n", 0), "the next one")
    later = time.time() + 1000
    os.utime("repo/crates/base/src/lib.rt", (later, later))
    same(COMPILES in launch("repo/antelope", "try", *RUN, path=path)[1], True, "that a changed source is compiled anew")


def test_two_tries_compile_once():
    path = repository()
    write("repo/slow-unproved", b"")
    begun = [begin_launch(path, "try", *RUN) for _ in range(2)]
    came = sorted((it.communicate()[1].decode().count("waits for it"), it.returncode) for it in begun)
    same(came, [(0, 0), (1, 0)], "how many waited, and the statuses")
    same(asked(), ["unproved"], "what was compiled")


def test_without_a_path_the_launcher_says_so():
    shell = shutil.which("sh")
    ended = subprocess.run([shell, f"{ROOT}/antelope", *RUN], env={"PATH": ""}, stdout=subprocess.PIPE, stderr=subprocess.PIPE)
    said = lines_of("there is no readlink and dirname on the path")
    same((ended.stdout, ended.stderr.decode(), ended.returncode), (b"", said, 125), "its end")


def test_without_rt_the_launcher_says_so():
    repository()
    os.remove("bin/rt")
    tools = [shutil.which(it) for it in ("sh", "readlink", "dirname", "date", "find", "mkdir", "rm", "uname")]
    for it in tools:
        os.symlink(it, f"bin/{os.path.basename(it)}")
    for words in (RUN, ("try", *RUN)):
        output, said, status = launch("repo/antelope", *words, path=f"{os.getcwd()}/bin")
        same((output, status), ("", 125), "its output")
        same("there is no rt on the path" in said, True, "what it said")
