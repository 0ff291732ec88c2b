"""Tests of the tools: commands by hand, how they end, and CSV."""
import contextlib
import os
import pty
import re
import signal
import subprocess
import sys
import tty

import antelope
import antelope_csv
from client_tests.common import (
    CLIENTS, EXAMPLES, PROGRAM, ROOT, SENSORS, Skipped, made, on_a_pty, program, read, same, station, tool, write,
)
from client_tests.lines import answered_by, framed

# The command line


def test_commands_are_asked_by_hand():
    where = station()
    commands = ("SELECT k FROM s;", "INSERT (9, 'x') INTO s", "REMOVE FROM s", "SELECT MAX(k) FROM s")
    same(tool("antelope", "ask", where, *commands)[0], "5\n-1\n7\nrows 3\nok\nrows 4\n-\nrows 1\n", "the replies")
    wrote, _ = tool("antelope", "ask", where, "PACK u", "PACK s", status=1)
    same(wrote, "no relation\nok\n", "replies with a refusal")


def test_each_tool_says_what_it_does():
    forms = ("", " hub", " ask"), ("", " in", " out")
    tools = [f"antelope{it}" for it in forms[0]] + [f"antelope_csv{it}" for it in forms[1]] + ["plot", "reader", "ship"]
    for words in map(str.split, tools):
        same(tool(*words, "--help")[0].startswith("usage: "), True, f"help of {words}")
        tool(*words, status=2)
    begun = tool_at(f"{EXAMPLES}/client.py", "--help", stdout=subprocess.PIPE)
    same((begun.communicate()[0][:7], begun.returncode), (b"usage: ", 0), "help of the example")


def test_each_command_of_the_package_is_there():
    commands = dict(re.findall(r'^(sorachest-\w+) = "([\w.:]+)"$', read(f"{CLIENTS}/pyproject.toml").decode(), re.M))
    same({f"sorachest-{it}" for it in ("csv", "hub", "plot", "reader", "ship")} <= set(commands), True, f"{commands}")
    for command, call in commands.items():
        module, _, name = call.partition(":")
        code = f"import sys; sys.path.insert(0, {CLIENTS!r}); import {module} as it; sys.exit(it.{name}())"
        words = [sys.executable, "-B", "-c", code, "--help"]
        ended = subprocess.run(words, stdout=subprocess.PIPE)
        same((ended.returncode, ended.stdout[:6]), (0, b"usage:"), f"the help of {command}")
    words = [sys.executable, "-B", "-m", "sorachest", "ask", "--help"]
    same(subprocess.run(words, cwd=CLIENTS, stdout=subprocess.PIPE).returncode, 0, "the help of the module")


def test_pip_installs_the_package_without_a_network():
    if subprocess.run([sys.executable, "-m", "pip", "--version"], stdout=subprocess.DEVNULL, stderr=subprocess.DEVNULL).returncode:
        raise Skipped("this Python has no pip")
    environment = {**os.environ, "PYTHONDONTWRITEBYTECODE": "1", "PYTHONPATH": os.path.abspath("installed")}
    words = [sys.executable, "-m", "pip", "install", "--quiet", "--no-index", "--no-deps", "--target", "installed", CLIENTS]
    same(subprocess.run(words, env=environment, stderr=subprocess.DEVNULL).returncode, 0, "the status of pip")
    code = "import sorachest; print(sorachest.__version__, sorachest.__file__)"
    imported = subprocess.run([sys.executable, "-c", code], env=environment, stdout=subprocess.PIPE).stdout.decode()
    version = read(f"{ROOT}/VERSION").decode().strip()
    same(imported, f"{version} {os.path.abspath('installed/sorachest/__init__.py')}\n", "what is imported")
    wrote = subprocess.run(["installed/bin/sorachest-csv", "--help"], env=environment, stdout=subprocess.PIPE).stdout
    same(wrote[:20], b"usage: sorachest-csv", "the help of a command")


def test_the_words_of_the_language_are_those_of_its_page():
    page = read(f"{ROOT}/docs/AQL.md").decode()
    refusals = set(re.findall(r"^\| `no ([a-z]+)", page, re.M)) - {"frame", "unfinished"}
    same(sorted(antelope.REFUSALS), sorted(refusals), "the refusals that have an exception")
    keywords = re.search(r"are\s+keywords: ([A-Z\s]+)\.", page)[1].split()
    same(sorted(antelope_csv.KEYWORDS), sorted(keywords), "the keywords, which are no names")


# How tools end


def tool_at(path, *words, **how):
    """A tool that was begun, with standard error in a pipe. Its output waits in a buffer, as it does for users."""
    environment = {it: text for it, text in os.environ.items() if it != "PYTHONUNBUFFERED"}
    command = [sys.executable, "-B", path, *words]
    return subprocess.Popen(command, env=environment, stdin=subprocess.DEVNULL, stderr=subprocess.PIPE, **how)


def tools_that_write():
    """The tools with words for which they write something."""
    where, query = station(), "SELECT k, k FROM s"
    yield f"{CLIENTS}/antelope.py", "ask", where, query
    yield f"{CLIENTS}/antelope_csv.py", "out", where, query
    write("rows.csv", "k\n1\n")
    yield f"{CLIENTS}/antelope_csv.py", "in", "rows.csv", "s"
    yield f"{CLIENTS}/plot.py", where, query
    yield f"{CLIENTS}/reader.py", "image"
    yield f"{CLIENTS}/reader.py", "image", "--csv", "s"
    yield f"{ROOT}/docs/picture", "image"


def test_output_that_cannot_be_written_is_told():
    for path, *words in tools_that_write():
        name = os.path.basename(path)
        with open("/dev/full", "wb") as full:
            begun = tool_at(path, *words, stdout=full)
        said = begun.communicate()[1].decode()
        same((begun.returncode, said.count("\n"), said[:len(name)]), (1, 1, name), f"the end of {name}: {said}")
        same("No space left" in said, True, f"what {name} said: {said}")
        begun = tool_at(path, *words, preexec_fn=lambda: os.close(1))
        said = begun.communicate()[1].decode()
        same((begun.returncode, said.count("\n"), said[:len(name)]), (1, 1, name), f"{name} without output: {said}")


def test_a_tool_whose_output_nobody_reads_ends_without_a_word():
    for path, *words in tools_that_write():
        reader, writer = os.pipe()
        os.close(reader)
        begun = tool_at(path, *words, stdout=writer)
        os.close(writer)
        same((begun.communicate()[1], begun.returncode), (b"", -signal.SIGPIPE), f"the end of {path} {words}")
    # a cursor that was open is closed
    with on_a_pty() as line:
        begun = tool_at(f"{CLIENTS}/antelope_csv.py", "out", line, "SELECT k FROM s", stdout=subprocess.PIPE)
        begun.stdout.close()
        begun.communicate()
        with contextlib.closing(antelope.connect(line, client=2)) as other:
            same(other.cursor().execute("REMOVE FROM s").rowcount, 3, "rows that were removed")


def test_an_interrupted_tool_ends_without_a_word():
    near, far = pty.openpty()
    tty.setraw(far)
    for path, *words in (
        (f"{CLIENTS}/antelope.py", "ask", os.ttyname(far), "PACK s"),
        (f"{CLIENTS}/antelope.py", "hub", os.ttyname(far), "hub"),
        (f"{CLIENTS}/plot.py", os.ttyname(far), "SELECT k, k FROM s"),
    ):
        begun = tool_at(path, *words, stdout=subprocess.PIPE)
        # it waits now for a reply that does not come
        os.read(near, 4096)
        begun.send_signal(signal.SIGINT)
        same((*begun.communicate(), begun.returncode), (b"", b"", -signal.SIGINT), f"the end of {path} {words}")
    os.close(near)
    os.close(far)
    same(os.listdir("."), [], "the files")


def test_replies_to_commands_by_hand_come_at_once():
    with answered_by(framed(b"ok\n", b"ok\n", None)) as path:
        words = ("ask", path, "PACK s", "PACK s", "--timeout", "300")
        begun = tool_at(f"{CLIENTS}/antelope.py", *words, stdout=subprocess.PIPE)
        same(begun.stdout.readline(), b"ok\n", "the first reply")
        begun.kill()
        begun.communicate()


# CSV


def test_rows_go_out_as_csv():
    where = station()
    same(tool("antelope_csv", "out", where, "SELECT t, k FROM s")[0], 't,k\nabc,5\n,-1\n"it?,-",7\n', "the CSV")
    query = "SELECT MIN(k), COUNT(t) FROM s WHERE k > 9"
    same(tool("antelope_csv", "out", where, query)[0], "MIN(k),COUNT(t)\n,0\n", "aggregates")
    same(tool("antelope_csv", "out", where, "SELECT k FROM s WHERE k > 9")[0], "k\n", "no rows")
    tool("antelope_csv", "out", where, "SELECT x FROM s", status=1)


def test_csv_comes_in_as_commands():
    write("rows.csv", "\ufeffk,t\r\n5,abc\r\n\r\n-1,\r\n7,\"it?,-\"\r\n")
    rows = "INSERT (5, 'abc') INTO s;\nINSERT (-1, '') INTO s;\nINSERT (7, 'it?,-') INTO s;\n"
    same(tool("antelope_csv", "in", "rows.csv", "s")[0], rows, "the script")
    made = "CREATE RELATION s;\nCREATE ATTRIBUTE k DOMAIN LONG IN s;\nCREATE ATTRIBUTE t DOMAIN STRING(5) IN s;\n"
    words = ("in", "rows.csv", "s", "--create", "--domains", "long, STRING(5)")
    same(tool("antelope_csv", *words)[0], made + rows, "the script with its relation")
    write("digits.csv", "k;t;u\n5;0077;77\n0;0;-1\n")
    words = ("in", "digits.csv", "s", "--delimiter", ";")
    guessed = "INSERT (5, '0077', 77) INTO s;\nINSERT (0, '0', -1) INTO s;\n"
    same(tool("antelope_csv", *words)[0], guessed, "what is guessed")
    told = "INSERT ('5', 77, 77) INTO s;\nINSERT ('0', 0, -1) INTO s;\n"
    same(tool("antelope_csv", *words, "--domains", "STRING(4),INT,LONG")[0], told, "what is told")
    write("names.csv", "k,t\n")
    same(tool("antelope_csv", "in", "names.csv", "s")[0], "", "no rows")


def test_csv_that_aql_cannot_write_is_refused():
    for text, domains, says in (
        ("k,t\n1,a\n2,it's\n", "", "line 3: "),
        ("k,t\n1,K\u00fcche\n", "", "line 2: "),
        ("k,t\n1," + "a" * 33 + "\n", "", "line 2: "),
        ("k,t\n1\n", "", "line 2: 1 values for 2 columns"),
        ("k,t\n32768,a\n", "INT,STRING(1)", "line 2: '32768' is not a number from -32768 to 32767"),
        ("k,t\n-1,a\n", "TIME,STRING(1)", "line 2: "),
        ("k,t\n1.5,a\n", "INT,STRING(1)", "line 2: "),
        ("k,t\n,a\n", "LONG,STRING(1)", "line 2: "),
        ("k,t\n1,ab\n", "INT,STRING(1)", "line 2: 'ab' has more than 1 characters"),
        ("k,t\n1,a\n", "INT", "1 domains for 2 columns"),
        ("k,t\n1,a\n", "INT,TEXT", "'TEXT' is not a domain"),
        ("k,t\n1,a\n", "INT,STRING(33)", "'STRING(33)' is not a domain"),
        ("k,t\n1,\n", "INT,STRING(0)", "'STRING(0)' is not a domain"),
        ("a,b,c,d,e,f,g,h,i\n1,2,3,4,5,6,7,8,9\n", "", "9 columns, and a relation at most 8"),
        ("", "", "no line with names"),
    ):
        write("rows.csv", text)
        words = ("--domains", domains) if domains else ()
        wrote, said = tool("antelope_csv", "in", "rows.csv", "s", *words, status=1)
        same((wrote, says in said), ("", True), f"{text!r}: {said}")
    for names, says in (
        ("k t,v", "'k t' is not a name in AQL"),
        ("v,Min", "'Min' is not a name in AQL"),
        (f"v,{'k' * 16}", "is not a name in AQL"),
        ("v,v", "two columns are called v"),
    ):
        write("rows.csv", f"{names}\n1,2\n")
        wrote, said = tool("antelope_csv", "in", "rows.csv", "s", "--create", "--domains", "INT,INT", status=1)
        same((wrote, says in said), ("", True), f"{names}: {said}")
        same(tool("antelope_csv", "in", "rows.csv", "s")[0], "INSERT (1, 2) INTO s;\n", f"rows without {names}")
    for relation in ("", "s; PACK s", "index", "1s", "s" * 16):
        wrote, said = tool("antelope_csv", "in", "rows.csv", relation, status=1)
        same((wrote, "is not a name in AQL" in said), ("", True), f"{relation!r}: {said}")
    for delimiter in ("", "ab", '"', "\n"):
        said = tool("antelope_csv", "in", "rows.csv", "s", "--delimiter", delimiter, status=2)[1]
        same("is not a character that can separate values" in said, True, f"{delimiter!r}: {said}")
    tool("antelope_csv", "in", "none.csv", "s", status=1)


def script_of(csv, *words):
    """The script that a CSV comes to, a line each."""
    write("rows.csv", csv)
    return tool("antelope_csv", "in", "rows.csv", "s", *words)[0].splitlines()


FIELD = "at,celsius,door\n2026-01-01 00:10,21.5,open\n2026-01-01T00:20:00+02:00,-3,\n2026-01-01,,shut\n"
# minutes from 2026-01-01 00:00 of UTC: 10, 20 less 2 hours, 0
FIELD_TIMES = [20454 * 86400000 + it * 60000 for it in (10, 20 - 120, 0)]


def test_csv_of_the_field_comes_in():
    first, second, third = FIELD_TIMES
    created = [
        "CREATE RELATION s;", "CREATE ATTRIBUTE at DOMAIN TIME IN s;", "CREATE ATTRIBUTE celsius DOMAIN INT IN s;",
        "CREATE ATTRIBUTE door DOMAIN STRING(4) IN s;",
    ]
    rows = [f"INSERT ({first}, 215, 'open') INTO s;", f"INSERT ({second}, -30, '') INTO s;"]
    blank = f"INSERT ({third}, -99, 'shut') INTO s;"
    same(script_of(FIELD, "--scale", "10", "--blank", "skip", "--create"), created + rows, "a row that is left out")
    words = ("--scale", "celsius=10", "--blank", "celsius=-99")
    same(script_of(FIELD, *words), [*rows, blank], "a blank that is a number")
    told = script_of(FIELD, *words, "--domains", "TIME, LONG, STRING(5)")
    same(told, [*rows, blank], "the same where the domains are told")
    pointed = FIELD.replace(",", ";").replace("21.5", "21,5")
    words = ("--delimiter", ";", "--point", ",", "--scale", "10", "--blank", "-99")
    same(script_of(pointed, *words), [*rows, blank], "a comma in a decimal")
    write("rows.csv", FIELD)
    for words, says in (
        ((), "line 2: '21.5' times 1 is not a whole number: use --scale celsius=10"),
        (("--scale", "10"), "line 4: celsius is blank"),
        (("--scale", "100", "--domains", "TIME,INT,STRING(3)"), "line 2: 'open' has more than 3 characters"),
        (("--scale", "2000", "--domains", "TIME,INT,STRING(4)"), "line 2: '21.5' makes 43000, which is not a number from"),
        (("--scale", "minute=10"), "there is no column minute"),
        (("--scale", "0"), "a scale is at least 1"),
        (("--blank", "none"), "'none' is not a whole number"),
    ):
        said = tool("antelope_csv", "in", "rows.csv", "s", *words, status=1)[1]
        same(says in said, True, f"{words}: {said}")


def test_times_of_a_csv_are_milliseconds():
    day = 20454 * 86400000
    for text, milliseconds in (
        ("2026-01-01", day),
        ("2026-01-01 01:02", day + 3720000),
        ("2026-01-01T01:02:03", day + 3723000),
        ("2026-01-01 01:02:03.5Z", day + 3723500),
        ("2026-01-01 01:02:03.045000 +00:30", day + 3723045 - 1800000),
        ("2026-01-01T01:02:03,004-0100", day + 3723004 + 3600000),
        ("1970-01-01 00:00", 0),
        ("2024-02-29", 19782 * 86400000),
    ):
        same(script_of(f'at\n"{text}"\n'), [f"INSERT ({milliseconds}) INTO s;"], text)
    for text, says in (
        ("2025-02-29", "is not a time"),
        ("2026-01-01 24:00", "is not a time"),
        ("1969-12-31", "is not a number from 0"),
        ("2026-01-01 01:02:03.0005", "fractions of a millisecond"),
        ("yesterday", "is not a number from 0"),
    ):
        write("rows.csv", f"at\n{text}\n")
        said = tool("antelope_csv", "in", "rows.csv", "s", "--domains", "TIME", status=1)[1]
        same(f"line 2: '{text}'" in said and says in said, True, said)


def test_domains_are_guessed_as_narrow_as_the_cells_allow():
    for cells, domain in (
        (("-32768", "32767"), "INT"),
        (("0", "32768"), "LONG"),
        (("-2147483648",), "LONG"),
        (("2147483648",), "TIME"),
        (("140737488355328",), "STRING(15)"),
        (("2147483648", "-1"), "STRING(10)"),
        (("007", "8"), "STRING(3)"),
        (("", ""), "STRING(1)"),
        (("5", ""), "INT"),
        (("2026-01-01", "5"), "STRING(10)"),
    ):
        write("rows.csv", "v,w\n" + "".join(f"{it},x\n" for it in cells))
        wrote, _ = tool("antelope_csv", "in", "rows.csv", "s", "--dry-run", "--blank", "0")
        same(wrote.splitlines()[0].partition(",")[0], f"v: {domain} (guessed)", f"what is guessed of {cells}")


def test_a_dry_run_tells_what_is_in_the_way_and_does_nothing():
    write("rows.csv", FIELD)
    with on_a_pty() as path:
        words = ("in", "rows.csv", "s", "--scale", "10", "--create", "--dry-run")
        wrote, _ = tool("antelope_csv", *words, "--line", path, status=1)
        lines = [
            "at: TIME (guessed)", "celsius: INT (guessed), times 10, 1 blank", "door: STRING(4) (guessed), 1 blank",
            "line 4: celsius is blank: use --blank VALUE or --blank skip",
            # two INSERTs of 44 and 40 bytes with their line ends
            "2 rows of 3 fit, 84 bytes of INSERTs",
        ]
        same(wrote.splitlines(), lines, "what it said")
    same(program("dump", "image"), program("dump", made_image()), "the station")
    wrote, _ = tool("antelope_csv", *words, "--parts", "part", "--blank", "7")
    same(wrote.splitlines()[-1], "3 rows of 3 fit, 126 bytes of INSERTs", "what it said of all")
    same(os.path.exists("part-001.aql"), False, "a part")


def made_image():
    made("other", SENSORS)
    return "other"


def test_times_go_out_as_iso_times():
    where = station("CREATE RELATION s; CREATE ATTRIBUTE at DOMAIN TIME IN s; INSERT (1767225600500) INTO s;")
    wrote, _ = tool("antelope_csv", "out", where, "SELECT at, at FROM s", "--times", "at")
    same(wrote, "at,at\n" + ",".join(["2026-01-01 00:00:00.500000+00:00"] * 2) + "\n", "the CSV")
    same(script_of(wrote), ["INSERT (1767225600500, 1767225600500) INTO s;"], "and in again")


def test_a_script_of_a_csv_comes_in_parts():
    write("rows.csv", "k\n" + "".join(f"{it}\n" for it in range(1000)))
    tool("antelope_csv", "in", "rows.csv", "s", "--parts", "part", "--most", "5000")
    parts = sorted(it for it in os.listdir(".") if it.endswith(".aql"))
    same(parts[0], "part-001.aql", "the first name")
    sizes = [len(read(it)) for it in parts]
    same((max(sizes) <= 5000, min(sizes[:-1]) > 4950), (True, True), f"sizes {sizes}")
    wanted = "".join(f"INSERT ({it}) INTO s;\n" for it in range(1000))
    same(b"".join(read(it) for it in parts).decode() == wanted, True, "the parts together")
    tool("antelope_csv", "in", "rows.csv", "s", "--most", "5000", status=1)


def test_csv_out_and_in_again_is_the_same_database():
    made("image", read(f"{EXAMPLES}/station.aql").decode())
    query = "SELECT at, celsius, humidity, sky FROM day"
    write("day.csv", tool("antelope_csv", "out", f"run:{PROGRAM} serve image -", query)[0])
    write("image.csv", tool("reader", "image", "--csv", "day")[0])
    same(read("image.csv"), read("day.csv"), "the rows of the image")
    words = ("in", "day.csv", "day", "--domains", "TIME, INT, INT, STRING(6)")
    made("other", tool("antelope_csv", *words, "--create")[0])
    wanted = program("dump", "image")
    same(program("dump", "other"), wanted, "the dump")
    with on_a_pty(script="") as path:
        tool("antelope_csv", *words, "--create", "--line", path)
        said = tool("antelope_csv", *words, "--create", "--line", path, status=1)[1]
        same("0 commands of 27 were carried out" in said, True, said)
    same(program("dump", "image"), wanted, "the dump of what was sent")
