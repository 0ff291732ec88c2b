"""Tests of rows that are shipped into databases: each once, whatever breaks off."""
import os
import pty
import random
import signal
import sqlite3
import subprocess
import sys
import threading
import time

import antelope
import antelope_line
import sorachest.ship
from client_tests.common import (
    CLIENTS, PROGRAM, SENSORS, made, on_a_pty, program, read, refuses, same, tool, write,
)
from client_tests.hub import hub
from client_tests.postgres import postgres
from sorachest import shipping, targets

READINGS = (
    "CREATE RELATION n; CREATE ATTRIBUTE at DOMAIN TIME IN n; CREATE ATTRIBUTE v DOMAIN LONG IN n;"
    "CREATE ATTRIBUTE t DOMAIN STRING(8) IN n; CREATE INDEX n.at TYPE INLINE;"
)
# without an INLINE index the rows of an image are counted
COUNTED = READINGS.partition("CREATE INDEX")[0]
# 2026-01-01 00:00 of UTC
NEW_YEAR = 20454 * 86400000
THREE = [(NEW_YEAR, 21, "a\\b"), (NEW_YEAR, -3, ""), (NEW_YEAR + 1500, 7, 'x"y')]


def inserts(rows, relation="n"):
    return "".join(f"INSERT ({antelope.row_text(it)}) INTO {relation};" for it in rows)


def shipped(query, target="target.db"):
    base = sqlite3.connect(target)
    try:
        return base.execute(query).fetchall()
    finally:
        base.close()


def rows_of(station, target="target.db"):
    return [it[1:] for it in shipped("SELECT station, at, v, t FROM n ORDER BY rowid", target) if it[0] == station]


def ship(*words, status=0):
    return tool("ship", *words, status=status)


# What comes into SQLite


def test_rows_of_several_stations_are_shipped_once():
    other = "CREATE RELATION e; CREATE ATTRIBUTE k DOMAIN INT IN e; INSERT (5) INTO e;"
    made("north.img", READINGS + inserts(THREE) + other)
    with on_a_pty(READINGS + inserts(THREE[:1])) as path:
        south = (f"south={path}", "--relation", "n(at TIME, v, t)", "--key", "n.at")
        for count in (3, 0):
            wrote, _ = ship("north=north.img", "--into", "target.db")
            same(wrote.splitlines()[0], f"north n: {count} rows, 3 in all", "what it said")
            ship(*south, "--into", "target.db")
        with antelope.connect(path) as line:
            line.cursor().executemany("INSERT (?, ?, ?) INTO n", THREE[1:])
        same(ship(*south, "--into", "target.db")[0], "south n: 2 rows, 3 in all\n", "what it said of more")
    same((rows_of("north"), rows_of("south")), (THREE, THREE), "the rows")
    same(shipped("SELECT station, k FROM e"), [("north", 5)], "another relation")
    same(shipped("SELECT DISTINCT typeof(at), typeof(v), typeof(t) FROM n"), [("integer", "integer", "text")], "types")


def test_a_plan_changes_nothing():
    made("image", READINGS + inserts(THREE))
    wrote, _ = ship("s=image", "--into", "target.db", "--plan")
    same(wrote, "s n (at time, v number, t text): 3 rows by at\n", "the plan")
    same(os.listdir("."), ["image"], "the files")
    ship("s=image", "--into", "target.db")
    before = read("target.db"), read("image")
    program("run", "image", "-", script=inserts([(NEW_YEAR + 1500, 8, "z")]))
    after = before[0], read("image")
    wrote, _ = ship("s=image", "--into", "target.db", "--plan", "--remove", "rows")
    same(wrote, f"s n (at time, v number, t text): 1 rows by at from {NEW_YEAR + 1500}\n", "the plan of more")
    same((read("target.db"), read("image")), after, "target and station")


def test_a_terminal_sees_how_far_a_call_is():
    made("image", READINGS + inserts(THREE))
    near, far = pty.openpty()
    command = [sys.executable, "-B", f"{CLIENTS}/ship.py", "s=image", "--into", "target.db", "--batch", "2"]
    same(subprocess.run(command, stdout=subprocess.DEVNULL, stderr=far).returncode, 0, "the status")
    os.close(far)
    said = os.read(near, 4096)
    os.close(near)
    same(said, b"\rs n: 2 of 3 rows\rs n: 3 of 3 rows\r\x1b[K", "the progress")


def test_rows_without_a_key_are_counted():
    made("image", SENSORS)
    words = ("s=image", "--into", "target.db")
    ship(*words)
    program("run", "image", "-", script="INSERT (5, 'abc') INTO s; INSERT (8, '') INTO s;")
    same(ship(*words)[0], "s s: 2 rows, 5 in all\n", "what it said")
    program("run", "image", "-", script="INSERT (9, '') INTO s; REMOVE FROM s WHERE k = 7;")
    says = ship(*words, status=1)[1]
    same("rows that were shipped are gone" in says, True, says)
    wanted = [(5, "abc"), (-1, ""), (7, "it?,-"), (5, "abc"), (8, "")]
    same(shipped("SELECT k, t FROM s ORDER BY rowid"), wanted, "the rows")
    same(ship(*words, "--anew")[0], "s s: 5 rows, 10 in all\n", "anew")
    same(shipped("SELECT k FROM s ORDER BY rowid")[5:], [(5,), (-1,), (5,), (8,), (9,)], "what is there then")
    same(ship(*words)[0], "s s: 0 rows, 10 in all\n", "once more")
    program("run", "image", "-", script="REMOVE FROM s;")
    ship(*words, "--anew")
    program("run", "image", "-", script="INSERT (3, '') INTO s;")
    same(ship(*words)[0], "s s: 1 rows, 11 in all\n", "after an empty relation")


def test_rows_that_were_counted_may_have_a_key_from_then_on():
    made("image", COUNTED + inserts(THREE))
    words = ("s=image", "--into", "target.db")
    ship(*words)
    more = [(NEW_YEAR + 1500, 8, ""), (NEW_YEAR + 1501, 9, "")]
    program("run", "image", "-", script="CREATE INDEX n.at TYPE INLINE;" + inserts(more))
    same(ship(*words)[0], "s n: 2 rows, 5 in all\n", "what it said")
    same(ship(*words, "--plan")[0].endswith(f"0 rows by at from {NEW_YEAR + 1501}\n"), True, "the plan")
    same(rows_of("s"), THREE + more, "the rows")


def test_rows_with_the_last_key_may_come_later():
    made("image", READINGS)
    for at, count in enumerate((1, 2, 0, 5)):
        more = [(NEW_YEAR, at, str(it)) for it in range(count)]
        program("run", "image", "-", script=inserts(more))
        same(ship("s=image", "--into", "target.db")[0].split(": ")[1].split(" rows")[0], str(count), "rows")
    wanted = [(NEW_YEAR, at, str(it)) for at, count in enumerate((1, 2, 0, 5)) for it in range(count)]
    same(rows_of("s"), wanted, "the rows")
    # where all with that key were removed, the next are new
    later = [(NEW_YEAR + 1, 1, ""), (NEW_YEAR + 2, 2, "")]
    program("run", "image", "-", script="REMOVE FROM n;" + inserts(later))
    ship("s=image", "--into", "target.db")
    same(rows_of("s"), wanted + later, "the rows after those that were removed")
    # and where some of them were, no one can say which are new
    program("run", "image", "-", script=inserts([(NEW_YEAR + 2, 3, "")]))
    ship("s=image", "--into", "target.db")
    program("run", "image", "-", script="REMOVE FROM n WHERE v = 2;" + inserts([(NEW_YEAR + 3, 4, "")]))
    same("are gone" in ship("s=image", "--into", "target.db", status=1)[1], True, "what it said")


def test_a_key_that_falls_is_told():
    made("image", SENSORS)
    words = ("s=image", "--into", "target.db", "--key", "s.k")
    says = ship(*words, status=1)[1]
    same("its key falls from 5 to -1" in says, True, says)
    same(shipped("SELECT k FROM s"), [(5,)], "the rows up to there")
    program("run", "image", "-", script="REMOVE FROM s WHERE k = -1;")
    same(ship(*words)[0], "s s: 1 rows, 2 in all\n", "rows that rise")
    program("run", "image", "-", script="INSERT (6, 'late') INTO s;")
    says = ship(*words, status=1)[1]
    same("2 rows have a k below 7, and 1 of these were shipped" in says, True, says)
    says = ship(*words, "--remove", "rows", status=1)[1]
    same("the key fell" in says, True, says)
    same(program("dump", "image").count("INSERT"), 3, "nothing was removed")
    same("name it as in --key s.k" in ship(*words[:3], status=1)[1], True, "another way to go on is refused")


def test_what_cannot_be_shipped_is_told():
    made("image", SENSORS + "CREATE RELATION e;")
    where = f"s=run:{PROGRAM} serve image -"
    write("file", "no database" * 100)
    for words, says in (
        ((where, "--into", "t.db"), "its relations are not known"),
        ((where, "--into", "t.db", "--relation", "s"), "s s: its attributes are not known"),
        ((where, "--into", "t.db", "--relation", "s(x)"), "s(x): no attribute 1"),
        ((where, "--into", "t.db", "--relation", "u(x)"), "u(x): no relation"),
        ((where, "--into", "t.db", "--relation", "s(k FLOAT)"), "is not an attribute with a domain"),
        ((where, "--into", "t.db", "--relation", "s(k, t)", "--key", "s.x"), "not one of the named attributes"),
        ((where, "--into", "t.db", "--relation", "s(k, t)", "--key", "s.t"), "the key s.t is a text"),
        (("s=image", "--into", "t.db", "--relation", "s", "--remove", "rows"), "--remove needs a key for s"),
        (("s=image", "--into", "t.db", "--relation", "s", "--relation", "S(k)"), "two relations would have one table"),
        (("s=image", "--into", "influx:", "--remove", "rows"), "nothing is removed"),
        (("s=image", "--into", "t.db", "--since", "5"), "--since is for InfluxDB"),
        (("s=image", "--into", "file"), "file is not a database"),
        (("s=image", "--into", ""), "'' is not a file"),
        (("s=image", "--into", ":memory:"), "':memory:' is not a file"),
        (("s=image", "--into", "t.db", "--key", "n.k"), "--key names n, which is not shipped"),
        (("s=image", "s=image", "--into", "t.db"), "two stations have one name"),
        (("s=image", "--into", "t.db", "--relation", "s(k)", "--key", "s.k", "--remove", "rows"), "and t is not named"),
        (("s=none.img", "--into", "t.db"), "'none.img'"),
    ):
        wrote, said = ship(*words, status=1)
        same((wrote, says in said), ("", True), f"{words}: {said}")
    # a station that is not there keeps no other from it
    wrote, said = ship("s=none.img", "u=image", "--into", "t.db", status=1)
    ended = wrote, said.startswith("ship.py: s: "), "none.img" in said
    same(ended, ("u s: 3 rows, 3 in all\n", True, True), f"what it said: {said}")


def test_a_second_call_that_ships_the_same_is_refused():
    shipment = shipping.Shipment("s", "n", [shipping.Attribute("v", "number")], None)
    target = targets.Sqlite("target.db", False)
    place = shipping.BEGINNING._replace(seen=1, digest="x", shipped=1, standing=1)
    target.put(shipment, [(1,)], shipping.BEGINNING, place)
    refuses(shipping.Unfit, target.put, shipment, [(1,)], shipping.BEGINNING, place, says="another call")
    same((target.place(shipment), shipped("SELECT v FROM n")), (place, [(1,)]), "what stands there")
    target.close()


# Rows that go from the station


def test_rows_that_are_there_are_removed_from_the_station():
    made("image", READINGS + inserts(THREE))
    words = ("s=image", "--into", "target.db", "--remove", "rows")
    for more in ([], [(NEW_YEAR + 1500, 8, "z"), (NEW_YEAR + 1501, 9, "")], []):
        program("run", "image", "-", script=inserts(more))
        ship(*words)
    # those with the last key stay, since others may come with it
    same(program("dump", "image").count("INSERT"), 1, "rows at the station")
    same(rows_of("s"), [*THREE, (NEW_YEAR + 1500, 8, "z"), (NEW_YEAR + 1501, 9, "")], "the rows")


def test_a_relation_in_turn_is_removed_whole():
    made("image", READINGS + inserts(THREE))
    words = ("s=image", "--into", "target.db")
    ship(*words, "--remove", "relation")
    same(program("dump", "image"), "", "the station")
    with on_a_pty("CREATE RELATION r; CREATE ATTRIBUTE a DOMAIN INT IN r; INSERT (5) INTO r;") as path:
        tool("ship", f"r={path}", *words[1:], "--relation", "r(a)", "--key", "r.a", "--remove", "relation")
    same((shipped("SELECT a FROM r"), program("dump", "image")), ([(5,)], ""), "the same over a line")
    # it is made anew when its turn comes
    program("run", "image", "-", script=READINGS + inserts([(NEW_YEAR + 9000, 1, "")]))
    ship(*words)
    with on_a_pty(READINGS + inserts(THREE)) as path, antelope.connect(path) as line:
        station = shipping.Shipment("s", "n", [shipping.Attribute("at", "time")], "at")
        place = shipping.BEGINNING._replace(by="at", key=NEW_YEAR + 1500, seen=1, shipped=3, standing=3)
        cursor = line.cursor()
        cursor.execute("INSERT (?, 1, '') INTO n", (NEW_YEAR + 1500,))
        same(shipping.remove_relation(cursor, station, place), None, "one to which a row came")
        same(cursor.execute("SELECT COUNT(v) FROM n").fetchall(), [(4,)], "its rows")
    # while it is not there the others are shipped
    program("run", "image", "-", script="REMOVE INDEX n.at; REMOVE RELATION n;" + SENSORS)
    named = ("--relation", "n(at TIME, v, t)", "--key", "n.at", "--relation", "s(k, t)", "--key", "s.k")
    program("run", "image", "-", script="REMOVE FROM s WHERE k < 0;")
    wrote, _ = ship(*words, *named, "--remove", "relation")
    same(wrote, "s n: it is not there\ns s: 2 rows, 2 in all\n", "what it said")
    same("s n: n(v): no relation" in ship(*words, *named, status=1)[1], True, "without --remove that is an error")
    same(rows_of("s"), [*THREE, (NEW_YEAR + 9000, 1, "")], "the rows")


# Other targets


def test_lines_for_influxdb_are_the_same_each_time():
    made("image", READINGS + inserts(THREE))
    nano = NEW_YEAR * 10**6
    lines = [
        f'n,station=a\\ b v=21i,t="a\\\\b" {nano}\n',
        f'n,station=a\\ b v=-3i,t="" {nano + 1}\n',
        f'n,station=a\\ b v=7i,t="x\\"y" {nano + 1500 * 10**6}\n',
    ]
    shipment = shipping.Shipment("a b", "n", [], "at")
    for words, wanted in (((), lines), (("--since", str(NEW_YEAR + 1)), lines[2:])):
        command = [sys.executable, "-B", f"{CLIENTS}/ship.py", "x=image", "--into", "influx:", *words]
        ended = subprocess.run(command, stdout=subprocess.PIPE, stderr=subprocess.PIPE)
        wrote = ended.stdout.decode().replace("station=x", f"station={targets.tag(shipment.station)}")
        same((ended.returncode, wrote), (0, "".join(wanted)), f"lines with {words}")
        says = f"x n: {len(wanted)} rows, --since {NEW_YEAR + 1500}\n"
        same(ended.stderr.decode(), says, "where it left off")


def test_rows_come_into_postgresql():
    name = "it's \u00e4 \\t"
    with postgres() as server:
        made("image", READINGS + inserts(THREE))
        for _ in range(2):
            ship("s=image", "--into", server.target)
        os.mkdir(name)
        os.rename("image", f"{name}/image")
        program("run", f"{name}/image", "-", script=inserts([(NEW_YEAR + 2000, 1, "\\.")]))
        wrote, _ = ship(f"{name}/image", "--into", server.target, "--plan")
        same(wrote.endswith("4 rows by at\n"), True, wrote)
        for _ in range(2):
            ship(f"{name}/image", "--into", server.target, "--batch", "1")
        times = [f"2026-01-01 00:00:0{it}+00" for it in ("0", "0", "1.5", "2")]
        texts = [(times[0], "21", "a\\b"), (times[1], "-3", ""), (times[2], "7", 'x"y'), (times[3], "1", "\\.")]
        for station, rows in (("s", texts[:3]), (os.path.abspath(f"{name}/image"), texts)):
            where = station.replace("'", "''")
            same([tuple(it) for it in server.ask(f"SELECT at, v, t FROM n WHERE station = '{where}'")], rows, station)
        shipment = shipping.Shipment("x", "n", [shipping.Attribute("v", "number")], None)
        target = targets.Postgres(server.target.partition(":")[2])
        place = shipping.BEGINNING._replace(seen=1, digest="x", shipped=1, standing=1)
        target.put(shipment, [(1,)], shipping.BEGINNING, place)
        refuses(shipping.Unfit, target.put, shipment, [(1,)], shipping.BEGINNING, place, says="another call")
        same(server.ask("SELECT v FROM n WHERE station = 'x'"), [["1"]], "what a second call has not doubled")
        same(target.place(shipment), place, "the place")
        server.stop()
        says = ship("s=image", "--into", server.target, status=1)[1]
        same(says.startswith("ship.py: s: "), True, says)


# What breaks off


def many(count):
    """Rows of which two have one key."""
    return [(NEW_YEAR + at // 2, at, f"r{at}") for at in range(count)]


def begun(*words):
    command = [sys.executable, "-B", f"{CLIENTS}/ship.py", *words]
    return subprocess.Popen(command, stdout=subprocess.DEVNULL, stderr=subprocess.PIPE)


def repair(image):
    """Puts right what a call that was killed has left, once its program has ended."""
    for _ in range(100):
        ended = subprocess.run([PROGRAM, "repair", image], stdout=subprocess.DEVNULL)
        # another run has it
        if ended.returncode != 7:
            break
        time.sleep(0.1)
    same(ended.returncode, 0, f"the repair of {image}")


def killed(seconds, *words):
    """Kills a call after this many seconds; whether it had ended by itself."""
    with begun(*words) as call:
        try:
            call.wait(seconds)
        except subprocess.TimeoutExpired:
            call.send_signal(signal.SIGKILL)
        call.communicate()
        return call.returncode == 0


def duration(*words):
    """How long a call takes that is not killed."""
    before = time.monotonic()
    same(killed(60, *words), True, f"{words} ends")
    return time.monotonic() - before


class Steps:
    """Something whose calls of these names are steps, before each of which a call is made."""

    def __init__(self, of, step, *names):
        self._of, self._step, self._names = of, step, names

    def __getattr__(self, name):
        call = getattr(self._of, name)
        if name not in self._names:
            return call

        def stepped(*words):
            self._step()
            return call(*words)

        return stepped


def killed_at(last, *words):
    """Ships in a process that is killed before this step at the line or the target; whether it ended before."""
    child = os.fork()
    if child:
        return os.waitstatus_to_exitcode(os.waitpid(child, 0)[1]) == 0
    steps = 0

    def step():
        nonlocal steps
        steps += 1
        if steps == last:
            os.kill(os.getpid(), signal.SIGKILL)

    connect, ask = sqlite3.connect, antelope_line.Line.ask
    targets.sqlite3.connect = lambda *at, **how: Steps(connect(*at, **how), step, "execute", "executemany")

    def stepped(line, *words):
        step()
        said = ask(line, *words)
        step()
        return said

    antelope_line.Line.ask = stepped
    sys.argv = ["ship.py", *words]
    os.dup2(os.open(os.devnull, os.O_WRONLY), 1)
    os._exit(sorachest.ship.main())


def test_a_call_that_is_killed_at_any_step_loses_no_row_and_doubles_none():
    for words in (("--key", "n.at", "--remove", "rows"), ()):
        last, is_over = 0, False
        while not is_over:
            last += 1
            made("image", (READINGS if words else COUNTED) + inserts(THREE), sectors=16)
            call = ("s=image", "--into", "target.db", "--batch", "1", *words)
            is_over = killed_at(last, *call)
            repair("image")
            same(killed_at(0, *call), True, f"the call after a kill before step {last} ended")
            same(rows_of("s"), THREE, f"the rows after a kill before step {last} with {words}")
            same(program("dump", "image").count("INSERT"), 1 if words else 3, "rows at the station")
            os.unlink("target.db")
        same(last > 20, True, f"{last} steps")


def test_calls_that_are_killed_lose_no_row_and_double_none():
    chance, rows = random.Random(5), many(2400)
    for words in ((), ("--remove", "rows")):
        made("image", READINGS + inserts(rows))
        call = ("s=image", "--batch", "40", *words, "--into")
        most = duration(*call[:3], "--into", "other.db")
        kills = 0
        for _ in range(4):
            kills += not killed(chance.uniform(0.1, 1) * most, *call, "target.db")
            # what a killed call was about to remove may be half done
            repair("image")
        ship(*call, "target.db")
        same(rows_of("s"), rows, f"the rows after {kills} kills with {words}")
        same(program("dump", "image").count("INSERT"), 2 if words else len(rows), "rows at the station")
        os.unlink("target.db")
        os.unlink("other.db")


def test_a_station_that_writes_meanwhile_loses_no_row():
    chance, rows = random.Random(6), many(1500)
    with on_a_pty(READINGS + inserts(rows[:300])) as path, hub(path):
        is_over = threading.Event()

        def write_on():
            with antelope.connect("hub", timeout=20) as line:
                for row in rows[300:]:
                    line.cursor().execute("INSERT (?, ?, ?) INTO n", row)
                    time.sleep(0 if is_over.is_set() else 0.002)

        writer = threading.Thread(target=write_on)
        writer.start()
        words = ("s=hub", "--relation", "n(at TIME, v, t)", "--key", "n.at", "--batch", "30", "--into", "target.db")
        words += ("--remove", "rows")
        for _ in range(7):
            killed(chance.uniform(0.1, 0.9), *words)
        is_over.set()
        writer.join()
        ship(*words)
    same(rows_of("s"), rows, "the rows")


def test_a_line_that_is_cut_off_loses_no_row_and_doubles_none():
    chance, rows = random.Random(7), many(700)
    made("image", READINGS + inserts(rows))
    names = ("--relation", "n(at TIME, v, t)", "--key", "n.at", "--batch", "30", "--into", "target.db")
    for at in range(8):
        # the program receives or sends at most this many bytes, and ends
        front, behind = f"head -c {chance.randrange(300, 900)} | ", f" | head -c {chance.randrange(200, 20_000)}"
        pipe = f"{front if at % 2 else ''}{PROGRAM} serve image -{'' if at % 2 else behind}"
        words = f"s=run:sh -c '{pipe}'", *names, "--timeout", "1", *(("--remove", "rows") if at > 3 else ())
        command = begun(*words)
        same(command.communicate()[1].count(b"Traceback"), 0, "what it said")
        repair("image")
    ship("s=image", *names)
    same(rows_of("s"), rows, "the rows")


def test_a_server_that_breaks_off_loses_no_row_and_doubles_none():
    chance, rows = random.Random(8), many(600)
    made("image", READINGS + inserts(rows))
    with postgres() as server:
        words = ("s=image", "--batch", "60", "--into", server.target)
        most = duration("other=image", *words[1:])
        for at in range(4):
            seconds = chance.uniform(0.1, 0.9) * most
            if at % 2:
                killed(seconds, *words)
                continue
            call = begun(*words)
            time.sleep(seconds)
            server.stop()
            same(call.communicate()[1].count(b"Traceback"), 0, "what it said")
            server.start()
        # one that was killed may have left a psql that still ends its transaction, or a program with the image
        has_ended = any(killed(60, *words) or time.sleep(0.2) for _ in range(20))
        same(has_ended, True, "a call that is not broken off ends")
        wanted = [[str(v), t] for _, v, t in rows]
        for station in ("s", "other"):
            query = f"SELECT v, t FROM n WHERE station = '{station}' ORDER BY v, ctid"
            same(server.ask(query), wanted, f"rows of {station}")
