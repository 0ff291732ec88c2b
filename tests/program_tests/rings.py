"""A year of each ring that docs/OPERATING.md recommends, on just the sectors that `plan` prints, with a power cut now and then."""
import random
import re

from .common import length, read, run, same, write
from .cuts import fronts, left_at
from .repairs import calls_of

DAYS = 365
# a row each five minutes, and the days that are kept
ROWS = 288
KEPT = 3
CUTS = 20
SECTOR = 4096


def relation(name):
    attributes = [f"CREATE ATTRIBUTE {it} DOMAIN {domain} IN {name};" for it, domain in (("minute", "LONG"), ("celsius", "INT"))]
    return [f"CREATE RELATION {name};", *attributes]


def celsius(row):
    return row * 37 % 60 - 20


class Turns:
    """A relation a day in turn: the oldest is removed and made anew."""

    made = [it for number in range(KEPT) for it in relation(f"d{number}")]
    slots = ROWS

    def name(self, day):
        return f"d{day % KEPT}"

    def night(self, day):
        return [f"REMOVE RELATION {self.name(day)};", *relation(self.name(day))] if day >= KEPT else []

    def replies(self, day):
        return b"ok\n" * len(self.night(day))


class Packed:
    """One relation with an INLINE index: the oldest day is removed, and the relation packed."""

    made = [*relation("r"), "CREATE INDEX r.minute TYPE INLINE;"]
    # removed rows keep their slots until the PACK
    slots = ROWS * KEPT

    def name(self, _):
        return "r"

    def night(self, day):
        if day < KEPT:
            return []
        removed = f"REMOVE FROM r WHERE minute < {(day - KEPT + 1) * ROWS};"
        return [removed, "REMOVE INDEX r.minute;", "PACK r;", "CREATE INDEX r.minute TYPE INLINE;"]

    def replies(self, day):
        return f"rows {ROWS}\nok\nok\nok\n".encode() if day >= KEPT else b""


def inserts(ring, day):
    return [f"INSERT ({row}, {celsius(row)}) INTO {ring.name(day)};" for row in range(day * ROWS, (day + 1) * ROWS)]


def planned_image(ring):
    """Makes `image` of the sectors that a plan wants, and their number."""
    script = "".join(ring.made).encode()
    length("image", 256 * SECTOR)
    run("run", "image", "-", script=script)
    sectors = int(re.fullmatch(rb"sectors needed (\d+) present 256\n", run("plan", "image", str(ring.slots)))[1])
    length("image", sectors * SECTOR)
    same(run("run", "image", "-", script=script), b"ok\n" * len(ring.made), "the first replies")
    return sectors


def erases_of(calls):
    """The sectors that were erased for each reply."""
    erased = [0]
    for call in calls:
        if call[0] == "A":
            erased.append(0)
        elif call[0] == "W" and len(call[2]) == SECTOR and not any(call[2]):
            erased[-1] += 1
    return erased


def cut(was, commands, calls, nightly):
    """Cuts the power during a write of these commands, repairs the image, and returns the commands that are left to do."""
    writes, answered = [], 0
    for number, call in enumerate(calls):
        answered += call[0] == "A"
        if call[0] == "W":
            writes.append((number, answered))
    # half of the cuts are in the few commands of the night
    number, answered = random.choice([it for it in writes if it[1] < nightly] or writes)
    write("image", left_at(was, calls, number, random.choice(fronts(calls[number][2]))))
    run("repair", "image")
    write("step", was)
    run("run", "step", "-", script="".join(commands[:answered]).encode())
    if run("dump", "step") == run("dump", "image"):
        return commands[answered:]
    run("run", "step", "-", script=commands[answered].encode())
    same(run("dump", "image"), run("dump", "step"), f"the database after a cut of {commands[answered]!r}")
    return commands[answered + 1:]


def carry_out(commands, replies, is_cut, nightly=0):
    """Carries out commands, perhaps with a power cut, and returns the most sectors that one of them erased."""
    was = read("image") if is_cut else b""
    said, calls = calls_of("run", "image", "-", script="".join(commands).encode())
    same(said, replies, f"the replies to {commands[0]!r} and {len(commands) - 1} more")
    if is_cut:
        run("run", "image", "-", script="".join(cut(was, commands, calls, nightly)).encode())
    return max(erases_of(calls))


def rows_stand(ring, day):
    """The last days are there, each row of them, and no older one."""
    kept = [it for it in range(day - KEPT + 1, day + 1) if it >= 0]
    wanted = {ring.name(it): [] for it in kept}
    for it in kept:
        wanted[ring.name(it)] += [f"{row},{celsius(row)}\n" for row in range(it * ROWS, (it + 1) * ROWS)]
    asked = "".join(f"SELECT minute, celsius FROM {name};" for name in wanted)
    found = "".join(f"{''.join(rows)}rows {len(rows)}\n" for rows in wanted.values())
    same(run("run", "image", "-", script=asked.encode()), found.encode(), f"the rows of day {day}")


def collect_where_pages_are_short(sectors):
    """Collects if less than a quarter of the pages is free, as the page says."""
    if int(re.search(rb" pages free (\d+) ", run("look", "image"))[1]) < sectors * 16 // 4:
        run("collect", "image")


def live(ring, most, collects=False):
    """Lives a year in which no command erases more than this many sectors; with collections at night, none by day."""
    random.seed(45)
    sectors = planned_image(ring)
    cuts = {*random.sample(range(1, DAYS), CUTS)}
    erased = 0
    for day in range(DAYS):
        night, rows = ring.night(day), inserts(ring, day)
        oks = b"ok\n" * ROWS
        if not collects:
            nightly = len(night) if day % 2 else 0
            erased = max(erased, carry_out([*night, *rows], ring.replies(day) + oks, day in cuts, nightly))
        else:
            if night:
                carry_out(night, ring.replies(day), day in cuts)
            collect_where_pages_are_short(sectors)
            erased = max(erased, carry_out(rows, oks, False))
        rows_stand(ring, day)
    if erased > most:
        raise AssertionError(f"a command erased {erased} of {sectors} sectors, and not {most} at most")


def test_a_year_of_relations_in_turn_finds_space():
    live(Turns(), 26)


def test_a_year_of_removed_and_packed_rows_finds_space():
    live(Packed(), 26)


def test_a_year_of_collections_at_night_erases_nothing_by_day():
    live(Turns(), 0, True)


def next_page():
    """The page from which on none of `image` is in use yet."""
    image, page = read("image"), 0
    while any(image[256 * page:256 * page + 32]):
        page += int.from_bytes(image[256 * page + 6:256 * page + 8], "little")
    return page


class Scatter:
    """Writes files far from each other by commands of rows, so that no gap between them takes an extent of 64 pages."""

    def __init__(self):
        # after the catalog and its log, and the three relations after them, which move
        self.row, self.edge = 0, 3

    def rows(self, name, count):
        self.row += count
        return "".join(f"INSERT ({row}, 0) INTO {name};" for row in range(self.row - count, self.row))

    def run(self, script):
        return run("run", "image", "-", script=script.encode())

    def go_on(self, more):
        """Copies d2, a sector each time, until the next pages begin this many whole sectors after the last file that stays."""
        while next_page() // 16 < self.edge + more:
            self.run(f"{self.rows('d2', 30)} REMOVE FROM d2;")
            if next_page() // 16 < self.edge + more:
                self.run("PACK d2;")

    def stay(self, script):
        self.run(script)
        self.edge = (next_page() + 15) // 16


def test_an_order_of_rows_needs_many_sectors():
    length("image", 256 * SECTOR)
    scatter = Scatter()
    scatter.run("".join(Turns.made))
    same(run("plan", "image", "1440"), b"sectors needed 101 present 256\n", "the plan")
    for name in ("d0", "d1"):
        # two copies, of which the second stays, and far after it a log
        scatter.go_on(2)
        last = scatter.row + 31
        scatter.stay(f"{scatter.rows(name, 32)} REMOVE FROM {name} WHERE minute < {last - 1}; PACK {name};")
        scatter.go_on(3)
        scatter.stay(f"REMOVE FROM {name} WHERE minute = {last};")
    scatter.go_on(3)
    rows, removed = re.search(rb"relation d2 .* rows (\d+) removed (\d+)", run("look", "image")).groups()
    # as many rows as 32 pages hold
    scatter.stay(scatter.rows("d2", 1165 - int(rows) - int(removed)))
    sectors = scatter.edge + 3
    same(any(read("image")[sectors * SECTOR:]), False, "that nothing is written beyond these sectors")
    write("image", read("image")[:sectors * SECTOR])
    # a collection finds no 64 pages in a row
    same(sectors, 32, "the sectors")
    same(run("run", "image", "-", script=scatter.rows("d2", 1).encode(), status=3), b"no space 64\n", "the row that wants more pages")
