"""Tests of plots, in the terminal and as SVG."""
import re
import xml.etree.ElementTree

from client_tests.common import same, station, tool

SVG = "{http://www.w3.org/2000/svg}"


def drawn(where, query, *words):
    """The places of the dots of an SVG, those that its line goes through, and its texts."""
    root = xml.etree.ElementTree.fromstring(tool("plot", where, query, "--svg", *words)[0])
    same(root.tag, f"{SVG}svg", "the root")
    paths = {it.get("class"): it.get("d") for it in root.iter(f"{SVG}path")}
    same(len([it for it in root.iter(f"{SVG}path") if it.get("class")]) <= 2, True, "paths of points")
    return places(paths, "dots"), places(paths, "line"), [it.text for it in root.iter(f"{SVG}text")]


def places(paths, name):
    return [(float(x), float(y)) for x, y in re.findall(r"[ML]([\d.]+) ([\d.]+)", paths.get(name, ""))]


def test_a_plot_has_a_point_for_each_row():
    where = station()
    for query, points in (
        ("SELECT k, k FROM s", 3),
        ("SELECT k, k FROM s WHERE k = 5", 1),
        ("SELECT k, k FROM s WHERE k > 9", 0),
        ("JOIN s, s ON k PROJECT k, k", 3),
        ("SELECT MAX(k), COUNT(t) FROM s", 1),
    ):
        dots, line, _ = drawn(where, query)
        # k goes from 5 to -1 and to 7
        same((len(dots), line), (points, []), f"points of {query}")
        same(all(0 <= x <= 800 and 0 <= y <= 480 for x, y in dots), True, f"points of {query} are inside")
    lines = tool("plot", where, "SELECT k, k FROM s", "--width", "20")[0].splitlines()
    same(sum(it.count("*") for it in lines), 3, "points in the terminal")
    same((lines[0], max(map(len, lines)) <= 20, len(lines)), ("k over k, 3 rows", True, 23), "the lines")
    empty = "SELECT MIN(k), MAX(k) FROM s WHERE k > 9"
    for query in ("SELECT k FROM s", "SELECT k, t FROM s", empty, "PACK s", "SELECT x FROM s"):
        tool("plot", where, query, "--svg", status=1)
    for width in ("0", "100000000", "x"):
        tool("plot", where, "SELECT k, k FROM s", "--width", width, status=2)


SCHEMA = "CREATE RELATION s; CREATE ATTRIBUTE k DOMAIN {} IN s; CREATE ATTRIBUTE v DOMAIN INT IN s;"


def test_a_plot_puts_points_where_they_belong():
    rows = "INSERT (0, 10) INTO s; INSERT (5, 20) INTO s; INSERT (10, 10) INTO s;"
    dots, line, texts = drawn(station(SCHEMA.format("INT") + rows), "SELECT k, v FROM s")
    (first, low), (middle, high), (last, as_low) = dots
    same((middle - first, low == as_low, high < low), (last - middle, True, True), "the places")
    same(line, dots, "the line")
    same({"0", "10", "20", "k", "v", "v over k"} <= set(texts), True, f"numbers and names in {texts}")


def test_times_are_written_as_dates():
    start = 20454 * 86400000
    for step, wanted in (
        # each seventh day since 1970 is a Thursday, as 2026-01-01 was
        (10 * 86400000, ["2026-01-01", "2026-01-08", "2026-01-15"]),
        (86400000, ["01-01 00:00", "01-01 12:00", "01-02 00:00"]),
        (60000, ["00:00:00", "00:01:00", "00:02:00"]),
    ):
        rows = "".join(f"INSERT ({start + step * it}, {it}) INTO s;" for it in range(3))
        where = station(SCHEMA.format("TIME") + rows)
        texts = drawn(where, "SELECT k, v FROM s")[2]
        at = texts.index(wanted[0]) if wanted[0] in texts else 0
        same(set(wanted) <= set(texts[at:]), True, f"{wanted} in {texts}")
        numbers = [it for it in drawn(where, "SELECT k, v FROM s", "--numbers")[2] if len(it) == 13]
        are_within = all(start <= int(it) <= start + 2 * step for it in numbers)
        same((len(numbers) > 1, are_within), (True, True), f"numbers {numbers}")
    lines = tool("plot", where, "SELECT k, v FROM s")[0].splitlines()
    same(lines[-1].split(), ["2026-01-01", "00:00", "2026-01-01", "00:02"], "the ends in the terminal")
    lines = tool("plot", where, "SELECT k, v FROM s", "--width", "5")[0].splitlines()
    same(lines[-1].split(), ["2026-01-01", "00:00", "2026-01-01", "00:02"], "the ends if there is little room")


def test_a_plot_has_a_title():
    where = station()
    words = ("SELECT k, k FROM s", "--title", "Attic & <b>\x01")
    same("Attic & <b>" in drawn(where, *words)[2], True, "the title of an SVG")
    same(tool("plot", where, *words)[0].splitlines()[0], "Attic & <b>, 3 rows", "the title in the terminal")


def test_many_points_are_one_path():
    rows = "".join(f"INSERT ({it}, {it * 7919 % 1000}) INTO s;" for it in range(20_000))
    where = station(SCHEMA.format("LONG") + rows, sectors=1024)
    dots, line, _ = drawn(where, "SELECT k, v FROM s")
    same((dots, 640 < len(line) < 6000), ([], True), f"the places of {len(line)} points")
    # of the points above each other the least and the greatest stay
    heights = [y for _, y in line]
    same((round(min(heights)), round(max(heights))), (54, 420), "the heights")
    dots, line, _ = drawn(where, "SELECT v, k FROM s WHERE k < 1000")
    same((len(dots), line), (1000, []), "points that go to and fro")
