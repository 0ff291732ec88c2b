"""The same library in a page: its module under node, and the page in a browser."""
import contextlib
import functools
import hashlib
import http.server
import os
import re
import threading

from library_tests.browser import Browser
from library_tests.common import (
    HERE, ROOT, SITE, Skipped, all_forms_beside, ended, erased, example, needs, program, read, same, write,
)

HELD = ["node", "--experimental-wasm-memory64", f"{HERE}/calls.mjs", SITE]
MOST_SCRIPT = 16777216


def module(*words):
    return ended([*HELD, *words])


def has_long_addresses():
    """Skips a test if node has no memory with 64-bit addresses."""
    probe = "new WebAssembly.Module(new Uint8Array([0,97,115,109,1,0,0,0,5,3,1,4,1]))"
    if ended(["node", "--experimental-wasm-memory64", "-e", probe])[0]:
        raise Skipped("this node has no memory with 64-bit addresses")


def test_every_form_of_the_module_answers_as_the_program():
    needs("node")
    has_long_addresses()
    all_forms_beside(module)


class Quiet(http.server.SimpleHTTPRequestHandler):
    """The page, and under `/here/` the files of the test."""

    extensions_map = {**http.server.SimpleHTTPRequestHandler.extensions_map, ".mjs": "text/javascript"}

    def translate_path(self, path):
        if path.startswith("/here/"):
            return os.path.join(self.here, os.path.basename(path))
        return super().translate_path(path)

    def log_message(self, *_):
        pass


class Site:
    """The page under an address of its own."""

    def __enter__(self):
        handler = functools.partial(type("Here", (Quiet,), {"here": os.getcwd()}), directory=SITE)
        self._server = http.server.ThreadingHTTPServer(("127.0.0.1", 0), handler)
        threading.Thread(target=self._server.serve_forever, daemon=True).start()
        return f"http://127.0.0.1:{self._server.server_address[1]}/"

    def __exit__(self, *_):
        self._server.shutdown()
        self._server.server_close()


@contextlib.contextmanager
def opened():
    """The page in a browser, with the sample."""
    needs("chromium")
    with Site() as address, Browser() as browser:
        yield browser.page(address, 1180, 1000)


def drop(page, name):
    """Drops a file of the test on the page."""
    page.evaluate(f"""(async () => {{
        const files = new DataTransfer();
        files.items.add(new File([await (await fetch('/here/{name}', {{ cache: 'no-store' }})).blob()], '{name}'));
        document.body.dispatchEvent(new DragEvent('drop', {{ dataTransfer: files, bubbles: true, cancelable: true }}));
    }})()""")


def take(page, name):
    """Drops an image on the page, which takes it."""
    drop(page, name)
    same(page.settled().text("name"), name.removesuffix(".img"), "the name of the image")


def ask(page, script):
    """Lets the page begin a script, by keys."""
    page.evaluate("document.getElementById('script').value = ''; document.getElementById('script').focus()")
    page.type(script)
    page.press("Enter", control=True)


def asked(page, script):
    """The replies to a script."""
    ask(page, script)
    return page.settled().text("replies")


def choose(page, choice):
    """Presses a button of the question that is open."""
    page.until("document.getElementById('question').open")
    page.evaluate(f"document.querySelector('#question button[value=\"{choice}\"]').click()")
    page.settled()


SHA_256 = """
    (async href => {
        const bytes = await (await fetch(href)).arrayBuffer();
        const hash = new Uint8Array(await crypto.subtle.digest('SHA-256', bytes));
        return [bytes.byteLength, Array.from(hash, it => it.toString(16).padStart(2, '0')).join('')];
    })
"""
# Where a link that the page itself follows would save its content.
WATCH_SAVING = """
    HTMLAnchorElement.prototype.click = function () {
        if (this.download) window.saved = [this.download, this.href];
    };
"""


def content(page, href):
    """The length and the hash of what a link of the page saves."""
    return page.evaluate(f"{SHA_256}({href})")


def of_bytes(content):
    return [len(content), hashlib.sha256(content).hexdigest()]


def image_of(page):
    return content(page, "document.getElementById('save').href")


def rows_in(image):
    """How many rows the first relation of an image has, by the program."""
    return int(re.search(rb" rows (\d+)", program("look", image)[1])[1])


def table_of(page, sheet):
    """The cells of a table, row by row."""
    cells = "Array.from(row.cells, cell => cell.textContent)"
    return page.evaluate(f"Array.from(document.querySelectorAll('#{sheet} tr'), row => {cells})")


def shown_rows(page):
    return len(table_of(page, "relation-sheet")) - 1


SCRIPT = (
    "SELECT MAX(celsius) FROM day; INSERT (1782086400000, 150, 85, 'clear') INTO day; INSERT (1, 2) INTO day;"
    "REMOVE FROM day WHERE sky = 'rain'; SELECT at, sky FROM day WHERE celsius > 200; SELECT nothing FROM day"
)
SCREENS = (("page", 1180, 1240, "light"), ("page-dark", 1180, 1240, "dark"), ("page-small", 400, 1800, "light"))


def test_the_page_answers_as_the_program():
    erased("station.img", 32)
    program("run", "station.img", example("station"))
    with opened() as page:
        take(page, "station.img")
        same(page.text("relations"), f"day {rows_in('station.img')}", "the relation")
        same(shown_rows(page), rows_in("station.img"), "its rows")
        same(page.evaluate("document.querySelectorAll('#relation-sheet path.curve').length"), 1, "its curve")
        write("script", SCRIPT.encode())
        same(asked(page, SCRIPT).encode(), program("run", "station.img", "script")[1], "the replies")
        same(image_of(page), of_bytes(read("station.img")), "the image")
        same(shown_rows(page), rows_in("station.img"), "the rows after that")
        address = page.evaluate("location.origin")
        same([it for it in page.requests if not it.startswith((address, "blob:", "data:"))], [], "requests to others")


def cut_image(name):
    """An image of which `repair` takes a row back, and then builds its index anew."""
    erased(name, 32)
    program("run", name, example("first"))
    image = bytearray(read(name))
    image[1583:1585] = b"\x1e\0"
    write(name, image)


def test_the_page_shows_what_a_repair_does_and_repairs_as_the_program():
    cut_image("cut.img")
    with opened() as page:
        drop(page, "cut.img")
        page.settled()
        same(page.text("why").startswith("This image is not sound: no image "), True, "what is said of the image")
        same(page.text("relations") + page.evaluate("document.getElementById('relations').dataset.none"),
             "The relations of this image cannot be read.", "the relations")
        page.evaluate(WATCH_SAVING)
        page.click("dump")
        page.settled()
        same(page.text("said"), "No script was saved: the image is not sound. Repair it first.", "the refusal")
        same(page.evaluate("window.saved === undefined"), True, "that nothing was saved")
        same(image_of(page), of_bytes(read("cut.img")), "the image before the repair")
        effects = page.evaluate("Array.from(document.querySelectorAll('#effects li'), it => it.textContent)")
        page.click("repair")
        page.until("document.getElementById('notice').hidden")
        status, replies = program("repair", "cut.img")
        same((status, replies.decode().split("\n")[:-2]), (0, effects), "what the repair does")
        same(page.settled().text("name"), "cut, not saved", "the name of the image")
        same(image_of(page), of_bytes(read("cut.img")), "the repaired image")


def test_the_page_offers_no_repair_where_the_program_refuses_it():
    cut_image("cut.img")
    image = bytearray(read("cut.img"))
    image[9] = 1
    write("cut.img", image)
    same(program("repair", "cut.img")[0], 6, "the status of the program")
    with opened() as page:
        drop(page, "cut.img")
        page.settled()
        same("repair refuses it" in page.text("why"), True, "what is said of the image")
        same(page.evaluate("document.getElementById('repair').hidden"), True, "that there is no repair")


def test_a_full_flash_is_made_longer():
    load = "CREATE RELATION n; CREATE ATTRIBUTE v DOMAIN LONG IN n;" + "INSERT (1) INTO n;" * 900
    write("load", load.encode())
    write("one", b"INSERT (2) INTO n;")
    erased("small.img", 4)
    erased("longest.img", 4095)
    with opened() as page:
        take(page, "small.img")
        same(asked(page, load).endswith("no space 32\n"), True, "that the flash is full")
        page.click("more")
        same(page.settled().text("name"), "small, not saved", "the name of the longer image")
        same(asked(page, "INSERT (2) INTO n;"), "ok\n", "the reply then")
        program("run", "small.img", "load")
        write("small.img", read("small.img") + bytes(256 * 4096))
        same(program("run", "small.img", "one"), (0, b"ok\n"), "the program's reply")
        same(image_of(page), of_bytes(read("small.img")), "the image")
        drop(page, "longest.img")
        choose(page, "go")
        page.click("more")
        same(page.settled().text("said"), "An image has at most 4,095 sectors.", "what is said of the longest")
        same(image_of(page), of_bytes(read("longest.img")), "the longest image")


def test_a_long_run_is_stopped_and_changes_nothing():
    write("load", b"CREATE RELATION r; CREATE ATTRIBUTE a DOMAIN INT IN r; CREATE ATTRIBUTE b DOMAIN INT IN r;"
                  + b"INSERT (1, 2) INTO r;" * 20000)
    erased("long.img")
    program("run", "long.img", "load")
    with opened() as page:
        take(page, "long.img")
        ask(page, "REMOVE FROM r WHERE a = 0; INSERT (5, 5) INTO r; JOIN r, r ON b PROJECT a;" * 50)
        page.until("document.getElementById('running').textContent.startsWith('Running for ')")
        page.click("stop")
        same(page.settled().text("ended"), "Stopped. The image is as it was before.", "what is said of the run")
        same(image_of(page), of_bytes(read("long.img")), "the image")
        same(page.text("running"), "", "what is said of a run that has ended")
        same(asked(page, "SELECT COUNT(a) FROM r;"), "20000\nrows 1\n", "the reply after that")


def test_an_answer_is_a_table_a_csv_and_a_plot():
    with opened() as page:
        page.click("new")
        page.settled()
        asked(page, "CREATE RELATION r; CREATE ATTRIBUTE t DOMAIN TIME IN r; CREATE ATTRIBUTE v DOMAIN LONG IN r;"
                    "CREATE ATTRIBUTE s DOMAIN STRING(9) IN r; INSERT (1782000000000, -5, 'a,\"b;') INTO r;"
                    "INSERT (1782001800000, 7, 'c') INTO r; INSERT (140737488355327, 9, '') INTO r;"
                    "SELECT t, v, s FROM r WHERE v < 9; SELECT COUNT(v), MIN(v), SUM(t) FROM r;"
                    "SELECT v FROM r WHERE v > 9;")
        total = 1782000000000 + 1782001800000 + 140737488355327
        one_row = [["COUNT(v)", "MIN(v)LONG", "SUM(t)"], ["3", "-5", str(total)]]
        same(table_of(page, "answer-sheet"), one_row, "the aggregates")
        page.evaluate("document.getElementById('which').value = 0")
        page.evaluate("document.getElementById('which').dispatchEvent(new Event('change'))")
        two_rows = [["2026-06-21 00:00", "-5", 'a,"b;'], ["2026-06-21 00:30", "7", "c"]]
        same(table_of(page, "answer-sheet")[1:], two_rows, "the rows")
        same(page.evaluate("document.querySelectorAll('#answer-sheet path.curve').length"), 1, "the curve")
        click = "dispatchEvent(new MouseEvent('click', { cancelable: true }))"
        page.evaluate(f"document.querySelector('#answer-sheet .csv').{click}")
        csv = b'"t","v","s"\r\n1782000000000,-5,"a,""b;"\r\n1782001800000,7,"c"\r\n'
        same(content(page, "document.querySelector('#answer-sheet .csv').href"), of_bytes(csv), "the CSV")
        asked(page, "OPEN 1 JOIN r, r ON v PROJECT v, s; SELECT MEDIAN(v) FROM r WHERE v > 9; FETCH 1;")
        same(table_of(page, "answer-sheet")[1:], [["-5", 'a,"b;']], "the row of a cursor")
        asked(page, "SELECT MEDIAN(v), COUNT(v) FROM r WHERE v > 9;")
        same(table_of(page, "answer-sheet")[1:], [["–", "0"]], "a value that is not there")


def test_refusals_are_counted_beside_the_status():
    with opened() as page:
        asked(page, "SELECT x FROM nowhere; SELECT COUNT(celsius) FROM readings; DROP; CREATE RELATION readings;")
        same(page.text("ended").startswith("Status 0: done, 3 refused. "), True, "the status")


def test_130_000_replies_are_kept_and_the_last_of_them_shown():
    with opened() as page:
        page.click("new")
        page.settled()
        creates = b"CREATE RELATION r; CREATE ATTRIBUTE a DOMAIN INT IN r;"
        write("many.aql", creates + b"SELECT a FROM r;" * 130000)
        drop(page, "many.aql")
        choose(page, "run")
        same(page.text("replies"), "rows 0\n" * 2000, "the lines that are shown")
        same(", the last 2,000 of 130,002 lines" in page.text("ended"), True, "what is said of them")
        erased("other")
        program("run", "other", "many.aql")
        same(image_of(page), of_bytes(read("other")), "the image")


def test_a_long_dump_comes_in_parts_that_runs_take():
    names = [f"relation_{it:06}" for it in range(8)]
    creates = "".join(f"CREATE RELATION {it};" + "".join(f"CREATE ATTRIBUTE a{at} DOMAIN INT IN {it};" for at in range(8))
                      for it in names)
    erased("large.img", 4095)
    write("creates", creates.encode())
    program("run", "large.img", "creates")
    for name in names:
        row = ", ".join(["-10000", "-20000"] * 4)
        write("load", f"INSERT ({row}) INTO {name};".encode() * 25000)
        same(program("run", "large.img", "load")[0], 0, "the status of the load")
    dump = program("dump", "large.img")[1]
    cut = dump.rindex(b"\n", 0, MOST_SCRIPT) + 1
    with opened() as page:
        take(page, "large.img")
        page.evaluate(WATCH_SAVING)
        # what is read of an image after a run takes its time, and leaves the status as it is
        asked(page, f"REMOVE FROM {names[0]} WHERE a0 = 0;")
        same((page.text("ended")[:16], page.text("running")), ("Status 0: done. ", ""), "the status of a run")
        page.click("dump")
        page.settled()
        links = "Array.from(document.querySelectorAll('#items a'), it => it.download)"
        same(page.evaluate(links), ["large-1.aql", "large-2.aql"], "the parts")
        parts = [content(page, f"document.querySelectorAll('#items a')[{it}].href") for it in (0, 1)]
        same(parts, [of_bytes(dump[:cut]), of_bytes(dump[cut:])], "their contents")
        same(page.evaluate("window.saved === undefined"), True, "that no part was saved as the whole")
        page.click("sample")
        page.settled().click("dump")
        page.settled()
        same(page.evaluate("window.saved[0]"), "sample.aql", "a script in one part")


def test_unsaved_work_is_asked_for():
    erased("other.img", 4)
    with opened() as page:
        page.evaluate(WATCH_SAVING)
        asked(page, "CREATE RELATION mine;")
        mine = image_of(page)
        for leave in (lambda: page.click("new"), lambda: page.click("sample"), lambda: drop(page, "other.img")):
            leave()
            choose(page, "")
            same((image_of(page), page.text("name")), (mine, "sample, not saved"), "the image where it is to stay")
        page.click("new")
        page.until("document.getElementById('question').open")
        page.press("Escape")
        same(image_of(page.settled()), mine, "the image after Escape")
        page.click("new")
        choose(page, "save")
        same(page.evaluate("window.saved[0]"), "sample.img", "what was saved")
        same(content(page, "window.saved[1]"), mine, "its content")
        same(page.text("name"), "station", "the new image")
        asked(page, "CREATE RELATION other;")
        drop(page, "other.img")
        choose(page, "go")
        same(image_of(page), of_bytes(read("other.img")), "the image that was dropped")
        page.click("new")
        same(page.settled().text("name"), "station", "that nothing is asked where nothing is lost")


def test_several_files_at_once_are_refused():
    with opened() as page:
        was = image_of(page)
        page.evaluate("""{
            const files = new DataTransfer();
            for (const name of ['a.aql', 'b.aql']) files.items.add(new File(['SELECT 1;'], name));
            document.body.dispatchEvent(new DragEvent('drop', { dataTransfer: files, bubbles: true, cancelable: true }));
        }""")
        same(page.settled().text("said"), "Drop one file at a time.", "what is said of them")
        same(image_of(page), was, "the image")


def test_a_wrong_file_is_refused_by_its_size_and_changes_nothing():
    with opened() as page:
        was = image_of(page)
        watch = "Blob.prototype[kind] = () => { window.wasRead = true; }"
        page.evaluate(f"for (const kind of ['arrayBuffer', 'text']) {watch}")
        for size in (0, 5, 3 * 4096, 4 * 4096 + 1, 4096 * 4096):
            write("wrong.img", bytes(size))
            page.evaluate("document.getElementById('said').textContent = ''")
            drop(page, "wrong.img")
            refusal = f"wrong.img has {size:,} bytes. An image has 4 to 4,095 sectors of 4,096 bytes; "
            same(page.settled().text("said").startswith(refusal), True, f"what is said of {size} bytes")
        write("long.aql", b" " * (MOST_SCRIPT + 1))
        drop(page, "long.aql")
        same("16,777,217 bytes" in page.settled().text("said"), True, "what is said of a long script")
        same(page.evaluate("window.wasRead === undefined"), True, "that none was read")
        same(image_of(page), was, "the image")


def test_a_script_that_is_dropped_is_shown_and_the_one_before_is_kept():
    write("small.aql", b"SELECT what FROM events;\n")
    with opened() as page:
        page.evaluate("document.getElementById('script').value = 'SELECT node FROM events;'")
        drop(page, "small.aql")
        page.settled()
        same(page.evaluate("document.getElementById('script').value"), "SELECT what FROM events;\n", "the script")
        page.press("ArrowUp")
        page.press("ArrowUp")
        same(page.evaluate("document.getElementById('script').value"), "SELECT node FROM events;", "the one before")
        page.evaluate("document.getElementById('script').value = 'PACK'")
        page.click("sample")
        page.settled().evaluate("document.getElementById('script').focus()")
        seen = []
        for _ in range(8):
            page.press("ArrowUp")
            seen.append(page.evaluate("document.getElementById('script').value"))
        same("PACK" in seen, True, "that the sample's script keeps the one before it, too")


def test_a_reload_loses_nothing_and_each_tab_has_an_image_of_its_own():
    needs("chromium")
    with Site() as address, Browser() as browser:
        page = browser.page(address, 1180, 1000)
        asked(page, "CREATE RELATION mine;")
        mine = image_of(page)
        other = browser.page(address, 1180, 1000)
        same(other.text("name"), "sample", "the image of another tab")
        asked(other, "CREATE RELATION theirs;")
        theirs = image_of(other)
        for it, was in ((page, mine), (other, theirs), (page, mine)):
            it.reload()
            same((image_of(it), it.text("name")), (was, "sample, not saved"), "the image after a reload")
        same(page.text("ended"), "sample is as you left it.", "what is said of it")


def test_a_browser_without_storage_says_so_and_asks_before_unsaved_work_is_left():
    leaving = "(() => { const leave = new Event('beforeunload', { cancelable: true }); return !dispatchEvent(leave); })()"
    with opened() as page:
        same(page.text("kept"), "This browser keeps the image over a reload.", "what is said of the storage")
        asked(page, "CREATE RELATION kept;")
        same(page.evaluate(leaving), False, "that the page can be left where the image is kept")
        without = "Object.defineProperty(Navigator.prototype, 'locks', { value: undefined })"
        page.tell("Page.addScriptToEvaluateOnNewDocument", source=without)
        page.reload()
        same(page.text("kept").startswith("This browser cannot keep the image over a reload: "), True, "what is said then")
        same(page.evaluate(leaving), False, "that the page can be left where all is saved")
        asked(page, "CREATE RELATION mine;")
        same(page.evaluate(leaving), True, "that the browser asks first")


def test_the_arrow_keys_show_earlier_scripts_and_words_are_at_hand():
    def value():
        return page.evaluate("document.getElementById('script').value")

    with opened() as page:
        for script in ("SELECT node FROM events;", "SELECT what\nFROM events;"):
            asked(page, script)
        page.evaluate("document.getElementById('script').value = 'PACK'")
        seen = []
        for key in ("ArrowUp", "ArrowUp", "ArrowDown", "ArrowDown", "ArrowDown"):
            page.press(key)
            seen.append(value())
        second = "SELECT what\nFROM events;"
        same(seen, [second, "SELECT node FROM events;", second, "PACK", "PACK"], "what the keys show")
        page.evaluate("document.getElementById('script').value = ''")
        page.evaluate("Array.from(document.querySelectorAll('#words button')).at(5).click()")
        same(value(), "PACK relation;", "the command that is inserted")


def test_a_plot_of_many_rows_is_a_band_from_the_least_to_the_greatest():
    rows = [f"INSERT ({it}, {1000 if it == 9000 else -1000 if it == 21000 else it % 7}) INTO r;" for it in range(30000)]
    creates = "CREATE RELATION r; CREATE ATTRIBUTE t DOMAIN LONG IN r; CREATE ATTRIBUTE v DOMAIN INT IN r;"
    write("load", (creates + "".join(rows)).encode())
    erased("noise.img", 1024)
    same(program("run", "noise.img", "load")[0], 0, "the status of the load")
    with opened() as page:
        take(page, "noise.img")
        path = page.evaluate("document.querySelector('#relation-sheet path.band').getAttribute('d')")
        places = [tuple(map(float, it.split())) for it in path.strip("MZ").split("L")]
        width, height = page.evaluate("document.querySelector('#relation-sheet svg').getAttribute('viewBox')").split()[2:]
        width, height = int(width), int(height)
        same(len(places) <= 2 * width, True, "that it has two places a column")
        # the plot's margins: 58 on the left, 18 on the right, 10 above, 28 below
        across = width - 58 - 18
        least, most = (min(places, key=lambda it: it[1]), max(places, key=lambda it: it[1]))
        same((least[1], most[1]), (10, height - 28), "the places of the greatest and the least value")
        columns = [round(58 + across * it / 29999) for it in (9000, 21000)]
        same([round(least[0]), round(most[0])], columns, "their columns")


def test_the_page_shows_the_version_if_there_is_one():
    with opened() as page:
        shown = page.evaluate("document.querySelector('footer').textContent.trim()")
        if os.path.exists(f"{ROOT}/VERSION"):
            version = read(f"{ROOT}/VERSION").decode().splitlines()[0]
            same(shown.startswith(f"Version {version}. "), True, "the version")
        else:
            same("Version" in shown, False, "that there is none")


def test_the_page_fits_a_telephone():
    needs("chromium")
    with Site() as address, Browser() as browser:
        for name, width, height, scheme in SCREENS:
            page = browser.page(address, width, height, scheme)
            page.evaluate("document.querySelector('details').open = true")
            same(page.evaluate("document.documentElement.scrollWidth"), width, f"the width of {name}")
            same(shown_rows(page) > 100, True, "that the sample is there")
