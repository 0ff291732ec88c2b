"""Cuts at each write of a run over eight relations and eight indexes, and of the repairs after them; damage that no cut leaves."""
from .common import ended, hash_tables, read, run, same, start, write
from .repairs import calls_of

SIZE = 64 * 4096
KINDS = ("MAXHEAP", "MEMHASH", "INLINE", "MAXHEAP", "INLINE", "MAXHEAP", "MEMHASH", "MAXHEAP")
WITHOUT_TABLES = ("MAXHEAP", "INLINE") * 4


def made(number, kind):
    """A relation of three attributes, with an index on the first."""
    name = f"r{number}"
    return (
        f"CREATE RELATION {name}; CREATE ATTRIBUTE k DOMAIN LONG IN {name}; CREATE ATTRIBUTE longer_name_{number} DOMAIN STRING(9) IN {name};"
        f"CREATE ATTRIBUTE v DOMAIN INT IN {name}; CREATE INDEX {name}.k TYPE {kind};"
    )


def row(number, key):
    return f"INSERT ({key * 258 + 1}, '{'abcdefghi'[:key % 10]}', {key % 300 - 100}) INTO r{number};"


def eight_relations():
    """An image of 64 sectors with eight relations, an index on each and some rows in each."""
    write("image", bytes(SIZE))
    script = "".join(made(number, kind) for number, kind in enumerate(KINDS if hash_tables() == 2 else WITHOUT_TABLES))
    script += "".join(row(number, key) for key in range(40) for number in range(8))
    replies = run("run", "image", "-", script=script.encode())
    same(replies.replace(b"ok\n", b""), b"", "the replies")
    return read("image")


def left_at(image, calls, number, count):
    """The image if the power fails during this call, after this many of its bytes."""
    image = bytearray(image)
    for call in calls[:number]:
        if call[0] == "W":
            image[call[1]:call[1] + len(call[2])] = call[2]
    _, place, content = calls[number]
    image[place:place + count] = content[:count]
    return bytes(image)


def fronts(content):
    """How many bytes of a write may be done: of one or two all or none."""
    size = len(content)
    return (0, size) if size <= 2 else (0, 1, size // 2, size - 1, size)


def dumps_of(image, commands):
    """The database before some commands, and after each of them."""
    write("step", image)
    dumps = [run("dump", "step")]
    for command in commands:
        same(run("run", "step", "-", script=command.encode()), b"ok\n", command)
        dumps.append(run("dump", "step"))
    return dumps


def foretold(image, status=0):
    """What a repair of an image is to say, by a check, which leaves it."""
    was = read(image)
    said = run("check", image, status=status)
    same(read(image), was, "an image that was checked")
    return said.replace(b"to be repaired\n", b"repaired\n")


def given_up(said):
    """What a repair says of the trees that it would build, if it takes their indexes back."""
    return said.replace(b" built anew\n", b" taken back\n")


def check_repaired(allowed, what, crowded=False):
    """Repairs the image `cut`, also by repairs that are cut at each of their writes: each says what a check foretold, and leaves one of
    these databases. On a crowded flash a tree may be given up."""
    def same_lines(said, to_come, when):
        if not (crowded and said == given_up(to_come)):
            same(said, to_come, f"{what}: what {when} said")

    cut = read("cut")
    to_come = foretold("cut")
    last, calls = calls_of("repair", "cut")
    same_lines(last, to_come, "the repair")
    if run("dump", "cut") not in allowed:
        raise AssertionError(f"{what}: after the repair stands another database")
    same(run("repair", "cut"), b"sound\n", f"{what}: a second repair")
    for number, call in enumerate(calls):
        if call[0] == "W":
            write("cut", left_at(cut, calls, number, len(call[2]) // 2 if len(call[2]) > 2 else 0))
            to_come = foretold("cut")
            same_lines(run("repair", "cut"), to_come, f"a repair after one that was cut at call {number}")
            if run("dump", "cut") not in allowed:
                raise AssertionError(f"{what}: after a repair that was cut at call {number} stands another database")
    return last


def check_cuts(image, commands, one_in):
    """Cuts these commands at each of their writes, and repairs the image of every n-th cut."""
    dumps = dumps_of(image, commands)
    write("image", image)
    _, calls = calls_of("run", "image", "-", script="\n".join(commands).encode())
    cuts = mended = written = 0
    for number, call in enumerate(calls):
        if call[0] == "A":
            written += call[1] // len(b"ok\n")
        for count in fronts(call[2]) if call[0] == "W" else ():
            cuts += 1
            if cuts % one_in == 0:
                write("cut", left_at(image, calls, number, count))
                said = check_repaired(dumps[written:written + 2], f"call {number}, {count} bytes")
                mended += said != b"sound\n"
    if not mended:
        raise AssertionError("each image was sound")


def test_a_tree_is_given_up_where_there_is_no_room_to_copy_it():
    write("image", bytes(5 * 4096))
    made_first = "CREATE RELATION r; CREATE ATTRIBUTE k DOMAIN INT IN r; CREATE INDEX r.k TYPE MAXHEAP;"
    run("run", "image", "-", script=(made_first + "".join(f"INSERT ({key * 7}) INTO r;" for key in range(28))).encode())
    image = read("image")
    # the log of the tree has 29 records, and no extent is free
    dumps = dumps_of(image, ["INSERT (5) INTO r;"])
    allowed = dumps + [dump.replace(b"CREATE INDEX r.k TYPE MAXHEAP;\n", b"") for dump in dumps]
    write("image", image)
    _, calls = calls_of("run", "image", "-", script=b"INSERT (5) INTO r;")
    gone = 0
    for number, call in enumerate(calls):
        for count in fronts(call[2]) if call[0] == "W" else ():
            write("cut", left_at(image, calls, number, count))
            said = check_repaired(allowed, f"call {number}, {count} bytes", crowded=True)
            gone += said == b"index on r.k taken back\nrepaired\n"
    if not gone:
        raise AssertionError("no tree was given up")


def test_a_row_of_each_of_eight_relations_is_cut():
    check_cuts(eight_relations(), [row(number, 40) for number in range(8)], 1)


def test_changes_of_each_of_eight_relations_are_cut():
    image = eight_relations()
    for number in range(8):
        # a relation that is given an attribute has no rows
        emptied = f"REMOVE FROM r{number}; REMOVE INDEX r{number}.k; PACK r{number};"
        commands = [
            f"CREATE ATTRIBUTE w DOMAIN TIME IN r{number};", f"CREATE INDEX r{number}.v TYPE MAXHEAP;", row(number, 0).replace(") I", ", 7) I"),
            f"REMOVE INDEX r{number}.v;", f"REMOVE RELATION r{number};", f"CREATE RELATION s{number};",
        ]
        write("image", image)
        same(run("run", "image", "-", script=emptied.encode()), b"rows 40\nok\nok\n", emptied)
        check_cuts(read("image"), commands, 5)


def test_cuts_behind_many_pages_are_put_right():
    write("image", bytes(256 * 4096))
    script = "CREATE RELATION b; CREATE ATTRIBUTE k DOMAIN LONG IN b; CREATE ATTRIBUTE t DOMAIN STRING(32) IN b;"
    script += "".join(f"INSERT ({key}, '{'x' * 32}') INTO b;" for key in range(4000)) + made(0, "MAXHEAP") + row(0, 0) + row(0, 1)
    run("run", "image", "-", script=script.encode())
    page = read("image").rindex(b"T1") // 256
    if page < 1024:
        raise AssertionError(f"the file of the rows begins at page {page}")
    check_cuts(read("image"), [row(0, 2), "REMOVE INDEX r0.k;"], 3)


def damaged(image):
    """What a damaged chip may hold of an image: one bit of the flags of a header, a page or a sector of zeros."""
    for page in range(0, len(image), 256):
        if any(image[page:page + 256]):
            yield f"page {page // 256} of zeros", image[:page] + bytes(256) + image[page + 256:]
            if image[page + 9]:
                for bit in range(8):
                    flags = bytes([image[page + 9] ^ 1 << bit])
                    yield f"bit {bit} of the flags of page {page // 256}", image[:page + 9] + flags + image[page + 10:]
    for sector in range(0, len(image), 4096):
        if any(image[sector:sector + 4096]):
            yield f"sector {sector // 4096} of zeros", image[:sector] + bytes(4096) + image[sector + 4096:]


def rows_of(image):
    """The lines of a dump that insert rows, by relation."""
    rows = {}
    for line in run("dump", image).decode().splitlines():
        if line.startswith("CREATE RELATION"):
            rows[line.split()[2].rstrip(";")] = []
        if line.startswith("INSERT"):
            rows[line.split()[-1].rstrip(";")].append(line)
    return rows


def check_damage(image):
    """A repair of a damaged image keeps all rows, or it refuses the image and leaves it. Only zeros over the last rows of a relation are
    what a power cut leaves, too: before these rows were inserted, and in the middle of the one in front of them."""
    write("image", image)
    before = rows_of("image")
    refused = 0
    for what, now in damaged(image):
        write("damaged", now)
        status, said = ended(start("repair", "damaged"))
        write("checked", now)
        same(foretold("checked", status), said, f"the check of {what}")
        if status == 6:
            refused += 1
            same(read("damaged"), now, f"what was refused: {what}")
            continue
        same(status, 0, f"the status of the repair of {what}")
        left = rows_of("damaged")
        same(list(left), list(before), f"the relations: {what}")
        shorter = [name for name in before if left[name] != before[name]]
        same([left[name] for name in shorter], [before[name][:len(left[name])] for name in shorter], f"the rows: {what}")
        if shorter and not (len(shorter) == 1 and what.endswith("zeros")):
            raise AssertionError(f"{what}: rows of {shorter} are gone")
    if not refused:
        raise AssertionError("nothing was refused")


def test_damage_empties_no_database_of_eight_relations():
    check_damage(eight_relations())


def test_damage_empties_no_database_of_one_relation():
    script = made(0, "INLINE") + "".join(row(0, key) for key in range(20))
    for more in ("", "REMOVE FROM r0 WHERE v = -95;", "PACK r0;"):
        write("image", bytes(16 * 4096))
        run("run", "image", "-", script=(script + more).encode())
        check_damage(read("image"))


def headers(image):
    """The pages at which extents begin."""
    page = 0
    while page < len(image) // 256:
        header = image[256 * page:256 * page + 32]
        is_extent = header[9] in (2, 3, 7, 11, 15, 19, 23)
        if is_extent:
            yield page
        page += int.from_bytes(header[6:8], "little") if is_extent else 1


def test_no_bit_of_a_header_brings_old_rows_back():
    """Of a file that grew, whose rows were drafted anew, or whose relation was made again, an old extent is there. One bit of its
    flags makes it active."""
    marked = "REMOVE FROM r0 WHERE v < -60;"
    packed = "REMOVE INDEX r0.k; PACK r0; CREATE INDEX r0.k TYPE INLINE;"
    again = "REMOVE INDEX r0.k; REMOVE RELATION r0;" + made(0, "INLINE")
    # 254 rows fill the pages of a new file
    histories = ((260, ""), (260, "REMOVE FROM r0 WHERE v = -95;"), (200, marked), (200, marked + packed), (200, again + row(0, 0)))
    revived = 0
    for count, history in histories:
        script = made(0, "INLINE") + "".join(row(0, key) for key in range(count)) + history
        write("image", bytes(32 * 4096))
        run("run", "image", "-", script=(script + "".join(row(0, key) for key in range(count, count + 30))).encode())
        image = read("image")
        before = rows_of("image")
        for page in headers(image):
            for bit in range(8):
                flags = bytes([image[256 * page + 9] ^ 1 << bit])
                write("damaged", image[:256 * page + 9] + flags + image[256 * page + 10:])
                status, said = ended(start("repair", "damaged"))
                what = f"bit {bit} of the flags of page {page} behind {history}"
                if status != 6:
                    same(status, 0, f"the status of the repair of {what}")
                    same(rows_of("damaged"), before, f"the rows: {what}")
                    revived += said == b"repaired\n" and image[256 * page + 9] == 7
    if revived < len(histories):
        raise AssertionError(f"only {revived} old files were made active")
