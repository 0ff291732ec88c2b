"""Scripts by chance, the same for a seed on every machine, for tests that compare two programs."""
import random

TEXTS = ["", ";", " ", "0123456789", "(", "a b"]
AGGREGATES = ["COUNT", "SUM", "MIN", "MAX", "MEAN", "MEDIAN"]


def condition(rnd, key):
    one = f"{key} {rnd.choice(['=', '<', '>=', '<>'])} {rnd.randint(-200, 200)}"
    return one if rnd.random() < 0.7 else f"{one} {rnd.choice(['AND', 'OR'])} {key} < {rnd.randint(-200, 200)}"


def command(rnd):
    """A command of two relations: most are carried out, and some are refused."""
    relation, key = rnd.choice("ab"), rnd.randint(-200, 200)
    name = rnd.choice(["k", "v"]) if relation == "b" else rnd.choice("kt")
    return rnd.choices([
        lambda: f"INSERT ({key}, 'x,{rnd.randint(0, 999)}') INTO a",
        lambda: f"INSERT ({key}, {rnd.randint(-10**9, 10**9)}) INTO b",
        lambda: f"INSERT ({rnd.randint(-40000, 40000)}, '{rnd.choice(TEXTS)}') INTO {relation}",
        lambda: f"SELECT k, {name} FROM {relation} WHERE {condition(rnd, 'k')}",
        lambda: f"SELECT {rnd.choice(AGGREGATES)}({name}) FROM {relation} WHERE {condition(rnd, 'k')}",
        lambda: f"REMOVE FROM {relation} WHERE k = {key}",
        lambda: f"CREATE INDEX {relation}.k TYPE {rnd.choice(['INLINE', 'MAXHEAP', 'MEMHASH'])}",
        lambda: f"REMOVE INDEX {relation}.k",
        lambda: f"PACK {relation}",
        lambda: "JOIN a, b ON k PROJECT k, t, v",
        lambda: f"{rnd.choice(['OPEN 1 SELECT k FROM a', 'FETCH 1', 'CLOSE 1', 'OPEN 5 SELECT k FROM a'])}",
        lambda: rnd.choice(["INSERT (1, 'open) INTO a", "nonsense", "(", " \n", f"SELECT {'k,' * 300} k FROM a", "CREATE RELATION a"]),
    ], (40, 20, 5, 8, 6, 4, 3, 2, 2, 1, 4, 5))[0]()


def script(seed, many):
    rnd = random.Random(seed)
    begin = ["CREATE RELATION a", "CREATE ATTRIBUTE k DOMAIN INT IN a", "CREATE ATTRIBUTE t DOMAIN STRING(9) IN a",
             "CREATE RELATION b", "CREATE ATTRIBUTE k DOMAIN INT IN b", "CREATE ATTRIBUTE v DOMAIN LONG IN b"]
    return "\n;".join(begin + [command(rnd) for _ in range(many)]) + ";"


# what lies at an edge of the grammar
EDGES = b"; ' '' ( ) , - -- <= <> . 0 -0 32767 32768 -2147483649 140737488355328 999999999999999999 1000000000000000000".split()
EDGES += b"SELECT INSERT JOIN WHERE AND OR NOT NULL TIME STRING(33) STRING(0) MEDIAN( abcdefghijklmnop \xc0 \xff".split()
EDGES += [b" " * 500, b"k," * 9, b"(" * 40, b"NOT " * 40, b"\n", b"';\n"]
# the same of frames: an end, escapes, clients that are none
FRAME_EDGES = [b"\xc0", b"\xc0\xc0", b"\xdb", b"\xdb\xc0", b"\xdb\xdc", b"\xdb\xdd", b"\xdb\xdb", b"\1", b"\4", b"\5", b"\0"]
FRAME_EDGES += [b"\xc0\1\xc0", b"\xc0\2 \xc0", b" " * 512, b"x" * 513, b"\xdb\xdd" * 512, *EDGES]


def broken(rnd, text, words):
    """Bytes without a 0, with a few of them changed, left out or doubled, or with a word in their place."""
    text = bytearray(text)
    for _ in range(rnd.randint(1, 6)):
        at = rnd.randrange(len(text) + 1)
        end = min(len(text), at + rnd.choice((0, 1, 1, 2, 9, 40)))
        text[at:end] = rnd.choice((b"", bytes([rnd.randrange(1, 256)]), rnd.choice(words), text[at:end] * 2))
    return bytes(text)


def broken_line(seed, many, *, with_cursors=True):
    """The frames of four clients, with a few of their bytes broken, and of each third line a front part."""
    rnd = random.Random(seed)
    commands = [it.encode() for it in script(seed, many).split(";") if it.strip()]
    if not with_cursors:
        commands = [it for it in commands if not it.strip().startswith((b"OPEN", b"FETCH", b"CLOSE"))]
    frames = b"".join(bytes([rnd.randint(1, 4)]) + it + b"\xc0" for it in commands)
    line = broken(rnd, frames, FRAME_EDGES)
    return line[:rnd.randrange(len(line))] if seed % 3 == 0 else line


def damaged(rnd, image):
    """An image of which one to three bytes are damaged, mostly some that are not erased."""
    image = bytearray(image)
    for _ in range(rnd.randint(1, 3)):
        places = [it for it in (rnd.randrange(len(image)) for _ in range(20)) if image[it]] or [rnd.randrange(len(image))]
        image[places[0]] = rnd.choice((0, 255, image[places[0]] ^ 1 << rnd.randrange(8)))
    return bytes(image)
