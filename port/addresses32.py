#!/usr/bin/env python3
"""addresses32.py MODULE.ll OUT.ll PROCESSOR [size]: makes the toolchain's LLVM module for a processor of 64 bits one for a
processor whose addresses have 32 bits. PROCESSOR is thumbv7em, thumbv7m or riscv32; with `size` it is to be small, not fast.

`usize` keeps its 64 bits, and each object its size and the places in it. Why the program does the same:

1. What the module does may not depend on where its objects lie. So take it as run by a 64-bit processor on which all of them
   lie below 4 GiB, and none has 2 GiB or more. There the upper half of each address is 0. Here a register has the lower half.
2. Memory holds the same bytes. A global is bytes, a variable is bytes, a number or an address, and a place in it is so many
   bytes away: no type with an address in it says how large something is. An address in memory keeps its 8 bytes; the lower 4
   are the address, and the upper 4 are written as 0. So what is copied, or read as a number, is the same, too. A pair is read
   and written member by member, each at its place.
3. An access lies within its object. So each offset and each length that an access uses fits into 32 bits, and loses nothing
   when it is cut to them.
4. In a register an address becomes a number by `ptrtoaddr` alone, which puts zeros above it. That number is used to see how an
   address is aligned, or, less another one, to see whether two pieces overlap. No number becomes an address. Two addresses
   are compared as equal or without a sign.
5. A call out of the module is one of `BORDER`, whose numbers have the same widths in `calls.h`. The two that answer a pair
   leave it in memory, since C would answer it otherwise here.

What is not listed here is refused, with its line. LLVM's own meaning of these forms is trusted, and its code for the processor.
"""
import re
import sys

THUMB = "e-m:e-p:32:32-Fi8-i64:64-v128:64:128-a:0:32-n32-S64"
TARGETS = {
    "thumbv7em": (THUMB, "thumbv7em-unknown-none-eabi"),
    "thumbv7m": (THUMB, "thumbv7m-unknown-none-eabi"),
    "riscv32": ("e-m:e-p:32:32-i64:64-n32-S128", "riscv32-unknown-none-elf"),
}

# What the program calls, as calls.h has it; of the first two the answer is a pair.
BORDER = """
rattle_alloc(i64, i64)
rattle_realloc(ptr, i64, i64, i64)
void rattle_dealloc(ptr)
i64 rattle_arg(i64, ptr, i64)
i64 rattle_env(ptr, ptr, i64)
i64 rattle_env_at(i64, ptr, i64)
i32 rattle_errno()
void rattle_set_errno(i32)
i32 open(ptr, i32, ...)
i32 statx(i32, ptr, i32, i32, ptr)
i32 close(i32)
i64 pread(i32, ptr, i64, i64)
i64 pwrite(i32, ptr, i64, i64)
i64 read(i32, ptr, i64)
i64 write(i32, ptr, i64)
i64 __sysv_signal(i32, i64)
""".split("\n")[1:-1]

# An allocation writes its pair to memory, from which it is read.
ALLOCATION = """
declare void @node_{name}(ptr{types})
define internal {pair} @rattle_{name}({named}) {{
  %place = alloca [16 x i8], align 8
  call void @node_{name}(ptr %place, {named})
  %well = load i64, ptr %place, align 8
  %behind = getelementptr i8, ptr %place, i64 8
  %at = load i64, ptr %behind, align 8
  %half = insertvalue {pair} poison, i64 %well, 0
  %whole = insertvalue {pair} %half, i64 %at, 1
  ret {pair} %whole
}}
"""

# ---- The words of the language, as far as they are known here

INT = r"i(?:1|8|16|32|64|128|256)\b"
ONE = rf"(?:{INT}|ptr\b)"
PAIR = rf"(?:\{{ {ONE}, {ONE} \}}|\[2 x i64\])"
BYTES, BITS, LANES = r"<\d+ x i8>", r"<\d+ x i1>", r"<\d+ x i(?:8|16|32|64)>"
NAME = r'(?:[-\w.$]+|"[^"]*")'
LIST = r"<i\d+ -?\d+(?:, i\d+ -?\d+)*>"
SPLAT = r"splat \(i\d+ -?\d+\)"
NUMBER = rf"(?:%{NAME}|-?\d+|true|false|poison|undef|zeroinitializer|{SPLAT}|{LIST})"
ADDRESS = rf"(?:[%@]{NAME}|null|poison|undef)"
VALUE = rf"(?:{NUMBER}|{ADDRESS})"
GIVEN = r"(?: noundef| zeroext| signext| nonnull| noalias| readonly| range\(i\d+ -?\d+, -?\d+\))*"
KIND = rf"(?:void|{ONE}|{PAIR}|{BYTES})"
ALIGN = r", align (\d+)"

MOVE = r"@llvm\.(?:memset\.p0|memmove\.p0\.p0|memcpy\.p0\.p0)\."
# The last one is of the toolchain's processor. clang for another one refuses it where it is not dead code.
PURE = rf"@llvm\.(?:(?:cttz|ctlz|ctpop|bswap|bitreverse|fshl|fshr|umin|umax|smin|smax|abs)\.{INT}|aarch64\.neon\.addp\.v16i8)"
NEEDS_NOTHING = r"@llvm\.(?:trap|donothing)"

SIZES = {"i8": 1, "i16": 2, "i32": 4, "i64": 8, "ptr": 8}
ADDRESS_ALIGNMENTS = (1, 3, 7)


class Refused(Exception):
    """A line has a form that is not known to be sound."""


def known(pattern, rest):
    found = re.fullmatch(pattern, rest)
    if not found:
        raise Refused
    return found


# ---- The rules, one for each instruction: what stands in its place, from its result's name and what stands behind its own


def alike(pattern):
    """The rule of what means the same for addresses of any width."""
    compiled = re.compile(pattern)

    def rule(start, rest):
        known(compiled, rest)
        return [start + rest]

    return rule


def name_of(start):
    """The name before an instruction, from which those of further results are made."""
    return re.match(r"  %(\S+) = ", start)[1].strip('"')


def a_variable(start, rest):
    kind, count, _ = known(rf" ({ONE}|\[(\d+) x i8\]){ALIGN}", rest).groups()
    if count and int(count) >= 1 << 31:
        raise Refused
    return [start + (rest.replace(" ptr", " i64", 1) if kind == "ptr" else rest)]


def halves(kind):
    """The members of a pair, and where the second one stands."""
    first, second = re.findall(ONE, kind) if kind[0] == "{" else ("i64", "i64")
    if first not in SIZES or second not in SIZES:
        raise Refused
    return first, second, max(SIZES[first], SIZES[second])


def a_load(start, rest):
    found = known(rf" ({ONE}|{BYTES}|{PAIR}), ptr ({ADDRESS}){ALIGN}((?:, !(?:noundef|range|nonnull) !\d+)*)", rest)
    kind, place, align, _ = found.groups()
    if not re.fullmatch(PAIR, kind):
        return [start + rest]
    first, second, offset = halves(kind)
    name, align = name_of(start), int(align)
    return [
        f"  %{name}.first = load {first}, ptr {place}, align {align}",
        f"  %{name}.behind = getelementptr i8, ptr {place}, i64 {offset}",
        f"  %{name}.second = load {second}, ptr %{name}.behind, align {min(align, offset)}",
        f"  %{name}.half = insertvalue {kind} poison, {first} %{name}.first, 0",
        f"{start[:-5]} insertvalue {kind} %{name}.half, {second} %{name}.second, 1",
    ]


class Stores:
    """The rule of what is written. Its further results have numbers, since a store has no name."""

    def __init__(self):
        self.count = 0

    def __call__(self, start, rest):
        kind, value, place, align = known(rf" ({ONE}|{BYTES}|{PAIR}) ({VALUE}), ptr ({ADDRESS}){ALIGN}", rest).groups()
        self.count += 1
        behind, align = f"%behind.{self.count}", int(align)
        if kind == "ptr":
            return [
                start + rest,
                f"  {behind} = getelementptr i8, ptr {place}, i64 4",
                f"  store i32 0, ptr {behind}, align {min(align, 4)}",
            ]
        if not re.fullmatch(PAIR, kind):
            return [start + rest]
        first, second, offset = halves(kind)
        lines = [f"  {behind}.{part} = extractvalue {kind} {value}, {part}" for part in (0, 1)]
        lines.append(f"  {behind} = getelementptr i8, ptr {place}, i64 {offset}")
        lines += self("  store", f" {first} {behind}.0, ptr {place}, align {align}")
        return lines + self("  store", f" {second} {behind}.1, ptr {behind}, align {min(align, offset)}")


def an_address_as_number(start, rest):
    place = known(rf" ptr ({ADDRESS}) to i64", rest)[1]
    name = name_of(start)
    return [f"  %{name}.narrow = ptrtoaddr ptr {place} to i32", f"{start[:-len('ptrtoaddr')]}zext i32 %{name}.narrow to i64"]


CALL = re.compile(rf"{GIVEN} ({KIND})(?: \(ptr, i32, \.\.\.\))? ({ADDRESS})\((.*)\)((?: #\d+)*)")
ARGUMENT = re.compile(rf"(?:{ONE}|{PAIR}|{BYTES}){GIVEN} {VALUE}")


class Calls:
    """The rule of calls: a length in memory is cut to 32 bits."""

    def __init__(self):
        self.count = 0

    def __call__(self, start, rest):
        callee, given = known(CALL, rest).group(2, 3)
        if found := re.fullmatch(rf"({MOVE})i64", callee):
            return self.in_memory(start, found[1], given)
        if callee.startswith("@llvm.") and not re.fullmatch(rf"{PURE}|{NEEDS_NOTHING}", callee):
            raise Refused
        known(rf"(?:{ARGUMENT.pattern}(?:, {ARGUMENT.pattern})*)?", given)
        return [start + rest]

    def in_memory(self, start, callee, given):
        into, of, length = known(rf"ptr ({ADDRESS}), ((?:ptr|i8) {VALUE}), i64 ({NUMBER}), i1 false", given).groups()
        if re.fullmatch(r"\d+", length):
            if int(length) >= 1 << 31:
                raise Refused
            return [f"{start} void {callee}i32(ptr {into}, {of}, i32 {length}, i1 false)"]
        self.count += 1
        cut = f"%length.{self.count}"
        return [f"  {cut} = trunc i64 {length} to i32", f"{start} void {callee}i32(ptr {into}, {of}, i32 {cut}, i1 false)"]


FLAGS = r"(?: nuw| nsw| nneg| exact| disjoint)*"
OF_TWO = alike(rf"{FLAGS} (?:{INT}|{BYTES}) {NUMBER}, {NUMBER}")
OF_ONE = alike(rf"{FLAGS} (?:{INT}|{BITS}|{LANES}) {NUMBER} to (?:{INT}|{LANES})")
UNSIGNED = r"(?:eq|ne|ult|ule|ugt|uge)"
RULES = {
    **dict.fromkeys("add sub mul udiv sdiv urem srem and or xor shl lshr ashr".split(), OF_TWO),
    **dict.fromkeys("zext sext trunc bitcast".split(), OF_ONE),
    "icmp": alike(rf" (?:\w+ (?:{INT}|{BYTES}) {NUMBER}, {NUMBER}|{UNSIGNED} ptr {ADDRESS}, {ADDRESS})"),
    "select": alike(rf" i1 {NUMBER}, {ONE} {VALUE}, {ONE} {VALUE}"),
    "phi": alike(rf" {ONE} \[ {VALUE}, %{NAME} \](?:, \[ {VALUE}, %{NAME} \])*"),
    "shufflevector": alike(rf" {BYTES} {NUMBER}, {BYTES} {NUMBER}, <\d+ x i32> {NUMBER}"),
    "extractelement": alike(rf" {LANES} {NUMBER}, i32 \d+"),
    "extractvalue": alike(rf" {PAIR} {VALUE}, [01]"),
    "insertvalue": alike(rf" {PAIR} {VALUE}, {ONE} {VALUE}, [01]"),
    "getelementptr": alike(rf"(?: inbounds| nusw| nuw)* i8, ptr {ADDRESS}, i64 {NUMBER}"),
    "br": alike(rf" (?:label %{NAME}|i1 {NUMBER}, label %{NAME}, label %{NAME})"),
    "switch": alike(rf" {INT} {NUMBER}, label %{NAME} \["),
    "ret": alike(rf" (?:void|(?:{ONE}|{PAIR}) {VALUE})"),
    "unreachable": alike(""),
    "alloca": a_variable,
    "load": a_load,
    "ptrtoaddr": an_address_as_number,
}
STARTS = re.compile(rf"(  (?:%{NAME} = )?(?:(?:tail|notail) )?(\w+))(.*)")
IDLE = re.compile(rf"(?:{NAME}:)? *(?:;.*)?")
OF_SWITCH = re.compile(rf"    {INT} -?\d+, label %{NAME}|  \]")


# ---- Addresses as numbers


class Numbers:
    """The numbers of a function that are addresses, or the difference of two: each use is one of those that are known."""

    def __init__(self, lines):
        text = "\n".join(lines)
        self.addresses = set(re.findall(rf"^  (%{NAME}) = ptrtoaddr ", text, re.M))
        self.differences = set()
        if self.addresses:
            taken = re.findall(rf"^  (%{NAME}) = sub i64 (%{NAME}), (%{NAME})$", text, re.M)
            self.differences = {it for it, one, other in taken if {one, other} <= self.addresses}

    def judge(self, line):
        """Refuses a line that uses such a number in another way."""
        if not self.addresses:
            return
        result, _, does = line.rpartition(" = ")
        used = {it for it in re.findall(rf"%{NAME}", does) if it in self.addresses or it in self.differences}
        if not used or result.strip() in self.differences:
            return
        if found := re.fullmatch(rf"and i64 (%{NAME}), (\d+)", does):
            if found[1] in self.addresses and int(found[2]) in ADDRESS_ALIGNMENTS:
                return
        if re.fullmatch(rf"icmp (?:ult|ule|ugt|uge) i64 {NUMBER}, {NUMBER}", does) and used <= self.differences:
            return
        raise Refused


# ---- The parts of a module


class Module:
    """Takes a module's lines one by one, and keeps those of the new one."""

    def __init__(self, processor, options):
        self.layout, self.triple = TARGETS[processor]
        self.attribute = "optsize " if "size" in options else ""
        self.rules = {**RULES, "store": Stores(), "call": Calls()}
        self.lines, self.numbers = [], None

    def instruction(self, line):
        self.numbers.judge(line)
        if OF_SWITCH.fullmatch(line):
            return [line]
        found = known(STARTS, line)
        if found[2] not in self.rules:
            raise Refused
        return self.rules[found[2]](found[1], found[3])

    def declared(self, line):
        kind, name, given = known(rf"declare{GIVEN} ({KIND}) @({NAME})\((.*)\)(?: #\d+)*", line).groups()
        plain = re.sub(r" (?:noundef|signext|zeroext)", "", given)
        if re.fullmatch(rf"{MOVE}i64", f"@{name}"):
            return [re.sub(r"\.i64\((.*), i64, i1", r".i32(\1, i32, i1", line)]
        if re.fullmatch(rf"{PURE}|{NEEDS_NOTHING}", f"@{name}") or f"{kind} {name}({plain})" in BORDER:
            return [line]
        if f"{name}({plain})" not in BORDER[:2] or kind not in ("{ i64, i64 }", "[2 x i64]"):
            raise Refused
        named = ", ".join(f"{it} %{place}" for place, it in enumerate(plain.split(", ")))
        return ALLOCATION.format(name=name[7:], pair=kind, types=f", {plain}", named=named).splitlines()

    def attributes(self, line):
        start, words = known(r"(attributes #\d+ = \{)(.*) \}", line).groups()
        known(r'(?: (?:[a-z]+(?:\([a-z: ]*\))?|"(?:frame-pointer|probe-stack|stack-probe-size|target-cpu|target-features)"="[^"]*"))*', words)
        kept = [it for it in re.findall(r'[a-z]+(?:\([^)]*\))?|"[^"]*"="[^"]*"', words) if it[0] != '"']
        if self.attribute and not {"alwaysinline", "nobuiltin", "nocallback"} & set(kept):
            kept.append(self.attribute)
        return [f"{start} {' '.join(kept or ['nounwind'])} }}"]

    def outside(self, line):
        """What stands in the place of a line that is in no function."""
        if not line or line[0] in ";!" or line.startswith("source_filename"):
            return [line]
        if line.startswith("target datalayout"):
            known(r'target datalayout = "e-m:e-[^"]*"', line)
            return [f'target datalayout = "{self.layout}"']
        if line.startswith("target triple"):
            return [f'target triple = "{self.triple}"']
        if line.startswith("declare"):
            return self.declared(line)
        if line.startswith("attributes"):
            return self.attributes(line)
        known(rf'@{NAME} = private unnamed_addr constant \[\d+ x i8\] (?:c"[^"]*"|zeroinitializer), align \d+', line)
        return [line]

    def begins(self, line):
        """A function's first line, which says nothing of how large something is in memory."""
        found = known(rf"define(?: internal)?{GIVEN} {KIND} @{NAME}\((.*)\)(?: noinline| alwaysinline)?(?: #\d+)* \{{", line)
        parameter = rf"(?:{ONE}|{PAIR}){GIVEN} %{NAME}"
        known(rf"(?:{parameter}(?:, {parameter})*)?", found[1])

    def of_function(self, line):
        if line == "}":
            self.numbers = None
        elif not IDLE.fullmatch(line):
            return self.instruction(line)
        return [line]

    def take(self, lines):
        """Takes all lines, or answers the place of the one that is refused."""
        for place, line in enumerate(lines):
            try:
                if line.startswith("define"):
                    self.begins(line)
                    self.numbers = Numbers(lines[place:lines.index("}", place)])
                    self.lines.append(line)
                elif self.numbers:
                    self.lines += self.of_function(line)
                else:
                    self.lines += self.outside(line)
            except (Refused, ValueError):
                return place
        return None


def main(source, to, processor, *options):
    with open(source) as file:
        lines = file.read().split("\n")
    module = Module(processor, options)
    refused = module.take(lines)
    if refused is not None:
        sys.exit(f"addresses32: {source}:{refused + 1} has a form that is not known to be sound: {lines[refused].strip()}")
    with open(to, "w") as file:
        file.write("\n".join(module.lines))


if __name__ == "__main__":
    words = sys.argv[1:]
    if not (3 <= len(words) <= 4 and words[2] in TARGETS and words[3:] in ([], ["size"])):
        sys.exit(__doc__.split("\n\n")[0])
    main(*words)
