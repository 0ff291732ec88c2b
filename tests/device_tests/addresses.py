"""`port/addresses32.py`: which forms of a module it refuses, and that what it makes of the others does the same."""
import contextlib
import os
import shutil
import subprocess
import sys

from . import common
from .common import PORT, same

sys.path.insert(0, PORT)
import addresses32

MODULE = """\
target datalayout = "e-m:e-p270:32:32-p271:32:32-p272:64:64-i8:8:32-i16:16:32-i64:64-i128:128-n32:64-S128-Fn32"
target triple = "aarch64-unknown-linux-gnu"

@static.0 = private unnamed_addr constant [4 x i8] c"\\01\\02\\03\\04", align 1
"""

FUNCTION = """
define internal void @"some::function"(ptr noundef %a0, i64 noundef %a1) #0 {
start:
  %r0 = ptrtoaddr ptr %a0 to i64
  %r1 = ptrtoaddr ptr @static.0 to i64
  %r2 = sub i64 %r0, %r1
LINES
  ret void
}

declare i64 @read(i32 noundef, ptr noundef, i64 noundef) #0
declare void @llvm.memmove.p0.p0.i64(ptr, ptr, i64, i1 immarg) #0

attributes #0 = { nounwind "target-cpu"="generic" }
"""

ACCEPTED_LINES = (
    "%x = and i64 %r0, 7",
    "%x = icmp ult i64 %r2, %a1",
    "%x = icmp ule i64 8, %r2",
    "%x = icmp ult ptr %a0, @static.0",
    "%x = load { i8, ptr }, ptr %a0, align 8, !noundef !1",
    "store [2 x i64] zeroinitializer, ptr %a0, align 4",
    "call void @llvm.memmove.p0.p0.i64(ptr %a0, ptr %a0, i64 %a1, i1 false)",
    "%x = call i64 @read(i32 0, ptr %a0, i64 1)",
)

REFUSED_LINES = (
    # a number that becomes an address
    "%x = inttoptr i64 %a1 to ptr",
    "store ptr inttoptr (i64 8 to ptr), ptr %a0, align 8",
    "%x = addrspacecast ptr %a0 to ptr addrspace(1)",
    # an address that becomes a number in another way
    "%x = ptrtoint ptr %a0 to i64",
    "%x = ptrtoaddr ptr %a0 to i32",
    "store i64 ptrtoint (ptr @static.0 to i64), ptr %a0, align 8",
    # other uses of such a number
    "%x = and i64 %r0, 15",
    "%x = and i64 %r2, 7",
    "%x = add i64 %r0, 8",
    "%x = add i64 %r2, 8",
    "%x = sub i64 %r0, %a1",
    "%x = sub i64 %a1, %r0",
    "%x = lshr i64 %r0, 32",
    "%x = trunc i64 %r0 to i32",
    "%x = icmp eq i64 %r0, 0",
    "%x = icmp ult i64 %r0, %r1",
    "%x = icmp slt i64 %r2, %a1",
    "%x = icmp eq i64 %r2, 0",
    "%x = select i1 true, i64 %r0, i64 0",
    "%x = insertvalue { i64, i64 } poison, i64 %r0, 0",
    "%x = getelementptr i8, ptr %a0, i64 %r2",
    "%x = call i64 @read(i32 0, ptr %a0, i64 %r0)",
    "call void @llvm.memmove.p0.p0.i64(ptr %a0, ptr %a0, i64 %r2, i1 false)",
    "store i64 %r0, ptr %a0, align 8",
    "store i64 %r2, ptr %a0, align 8",
    "switch i64 %r0, label %start [",
    "ret i64 %r0",
    # addresses that are compared with a sign
    "%x = icmp slt ptr %a0, @static.0",
    # things whose size an address would change
    "%x = getelementptr ptr, ptr %a0, i64 1",
    "%x = getelementptr { ptr, i8 }, ptr %a0, i64 0, i32 1",
    "%x = getelementptr i8, ptr getelementptr (i8, ptr @static.0, i64 1), i64 1",
    "%x = alloca { ptr, i64 }, align 8",
    "%x = alloca [2 x ptr], align 8",
    "%x = alloca i8, i64 %a1, align 1",
    "%x = alloca [2147483648 x i8], align 1",
    "%x = load { ptr, i64, i64 }, ptr %a0, align 8",
    "%x = load { i1, ptr }, ptr %a0, align 8",
    "%x = load [3 x i64], ptr %a0, align 8",
    "%x = load <2 x ptr>, ptr %a0, align 8",
    "store { { ptr, i8 }, i8 } poison, ptr %a0, align 8",
    "%x = extractvalue { ptr, i64, i64 } poison, 0",
    # what says that two accesses of other types do not meet
    "%x = load i64, ptr %a0, align 8, !tbaa !1",
    # memory that others see, or that changes by itself
    "%x = load volatile i64, ptr %a0, align 8",
    "%x = load atomic i64, ptr %a0 seq_cst, align 8",
    "store volatile ptr %a0, ptr %a0, align 8",
    "%x = atomicrmw add ptr %a0, i64 1 seq_cst",
    "fence seq_cst",
    # calls of a kind that is not known
    "call void asm sideeffect \"nop\", \"\"()",
    "call void @\"some::function\"(ptr byval({ ptr, i64 }) %a0, i64 0)",
    "call void @\"some::function\"(ptr sret({ ptr, i64 }) %a0, i64 0)",
    "call void @llvm.memmove.p0.p0.i64(ptr %a0, ptr %a0, i64 2147483648, i1 false)",
    "call void @llvm.memmove.p0.p0.i64(ptr %a0, ptr %a0, i64 8, i1 true)",
    "call void @llvm.memset.inline.p0.i64(ptr %a0, i8 0, i64 8, i1 false)",
    "%x = call i64 @llvm.objectsize.i64.p0(ptr %a0, i1 false, i1 true, i1 false)",
    "%x = call ptr @llvm.returnaddress(i32 0)",
    "invoke void @\"some::function\"(ptr %a0, i64 0) to label %start unwind label %start",
    "%x = va_arg ptr %a0, i64",
    "%x = freeze i64 %a1",
    "%x = fadd double 0.0, 0.0",
)

REFUSED_OUTSIDE = (
    "@address = private unnamed_addr constant ptr @static.0, align 8",
    "@both = private unnamed_addr constant { ptr, [8 x i8] } { ptr @static.0, [8 x i8] zeroinitializer }, align 8",
    "@changes = internal global [8 x i8] zeroinitializer, align 8",
    "@other = external global [8 x i8], align 8",
    "%struct = type { ptr, i64 }",
    "@alias = alias i8, ptr @static.0",
    "declare i64 @lseek(i32, i64, i32)",
    "declare i64 @read(i32, ptr, i32)",
    "declare i32 @read(i32, ptr, i64)",
    "declare { ptr, i64 } @rattle_alloc(i64, i64)",
    "declare i64 @llvm.objectsize.i64.p0(ptr, i1, i1, i1)",
    "define internal void @other({ ptr, i64, i64 } %a0) #0 {",
    "define internal void @other(ptr byval([16 x i8]) %a0) #0 {",
    "define internal [3 x ptr] @other() #0 {",
    'attributes #1 = { nounwind "unknown"="yes" }',
    "module asm \"nop\"",
    'target datalayout = "E-m:e-p:64:64"',
)


def rewritten(text, processor="thumbv7em"):
    """What the rewriter says, and what it makes."""
    common.write("in.ll", text.encode())
    with contextlib.suppress(FileNotFoundError):
        os.remove("out.ll")
    said = ""
    try:
        addresses32.main("in.ll", "out.ll", processor)
    except SystemExit as why:
        said = why.code
    return said, common.read("out.ll").decode() if os.path.exists("out.ll") else None


def refused(text, line):
    """That a module is refused with a line of it, and that nothing is made."""
    place = text.split("\n").index(line) + 1
    said = f"addresses32: in.ll:{place} has a form that is not known to be sound: {line.strip()}"
    same(rewritten(text), (said, None), f"what becomes of {line}")


def holding(lines):
    return MODULE + FUNCTION.replace("LINES", lines)


def test_an_address_of_32_bits_is_refused_where_a_form_is_not_known():
    lines = "\n".join(f"  {it}".replace("%x", f"%x{place}") for place, it in enumerate(ACCEPTED_LINES))
    same(rewritten(holding(lines))[0], "", "the end for forms that are known")
    for line in REFUSED_LINES:
        refused(holding(f"  {line}"), f"  {line}")
    for line in REFUSED_OUTSIDE:
        refused(f"{MODULE}{line}\n{FUNCTION}", line)


# Each check adds its bit to the status, so that all of them make 127.
RUN = """
define internal noundef { ptr, i64 } @"some::pair"(ptr noundef %a0) #0 {
start:
  %r0 = alloca [16 x i8], align 8
  store ptr %a0, ptr %r0, align 8
  %r1 = getelementptr i8, ptr %r0, i64 8
  store i64 3, ptr %r1, align 8
  %r2 = load { ptr, i64 }, ptr %r0, align 8
  ret { ptr, i64 } %r2
}

define internal noundef zeroext i1 @"some::overlap"(ptr noundef %a0, ptr noundef %a1, i64 noundef %a2) #0 {
start:
  %r0 = ptrtoaddr ptr %a0 to i64
  %r1 = ptrtoaddr ptr %a1 to i64
  %r2 = sub i64 %r0, %r1
  %r3 = icmp ult i64 %r2, %a2
  ret i1 %r3
}

define internal noundef i32 @"some::bit"(i32 noundef %a0, i1 noundef zeroext %a1, i32 noundef %a2) #0 {
start:
  %r0 = or i32 %a0, %a2
  %r1 = select i1 %a1, i32 %r0, i32 %a0
  ret i32 %r1
}

define i32 @main() #0 {
start:
  ; the last of 3 bytes after the first, by a pair
  %p = call { ptr, i64 } @"some::pair"(ptr @static.0)
  %p0 = extractvalue { ptr, i64 } %p, 0
  %p1 = extractvalue { ptr, i64 } %p, 1
  %p2 = getelementptr i8, ptr %p0, i64 %p1
  %p3 = load i8, ptr %p2, align 1
  %p4 = icmp eq i8 %p3, 4
  %s1 = call i32 @"some::bit"(i32 0, i1 %p4, i32 1)
  ; two pieces of 2 bytes: one byte apart, three apart, and the other way round
  %o0 = getelementptr i8, ptr @static.0, i64 1
  %o1 = getelementptr i8, ptr @static.0, i64 3
  %o2 = call i1 @"some::overlap"(ptr %o0, ptr @static.0, i64 2)
  %o3 = call i1 @"some::overlap"(ptr %o1, ptr @static.0, i64 2)
  %o4 = call i1 @"some::overlap"(ptr @static.0, ptr %o0, i64 2)
  %o5 = or i1 %o3, %o4
  %o6 = xor i1 %o5, true
  %o7 = and i1 %o2, %o6
  %s2 = call i32 @"some::bit"(i32 %s1, i1 %o7, i32 2)
  ; the upper half of an address in memory
  %u0 = alloca ptr, align 8
  call void @llvm.memset.p0.i64(ptr %u0, i8 -1, i64 8, i1 false)
  store ptr @static.0, ptr %u0, align 8
  %u1 = getelementptr i8, ptr %u0, i64 4
  %u2 = load i32, ptr %u1, align 4
  %u3 = icmp eq i32 %u2, 0
  %s3 = call i32 @"some::bit"(i32 %s2, i1 %u3, i32 4)
  ; a length that is a number of 64 bits
  %l0 = alloca [8 x i8], align 8
  call void @llvm.memset.p0.i64(ptr %l0, i8 0, i64 8, i1 false)
  %l1 = add i64 %p1, -1
  call void @llvm.memmove.p0.p0.i64(ptr %l0, ptr @static.0, i64 %l1, i1 false)
  %l2 = load i64, ptr %l0, align 8
  %l3 = icmp eq i64 %l2, 513
  %s4 = call i32 @"some::bit"(i32 %s3, i1 %l3, i32 8)
  ; the heap: a pair that C answers
  %h0 = call [2 x i64] @rattle_alloc(i64 16, i64 8)
  %h1 = alloca [16 x i8], align 8
  store [2 x i64] %h0, ptr %h1, align 8
  %h2 = load i64, ptr %h1, align 8
  %h3 = getelementptr i8, ptr %h1, i64 8
  %h4 = load ptr, ptr %h3, align 8
  store i64 77, ptr %h4, align 8
  %h5 = load i64, ptr %h4, align 8
  %h6 = add i64 %h5, %h2
  %h7 = icmp eq i64 %h6, 78
  %s5 = call i32 @"some::bit"(i32 %s4, i1 %h7, i32 16)
  ; how an address is aligned
  %a0 = ptrtoaddr ptr %h1 to i64
  %a1 = and i64 %a0, 7
  %a2 = icmp eq i64 %a1, 0
  %s6 = call i32 @"some::bit"(i32 %s5, i1 %a2, i32 32)
  ; a division of 64 bits: 2^40 + 5 by 2^33 is 128, and 5 is left
  %d0 = shl i64 %p1, 33
  %d1 = sub i64 %d0, 17179869184
  %d2 = add i64 %l2, 1099511627268
  %d3 = udiv i64 %d2, %d1
  %d4 = urem i64 %d2, %d1
  %d5 = add i64 %d3, %d4
  %d6 = icmp eq i64 %d5, 133
  %s7 = call i32 @"some::bit"(i32 %s6, i1 %d6, i32 64)
  ret i32 %s7
}

declare [2 x i64] @rattle_alloc(i64 noundef, i64 noundef) #1
declare void @llvm.memset.p0.i64(ptr writeonly captures(none), i8, i64, i1 immarg) #2
declare void @llvm.memmove.p0.p0.i64(ptr writeonly captures(none), ptr readonly captures(none), i64, i1 immarg) #3

attributes #0 = { noinline nounwind "frame-pointer"="non-leaf" "target-cpu"="generic" }
attributes #1 = { nobuiltin nounwind }
attributes #2 = { nocallback nofree nounwind willreturn memory(argmem: write) }
attributes #3 = { nocallback nofree nounwind willreturn memory(argmem: readwrite) }
"""


def test_a_module_for_addresses_of_32_bits_does_what_it_did():
    """Also on a processor of 64 bits, whose module nobody rewrote."""
    for processor in common.processors():
        common.write("module.ll", (MODULE + RUN).encode())
        here = {**os.environ, "PORT_MODULE": f"{os.getcwd()}/module.ll", "PORT_OUT": f"{os.getcwd()}/out"}
        subprocess.run([f"{PORT}/build", processor], env=here, check=True)
        ended = subprocess.run([f"{PORT}/boot", processor, "look", "chip"], env=here, stdin=subprocess.DEVNULL)
        same(ended.returncode, 127, f"the status on {processor}")
        os.remove("chip")
        shutil.rmtree("out")
