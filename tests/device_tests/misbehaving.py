"""The program and its drivers over chips that misbehave, under the address sanitizer and that of undefined behaviour."""
import os
import platform
import shutil
import subprocess

from .common import PORT, ROOT, Skipped, can_be_built, same

TESTS = f"{ROOT}/tests/device_tests"
CASES = 15
# what the program and its driver call by a name of the system's, or of the compiler's
NAMES = "main read write pread pwrite open close statx __sysv_signal memcpy memmove memset memcmp bcmp".split()
SANITIZERS = ["-fsanitize=address,undefined", "-fno-sanitize-recover=all", "-fno-builtin", "-g", "-O1", "-no-pie", "-Wall", "-Wextra", "-Werror"]


def program():
    """The program for this computer, each of whose calls has a name of its own."""
    for tool in ("cc", "objcopy"):
        if not shutil.which(tool):
            raise Skipped(f"there is no {tool}")
    if platform.machine() != "x86_64":
        raise Skipped(f"no program is made for {platform.machine()}")
    can_be_built()
    subprocess.run([f"{PORT}/object", "x86_64"], check=True)
    renamed = [word for it in NAMES for word in ("--redefine-sym", f"{it}=node_{it}")]
    out = os.environ.get("PORT_OUT", f"{PORT}/out")
    subprocess.run(["objcopy", *renamed, f"{out}/x86_64.o", "program.o"], check=True)


def run_over(driver, *defined):
    """Runs the cases over the chips of a driver."""
    program()
    names = [f"-D{it}=node_{it}" for it in NAMES]
    for source, words in {
        f"{PORT}/node.c": names,
        f"{PORT}/{driver}": ['-DBUS="bus.h"', "-DMOST_POLLS=1000", f"-I{TESTS}"],
        f"{TESTS}/chips.c": list(defined),
    }.items():
        subprocess.run(["cc", "-std=gnu11", *SANITIZERS, *words, "-c", source], check=True)
    objects = ["node.o", f"{driver[:-2]}.o", "chips.o", "program.o"]
    subprocess.run(["cc", *SANITIZERS, *objects, "-o", "chips"], check=True)
    ended = subprocess.run(["./chips", str(CASES)], stdout=subprocess.PIPE, stderr=subprocess.PIPE)
    same((ended.returncode, ended.stderr), (0, b""), f"the end of the cases over {driver}, which said {ended.stdout.decode()}")
    print(f"{driver}: {ended.stdout.decode()}", end="", flush=True)


def test_mapped_chips_that_misbehave_lose_no_acknowledged_row():
    run_over("chip.c")


def test_serial_chips_that_misbehave_lose_no_acknowledged_row():
    run_over("nor.c", "-DSERIAL")
