"""The library as it is built: its names, and the packages that find it."""
import os
import re
import shutil

from library_tests.common import ROOT, Skipped, ended, needs, read, same, write
from node_tests.common import BUILT, NODE, TARGETS

USER = b"""#include <sorachest_node.h>
int main(void) { return sorachest_version() != SORACHEST_VERSION; }
"""


def targets():
    """What was built of the header as it stands."""
    header = read(f"{NODE}/sorachest_node.h")
    copies = {it: f"{NODE}/out/{it}/include/sorachest_node.h" for it in os.listdir(f"{NODE}/out")}
    return sorted(it for it, copy in copies.items() if os.path.exists(copy) and read(copy) == header)


def test_the_header_s_calls_are_the_only_names():
    needs("nm")
    declared = set(re.findall(r"^(?!static|typedef)\w.*\b(sorachest_\w+)\(.*;$", read(f"{NODE}/sorachest_node.h").decode(), re.M))
    same(len(declared), 22, "how many calls there are")
    for target in TARGETS:
        if target not in targets():
            same(ended([f"{NODE}/build", target])[::2], (0, ""), f"the end of node/build {target}")
        status, told, said = ended(["nm", "--extern-only", f"{NODE}/out/{target}/lib/sorachest_node.o"])
        same((status, said), (0, ""), f"the end of nm for {target}")
        names = {(kind, name) for kind, name in re.findall(r"(\w) (\w+)$", told.decode(), re.M)}
        same({name for kind, name in names if kind != "U"}, declared, f"the global names for {target}")
        wanted = {name for kind, name in names if kind == "U"}
        same({it for it in wanted if not it.startswith("__")} - {"memcpy", "memmove", "memset", "memcmp"}, set(), f"what {target} wants")
        print(f"{target} wants {', '.join(sorted(wanted))}")


def test_pkg_config_finds_it():
    needs("pkg-config", "cc")
    shutil.copytree(BUILT, "moved")
    write("user.c", USER)
    how = {"env": {**os.environ, "PKG_CONFIG_PATH": os.path.abspath("moved/lib/pkgconfig")}}
    words = ended(["pkg-config", "--cflags", "--libs", "sorachest_node"], **how)[1].decode().split()
    same(ended(["cc", "user.c", *words, "-o", "user"]), (0, b"", ""), f"the end of cc with {words}")
    same(ended(["./user"])[0], 0, "the status of the program")


def test_cmake_finds_it():
    needs("cmake", "cc")
    shutil.copytree(BUILT, "moved")
    write("user.c", USER)
    write("CMakeLists.txt", b"""cmake_minimum_required(VERSION 3.13)
project(user C)
find_package(sorachest 1 REQUIRED)
add_executable(user user.c)
target_link_libraries(user PRIVATE sorachest::node)
""")
    prefix = f"-DCMAKE_PREFIX_PATH={os.path.abspath('moved')}"
    for words in (["cmake", "-S", ".", "-B", "made", prefix], ["cmake", "--build", "made"]):
        status, _, said = ended(words)
        same(status, 0, f"the status of {words}, which said {said}")
    same(ended(["made/user"])[0], 0, "the status of the program")
    write("CMakeLists.txt", read("CMakeLists.txt").replace(b"sorachest 1", b"sorachest 2"))
    same(ended(["cmake", "-S", ".", "-B", "other", prefix])[0] != 0, True, "that another number of the interface is refused")


FIRMWARE = b"""
#include <sorachest_node.h>
void *memcpy(void *into, const void *from, size_t count) { return (void)from, (void)count, into; }
void *memmove(void *into, const void *from, size_t count) { return (void)from, (void)count, into; }
void *memset(void *into, int byte, size_t count) { return (void)byte, (void)count, into; }
int memcmp(const void *one, const void *other, size_t count) { return (void)one, (void)other, (int)count; }
void __aeabi_ldivmod(void) {}
void __aeabi_uldivmod(void) {}
float half(float number) { return number / 2; }
void _start(void) { sorachest_close(0); }
"""


def test_a_firmware_that_computes_with_floating_point_links_it():
    needs("arm-none-eabi-ld")
    if "thumbv7em" not in targets():
        raise Skipped("it was not built for thumbv7em")
    write("user.c", FIRMWARE)
    clang = f"{os.path.dirname(os.path.dirname(os.path.realpath(shutil.which('rt'))))}/toolchain/bin/clang"
    built = f"{NODE}/out/thumbv7em"
    words = ["--target=thumbv7em-unknown-none-eabihf", "-mcpu=cortex-m4", "-mfloat-abi=hard", "-ffreestanding", "-fno-builtin"]
    words += ["-isystem", f"{ROOT}/port/include", f"-I{built}/include", "-c", "user.c", "-o", "user.o"]
    same(ended([clang, *words])[0], 0, "the status of the compiler")
    same(ended(["arm-none-eabi-ld", "user.o", f"{built}/lib/sorachest_node.o", "-o", "user"]), (0, b"", ""), "the end of the linker")


def test_the_two_headers_are_not_for_one_program():
    needs("cc")
    write("user.c", b'#include "sorachest.h"\n#include "sorachest_node.h"\n')
    status, _, said = ended(["cc", "-fsyntax-only", f"-I{NODE}", f"-I{NODE}/../c", "user.c"])
    same((status != 0, "include one of them" in said), (True, True), "what is said of both")
