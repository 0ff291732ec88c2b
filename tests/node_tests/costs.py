"""What INSERTs cost a flash, which no clause bounds: the longest of those that fill one, as port/README.md tells."""
import re

from library_tests.common import ended, same
from node_tests.common import compiled

SECTORS = 128


def filled(made, kind):
    """Reads, bytes, programs and erases of the longest of the INSERTs that fill a flash, and how many there were."""
    status, told, said = ended([made, str(SECTORS), kind])
    same((status, said), (0, ""), f"the end of what fills a flash, which told {told}")
    many = int(re.search(rb"^(\d+) inserts up to `no space ", told, re.M)[1])
    longest = re.search(rb"^the longest: (\d+) reads of (\d+) bytes, (\d+) programs, (\d+) erases", told, re.M)
    print(f"index {kind}:\n{told.decode()}", end="")
    return many, *map(int, longest.groups())


def test_the_longest_insert_is_counted():
    made = compiled("worst")
    for kind in ("none", "INLINE"):
        many, _, _, _, erases = filled(made, kind)
        same((many > 10_000, erases), (True, 0), "many INSERTs without an erase")
    many, _, read, programs, erases = filled(made, "MAXHEAP")
    same((many > 10_000, 0 < erases <= SECTORS), (True, True), f"that of {many} INSERTs the longest took {erases} erases")
    same((read < 2 * SECTORS * 4096, programs < 1000), (True, True), f"that it read {read} bytes in {programs} programs")
