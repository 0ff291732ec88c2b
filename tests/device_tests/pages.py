"""What the pages show of boards."""
import os
import subprocess

from .common import ROOT, can_be_built, linux, processors, same

# the pages that show boards, and are not run by tests/program
PAGES = ("README.md", "port/README.md")


def shown_boards(page):
    """The commands of a page that want a board, or what it left, and what is shown below them; a line has a test of its own."""
    wanted = lambda command: "port/" in command if page == "README.md" else "/tmp/" not in command
    return [it for it in linux.commands_of(page) if wanted(it[0])]


def test_the_boards_that_the_pages_show_write_what_is_shown():
    for it in ("aarch64", "thumbv7em", "riscv32"):
        processors((it,))
    can_be_built()
    how, here = {"stdin": subprocess.DEVNULL}, os.getcwd()
    for place, page in enumerate(PAGES):
        os.mkdir(str(place))
        os.chdir(str(place))
        for name in ("port", "examples"):
            os.symlink(f"{ROOT}/{name}", name)
        # the launcher would prove the program in the place of one that was given
        os.symlink(f"{ROOT}/antelope" if linux.tried.is_proved else linux.tried.program, "antelope")
        shown = shown_boards(page)
        same(shown != [], True, f"that {page} shows boards")
        for command, lines in shown:
            linux.follow(command, lines, how)
        os.chdir(here)
