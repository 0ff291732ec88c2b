"""Lines to the program: both ends of a raw pty, and a station that is served on one."""
import contextlib
import os
import pty
import tty

from .common import Skipped, ended, same, start


def open_pty():
    try:
        return pty.openpty()
    except OSError as why:
        raise Skipped(f"there is no pty ({why})") from why


@contextlib.contextmanager
def opened_pty():
    """Both ends of a raw pty, which are closed at the end."""
    near, far = open_pty()
    tty.setraw(far)
    try:
        yield near, far
    finally:
        os.close(near)
        os.close(far)


@contextlib.contextmanager
def served(image, at=None):
    """The path of a line on which the program, or its launcher, serves an image."""
    near, far = open_pty()
    path = os.ttyname(far)
    begun = start("serve", image, "-", at=at, stdin=near, stdout=near)
    os.close(near)
    try:
        yield path
    finally:
        # the last one who has the line open lets go of it
        os.close(far)
        status, _ = ended(begun)
    # reading a line whose other end is gone is an error
    same(status, 2, "status of serve")
