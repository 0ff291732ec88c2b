"""What the tools share: their arguments for a line, and how they end.

A tool ends with a status, and if something went wrong with a line on standard error that says what.
"""
import argparse
import contextlib
import os
import signal
import sys

from sorachest.ways import TIMEOUT

Description = argparse.RawDescriptionHelpFormatter


def parser(description):
    return argparse.ArgumentParser(description=description, formatter_class=Description)


def add_line(parser, word="line", **how):
    """The arguments for a line."""
    text = "an image, a port's or a socket's path, tcp:HOST:PORT, or run:COMMAND"
    parser.add_argument(word, help=text, **how)
    parser.add_argument("--speed", type=int, help="bits a second of a port (its current setting)")
    parser.add_argument("--timeout", type=float, default=TIMEOUT, help=f"seconds to wait for a reply ({TIMEOUT:g})")


def name():
    """The name by which this program was called."""
    called = os.path.basename(sys.argv[0])
    return "sorachest" if called in ("", "__main__.py", "-c") else called


def end_by(number):
    """Ends this process as an unhandled signal does."""
    signal.signal(number, signal.SIG_DFL)
    signal.raise_signal(number)


def run(work, *errors):
    """Does a tool's work and returns its status: what the work returns, 0 if that is None, and 1 if it failed.

    A tool that is interrupted, or whose output nobody reads any more, ends by that signal without a word, once
    its work has let go of its line.
    """
    try:
        # closed here, so that a failed write is reported
        with open(1, "w", encoding="utf-8", closefd=False) as output, contextlib.redirect_stdout(output):
            return work() or 0
    except KeyboardInterrupt:
        end_by(signal.SIGINT)
    except BrokenPipeError:
        end_by(signal.SIGPIPE)
    except (OSError, *errors) as error:
        print(f"{name()}: {error}", file=sys.stderr)
    return 1
