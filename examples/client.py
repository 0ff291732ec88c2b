#!/usr/bin/env python3
"""Fetches the answer of a query, row by row, from `antelope serve` over a serial port or a pty.

The module `clients/antelope.py` does the rest: it drains what noise has left on the line, opens a cursor,
fetches to its end and closes it.

    client.py /dev/ttyUSB0 --speed 115200 'SELECT k FROM s'
"""
import argparse
import os
import sys

sys.path.insert(0, os.path.join(os.path.dirname(os.path.realpath(__file__)), "..", "clients"))
import antelope
import antelope_tool


def fetch(wanted):
    """Prints the rows of the answer as they come."""
    with antelope.connect(
        wanted.path, client=wanted.client, speed=wanted.speed, timeout=wanted.timeout
    ) as station:
        for row in station.cursor().execute(wanted.query):
            print(antelope.row_text(row), flush=True)


def main():
    parser = argparse.ArgumentParser(description=__doc__, formatter_class=argparse.RawDescriptionHelpFormatter)
    parser.add_argument("path", help="the serial port or pty that the program is on")
    parser.add_argument("query", help="SELECT or JOIN, without a `;`")
    parser.add_argument("--client", type=int, choices=range(1, 5), default=1, help="who asks (1)")
    parser.add_argument("--speed", type=int, help="bits a second of the port; as it is set, if not given")
    parser.add_argument("--timeout", type=float, default=10.0, help="seconds to wait for a reply (10)")
    wanted = parser.parse_args()
    return antelope_tool.run("client.py", lambda: fetch(wanted), antelope.Error)


if __name__ == "__main__":
    sys.exit(main())
