"""Commands by hand, and the hub: `python3 -m sorachest ask|hub`."""
import argparse
import sys

import sorachest
from sorachest import hub, tool
from sorachest.dbapi import connect
from sorachest.errors import Error
from sorachest.line import CLIENTS
from sorachest.ways import LineFailed


def ask(wanted):
    """Sends commands, and prints the replies as they come; ends with 1 if one is a refusal."""
    status = 0
    with connect(wanted.line, client=wanted.client, speed=wanted.speed, timeout=wanted.timeout) as station:
        for command in wanted.commands:
            reply = station._reply(command.strip().removesuffix(";"))
            print(*reply, sep="\n", flush=True)
            status = 1 if reply[-1].startswith("no ") else status
    return status


def main():
    parser = tool.parser(sorachest.__doc__)
    if sys.argv[0].endswith("__main__.py"):
        parser.prog = "python3 -m sorachest"
    forms = parser.add_subparsers(required=True, metavar="ask|hub")
    form = forms.add_parser("ask", help=ask.__doc__, description=ask.__doc__)
    form.set_defaults(do=ask)
    tool.add_line(form)
    form.add_argument("--client", type=int, choices=CLIENTS, default=1, help="the number of the client (1)")
    form.add_argument("commands", nargs="+", metavar="command", help="a command of AQL")
    hub_form = forms.add_parser("hub", help=hub.SUMMARY, description=hub.__doc__, formatter_class=tool.Description)
    hub.add_arguments(hub_form)
    hub_form.set_defaults(do=hub.lend)
    wanted = parser.parse_args()
    return tool.run(lambda: wanted.do(wanted), Error, LineFailed)


if __name__ == "__main__":
    sys.exit(main())
