"""The words of `tools/routing`, and how it ends."""
import argparse
import os
import sys

from . import campaign, diff, export, faults, fuzz, inflight, load, network_command, view
from .trouble import BAD_INPUT, Trouble

COMMANDS = [view, network_command, export, diff, inflight, fuzz, faults, campaign, load]
CODES = "Exit status: 0 done; 1 a difference or a failure was found; 2 wrong words; 3 a bad file or run; 4 a tool is missing."


def parser():
    made = argparse.ArgumentParser(
        prog="routing", description="Pictures, networks, text and many runs of consensus_routing. None of it is proved.", epilog=CODES
    )
    chosen = made.add_subparsers(dest="command", metavar="COMMAND", required=True)
    for command in COMMANDS:
        head = command.__doc__.strip().split("\n", 1)
        below = chosen.add_parser(
            command.NAME, help=head[0].rstrip("."), description=command.__doc__.strip(), epilog=CODES,
            formatter_class=argparse.RawDescriptionHelpFormatter,
        )
        command.add_arguments(below)
        below.set_defaults(run=command.run)
    return made


def main(words=None):
    asked = parser().parse_args(words)
    try:
        code = asked.run(asked)
        sys.stdout.flush()
        return code
    except Trouble as cause:
        print(f"routing {asked.command}: {cause}", file=sys.stderr)
        return cause.code
    except KeyboardInterrupt:
        print(f"routing {asked.command}: stopped", file=sys.stderr)
        return BAD_INPUT
    except BrokenPipeError:
        # whoever read standard output has seen enough: nothing is left to be written at the end
        os.dup2(os.open(os.devnull, os.O_WRONLY), sys.stdout.fileno())
        return 0
