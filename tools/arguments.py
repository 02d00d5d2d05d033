"""The arguments that the scripts over the native program share."""

import argparse
import pathlib

PROGRAM = pathlib.Path(__file__).resolve().parent.parent / "crates/zones_cli/out/zones_cli"


def arguments(doc, *switches, options=()):
    """How many inputs, the seed that they are made from, the program, and the switches and options of one script."""
    parser = argparse.ArgumentParser(description=doc.split("\n")[0])
    parser.add_argument("--count", type=int, default=1000)
    parser.add_argument("--seed", type=int, default=1)
    parser.add_argument("--program", default=str(PROGRAM))
    for switch in switches:
        parser.add_argument("--" + switch, action="store_true")
    for option in options:
        parser.add_argument("--" + option)
    return parser.parse_args()
