"""Runs a netlist for the rows of 0 and 1 on standard input, one for each clock, and prints a row of outputs for each.

Usage: python3 run.py netlist.blif < rows. Status: 0 with rows, 1 with a refusal.
"""

import sys

import vumneath


def main() -> int:
    if len(sys.argv) != 2:
        print("usage: python3 run.py netlist.blif < rows", file=sys.stderr)
        return 2
    with open(sys.argv[1], "rb") as file:
        text = file.read()
    try:
        ran = vumneath.read(text).run(sys.stdin.buffer.read())
    except vumneath.Refusal as refusal:
        print(f"refused={refusal.number}")
        return 1
    sys.stdout.write(ran.decode("ascii"))
    return 0


sys.exit(main())
