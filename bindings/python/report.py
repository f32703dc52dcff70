"""Prints the report for a pass log: how many commands of a sheet the interlock of a netlist accepts and rejects.

Usage: python3 report.py netlist.blif sheet.txt. Status: 0 with a report, 1 with a refusal.
"""

import sys

import vumneath


def content(path: str) -> bytes:
    with open(path, "rb") as file:
        return file.read()


def main() -> int:
    if len(sys.argv) != 3:
        print("usage: python3 report.py netlist.blif sheet.txt", file=sys.stderr)
        return 2
    try:
        report = vumneath.report(content(sys.argv[1]), content(sys.argv[2]))
    except vumneath.Refusal as refusal:
        print(f"refused={refusal.number}")
        return 1
    print(report, end="")
    return 0


sys.exit(main())
