"""Reads a netlist from standard input, lists its gates and writes it back.

Usage: python3 example.py < netlist.blif. Status: 0 with a text, 1 with a refusal.
"""

import sys

import vumneath


def main() -> int:
    try:
        network = vumneath.read(sys.stdin.buffer.read())
        written = vumneath.write(network)
    except vumneath.Refusal as refusal:
        print(f"refused={refusal.number}")
        return 1
    print(f"inputs: {network.inputs}, gates: {len(network.gates)}, outputs: {len(network.outputs)}")
    for v, gate in enumerate(network.gates):
        print(f"x{v} = {gate}")
    sys.stdout.write(written.decode("ascii"))
    return 0


sys.exit(main())
