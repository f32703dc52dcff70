"""The program passreport beside the Rust and the Python functions: stored netlists and sheets and the example's pass.

Usage: python3 test_passreport.py PASSREPORT EXAMPLE, with the paths of the program and of the built example report.rs. Each netlist and
sheet become a folder. The program and the example have to print for it what the module makes of the two texts, and to end with 0 where that
is a report and with 1 where it is a refusal. The first ten differences are a line each; the last line is 'N folders, M differences'.
Status: 0 where M is 0, 1 else, 2 bad use.
"""

import collections
import os
import subprocess
import sys
import tempfile

from test_vumneath import HERE, printed, stored_reports

FILES = ("netlist.blif", "sheet.txt")


def texts_of(folder):
    """The netlist and the sheet of a folder."""
    texts = []
    for name in FILES:
        with open(os.path.join(folder, name), "rb") as file:
            texts.append(file.read())
    return texts


def differences(folder, commands):
    """A line for each command that, run in a folder, prints another thing than the module gives or ends with another status."""
    wanted = printed(*texts_of(folder))
    status = 1 if wanted.startswith(b"refused=") else 0
    for command in commands:
        ran = subprocess.run(command, cwd=folder, stdin=subprocess.DEVNULL, capture_output=True, check=False)
        if (ran.returncode, ran.stdout) != (status, wanted):
            yield f"{command[0]} prints {ran.stdout} and ends with {ran.returncode}, where {wanted} and {status} are wanted"


def make_folders(room):
    """A folder for each of the stored netlists and sheets, at most ten for which the same is printed; their paths."""
    seen = collections.Counter()
    for i, (_, *texts) in enumerate(stored_reports()):
        said = printed(*texts)
        seen[said] += 1
        if seen[said] > 10:
            continue
        folder = os.path.join(room, f"report {i}")
        os.mkdir(folder)
        for name, text in zip(FILES, texts):
            with open(os.path.join(folder, name), "wb") as file:
                file.write(text)
        yield folder


def main():
    if len(sys.argv) != 3:
        print("usage: python3 test_passreport.py PASSREPORT EXAMPLE", file=sys.stderr)
        return 2
    program, example = map(os.path.abspath, sys.argv[1:])
    found = []
    with tempfile.TemporaryDirectory() as room:
        folders = [os.path.join(HERE, "../pass"), *make_folders(room)]
        for folder in folders:
            found += [f"{os.path.basename(folder)}: {line}" for line in differences(folder, ([program], [example, *FILES]))]
    for line in found[:10]:
        print(line)
    print(f"{len(folders)} folders, {len(found)} differences")
    return 1 if found else 0


if __name__ == "__main__":
    sys.exit(main())
