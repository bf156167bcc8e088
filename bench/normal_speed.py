#!/usr/bin/env python3
"""Times cyp_goal's `normal` beside three copies of the same node and hashing it once.

It copies the crates cyp_term, cyp_heap and cyp_goal into a temporary folder, adds the program normal_speed_main.txt to them,
and proves and builds it there. The repository itself stays as it is. Times are of the processor, each a median of many rounds.
The nodes are like those of the list copy: two list nodes on each side, with instances left out, and more and more literals.
"""
import os
import shutil
import statistics
import subprocess
import sys
import tempfile

HERE = os.path.dirname(os.path.abspath(__file__))
CRATES = os.path.join(os.path.dirname(HERE), "crates")
LIBRARIES = {"cyp_term": " thiserror", "cyp_heap": " cyp_term thiserror", "cyp_goal": " cyp_heap cyp_term thiserror"}


def build(folder):
    """Returns the path of the program."""
    crates = os.path.join(folder, "crates")
    for name in LIBRARIES:
        shutil.copytree(os.path.join(CRATES, name), os.path.join(crates, name), ignore=shutil.ignore_patterns("out"))
    program = os.path.join(crates, "normal_speed")
    os.makedirs(os.path.join(program, "src"))
    shutil.copy(os.path.join(HERE, "normal_speed_main.txt"), os.path.join(program, "src", "main.rt"))
    with open(os.path.join(folder, "crates.txt"), "w", encoding="utf-8") as lines:
        for name, uses in LIBRARIES.items():
            lines.write(f"{name}:{uses}\n")
        lines.write("normal_speed: cyp_goal cyp_heap cyp_term\n")
    ran = subprocess.run(["rt", "run", "--", "4", "0", "0", "0"], cwd=program, stdin=subprocess.DEVNULL, capture_output=True, text=True)
    if ran.returncode != 0:
        sys.exit(ran.stdout[-4000:] + ran.stderr[-4000:])
    return os.path.join(program, "out", "normal_speed")


def units(literals):
    """The units of the normal form: program variables, chunks, positive addresses, and the literals."""
    chunks = 2 * (2 * 2 + 5 * 3)
    return 3 + chunks + 3 * 3 + sum(3 if number % 3 > 0 else 4 for number in range(literals))


def main():
    with tempfile.TemporaryDirectory() as folder:
        program = build(folder)
        for literals in (4, 12, 20, 28):
            for equations in (0, 1, 2):
                words = [program, str(literals), str(equations), "41", "200"]
                lines = subprocess.run(words, capture_output=True, text=True, check=True).stdout.split("\n")[:-1]
                copy, hashing, both = (statistics.median(int(line.split()[k]) for line in lines) for k in range(3))
                normal = both - copy
                print(
                    f"{units(literals)} units, {equations} equations: normal form {normal / 1000:.1f} us, {normal / units(literals):.0f} ns a unit, "
                    f"three copies {3 * copy / 1000:.1f} us, a hash {hashing / 1000:.1f} us, ratio {normal / (3 * copy + hashing):.2f}",
                    flush=True,
                )


main()
