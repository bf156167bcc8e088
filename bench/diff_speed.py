#!/usr/bin/env python3
"""Times cyp_diff's `solve` beside a plain C closure of differences (diff_speed.c), both on the same literals.

It copies the crates cyp_lanes, cyp_term and cyp_diff into a temporary folder, adds the program diff_speed_main.txt to them,
proves and builds it there, for the default processor and for x86-64-v3, and builds the C program with gcc -O3 -march=native.
The repository itself stays as it is. Times are of the processor, in microseconds, each a median of many rounds.
"""
import os
import random
import shutil
import statistics
import subprocess
import sys
import tempfile

HERE = os.path.dirname(os.path.abspath(__file__))
CRATES = os.path.join(os.path.dirname(HERE), "crates")
LIBRARIES = {"cyp_lanes": "", "cyp_term": " thiserror", "cyp_diff": " cyp_lanes cyp_term"}
AT_MOST, LESS, EQUAL, NOT_EQUAL = range(4)


def build(folder):
    """Returns the paths of the programs, by name."""
    crates = os.path.join(folder, "crates")
    for name in LIBRARIES:
        shutil.copytree(os.path.join(CRATES, name), os.path.join(crates, name), ignore=shutil.ignore_patterns("out"))
    program = os.path.join(crates, "diff_speed")
    os.makedirs(os.path.join(program, "src"))
    shutil.copy(os.path.join(HERE, "diff_speed_main.txt"), os.path.join(program, "src", "main.rt"))
    with open(os.path.join(folder, "crates.txt"), "w", encoding="utf-8") as lines:
        for name, uses in LIBRARIES.items():
            lines.write(f"{name}:{uses}\n")
        lines.write("diff_speed: cyp_diff cyp_term\n")
    built = {"C": os.path.join(folder, "diff_speed_c")}
    subprocess.run(["gcc", "-O3", "-march=native", "-o", built["C"], os.path.join(HERE, "diff_speed.c")], check=True)
    for cpu, flags in (("default", []), ("v3", ["--cpu=x86-64-v3"])):
        ran = subprocess.run(["rt", "run", *flags, "--", "0", "0"], cwd=program, stdin=subprocess.DEVNULL, capture_output=True, text=True)
        if ran.returncode != 0:
            sys.exit(ran.stdout[-4000:] + ran.stderr[-4000:])
        built[cpu] = shutil.copy(os.path.join(program, "out", "diff_speed"), os.path.join(folder, f"diff_speed_{cpu}"))
    return built


def run(program, literals, rounds, repeats):
    """Returns the microseconds of a solve in each round, and the values by variable, or None."""
    text = "".join("%d %d %d %d\n" % literal for literal in literals)
    words = [program, str(rounds), str(repeats)]
    lines = subprocess.run(words, input=text, capture_output=True, text=True, check=True).stdout.split("\n")[:-1]
    times = [int(line.split()[0]) / 1000 for line in lines[:rounds]]
    if lines[rounds:] == ["none"]:
        return times, None
    return times, {int(v) + 1: int(x) for v, x in (line.split() for line in lines[rounds:])}


def holds(literal, values):
    kind, left, right, offset = literal
    a, b = values.get(left, 0), values.get(right, 0) + offset
    return (a <= b, a < b, a == b, a != b)[kind]


def at_random(seed, variables=32, count=320):
    """Literals that one assignment makes true: three of five `<=`, a twentieth `==`, and else `<`, among all places."""
    numbers = random.Random(seed)
    hidden = [0] + [numbers.randrange(1000) for _ in range(variables)]
    literals = []
    for k in range(count):
        i, j = numbers.sample(range(variables + 1), 2)
        if k < variables:
            i, j = k + 1, numbers.choice([place for place in range(variables + 1) if place != k + 1])
        kind = numbers.choices([AT_MOST, LESS, EQUAL], [12, 7, 1])[0]
        slack = 0 if kind == EQUAL else 1 + numbers.randrange(200)
        literals.append((kind, i, j, hidden[i] - hidden[j] + slack))
    return literals


def spread(count, most, missing=()):
    """So many variables from 1 to `most`, pairwise different, none of which is any of the missing integers."""
    literals = []
    for i in range(1, count + 1):
        literals += [(AT_MOST, 0, i, -1), (AT_MOST, i, 0, most)]
        literals += [(NOT_EQUAL, i, 0, hole) for hole in missing]
        literals += [(NOT_EQUAL, i, j, 0) for j in range(1, i)]
    return literals


def compare(built, seed):
    literals = at_random(seed)
    times = {name: [] for name in built}
    for _ in range(5):
        for name, program in built.items():
            taken, values = run(program, literals, 41, 200)
            times[name] += taken
            if values is None or not all(holds(literal, values) for literal in literals):
                sys.exit(f"{name}: a wrong answer for the literals of seed {seed}")
    middle = {name: statistics.median(taken) for name, taken in times.items()}
    ratios = ", ".join(f"{name} {middle[name]:.1f} ({middle[name] / middle['C']:.2f} of C)" for name in built if name != "C")
    print(f"320 literals on 32 variables, seed {seed}: C {middle['C']:.1f}, {ratios}", flush=True)


def report(built, what, literals, expected):
    taken, values = run(built["default"], literals, 5, 1)
    found = values is not None and all(holds(literal, values) for literal in literals)
    if found != expected:
        sys.exit(f"{what}: a wrong answer")
    print(f"{what}: {'found' if found else 'refused'} in {statistics.median(taken):.0f}", flush=True)


def main():
    with tempfile.TemporaryDirectory() as folder:
        built = build(folder)
        for seed in (1, 2, 3):
            compare(built, seed)
        report(built, "12 different variables in 1..12", spread(12, 12), True)
        for count in range(8, 13):
            report(built, f"{count} different variables in 1..{count - 1}", spread(count, count - 1), False)
        report(built, "12 different variables in 1..12, none of them 1", spread(12, 12, [1]), False)
        for count in range(6, 10):
            report(built, f"{count} different variables in 1..{count}, none of them {count // 2}", spread(count, count, [count // 2]), False)


main()
