#!/usr/bin/env python3
"""Measures the memory that reading a text takes: `python3 bench/read_memory.py PROGRAM`.

Each text has 65,536 bytes, the most that are read, and is the worst of its kind: as many tokens, terms, literals, chunks or names
as fit. All but the last are refused, for a token, a name or a sort, before a goal is made of them. Printed is, for each byte of text, the
greatest resident memory of the run beyond that of a run over an empty text, which Linux counts to some four bytes a byte, where
valgrind is installed, the most bytes that the run has asked for at once, the room in lists that isn't used yet included, and the
time of the processor.
"""
import fcntl
import itertools
import os
import re
import resource
import shutil
import string
import subprocess
import sys
import tempfile
import time

SIZE = 65536


def filled(before, part, after, between=b""):
    """The text with as many parts as fit, and blanks behind it."""
    count = (SIZE - len(before) - len(after) + len(between)) // (len(part) + len(between))
    text = before + between.join([part] * count) + after
    return text + b" " * (SIZE - len(text))


def different(before, after):
    """The text with as many different names as fit."""
    letters = string.ascii_uppercase
    names = ("".join(name) for length in (1, 2, 3) for name in itertools.product(letters, repeat=length))
    found, size = [], len(before) + len(after)
    for name in names:
        size += len(name) + 1
        if size > SIZE:
            break
        found.append(name.encode())
    return (before + b",".join(found) + after).ljust(SIZE)


def texts():
    names = b", ".join(b"int a%x" % number for number in range(6500))
    goal = (b"void f(int n, int n) { ", b" } { emp }")
    instance = (goal[0] + b"p(", b")" + goal[1])
    elements = (goal[0] + b"{", b"} =i {} ; emp" + goal[1])
    pure = (goal[0], b" ; emp" + goal[1])
    clauses = (b"predicate p() {", b"} void f(int n, int n) { emp } { emp }")
    return {
        "one token a byte, no grammar": b"(" * SIZE,
        "names": (b"void f(" + names + b") { emp } { emp }")[:SIZE].ljust(SIZE),
        "negations": filled(pure[0], b"not(", b""),
        "chunks": filled(goal[0], b"a:->0", goal[1], b"**"),
        "instances": filled(goal[0], b"p(a)", goal[1], b"**"),
        "instances with a set": filled(goal[0], b"p({a})", goal[1], b"**"),
        "arguments": filled(instance[0], b"0", instance[1], b","),
        "arguments that are names": filled(instance[0], b"a", instance[1], b","),
        "arguments that are sets": filled(instance[0], b"{a}", instance[1], b","),
        "arguments that are unions": filled(instance[0], b"a++a", instance[1], b","),
        "elements of a set": filled(elements[0], b"0", elements[1], b","),
        "elements that are names": filled(elements[0], b"a", elements[1], b","),
        "elements that are different names": different(*elements),
        "parts of a union": filled(goal[0], b"a", b" =i {} ; emp" + goal[1], b"++"),
        "parts that are sets": filled(goal[0], b"{a}", b" =i {} ; emp" + goal[1], b"++"),
        "arguments that are sets of three": filled(instance[0], b"{a,a,a}", instance[1], b","),
        "arguments that are unions of sets": filled(instance[0], b"{a}++{a}", instance[1], b","),
        "literals on sets": filled(pure[0], b"a=i a", pure[1], b"&&"),
        "literals on sets of one": filled(pure[0], b"{a}=i{a}", pure[1], b"&&"),
        "literals on unions": filled(pure[0], b"a++a=i a", pure[1], b"&&"),
        "memberships": filled(pure[0], b"0 in a", pure[1], b"&&"),
        "literals": filled(pure[0], b"0<0", pure[1], b"&&"),
        "literals on names": filled(pure[0], b"a<a", pure[1], b"&&"),
        "predicates": filled(b"", b"predicate p(){|0<0=>{emp}}", b"void f(){emp}{emp}"),
        "clauses": filled(clauses[0], b"|0<0=>{emp}", clauses[1]),
        "clauses with an instance": filled(clauses[0], b"|a<a=>{p(a)}", clauses[1]),
        "literals, and the goal that they are read as": filled(b"void f() { ", b"0<0", b" ; emp } { emp }", b"&&"),
    }


def run(program, text):
    """The greatest memory of a run in bytes, and the line that it writes: read from the process while its answer waits in a full pipe."""
    read, write = os.pipe()
    fcntl.fcntl(write, fcntl.F_SETPIPE_SZ, 4096)
    os.write(write, b" " * 4096)
    child = subprocess.Popen([program, "synth"], stdin=subprocess.PIPE, stdout=write)
    child.stdin.write(text)
    child.stdin.close()
    os.close(write)
    while True:
        with open(f"/proc/{child.pid}/status", encoding="ascii") as status:
            fields = dict(line.split(":", 1) for line in status)
        if fields["State"].split()[0] == "S":
            break
        time.sleep(0.01)
    used = int(fields["VmHWM"].split()[0]) * 1024
    line = b""
    while more := os.read(read, 65536):
        line += more
    os.close(read)
    child.wait()
    return used, line.decode().strip()


def time_of(program, text):
    """The time of the processor that a run takes, in milliseconds."""
    before = resource.getrusage(resource.RUSAGE_CHILDREN)
    subprocess.run([program, "synth"], input=text, capture_output=True, check=False)
    after = resource.getrusage(resource.RUSAGE_CHILDREN)
    return 1000 * (after.ru_utime - before.ru_utime + after.ru_stime - before.ru_stime)


def asked(program, text):
    """The most bytes of the heap that a run has asked for at once."""
    with tempfile.NamedTemporaryFile() as found:
        tool = ["valgrind", "--tool=massif", f"--massif-out-file={found.name}"]
        subprocess.run([*tool, program, "synth"], input=text, capture_output=True, check=False)
        snapshots = open(found.name, encoding="ascii").read()
    return max(int(count) for count in re.findall(r"mem_heap_B=(\d+)", snapshots))


def main():
    program = sys.argv[1]
    empty, _ = run(program, b"")
    for kind, text in texts().items():
        assert len(text) == SIZE, kind
        used, line = run(program, text)
        told = f"{(used - empty) / SIZE:.0f} bytes a byte resident"
        if shutil.which("valgrind"):
            told += f", {asked(program, text) / SIZE:.0f} asked for"
        print(f"{kind}: {told}, {time_of(program, text):.0f} ms; {line}")


main()
