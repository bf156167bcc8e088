#!/usr/bin/env python3
"""Times cyp_pure's `entails` on the questions of questions.txt and on hard ones, beside the solver cvc5 where it is installed.

It copies cyp_pure and the crates below it into a temporary folder, adds the program sets_speed_main.txt to them, and proves and
builds it there; what the repository's own folders out/ keep is used. The repository itself stays as it is. Each question is
written as SMT-LIB too, in the theory of finite sets, and cvc5 must give the same answers. Times are of the processor.
"""
import os
import random
import re
import resource
import shutil
import statistics
import subprocess
import sys
import tempfile

HERE = os.path.dirname(os.path.abspath(__file__))
CRATES = os.path.join(os.path.dirname(HERE), "crates")
LIBRARIES = {
    "cyp_lanes": "",
    "cyp_term": " thiserror",
    "cyp_diff": " cyp_lanes cyp_term",
    "cyp_sets": " cyp_term",
    "cyp_pure": " cyp_diff cyp_sets cyp_term",
}
KINDS = ["<=", "<", "==", "!=", "=i", "not =i", "in", "not in", "<=i", "not <=i"]
CVC5 = shutil.which("cvc5")
REPEATS = 40


def build(folder):
    """Returns the path of the program."""
    crates = os.path.join(folder, "crates")
    for name in LIBRARIES:
        shutil.copytree(os.path.join(CRATES, name), os.path.join(crates, name))
    program = os.path.join(crates, "sets_speed")
    os.makedirs(os.path.join(program, "src"))
    os.makedirs(os.path.join(program, "proofs", "set_vars"))
    shutil.copy(os.path.join(HERE, "sets_speed_main.txt"), os.path.join(program, "src", "main.rt"))
    shutil.copy(os.path.join(HERE, "sets_speed_lemma.txt"), os.path.join(program, "proofs", "Unions.antt"))
    shutil.copy(os.path.join(HERE, "sets_speed_invariant.txt"), os.path.join(program, "proofs", "set_vars", "Invariants.antt"))
    with open(os.path.join(program, "proofs", "Lib.antt"), "w", encoding="utf-8") as lines:
        lines.write("pub mod Unions\n")
    with open(os.path.join(folder, "crates.txt"), "w", encoding="utf-8") as lines:
        for name, uses in LIBRARIES.items():
            lines.write(f"{name}:{uses}\n")
        lines.write("sets_speed: cyp_pure cyp_term\n")
    ran = subprocess.run(["rt", "run", "--", "0", "0"], cwd=program, stdin=subprocess.DEVNULL, capture_output=True, text=True)
    if ran.returncode != 0:
        sys.exit(ran.stdout[-4000:] + ran.stderr[-4000:])
    return os.path.join(program, "out", "sets_speed")


# A literal is (kind, term, term). An integer term is (variable or None, offset), a set term (variables, elements).


def int_term(text):
    words = text.split()
    name = None if re.fullmatch(r"-?\d+", words[0]) else words[0]
    rest = "".join(words[1:] if name else words)
    return name, int(rest or 0)


def set_term(text):
    names, elements = [], []
    for part in text.split("++"):
        part = part.strip()
        if part.startswith("{"):
            elements += [int_term(element) for element in part[1:-1].split(",") if element.strip()]
        else:
            names.append(part)
    return names, elements


def literal(text):
    negated = re.fullmatch(r"not \((.*)\)", text)
    text = negated.group(1) if negated else text
    left, sign, right = re.fullmatch(r"(.*?) (<=i|=i|in|==|!=|<=|<) (.*)", text).groups()
    kind = KINDS.index("not " + sign if negated else sign)
    read_left = set_term if sign in ("=i", "<=i") else int_term
    read_right = set_term if sign in ("=i", "<=i", "in") else int_term
    return kind, read_left(left), read_right(right)


def literals(text):
    return [literal(part.strip()) for part in re.split(r",(?![^{]*\})", text) if part.strip()]


def recorded():
    """Returns the recorded questions: text, left side, right side, expected answer."""
    found = []
    with open(os.path.join(HERE, "questions.txt"), encoding="utf-8") as lines:
        for line in lines:
            if line.startswith(("yes", "no")):
                answer, text = line.split(None, 1)
                left, right = text.strip().split("|-")
                found.append((text.strip(), literals(left), literals(right), answer == "yes"))
    return found


def is_set_term(term):
    return isinstance(term[0], list)


def names_of(left, right):
    """Returns the integers' and the sets' names, each once."""
    ints, sets = {}, {}
    for _, *terms in left + right:
        for term in terms:
            for name in term[0] if is_set_term(term) else []:
                sets[name] = True
            for name, _ in term[1] if is_set_term(term) else [term]:
                if name:
                    ints[name] = True
    return list(ints), list(sets)


def as_lines(left, right):
    """The question as the program reads it."""
    ints, sets = names_of(left, right)

    def int_words(term):
        if term[0] is None:
            return f"0 {term[1]}"
        return f"{ints.index(term[0]) + (100 if term[0].startswith('card') else 1)} {term[1]}"

    def words(term):
        if not is_set_term(term):
            return int_words(term)
        variables = " ".join([str(len(term[0]))] + [str(sets.index(name)) for name in term[0]])
        return " ".join([variables, str(len(term[1]))] + [int_words(element) for element in term[1]])

    lines = [f"{side} {kind} {words(a)} {words(b)}" for side, part in ((0, left), (1, right)) for kind, a, b in part]
    return "\n".join(lines + ["ask", ""])


def as_smt(left, right):
    """The question for cvc5, without the words that ask it: it is satisfiable where the right side doesn't follow."""
    ints, sets = names_of(left, right)

    def int_smt(term):
        number = f"(- {-term[1]})" if term[1] < 0 else str(term[1])
        if term[0] is None:
            return number
        return term[0] if term[1] == 0 else f"(+ {term[0]} {number})"

    def smt(term):
        if not is_set_term(term):
            return int_smt(term)
        parts = list(term[0]) + [f"(set.singleton {int_smt(element)})" for element in term[1]]
        whole = parts[0] if parts else "(as set.empty (Set Int))"
        for part in parts[1:]:
            whole = f"(set.union {whole} {part})"
        return whole

    def truth(lit):
        a, b = smt(lit[1]), smt(lit[2])
        sign = KINDS[lit[0]].replace("not ", "")
        word = {"==": "=", "!=": "=", "=i": "=", "in": "set.member", "<=i": "set.subset"}.get(sign, sign)
        plain = f"({word} {a} {b})"
        return f"(not {plain})" if KINDS[lit[0]].startswith("not ") or sign == "!=" else plain

    lines = [f"(declare-const {name} Int)" for name in ints] + [f"(declare-const {name} (Set Int))" for name in sets]
    lines += [f"(assert {truth(lit)})" for lit in left]
    lines.append(f"(assert (not (and true {' '.join(truth(lit) for lit in right)})))")
    return "\n".join(lines)


def ours(program, questions, rounds, repeats):
    """Returns for each question its answer and the microseconds of a call in each round."""
    text = "".join(as_lines(left, right) for left, right in questions)
    ran = subprocess.run([program, str(rounds), str(repeats)], input=text, capture_output=True, text=True, check=True)
    lines = [tuple(int(word) for word in line.split()) for line in ran.stdout.split("\n")[:-1]]
    found = []
    for k in range(len(questions)):
        mine = lines[k * rounds : (k + 1) * rounds]
        found.append((mine[0][1] > 0, [nanoseconds / 1000 for nanoseconds, _ in mine]))
    return found


def cvc5(folder, blocks, ask):
    """Runs one process of cvc5 on all the blocks; returns its answers and its processor seconds."""
    path = os.path.join(folder, "questions.smt2")
    with open(path, "w", encoding="utf-8") as lines:
        lines.write("(set-logic ALL)\n")
        for block in blocks:
            lines.write(f"(push 1)\n{block}\n{'(check-sat)' if ask else ''}\n(pop 1)\n")
    before = resource.getrusage(resource.RUSAGE_CHILDREN)
    ran = subprocess.run([CVC5, "--incremental", "--tlimit-per=60000", path], capture_output=True, text=True, check=True)
    after = resource.getrusage(resource.RUSAGE_CHILDREN)
    taken = after.ru_utime + after.ru_stime - before.ru_utime - before.ru_stime
    return ran.stdout.split(), taken


def cvc5_time(folder, left, right, repeats):
    """The microseconds of processor time that cvc5 takes to answer, without those for its start and for reading the text."""
    blocks = [as_smt(left, right)] * repeats
    return (cvc5(folder, blocks, True)[1] - cvc5(folder, blocks, False)[1]) * 1e6 / repeats


def agree(folder, questions, answers):
    """Stops where cvc5 gives another answer; returns how many it gave none for."""
    found = cvc5(folder, [as_smt(left, right) for left, right in questions], True)[0]
    if len(found) != len(questions):
        sys.exit(f"cvc5: {len(found)} answers to {len(questions)} questions")
    for (left, right), answer, word in zip(questions, answers, found):
        if word != "unknown" and (word == "unsat") != answer:
            sys.exit(f"cvc5 says {word}, entails says {answer}:\n{as_smt(left, right)}")
    return found.count("unknown")


def random_terms(numbers, most_sets):
    elements = [(numbers.choice("abcd"), numbers.choice([0, 0, 0, 1, -1])) for _ in range(3)] + [(None, 7)]

    def a_set():
        names = numbers.sample([f"s{k}" for k in range(most_sets)], numbers.randrange(0, 3))
        return names, numbers.sample(elements, numbers.randrange(0, 3))

    return elements, a_set


def random_question(seed):
    """A question of integers and sets mixed."""
    numbers = random.Random(seed)
    elements, a_set = random_terms(numbers, 4)

    def lit():
        kind = numbers.randrange(10)
        if kind < 4:
            return kind, numbers.choice(elements), numbers.choice(elements)
        return kind, numbers.choice(elements) if kind in (6, 7) else a_set(), a_set()

    return [lit() for _ in range(numbers.randrange(1, 8))], [lit() for _ in range(numbers.randrange(1, 3))]


NEVER = [literal("0 == 1")]


def refused_late():
    """Thirty-nine inclusions that hold of every region, and an inclusion denied that holds: nothing is refused before the end."""
    given = []
    for k in range(39):
        i, j, e = k % 12 + 1, (k + 1 + k // 12) % 12 + 1, k % 6 + 1
        given.append(literal(f"s{i} ++ {{e{e}}} <=i s{i} ++ s{j} ++ {{e{e}}}"))
    return given + [literal("not (s1 <=i s1 ++ s2)")], NEVER


def within(count, total):
    """So many sets, none within another, within as many elements; all twelve sets are within those elements and the others."""
    inner = ", ".join(f"e{k}" for k in range(1, count + 1))
    outer = " ++ ".join(f"s{k}" for k in range(1, 13))
    given = [literal(f"{outer} <=i {{{inner}}}")]
    pairs = [(i, j) for i in range(1, 13) for j in range(1, 13) if i != j and max(i, j) <= total]
    given += [literal(f"not (s{i} <=i s{j})") for i, j in pairs]
    given += [literal(f"e{k % 6 + 1} in {{e{k % 6 + 1}}} ++ s1") for k in range(40)]
    return given[:40], NEVER


def report_hard(program, folder, what, given, wanted):
    answer, times = ours(program, [(given, wanted)], 3, 1)[0]
    line = f"{what}: {'entailed' if answer else 'not entailed'} in {statistics.median(times) / 1000:.1f} ms"
    if CVC5:
        answers, seconds = cvc5(folder, [as_smt(given, wanted)], True)
        line += f"; cvc5 {answers[0]} in {seconds * 1000:.0f} ms"
        agree(folder, [(given, wanted)], [answer])
    print(line, flush=True)


def report_recorded(program, folder):
    questions = recorded()
    sides = [(left, right) for _, left, right, _ in questions]
    answers = ours(program, sides, 41, 100)
    mine = [statistics.median(times) for _, times in answers]
    for (text, _, _, expected), (answer, _) in zip(questions, answers):
        if answer != expected:
            sys.exit(f"a wrong answer to {text}")
    print(f"{len(questions)} recorded questions: median {statistics.median(mine):.1f}, most {max(mine):.1f} microseconds", flush=True)
    if not CVC5:
        print("cvc5 isn't installed: nothing to compare with")
        return
    agree(folder, sides, [answer for answer, _ in answers])
    theirs = [cvc5_time(folder, left, right, REPEATS) for left, right in sides]
    for (text, *_), a, b in zip(questions, mine, theirs):
        print(f"  {a:8.1f} {b:8.0f}  {text}")
    ratio = statistics.median(b / a for a, b in zip(mine, theirs))
    print(f"cvc5 agrees: median {statistics.median(theirs):.0f}, most {max(theirs):.0f}; median ratio {ratio:.0f}", flush=True)


def report_random(program, folder, count):
    questions = [random_question(seed) for seed in range(count)]
    answers = [answer for answer, _ in ours(program, questions, 1, 1)]
    unknown = agree(folder, questions, answers)
    print(f"{count} random questions, {sum(answers)} entailed: cvc5 agrees, and has no answer to {unknown}", flush=True)


def main():
    with tempfile.TemporaryDirectory() as folder:
        program = build(folder)
        report_recorded(program, folder)
        if CVC5:
            report_random(program, folder, 500)
        report_hard(program, folder, "40 literals that refuse late", *refused_late())
        for count, total in ((2, 5), (3, 6), (4, 7)):
            report_hard(program, folder, f"{total} sets within {count} elements, none within another", *within(count, total))


main()
