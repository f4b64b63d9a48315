#!/usr/bin/env python3
"""Writes problems for bench/peers.sh: DIMACS CNF files, and sessions in the lines of docs/PROTOCOL.md. The same seed gives the same files.

    generate.py FOLDER [SEED]       1 where no seed is given
"""
import random
import sys


class Problem:
    """Clauses over numbered variables, with gates."""

    def __init__(self):
        self.variables, self.clauses = 0, []

    def fresh(self):
        self.variables += 1
        return self.variables

    def add(self, *literals):
        self.clauses.append(literals)

    def conjunction(self, a, b):
        x = self.fresh()
        self.add(-x, a)
        self.add(-x, b)
        self.add(x, -a, -b)
        return x

    def parity(self, a, b):
        x = self.fresh()
        self.add(-x, a, b)
        self.add(-x, -a, -b)
        self.add(x, -a, b)
        self.add(x, a, -b)
        return x

    def majority(self, a, b, c):
        x = self.fresh()
        for p, q in ((a, b), (a, c), (b, c)):
            self.add(-x, p, q)
            self.add(x, -p, -q)
        return x

    def write(self, path):
        with open(path, "w") as out:
            out.write(f"p cnf {self.variables} {len(self.clauses)}\n")
            for clause in self.clauses:
                out.write(" ".join(map(str, clause)) + " 0\n")


def pigeons(holes):
    """One pigeon more than holes."""
    problem = Problem()
    place = [[problem.fresh() for _ in range(holes)] for _ in range(holes + 1)]
    for row in place:
        problem.add(*row)
    for hole in range(holes):
        for p in range(holes + 1):
            for q in range(p):
                problem.add(-place[p][hole], -place[q][hole])
    return problem


def clause_of_three(rng, variables):
    return [v if rng.random() < 0.5 else -v for v in rng.sample(range(1, variables + 1), 3)]


def random_three(rng, variables, ratio):
    problem = Problem()
    problem.variables = variables
    for _ in range(round(ratio * variables)):
        problem.add(*clause_of_three(rng, variables))
    return problem


def parity_orders(rng, inputs):
    """The parity of the same inputs in two orders, said to differ."""
    problem = Problem()
    bits = [problem.fresh() for _ in range(inputs)]
    ends = []
    for _ in range(2):
        rng.shuffle(bits)
        end = bits[0]
        for bit in bits[1:]:
            end = problem.parity(end, bit)
        ends.append(end)
    problem.add(ends[0], ends[1])
    problem.add(-ends[0], -ends[1])
    return problem


def product(problem, a, b):
    """The bits of a * b, the lowest first, by rows of full adders."""
    columns = [[] for _ in range(len(a) + len(b))]
    for i, x in enumerate(a):
        for j, y in enumerate(b):
            columns[i + j].append(problem.conjunction(x, y))
    bits = []
    for place, column in enumerate(columns):
        while len(column) > 1:
            x, y = column.pop(0), column.pop(0)
            z = column.pop(0) if column else None
            if z is None:
                column.append(problem.parity(x, y))
                carry = problem.conjunction(x, y)
            else:
                column.append(problem.parity(problem.parity(x, y), z))
                carry = problem.majority(x, y, z)
            if place + 1 < len(columns):
                columns[place + 1].append(carry)
        bits.append(column[0] if column else None)
    return bits


def factors(number, width):
    """number = a * b, with a and b above 1 of at most so many bits."""
    problem = Problem()
    a = [problem.fresh() for _ in range(width)]
    b = [problem.fresh() for _ in range(width)]
    for place, bit in enumerate(product(problem, a, b)):
        wanted = number >> place & 1
        if bit is not None:
            problem.add(bit if wanted else -bit)
        elif wanted:
            problem.add()
    problem.add(*a[1:])
    problem.add(*b[1:])
    return problem


def commutes(width):
    """a * b and b * a, said to differ."""
    problem = Problem()
    a = [problem.fresh() for _ in range(width)]
    b = [problem.fresh() for _ in range(width)]
    one, other = product(problem, a, b), product(problem, b, a)
    problem.add(*[problem.parity(x, y) for x, y in zip(one, other) if x is not None and y is not None])
    return problem


def colouring(rng, vertices, edges, colours):
    problem = Problem()
    has = [[problem.fresh() for _ in range(colours)] for _ in range(vertices)]
    for row in has:
        problem.add(*row)
    seen = set()
    while len(seen) < edges:
        p, q = sorted(rng.sample(range(vertices), 2))
        if (p, q) not in seen:
            seen.add((p, q))
            for colour in range(colours):
                problem.add(-has[p][colour], -has[q][colour])
    return problem


def line(word, literals):
    return f"{word} {' '.join(map(str, literals))} 0\n"


def asks(rng, out, variables, ratio, rounds):
    """Asks under ten assumptions on one base."""
    for clause in random_three(rng, variables, ratio).clauses:
        out.write(line("add", clause))
    for _ in range(rounds):
        chosen = rng.sample(range(1, variables + 1), 10)
        out.write(line("assume", [v if rng.random() < 0.5 else -v for v in chosen]) + "solve\nwait\n")


def guarded(rng, out, variables, ratio, rounds):
    """Rounds of twenty clauses under a guard that is dropped afterwards."""
    out.write(f"vars {variables}\n")
    for clause in random_three(rng, variables, ratio).clauses:
        out.write(line("add", clause))
    guard = variables + 1
    for _ in range(rounds):
        out.write("guard\n")
        for _ in range(20):
            out.write(line(f"under {guard}", clause_of_three(rng, variables)))
        out.write(f"assume {guard} 0\nsolve\nwait\ndrop {guard}\n")


def one_by_one(rng, out, variables, rounds):
    """One clause and one ask, again and again."""
    for _ in range(rounds):
        out.write(line("add", clause_of_three(rng, variables)) + "solve\nwait\n")


def growing(rng, out, bits, steps):
    """A register of a random net, step by step, with an ask for a rare state at each step."""
    gates = [(rng.choice("axx"), rng.sample(range(bits), 2), rng.choice((1, -1))) for _ in range(bits)]
    problem = Problem()
    state = [problem.fresh() for _ in range(bits)]
    for bit in state:
        problem.add(-bit)
    inputs = 4
    for _ in range(steps):
        free = [problem.fresh() for _ in range(inputs)]
        following = []
        for place, (kind, (i, j), sign) in enumerate(gates):
            x, y = state[i], sign * state[j]
            bit = problem.conjunction(x, y) if kind == "a" else problem.parity(x, y)
            if place % 8 == 0:
                bit = problem.parity(bit, free[place // 8 % inputs])
            following.append(bit)
        state = following
        for clause in problem.clauses:
            out.write(line("add", clause))
        problem.clauses = []
        wanted = [bit if rng.random() < 0.5 else -bit for bit in rng.sample(state, 6)]
        out.write(line("assume", wanted) + "solve\nwait\n")


def main():
    folder, seed = sys.argv[1], int(sys.argv[2]) if len(sys.argv) > 2 else 1
    rng = random.Random(seed)
    for holes in (7, 8, 9):
        pigeons(holes).write(f"{folder}/pigeons-{holes}.cnf")
    for variables in (150, 200, 250):
        for number in range(1, 4):
            random_three(rng, variables, 4.26).write(f"{folder}/random-{variables}-{number}.cnf")
    for inputs in (20, 24, 28):
        parity_orders(rng, inputs).write(f"{folder}/parity-{inputs}.cnf")
    factors(29063 * 31147, 15).write(f"{folder}/factors-15.cnf")
    factors(64007 * 60013, 16).write(f"{folder}/factors-16.cnf")
    factors(268435399, 14).write(f"{folder}/prime-14.cnf")
    for width in (5, 6, 7):
        commutes(width).write(f"{folder}/multipliers-{width}.cnf")
    for number, edges in enumerate((1020, 1040, 1060), 1):
        colouring(rng, 120, edges // 2, 4).write(f"{folder}/colours-4-{number}.cnf")
    for name, make in (
        ("asks", lambda out: asks(rng, out, 150, 3.4, 1500)),
        ("guarded", lambda out: guarded(rng, out, 150, 3.2, 3000)),
        ("one-by-one", lambda out: one_by_one(rng, out, 8000, 20000)),
        ("growing", lambda out: growing(rng, out, 48, 200)),
    ):
        with open(f"{folder}/{name}.session", "w") as out:
            make(out)
            out.write("bye\n")


main()
