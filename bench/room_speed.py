#!/usr/bin/env python3
"""Sessions over the shared room: what they keep, and what is answered while a worker solves.

Prints the peak memory of a long session, that of rounds of a guard at two sizes, polls a second during a long solve,
how long a stop takes to end one, and what an idle session takes of the processor. Build the program first, with
`rt run` or `rt ci` in crates/gi_tool. It is no part of the gate.

    bench/room_speed.py PROGRAM [LINES [TRIES]]     2000000 lines and 100 tries where no numbers are given
"""

import os
import resource
import subprocess
import sys
import time


def pigeons(holes):
    """Lines that put one pigeon more than there are holes into them."""
    def variable(pigeon, hole):
        return pigeon * holes + hole + 1

    lines = []
    for pigeon in range(holes + 1):
        lines.append("add " + " ".join(str(variable(pigeon, hole)) for hole in range(holes)) + " 0")
    for hole in range(holes):
        for first in range(holes + 1):
            for second in range(first + 1, holes + 1):
                lines.append(f"add -{variable(first, hole)} -{variable(second, hole)} 0")
    return lines


def start(program):
    return subprocess.Popen([program, "run"], stdin=subprocess.PIPE, stdout=subprocess.PIPE)


class Session:
    """A session that asks one line at a time."""

    def __init__(self, program):
        self.child = start(program)

    def ask(self, line):
        self.child.stdin.write(line.encode() + b"\n")
        self.child.stdin.flush()
        return self.child.stdout.readline().decode().rstrip("\n")

    def leave(self):
        self.child.stdin.close()
        self.child.stdout.read()
        self.child.wait()


def cpu_seconds(pid):
    with open(f"/proc/{pid}/stat") as stat:
        fields = stat.read().rsplit(")", 1)[1].split()
    return (int(fields[11]) + int(fields[12])) / os.sysconf("SC_CLK_TCK")


def peak_of(program, lines):
    """Feeds lines by a thread of the system's, and gives the program's peak in MiB and its seconds."""
    read, write = os.pipe()
    feeder = os.fork()
    if feeder == 0:
        os.close(read)
        with os.fdopen(write, "wb", buffering=1 << 16) as out:
            for line in lines:
                out.write(line)
        os._exit(0)
    os.close(write)
    began = time.monotonic()
    child = subprocess.Popen([program, "run"], stdin=read, stdout=subprocess.DEVNULL)
    os.close(read)
    _, _, usage = os.wait4(child.pid, 0)
    os.waitpid(feeder, 0)
    return usage.ru_maxrss / 1024, time.monotonic() - began


def long_session(program, lines):
    def text():
        for _ in range(lines // 1000):
            yield b"vars 0\n" * 1000

    mib, seconds = peak_of(program, text())
    print(f"{lines} lines `vars 0`: {mib:.1f} MiB at most, {lines / seconds:,.0f} lines a second")


def guard_rounds(program, rounds):
    def text():
        yield b"vars 20\n"
        for _ in range(rounds):
            yield b"guard\nunder 21 1 2 0\nassume 21 -1 0\nsolve\nwait\ndrop 21\n"

    mib, _ = peak_of(program, text())
    print(f"{rounds} guard rounds: {mib:.1f} MiB at most")


def polls(program):
    session = Session(program)
    for line in pigeons(10):
        session.ask(line)
    print("solve:", session.ask("solve"))
    began, count, while_running = time.monotonic(), 0, 0
    while time.monotonic() - began < 3:
        count += 1
        while_running += session.ask("poll").startswith("running")
    print(f"polls a second while pigeons in ten holes are solved: {count / 3:,.0f}, of which running {while_running / 3:,.0f}")
    session.ask("stop")
    session.ask("wait")
    session.leave()


def stops(program, tries):
    session = Session(program)
    for line in pigeons(10):
        session.ask(line)
    worst, late = 0.0, 0
    for number in range(tries):
        session.ask("solve")
        time.sleep(0.02)
        began = time.monotonic()
        session.ask("stop")
        answer = session.ask("wait")
        took = time.monotonic() - began
        worst = max(worst, took)
        late += took > 0.05
        assert answer.startswith("unknown"), answer
    print(f"a stop ends the solve: {worst * 1000:.1f} ms at most in {tries} tries, {late} over 50 ms")
    session.leave()


def idle(program):
    session = Session(program)
    session.ask("vars 0")
    before = cpu_seconds(session.child.pid)
    time.sleep(5)
    print(f"an idle session: {cpu_seconds(session.child.pid) - before:.2f} s of the processor in 5 s")
    session.leave()


def main():
    program = sys.argv[1]
    lines = int(sys.argv[2]) if len(sys.argv) > 2 else 2_000_000
    tries = int(sys.argv[3]) if len(sys.argv) > 3 else 100
    resource.setrlimit(resource.RLIMIT_CORE, (0, 0))
    long_session(program, lines)
    guard_rounds(program, 1_000)
    guard_rounds(program, 10_000)
    polls(program)
    stops(program, tries)
    idle(program)


main()
