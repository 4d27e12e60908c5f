#!/usr/bin/env python3
"""The proved crates beside plain release Rust (bench/plain), row by row; docs/BENCHMARKS.md has what each row does.

Builds both sides, runs them in turn, fails where their digests or their outputs differ, and prints the table. Needs rt and rustc.
usage: bench/run.py [ROW ..]
"""
import os
import random
import subprocess
import sys
import tempfile
import time

ROOT = os.path.dirname(os.path.dirname(os.path.abspath(__file__)))
BEST_OF = 15
LINES = 1_000_000
# The same processor as rt compiles for, and one unit of code, as rt makes.
RUSTC = ["rustc", "--edition", "2024", "-C", "opt-level=3", "-C", "codegen-units=1", "-C", "target-cpu=x86-64-v2"]

# A row's rounds, how many of what a round is counted as, and the most that it may take of plain Rust's time.
ROWS = {
    "posts-grid": (60, 1_000_000, "post", 1.25),
    "posts-list": (3, 1_000_000, "post", 1.25),
    "index-grid": (350, 44, "call", 1.25),
    "index-list": (40, 44, "call", 1.25),
    "close-grid": (400, 34, "close", 1.25),
    "close-list": (50, 34, "close", 1.25),
    "limit-charge": (20_000, 256, "pair", 1.25),
}
# The same limit and charge from bytes, through the C calls: the host is the plain program linked with crates/capi.
CALLS = {"host-calls": (20_000, 256, "pair", 1.25)}
JOURNALS = {"journal-grid": ("grid 128 32", 2.0), "journal-list": ("list 128 32 4096", 2.0)}


def journal(layout):
    """A million post lines behind an opening, some of them declined."""
    rng = random.Random(7)
    head = [f"book {layout}", "underlying stock"]
    head += [f"contract 0 {rng.choice(['future', 'call', 'put'])}" for _ in range(32)]
    head += ["limits 50000000000000 100000000000000", "open"]
    posts = [
        f"post {rng.randrange(129)} {rng.randrange(32)} {rng.randrange(-400_000_000, 400_000_001)}" for _ in range(LINES)
    ]
    return ("\n".join(head + posts) + "\n").encode()


def peak(pid):
    """The most memory that the process had so far, in MiB."""
    try:
        with open(f"/proc/{pid}/status") as status:
            return max((int(line.split()[1]) / 1024 for line in status if line.startswith("VmHWM")), default=0)
    except OSError:
        return 0


def play(command, text, out):
    """Feeds the text through a pipe; answers seconds and peak memory in MiB."""
    start = time.perf_counter()
    with open(out, "wb") as answers:
        child = subprocess.Popen(command, stdin=subprocess.PIPE, stdout=answers)
        child.stdin.write(text)
        memory = peak(child.pid)
        child.stdin.close()
        if child.wait() != 0:
            sys.exit(f"{command[0]} ended with status {child.returncode}")
    return time.perf_counter() - start, memory


def read(path):
    with open(path, "rb") as text:
        return text.read()


def in_turn(row, proved, plain):
    """The best of some runs of each side, which take turns; each answers what must agree, and seconds."""
    best = [float("inf"), float("inf")]
    for _ in range(BEST_OF):
        runs = [proved(), plain()]
        if runs[0][0] != runs[1][0]:
            sys.exit(f"{row}: the two sides differ")
        best = [min(least, run[1]) for least, run in zip(best, runs)]
    return best


def timed(command, row, rounds):
    digest, nanos = subprocess.run([command, row, str(rounds)], check=True, capture_output=True, text=True).stdout.split()
    return digest, int(nanos) / 1e9


def build(folder):
    """Builds both sides; answers the paths of the bench, the replayer, the plain program and the host."""
    for crate, words in [("bench", []), ("futeq", ["--", "--help"])]:
        subprocess.run(["rt", "run", *words], cwd=f"{ROOT}/crates/{crate}", check=True, capture_output=True)
    plain = os.path.join(folder, "plain")
    subprocess.run([*RUSTC, "-o", plain, f"{ROOT}/bench/plain/main.rs"], check=True)
    subprocess.run(["rt", "lib"], cwd=f"{ROOT}/crates/capi", check=True, capture_output=True)
    host = os.path.join(folder, "host")
    library = ["--cfg", "host", "-L", f"native={ROOT}/crates/capi/out", "-l", "static=capi"]
    subprocess.run([*RUSTC, *library, "-A", "dead_code", "-o", host, f"{ROOT}/bench/plain/main.rs"], check=True)
    return f"{ROOT}/crates/bench/out/bench", f"{ROOT}/crates/futeq/out/futeq", plain, host


def main():
    wanted = sys.argv[1:] or [*ROWS, *CALLS, *JOURNALS]
    with tempfile.TemporaryDirectory() as folder:
        bench, futeq, plain, host = build(folder)
        print(f"best of {BEST_OF}; load {os.getloadavg()[0]:.2f}")
        print(f"{'row':<13} {'futeq':>13} {'plain Rust':>13}  {'for each':<9} {'ratio':>5}  goal")
        missed = 0
        for row in wanted:
            if row in ROWS or row in CALLS:
                rounds, count, unit, goal = {**ROWS, **CALLS}[row]
                side = host if row in CALLS else bench
                proved, rust = in_turn(row, lambda: timed(side, row, rounds), lambda: timed(plain, row, rounds))
                scale = 1e9 / (rounds * count)
            else:
                layout, goal = JOURNALS[row]
                text, out, memory = journal(layout), os.path.join(folder, "out"), []

                def replay(command):
                    seconds, most = play(command, text, out)
                    memory.append(most)
                    return read(out), seconds

                proved, rust = in_turn(row, lambda: replay([futeq]), lambda: replay([plain, "journal"]))
                unit, scale = "line", 1e9 / LINES
            ratio = proved / rust
            missed += ratio > goal
            print(f"{row:<13} {proved * scale:10.1f} ns {rust * scale:10.1f} ns  {unit:<9} {ratio:5.2f}  {goal}", flush=True)
            if row in JOURNALS:
                print(f"{'':<13} {max(memory[::2]):9.1f} MiB {max(memory[1::2]):9.1f} MiB  of memory")
    sys.exit(f"{missed} rows missed their goal" if missed else 0)


main()
