#!/usr/bin/env python3
"""Plays random journals, valid and damaged, through futeq and through tools/reference.py, and stops at the first difference.
Of each it is asked besides that futeq ends with status 0, answers each line at most once and in order, and is left as the
accepted lines alone leave it, by what it then answers to every question.

usage: compare.py FUTEQ [JOURNALS [SEED]]
"""
import random
import subprocess
import sys

from reference import replay

EDGES = [0, 1, 2, 3, -1, 9, 10, 15, 16, 127, 128, 554, 555, 570, 840, 884, 885, 899, 900, 930, 931, 5000, 10**9, 10**9 + 1,
         10**14, 10**14 + 1, 2**63 - 1, -2**63, 2**63]


def edge(r, *usual):
    return r.choice(usual) if r.random() < 0.93 else r.choice(EDGES)


class Writer:
    def __init__(self, r):
        self.r = r
        self.under = [r.choice(["index", "index", "stock"]) for _ in range(r.randint(1, 4))]
        self.contracts = []
        for _ in range(r.randint(1, 8)):
            u = r.randrange(len(self.under))
            kinds = ["call", "put"] if self.under[u] == "index" else ["call", "put", "future"]
            self.contracts.append((u, r.choice(kinds)))
        self.e = r.randint(1, 6)
        self.days = {}

    def opening(self):
        r, n = self.r, len(self.contracts)
        yield f"book grid {self.e} {n}" if r.random() < 0.5 else f"book list {self.e} {n} {r.choice([3, 8, 64])}"
        for kind in self.under:
            yield f"underlying {kind}"
        for u, kind in self.contracts:
            yield f"contract {u} {kind}"
        yield f"limits {edge(r, 10**8, 10**9, 3 * 10**9)} {edge(r, 2 * 10**9, 5 * 10**9)}"
        yield "open"

    def source(self, u, minute):
        r = self.r
        price = edge(r, *[10000, 20000, 45000] * 9, 10**8)
        if r.random() < 0.7:
            span = {"call": (0, 10000), "put": (-10000, 0), "future": (10000, 10000)}
            rows = [f"{c}:{r.randint(*span[k])}" for c, (v, k) in enumerate(self.contracts) if v == u and r.random() < 0.97]
            return " ".join([f"published {minute} {price}"] + rows)
        rows = [f"{c}:{r.choice([5000, price, 30000])}" for c, (v, k) in enumerate(self.contracts) if v == u and r.random() < 0.97]
        return " ".join([f"settlement {minute} {price}"] + rows)

    def of(self, kind):
        found = [u for u, k in enumerate(self.under) if k == kind]
        return self.r.choice(found) if found and self.r.random() < 0.95 else self.r.randrange(5)

    # Mostly the next call of the index's day, so that days are completed.
    def day(self):
        r, u = self.r, self.of("index")
        taken, last, due = self.days.setdefault(u, (0, None, "snapshot"))
        if r.random() < 0.08:
            minute = edge(r, 554, 555, 700, 884, 885, 930)
            return f"{r.choice(['snapshot', 'cure'])} {u} {self.source(u, minute)}"
        if due == "settlement":
            self.days.pop(u)
            return f"settle {u} {r.choice(['depository', 'cash', 'joint'])}"
        if due == "cure":
            minute = last + r.choice([15] * 19 + [14, 16])
            if minute == last + 15:
                self.days[u] = (taken, minute, "snapshot")
            return f"cure {u} {self.source(u, minute)}"
        low = 555 if last is None else last + 1
        final = low > 884 or taken >= 3 and r.random() < 0.7
        minute = r.randint(max(low, 885), 930) if final else r.randint(low, min(low + 60, 884))
        self.days[u] = (taken + 1, minute, "settlement" if final else "cure")
        return f"snapshot {u} {self.source(u, minute)}"

    def line(self):
        r, n = self.r, len(self.contracts)
        e, c, t = edge(r, *range(self.e)), edge(r, *range(n)), edge(r, *range(16))
        change = edge(r, *range(-30, 31), *(n * 10**4 for n in range(-30, 31)), 10**9, -10**9)
        stock, index, any_one = self.of("stock"), self.of("index"), edge(r, *range(len(self.under)))
        covers = ["depository", "cash", "joint"]
        forms = [
            (25, lambda: f"post {e} {c} {change}"),
            (5, lambda: f"entry {t} {e} {edge(r, *range(self.e))} {c} {change}"),
            (5, lambda: f"confirm {t}"),
            (25, self.day),
            (1, lambda: f"settle {index} {r.choice(covers)}"),
            (8, lambda: f"report {index} {edge(r, 0, 1, 4, 24, 512)}"),
            (3, lambda: f"cash {e} {index} {edge(r, 0, 10**8, 10**9, 10**10)}"),
            (3, lambda: f"holding {e} {r.choice(['equity', 'equity', 'other'])} {edge(r, 1000, 10**5)} {edge(r, 100, 10000)}"),
            (4, lambda: f"limit {stock} {edge(r, 1000, 5000, 10**5)} " + " ".join(str(edge(r, 1, 5, 10, 2000)) for _ in range(r.randint(0, 4)))),
            (8, lambda: f"close {stock} {self.source(stock, edge(r, 840))} / {self.source(stock, edge(r, 930))}"),
            (13, lambda: "ask " + self.question(e, c, any_one))]
        return r.choices([form for _, form in forms], [weight for weight, _ in forms])[0]()

    def question(self, e, c, u):
        r = self.r
        return r.choice([
            f"quantity {e} {c}", f"base {e} {c}", f"limit {u}", f"ban {u}", f"violated {u} {e}", f"charge {u} {e}",
            f"mark {u} {e} {r.choice(MARKS)}",
            f"reading {u} notional", f"reading {u} {self.source(u, 600)}", f"notional {u}"])


def damaged(r, line):
    data = bytearray(line)
    for _ in range(r.randint(1, 3)):
        at = r.randrange(len(data) + 1)
        way = r.random()
        if way < 0.4 and at < len(data):
            data[at] = r.randrange(256)
        elif way < 0.7:
            data[at:at] = bytes([r.choice(b" \t-0123456789:/#abc\r\xff\x00")])
        else:
            del data[at:at + r.randint(1, 4)]
    return bytes(data).replace(b"\n", b" ")


def journal(r):
    writer = Writer(r)
    lines = [line.encode() for line in writer.opening()]
    if r.random() < 0.1:
        r.shuffle(lines)
    lines += [writer.line().encode() for _ in range(r.randint(20, 300))]
    share = r.choice([0, 0, 0.05, 0.3])
    lines = [damaged(r, line) if r.random() < share else line for line in lines]
    return b"\n".join(lines) + r.choice([b"", b"\n"])


MARKS = ["net-long", "net-short", "gross-long", "gross-short"]

# Every question about what the journals may name, and a little more.
QUESTIONS = [f"ask {q}".encode() for q in
             [f"{q} {e} {c}" for q in ("quantity", "base") for e in range(7) for c in range(9)]
             + [f"{q} {u}" for q in ("limit", "ban", "notional") for u in range(5)]
             + [f"{q} {u} {e}" for q in ("violated", "charge") for u in range(5) for e in range(7)]
             + [f"mark {u} {e} {m}" for u in range(5) for e in range(7) for m in MARKS]]


def play(futeq, data):
    ran = subprocess.run([futeq], input=data, capture_output=True)
    if ran.returncode != 0:
        fail(data, f"it ended with status {ran.returncode}")
    return ran.stdout


def fail(data, what):
    open("differs.journal", "wb").write(data)
    sys.exit(f"{what}; the journal is in differs.journal")


def answers(data, out):
    """What each line was answered, by its number."""
    told = {}
    for line in out.split(b"\n"):
        number, _, text = line.partition(b" ")
        if number.isdigit():
            if told and int(number) <= max(told):
                fail(data, f"line {int(number)} is answered out of order, or twice")
            told[int(number)] = text
    return told


def left(futeq, lines):
    """What is answered to every question after these lines."""
    data = b"\n".join(lines + QUESTIONS)
    told = answers(data, play(futeq, data))
    return [told.get(len(lines) + 1 + k) for k in range(len(QUESTIONS))]


def compare(futeq, data):
    out, want = play(futeq, data), replay(data).encode()
    for a, b in zip(out.split(b"\n"), want.split(b"\n")):
        if a != b:
            fail(data, f"futeq says {a!r}, and the reference {b!r}")
    if out != want:
        fail(data, "one says more than the other")
    lines = data.split(b"\n")
    told = answers(data, out)
    accepted = [line for n, line in enumerate(lines, 1) if not told.get(n, b"").startswith((b"refused", b"malformed"))]
    if left(futeq, lines) != left(futeq, accepted):
        fail(data, "the accepted lines alone leave it otherwise")


def crowded():
    """One holding more than a journal may have, and a settlement that needs the last of those that it may."""
    lines = ["book grid 1 1", "underlying index", "contract 0 put", "limits 1000 1000", "open", "post 0 0 200"]
    lines += [f"{call} 0 published {minute} 10 0:-10000" for minute in (600, 700, 800) for call, minute in (("snapshot", minute), ("cure", minute + 15))]
    lines += ["snapshot 0 published 900 10 0:-10000"] + ["holding 0 other 1 1"] * 4095 + ["holding 0 equity 1 999", "holding 0 equity 1 1", "settle 0 depository", "report 0 4"]
    return "\n".join(lines).encode()


def main():
    futeq = sys.argv[1]
    compare(futeq, crowded())
    journals = int(sys.argv[2]) if len(sys.argv) > 2 else 200
    seed = int(sys.argv[3]) if len(sys.argv) > 3 else 1
    lines = 0
    for n in range(seed, seed + journals):
        data = journal(random.Random(n))
        compare(futeq, data)
        lines += data.count(b"\n") + 1
    print(f"{journals} journals, {lines} lines: the same, and as the accepted lines alone leave it")


if __name__ == "__main__":
    main()
