#!/usr/bin/env python3
"""What futeq must print for a journal, by an independent reading of docs/RULES.md and docs/JOURNAL.md in plain Python.

usage: reference.py [JOURNAL]    (standard input where none is named)

It shares nothing with the program, so that the two can be compared: see tools/compare.py.
"""
import sys

NAMES = {10: "CLOSED", 1: "UNDERLYING", 2: "KIND", 9: "UNSET", 3: "TURN", 4: "TIME", 5: "PRICE", 6: "DELTA", 7: "VALUE",
         8: "SHORT-DAY", 15: "INPUT", 14: "TICKET", 11: "PAIR", 12: "SIZE", 13: "FULL"}
MARKS = ["net-long", "net-short", "gross-long", "gross-short"]
MONEY = 10**14
QUANTITY = 10**9


class Refused(Exception):
    def __init__(self, number, told=""):
        self.text = f"refused {number} {NAMES[number]}{told}"


class Malformed(Exception):
    pass


class Source:
    def __init__(self, make, minute, price, rows):
        self.make, self.minute, self.price, self.rows = make, minute, price, rows

    def delta(self, contract, kind):
        if self.make == "notional":
            return -10000 if kind == "put" else 10000
        row = self.rows.get(contract)
        if self.make == "published":
            if row is None:
                return None
            low, high = {"future": (10000, 10000), "call": (0, 10000), "put": (-10000, 0)}[kind]
            return row if low <= row <= high else None
        if kind == "future":
            return 10000
        if row is None or not 1 <= row <= 10**8:
            return None
        call = 10000 if self.price > row else 5000 if self.price == row else 0
        return call if kind == "call" else call - 10000


class Monitor:
    def __init__(self, layout, entities, contracts, places, underlyings, listed, limits):
        if layout == "grid":
            fits = places >= entities * contracts
            self.e, self.c, self.k = (entities if fits else 0), contracts, (entities if fits else 0) * contracts
        else:
            self.k = min(places, 4096)
            self.e, self.c = (entities if self.k else 0), contracts
        self.under, self.listed, self.limits = underlyings, listed, limits
        self.book, self.base, self.tickets = {}, {}, {}
        self.days, self.marks, self.stocks = {}, {}, {}
        self.cash = {}
        self.open = (1 <= self.e <= 128 and 1 <= self.c <= 32 and self.c == len(listed) and 1 <= len(underlyings) <= 4
                     and all(u < len(underlyings) and not (k == "future" and underlyings[u] == "index") for u, k in listed)
                     and all(1 <= x <= MONEY for x in limits))

    # ---- the book
    def try_post(self, e, c, x):
        if not (e < self.e and c < self.c):
            raise Refused(11)
        old = self.book.get((e, c), 0)
        if abs(old + x) > QUANTITY:
            raise Refused(12)
        if old == 0 and x != 0 and len(self.book) >= self.k:
            raise Refused(13)
        return old + x

    def put(self, e, c, q):
        if q:
            self.book[e, c] = q
        else:
            self.book.pop((e, c), None)

    def post(self, e, c, x):
        q = self.try_post(e, c, x)
        self.put(e, c, q)
        return q

    # ---- calls
    def checked(self):
        if not self.open:
            raise Refused(10)

    def entry(self, t, m, p, c, x):
        if not t < 16 or t in self.tickets or m == p:
            raise Refused(14)
        if not (p < self.e and c < self.c):
            raise Refused(11)
        q = self.post(m, c, x)
        self.tickets[t] = (m, p, c, x)
        return q

    def confirm(self, t):
        if t not in self.tickets:
            raise Refused(14)
        m, p, c, x = self.tickets[t]
        before = dict(self.book)
        self.post(m, c, -x)
        try:
            q = self.post(p, c, x)
        except Refused:
            self.book = before
            raise
        del self.tickets[t]
        return q

    def on(self, u, kind):
        if not u < len(self.under):
            raise Refused(1)
        if self.under[u] != kind:
            raise Refused(2)

    def chain(self, u):
        return [c for c, (v, k) in enumerate(self.listed) if v == u and c < 32]

    def missing(self, u, source, holders):
        for c in self.chain(u):
            if source.delta(c, self.listed[c][1]) is None:
                for e in range(self.e):
                    if any(h.get((e, c), 0) for h in holders):
                        return c, e
        return None

    def need(self, u, source, holders):
        lack = self.missing(u, source, holders)
        if lack:
            raise Refused(6, f" contract {lack[0]} entity {lack[1]}")

    def reading(self, u, source, e, holder=None):
        holder = self.book if holder is None else holder
        parts = [holder.get((e, c), 0) * (source.delta(c, self.listed[c][1]) or 0) for c in self.chain(u)]
        return sum(parts), sum(p for p in parts if p > 0), -sum(p for p in parts if p < 0)

    def interest(self, u, source):
        return sum(abs(self.reading(u, source, e)[0]) for e in range(self.e))

    def value(self, u, source, e, mark):
        net, long, short = self.reading(u, source, e)
        return [max(net, 0), max(-net, 0), long, short][mark] * source.price

    def limit_for(self, mark):
        return self.limits[0] if mark < 2 else self.limits[1]

    def row(self, u, e, mark):
        return self.marks.setdefault((u, e, mark), {"sighted": False, "count": 0, "largest": 0, "kept": None})

    def day(self, u):
        return self.days.setdefault(u, {"taken": 0, "last": None, "due": "snapshot"})

    def priced(self, u, source):
        if not 1 <= source.price <= 10**8:
            raise Refused(5)
        self.need(u, source, [self.book])
        for e in range(self.e):
            net, long, short = self.reading(u, source, e)
            if max(long, short) * source.price > 9 * 10**18:
                raise Refused(7, f" entity {e}")

    def snapshot(self, u, source):
        self.on(u, "index")
        day = self.day(u)
        if day["due"] != "snapshot":
            raise Refused(3)
        if not 555 <= source.minute <= 930 or day["last"] is not None and source.minute <= day["last"]:
            raise Refused(4)
        self.priced(u, source)
        final = source.minute >= 885
        day.update(taken=day["taken"] + 1, last=source.minute, due="settlement" if final else "cure")
        told = []
        for e in range(self.e):
            for m in range(4):
                v, row = self.value(u, source, e, m), self.row(u, e, m)
                over = v > self.limit_for(m) * 10**4
                if final:
                    if over:
                        row["count"] += 1
                        row["largest"] = max(row["largest"], v)
                        told.append(f"  provisional {e} {MARKS[m]} {v}")
                else:
                    row["sighted"] = over
                    if over:
                        told.append(f"  sighted {e} {MARKS[m]} {v}")
        return len(told), told

    def cure(self, u, source):
        self.on(u, "index")
        day = self.day(u)
        if day["due"] != "cure":
            raise Refused(3)
        if source.minute != day["last"] + 15:
            raise Refused(4)
        self.priced(u, source)
        day.update(last=source.minute, due="snapshot")
        told = []
        for e in range(self.e):
            for m in range(4):
                v, row = self.value(u, source, e, m), self.row(u, e, m)
                if row["sighted"] and v > self.limit_for(m) * 10**4:
                    row["count"] += 1
                    row["largest"] = max(row["largest"], v)
                    told.append(f"  provisional {e} {MARKS[m]} {v}")
                row["sighted"] = False
        return len(told), told

    def settle(self, u, cover):
        self.on(u, "index")
        day = self.day(u)
        if day["taken"] < 4 or day["due"] != "settlement":
            raise Refused(8)
        told = []
        for e in range(self.e):
            for m in range(4):
                row = self.row(u, e, m)
                final = row["count"] and row["largest"] > (self.limit_for(m) + cover(e, u, m % 2)) * 10**4
                if final:
                    told.append(f"  final {e} {MARKS[m]} {row['largest']}")
                row.update(sighted=False, kept=row["largest"] if final else None, count=0, largest=0)
        self.days.pop(u)
        return len(told), told

    def report(self, u, rows):
        self.on(u, "index")
        told = [f"  row {e} {MARKS[m]} {self.row(u, e, m)['kept']}" for e in range(self.e) for m in range(4)
                if self.row(u, e, m)["kept"] is not None]
        if len(told) > rows:
            raise Refused(13)
        return len(told), told

    def stock(self, u):
        return self.stocks.setdefault(u, {"limit": None, "ban": False, "violated": {}, "charge": {}})

    def set_limit(self, u, free, days):
        self.on(u, "stock")
        if not (10 <= free <= 10**12 and 1 <= len(days) <= 92 and all(d <= 10**10 for d in days)):
            raise Refused(15)
        # over one denominator, and rounded down once
        n = len(days)
        self.stock(u)["limit"] = max(10 * free * n, min(15 * free * n, 6500 * sum(days))) // (100 * n)
        return 0

    def close(self, u, two, closing):
        self.on(u, "stock")
        stock = self.stock(u)
        if stock["limit"] is None:
            raise Refused(9)
        if closing.minute != 930 or stock["ban"] and two.minute != 840:
            raise Refused(4)
        if not 1 <= closing.price <= 10**8:
            raise Refused(5)
        self.need(u, closing, [self.book])
        if stock["ban"]:
            self.need(u, two, [self.book, self.base])
        was, violated, charge, told = stock["ban"], {}, {}, []
        base = dict(self.base)
        for e in range(self.e) if was else []:
            x, y = self.reading(u, two, e, self.base)[0], self.reading(u, two, e)[0]
            if min(0, x) <= y <= max(0, x):
                for c in self.chain(u):
                    base[e, c] = self.book.get((e, c), 0)
                continue
            violated[e] = abs(y) if x * y < 0 else abs(y - x)
            charge[e] = min(10**7, max(500000, violated[e] * closing.price // 10**6))
            told.append(f"  charged {e} {violated[e]} {charge[e]}")
        interest = self.interest(u, closing)
        if was:
            ban = not interest * 100 <= 80 * stock["limit"] * 10**4
            state = "holds" if ban else "ends"
        else:
            ban = interest * 100 > 95 * stock["limit"] * 10**4
            state = "begins" if ban else "none"
        for e in range(self.e):
            for c in self.chain(u):
                if state == "begins":
                    base[e, c] = self.book.get((e, c), 0)
                if state == "ends":
                    base[e, c] = 0
        self.base = base
        stock.update(ban=ban, violated=violated, charge=charge)
        told.append(f"  ban {state} interest {interest}")
        return len(told) - 1, told


class Player:
    def __init__(self):
        self.layout = None
        self.limits = None
        self.under, self.listed = [], []
        self.monitor = None
        self.holdings = []
        self.lines = self.accepted = self.refused = self.malformed = 0
        self.out = []

    def number(self, w):
        body = w[1:] if w.startswith("-") else w
        if not body or not all("0" <= ch <= "9" for ch in body):
            raise Malformed("not a number of 64 signed bits")
        n = int(w)
        if not -2**63 <= n < 2**63:
            raise Malformed("not a number of 64 signed bits")
        return n

    def unsigned(self, w):
        n = self.number(w)
        return n if n >= 0 else 2**64 - 1

    def count(self, words, n):
        if len(words) != n:
            raise Malformed("wrong number of words")

    def named(self, w, table):
        if w not in table:
            raise Malformed("unknown word")
        return w

    def ranged(self, w, most):
        n = self.number(w)
        if not 0 <= n <= most:
            raise Malformed("number out of range")
        return n

    def source(self, words):
        make = self.named(words[0], ["published", "settlement"])
        minute, price = self.unsigned(words[1]), self.unsigned(words[2])
        rows = {}
        for w in words[3:]:
            contract, colon, value = w.partition(":")
            if not colon:
                raise Malformed("not a number of 64 signed bits")
            c, v = self.unsigned(contract), self.number(value)
            rows[c] = v
        return Source(make, minute, price, rows)

    # ---- one line
    def play(self, line):
        self.lines += 1
        try:
            text = line.decode("utf-8")
        except UnicodeDecodeError:
            return self.bad("not text")
        if text.endswith("\r"):
            text = text[:-1]
        words = [w for w in text.split("#")[0].replace("\t", " ").split(" ") if w]
        if not words:
            return
        try:
            self.form(words[0], words[1:])
        except Malformed as fault:
            self.bad(str(fault))

    def bad(self, reason):
        self.malformed += 1
        self.say(f"malformed {reason}")

    def say(self, text):
        self.out.append(f"{self.lines} {text}")

    def form(self, verb, words):
        opening = {"book", "underlying", "contract", "limits", "open"}
        calls = {"post", "entry", "confirm", "snapshot", "cure", "cash", "holding", "settle", "report", "limit", "close"}
        if verb in opening:
            action = self.declaration(verb, words)
            if self.monitor:
                raise Malformed("opening line after open")
            return action()
        if verb == "ask":
            action = self.question(words)
        elif verb in calls:
            action = self.call(verb, words)
        else:
            raise Malformed("unknown word")
        if not self.monitor and verb != "holding":
            raise Malformed("nothing is open yet")
        action()

    def declaration(self, verb, words):
        if verb == "book":
            if not words:
                raise Malformed("wrong number of words")
            layout = self.named(words[0], ["grid", "list"])
            rest = words[1:]
            if layout == "grid" and len(rest) == 2:
                e, c = self.ranged(rest[0], 10000), self.ranged(rest[1], 10000)
                places = e * c
                if places > 8192:
                    raise Malformed("number out of range")
            else:
                self.count(rest, 3)
                e, c, places = self.ranged(rest[0], 10000), self.ranged(rest[1], 10000), self.ranged(rest[2], 8192)

            def book():
                if self.layout:
                    raise Malformed("declared already")
                self.layout = (layout, e, c, places)
                self.say("declared")
            return book
        if verb == "underlying":
            self.count(words, 1)
            kind = self.named(words[0], ["index", "stock"])
            return lambda: self.listing(self.under, kind, 16)
        if verb == "contract":
            self.count(words, 2)
            u = self.unsigned(words[0])
            kind = self.named(words[1], ["future", "call", "put"])
            return lambda: self.listing(self.listed, (u, kind), 64)
        if verb == "limits":
            self.count(words, 2)
            limits = (self.unsigned(words[0]), self.unsigned(words[1]))

            def set_limits():
                if self.limits:
                    raise Malformed("declared already")
                self.limits = limits
                self.say("declared")
            return set_limits
        self.count(words, 0)
        return self.open

    def listing(self, kept, value, most):
        if len(kept) >= most:
            raise Malformed("too many declared")
        kept.append(value)
        self.say("declared")

    def open(self):
        if not self.layout or not self.limits:
            raise Malformed("book and limits come before open")
        self.monitor = Monitor(*self.layout, self.under, self.listed, self.limits)
        m = self.monitor
        self.say(f"open {m.e} {m.c} {m.k}" if m.open else "not open")

    def call(self, verb, words):
        n, u = self.number, self.unsigned
        if verb == "post":
            self.count(words, 3)
            e, c, x = u(words[0]), u(words[1]), n(words[2])
            return lambda: self.made(lambda m: (m.post(e, c, x), []))
        if verb == "entry":
            self.count(words, 5)
            t, a, p, c, x = u(words[0]), u(words[1]), u(words[2]), u(words[3]), n(words[4])
            return lambda: self.made(lambda m: (m.entry(t, a, p, c, x), []))
        if verb == "confirm":
            self.count(words, 1)
            t = u(words[0])
            return lambda: self.made(lambda m: (m.confirm(t), []))
        if verb in ("snapshot", "cure"):
            if len(words) < 4:
                raise Malformed("wrong number of words")
            index, source = u(words[0]), self.source(words[1:])
            return lambda: self.made(lambda m: getattr(m, verb)(index, source))
        if verb == "cash":
            self.count(words, 3)
            e, v, amount = u(words[0]), u(words[1]), u(words[2])
            return lambda: self.cash(e, v, amount)
        if verb == "holding":
            self.count(words, 4)
            e, kind, q, p = u(words[0]), self.named(words[1], ["equity", "other"]), u(words[2]), u(words[3])
            return lambda: self.holding(e, kind, q, p)
        if verb == "settle":
            self.count(words, 2)
            index, cover = u(words[0]), self.named(words[1], ["depository", "cash", "joint"])
            return lambda: self.made(lambda m: m.settle(index, lambda e, v, side: self.cover(cover, e, v, side)))
        if verb == "report":
            self.count(words, 2)
            index, rows = u(words[0]), self.ranged(words[1], 512)
            return lambda: self.made(lambda m: m.report(index, rows))
        if verb == "limit":
            if len(words) < 2:
                raise Malformed("wrong number of words")
            stock, free, days = u(words[0]), u(words[1]), [u(w) for w in words[2:]]
            return lambda: self.made(lambda m: (m.set_limit(stock, free, days), []))
        cut = words.index("/") if "/" in words else len(words)
        if cut < 4 or len(words) - cut < 4:
            raise Malformed("wrong number of words")
        stock = u(words[0])
        two = self.source(words[1:cut])
        closing = self.source(words[cut + 1:])
        return lambda: self.made(lambda m: m.close(stock, two, closing))

    def made(self, call):
        try:
            self.monitor.checked()
            answer, told = call(self.monitor)
        except Refused as refusal:
            self.refused += 1
            return self.say(refusal.text)
        self.accepted += 1
        self.say(f"ok {answer}")
        self.out.extend(told)

    def cash(self, e, u, amount):
        cash = self.monitor.cash
        if e > 127 or u > 3 or amount > MONEY:
            refusal = 15
        elif (e, u) not in cash and len(cash) >= 512:
            refusal = 13
        else:
            cash[e, u] = amount
            self.accepted += 1
            return self.say("ok 0")
        self.refused += 1
        self.say(f"refused {refusal} {NAMES[refusal]}")

    def holding(self, e, kind, q, p):
        if len(self.holdings) >= 4096:
            raise Malformed("too many declared")
        self.holdings.append((e, kind, q, p))
        self.say("ok")

    def cover(self, make, e, u, side):
        held = sum(q * p for f, kind, q, p in self.holdings
                   if f == e and kind == "equity" and q <= QUANTITY and 1 <= p <= 10**8) if side == 1 else 0
        held = min(held, MONEY)
        paid = self.monitor.cash.get((e, u), 0) if side == 0 else 0
        return {"depository": held, "cash": paid, "joint": min(held + paid, MONEY)}[make]

    def question(self, words):
        if not words:
            raise Malformed("wrong number of words")
        topic = self.named(words[0], ["quantity", "base", "limit", "ban", "violated", "charge", "mark", "reading", "notional"])
        rest = words[1:]
        u = self.unsigned
        if topic in ("limit", "ban", "notional"):
            self.count(rest, 1)
            a = u(rest[0])
            return lambda: self.answer(topic, a)
        if topic == "mark":
            self.count(rest, 3)
            a, b, mark = u(rest[0]), u(rest[1]), self.named(rest[2], MARKS)
            return lambda: self.answer(topic, a, b, MARKS.index(mark))
        if topic == "reading":
            if len(rest) > 1 and rest[1] == "notional":
                self.count(rest, 2)
                a, source = u(rest[0]), Source("notional", 0, 0, {})
            else:
                if len(rest) < 4:
                    raise Malformed("wrong number of words")
                a, source = u(rest[0]), self.source(rest[1:])
            return lambda: self.read(a, source)
        self.count(rest, 2)
        a, b = u(rest[0]), u(rest[1])
        return lambda: self.answer(topic, a, b)

    def answer(self, topic, a, b=0, c=0):
        m = self.monitor
        if not m.open:
            return self.say("ok 0 0 0" if topic == "mark" else "ok 0")
        if topic == "quantity":
            self.say(f"ok {m.book.get((a, b), 0)}")
        elif topic == "base":
            self.say(f"ok {m.base.get((a, b), 0)}")
        elif topic == "limit":
            self.say(f"ok {m.stocks.get(a, {}).get('limit') or 0}")
        elif topic == "ban":
            self.say(f"ok {int(m.stocks.get(a, {}).get('ban', False))}")
        elif topic in ("violated", "charge"):
            self.say(f"ok {m.stocks.get(a, {}).get(topic, {}).get(b, 0)}")
        elif topic == "notional":
            source = Source("notional", 0, 0, {})
            self.say(f"ok {sum(sum(m.reading(a, source, e)[1:]) for e in range(m.e))}")
        else:
            row = m.marks.get((a, b, c), {"sighted": False, "count": 0, "largest": 0})
            self.say(f"ok {int(row['sighted'])} {row['count']} {row['largest']}")

    def read(self, u, source):
        m = self.monitor
        if not m.open:
            return self.say("ok 0")
        lack = m.missing(u, source, [m.book])
        if lack:
            return self.say(f"refused 6 DELTA contract {lack[0]} entity {lack[1]}")
        self.say(f"ok {m.interest(u, source)}")
        for e in range(m.e):
            net, long, short = m.reading(u, source, e)
            if long or short:
                self.out.append(f"  entity {e} net {net} long {long} short {short}")

    def end(self):
        self.out.append(f"end lines {self.lines} accepted {self.accepted} refused {self.refused} malformed {self.malformed}")
        return "\n".join(self.out) + "\n"


def replay(data):
    player = Player()
    lines = data.split(b"\n")
    if lines and lines[-1] == b"":
        lines.pop()
    for line in lines:
        player.play(line)
    return player.end()


if __name__ == "__main__":
    data = open(sys.argv[1], "rb").read() if len(sys.argv) > 1 else sys.stdin.buffer.read()
    sys.stdout.write(replay(data))
