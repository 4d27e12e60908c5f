#!/usr/bin/env python3
"""Makes the rules cheat, code and definitions together, and says which laws over runs lose their proofs.

usage: cheats.py [WORD]      (only the cheats whose name has the word)

Each cheat is edits of code and of the definition that its contract cites, so that the crate below still checks: only a law
stands against it. A law that loses its proof may be true still: look whether it is. Where no law fails, the worked examples
are tried; where these hold too, the definition alone stands against the cheat, and a reader of specs/ must see it. Work in a copy.
"""
import re
import subprocess
import sys

from plant import standing, swapped

MARKS, MARK = "crates/index/specs/Marks.antt", "crates/index/src/mark.rt"
CALLS, JUDGES = "crates/index/specs/Calls.antt", "crates/index/src/calls.rt"
DAYS, DAY = "crates/index/specs/Days.antt", "crates/index/src/day.rt"
STEP = "crates/model/specs/Calls.antt"
INDICES = "crates/model/specs/Indices.antt"
CHARGE, CHARGES = "crates/rules/specs/Charge.antt", "crates/rules/src/charge.rt"
CLOSE, CLOSES = "crates/stock/specs/Close.antt", "crates/stock/src/close.rt"

CHEATS = {
    "sights nobody": [
        (MARKS, "record { sighted = over; count", "record { sighted = false; count"),
        (MARK, "        self.sighted = is_over(limit, value);\n        self.sighted\n", "        self.sighted = false;\n        is_over(limit, value)\n")],
    "never counts at a cure": [
        (MARKS, "cured over value r = sighted false (finished (r.sighted && over) value r)", "cured over value r = sighted false r"),
        (MARK, "self.sighted && self.finish(limit, value)", "self.sighted && is_over(limit, value)")],
    "stays sighted after a cure": [
        (MARKS, "cured over value r = sighted false (finished (r.sighted && over) value r)", "cured over value r = finished (r.sighted && over) value r"),
        (MARK, "        self.sighted = false;\n        broken\n", "        broken\n")],
    "never counts at the final snapshot, nor at a cure": [
        (MARKS, "finished over value r = cond over (provisional value r) r", "finished over value r = r"),
        (MARK, "            self.make_provisional(value);\n", "")],
    "keeps the last value, and not the largest": [
        (MARKS, "largest = max r.largest value", "largest = value"),
        (MARK, "self.largest.max(value)", "value")],
    "keeps nothing at a settlement": [
        (MARKS, "kept = cond final (Some r.largest) None }", "kept = None }"),
        (MARK, "kept: found.then_some(self.largest)", "kept: None")],
    "keeps the smallest number for every final breach": [
        (MARKS, "kept = cond final (Some r.largest) None }", "kept = cond final (Some 0) None }"),
        (MARK, "kept: found.then_some(self.largest)", "kept: found.then_some(0)")],
    "settles without the cover": [
        (CALLS, "final_by l c e m row = is_final (limit_for l m) (c e (side_of m)) row", "final_by l c e m row = is_final (limit_for l m) 0 row"),
        (JUDGES, "            self.cover.cover(entity, self.index, mark.side()),\n", "            0,\n")],
    "gross against the net limit": [
        (MARKS, "limit_for l GrossLong = l.gross\nlimit_for l GrossShort = l.gross", "limit_for l GrossLong = l.net\nlimit_for l GrossShort = l.net"),
        (MARK, "Mark::GrossLong | Mark::GrossShort => limits.gross", "Mark::GrossLong | Mark::GrossShort => limits.net")],
    "a regular snapshot that owes nothing": [
        (DAYS, "owed_by Regular = Cure", "owed_by Regular = Snapshot"),
        (DAY, "Round::Regular => Due::Cure", "Round::Regular => Due::Snapshot")],
    "a cure sixteen minutes later": [
        (DAYS, "is_cure_time (Some last) minute = minute == last + cure_minutes", "is_cure_time (Some last) minute = minute == last + 16"),
        (DAY, "minute.checked_sub(CURE_MINUTES) == Some(last)", "minute.checked_sub(16) == Some(last)")],
    "a day of any length is settled": [
        (DAYS, "is_short d = nat_lt d.taken snapshots_least || not (is_complete d.due)", "is_short d = not (is_complete d.due)"),
        (DAY, "self.taken < SNAPSHOTS_LEAST || self.due != Due::Settlement", "self.due != Due::Settlement")],
    "forgets the marks at another call": [(STEP, "remarked s other = s.marks", "remarked s other = λ u e m. no_row")],
    "the day is not cleared": [(INDICES, "cleared_day s u = with_day s u no_day", "cleared_day s u = s")],
    "answers nothing at a cure": [(STEP, "number s (cure u d) = pos (watched_count rule.Cure s.terms s.ledger.book.at s.marks u d)", "number s (cure u d) = pos 0")],
    "answers nothing at a settlement": [(STEP, "number s (settle u c) = pos (final_count s.terms s.marks u c)", "number s (settle u c) = pos 0")],
    "a declined call takes effect": [(STEP, "decided (Err why) n old new = (Err why, old)", "decided (Err why) n old new = (Err why, new)")],
    "never charges": [
        (CHARGE, "charge_of quantity price = cond (quantity == 0) 0 (min charge_most (max charge_least (quantity * price / charge_divisor)))", "charge_of quantity price = 0"),
        (CHARGES, "    paise.clamp(u128::from(CHARGE_LEAST), u128::from(CHARGE_MOST)) as u64\n", "    (paise.clamp(u128::from(CHARGE_LEAST), u128::from(CHARGE_MOST)) as u64).min(0)\n")],
    "moves base after a violation": [
        (CLOSE, "new_pair Holds ok q b = cond ok q b", "new_pair Holds ok q b = q"),
        (CLOSES, "                if !charged {\n                    self.copy_entity(book, closing.chain, entity);\n                }\n",
         "                let _ = charged;\n                self.copy_entity(book, closing.chain, entity);\n")],
    "declines everything": [(STEP, "verdict t s c = unless (closed_table t) (of_call t.listing s c)", "verdict t s c = Err Closed")],
    "declines every snapshot": [(INDICES, "(not (awaits_snapshot day.due), Turn)", "(true, Turn)")],
}


def check(crate):
    ran = subprocess.run(["rt", "check"], cwd=f"crates/{crate}", capture_output=True)
    return (ran.stdout + ran.stderr).decode(errors="replace"), ran.returncode == 0


def said():
    """What refuses the rules as they stand: laws, or else the worked examples, or neither."""
    out, proved = check("model")
    if "crate model:" not in out:
        return "the crate below no longer checks"
    failed = sorted(set(re.findall(r"proofs/(\w+)\.antt:\d+:\d+: error: `(\w+)`", out)))
    if failed:
        return ", ".join(f"{m}.{d}" for m, d in failed[:5])
    return "no law" if proved and check("examples")[1] else "no law, but the worked examples"


def main():
    word = sys.argv[1] if len(sys.argv) > 1 else ""
    for name, edits in CHEATS.items():
        if word not in name:
            continue
        changed = {}
        for path, old, new in edits:
            changed[path], _ = swapped(changed.get(path) or open(path).read(), old, new)
        with standing(changed):
            print(f"{name} | {said()}", flush=True)


if __name__ == "__main__":
    main()
