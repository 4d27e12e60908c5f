#!/usr/bin/env python3
"""Brings this repository's own ghost names to the library's spelling: words in snake case, types in camel case.

Run once, at the top of the repository, after the toolchain's own script. Definitions, lemmas, fields, constructors and
parameters of specs/ and proofs/ are respelled wherever clauses, proofs, README and docs/ name them; names that the
toolchain makes (goals, fields of a proof's context), functions of src/, strings, inputs and outputs keep theirs.
It stops, and changes nothing, where two names would fall together.
"""
import glob
import os
import re
import sys

NAME = r"[A-Za-zµμ][\w'-]*"
MADE = ("Answers.antt", "Invariants.antt", "Choices.antt", "Proof.antt")
ANTT = sorted(glob.glob("crates/*/specs/**/*.antt", recursive=True) + glob.glob("crates/*/proofs/**/*.antt", recursive=True))
RT = sorted(glob.glob("crates/*/src/**/*.rt", recursive=True))
PAGES = ["README.md"] + sorted(glob.glob("docs/*.md"))
# A type that was spelled as a word, and words whose snake case another name has already.
GIVEN = {
    "Of-u": "OfU",
    "at-close": "at_close_is",
    "base-after": "base_after_is",
    "cause-next": "cause_next_is",
    "closed-charge": "closed_charge_is",
    "days-least": "days_least_is",
    "days-most": "days_most_is",
    "float-least": "float_least_is",
    "float-most": "float_most_is",
    "four-of": "four_of_is",
    "goesOn": "goes_on",
    "in-range": "is_in_range",
    "ledger-next": "ledger_next_is",
    "limit-in": "limit_in_is",
    "new-base": "new_base_is",
    "sum-of": "sum_of_is",
    "without-return": "without_return_is",
}
# Words that a path, a function of src/ or a field beside them has too, and that mean the same there.
ALIKE = {
    "allAre", "allSound", "areInRange", "countBefore", "goesOn", "grossLimit", "isStock", "isText", "limitOf", "netLimit", "readWords", "setLimit",
}


def snake(name):
    name = re.sub(r"(?<=[a-z0-9])([A-Z])", lambda m: "_" + m[1].lower(), name)
    return name.replace("-", "_")


def text(path):
    with open(path, encoding="utf-8") as f:
        return f.read()


def defined():
    """The names that this repository's specs and proofs give, and which of them are fields."""
    names, fields = set(), set()
    for path in ANTT:
        made = os.path.basename(path) in MADE
        record = False
        for line in text(path).split("\n"):
            if line[:1].strip():
                record = re.match(r"(?:pub )?record ", line) is not None
            line = line.split("--")[0] if line.lstrip().startswith("--") else line
            head = re.match(rf"^(\s*)((?:abbrev |unfoldable |pub |data |record )*)((?:{NAME} )*{NAME})\s*:(?!=)", line)
            if head and not (made and not head[1]):
                names |= set(head[3].split())
                if head[1] and record:
                    fields |= set(head[3].split())
            for m in re.finditer(rf"[({{]((?:{NAME} )*{NAME}) :", line):
                names |= set(m[1].split())
            for m in re.finditer(rf"λ ((?:{NAME} )*{NAME})\.", line):
                names |= set(m[1].split())
            for m in re.finditer(rf"\blet ({NAME}) (?::|=)", line):
                names.add(m[1])
            if not made and not line.lstrip().startswith(("--", "use ", "pub use ")):
                names |= {m[1] for m in re.finditer(rf"(?<![\w'·.-])({NAME})", line)}
    for path in RT:
        for m in re.finditer(rf"λ ((?:{NAME} )*{NAME})\.|[({{]((?:{NAME} )*{NAME}) :|\blet ({NAME}) =", text(path)):
            names |= {n for n in (m[1] or m[2] or m[3]).split() if re.search("[a-z][A-Z]", n) or "-" in n}
    return names, fields


def imported():
    """The names that come from the library: these keep their spelling."""
    found = set()
    for path in ANTT + RT:
        for m in re.finditer(r"use ([\w.·'-]+)\.\{([^}]*)\}", text(path)):
            inner = re.match(r"Rattle\.(\w+)\.(specs|proofs)\.", m[1])
            own = inner and os.path.isdir(f"crates/{inner[1]}")
            if not own or ".declared." in m[1]:
                found |= {w.strip() for w in m[2].split(",")}
    return found


def main():
    names, fields = defined()
    library = imported()
    turned = {}
    for n in sorted(names):
        if n in library and n not in GIVEN:
            continue
        new = GIVEN.get(n) or (snake(n) if n[0].islower() else n)
        if new != n:
            turned[n] = new
    token = re.compile(r"(\.|(?<![\w'·.-]))([A-Za-z][\w'-]*)(?![\w'·-])")
    words = set()
    for path in ANTT:
        words |= {m[2] for m in token.finditer(text(path))}
    for path in RT:
        for line in re.findall(r"ghost use [^;]*;", text(path)):
            words |= {m[2] for m in token.finditer(line)}
    together = sorted(f"{n} -> {new}" for n, new in turned.items() if n not in ALIKE and (new in words or list(turned.values()).count(new) > 1))
    if together:
        print("these would fall together with another name:\n  " + "\n  ".join(together))
        return 1

    def put(m):
        dot, word = m[1], m[2]
        if dot and word not in fields:
            return m[0]
        return dot + turned.get(word, word)

    changed = 0
    for path in ANTT + RT + PAGES:
        old = text(path)
        if path.endswith(".rt"):
            new = re.sub(r'"(?:\\.|[^"\\\n])*"|//[^\n]*|' + token.pattern, lambda m: m[0] if m[0][0] in '"/' else put(m), old)
        elif path.endswith(".md"):
            new = re.sub(r"`[^`\n]*`", lambda m: token.sub(put, m[0]), old)
        else:
            new = "\n".join(l if l.lstrip().startswith("--") else token.sub(put, l) for l in old.split("\n"))
        if new != old:
            with open(path, "w", encoding="utf-8") as f:
                f.write(new)
            changed += 1
    print(f"{len(turned)} names, {changed} files")
    return 0


if __name__ == "__main__":
    sys.exit(main())
