#!/usr/bin/env python3
"""Plants bugs in the code of crates, one at a time, and says which of them the check still proves.

usage: plant.py OUTPUT CRATE...                (bugs in each function of a crate, until two of its bugs were read by the check)
       plant.py --each N OUTPUT CRATE...       (the same, N in each function; a crate may be CRATE:FUNCTION)
       plant.py --from LIST OUTPUT [CRATE...]  (those that a list has of these crates, or all of the list: on each line the crate,
                                               the function, the file, a text that stands once in it, and the text in its place,
                                               with \\n where a line ends)
       plant.py --edits OUTPUT CRATE...        (a crate's must-fail edits; the gate proves each from nothing, and is the verdict)
       plant.py --list CRATE...                (only counts the bugs that there are to plant, function by function)

OUTPUT gets a line for each bug: crate, function, whether that is public, file, line, verdict, old, new, what the check said.
A bug is a changed operator, constant, condition, variant, field or text, exchanged arguments, or a dropped statement, on one
line of a function's body. Verdicts: refused (a fact fails), unread (it doesn't compile), gone (a written answer names what isn't
there any more, which tells nothing), PROVED (a contract that is too weak, or no bug at all). Work in a copy: the sources are
changed and put back. The player has no contracts: its bugs are tried on the gate's journals alone, and are found by test or PASSED.
"""
import contextlib
import glob
import itertools
import os
import random
import re
import subprocess
import sys

SWAPS = [(" < ", " <= "), (" <= ", " < "), (" > ", " >= "), (" >= ", " > "), (" == ", " != "), (" != ", " == "),
         (" && ", " || "), (" || ", " && "), (" + ", " - "), (" - ", " + "), (" * ", " + "), (" += ", " -= "),
         (".max(", ".min("), (".min(", ".max("), ("..=", ".."), ("true", "false"), ("false", "true"),
         ("is_some", "is_none"), ("is_none", "is_some"), ("is_ok", "is_err"), ("is_err", "is_ok"), (".iter()", ".iter().skip(1)"),
         (".is_some_and(", ".is_none_or("), (".is_none_or(", ".is_some_and("), (".take(", ".skip("), (".skip(", ".take("),
         ("from_be_bytes", "from_le_bytes"), (".any(", ".all("), (".all(", ".any(")]


def is_part(text, at, end):
    """Whether text[at:end] is only a part of a name."""
    return (text[at].isalpha() and at > 0 and (text[at - 1].isalnum() or text[at - 1] == "_")) or \
        (text[end - 1].isalpha() and end < len(text) and (text[end].isalnum() or text[end] == "_"))


def replaced(code, old, new):
    for m in re.finditer(re.escape(old), code):
        if not is_part(code, m.start(), m.end()):
            yield code[:m.start()] + new + code[m.end():]


def groups():
    """Names that stand for one another: an enum's variants that hold the same, and a struct's fields of one type."""
    alike = []
    for path in glob.glob("crates/*/src/*.rt"):
        text = re.sub(r"//.*", "", open(path).read())
        for m in re.finditer(r"\benum (\w+)[^{;]*\{(.*?)\n\}", text, re.S):
            by_what = {}
            for name, what in re.findall(r"^    (\w+)(\s*[({][^,]*)?,", m.group(2), re.M):
                by_what.setdefault(what.strip(), []).append(f"{m.group(1)}::{name}")
            alike += [names for names in by_what.values() if len(names) > 1]
        for m in re.finditer(r"\bstruct (\w+)[^{;(]*\{(.*?)\n\}", text, re.S):
            by_type = {}
            for name, what in re.findall(r"^    (?:pub(?:\(crate\))? )?(\w+): ([^\n]*),$", m.group(2), re.M):
                by_type.setdefault(what, []).append(f".{name}")
            alike += [names for names in by_type.values() if len(names) > 1]
    return alike


def arguments(code):
    """Each pair of neighbours in brackets, exchanged."""
    for m in re.finditer(r"\(", code):
        depth, parts, begin = 0, [], m.end()
        for at in range(m.end(), len(code)):
            c = code[at]
            if c in "([{":
                depth += 1
            elif c in ")]}" and depth > 0:
                depth -= 1
            elif depth == 0 and c in ",)":
                parts.append((begin, at))
                begin = at + 2
                if c == ")":
                    break
        else:
            continue
        for (a, b), (c, d) in zip(parts, parts[1:]):
            if code[a:b] != code[c:d] and code[c:d]:
                yield code[:a] + code[c:d] + code[b:c] + code[a:b] + code[d:]


def without(code, begin):
    """Each such call of a constructor, as the constructor of nothing."""
    for m in re.finditer(re.escape(begin), code):
        depth = 1
        for at in range(m.end(), len(code)):
            depth += (code[at] in "([{") - (code[at] in ")]}")
            if depth == 0:
                yield code[:m.start()] + "None" + code[at + 1:]
                break


def tails(code, text, answers):
    """Another value in place of the whole of a last line."""
    if not text or text.endswith((";", "}", ",")) or text.startswith(("}", ".", ")")):
        return []
    if answers == "bool":
        return [code.replace(text, f"!({text})")]
    if re.fullmatch(r"[iu](8|16|32|64|128|size)", answers):
        return [code.replace(text, f"({text}).min(0)"), code.replace(text, f"({text}).max(1)")]
    return [code.replace(text, "None")] if answers.startswith("Option") else []


def changes(line, alike, is_tail, answers):
    """The kinds of change that a line allows, each with the changed lines."""
    code = line.split("//")[0].rstrip()
    text = code.strip()
    for old, new in SWAPS:
        yield "operator", list(replaced(code, old, new))
    for names in alike:
        for k, name in enumerate(names):
            other = names[(k + 1) % len(names)]
            yield "neighbour", list(replaced(code, name, other))
            if name[0] == "." and text == f"{name[1:]},":
                yield "neighbour", [code.replace(text, f"{name[1:]}: {other[1:]},")]
    yield "arguments", list(arguments(code))
    yield "constant", [code[:m.start()] + str(int(m.group(1).replace("_", "")) + 1) + code[m.end():]
                       for m in re.finditer(r"(?<![\w.])(\d[\d_]*)(?![\w.]*\")", code)]
    yield "constant", [code[:m.start()] + f"({m.group(0)} + 1)" + code[m.end():] for m in re.finditer(r"\b[A-Z][A-Z_]{3,}\b", code)]
    yield "text", [code[:m.end() - 1] + "s" + code[m.end() - 1:] for m in re.finditer(r'"[^"]*"', code)]
    yield "condition", [code[:m.start(1)] + f"!({m.group(1)})" + code[m.end(1):] for m in re.finditer(r"\bif (?!let )(.*) \{$", code)]
    yield "condition", [code[:m.start()] + code[m.end():] for m in re.finditer(r"(?<=[\s(])!(?=[a-z(])", code)]
    yield "nothing", list(without(code, "Some("))
    if is_tail:
        yield "tail", tails(code, text, answers)
    if text.endswith(";") and not text.startswith(("let ", "return", "break", "use ")) and ("=" in text or text.endswith((");", "?;"))):
        yield "dropped", [""]


def functions(path):
    """Each function with a body: its name, whether it is public, the type of its answer, and the numbers of its body's lines."""
    owner = name = body = None
    head, public, trait = "", False, False
    depth = 0
    for n, line in enumerate(open(path).read().split("\n")):
        text = line.split("//")[0]
        if body is None:
            m = re.match(r"(?:unsafe )?impl\b(?:<[^>]*>)?\s*(.*?)\s*(\{.*)?$", text)
            if m:
                parts = m.group(1).split(" for ")
                trait = len(parts) > 1
                owner = re.sub(r"<.*", "", parts[-1].split(" where ")[0]).strip("&{ ") + (f" ({parts[0].split('<')[0]})" if trait else "")
            elif re.match(r"\S.*fn ", text):
                owner, trait = None, False
            m = re.match(r"\s*(pub(?:\(crate\))? )?(?:const )?(?:unsafe )?(?:extern \"C\" )?fn (\w+)", text)
            if m:
                name = f"{owner}::{m.group(2)}" if owner else m.group(2)
                head, public = "", m.group(1) == "pub " or trait
            if name:
                head += text
                if re.match(r"\s*\{\s*$", text) or re.search(r"\)[^{}]*\{\s*$", text) and "ensures" not in text and "requires" not in text:
                    body, depth = [], 1
                elif text.rstrip().endswith(";"):
                    name = None
            continue
        depth += text.count("{") - text.count("}")
        if depth == 0:
            answers = re.search(r"\) -> ([^{]*?)\s*(?:ensures|requires|where|\{|$)", head)
            yield name, public, answers.group(1).strip() if answers else "", body
            name = body = None
        elif text.strip():
            body.append(n)


def bugs(path, body, answers, alike):
    """A function's bugs, kinds taken in turn, in an order that chance gives and each run repeats."""
    lines = open(path).read().split("\n")
    by_kind, seen = {}, set()
    for n in body:
        for kind, made in changes(lines[n], alike, n == body[-1], answers):
            for new in made:
                if new != lines[n] and (n, new) not in seen:
                    seen.add((n, new))
                    by_kind.setdefault(kind, []).append((n, new))
    chance = random.Random(path)
    kinds = sorted(by_kind)
    chance.shuffle(kinds)
    # What turns a whole answer around is the easiest to refuse, so it comes last.
    kinds.sort(key=lambda kind: kind in ("condition", "nothing", "tail"))
    for kind in kinds:
        chance.shuffle(by_kind[kind])
    while any(by_kind.values()):
        for kind in kinds:
            if by_kind[kind]:
                yield by_kind[kind].pop()


def check(crate):
    """What the check says of a crate, and the first message that decides it."""
    ran = subprocess.run(["rt", "check"], cwd=f"crates/{crate}", capture_output=True)
    lines = (ran.stdout + ran.stderr).decode(errors="replace").split("\n")
    if ran.returncode == 0:
        return "PROVED", ""
    # A fact is open, or a written answer is one to another fact.
    for verdict, said in [("refused", "not proved that|did not prove|no proof"), ("refused", "error: .*, the two (types|values)"),
                          ("unread", r"^src/.*error"), ("gone", "error")]:
        found = [line.strip() for line in lines if re.search(said, line)]
        if found:
            return verdict, found[0]
    return "unread", ""


# Each source that is written has a time of its own, as two of one length in one second look the same to the check.
STAMPS = itertools.count(random.Random().randrange(10**8, 10**9))


def write(path, text):
    open(path, "w").write(text)
    stamp = next(STAMPS)
    os.utime(path, (stamp, stamp))


def played(program):
    """What the gate's input to a program tells of one that is built as it stands, with nothing proved."""
    home = f"crates/{program}"
    data = [word for path in sorted(glob.glob(f"{home}/data/*")) for word in ("--data", f"{os.path.basename(path)}={os.path.relpath(path, home)}")]
    stdin = open(f"{home}/stdin") if os.path.exists(f"{home}/stdin") else subprocess.DEVNULL
    ran = subprocess.run(["rt", "try", program, "--steps", "1", *data, "--", *open(f"{home}/args").read().split()], cwd=home, stdin=stdin, capture_output=True)
    if b"run=" not in ran.stdout + ran.stderr:
        return "unread", ""
    wanted = open(f"{home}/stdout", "rb").read()
    return ("PASSED", "") if ran.stdout == wanted else ("by test", program)


def check_or_play(crate):
    """The player promises nothing, so only what the programs print can tell."""
    if crate != "player":
        return check(crate)
    told = [played(program) for program in ("checks", "futeq")]
    return next((verdict for verdict in told if verdict[0] != "PASSED"), told[0])


@contextlib.contextmanager
def standing(changed):
    """These texts stand in these files, and the old ones again afterwards."""
    kept = {path: open(path).read() for path in changed}
    try:
        for path, text in changed.items():
            write(path, text)
        yield
    finally:
        for path, text in kept.items():
            write(path, text)


def planted(crate, changed):
    """What the check says of a crate with these texts in its files."""
    with standing(changed):
        return check_or_play(crate)


def tell(out, crate, function, kind, path, line, verdict, old, new):
    old, new = (" ".join(text.split()) for text in (old, new))
    print(crate, function, kind, path.split("/")[-1], line, verdict[0], old, new or "(dropped)", verdict[1], sep="\t", file=out, flush=True)


def kind_at(path, line):
    return next(("public" if public else "private" for _, public, _, body in functions(path) if line - 1 in body), "elsewhere")


def swapped(text, old, new):
    assert text.count(old) == 1, f"the old text must stand once: {old}"
    return text.replace(old, new), text[: text.index(old)].count("\n") + 1


def listed(name, crates, out):
    for line in open(name):
        crate, function, file, old, new = (word.replace("\\n", "\n").replace("\\\n", "\\n") for word in line.rstrip("\n").split("\t"))
        if not crates or crate in crates:
            path = f"crates/{crate}/src/{file}"
            text, at = swapped(open(path).read(), old, new)
            tell(out, crate, function, kind_at(path, at), path, at, planted(crate, {path: text}), old, new)


def edits(crate, out):
    """An edit names a file, and then old and new texts of it in pairs; it may go on with another file."""
    for name in sorted(glob.glob(f"crates/{crate}/must-fail/*.edit")):
        changed = {}
        path = old = first = None
        for line in open(name):
            key, value = line.rstrip("\n").split(": ", 1)
            if key == "file":
                path = f"crates/{crate}/{value}"
            elif key == "old":
                old = value
            else:
                changed[path], at = swapped(changed.get(path) or open(path).read(), old, value)
                first = first or (path, at, old, value)
        path, at, old, new = first
        tell(out, crate, name.split("/")[-1], kind_at(path, at), path, at, planted(crate, changed), old, new)


def in_functions(word, each, listing, alike, out):
    crate, _, wanted = word.partition(":")
    for path in sorted(glob.glob(f"crates/{crate}/src/*.rt")):
        for name, public, answers, body in list(functions(path)):
            if wanted and wanted != name:
                continue
            kind = "public" if public else "private"
            there = list(bugs(path, body, answers, alike))
            if listing:
                print(crate, name, kind, len(there), sep="\t", file=out)
                continue
            read = 0
            lines = open(path).read().split("\n")
            for n, new in there[: 6 * each]:
                if read == each:
                    break
                verdict = planted(crate, {path: "\n".join(lines[:n] + [new] + lines[n + 1:])})
                read += verdict[0] in ("refused", "PROVED")
                tell(out, crate, name, kind, path, n + 1, verdict, lines[n], new)


def main():
    words = sys.argv[1:]
    each = 2
    mode = words.pop(0) if words[0].startswith("--") else ""
    if mode == "--each":
        each = int(words.pop(0))
    bug_list = words.pop(0) if mode == "--from" else None
    out = sys.stdout if mode == "--list" else open(words.pop(0), "a")
    if bug_list:
        listed(bug_list, words, out)
        return
    alike = groups()
    for word in words:
        if mode == "--edits":
            edits(word, out)
        else:
            in_functions(word, each, mode == "--list", alike, out)


if __name__ == "__main__":
    main()
