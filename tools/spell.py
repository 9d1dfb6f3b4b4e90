#!/usr/bin/env python3
"""Respells the definitions and lemmas of the repository: words in snake case, a dash between two names.

usage: tools/spell.py before     once, before port.py: a name that it would take for a sign of the new spelling
       tools/spell.py            once, after port.py
       tools/spell.py --list     the names, old and new, one pair a line; writes nothing

Names that src/ declares, and those that Rattle makes, keep their spelling. A name of a Proof.antt alone is left to that proof.
"""
import collections
import os
import re
import sys

TOP = os.path.dirname(os.path.dirname(os.path.realpath(__file__)))
CRATES = os.path.join(TOP, "crates")
BREAK = r"[\s(){};,.\[\]@]"
TOKEN = re.compile(r"[^\s(){};,.\[\]@]+")
DECLARED = re.compile(
    r"( *)((?:abbrev |unfoldable |pub )*)(?:(data|record|ruleset) +)?((?:pub )?)([^\s(){};=:,.]+) *(.*)$"
)
# Names of the library or the logic that stand as parts of a lemma's name.
WORDS = set(
    "zero suc add sub mul div mod pow eq ne le lt min max length take drop append cons nil get set sets map none some true false cond and or not list fst snd if lookup drop_of_length take_all eqb leb ltb iff refl".split()
)
# A lemma that would have the name of a definition which stands in the same file gets `_lem`.
LEMMAS = set(
    "add-indices add-key add-measured add-range after-loop bounds-say classical-says code-says control-count else-at else-body else-keys emit-one expected-word first-covered first-line function-by gate-by gate-known kind-word line-text listing-of measure-target no-part one-of option-end program-of range-says signature-says smallest-covered symbol-by texts-from total-of use-by use-line widths-say".split()
)
# The same of lemmas that port.py has respelled, each in its crate.
RESPELLED = {"by_whole": "sheet", "nothing_left": "accepted", "row_room": "lines", "same_index": "sheet", "same_key": "sheet"}
# port.py leaves out its steps for older spellings where a text has this name of Rust's bare.
BARE = ("walk/proofs/+analyze_stmts+body_stmt+branch+branch_else+for_loop+gate_def+loop_body+while_loop/Proof.antt", "is_plain", "plainReads")


def files(endings):
    for folder, below, names in os.walk(CRATES):
        below[:] = sorted(x for x in below if x != "out")
        for name in sorted(names):
            if name.endswith(endings):
                yield os.path.join(folder, name)


def read(path):
    with open(path, encoding="utf-8") as f:
        return f.read()


def write(path, text):
    with open(path, "w", encoding="utf-8") as f:
        f.write(text)


def declared():
    """Each name that a file declares, with the files."""
    found = collections.defaultdict(set)
    for path in files(".antt"):
        for line in read(path).split("\n"):
            line = line.split("--")[0].rstrip() if line.lstrip().startswith("--") else line
            m = DECLARED.match(line)
            if not m:
                continue
            _, _, kind, _, name, rest = m.groups()
            if kind or rest.startswith(": ") or rest == ":":
                found[name].add(path)
            m = re.match(r"( *)((?:abbrev |unfoldable |pub )*)([^\s(){};=:,.]+(?: [^\s(){};=:,.]+)+) : ", line)
            if m and m.group(3).split()[0] not in ("use", "mod", "where", "let", "in", "module", "data", "record", "ruleset", "elim"):
                for it in m.group(3).split():
                    found[it].add(path)
    return found


def snake(part):
    if not part or not (part[0].islower()):
        return part
    s = re.sub(r"([a-z0-9])([A-Z])", r"\1_\2", part)
    return "_".join(w if i == 0 or not w[:1].isupper() else w.lower() for i, w in enumerate(s.split("_")))


def respelled(name, known):
    parts = [snake(p) for p in name.split("-")]
    if len(parts) == 1:
        return parts[0]
    # The longest names first, from the left; a dash stays where all parts are names.
    groups, i = [], 0
    while i < len(parts):
        for j in range(len(parts), i, -1):
            joined = "_".join(parts[i:j])
            if joined in known:
                groups.append(joined)
                i = j
                break
        else:
            return "_".join(parts)
    return "-".join(groups)


def mapping():
    found = declared()
    plain = {n for n, at in found.items() if not all(p.endswith("Proof.antt") for p in at)}
    own = {snake(n) for n in plain if "-" not in n and re.match(r"[a-z]", n)} 
    known = {w for w in own if len(w) > 2} | WORDS
    pairs = {}
    for n in sorted(plain):
        if not re.search(r"[A-Za-z]", n):
            continue
        if re.match(r"[a-z]", n) and (re.search(r"[a-z0-9][A-Z]", n) or "-" in n):
            new = respelled(n, known) + ("_lem" if n in LEMMAS else "")
            if new != n:
                pairs[n] = new
    return pairs, found


def turned(path, text, pairs):
    """The text with each name respelled; in a proof of one function, a field of what Rattle makes keeps its name."""
    crate = os.path.relpath(path, CRATES).split(os.sep)[0]
    of_function = "/Proof" in path
    pairs = dict(pairs)
    if path.endswith(".antt") and not of_function:
        pairs.update({n: n + "_lem" for n, c in RESPELLED.items() if c == crate})

    def one(part, in_comment):
        def put(m):
            name = m.group(0)
            if in_comment and "-" in name:
                return name
            if of_function and m.start() and part[m.start() - 1] == "." and name != "qubits-are":
                return name
            return pairs.get(name, name)

        return TOKEN.sub(put, part)

    mark = "//" if path.endswith(".rt") else "--"
    out = []
    for line in text.split("\n"):
        m = re.search(r"(^|\s)" + mark + r"(\s|$)", line)
        at = m.start() if m else len(line)
        out.append(one(line[:at], False) + one(line[at:], True))
    return "\n".join(out)


def main(argv):
    if argv == ["before"]:
        path, old, new = BARE
        path = os.path.join(CRATES, path)
        text = read(path)
        text = re.sub(rf"Reads as {old}$", f"Reads as {new}", text, flags=re.M)
        text = re.sub(rf"(?<=[ (]){old}\.", f"{new}.", text)
        write(path, text)
        return
    pairs, _ = mapping()
    if argv == ["--list"]:
        for a, b in pairs.items():
            print(a, b)
        return
    if argv:
        raise SystemExit(__doc__)
    new = {path: turned(path, read(path), pairs) for path in files((".antt", ".rt", ".edit"))}
    for path, text in new.items():
        write(path, text)


if __name__ == "__main__":
    main(sys.argv[1:])
