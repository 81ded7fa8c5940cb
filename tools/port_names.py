#!/usr/bin/env python3
"""Brings the repository's own definitions and lemmas to snake case, as the library's are. Run once, after port.py, at the top.

Names are those that specs/ and proofs/*.antt declare. A lemma whose name would fall together with a definition's gets `_lem`. The
names are turned in specs/, proofs/, the clauses of src/, the must-fail edits and, in backquotes, the documents; in the edits also what
port.py turned elsewhere. Names that a file brings in from the library stay. What falls together is printed, and then nothing is
written."""
import re
import sys
from collections import defaultdict
from pathlib import Path

root = Path(sys.argv[1] if len(sys.argv) > 1 else ".").resolve()
crates = {p.name for p in (root / "crates").iterdir()}
WORD = re.compile(r"(?<![\w'])[A-Za-z_ℕ∃∀][\w'ℕ\-·]*")
# What port.py turned in the text that the edits quote.
LIBRARY = {"getD": "get_or", "boolByte": "bool_byte"}
# A projection that no bracket encloses is one of the whole application before it.
LOOSE = {
    "writing (started room) cs.refusal": "(writing (started room) cs).refusal",
    "(step_answer m.board ram boot s.reply.refusal ≡": "((step_answer m.board ram boot s).reply.refusal ≡",
    "draw_answer b ram picture.refusal": "(draw_answer b ram picture).refusal",
    "step_answer b ram boot s.reply.int": "(step_answer b ram boot s).reply.int",
}


def snake(name):
    name = re.sub(r"([a-z0-9])([A-Z])", lambda m: m.group(1) + "_" + m.group(2).lower(), name)
    return name.replace("-", "_")


def declared():
    found = defaultdict(set)
    for pattern in ("crates/*/specs/**/*.antt", "crates/*/proofs/*.antt"):
        for path in root.glob(pattern):
            for line in path.read_text(encoding="utf-8").split("\n"):
                m = re.match(r"^ *(?:(?:abbrev|unfoldable|pub|record|data) )*([a-z][^\s:]*) :", line)
                if m:
                    found[m.group(1)].add(path)
    return found


def name_map(found):
    """Old spelling to new. port.py has turned the names that a library had, so the older spelling of each is mapped too."""
    groups = defaultdict(set)
    for name in found:
        groups[snake(name)].add(name)
    out = {}
    for new, olds in groups.items():
        # port.py has turned some lemmas already: beside a definition in camel case, the one in snake case is a lemma
        lemmas = {o for o in olds if "-" in o} or {o for o in olds if o == new and len(olds) > 1}
        for old in olds:
            out[old] = new + "_lem" if old in lemmas and len(olds) > 1 else new
    # what port.py made of one spelling: the other spellings that lead to it
    for new in list(groups):
        parts = new.split("_")
        if len(parts) > 1:
            camel = parts[0] + "".join(p[:1].upper() + p[1:] for p in parts[1:])
            kebab = "-".join(parts)
            out.setdefault(camel, new)
            out.setdefault(kebab, new)
    return {o: n for o, n in out.items() if o != n}


def library_names(text):
    """The names that a file brings in from elsewhere than this repository."""
    out = set()
    for m in re.finditer(r"^(?:ghost )?use ([\w.·ℕ\-]+)\.\{([^}]*)\}", text, re.M):
        parts = m.group(1).split(".")
        if parts[0] == "Rattle" and len(parts) > 1 and parts[1] in crates:
            continue
        out |= {n.strip() for n in m.group(2).split(",")}
    return out


def turn(text, names, keep):
    """Turns names; in a comment only those in backquotes."""
    return "\n".join(
        re.sub(r"`[^`]+`", lambda m: turn_words(m.group(0), names, keep), line) if line.strip().startswith("--") else turn_words(line, names, keep)
        for line in text.split("\n")
    )


def turn_words(text, names, keep):
    def one(m):
        word = m.group(0)
        if word in keep:
            return word
        if word in names:
            return names[word]
        if re.fullmatch(r"[a-z][a-z0-9]*[A-Z][A-Za-z0-9]*", word):
            return snake(word)
        return word

    return WORD.sub(one, text)


def aliases(text):
    """`expansion as Maps·expansion` becomes `expansion`."""
    for m in set(re.findall(r"(\w+) as (\w+·\w+)", text)):
        text = text.replace("%s as %s" % m, m[0]).replace(m[1], m[0])
    return text


def clauses(text, names, keep):
    """Turns the clauses and imports of a source file alone."""
    out = []
    for line in text.split("\n"):
        if re.match(r"\s*(ghost use|requires|ensures|ghost) ", line):
            line = turn(line, names, keep)
        out.append(line)
    return "\n".join(out)


def edit(text, names):
    out = []
    for line in text.split("\n"):
        if line.startswith("file: specs/") or line.startswith("file: proofs/"):
            inside = True
        elif line.startswith("file: "):
            inside = False
        elif re.match(r"(old|new):", line):
            head, rest = line[:4], line[4:]
            if inside or re.match(r"\s*(ghost use|requires|ensures) ", rest):
                rest = turn(rest, {**LIBRARY, **names}, set())
                # a projection is written tight
                while True:
                    tight = re.sub(r"\(([\w']+(?: [\w']+)+) \.(\w+)\)", r"(\1).\2", rest)
                    tight = re.sub(r"\(([\w']+(?:\.\w+)*) ((?:\.\w+ ?)+)\)", lambda m: m.group(1) + m.group(2).replace(" ", ""), tight)
                    tight = re.sub(r"(?<![\w']\s)(?<=[\w')]) \.(?=[a-z])", ".", tight)
                    if tight == rest:
                        break
                    rest = tight
                for loose, whole in LOOSE.items():
                    rest = rest.replace(loose, whole)
            line = head + rest
        out.append(line)
    return "\n".join(out)


def document(text, names):
    return re.sub(r"`[^`\n]+`", lambda m: m.group(0) if "/must-fail/" in m.group(0) else turn(m.group(0), {k: v for k, v in names.items() if re.search("[A-Z-]", k)}, set()), text)


def clashes(path, text):
    """Names that one file declares or brings in twice."""
    seen = defaultdict(int)
    for m in re.finditer(r"^(?:ghost )?use [\w.·ℕ\-]+\.\{([^}]*)\}", text, re.M):
        for n in m.group(1).split(","):
            seen[n.strip().split(" as ")[-1]] += 1
    if path.suffix == ".antt":
        for n in set(re.findall(r"^(?:(?:abbrev|unfoldable|pub|record|data) )*([a-z][^\s:]*) :", text, re.M)):
            seen[n] += 1
    return {n for n, k in seen.items() if k > 1}


def main():
    found = declared()
    names = name_map(found)
    written, amiss = {}, False
    for pattern, how in (
        ("crates/*/specs/**/*.antt", turn),
        ("crates/*/proofs/**/*.antt", turn),
        ("crates/*/src/**/*.rt", clauses),
        ("crates/*/must-fail/*.edit", edit),
        ("docs/*.md", document),
        ("README.md", document),
    ):
        for path in sorted(root.glob(pattern)):
            old = path.read_text(encoding="utf-8")
            if how in (turn, clauses):
                new = how(aliases(old), names, library_names(old))
                twice = clashes(path, new) - clashes(path, old)
                if twice:
                    amiss = True
                    print("falls together: %s: %s" % (path.relative_to(root), ", ".join(sorted(twice))))
            else:
                new = how(old, names)
            if new != old:
                written[path] = new
    if amiss:
        sys.exit(1)
    for path, text in written.items():
        path.write_text(text, encoding="utf-8")
    print("%d names, %d files" % (len(names), len(written)))


main()
