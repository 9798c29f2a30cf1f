#!/usr/bin/env python3
"""Spells the repository's own definitions and lemmas as today's Rattle does, after port.py.

usage: respell.py OLD      at the top; OLD is the commit that port.py ran on

Functions, lemmas and fields are in snake case; types, facts and modules keep their capitals. A dash joins two names, a plain word is added
with an underscore. Names of functions in src/, exported names and strings stay. It goes over specs/, proofs/ and src/ with the names as
port.py left them, and over must-fail/ and the pages with the names as they were. It prints the names that would fall together, and leaves them.
"""

import collections
import os
import re
import subprocess
import sys

NAME = r"[^\s(){}.;,@\"«»:=λ|⌜⌝]+"
DECLARED = re.compile(
    r"^\s*(?:(?:abbrev|unfoldable|pub|mutual|axiom|data|record|ruleset) )*(" + NAME + r")(?: (?:\([^)]*\)|\{[^}]*\}))*(?: :(?:\s|$)| = )"
)
# what port.py takes for words of a library, and what std calls them
OF_STD = [("getD", "get_or"), ("get_d", "get_or")]
# a definition that would have the name of the function that it is about
OF_FUNCTIONS = {"backOfHear": "back_of_hear_lem"}
# names of the library's that a lemma's name may join
STD = set(
    "zero suc add mul sub div mod pow length append take drop map sum set get_or sets some none ok nil cons min max true false all any "
    "neg one plus times minus inv byte eqb ltb leb eq le lt if".split()
)


def git(*words):
    return subprocess.run(["git", *words], capture_output=True, text=True, check=True).stdout


def antt(paths):
    return sorted(p for p in paths if re.match(r"crates/\w+/(specs|proofs)/.*\.antt$", p))


def of_goals(path):
    """A function's own proof, whose goals have names that the prover makes."""
    return path.endswith(("/Proof.antt", "/Answers.antt", "/Invariants.antt"))


def declared(text, path):
    """The names that a file declares, in order, and where: fields of the functions' goals are left out."""
    found = []
    for line in text.split("\n"):
        m = DECLARED.match(line)
        if m and not line.lstrip().startswith("--") and not re.search(r": tie\.|: statement |close$", line):
            if m[1] not in ("let", "in", "where", "use", "module", "mod", "open", "_"):
                found.append(m[1])
    return found


def fields_of(text):
    """The names of records' fields, and of variables that a signature binds: these have no dash at all."""
    found, depth = set(), None
    for line in text.split("\n"):
        if line.lstrip().startswith("--"):
            continue
        m = re.match(r"(\s*)(?:pub )?record .* where$", line)
        if m:
            depth = len(m[1])
            continue
        if depth is not None and line.strip():
            if len(line) - len(line.lstrip()) <= depth:
                depth = None
            else:
                m = DECLARED.match(line)
                if m:
                    found.add(m[1])
        for names in re.findall(r"[({]([^\s(){}.;,@:]+(?: [^\s(){}.;,@:]+)*) : ", line):
            found.update(n for n in names.split(" ") if "-" in n and re.match(r"[A-Za-z]", n))
    return found


def snake(word):
    return re.sub(r"(?<=[a-z0-9₀-₉])[A-Z]", lambda m: "_" + m[0].lower(), word)


def spelled(name, names, fields):
    """The name as it is to be written; `names` are the words that are names by themselves."""
    if name in OF_FUNCTIONS:
        return OF_FUNCTIONS[name]
    for old, new in OF_STD:
        name = re.sub(r"(?<![A-Za-z])" + old + r"(?![A-Za-z])", new, name)
    if not re.search(r"[a-z]", name) or name[0].isupper() and "-" not in name:
        return name
    if name in fields and re.match(r"[A-Z][a-z]+-[a-z-]+$", name):
        name = name[0].lower() + name[1:]
    parts = name.split("-")
    parts = [p if p[:1].isupper() else snake(p) for p in parts]
    out = parts[0]
    for p in parts[1:]:
        out += ("-" if p in names and name not in fields else "_") + p
    return out


def meet(now, code):
    """Prints where a new name would be one that its file has already for something else."""
    for p, text in now.items():
        words = set(re.findall(r"[^\s(){}.;,@\"«»:\x60|*/\[\]⌜⌝?!]+", re.sub(r"(?m)(^|\s)--\s.*$", "", text)))
        for w in sorted(words & set(code)):
            if code[w] in words:
                print(f"look: {p}: {w} would be {code[w]}, which stands there")


def main():
    old = sys.argv[1]
    then = {p: git("show", f"{old}:{p}") for p in antt(git("ls-tree", "-r", "--name-only", old).split("\n"))}
    now = {}
    for folder, _, files in os.walk("crates"):
        if "/out" in folder:
            continue
        for f in files:
            p = os.path.join(folder, f)
            if p.endswith(".antt"):
                with open(p, encoding="utf-8") as it:
                    now[p] = it.read()
    was, ported, fields = [], {}, set()
    for p, text in then.items():
        q = p.replace("+level+open", "+level_open")
        a, b = declared(text, p), declared(now.get(q, ""), q)
        if len(a) != len(b):
            print(f"look: {p}: {len(a)} names before, {len(b)} after: taken as they are")
            a = b
        mine = fields_of(text)
        fields |= mine
        for x in mine - set(a):
            a, b = a + [x], b + [x]
        was += a
        for x, y in zip(a, b):
            if ported.setdefault(x, y) != y:
                print(f"look: {x} is {ported[x]} in one file and {y} in {p}")
    whole = {snake(n) for n in was if "-" not in n and n[0].islower()} | STD
    final = {x: spelled(x, whole, fields) for x in set(was)}
    meeting = collections.defaultdict(set)
    for x, y in final.items():
        meeting[y].add(x)
    for y, xs in sorted(meeting.items()):
        if len(xs) > 1:
            print(f"together: {y}: {' '.join(sorted(xs))}")
            for x in xs:
                if x != y:
                    final[x] = ported[x]
    code = {ported[x]: y for x, y in final.items() if ported[x] != y}
    page = {x: y for x, y in final.items() if x != y}
    meet(now, code)
    token = re.compile(r"[^\s(){}.;,@\"«»:\x60|*/\[\]⌜⌝?!]+")

    def turn(text, table, prose=False):
        def one(m):
            w = m[0]
            if w in table:
                return table[w]
            if w.endswith("'s") and w[:-2] in table:
                return table[w[:-2]] + "'s"
            return w

        return token.sub(one, text)

    def turn_antt(text):
        lines = []
        for line in text.split("\n"):
            at = re.search(r"(?:^|(?<=\s))--(?=\s|$)", line)
            if not at:
                lines.append(turn(line, code))
                continue
            lines.append(turn(line[: at.start()], code) + in_prose(line[at.start() :], code))
        return "\n".join(lines)

    def in_prose(text, table):
        """Code spans turn whole; elsewhere only names that no English word looks like."""
        spans = re.split(r"(\x60[^\x60]*\x60)", text)
        plain = {x: y for x, y in table.items() if re.search(r"[a-z][A-Z]", x) or "_" in x or re.search(r"[^\x00-\x7f]", x)}
        glossary = re.match(r"--   (\S+)", text)
        out = []
        for k, s in enumerate(spans):
            out.append(turn(s, table) if k % 2 or (k == 0 and glossary) else turn(s, plain))
        return "".join(out)

    changed = 0
    for p, text in now.items():
        t = turn_antt(text)
        if t != text:
            changed += 1
            with open(p, "w", encoding="utf-8") as it:
                it.write(t)
    tracked = git("ls-files").split("\n")
    for p in tracked:
        if re.match(r"crates/\w+/src/.*\.rt$", p):
            table, how = code, lambda t, table: "\n".join(
                in_prose(l, table) if l.lstrip().startswith("//") else turn(l, table) for l in t.split("\n")
            )
        elif p.endswith(".md") or p.endswith(".rs") or p.endswith(".h"):
            table, how = page, lambda t, table: "\n".join(in_prose(l, table) for l in t.split("\n"))
        elif p.endswith(".edit"):
            table, how = page, lambda t, table: "\n".join(
                turn(l, table) if l.startswith(("old: ", "new: ")) else in_prose(l, table) for l in t.split("\n")
            )
        else:
            continue
        if not os.path.exists(p):
            continue
        with open(p, encoding="utf-8") as it:
            text = it.read()
        t = how(text, table)
        if t != text:
            changed += 1
            with open(p, "w", encoding="utf-8") as it:
                it.write(t)
    print(f"respell: {len(final)} names, {len(page)} spelled anew, {changed} files")


main()
