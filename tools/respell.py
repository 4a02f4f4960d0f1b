#!/usr/bin/env python3
"""Brings this repository's own definitions and lemmas to today's spelling, behind port.py: words in snake case, a dash where it joins two names,
a fact in camel case. Functions of src/, exported names, strings, inputs and outputs keep theirs.

usage: tools/respell.py [--list] [FOLDER]     over FOLDER (or here): crates/, with its proofs, and the pages; --list prints the names and writes nothing"""
import os, re, sys

IDENT = re.compile(r"[^\s(){}\[\];,.λ\"`:|⟨⟩]+")
# a folder's own file of this name would be Rattle's: words of inner contracts
MODULES = {"Contracts": "Inner"}
# port.py names a cycle by all its members
CYCLES = {
    "check_child_check_children_check_declared_check_row_check_value": "checking",
    "lay_at_lay_children_lay_declared_lay_foreign_lay_hold_lay_right_lay_value": "laying",
    "measure_child_measure_children_measure_declared_measure_framed_measure_hold_measure_value": "measuring",
    "size_children_size_row": "sizing",
}
CYCLES |= {"+" + old: "+" + new for old, new in CYCLES.items()}
# by hand: facts, and names that would fall together
BY_HAND = {"UTF8-tail": "UTF8-tail"}  # the RFC's


def files(root, ends, below="crates"):
    for folder, dirs, names in os.walk(os.path.join(root, below)):
        dirs[:] = sorted(d for d in dirs if d not in ("out", "target", ".git"))
        for n in sorted(names):
            if n.endswith(ends):
                yield os.path.join(folder, n)


def read(p):
    with open(p, encoding="utf-8") as f:
        return f.read()


def declared(text):
    """The names that an .antt file declares, in sections, records and data too."""
    names = []
    for line in text.split("\n"):
        m = re.match(r"\s*(?:abbrev |unfoldable )?(?:pub )?(?:record|data|ruleset) (\S+)", line)
        if m:
            names.append(m.group(1))
            continue
        m = re.match(r"\s*(?:(?:abbrev|unfoldable|pub) )*((?:[^\s(){}\[\]:;,.λ=-][^\s(){}\[\]:;,.λ=]* )+): ", line + " ")
        if m and not line.lstrip().startswith(("--", "let ", "use ")):
            names += m.group(1).split()
    return names


def snake(word):
    word = word.replace("getD", "get_or")
    if word[:1].isupper() or not re.search(r"[A-Z]", word):
        return word
    return re.sub(r"(?<=[a-z0-9'₀₁₂])([A-Z])", lambda m: "_" + m.group(1).lower(), word)


def rules(root):
    tops, words = {}, set()
    for p in files(root, ".antt"):
        if os.path.basename(p) in ("Proof.antt", "Lib.antt"):
            continue
        for n in declared(read(p)):
            tops.setdefault(n, set()).add(os.path.relpath(p, root))
            if "/specs/" in p:
                words.add(n)
    # what a dash joins: definitions of ours, and the library's words that laws of ours speak of
    library = set("length take drop set get_or append replicate sum map reverse all any cond min max".split())
    spec = {snake(w) for w in words} | library
    new = {}
    for n in tops:
        if n in BY_HAND:
            if BY_HAND[n] != n:
                new[n] = BY_HAND[n]
            continue
        if n[:1].isupper() and "-" not in n:
            continue
        parts = [snake(p) for p in n.split("-")]
        out = parts[0]
        for a, b in zip(parts, parts[1:]):
            joined = (a in spec or a[:1].isupper()) and (b in spec or b[:1].isupper())
            out += ("-" if joined or not re.match(r"[A-Za-z]", b) or not re.match(r"[A-Za-z]", a) else "_") + b
        if out != n:
            new[n] = out
    # a lemma whose new name another has keeps its dash; one that has a definition's new name gets _lem
    taken = set(tops) | {v for n, v in new.items() if "-" not in n}
    for n in [n for n, v in new.items() if "-" in n and v in taken and not re.search(r"[A-Z]", n)]:
        del new[n]
    for n, v in list(new.items()):
        if "-" not in n and v in tops and v not in new:
            new[v] = v + "_lem"
    return new, tops


def turned(text, new, prose=False):
    """The text with the new names; of prose only what stands between back quotes, and words in camel case."""
    def one(m):
        t = m.group(0)
        if prose and "-" in t and not (m.start() and text[m.start() - 1] in "`./"):
            return t
        v = new.get(t, t)
        return t if v == t + "_lem" and text[m.end():m.end() + 1] == "." else v

    return IDENT.sub(one, text)


def main(argv):
    listing = "--list" in argv
    argv = [a for a in argv if a != "--list"]
    root = argv[0] if argv else "."
    new, tops = rules(root)
    if listing:
        for n in sorted(new):
            print(n, new[n], *sorted(tops[n]))
        return
    new |= MODULES | CYCLES
    pages = [os.path.join(root, p) for p in ("README.md",)] + list(files(root, ".md", "docs"))
    for p in list(files(root, (".antt", ".rt"))) + [p for p in pages if os.path.basename(p) != "LANDINGS.md"]:
        t = read(p)
        # a lemma that gives way to a definition is named in proofs alone: elsewhere the name is a function's
        u = turned(t, new if p.endswith(".antt") else {n: v for n, v in new.items() if v != n + "_lem"}, p.endswith(".md"))
        if u != t:
            with open(p, "w", encoding="utf-8") as f:
                f.write(u)
    for p in list(files(root, "Contracts.antt")):
        os.rename(p, os.path.join(os.path.dirname(p), "Inner.antt"))
    for folder, dirs, _ in list(os.walk(os.path.join(root, "crates"))):
        for d in dirs:
            if d.startswith("+") and d in CYCLES:
                os.rename(os.path.join(folder, d), os.path.join(folder, CYCLES[d]))


if __name__ == "__main__":
    main(sys.argv[1:])
