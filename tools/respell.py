#!/usr/bin/env python3
"""Spells the repository's own definitions and lemmas as the toolchain's library does: words in snake case (`stepOf` to `step_of`, `pick-both`
to `pick_both`). Types keep their capitals, and names of src/ stay. Run once, at the top, on the tree as port.py left it:

    tools/respell.py            turns crates/*/specs, crates/*/proofs and the clauses of crates/*/src
    tools/respell.py --check    writes nothing, and lists the names that would fall together

A name is turned wherever it stands as a whole word in antt or in a clause, but not in a file that imports it from the library.
"""
import collections
import glob
import re
import sys

NAME = r'[^\s(){}.;,@"«»`]+'
WORD = re.compile(NAME)
DECLARED = re.compile(rf"^\s*(?:(?:pub|abbrev|unfoldable)\s+)*(?:(?:record|data)\s+)?({NAME})(?:\s*\{{[^{{}}]*\}})*(?:\s*\([^()]*\))*\s+:\s")
RULESET = re.compile(rf"^\s*(?:pub\s+)?ruleset ({NAME}) =")
LIBRARY = re.compile(r"\buse\s+(?:Rattle\.std|borrow|native|mathlib|lib|Prim|denote|ground)\b[^{\n]*\{([^}]*)\}")
OWN = re.compile(r"\buse\s+Rattle\.(?!std\b)[^{\n;]*\{([^}]*)\}")
FIELD = re.compile(r"(?m)^    pub (\w+):")
PARAMETER = re.compile(r"\b(\w+): ")
CLAUSE = re.compile(r"\b(?:requires|ensures|ghost)\b")


def own_files():
    return sorted(glob.glob("crates/*/specs/**/*.antt", recursive=True) + glob.glob("crates/*/proofs/**/*.antt", recursive=True))


def respelled(name):
    name = name.replace("getD-", "get_or-")  # the library's name for it now
    if name[0].isupper():
        return re.sub(r"-", "_", name)
    words = re.sub(r"(?<=[a-z0-9'])[A-Z]", lambda m: "_" + m[0].lower(), name)
    return re.sub(r"(?<=[\w'])-(?=\w)", "_", words)


def declared():
    """The names that the definitions and lemmas of the repository have, each with the files that declare it."""
    names = collections.defaultdict(set)
    for path in own_files():
        if re.search(r"/proofs/[^/]+/", path):
            continue
        for line in open(path, encoding="utf8"):
            if line.lstrip().startswith(("--", "use ", "let ", "mod ", "pub mod ")):
                continue
            m = RULESET.match(line) or DECLARED.match(line)
            if m and not re.fullmatch(r"[◌?→×≡∷⌜].*|.*◌.*", m[1]):
                names[m[1]].add(path)
    return names


def library_names(text):
    return {w for items in LIBRARY.findall(text) for w in WORD.findall(items)}


def turn(text, table, comment):
    """The text with each word of the table turned; in comments only words in code spans, and those with a capital inside."""

    def bare(line):
        return WORD.sub(lambda m: table.get(m[0], m[0]), line)

    def prose(line):
        spans = re.sub(r"`[^`\n]*`", lambda m: bare(m[0]), line)
        return WORD.sub(lambda m: table[m[0]] if m[0] in table and re.search("[a-z][A-Z]", m[0]) else m[0], spans)

    out = []
    for line in text.split("\n"):
        at = line.find(comment) if comment == "//" else next((m.start() for m in re.finditer(r"(?:^|(?<=\s))--", line)), -1)
        out.append(bare(line) if at < 0 else bare(line[:at]) + prose(line[at:]))
    return "\n".join(out)


def turn_source(text, table):
    """A file of src/: its clauses and imports turn, and its comments; strings and code stay."""
    table = {old: new for old, new in table.items() if re.search("[a-z0-9'][A-Z]|-", old)}
    out, inside, depth = [], False, 0
    for line in text.split("\n"):
        code, cut = (line, "") if "//" not in line else (line[: line.index("//")], line[line.index("//") :])
        if not inside and CLAUSE.search(code) and not code.lstrip().startswith("//"):
            inside, depth = True, 0
        if inside:
            depth += code.count("{") - code.count("}")
            code = turn(code, table, "//")
            if depth <= 0 and re.search(r"[;}]\s*$", code):
                inside = False
        cut = turn(cut, table, "//") if cut else ""
        out.append(code + cut)
    return "\n".join(out)


def main():
    names = declared()
    table = {n: respelled(n) for n in names}
    # A lemma that would have a field's name gets `_lem`: an antt record of src/ has the field.
    fields = {f for path in glob.glob("crates/*/src/*.rt") for f in FIELD.findall(open(path, encoding="utf8").read())}
    for old in names:
        if "-" in old and table[old] in fields:
            table[old] += "_lem"
    meets = collections.defaultdict(set)
    for old in names:
        meets[table[old]].add(old)
    # A lemma that would have its function's name gets `_lem`; the function is the one with capitals, or the one that has the name already.
    for new, olds in meets.items():
        first = min(olds, key=lambda old: (not re.search("[a-z0-9][A-Z]", old), old != new))
        for old in olds - {first}:
            table[old] = new + "_lem"
    table = {old: new for old, new in table.items() if old != new}
    meets = collections.defaultdict(set)
    for old in names:
        meets[table.get(old, old)].add(old)
    wrong = [f"{sorted(olds)} would all be {new}: {sorted({p for o in olds for p in names[o]})}" for new, olds in sorted(meets.items()) if len(olds) > 1]
    said = []
    for path in own_files() + sorted(glob.glob("crates/*/src/*.rt")):
        text = open(path, encoding="utf8").read()
        kept = library_names(text)
        here = {old: new for old, new in table.items() if old not in kept}
        words = set(WORD.findall(text))
        taken = words - set(table) if path.endswith(".antt") else set(PARAMETER.findall(text))
        wrong += [f"{path}: {old} would meet {new}" for old, new in here.items() if old in words and new in taken]
        wrong += [f"{path}: {old} would meet {new} of the library" for old, new in here.items() if old in words and new in kept]
        said += [f"{path}: {old} is the library's, and stays" for old in table if old in kept and old in words]
        if "--check" not in sys.argv:
            turned = turn_source(text, here) if path.endswith(".rt") else turn(text, here, "--")
            if turned != text:
                open(path, "w", encoding="utf8").write(turned)
    print("\n".join(wrong + said))
    print(f"{len(table)} names", file=sys.stderr)


main()
