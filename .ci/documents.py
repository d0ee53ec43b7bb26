"""Fails where the documents and the tree disagree: a crate that crates.txt, README.md or docs/CLAIMS.md
leaves out, a name that a document gives and the file it gives it for does not have in public, a public function with a
`requires` that docs/DECISIONS.md does not list in 41, or a table of edges in README.md that is not the printed one.

It is given as `crate/File: name, name`: File is `src` for the crate's src/*.rt, or else a module of its specs/ or proofs/ or of both
(`rules/Laws/Decided` is crates/rules/specs/Laws/Decided.antt and crates/rules/proofs/Laws/Decided.antt)."""
import glob
import os
import re
import sys

# `pub fn f`, `pub struct S`, `pub enum E`, `pub const C`, and the head of a type's methods.
CODE = re.compile(r"\s*pub\s+(?:extern\s+\"C\"\s+)?(?:fn|struct|enum|const)\s+([A-Za-z_]\w*)")
METHODS = re.compile(r"impl\s+([A-Za-z_]\w*)")
# The signature of a public definition or theorem, and the head of a public type.
SIGNED = re.compile(r"^\s*(?:abbrev\s+|unfoldable\s+)?pub\s+(?:(record|data)\s+)?([^\s:(){}«»]+)(?=\s)([^\n]*)")
# A case of a public `data`.
CASE = re.compile(r"^\s*([^\s:(){}«»]+)\s+:")
# What a document names: `crate/File: name, name`, on one line or two.
CLAIM = re.compile(r"`([^`\s:]+): ([^`]+)`")


def listed():
    names = []
    for line in open("crates.txt", encoding="utf8"):
        line = line.split("#")[0].strip()
        if ":" in line:
            names.append(line.split(":")[0].split()[0])
    return names


def text_of(path):
    return open(path, encoding="utf8").read()


def code_names(path):
    """The public items of a source file; a method is `Type::name`."""
    names, owner = set(), ""
    for line in text_of(path).splitlines():
        methods, item = METHODS.match(line), CODE.match(line)
        if methods:
            owner = methods.group(1) + "::"
        elif line.startswith("}"):
            owner = ""
        elif item:
            names.add(owner + item.group(1))
    return names


def spec_names(path):
    """The public names of a module: definitions, theorems, types, their public fields and cases."""
    names, cases_from = set(), None
    for line in text_of(path).splitlines():
        if not line.strip() or line.lstrip().startswith("--"):
            continue
        indent = len(line) - len(line.lstrip())
        if cases_from is not None and indent <= cases_from:
            cases_from = None
        signed = SIGNED.match(line)
        if signed:
            kind, name, rest = signed.groups()
            if kind or re.match(r"\s*(?:\{[^}]*\}\s*)?:", rest):
                names.add(name)
            if kind == "data":
                cases_from = indent
        elif cases_from is not None:
            case = CASE.match(line)
            if case:
                names.add(case.group(1))
    return names


def public(where):
    """The public names at `crate/File`, or None where there is no such file."""
    crate, _, module = where.partition("/")
    if module == "src":
        paths = sorted(glob.glob(f"crates/{crate}/src/*.rt"))
        return set().union(*map(code_names, paths)) if paths else None
    paths = [path for part in ("specs", "proofs") if os.path.exists(path := f"crates/{crate}/{part}/{module}.antt")]
    return set().union(*map(spec_names, paths)) if paths else None


def asking(path):
    """The public functions of a source file that have a `requires`: their callers have to have tested it."""
    names, name = set(), None
    for line in text_of(path).splitlines():
        head = re.match(r"\s*pub\s+fn\s+(\w+)", line)
        if head:
            name = head.group(1)
        elif line.strip() == "{":
            name = None
        if name and line.strip().startswith("requires"):
            names.add(name)
        if name and line.endswith("{") and not line.strip().startswith(("requires", "ensures")):
            name = None
    return names


def main():
    wrong = []
    crates = listed()
    there = sorted(os.listdir("crates"))
    wrong += [f"crates/{c} is not listed in crates.txt" for c in there if c not in crates]
    readme = text_of("README.md")
    wrong += [f"README.md does not name the crate {c}" for c in crates if f"`{c}`" not in readme]
    texts = {doc: re.sub(r"\s+", " ", text_of(doc)) for doc in ("README.md", "docs/CLAIMS.md", "docs/DECISIONS.md")}
    claims = texts["docs/CLAIMS.md"]
    named = [where.split("/")[0] for where, _ in CLAIM.findall(claims)] + re.findall(r"the program `(\w+)`", claims)
    wrong += [f"docs/CLAIMS.md names nothing of the crate {c}" for c in crates if c not in named]
    for doc, text in texts.items():
        for where, names in CLAIM.findall(text):
            crate, _, module = where.partition("/")
            has = public(where) if crate in crates and module else None
            if has is None:
                wrong.append(f"{doc} names {names} of {where}, which is no file of a listed crate")
                continue
            for name in names.split(","):
                if name.strip() not in has:
                    wrong.append(f"{doc} names {name.strip()} of {where}, which has no such public name")
    listing = re.search(r"\n41\. .*?(?=\n42\. )", text_of("docs/DECISIONS.md"), re.S).group(0)
    listed_there = {(where, name.strip()) for where, names in CLAIM.findall(re.sub(r"\s+", " ", listing)) for name in names.split(",")}
    for crate in crates:
        for path in sorted(glob.glob(f"crates/{crate}/src/*.rt")):
            wrong += [
                f"docs/DECISIONS.md does not name {name} of {crate}/src in 41, and it has a requires"
                for name in sorted(asking(path))
                if (f"{crate}/src", name) not in listed_there
            ]
    # A program's input is no link, so a sample that two programs run stands twice.
    for one, other in (("replay", "waves"), ("replay_holds", "waves_holds")):
        if text_of(f"crates/{one}/stdin") != text_of(f"crates/{other}/stdin"):
            wrong.append(f"crates/{one}/stdin and crates/{other}/stdin are one sample, and differ")
    printed = "".join(f"    {line}\n" for line in text_of("crates/print_edge_table/stdout").splitlines())
    if f"\n\n{printed}\n" not in readme:
        wrong.append("README.md does not show the table of edges as crates/print_edge_table/stdout has it")
    for line in wrong:
        print(line, file=sys.stderr)
    sys.exit(1 if wrong else 0)


main()
