"""Fails where a must-fail edit does not fit its crate: an `old:` text that its file does not have
exactly once. The gate would say so too, but only after the proofs."""
import glob
import sys


def misfits(edit):
    crate = edit.split("/")[1]
    texts, name, old = {}, None, None
    for line in open(edit, encoding="utf8"):
        line = line.rstrip("\n")
        if line.startswith("file: "):
            name = line[len("file: "):]
            texts.setdefault(name, open(f"crates/{crate}/{name}", encoding="utf8").read())
        elif line.startswith("old: "):
            old = line[len("old: "):]
            if texts[name].count(old) != 1:
                yield f"{edit}: {name} has {texts[name].count(old)} times: {old}"
        elif line.startswith("new:"):
            texts[name] = texts[name].replace(old, line[len("new: "):])


wrong = [w for edit in sorted(glob.glob("crates/*/must-fail/*.edit")) for w in misfits(edit)]
for line in wrong:
    print(line, file=sys.stderr)
sys.exit(1 if wrong else 0)
