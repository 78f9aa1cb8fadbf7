#!/usr/bin/env python3
"""Spells the names of this repository's definitions and lemmas as today's Rattle does: words in snake case, types and modules in camel case.

usage: tools/port_names.py [--list]        at the top, right after the kit's port.py, with everything committed

A name that the texts of specs/ and proofs/ declare gets plain underscores for dashes and for capitals within it: subMod is sub_mod, and
ask-yes is ask_yes. A lemma that would then have the name of a definition gets `_lem` (LEMMAS). Names of functions in src/, exported names,
strings, input and output keep their spelling. A name that a file imports from a library of the kit stays in that file.

Beside the crates' .rt and .antt files it turns the must-fail edits (crates/*/must-fail, tests/edits), also in what port.py turned in the
sources: operators in imports, brackets around clauses, modules. It is not meant to run twice.
--list prints each old name and its new one, and changes nothing.
"""
import glob
import os
import re
import sys

# Lemmas whose name would fall together with that of the definition that they are about.
LEMMAS = {name: name.replace("-", "_") + "_lem" for name in (
    "all-below", "first-words", "in-range", "is-decisive", "is-four", "lane-bit", "most_other", "message-of", "receiver-opened",
    "sender-opened", "sent-group", "vote-at", "all-sure", "decode-number", "encode-number")}
TOKEN = re.compile(r'[^\s(){}.;,@"«»`]+')
DECLARED = re.compile(r"^ *((?:abbrev |unfoldable |pub |private |record |data )*)([^\s:(){}.,;`]+)\s*(?:[({][^=\n]*)?:(?: |$)", re.M)
HEAD = re.compile(r"^ *(?:abbrev |unfoldable |pub )*(?:record|data) ([^\s:(){}]+)", re.M)
LET = re.compile(r"\blet ([^\s:(){}.,;=]+)(?: :| =)")
LABEL = re.compile(r"(?<=[{;])\s*([^\s:(){}.,;=]+) =")
USE = re.compile(r"^(?:ghost |pub )*use (\S+?)\.\{([^{}]*)\}", re.M)


def is_old(name):
    return "-" in name or "′" in name or re.search(r"[a-z0-9][A-Z]", name) is not None and not name[0].isupper()


def snake(name):
    if name in LEMMAS:
        return LEMMAS[name]
    name = name.replace("-", "_").replace("′", "'")
    return re.sub(r"(?<=[a-z0-9])[A-Z]", lambda m: "_" + m[0].lower(), name) if not name[0].isupper() else name


def read(path):
    with open(path, encoding="utf-8") as f:
        return f.read()


def write(path, text):
    with open(path, "w", encoding="utf-8") as f:
        f.write(text)


def sources(*kinds):
    return sorted(p for kind in kinds for p in glob.glob("crates/**/*." + kind, recursive=True) if "/out/" not in p)


def declared_names():
    """Old name: new name, of all that the texts declare: definitions, lemmas, fields, constructors, and what a `let` binds."""
    names = {}
    for path in sources("antt"):
        text = read(path)
        found = [m[2] for m in DECLARED.finditer(text)] + HEAD.findall(text) + LET.findall(text)
        found += LABEL.findall(text) if not path.endswith("Proof.antt") else []
        for name in found:
            if (is_old(name) or name in LEMMAS) and re.match(r"[^\W\d]", name):
                names[name] = snake(name)
    return names


def of_the_kit(text):
    """What a file takes from the kit's libraries."""
    taken = set()
    for module, items in USE.findall(text):
        if not is_own(module):
            taken |= {it.strip().split(" as ")[-1] for it in items.split(",")}
    return taken


def is_own(module):
    m = re.match(r"Rattle\.(\w+)", module)
    return m is not None and os.path.isdir("crates/" + m[1])


def renamed(text, names, kept):
    return TOKEN.sub(lambda m: names[m[0]] if m[0] in names and m[0] not in kept else m[0], text)


# ---- the must-fail edits: what port.py turned in the sources
WORDS = {"_≡_": "◌≡◌", "_∷_": "◌∷◌", "_++_": "◌++◌", "_&&_": "◌&&◌", "_||_": "◌||◌", "_∙_": "◌∙◌"} | {f"_{o}_": f"◌{o}◌" for o in "+-*/%^≤<"}
TURNED = {"allBelow": "all_below", "symbolAt": "symbol_at", "firstOr": "first_or", "inRange": "in_range"}


def turned_edit(text, names):
    lines = []
    for line in text.split("\n"):
        m = re.match(r"(old:|new:)( ?)(.*)$", line)
        if m:
            said = m[3]
            said = re.sub(r"Rattle·(\w+)(?:·\w+)?\.specs\.", r"Rattle.\1.specs.", said)
            said = re.sub(r"⌜ (.*?) ⌝", r"\1", said)
            said = re.sub(r"^(\s*(?:ensures|requires) \{ )λ r\. ", r"\1", said)
            said = TOKEN.sub(lambda t: WORDS.get(t[0], TURNED.get(t[0], t[0])), said)
            said = re.sub(r"(?<=[\w')]) \.(?=[a-z])", ".", said)
            line = m[1] + m[2] + renamed(said, names, set())
        lines.append(line)
    return "\n".join(lines)


def main():
    names = declared_names()
    if "--list" in sys.argv:
        print("\n".join(f"{old} {new}" for old, new in sorted(names.items())))
        return
    for path in sources("rt", "antt"):
        text = read(path)
        new = renamed(text, names, of_the_kit(text))
        if new != text:
            write(path, new)
    for path in sorted(glob.glob("crates/*/must-fail/*.edit") + glob.glob("tests/edits/*/*.edit")):
        text = read(path)
        new = turned_edit(text, names)
        if new != text:
            write(path, new)


main()
