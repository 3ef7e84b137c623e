#!/usr/bin/env python3
"""Brings the names of definitions and lemmas to Rattle's spelling: words in snake case, types and modules in camel case.

usage: tools/respell.py [--dry]        at the top of the repository

A name is turned in the file that declares it and in the files that import it from this repository; fields are turned everywhere.
A lemma whose new name would meet another name gets `_lem`. Names of src/ keep their spelling. With --dry it says what meets, and writes nothing.
"""

import collections
import os
import re
import sys

# Names that are no plain words: constants named by a capital, which would meet variables.
SPECIAL = {
    "F": "format_f",
    "D": "format_d",
    "S": "format_s",
} | {w: w.lower() + "_name" for w in "VOL1 HDR1 HDR2 EOV1 EOV2 EOF1 EOF2 VOL UVL HDR UHL EOV EOF UTL".split()}
# Lemmas that would meet the new name of the definition that they speak of.
LEMMAS = "row_on seen_by enters_on read_at all_hold count_at stands_at names_in".split()
# Functions into types, with a dash.
TYPES = re.compile(r"^If-(\w+)$")
CODE = re.compile(r"(\.specs)\.code\b")

DECLARED = re.compile(r"^( *)((?:(?:abbrev|unfoldable|pub|ruleset|data|record) )*)([^\s:{(=|,\[\]]+)((?: \{[^}]*\})*) :(?= |$)", re.M)
ALIAS = re.compile(r"^use [^{\n]*\{([^}]*)\}", re.M)
VARIABLES = set("isOn isOpen isIn newFile".split())
RECORD = re.compile(r"^(?:pub )?record .*\n(?:(?: .*)?\n)*", re.M)
RULESET = re.compile(r"^((?:pub )?ruleset (?:pub )?)()([^\s=]+)( *)=", re.M)
USE = re.compile(r"(?:ghost )?use (?:pub )?(Rattle\.(\w+)\.[\w.+'-]*?)\.\{([^}]*)\}", re.S)
PLAIN_USE = re.compile(r"(?:ghost )?use (?:pub )?(Rattle\.(\w+)\.[\w.+'-]*)", re.S)
TOKEN = re.compile(r"[^\s(){}\[\];,.«»`]+")


def texts(top, ends):
    for folder, dirs, files in os.walk(top):
        dirs[:] = sorted(d for d in dirs if d not in ("out", ".git", "target"))
        for f in sorted(files):
            if f.endswith(ends):
                yield os.path.join(folder, f)


def respelled(name):
    if name in SPECIAL:
        return SPECIAL[name]
    m = TYPES.match(name)
    if m:
        return "If" + m.group(1).capitalize()
    if name[0].isupper():
        return name
    name = re.sub(r"(?<=[a-z0-9₀-₉])([A-Z])", r"_\1", name.replace("-", "_"))
    return re.sub(r"[A-Z]", lambda c: c.group(0).lower(), name)


def bare_words(text, name):
    """Whether code uses the name for something that is no function."""
    bare = re.sub(r"//.*", "", text)
    return [m for m in re.finditer(r"(?<![\w])" + name + r"(?![\w])(?!\()", bare) if not bare[: m.start()].endswith("fn ") and not re.search(r"^(pub )?use [^;]*$", bare[: m.start()], re.M)]


def main():
    dry = "--dry" in sys.argv[1:]
    crates = [it.split(":")[0].strip() for it in open("crates.txt") if it.strip()]
    read = {p: open(p, encoding="utf-8").read() for p in texts("crates", (".antt", ".rt"))}

    # What each file declares, and what it imports from this repository.
    declares, fields, imports = {}, set(), {}
    for p, text in read.items():
        names = set()
        if p.endswith(".antt"):
            names = {m.group(3) for m in DECLARED.finditer(text) if not m.group(3).startswith("--")}
            for m in RECORD.finditer(text):
                fields |= {it.group(3) for it in DECLARED.finditer(m.group(0)) if it.group(1) and "pub" in it.group(2)}
            names |= {m.group(3) for m in RULESET.finditer(text)}
        declares[p] = names
        # The file of a function's proof names what Rattle makes: only its imports are turned.
        if p.endswith("Proof.antt"):
            declares[p] = set()
        got = set()
        for m in USE.finditer(text):
            if m.group(2) in crates and not re.search(r"\.(declared|contracts)\b|\.(Statement|Tie|Met|Goals|Given)$", m.group(1)):
                for it in m.group(3).split(","):
                    got |= set(it.split())
        imports[p] = got
    ours = set().union(*declares.values())

    turned = {}  # a name, and what it is turned to everywhere
    for n in sorted(ours | fields):
        new = respelled(n)
        if new != n:
            turned[n] = new
    # Names that an import or a binder gives.
    for p, text in read.items():
        if p.endswith(".antt"):
            given = {it for m in ALIAS.finditer(text) for it in re.findall(r"\bas ([^\s,}]+)", m.group(1))}
            for n in given | (VARIABLES & set(TOKEN.findall(text))):
                if respelled(n) != n and n[0].islower() and "-" not in n:
                    turned[n] = respelled(n)
                    declares[p].add(n)
    for n in LEMMAS:
        turned[n] = n + "_lem"
    # Names that fall together, in the repository as a whole: a lemma gives way to a definition, and a name with a dash to one without.
    holders = collections.defaultdict(set)
    for n in ours:
        holders[turned.get(n, n)].add(n)
    for new, names in holders.items():
        if len(names) > 1:
            dashed = {n for n in names if "-" in n}
            for n in dashed:
                turned[n] = new + "_lem"
            if len(names - dashed) > 1:
                print("falls together:", new, names - dashed)
    # In a file, a turned name must not meet a variable or a name of another library.
    meets = collections.defaultdict(set)
    for p, text in read.items():
        bare = re.sub(r"//.*" if p.endswith(".rt") else r"--.*", "", text)
        words = set(TOKEN.findall(bare))
        here = (declares[p] | imports[p]) & turned.keys()
        for n in here:
            if turned[n] in words:
                meets[n].add(p)
    for n, ps in meets.items():
        ps = {p for p in ps if not p.endswith("Proof.antt") and (p.endswith(".antt") or bare_words(read[p], turned[n]))}
        if "-" in n and not turned[n].endswith("_lem"):
            turned[n] += "_lem"
        elif ps and not turned[n] in LEMMAS:
            print("meets:", n, turned[n], sorted(ps))
    # Once more with what was given way.
    for p, text in read.items():
        words = set(TOKEN.findall(text))
        for n in (declares[p] | imports[p]) & turned.keys():
            if turned[n].endswith("_lem") and turned[n] in words:
                print("meets again:", n, p)
    for p in declares:
        names = collections.defaultdict(set)
        for n in declares[p]:
            names[turned.get(n, n).lower()].add(n)
        for k, v in names.items():
            if len(v) > 1:
                print("differ in case alone:", p, v)

    def turn(p, text):
        here = {n for n in (declares[p] | imports[p]) if n in turned}
        kept = fields & turned.keys()

        def word(m):
            w, before = m.group(0), text[: m.start()][-1:]
            if before == "." and w not in kept:
                return w
            if w in kept or w in here:
                return turned[w]
            return w

        out = TOKEN.sub(word, text)
        return CODE.sub(r"\1.Code", out)

    if dry:
        print(len(turned), "names")
        print("fields:", sorted(f for f in fields if f in turned))
        return
    for p, text in read.items():
        new = turn(p, text)
        if os.path.basename(p) == "Lib.antt" and "/specs/" in p:
            new = re.sub(r"^(pub mod|mod) code$", r"\1 Code", new, flags=re.M)
        if new != text:
            open(p, "w", encoding="utf-8").write(new)
    for c in crates:
        base = f"crates/{c}/specs/code"
        if os.path.isdir(base):
            os.rename(base, f"crates/{c}/specs/Code")
        if os.path.exists(base + ".antt"):
            os.rename(base + ".antt", f"crates/{c}/specs/Code.antt")
    with open("tools/respelled.tsv", "w", encoding="utf-8") as f:
        for n in sorted(turned):
            f.write(f"{n}\t{turned[n]}\n")


main()
