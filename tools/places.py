#!/usr/bin/env python3
"""Counts the places of the points of docs/DESIGN-PASS.md by syntax, in crates/*/src and crates/*/proofs.
Usage, at the top of a checkout: tools/places.py [--count] [POINT ..]; with --count the numbers alone."""
import difflib, itertools, pathlib, re, sys
from collections import Counter, defaultdict
sys.dont_write_bytecode = True
from rt_text import all_of, fns, items, order, split, tokens, wiped

found = defaultdict(lambda: defaultdict(list))
enums, structs, consts = ([x for x in items if x.kind == k] for k in ("enum", "struct", "const"))
add = lambda point, kind, f, *what: found[point, kind][f.crate].extend(f"{f.at} {f.name}{w}" for w in what or [""])

def by_group(point, kind, groups, least=2):
    for n, group in enumerate(g for g in groups if len({x.at for x in g}) >= least):
        [add(point, kind + ", by group", f, f" [{n + 1}]") for f in group]

# 1: kinds by number, enums and structs
groups, value = [], lambda c: (m := re.fullmatch(r": u(?:8|32) = (b'.'|\d\d?);", c.parts[0])) and m[1]
for a, b in itertools.pairwise(consts[:1] + consts):
    v, w = value(a) or "", value(b) or ""
    goes_on = v[:1] == w[:1] == "b" or v.isdigit() and w.isdigit() and int(w) == int(v) + 1
    groups = groups[:-1] + [groups[-1] + [b]] if goes_on and a.crate == b.crate else groups + [[b]] if w else groups
groups = [g for g in groups if len(g) > 1 or "family" in g[0].doc]
[add(1, "numbers for kinds", g[0], f"..{g[-1].name} ({len(g)})") for g in groups]
kinds = "|".join(c.name for g in groups for c in g) or "0NONE"
codes = {n for f in fns for x in all_of(rf"\b(\w+) [!=]= (?:\w+::)?(?:{kinds})\b|\b(indicator|begun) [!=]= \d", f.text) for n in x if n} | {"joined"}
is_code = lambda p: (m := re.fullmatch(r"(\w+): u(?:8|32)", p)) and m[1] in codes
zero, last = set(), None
while last != len(zero):  # functions with 0 for none, and those that end in a call of one
    last = len(zero)
    zero |= {(f.crate, f.name) for f in fns if f.result in ("u8", "u32", "usize") and (re.search(r"return 0;|=> 0,|^    0$", f.text, re.M)
             or re.search(r"\bor 0\b|\b0 (where|is none)\b|else 0\b", f.doc, re.I) or any((f.crate, c) in zero for c in all_of(r"^    (\w+)\([^;]*\Z", f.text, re.M)))}
zeros = "|".join(n for _, n in zero) or "0NONE"
for t in enums:
    bare, refused = [v for v in t.parts if "(" not in v], any(v.startswith("Refused(") for v in t.parts)
    (refused or (len(bare) == 1 or "Broken" in bare) and len(t.parts) > 1) and add(1, "enum like " + ("Result" if refused else "Option"), t)
numbered = [t for t in structs if not any("family" in p for p in t.parts) and ("number: u32" in t.parts or any(p.endswith(": Verdict") for p in t.parts))]
for t in structs:
    flags, names = ["/".join(p.split(":")[0] for p in t.parts if k(p)) for k in (lambda p: p.endswith(": bool"), is_code)], [p.split(":")[0] for p in t.parts]
    for kind, yes, what in [("flag beside values", flags[0], "." + flags[0]), ("number for a kind, in a struct", flags[1], "." + flags[1]),
                            ("number for a refusal, in a struct", t in numbered, ""), ("number for none, in a struct", "pending" in names or "stands for no" in t.doc, "")]:
        yes and add(1, kind, t, what)
    "place" in t.doc and any(p.endswith(": usize") for p in t.parts) and add(6, "struct of places", t)
for f in fns:
    for kind, yes in [("function with 0 for none", (f.crate, f.name) in zero), ("function that answers by such a struct", f.result in [t.name for t in numbered]),
                      ("number for a kind, as a parameter", any(is_code(": ".join(p)) for p in f.params))]:
        yes and add(1, kind, f)
    tests = [v for v in all_of(rf"let (\w+) = (?:{zeros})\(", f.text) if re.search(rf"\b{v} [!=]= 0", f.text)] + all_of(r"\.number [!=]= 0", f.text)
    tests and add(1, "test of a number", f, *[""] * len(tests))
# 2: twins
wipe = lambda t: re.sub(r"\bu(?:8|32|64|size)\b", "N", re.sub(r"; \w+\]", "]", t))
kind = lambda t: t if t in ("", "bool", "N") or t[0] in "&[" else "T"
bodies = [(f, wiped(f.text), Counter(wipe(t) if wipe(t)[0] in "N&[" else "T" for _, t in f.params), kind(wipe(f.result))) for f in fns]
bodies, group_of = [b for b in bodies if len(b[1]) >= 8 and b[0].crate != "tardorelga"], {}
for (f, a, p, r), (g, b, q, s) in itertools.combinations(bodies, 2):
    near = r == s and sum(((p - q) + (q - p)).values()) <= 1
    if near and not (close := a == b) and min(len(a), len(b)) >= 24:
        m = difflib.SequenceMatcher(None, a, b, False)
        close = m.real_quick_ratio() >= 0.8 and m.quick_ratio() >= 0.8 and m.ratio() >= 0.8
    if near and close:  # a group for both, with all that is near to either
        one = group_of.get(f.at, [f]) + [x for x in group_of.get(g.at, [g]) if x not in group_of.get(f.at, [f])]
        group_of.update({x.at: one for x in one})
by_group(2, "functions of one shape", {id(g): g for g in group_of.values()}.values())
said, loops, shapes, values, asked = (defaultdict(list) for _ in range(5))
for f in fns:
    names, ends = {n for n, _ in f.params}, []
    for c in f.clauses:
        seen, c = {}, re.sub(r"^(\w+) (?:\w+ )?\{", r"\1 {", " ".join(c.split()))
        c = " ".join("v%d" % seen.setdefault(t, len(seen)) if t in names else t for t in tokens(c))
        asked[f.crate, c].append(f)
        ends += [c] if c.startswith("ensures") else []
    ends and f.crate != "tardorelga" and said[re.sub(r"\b\d+\b", "0", "; ".join(ends))].append(f)
    for m in all_of(r"(?:while [^\n]*|loop) \{.*?match [^\n]*\{\s*(\w+)::", f.text, re.S):
        loops[m].append(f)
for t in enums + structs:
    shapes[t.kind, tuple(sorted(re.sub(r"\w+(?=[,)])", "x", re.sub(r"^\w+", "", p)) for p in t.parts))].append(t)
for c in consts:
    values[(all_of(r"= ([\d_]{2,});", c.parts[0]) or ["9"])[0].replace("_", "")].append(c)
values = [g for v, g in values.items() if len({c.crate for c in g}) > 1 and int(v) > 15 or int(v) > 9999]
groups = [("functions of one promise", said.values()), ("loops over one type", loops.values()), ("types of one shape", shapes.values()), ("constants of one value", values)]
[by_group(2, kind, by) for kind, by in groups]

for f in fns:
    for n, line in enumerate(f.body):  # 3: loops
        if m := re.match(r"( *)(?:while (.*)|loop) \{$", line):
            loop = "\n".join(itertools.takewhile(lambda x: x != m[1] + "}", f.body[n + 1:]))
            one, v = all_of(r"(\w+) \+= 1;", loop), re.match(r"[A-Z]+ <= .* - (\w+)$|(\w+) (?:\+ \d+ )?<", m[2] or "")
            v = v and (v[1] or v[2])
            fixed = v and re.search(rf"\b{v} \+= (\d|[A-Z])|= {v} \+ [A-Z]", loop) and not re.search(rf"\b{v} \+= [a-z]|match", loop)
            add(3, "counted by one" if v in one else "counted by a fixed step" if fixed else "counted down" if re.search(r"\w+ -= 1;", loop)
                else ("item by item" if re.search(r"\b(at|w) (=|\+=) ", loop) else "other") + (" with a counter" if one else ""), f)
    # 4: equality, order, copying, conversion, printing
    for kind, yes in [
            ("equality", re.search(r"(\w+)\[(\w+)\] != \w+\[\2\]|(\w+)\.\w+ == \S+ && \3\.\w+ ==", f.text)),
            ("call of that equality", re.search(r"\b(equal|is)\(", f.text)),
            ("order", any(re.search(r"result ≡ (min\b|[\w. ]+ - [a-z])", c) for c in f.clauses) or "lower of" in f.doc),
            ("copy of bytes", re.search(r"\[\w+ \+ \w+\] = \w+\[\w+\]|\[\w+ \+ i\] = ", f.text) or len(all_of(r"\[at[^\]]*\] = |\w\[from[^\]]*\]", f.text)) > 2),
            ("conversion by match", re.match(r"    match [^\n]* \{", f.text) and f.text.count("\n    }") == 1 and f.body[-1] == "    }" and f.result != "bool"
             and not re.search(r"=> (?!match)(?:\w+::)?[a-z]\w*\(|\breturn\b|\bif\b", f.text)),
            ("conversion by cast", re.fullmatch(r"    \(?[\w. ]+( - b'0')?\)? as \w+", f.text)),
            ("printing", any(re.search(r"\b(digits|decimal)\b", c) for c in f.clauses))]:
        yes and add(4, kind, f)
    for m in re.finditer(r"\b([A-Z]\w+) \{((?:\s*\w+(?:: [^,{}]+)?,)+)\s*\}|\b([A-Z]\w+) \{ ([^{}\n]*) \}", f.text):
        fields = split(m[2] or m[4])
        copied = Counter(x[2] for y in fields if (x := re.fullmatch(r"(\w+): (\w+)\.\1", y)))
        zeroed = len(fields) > 1 and all(re.search(r": (0|false)$", x) for x in fields)
        if zeroed or max(copied.values(), default=0) > 1:
            add(4, "struct of zeros written out" if zeroed else "struct copied field by field", f, ":" + (m[1] or m[3]))
    # 6: buffers and places; 7: switches
    slices = [n for n, t in f.params if re.match(r"&.*\[", t)]
    for x in all_of(r"let (?:mut )?(\w+) = \[", f.text):
        re.search(rf"\b{x}\[\.\.\w+\]|\b{x}\[\w+\.\.\]|part_of\(&{x}, 0,", f.text) and add(6, "array with a length beside it", f, ":" + x)
    any("[u64]" in t or "[usize]" in t for _, t in f.params) and len(slices) > 1 and add(6, "parallel slices", f)
    pairs = [(s, n) for s in slices for n, t in f.params if t == "usize" and n not in ("count", "pending", "before")
             and re.search(rf"\b{s}\[{n}\b|\b{s}, {n}[,)]|\b{s}\.len\(\) (<=?|-) {n}\b", f.text)]
    pairs and add(6, "place beside a slice", f, "(%s, %s)" % pairs[0])
    tests = all_of(r"if ([^\n]*) \{\n +return ", f.text)
    for v, t in f.params:
        arms = [c for c in tests if re.match(rf"(?:is|equal)\({v},|{v} == ", c)]
        len(arms) > 1 and add(7, "chain of tests of one value", f, f":{v} ({len(arms)})")
        if t == "bool" and re.search(rf"if !?{v} \{{|=> {v},|[,(]\s*{v}\b", f.text):
            add(7, "bool that chooses", f, ":" + v)
    len(all_of(r"=> (?:\w+::)?[a-z]\w*\(", f.text)) > 2 and add(7, "match that chooses a call", f)
    re.search(rf"[!=]= (?:\w+::)?(?:{kinds})\b|\bis\(\w+, [A-Z]", f.text) and add(7, "test of a kind", f)
[add(6, "table or record as bytes", t) for t in items if t.kind in ("const", "type") and re.match(r"(:| =) \[u8; \d+\]", t.parts[0])]
# 5: facts, and parameters that travel together
[by_group(5, kind, [g for (_, c), g in asked.items() if c.startswith(kind)], 3) for kind in ("requires", "ensures")]
for crate in order:
    mine = [f for f in fns if f.crate == crate]
    sets = {s for a, b in itertools.combinations(mine, 2) if len(s := frozenset(a.params) & frozenset(b.params)) > 2}
    sets = {s for s in sets if sum(s <= set(f.params) for f in mine) > 2}
    for f in mine:
        if best := max((sorted(n for n, _ in s) for s in sets if s <= set(f.params)), key=lambda s: (len(s), s), default=None):
            add(5, "parameters together", f, "(" + ", ".join(n for n, _ in f.params if n in best) + ")")
# 8: answers that only name rules
for path in sorted(pathlib.Path("crates").glob("*/proofs/**/Answers.antt")):
    text = [x for x in path.read_text().split("\n") if x.strip() and not re.match(r"--|use |pub |  ", x)]
    plain = [m[1] for x in text if (m := re.fullmatch(r"[\w'-]+ c = search (\w+)", x))]
    rest = [x for x in text if not re.fullmatch(r"[\w'-]+ c = search \w+", x)]
    kind = "answers by hand too" if any(not x.startswith("unfolding") for x in rest) else "searches and unfoldings" if rest else \
        "searches of one set of rules" if len(set(plain)) == 1 else "searches of several sets"
    found[8, kind][path.parts[1]].append(f"{'/'.join(path.parts[3:-1])} ({len(plain)})")

wanted = [int(x) for x in sys.argv[1:] if x.isdigit()] or range(1, 9)
for (point, kind), by in sorted(x for x in found.items() if x[0][0] in wanted and x[1]):
    print(f"\n{point}. {kind}: {sum(map(len, by.values()))}")
    for crate in sorted(by, key=order.index):
        answers = f", {sum(int(x[:-1].split('(')[1]) for x in by[crate])} searches" if point == 8 else ""
        print(f"  {crate} {len(by[crate])}{answers}" + ("" if "--count" in sys.argv else ": " + ", ".join(by[crate])))
