"""The functions, types and constants of crates/*/src as text, for `places.py`: at the top of a checkout, by layout and syntax alone."""
import itertools, pathlib, re
from collections import namedtuple

Fn = namedtuple("Fn", "crate at name doc params result clauses body text")
Item = namedtuple("Item", "crate at name doc kind parts")
order = [x.split(":")[0].split()[0] for x in open("crates.txt") if x.strip()]
WORDS = "if else while loop match return let mut for in as true false fn pub self".split()
fns, items = [], []
all_of = re.findall

def split(text):  # at the commas that stand in no bracket
    out, depth = [""], 0
    for c in text:
        depth += (c in "([{<") - (c in ")]}>")
        out[-1:] = [out[-1], ""] if c == "," and not depth else [out[-1] + c]
    return [" ".join(x.split()) for x in out if x.strip()]

def tokens(text):
    return all_of(r"""b?'(?:\\.|[^'\\])'|b?"[^"]*"|\w+|==|!=|<=|&&|\|\||->|=>|\.\.|::|\+=|-=|[^\w\s]""", text)

def wiped(text):  # code without names, numbers and strings; a short one keeps its types and what it calls
    short = len(tokens(text)) < 20
    said = lambda m: m[0] if m[0] in WORDS or short and (m[1] or m[0][0].isupper() and not m[0].isupper()) else "x"
    text = re.sub(r"""b?'(?:\\.|[^'\\])'|b?"[^"]*"|\b\d\w*""", "0", re.sub(r"\b(?:[a-z]\w*::)+|\b(\w+::)+(?=[A-Z_]+\b)", "", text))
    return tokens(re.sub(r"\b[A-Za-z_]\w*\b(?=(\()?)", said, text))

def read(crate, path):
    lines, name = path.read_text().split("\n"), str(path.relative_to("crates"))
    for i, line in enumerate(lines):
        doc = " ".join(reversed(list(itertools.takewhile(lambda x: x.strip().startswith(("//", "#[")), reversed(lines[:i])))))
        if m := re.match(r"( *)(?:pub(?:\(crate\))? )?(?:extern \"C\" )?fn (\w+)", line):
            begin, said = i, False
            bodiless = lambda: lines[begin].endswith((";", "{}")) and (t := "".join(lines[i:begin + 1])).count("{") == t.count("}")
            while lines[begin] != m[1] + "{" and (said or not lines[begin].endswith(" {")) and not bodiless():
                begin += 1
                said = said or bool(re.match(r" *(requires|ensures)\b", lines[begin]))
            body = list(itertools.takewhile(lambda x: x != m[1] + "}", lines[begin + 1:])) if lines[begin].endswith("{") else []
            head, *clauses = re.split(r"\n *(?=(?:requires|ensures)\b)", "\n".join(lines[i:begin + 1]).rstrip("{; \n"))
            rest, depth, k = re.sub(r"^.*?fn \w+", "", head, count=1), 0, 0
            while depth or rest[k] != "(":  # past what stands in angles
                depth, k = depth + (rest[k] == "<") - (rest[k] == ">" and rest[k - 1] != "-"), k + 1
            rest, k = rest[k:], 0
            while depth or not k:
                depth, k = depth + (rest[k] == "(") - (rest[k] == ")"), k + 1
            params = [tuple(p.removeprefix("mut ").split(": ", 1)) for p in split(rest[1:k - 1]) if ": " in p]
            body = [re.sub(r"\s*//.*", "", x) for x in body]
            fns.append(Fn(crate, f"{name}:{i + 1}", m[2], doc, params, rest[k:].split("where")[0].replace("->", "").strip(), clauses, body, "\n".join(body)))
        elif m := re.match(r"(?:pub(?:\(crate\))? )?(enum|struct|const|type) (\w+)(.*)", line):
            inner = [] if line.endswith(";") else itertools.takewhile(lambda x: x not in ("}", "];"), lines[i + 1:])
            parts = split("\n".join(re.sub(r"\s*//.*|\bpub ", "", x) for x in inner)) if m[1] in ("enum", "struct") else [m[3]]
            items.append(Item(crate, f"{name}:{i + 1}", m[2], doc, m[1], parts))

for crate in order:
    for path in sorted(pathlib.Path("crates", crate, "src").glob("**/*.rt")):
        read(crate, path)
