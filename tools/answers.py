#!/usr/bin/env python3
"""Brings a crate's proofs/**/Answers.antt to what the check asks for. In the crate's folder:

    answers.py          drops every file whose answers all are `search RULES` for one set of rules, and writes back what the check misses
    answers.py --mend   keeps the answers, drops those of goals that are gone, and answers those that are missed by the rules of their file

Both call `rt check` until it misses nothing that the rules answer. What is left then is written by hand."""
import pathlib, re, subprocess, sys

ANSWER = re.compile(r"^pub (\S+) : goal\.\S+\n(?:unfolding .*\n)?\S+ c = ((?:.|\n)*?)(?=\n\npub |\n*\Z)", re.M)
MISSED = re.compile(r"fn \w+::[\w:]+: no proof: expected answers in \./(\S+Answers\.antt); `search` did not prove ([^;\n]*)")
ASKED = re.compile(r"help: `Goals` has no `([^`]+)`; rattle asks for ([^;\n]*)")
FUNCTION = re.compile(r"fn \w+::([\w:]+): ")


def rules_of(text):
    """The one set of rules that answers name, or None; and whether they do nothing else."""
    bodies = [m[2].strip() for m in ANSWER.finditer(text)]
    names = {b.removeprefix("search ") for b in bodies if re.fullmatch(r"search [a-z_0-9]+", b)}
    return (names.pop() if len(names) == 1 else None), all(b.startswith("search ") for b in bodies) and "unfolding" not in text


def names_in(text):
    return [n for n in re.findall(r"`([^`]+)`", text) if "::" not in n]


def parts(text):
    """The head of a file, and its answers by name."""
    blocks = re.split(r"\n\n+", text.strip())
    answers = {m[1]: b for b in blocks if (m := re.match(r"pub (\S+) : goal\.", b))}
    return [b for b in blocks if not re.match(r"pub \S+ : goal\.", b)], answers


def check():
    log = subprocess.run(["rt", "check", "--allow-holes"], capture_output=True, text=True)
    return re.sub(r"^so far: ", "", log.stdout + log.stderr, flags=re.M)


def wanted(log):
    """The goals that are missed, and those that are gone, by file."""
    missed, gone, function = {}, {}, None
    for line in log.splitlines():
        if m := MISSED.search(line):
            missed.setdefault(m[1], []).extend(names_in(m[2]))
        if m := FUNCTION.match(line):
            function = "proofs/" + m[1].replace("::", "/") + "/Answers.antt"
        if (m := ASKED.match(line)) and function:
            gone.setdefault(function, set()).add(m[1])
            missed.setdefault(function, []).extend(names_in(m[2]))
    return missed, gone


def main():
    files = {str(f): f.read_text() for f in pathlib.Path("proofs").rglob("Answers.antt")}
    heads = {f: (parts(t)[0], rules_of(t)[0]) for f, t in files.items() if rules_of(t)[0]}
    if "--mend" not in sys.argv:
        for f in heads:
            if rules_of(files[f])[1]:
                pathlib.Path(f).unlink()
    for turn in range(8):
        missed, gone = wanted(check())
        known = {f: goals for f, goals in missed.items() if f in heads}
        for f in missed.keys() - known.keys():
            print("by hand:", f, *missed[f])
        if not known:
            return
        for f, goals in known.items():
            path, (head, rules) = pathlib.Path(f), heads[f]
            answers = parts(path.read_text())[1] if path.exists() else {}
            answers = {n: b for n, b in answers.items() if n not in gone.get(f, ())}
            for n in goals:
                answers.setdefault(n, f"pub {n} : goal.{n}\n{n} c = search {rules}")
            path.parent.mkdir(parents=True, exist_ok=True)
            path.write_text("\n\n".join(head + list(answers.values())) + "\n")
            print(f, len(goals))


main()
