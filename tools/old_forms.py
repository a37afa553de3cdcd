#!/usr/bin/env python3
"""Lists the places of crates/*/src whose form may be an older one than the language has now, and counts them, search by
search. A place is found by its text, so a line may be listed that is well as it is: docs/DESIGN-PASS.md tells of each kind
what became of it.

    python3 tools/old_forms.py            # a count for each search
    python3 tools/old_forms.py relays     # with the places of one search
"""
import glob
import re
import sys
from collections import Counter, defaultdict

# name: (what it finds, pattern over a line of code)
LINES = {
    "relays": ("an Err or a None handed on by a match",
               r"(Err\(\w+\) => (Err\(|return|\{$))|(None => (None|return|false|Ok\(|0,|\{$))|break '\w+ Err"),
    "flags": ("a yes or no in a field, a parameter or a pair",
              r"^\s*(pub(\(crate\))? )?\w+: bool,|, \w+: bool[,)]|\(\w+, bool\)"),
    "codes": ("a number for a case", r"=> \d+,$|\bside: (usize|\d)"),
    "zeros": ("a function whose whole body is a number", r"^    \d+$"),
    "enums": ("an enum of the repository's own", r"^\s*(pub(\(crate\))? )?enum "),
    "loops": ("a loop over numbers, and a while", r"for \w+ in [^{]*\.\.|\bwhile "),
    "by_hand": ("equality, order, conversion or printing by hand",
                r"impl.* (PartialEq|Eq|PartialOrd|Ord|Clone|Default|Keyed) for"
                r"|fn (same_(pair|head|row)|is_same|alike|of_one_kind|number\(self|layer|answer_\w+|put_(?!among|pairs)\w+|mode_word|event_name"
                r"|is_(blank|visible|digit|bare|among|stuck)|tops\w*|no_pairs?|lex_at_most|entry_or|copied)\b"),
    "buffers": ("an array of fixed length", r"\[[^\]\[]*; ?[\w ]+\]"),
    "lengths": ("a length or an offset beside what it measures", r"\b(count|at|held|n): usize\b"),
    "switches": ("a match on who, which line, call or mode", r"match (\w+\.)*(side|line|call|mode|told|asked|verdict|which)\b"),
}
PARAMETERS = 5
TIMES = 3


def sources():
    for path in sorted(glob.glob("crates/*/src/**/*.rt", recursive=True)):
        if "text_tests" not in path and not path.endswith("layer_tests.rt"):
            with open(path, encoding="utf-8") as f:
                yield path, f.read()


def line_at(text, place):
    return text.count("\n", 0, place) + 1


def functions():
    """Each function: where, its name, its parameters, its body."""
    for path, text in sources():
        for m in re.finditer(r"^( *)(?:pub(?:\(crate\))? )?fn (\w+)(?:<[^(]*>)?\(([^{}]*?)\)(?: -> [^{]*?)?\n(.*?)^\1\{\n(.*?)^\1\}", text, re.M | re.S):
            names = [re.sub(r":.*", "", p, flags=re.S).strip() for p in re.split(r",\s*(?![^<]*>)", m.group(3)) if p.strip()]
            yield f"{path}:{line_at(text, m.start())}", m.group(2), names, m.group(5)


def shape(body):
    code = re.sub(r"//.*", "", body)
    return re.sub(r"\s+", " ", re.sub(r"\d+", "0", re.sub(r"\b(?!(?:match|if|else|for|in|let|mut|return|while|Some|None|Ok|Err|self)\b)[a-zA-Z_]\w*", "x", code))).strip()


def twins():
    alike = defaultdict(list)
    for where, name, names, body in functions():
        alike[len(names), shape(body)].append(f"{where}: {name}")
    return [" ~ ".join(g) for g in alike.values() if len(g) > 1]


def together():
    seen = Counter()
    for _, _, names, _ in functions():
        seen.update((a, b) for i, a in enumerate(names) for b in names[i + 1:])
    return [f"{a}, {b}: {k} functions" for (a, b), k in seen.most_common() if k >= TIMES]


def clauses():
    held = Counter()
    for _, text in sources():
        held.update(m.group(3) for m in re.finditer(r"^\s*(requires|ensures)( \w+)? \{ (.*) \}$", text, re.M))
    return [f"{k} times: {c}" for c, k in held.most_common() if k >= TIMES]


def by_line(name):
    for path, text in sources():
        for n, line in enumerate(text.split("\n"), 1):
            code = line.split("//")[0].rstrip()
            if not re.match(r"^\s*(requires|ensures|ghost)\b", code) and re.search(LINES[name][1], code):
                yield f"{path}:{n}: {code.strip()}"


def proofs():
    told = []
    for crate in sorted(glob.glob("crates/*/proofs")):
        files = glob.glob(crate + "/**/*.antt", recursive=True)
        texts = {f: open(f, encoding="utf-8").read() for f in files}
        answers = sum(len(re.findall(r"^pub ", t, re.M)) for f, t in texts.items() if f.endswith("Answers.antt"))
        lemmas = sum(len(re.findall(r"^(?:  )?(?:pub )?[a-z_0-9]+ : ", t, re.M)) for f, t in texts.items() if f.count("/") == 3)
        lines = sum(t.count("\n") for t in texts.values())
        told.append(f"{crate}: {lines} lines, {answers} answers, {lemmas} lemmas")
    return told


OTHERS = {
    "twins": ("functions alike but for names and numbers", twins),
    "parameters": (f"a function of {PARAMETERS} or more parameters",
                   lambda: [f"{w}: {f}" for w, f, names, _ in functions() if len(names) >= PARAMETERS]),
    "together": (f"two parameters that {TIMES} or more functions take", together),
    "clauses": (f"a clause that stands in {TIMES} or more contracts", clauses),
    "proofs": ("a crate with proofs", proofs),
}

if __name__ == "__main__":
    for name in sys.argv[1:] or [*LINES, *OTHERS]:
        found = list(by_line(name)) if name in LINES else OTHERS[name][1]()
        print(f"{name}: {len(found)}  {(LINES.get(name) or OTHERS[name])[0]}")
        if len(sys.argv) > 1:
            print("\n".join("  " + place for place in found))
