#!/usr/bin/env python3
"""Lists places that an older style of Rattle leaves in src/, by point of docs/DESIGN-PASS.md.

    python3 tools/places.py [POINT] [FOLDER]

FOLDER is the top of a checkout, by default the one that this script is in. It goes by text: a line that it prints is a
candidate, and a place may have another form. The page says which lines were places, and what became of each.
"""
import os
import re
import sys
from collections import defaultdict
from pathlib import Path


def sources(top):
    for path in sorted(Path(top, "crates").glob("*/src/**/*.rt")):
        yield path.relative_to(top), path.read_text()


def functions(text):
    """Each function with its parameters, clauses and body."""
    for m in re.finditer(r"^( *)(?:pub(?:\([a-z]+\))? )?(?:final )?fn (\w+)([^{;]*?)(?=\n *(?:requires|ensures)|\s*\{|;)", text, re.M | re.S):
        indent, name, head = m.groups()
        end = text.find("\n" + indent + "}", m.end())
        rest = text[m.end() : end if end >= 0 else len(text)]
        clauses = re.findall(r"^ *(?:requires|ensures)\*?(?: \w+)? \{(.*)\}\n?;?", rest, re.M)
        body = re.sub(r"^ *(?:requires|ensures).*$", "", rest, flags=re.M)
        yield name, head, clauses, body


def enums_and_numbers(top):
    for path, text in sources(top):
        for m in re.finditer(r"enum (\w+)[^{]*\{(.*?)\n\}", text, re.S):
            body = re.sub(r"//.*", "", m.group(2))
            variants = re.findall(r"^    (\w+)( *\(| *\{|,| *=)", body, re.M)
            bare = [v for v, form in variants if form.strip() in (",", "=")]
            if len(variants) == 2 and len(bare) == 1:
                yield path, f"enum {m.group(1)}: one variant with a value, one without"
            if {v for v, _ in variants} & {"Ok", "Err", "Some", "None"}:
                yield path, f"enum {m.group(1)}: variants named as those of the library"
        for m in re.finditer(r"^ +(?:pub(?:\(super\))? )?(\w+): (?:u8|bool),", text, re.M):
            yield path, f"field {m.group(0).strip()}"
        for m in re.finditer(r"^.*fn (\w+)[^{;]*?-> (?:Result<)?u8\b", text, re.M):
            yield path, f"fn {m.group(1)}: gives a number of one byte"
        for m in re.finditer(r"fn (\w+)\(([^)]*\b\w+: u8\b[^)]*)\)", text):
            if "fmt" not in m.group(1):
                yield path, f"fn {m.group(1)}: takes a number of one byte"
        for m in re.finditer(r"place: 0\b", text):
            yield path, "place: 0 for no place"


def shape(head, body):
    """The function with the names of planes, rings, types and variables taken out."""
    text = re.sub(r"//.*", "", body)
    text = re.sub(r"\b(?:Square|Hexagonal|Gaussian|Eisenstein|Integers|One|Two)\b", "CASE", text)
    text = re.sub(r"\b(?:u8|u64|i64|i128|usize)\b", "INT", text)
    names = {}
    text = re.sub(r"(?<![.:\w])[a-z_]\w*(?![\w(:])", lambda m: names.setdefault(m.group(), f"v{len(names)}"), text)
    text = re.sub(r"\b[A-Z][A-Z_]+\b", "CONST", text)
    return re.sub(r"\s+", " ", text).strip()


def twins(top):
    shapes = defaultdict(list)
    for path, text in sources(top):
        for name, head, _, body in functions(text):
            s = shape(head, body)
            # a body that only calls another function is no copy of it
            if len(s) > 4 and "ghost output" not in s:
                shapes[s].append((path, name))
    for s, places in shapes.items():
        if len(places) > 1:
            for path, name in places:
                yield path, f"fn {name}: {s[:60]}"


def loops(top):
    for path, text in sources(top):
        for i, line in enumerate(text.split("\n"), 1):
            if re.search(r"\bfor \w+ in [^{]*\.\.|\bwhile |\bloop \{|\.enumerate\(\)|\+= 1\b", line) and "//" not in line.split("for ")[0]:
                yield path, f"{i}: {line.strip()}"


def by_hand(top):
    conversion = r"fn (of|element|letter|number|whole|narrow|ring_name|rank|coordinates|axes|from_\w+|to_\w+|into_\w+|eq|cmp|clone|hash|fmt|as_\w+)\b\("
    for path, text in sources(top):
        kind = ""
        for i, line in enumerate(text.split("\n"), 1):
            m = re.match(r"impl(?:<[^{]*>)? (.*?) \{", line)
            if m:
                kind = m.group(1)
            if re.match(r"\}", line):
                kind = ""
            m = re.search(conversion, line)
            if m and " for " not in kind and "ensures" not in line:
                yield path, f"{i}: {line.strip()}"


def facts(top):
    seen = defaultdict(set)
    pairs = defaultdict(set)
    for path, text in sources(top):
        for name, head, clauses, _ in functions(text):
            for clause in clauses:
                clause = re.sub(r"\b(?:OnOk|IfOk) result", "", clause)
                for fact in re.split(r"×", clause):
                    fact = re.sub(r"\(λ \w+\. ", "(", fact)
                    fact = fact.strip().strip("()").strip()
                    if re.search(r"≤|<|Within|sector .*≡ true|Rows|IsBasis|norm_in", fact) and "answer" not in fact:
                        key = re.sub(r"\b(?:self|result|modulus|divisor|element|a|b|d|e|m|x|y|z|n|k|q|i|norm|step|row|next|c)\b(?:\.\w+)*", "_", fact)
                        seen[key].add((str(path), name))
            names = [p for p in re.findall(r"\b([a-z]\w*): (&?(?:impl )?(?:[A-Z]\w*|\[\w+\]|str|u64|i64|usize))", head) if p[0] != "self"]
            types = sorted({(n, t) for n, t in names})
            for j, one in enumerate(types):
                for two in types[j + 1 :]:
                    pairs[(one, two)].add((str(path), name))
    for fact, where in sorted(seen.items(), key=lambda item: -len(item[1])):
        if len(where) >= 3:
            yield Path("clauses"), f"{len(where)} functions: {fact}: " + ", ".join(sorted(n for _, n in where))
    for (one, two), where in sorted(pairs.items(), key=lambda item: -len(item[1])):
        if len(where) >= 3:
            yield Path("parameters"), f"{len(where)} functions: {one[0]}: {one[1]}, {two[0]}: {two[1]}: " + ", ".join(sorted(n for _, n in where))


def buffers(top):
    for path, text in sources(top):
        for i, line in enumerate(text.split("\n"), 1):
            if re.search(r"\[\w+; ?\w+\]|\bindex(?:es)?: Vec<|_len\b|_count: usize", line) and "assert" not in line:
                yield path, f"{i}: {line.strip()}"


def switches(top):
    for path, text in sources(top):
        for i, line in enumerate(text.split("\n"), 1):
            if re.search(r"\bmatch .*\b(?:state|call|step|mode|ring|plane|p)\b|\bfn\(", line):
                yield path, f"{i}: {line.strip()}"


def answers(top):
    for crate in sorted(Path(top, "crates").iterdir()):
        files = [p for p in crate.glob("proofs/**/*.antt")]
        lines = sum(len(p.read_text().split("\n")) - 1 for p in files)
        goals = sum(len(re.findall(r"^pub .*: goal\.", p.read_text(), re.M)) for p in files if p.name == "Answers.antt")
        if files:
            yield crate.relative_to(top), f"{lines} lines of proofs, {goals} answers"


POINTS = [enums_and_numbers, twins, loops, by_hand, facts, buffers, switches, answers]


def main():
    top = sys.argv[2] if len(sys.argv) > 2 else Path(__file__).resolve().parent.parent
    for point in [int(sys.argv[1])] if len(sys.argv) > 1 else range(1, 9):
        found = list(POINTS[point - 1](top))
        print(f"point {point}: {len(found)}")
        for path, what in found:
            print(f"  {path}: {what}")


main()
