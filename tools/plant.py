#!/usr/bin/env python3
"""Plants bugs: writes edits of the code in place of a copy's must-fail edits, for the prover to refuse.

  git clone . COPY
  python3 tools/plant.py COPY 15 book rows ..    15 bugs in each of these crates, or as many as are found
  (cd COPY && rt must-fail book rows ..)         tries them

One bug is one change of one line in a function's body. Which ones are taken is drawn by the crate's name,
each kind in turn, so that a second run plants the same. Some do not compile, and count for nothing;
one that is not refused either means the same as the code, or shows that a contract is too weak.
"""

import glob
import os
import random
import re
import sys

# Each kind with its changes, a pattern and what takes its place.
KINDS = {
    "strictness": [(r" <= ", " < "), (r" < ", " <= "), (r" >= ", " > "), (r" > ", " >= ")],
    "negation": [(r" == ", " != "), (r" != ", " == "), (r"if !", "if "), (r"\(!", "(")],
    "connective": [(r" && ", " || "), (r" \|\| ", " && ")],
    "off by one": [
        (r" \+ 1\b", " + 2"),
        (r" - 1\b", " - 0"),
        (r"\+= 1\b", "+= 2"),
        (r"-= 1\b", "-= 0"),
        (r"\[\.\.(\w[\w.]*)\]", r"[1..\1]"),
    ],
    "other side": [
        (r"Side::Buy\b", "Side::Sell"),
        (r"Side::Sell\b", "Side::Buy"),
        (r"\bbuys\b", "sells"),
        (r"\bsells\b", "buys"),
        (r"\.lowest\b", ".highest"),
        (r"\.highest\b", ".lowest"),
        (r"\.demand\b", ".supply"),
        (r"\.supply\b", ".demand"),
    ],
    "other constant": [
        (r"\bMAX_(\w+)\b", r"(MAX_\1 - 1)"),
        (r"\b0\b", "1"),
        (r"\b1\b(?!\.\.)", "2"),
        (r"\b100\b", "101"),
        (r"\b2 \*", "3 *"),
        (r"\btrue\b", "false"),
        (r"\bfalse\b", "true"),
    ],
    "other function": [
        (r"\.min\(", ".max("),
        (r"\.max\(", ".min("),
        (r"saturating_sub", "wrapping_sub"),
        (r"rotate_left", "rotate_right"),
        (r"rotate_right", "rotate_left"),
        (r"\.all\(", ".any("),
        (r"is_none_or", "is_some_and"),
        (r"is_some_and", "is_none_or"),
        (r" \+ ", " - "),
        (r" - ", " + "),
        (r"\.is_err\(\)", ".is_ok()"),
    ],
    "another case": [
        (r"Phase::Trading\b", "Phase::Random"),
        (r"Phase::Random\b", "Phase::PreOpening"),
        (r"Phase::PreOpening\b", "Phase::Trading"),
        (r"Phase::Closed\b", "Phase::Trading"),
        (r"Reason::(\w+)\b", "Reason::AtClose"),
        (r"Refusal::(\w+)\b", "Refusal::Price"),
        (r"Condition::FillOrKill\b", "Condition::ImmediateOrCancel"),
        (r"Condition::Plain\b", "Condition::FillOrKill"),
        (r"OrderPrice::Market\b(?!\()", "OrderPrice::Limit(1)"),
        (r"Some\((\w+)\)$", "None"),
    ],
    "swapped arguments": [
        (r"\((\w+), (\w+)\)", r"(\2, \1)"),
        (r"\((\w+), (\w+), ", r"(\2, \1, "),
        (r"(\w+)\.(\w+)\((\w+)\.(\w+)\)", r"\3.\2(\1.\4)"),
    ],
    "stale value": [
        (r"\bday\.(\w+) = .*;", r"day.\1 = day.\1;"),
        (r"self\.(\w+) \+= .*;", r"self.\1 = self.\1;"),
        (r"(\w+): self\.(\w+)( \+| -).*,$", r"\1: self.\2,"),
        (r"\bremaining\b", "quantity"),
    ],
}
WRITE = re.compile(r"^([\w.\[\]]+ [-+]?= .*|(self|book|tape|memory|market)\.[\w.]+\(.*\)|[\w:]+\(.*\));$")
FIRST = re.compile(
    r"\) -> (Option<[^\n{]*>|Result<u64, Refusal>|bool|u64|usize)\n(?:\s+(?:ensures|requires)[^\n]*\n)*\s*\{\n([^\n]+)\n"
)
NOTHING = {"bool": "false", "u64": "0", "usize": "0", "Result<u64, Refusal>": "Ok(0)"}


def body_lines(text):
    """The lines of functions' bodies, without comments."""
    lines, state, indent = [], "out", 0
    for line in text.split("\n"):
        at = line.strip()
        if state == "out" and re.match(r'(pub(\([a-z]+\))? )?(const |extern "C" )*fn ', at):
            state, indent = "head", len(line) - len(line.lstrip())
            if at.endswith("{") and "ensures" not in at:
                state = "body"
            elif at.endswith(("{}", ";")):
                state = "out"
        elif state == "head":
            if at == "{" or (at.endswith("{") and at.startswith(")")):
                state = "body"
            elif at.endswith(";"):
                state = "out"
        elif state == "body":
            if line == " " * indent + "}":
                state = "out"
            elif at and not at.startswith("//"):
                lines.append(at)
    return lines


def bugs(folder):
    """All bugs of a crate by their kind, each a file, a text that stands once in it, and what takes its place."""
    found = {}
    for path in sorted(glob.glob(f"{folder}/src/*.rt")):
        if path.endswith("tests.rt"):
            continue
        text, file = open(path).read(), "src/" + os.path.basename(path)
        for line in body_lines(text):
            if '"' in line or text.count(line) != 1:
                continue
            for kind, changes in KINDS.items():
                for pattern, other in changes:
                    if re.search(pattern, line):
                        found.setdefault(kind, []).append((file, line, re.sub(pattern, other, line, count=1)))
            if WRITE.match(line):
                found.setdefault("dropped write", []).append((file, line, "();"))
        for kind, line in FIRST.findall(text):
            line = line.strip()
            if not line.startswith("//") and text.count(line) == 1:
                found.setdefault("early return", []).append((file, line, f"return {NOTHING.get(kind, 'None')}; {line}"))
    return found


def main():
    root, wanted, crates = sys.argv[1], int(sys.argv[2]), sys.argv[3:]
    for crate in crates:
        folder = f"{root}/crates/{crate}"
        draw, found, planted = random.Random(crate), bugs(folder), []
        for kind in found:
            draw.shuffle(found[kind])
        while len(planted) < wanted and any(found.values()):
            for kind in sorted(found):
                if found[kind] and len(planted) < wanted:
                    bug = (kind, *found[kind].pop())
                    if bug[2] != bug[3] and bug[1:] not in [it[1:] for it in planted]:
                        planted.append(bug)
        os.makedirs(f"{folder}/must-fail", exist_ok=True)
        for edit in glob.glob(f"{folder}/must-fail/*.edit"):
            os.remove(edit)
        for number, (kind, file, old, new) in enumerate(planted):
            with open(f"{folder}/must-fail/{number:02}_{kind.replace(' ', '_')}.edit", "w") as edit:
                edit.write(f"file: {file}\nold: {old}\nnew: {new}\n")
        print(crate, len(planted))


main()
