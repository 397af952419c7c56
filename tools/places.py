#!/usr/bin/env python3
"""Lists the places in crates/*/src that an older form of the language may have left.

    python3 tools/places.py            counts, point by point
    python3 tools/places.py --list     every place, a line each
    python3 tools/places.py --at COMMIT    the same of an earlier commit

It goes by text, so what it names is a place to look at, and not yet a fault. Its patterns are of the forms
that stood at the beginning: what stands in another form since, it does not see.
"""
import difflib
import itertools
import pathlib
import re
import subprocess
import sys
import tempfile

POINTS = {
    1: "options, results and numbers for kinds by hand",
    2: "twins",
    3: "loops by while, by loop or over a range of indices",
    4: "equality, conversion and words by hand",
    5: "facts and parameters that go together",
    6: "a slice or a Vec with a count beside it",
    7: "switches",
    8: "answers in proofs/",
}


# What a pattern finds, by point. The patterns are of the forms that stood at the beginning.
RULES = (
    (1, "number for a kind or a refusal", r"\b(refusal|reason|kind|phase|side|condition|market|table|rule|code|number): u(?:8|32)\b|\b(refusal|reason|kind|phase|side): u64\b|^const (?:DONE|NO_MEMORY)\b|-> (?:Result<)?u8\b"),
    (1, "option of a refusal", r"Option<Refusal>"),
    (1, "0 or a count that says none", r"//.*(?:\b0 where\b|or how many|or the count|0 once)|_ => \"unknown\"|^\s+_ => 0,|None => 0,"),
    (1, "option or result taken apart by hand", r"else \{\s*return None;\s*\}|None => (?:None|return None|false|true)\b|^\s+None => [ab],|let \(why, _, _\) = |Err\(\(?why[^=]*=> return Err|Err\(why\) => Err\(why\)|if let Some\(why\) = [^{]*\{\s*return Err\(why\)"),
    (3, "loop", r"^[^/\n]*?(\bwhile\b[^{\n]*|\bloop \{|\bfor \w+ in [^\n{]*\.\.[^\n{]*)"),
    (4, "words, numbers or equality by a function of its own", r"^ *(?:pub(?:\(crate\))? )?fn (?:\w+_words|code|is)\("),
    (4, "conversion by a function of its own", r"^ *(?:pub(?:\(crate\))? )?fn (?:raw_\w+|as_\w+|(?:call|answer|answers|record|point|entry|reason|row|standing|tape|scratch|calls|token)_of|shown)\("),
    (4, "blank value by a constant of its own", r"^const NO_(?!MEMORY)\w+"),
    (4, "fields compared one by one", r"(\w+(?:\.\w+)*)\.(\w+) == (\w+)\.\2 && \1\.(\w+) == \3\.\4|called\.price == price && called\.quantity == quantity"),
)


def functions(text):
    """Each function with its line, its name, its parameters, its clauses and its body."""
    for m in re.finditer(r"^( *)(pub(?:\(crate\))? )?(?:extern \"C\" )?fn (\w+)", text, re.M):
        depth, i = 0, m.end()
        if text[i] == "<":
            depth, i = 1, i + 1
            while depth:
                depth += {"<": 1, ">": -1}.get(text[i], 0)
                i += 1
        start = text.index("(", i)
        depth, i = 1, start + 1
        while depth:
            depth += {"(": 1, ")": -1}.get(text[i], 0)
            i += 1
        params = re.sub(r"\s+", " ", text[start + 1 : i - 1]).strip().rstrip(",")
        stop = i
        while True:
            line_end = text.find("\n", stop)
            row = text[stop : line_end if line_end >= 0 else len(text)].rstrip()
            stop = line_end if line_end >= 0 else len(text)
            if row.endswith(";") or row.endswith("{}"):
                break
            if row == m[1] + "{" or (row.endswith("{") and not row.lstrip().startswith(("requires", "ensures"))):
                close = re.compile(r"^%s\}$" % m[1], re.M).search(text, stop)
                stop = close.end() if close else len(text)
                break
            if line_end < 0:
                break
            stop += 1
        whole = text[m.start() : stop]
        clauses = re.findall(r"^\s*(requires|ensures)\*?( \w+)? \{ (.*) \}$", whole, re.M)
        body = re.sub(r"^\s*(requires|ensures).*$", "", whole, flags=re.M)
        yield text.count("\n", 0, m.start()) + 1, m[3], params, clauses, body


def split_params(params):
    depth, part, parts = 0, "", []
    for ch in params:
        depth += {"<": 1, "(": 1, "[": 1, ">": -1, ")": -1, "]": -1}.get(ch, 0)
        if ch == "," and depth == 0:
            parts.append(part.strip())
            part = ""
        else:
            part += ch
    return [p for p in parts + [part.strip()] if p and "self" not in p]


def places(root):
    found = {n: [] for n in POINTS}
    by_shape, by_name, by_params, by_clause, by_fields, by_value = {}, {}, {}, {}, {}, {}

    def add(point, rule, where, what):
        found[point].append((rule, where, what))

    for path in sorted(root.glob("crates/*/src/*.rt")):
        crate = path.parts[-3]
        text = path.read_text()
        where = lambda pos: "%s/%s:%d" % (crate, path.name, text.count("\n", 0, pos) + 1)
        for m in re.finditer(r"^(pub(?:\(crate\))? )?enum (\w+) \{\n(.*?)^\}", text, re.M | re.S):
            variants = [v for v in re.split(r",\n", re.sub(r"^\s*//.*$", "", m[3], flags=re.M)) if re.match(r"\s{4}\w", v)]
            carries = [bool(re.match(r"\s{4}\w+ ?[({]", v)) for v in variants]
            if len(variants) == 2 and any(carries):
                add(1, "enum of the shape of an option or a result", where(m.start()), m[2])
            if m[1] != "pub ":
                add(7, "enum that only this crate switches on", where(m.start()), m[2])
        for point, rule, pattern in RULES:
            for m in re.finditer(pattern, text, re.M):
                group = 1 if point == 3 else 0
                add(point, rule, where(m.start(group)), m[group].strip().split("\n")[0])
        for m in re.finditer(r"^(?:pub(?:\(crate\))? )?struct (\w+)[^{;\n]*\{\n(.*?)^\}", text, re.M | re.S):
            fields = [re.sub(r"pub(\(crate\))? ", "", f.strip().rstrip(",")) for f in m[2].split("\n") if ":" in f and "ghost" not in f and "//" not in f]
            if any("&'a mut [" in f or "Vec<" in f for f in fields) and any(f.endswith("usize") for f in fields):
                add(6, "slice with a count", where(m.start()), m[1])
            if len(fields) > 1:
                by_fields.setdefault(tuple(fields), []).append((where(m.start()), m[1]))
        for m in re.finditer(r"^ *(?:pub(?:\(crate\))? )?const \w+: (\w+) = (.*?);$", text, re.M | re.S):
            if "{" in m[2]:
                by_value.setdefault(re.sub(r"\s+", " ", m[2]), []).append((where(m.start()), m[1]))
        for line, name, params, clauses, body in functions(text):
            spot = "%s/%s:%d" % (crate, path.name, line)
            inner = body[body.index("{") :] if "{" in body else ""
            tokens = re.findall(r"\w+|[^\w\s]", inner)
            names, shape = {}, []
            for t in tokens:
                shape.append("%d" % names.setdefault(t, len(names)) if re.match(r"\w", t) else t)
            if len(tokens) >= 22:
                by_shape.setdefault(" ".join(shape), []).append((spot, name))
            if tokens and name != "main":
                by_name.setdefault(name, []).append((crate, spot, tokens))
            for group in {tuple(sorted(split_params(params)))}:
                by_params.setdefault(group, []).append((spot, name))
            for kind, label, fact in clauses:
                by_clause.setdefault((kind, fact), []).append((spot, name))
    for group in by_shape.values():
        if len(group) > 1:
            for spot, name in group:
                add(2, "functions of one shape", spot, name)
    for name, group in by_name.items():
        for one, two in itertools.combinations(group, 2):
            alike = difflib.SequenceMatcher(None, one[2], two[2]).ratio()
            if one[0] != two[0] and alike > 0.6 and "impl" not in name:
                add(2, "one name and much the same body in two crates", one[1], "%s, as at %s" % (name, two[1]))
    for fields, group in by_fields.items():
        if len(group) > 1:
            for spot, name in group:
                add(2, "structs with the same fields", spot, name)
    for value, group in by_value.items():
        if len(group) > 1:
            for spot, name in group:
                add(2, "constants of one value", spot, name)
    users_of = {}
    for group, users in by_params.items():
        for param in group:
            users_of.setdefault(param, []).extend((u, group) for u in users)
    for param, users in sorted(users_of.items()):
        if len(users) >= 3:
            company = set.intersection(*(set(g) for _, g in users)) - {param}
            if company:
                add(5, "never without the others, in %d functions" % len(users), users[0][0][0], "%s with %s" % (param, ", ".join(sorted(company))))
    for (kind, fact), users in sorted(by_clause.items()):
        if len(users) >= 3:
            add(5, "%s %d functions" % ({"requires": "required by", "ensures": "ensured by"}[kind], len(users)), users[0][0], fact)
    answers = sorted(root.glob("crates/*/proofs/**/Answers.antt"))
    for path in answers:
        add(8, "answers", str(path.relative_to(root)), str(len(path.read_text().split("\n"))))
    return found


def main():
    root = pathlib.Path(__file__).resolve().parent.parent
    if "--at" in sys.argv:
        commit = sys.argv[sys.argv.index("--at") + 1]
        held = tempfile.TemporaryDirectory()
        archive = subprocess.run(["git", "-C", root, "archive", commit, "crates"], check=True, stdout=subprocess.PIPE).stdout
        subprocess.run(["tar", "-x", "-C", held.name], input=archive, check=True)
        root = pathlib.Path(held.name)
    found = places(root)
    for point, what in POINTS.items():
        print("%d  %-52s %4d" % (point, what, len(found[point])))
        rules = {}
        for rule, where, name in found[point]:
            key = re.sub(r"\d+ functions", "so many functions", rule)
            rules.setdefault(key, []).append((where, name))
        for rule, spots in rules.items():
            print("     %-56s %4d" % (rule, len(spots)))
            if "--list" in sys.argv and point != 8:
                for where, name in spots:
                    print("          %-32s %s" % (where, name))


main()
