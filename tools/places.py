#!/usr/bin/env python3
"""Lists the places of the design pass in src/, point by point; the counts of docs/DESIGN-PASS.md are those that it prints.

    python3 tools/places.py [CHECKOUT]        every place
    python3 tools/places.py [CHECKOUT] -c     the counts alone
"""
import os, re, sys
from collections import defaultdict

args = [a for a in sys.argv[1:] if a != "-c"]
only_counts = "-c" in sys.argv
top = args[0] if args else "."
files = {}
for folder, _, names in os.walk(os.path.join(top, "crates")):
    if "/src" in folder and "/out" not in folder:
        for name in names:
            if name.endswith(".rt"):
                path = os.path.join(folder, name)
                files[os.path.relpath(path, os.path.join(top, "crates"))] = open(path).read()
places = defaultdict(list)


def add(point, path, line, what):
    places[point].append(f"{path}:{line}: {what}")


def line_of(text, at):
    return text.count("\n", 0, at) + 1


def grep(point, pattern, tests=False, what=None):
    for path, text in sorted(files.items()):
        if not tests and (path.endswith("tests.rt") or path.startswith("store_tests")):
            continue
        for m in re.finditer(pattern, text, re.M):
            add(point, path, line_of(text, m.start()), what or " ".join(m.group(0).split()))


def items(text):
    """Functions with a body, as (line, name, head, body)."""
    for m in re.finditer(r"^([ ]*)(?:pub(?:\([a-z]+\))? )?fn ([a-z_0-9]+)", text, re.M):
        indent = m.group(1)
        begin = re.compile(r"^%s\{(\})?$| \{(\})?$|;$" % indent, re.M).search(text, m.end())
        if not begin or begin.group(0) == ";" or "}" in begin.group(0):
            continue
        end = re.compile(r"^%s\}$" % indent, re.M).search(text, begin.end())
        yield line_of(text, m.start()), m.group(2), text[m.start():begin.start()], text[begin.start():end.end()]


# 1: enums of two variants of which one carries nothing or one carries a refusal; refusals as bool or number; errors passed on by hand
for path, text in sorted(files.items()):
    for m in re.finditer(r"enum ([A-Za-z]+)(?:<[^>]*>)? \{\n(.*?)^\}", text, re.M | re.S):
        body = re.sub(r"//.*", "", m.group(2))
        depth, variants, cur = 0, [], ""
        for ch in body:
            if ch in "({<":
                depth += 1
            if ch in ")}>":
                depth -= 1
            if ch == "," and depth == 0:
                variants.append(cur.strip()); cur = ""
            else:
                cur += ch
        if cur.strip():
            variants.append(cur.strip())
        bare = [v for v in variants if "(" not in v and "{" not in v]
        if len(variants) == 2 and len(bare) == 1:
            add("1 own Option", path, line_of(text, m.start()), "enum " + m.group(1))
        if any(re.match(r"(Refused|Err|Failed)\(", v) for v in variants):
            add("1 own Result", path, line_of(text, m.start()), "enum " + m.group(1))
    for line, name, head, body in items(text):
        if "&mut" in head and re.search(r"-> bool", head):
            add("1 refusal as bool", path, line, "fn " + name)
        if re.search(r"-> Result<[^>]*, (usize|u64|u32|u8)>", " ".join(head.split())):
            add("1 refusal as number", path, line, "fn " + name)
grep("1 error passed by hand", r"let (?:Some|Ok)\([^=]*\) = [^;{]*else \{\s*(?://[^\n]*\s*)?return (?:None|Err\([^;]*\));", True)
grep("1 error passed by hand", r"if let Err\([a-z]+\) = [^{]*\{\s*return Err\([^;]*\);", True)
grep("1 error passed by hand", r"(?:Ok\([a-z_()]*\) => Ok\([a-z_()]*\),\s*)?Err\([a-z]+\) => Err\([^;]*?\),?\s*(?:Ok\([a-z_()]*\) => Ok\([a-z_()]*\),)?")
grep("1 error passed by hand", r"(?:None|Err\(_\)) => (?:None|Err\([^\n]*\)),")
grep("1 error passed by hand", r"\.is_err\(\) \{\s*return Err\([^;]*\);")

# 2: functions with the same shape of body, and four like arms or statements
shapes = defaultdict(list)
for path, text in sorted(files.items()):
    if path.endswith("tests.rt") or path.startswith("store_tests"):
        continue
    for line, name, head, body in items(text):
        tokens = re.findall(r"[A-Za-z_][A-Za-z_0-9]*|\d+|b?\"[^\"]*\"|\S", re.sub(r"//.*", "", body))
        if len(tokens) < 18:
            continue  # a call handed on
        known = {"let", "match", "if", "else", "return", "for", "in", "Some", "None", "Ok", "Err", "self", "mut", "while"}
        shape = " ".join(t if t in known or not re.match(r"[A-Za-z_0-9\"b]", t) else "x" for t in tokens)
        shapes[shape].append((path, line, name))
for group in shapes.values():
    if len(group) > 1:
        for path, line, name in group:
            add("2 functions of one shape", path, line, f"fn {name}, {len(group)} alike")
for path, text in sorted(files.items()):
    for line, name, head, body in items(text):
        if re.search(r"[Cc]ell0\b.*[Cc]ell1\b.*[Cc]ell2\b.*[Cc]ell3\b", body, re.S):
            add("2 the four cells one by one", path, line, "fn " + name)
grep("2 macro in place of a generic function", r"macro_rules! [a-z_]+")

# 3: loops over an index
grep("3 index loops", r"^ *(?:for [a-z_(), ]+ in [^\n]*(?:\.\.|enumerate)[^\n]*|while (?!let)[^\n]*)\{", True)

# 4: conversions, equality, printing by hand
grep("4 conversion by hand", r"fn (?:from|to|as|seen)_(?!slice|expected|word|text)[a-z_]+[^\n]*")
grep("4 conversion by hand", r"fn (?:number|detail|layer|layer_name)\(self[^\n]*|fn layer_name[^\n]*")
grep("4 equality or order by hand", r"impl (?:PartialEq|Eq|PartialOrd|Ord|Clone|Copy|Default)[^\n]*")
for path, text in sorted(files.items()):
    if path.startswith("answer_text") and not path.endswith("tests.rt"):
        for line, name, head, body in items(text):
            if re.match(r"put_|append_|print$|joined$|text$", name) or re.search(r"_(text|line)$", name):
                add("4 printing by hand", path, line, "fn " + name)

# 5: what stands in three clauses or more, and parameters that travel together
for path, text in sorted(files.items()):
    for what in (r"\w+_view [A-Z]", r"session_view self", r"listed self", r"waiting self", r"meant S.Store", r"S.versions store", r"versions_of \(items"):
        n = sum(1 for l in text.split("\n") if re.match(r" *(ensures|requires)", l) and re.search(what, l))
        if n >= 3:
            places["5 a view in clauses"].append(f"{path}: {n} clauses name `{what}`")
grep("5 four stores as parameters", r"S: Store,\s*T: Store<Payload = S::Payload>,\s*U")
for path, text in sorted(files.items()):
    for line, name, head, body in items(text):
        params = re.search(r"\((.*?)\)", " ".join(head.split()))
        n = params.group(1).count(":") - 2 * params.group(1).count("::") if params else 0
        if n >= 5:
            add("5 many parameters", path, line, f"fn {name}, {n} of them")

# 6: buffers with a length beside, links
grep("6 length beside", r"^ *(?:len|left|count|capacity): usize,")
grep("6 links as places", r"^ *(?:pub )?(?:next|before|newest|staged|free): Option<usize>,")
grep("6 fixed array", r"^    [a-z_0-9]+: \[[A-Z][A-Za-z]*; [A-Z0-9]+\],")

# 7: switches on what to run
grep("7 switch on a step", r"enum (?:Allowed|[A-Za-z]*Step|Op)\b")
grep("7 table of functions", r"\bfn\([a-z]|\[fn\b")
grep("7 flag that picks", r"\b(?:own|writing|marked): bool")

for point in sorted(places):
    print(f"{point}: {len(places[point])}")
    if not only_counts:
        for place in places[point]:
            print("    " + place)
