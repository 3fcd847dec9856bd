#!/usr/bin/env python3
"""Spell the repository's own definitions, lemmas and record fields in snake case.

Run once, after the toolchain's port.py, at the top of the repository. Names that specs/ and proofs/ define are collected,
and each is respelled wherever it stands: words in snake case (`layerOf` to `layer_of`, `above-delays` to `above_delays`),
types and facts in camel case (`Comes-back` to `ComesBack`). Where a lemma would fall together with a definition, it gets
`_lem` behind its name. Names of goals, which the check makes, stay as they are.
"""
import collections
import glob
import os
import re
import sys

WORD = r"[A-Za-z][A-Za-z0-9_'ℕℤ-]*[A-Za-z0-9_'ℕℤ]|[A-Za-z]"
SIGNATURE = re.compile(
    r"^\s*(?:(?:abbrev|unfoldable|pub|axiom|elim)\s+)*(?:(?:record|data|mod|ruleset)\s+)?(" + WORD + r")(?=\s*:\s|\s+\(|\s+\{|\s*:$|\s+where)"
)


# what the rules below do not find: a variable of patterns, and a lemma that port.py gave its definition's new name
BY_HAND = {"forWriting": "for_writing", "nth_in": "nth_in_lem", "nthIn": "nth_in", "tells-it": "tells_it"}


def antt_files():
    for folder in ("specs", "proofs"):
        for path in sorted(glob.glob("crates/*/" + folder + "/**/*.antt", recursive=True)):
            yield path


def own_names():
    """Each name that a signature gives, and whether it is a lemma (in proofs/)."""
    names = collections.defaultdict(set)
    for path in antt_files():
        for line in open(path, encoding="utf-8"):
            code = line.split("--")[0]
            for alias in re.findall(r"\bas\s+(" + WORD + r")(?=[,}])", code):
                names[alias].add("alias")
            for binders in re.findall(r"[({]((?:" + WORD + r")(?:\s+(?:" + WORD + r"))*)\s+:\s", code):
                for binder in binders.split():
                    names[binder].add("binder")
            if " : goal." in code or re.match(r"\s*(use|pub mod|mod|where|module)(\s|$)", code):
                continue
            found = SIGNATURE.match(code)
            if found:
                names[found.group(1)].add("lemma" if "/proofs/" in path else "spec")
    for path in sorted(glob.glob("crates/*/src/**/*.rt", recursive=True)):
        for line in open(path, encoding="utf-8"):
            if line.lstrip().startswith("ghost use"):
                for alias in re.findall(r"\bas\s+(" + WORD + r")(?=[,}])", line):
                    names[alias].add("alias")
    return names


def snake(name):
    if name[0].isupper():
        parts = name.split("-")
        return "".join(p[0].upper() + p[1:] for p in parts) if len(parts) > 1 else name
    name = re.sub(r"([a-z0-9])([A-Z])", lambda m: m.group(1) + "_" + m.group(2).lower(), name)
    return name.replace("-", "_")


def tokens_of(text):
    return set(re.findall(WORD, text))


def main():
    names = own_names()
    texts = {p: open(p, encoding="utf-8").read() for p in antt_files()}
    sources = {p: open(p, encoding="utf-8").read() for p in glob.glob("crates/*/src/**/*.rt", recursive=True)}
    # names that mean something else already: words of specs/ and proofs/, and of src/ but for its functions, since a
    # definition may have the name of the function that it mirrors
    known = set()
    functions = set()
    for text in sources.values():
        functions |= set(re.findall(r"\bfn\s+([A-Za-z0-9_]+)", text))
    for text in texts.values():
        known |= tokens_of(text)
    for text in sources.values():
        known |= tokens_of(re.sub(r"//.*", "", text)) - functions
    turned = {}
    for name in sorted(names):
        new = snake(name)
        if new != name and name not in BY_HAND:
            turned[name] = new
    taken = collections.defaultdict(list)
    for old, new in turned.items():
        taken[new].append(old)
    for new, olds in sorted(taken.items()):
        if len(olds) == 1 and new not in known:
            continue
        # names that fall together: what has the name already and the camel case definition keep it
        keep = None if new in known else next((o for o in olds if names[o] & {"spec", "alias"}), olds[0])
        for old in olds:
            if old != keep:
                turned[old] = new + "_lem"
        print("together:", new, olds, "known" if new in known else "", "kept:", keep)
    turned.update(BY_HAND)
    values = collections.Counter(turned.values())
    clash = [n for n in turned.values() if values[n] > 1 or n in known and n not in BY_HAND]
    if clash:
        sys.exit("still together: " + " ".join(sorted(set(clash))))

    def respell(text):
        return re.sub(WORD, lambda m: turned.get(m.group(0), m.group(0)), text)

    for path, text in texts.items():
        new = respell(text)
        if new != text:
            open(path, "w", encoding="utf-8").write(new)
    for path, text in sources.items():
        out, depth, ghost = [], 0, False
        for line in text.split("\n"):
            starts = re.match(r"\s*(pub\s+)?ghost\b|\s*(requires|ensures)\b", line)
            if starts or depth > 0:
                code = respell(line)
                opened = line.count("{") - line.count("}")
                depth = max(0, depth + opened)
                out.append(code)
            else:
                out.append(line)
        new = "\n".join(out)
        if new != text:
            open(path, "w", encoding="utf-8").write(new)
    for old in sorted(turned):
        print(old, turned[old])
    print(len(turned), "names respelled")


main()
