#!/usr/bin/env python3
"""Respells the repository's own definitions, lemmas, fields and local names: snake case in place of dashes.

Run once at the top of the repository, after the toolchain's port script. It goes by text: a name with a dash is
ours if a file of specs/ or proofs/ (not a function's own folder) has it, or if a proof declares it, and if no
`use` line brings it from a library. Names that the toolchain makes (goals, steps) keep their dashes, and so do strings,
comments, inputs and outputs.
"""
import os
import re
import subprocess
import sys

NAME = re.compile(r"(?<![\w'.\-])([A-Za-z_][\w']*(?:-[\w']+)+)(?![\w'\-])")
FIELD = re.compile(r"(?<![\w'\-])([A-Za-z_][\w']*(?:-[\w']+)+)(?![\w'\-])")
USE = re.compile(r"\buse\s+([^\s{;]+?)\.\{([^}]*)\}")

# A lemma about one function of another is named after both, the outer one first, joined by a dash.
LEMMAS = {
    "getD-behind": "get_or-behind",
    "getD-from": "get_or-from",
    "getD-stepped": "get_or-stepped",
    "grid-stepped": "grid-stepped",
    "length-behind": "length-behind",
    "length-others": "length-others",
    "length-stepped": "length-stepped",
}


def files(top):
    for base in ("specs", "proofs", "src", "must-fail"):
        for crate in sorted(os.listdir(os.path.join(top, "crates"))):
            for folder, _, names in os.walk(os.path.join(top, "crates", crate, base)):
                for name in sorted(names):
                    if name.endswith((".antt", ".rt", ".edit")):
                        yield os.path.join(folder, name)


def split(text, mark):
    """The text in pieces that are code, and pieces that are comments or strings."""
    pattern = r'("(?:[^"\\\n]|\\.)*"|%s[^\n]*)' % re.escape(mark)
    return re.split(pattern, text)


def code_of(path, text):
    if path.endswith(".edit"):
        return text
    return "".join(split(text, "//" if path.endswith(".rt") else "--")[::2])


def in_function_folder(path):
    parts = path.split(os.sep)
    return "proofs" in parts and parts[-2] != "proofs"


def main():
    top = sys.argv[1] if len(sys.argv) > 1 else "."
    texts = {path: open(path, encoding="utf-8").read() for path in files(top)}
    crates = set(os.listdir(os.path.join(top, "crates")))
    foreign, ours = set(), set()
    for path, text in texts.items():
        code = code_of(path, text)
        for module, names in USE.findall(code):
            parts = module.split(".")
            own = parts[0] == "Rattle" and parts[1] in crates
            if not own or "Goals" in parts or "Given" in parts:
                foreign.update(n.strip().split(" as ")[0] for n in names.split(","))
    for path, text in texts.items():
        code = code_of(path, text)
        if path.endswith(".antt") and not in_function_folder(path):
            ours.update(FIELD.findall(code))
        elif path.endswith(".antt"):
            declared = re.findall(r"(?m)^(?:pub |abbrev |unfoldable )*([A-Za-z_][\w'\-]*) :(?! goal\.)", code)
            local = re.findall(r"(?:\blet|\bin let)\s+([A-Za-z_][\w'\-]*) (?:[:=])", code)
            lambdas = [n for group in re.findall(r"λ ([^.]*)\.", code) for n in re.findall(r"[\w'\-]+", group)]
            ours.update(n for n in declared + local + lambdas if "-" in n)
    ours -= foreign
    ours = {n for n in ours if FIELD.fullmatch(n)}
    table = {n: LEMMAS.get(n, n if n in LEMMAS.values() else n.replace("-", "_")) for n in ours}
    if "--list" in sys.argv:
        everything = set()
        for path, text in texts.items():
            everything.update(re.findall(r"[A-Za-z_][\w']*(?:-[\w']+)*", code_of(path, text)))
        for old, new in sorted(table.items()):
            clash = "CLASH" if new in everything else ""
            print(old, new, clash)
        return
    for path, text in texts.items():
        if path.endswith(".edit"):
            pieces = [text]
        else:
            pieces = split(text, "//" if path.endswith(".rt") else "--")
        pieces[::2] = [FIELD.sub(lambda m: table.get(m.group(1), m.group(1)), p) for p in pieces[::2]]
        changed = "".join(pieces)
        if changed != text:
            open(path, "w", encoding="utf-8").write(changed)


if __name__ == "__main__":
    main()
