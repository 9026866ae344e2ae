#!/usr/bin/env python3
"""Respells the repository's own names of specs/ and proofs/ as the language's style has them.

usage: python3 tools/respell.py FOLDER      FOLDER: the top of a checkout

Definitions, lemmas, fields and constructors that are declared in crates/*/specs and crates/*/proofs and
have capitals or dashes within are written in snake case; types with a dash in camel case. A name that a file
imports from a library keeps its spelling there. To be run once, on what the port's own script made; it says
which names fall together.
"""
import collections
import os
import re
import sys

DELIMITERS = " \t\n(){}[],;.«»⌜⌝\"`"
TOKEN = re.compile("[^" + re.escape(DELIMITERS) + "]+")
DECLARED = re.compile(
    r"^\s*(?:(?:pub|abbrev|unfoldable|data|record)\s+)*((?:[^\s(){}\[\],;.:]+\s+)*[^\s(){}\[\],;.:]+)"
    r"(?: \{ℓ\})?\s*(?:\([^)]*\)\s*)*\s*:(?:\s|$)"
)
WORDS = {"pub", "abbrev", "unfoldable", "data", "record", "λ", "let", "in", "→", "use", "module", "where", "as", "open"}
USE = re.compile(r"^\s*(?:pub )?(?:ghost )?use ([\w.·]+)\.\{([^}]*)\};?", re.M)


def files(root):
    for folder, dirs, names in os.walk(os.path.join(root, "crates")):
        dirs[:] = sorted(d for d in dirs if d != "out")
        for name in sorted(names):
            if name.endswith((".antt", ".rt")):
                yield os.path.join(folder, name)


def snake(name):
    parts = []
    for part in name.split("-"):
        part = re.sub(r"([a-z0-9])([A-Z])", r"\1_\2", part)
        part = re.sub(r"([A-Z])([A-Z][a-z])", r"\1_\2", part)
        parts.append(part.lower() if re.search("[a-z]", part) or len(name) > 1 else part)
    return "_".join(parts)


def respelled(name):
    if "◌" in name:
        return "◌".join(snake(p) if p else "" for p in name.split("◌"))
    if name[0].isupper():
        if "-" not in name:
            return name
        return "".join(p[:1].upper() + p[1:] for p in name.split("-"))
    return snake(name)


def declared(root):
    """The names that the repository declares outside the proofs of functions, and where."""
    found = collections.defaultdict(set)
    for path in files(root):
        if not path.endswith(".antt") or path.endswith("Proof.antt"):
            continue
        with open(path, encoding="utf-8") as f:
            for line in f:
                if line.lstrip().startswith(("--", "use ", "let ", "λ")):
                    continue
                m = DECLARED.match(line)
                if not m:
                    continue
                for name in m.group(1).split():
                    if name not in WORDS and re.match(r"^[A-Za-z◌]", name):
                        found[name].add(path)
    return found


def imported(text):
    """The names that a file has from libraries."""
    names = set()
    for where, what in USE.findall(text):
        if not where.startswith("Rattle.lxt_") and not where.startswith("Rattle·lxt_"):
            names |= {w.strip().split(" as ")[-1] for w in what.split(",")}
    return names


# names that would be a parameter's where both stand in one clause
TAKEN = {"namesEnd": "after_names"}

# lemmas that the port's own script wrote as the functions that they speak of are written now, and the files that cite them
LEMMAS = {
    "all_asked": ("WalkLaws", "BeginLaws", "ChangesBackLaws"),
    "all_left": ("Calls", "Printed", "BeginLaws"),
    "bits_each": ("SizeLaws",),
    "code_sum": ("PackLaws", "symbols/code_of/Proof"),
    "first_below": ("TimeLaws", "times/first_below/Proof"),
    "lines_left": ("BeginLaws", "printing/begin/Proof"),
    "no_zero": ("AllowedLaws", "NameTableLaws", "NamesReadLaws"),
    "part_end": ("PartLaws", "excluded_part/Proof", "part_of/Proof"),
}


def main(root):
    found = declared(root)
    names = {n: respelled(n) for n in found}
    names = {a: b for a, b in names.items() if a != b}
    # a lemma that would have its function's name
    functions = {b for a, b in names.items() if "-" not in a} | {n for n in found if "-" not in n}
    names = {a: b + "_lem" if "-" in a and b in functions else b for a, b in names.items()}
    # a mixfix name is also used by its words
    words = {}
    for a, b in names.items():
        if "◌" in a:
            for x, y in zip(a.split("◌"), b.split("◌")):
                if x != y:
                    words[x] = y
    names.update(words)
    names.update({a: b for a, b in TAKEN.items() if a in names})
    back = collections.defaultdict(set)
    for a, b in names.items():
        back[b].add(a)
    for b, those in sorted(back.items()):
        if len(those) > 1:
            print("falls together:", b, "<-", ", ".join(sorted(those)))
    changed = 0
    for path in files(root):
        with open(path, encoding="utf-8") as f:
            text = f.read()
        keep = imported(text)
        before = set(TOKEN.findall(text))
        here = set()

        def turn(m):
            word = m.group(0)
            if any(path.endswith("/" + f + ".antt") for f in LEMMAS.get(word, ())) and m.string[m.end() : m.end() + 1] != ".":
                return word + "_lem"
            if word in names and word not in keep:
                here.add(word)
                return names[word]
            return word

        lines = []
        for line in text.split("\n"):
            at = line.find("--") if path.endswith(".antt") else line.find("//")
            if at >= 0 and (at == 0 or line[at - 1] == " "):
                code, comment = line[:at], line[at:]
                comment = TOKEN.sub(lambda m: names.get(m.group(0), m.group(0)) if re.match(r"[a-z][a-z0-9]*[A-Z]", m.group(0)) else m.group(0), comment)
            else:
                code, comment = line, ""
            lines.append(TOKEN.sub(turn, code) + comment)
        new = "\n".join(lines)
        for word in sorted(here):
            if names[word] in before:
                print(f"look: {os.path.relpath(path, root)}: {word} is {names[word]} now, which stood there before")
        if new != text:
            changed += 1
            with open(path, "w", encoding="utf-8") as f:
                f.write(new)
    print(f"{len(names)} names, {changed} files")


if __name__ == "__main__":
    if len(sys.argv) != 2:
        raise SystemExit(__doc__)
    main(sys.argv[1])
