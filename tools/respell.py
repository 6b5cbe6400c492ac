#!/usr/bin/env python3
"""Brings this repository's own names in specs/, proofs/ and contracts to today's spelling. Run once, at the top, after port.py.

- A definition, lemma, field, constructor or variable with dashes is put in snake case: is-present becomes is_present.
- A fact or a type with dashes is put in camel case: Keeps-law becomes KeepsLaw.
- A dash stays where it joins a word of the library that is a fact or an operator to a name: T-all-below becomes T-all_below.
- A lemma that would then have the name of a function of src/ gets _lem at its end.
- The folders of modules `tables` and `truth` get a capital.
Names that Rattle makes for goals, names of the library, functions of src/ and strings stay. Comments and pages are turned
only between backticks.
"""
import glob
import os
import re
import subprocess

# A name of antt: letters, digits, and what may stand within a name.
NAME = re.compile(r"[^\s(){}\[\]:;,.`\"“”→↦λ]+")
ANTT = [f for d in ("specs", "proofs") for f in glob.glob(f"crates/*/{d}/**/*.antt", recursive=True)]
CODE = glob.glob("crates/*/src/**/*.rt", recursive=True)
PAGES = ["README.md"] + glob.glob("docs/*.md")
KEPT_HEADS = ("T", "⊎")
FOLDERS = {"tables": "Tables", "truth": "Truth"}


def read(path):
    with open(path, encoding="utf-8") as f:
        return f.read()


def write(path, text):
    with open(path, "w", encoding="utf-8") as f:
        f.write(text)


def is_of_a_goal(path):
    return path.endswith(("/Answers.antt", "/Invariants.antt"))


def code_of(line):
    """The line without its comment."""
    return re.split(r"(?:^|\s)--(?:\s|$)", line, maxsplit=1)[0]


def imported():
    """The names that come from the library, by the lines that import them."""
    names = set()
    for path in ANTT + CODE:
        for base, listed in re.findall(r"use ([^\s{};]+)\.\{([^}]*)\}", read(path)):
            root = base.split(".")
            if root[0] == "Rattle" and len(root) > 1 and os.path.isdir(f"crates/{root[1]}"):
                continue
            for entry in listed.split(","):
                names.update(name.rstrip("'′") for name in entry.split())
    return names


def own_names():
    """Every name with a dash that this repository gives, and the crates in which lemmas stand."""
    library, names, lemmas = imported(), set(), {}
    for path in ANTT:
        if is_of_a_goal(path):
            continue
        for line in read(path).split("\n"):
            head = re.match(r"\s*(?:unfoldable |abbrev |pub |data |record |ruleset )*([^\s:(]+)[^:]*:", code_of(line))
            if head and "/proofs/" in path:
                lemmas.setdefault(head.group(1), set()).add(path.split("/")[1])
            for name in NAME.findall(code_of(line)):
                bare = name.rstrip("'′")
                if re.search(r"[^\W_]-[^\W_]|-\+\+$|^⊎-", bare) and bare not in library:
                    names.add(bare)
    return names, lemmas


def goals():
    """The names that Rattle makes for goals: those that files of answers define, and the fields of a goal's facts."""
    names = set()
    for path in ANTT:
        if is_of_a_goal(path):
            for line in read(path).split("\n"):
                names.update(re.findall(r"^(?:abbrev )?(?:pub )?([^\s:]+) :", line))
                names.update(re.findall(r"\bgoal\.([^\s(){},]+)", line))
    return names


def respelled(name):
    words = name.split("-")
    if words[0] in KEPT_HEADS:
        return words[0] + "-" + "_".join(words[1:])
    if words[-1] == "++":
        return "_".join(words[:-1]) + "-++"
    if words[0][0].isupper():
        return "".join(w[0].upper() + w[1:] for w in words)
    return "_".join(words)


def functions():
    """The functions of src/, each with its crate."""
    return {(path.split("/")[1], n) for path in CODE for n in re.findall(r"\bfn ([a-z_0-9]+)", read(path))}


def turned(text, new):
    def one(m):
        name = m.group(0)
        bare = name.rstrip("'′")
        return new.get(bare, bare) + name[len(bare):]

    return NAME.sub(one, text)


def in_backticks(text, new):
    return re.sub(r"`[^`\n]+`", lambda m: turned(m.group(0), new), text)


def turn_antt(text, new):
    lines = []
    for line in text.split("\n"):
        code = code_of(line)
        lines.append(turned(code, new) + in_backticks(line[len(code):], new))
    return "\n".join(lines)


def turn_code(text, new):
    """Only names with a dash are in `new`, and no code has one: a minus stands between blanks. Strings stay."""
    lines = []
    for line in text.split("\n"):
        if line.strip().startswith("//"):
            lines.append(in_backticks(line, new))
        else:
            parts = re.split(r'("(?:[^"\\]|\\.)*")', line)
            lines.append("".join(p if p.startswith('"') else turned(p, new) for p in parts))
    return "\n".join(lines)


def turn_paths(text):
    for old, name in FOLDERS.items():
        text = re.sub(rf"(\.(?:specs|proofs)\.){old}\b", rf"\g<1>{name}", text)
        text = re.sub(rf"^((?:pub )?mod ){old}$", rf"\g<1>{name}", text, flags=re.M)
    return text


def main():
    names, lemmas = own_names()
    made, called = goals(), functions()
    new = {}
    for name in sorted(names - made):
        to = respelled(name)
        new[name] = to + "_lem" if any((crate, to) in called for crate in lemmas.get(name, ())) else to
    # names that fall together
    for to in sorted(set(new.values())):
        olds = [n for n in new if new[n] == to]
        if len(olds) > 1:
            print(f"together: {olds} are {to}")
    there = set()
    for path in ANTT:
        for line in read(path).split("\n"):
            there.update(NAME.findall(code_of(line)))
    for name in sorted(new):
        if new[name] in there:
            print(f"taken: {name} becomes {new[name]}, which stands already")
    for path in ANTT:
        write(path, turn_paths(turn_antt(read(path), new)))
    for path in CODE:
        write(path, turn_paths(turn_code(read(path), new)))
    for path in PAGES:
        write(path, in_backticks(read(path), new))
    for path in [p for old in FOLDERS for p in glob.glob(f"crates/*/specs/{old}*") + glob.glob(f"crates/*/proofs/{old}*")]:
        head, tail = os.path.split(path)
        stem, end = os.path.splitext(tail)
        if stem in FOLDERS:
            subprocess.run(["git", "mv", path, os.path.join(head, FOLDERS[stem] + end)], check=True)
    print(f"respelled {len(new)} names")
    for name in sorted(new):
        print(f"  {name} -> {new[name]}")


main()
