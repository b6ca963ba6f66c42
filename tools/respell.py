#!/usr/bin/env python3
"""Respells the repository's own names in specs, proofs and clauses: words in snake
case, types and facts in camel case. Run once, at the top, after the kit's port.py.

  tools/respell.py           rewrites crates/
  tools/respell.py --list    prints old and new names, and names that would fall together

A name is the repository's own if a file of specs/ or a file of lemmas in proofs/ uses
it and no library has it, or if a proof file defines it for itself. Of source names
(functions, parameters, labels) a proof file has the spelling of the source. Names that
the checker makes, functions of src/, strings, inputs and outputs stay as they are.
"""
import glob
import os
import re
import subprocess
import sys

IDENTIFIER = re.compile(r'[^\s(){}\[\],;."`\']+(?:\'+)?')
LIBRARY = re.compile(r"^\s*(?:pub )?(?:ghost )?use (?:Rattle\.std|native|lib|mathlib|Prim)\b[^{]*\.(?:\{([^}]*)\}|(\S+?));?\s*$")
MADE = re.compile(r"^(?:abbrev )?(?:pub )?(\S+) : goal\.")
OWN_IN_ANSWERS = re.compile(r"(?:^\s*(?:pub )?([^\s(){}.,;]+) : (?!goal\.))|(?:\blet ([^\s(){}.,;]+))|(?:λ ([^.]*)\.)")
# a fact that would fall together with a constructor of the same words
FACTS = {"Cut-off": "IsCutOff", "Broken-off": "IsBrokenOff"}
# lemmas named by their left side, a dash between its two functions
LEMMAS = {"length-applied", "length-slots", "length-under", "accounts-append", "records-append", "others-append", "rest-append"}
JOINED = {"length_chunked": "length-chunked", "length_cut": "length-cut"}


def read(path):
    with open(path, encoding="utf8") as f:
        return f.read()


def code_of(line, comment):
    """The line without its comment and strings."""
    line = re.sub(r'"(?:[^"\\]|\\.)*"', '""', line)
    at = re.search(r"(?:^|\s)" + comment, line)
    return line[: at.start()] if at else line


def dashed(text, comment):
    for line in text.split("\n"):
        for word in IDENTIFIER.findall(code_of(line, comment)):
            if re.search(r"\w-\w", word):
                yield word


def new_name(word):
    if word in FACTS:
        return FACTS[word]
    if word[0].isupper():
        return "".join(part[:1].upper() + part[1:] for part in word.split("-"))
    return word.replace("-", "_")


def is_answer(path):
    return os.path.basename(path) in ("Answers.antt", "Invariants.antt", "Choices.antt", "Proof.antt")


def library_words():
    kit = subprocess.run(["rt", "doc"], capture_output=True, text=True, check=True).stdout.strip()
    words = set()
    for folder in ("rattle/std", "rattle/core", "rattle/std_alloc", "rattle/logic", "rattle/antt"):
        for path in glob.glob(os.path.join(os.path.dirname(kit), folder, "**", "*.antt"), recursive=True):
            words.update(w for w in IDENTIFIER.findall(read(path)) if "-" in w)
    return words


def mapping(files):
    antt = [p for p in files if p.endswith(".antt")]
    library = library_words()
    imported, made, own, source = set(), set(), set(), set()
    for path in files:
        text = read(path)
        for line in text.split("\n"):
            if m := LIBRARY.match(line):
                imported.update(re.split(r"[,\s]+", m[1] or m[2]))
            if is_answer(path) and (m := MADE.match(line)):
                made.add(m[1])
        if path.endswith(".rt"):
            source.update(re.findall(r"[a-z]\w*_\w*", text))
    for path in antt:
        text = read(path)
        if not is_answer(path):
            own.update(dashed(text, "--"))
        else:
            for line in text.split("\n"):
                for m in OWN_IN_ANSWERS.finditer(code_of(line, "--")):
                    own.update(w for w in (m[1] or m[2] or m[3]).split() if re.search(r"\w-\w", w))
    for path in antt:
        if is_answer(path):
            own.update(w for w in dashed(read(path), "--") if w.replace("-", "_") in source)
    gone = imported | made | LEMMAS
    return {w: new_name(w) for w in own if w not in gone} | JOINED, library


def respelled(text, names, comment):
    def word(m):
        return names.get(m[0], m[0])

    out = []
    for line in text.split("\n"):
        code = re.search(r"(?:^|\s)" + comment, re.sub(r'"(?:[^"\\]|\\.)*"', lambda m: "_" * len(m[0]), line))
        cut = code.start() if code else len(line)
        parts = re.split(r'("(?:[^"\\]|\\.)*")', line[:cut])
        head = "".join(p if p.startswith('"') else IDENTIFIER.sub(word, p) for p in parts)
        tail = re.sub(r"`[^`]*`", lambda m: IDENTIFIER.sub(word, m[0]), line[cut:])
        out.append(head + tail)
    return "\n".join(out)


def main():
    files = sorted(p for p in glob.glob("crates/**/*", recursive=True) if p.endswith((".antt", ".rt")) and "/out/" not in p)
    names, library = mapping(files)
    if "--list" in sys.argv:
        for old, new in sorted(names.items()):
            note = " (also a library's word)" if old in library else ""
            print(f"{old} -> {new}{note}")
        olds = {}
        for old, new in names.items():
            olds.setdefault(new, []).append(old)
        print("fall together:", [v for v in olds.values() if len(v) > 1])
        for path in files:
            text = read(path)
            comment = "--" if path.endswith(".antt") else "//"
            words = {w for line in text.split("\n") for w in IDENTIFIER.findall(code_of(line, comment))}
            both = sorted(w for w in words if w in names and names[w] in words)
            if both:
                print(f"both spellings: {path}: {' '.join(both)}")
        return
    for path in files:
        text = read(path)
        new = respelled(text, names, "--" if path.endswith(".antt") else "//")
        if new != text:
            with open(path, "w", encoding="utf8") as f:
                f.write(new)


main()
