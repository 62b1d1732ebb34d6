#!/usr/bin/env python3
"""Spells the repository's own definitions and lemmas in snake case: roomAfter and room-after become room_after.

usage: tools/respell.py [--dry]        at the top of the repository, once, after the kit's port.py

A name is the repository's own if a file of specs/ or proofs/ declares it. A walk (proofs/F/Proof.antt) cites such names, and its own stay.
Where two names would fall together in a file that has both, the lemma gets `_lem`. A name that a file imports from a library stays there.
Functions, fields and parameters of src/ keep their names. In README.md and docs/ only what stands between backticks is respelled.
"""
import collections
import glob
import os
import re
import sys

NAME = r'[^\s(){}.;,@"«»`]+'
DECLARED = re.compile(r'(?m)^ *(?:(?:pub|abbrev|unfoldable|private)\s+)*([^\s(){}:;.,"]+)(?:\s*\{[^{}\n]*\})*\s*:(?![:=])')
USE = re.compile(r"(?m)^(?:pub )?(?:ghost )?use ([^\s;{]+)(\{[^}]*\})?")
WORDS = {"where", "let", "in", "λ", "use"}


def read(path):
    with open(path, encoding="utf-8") as f:
        return f.read()


def uncommented(text):
    return re.sub(r"(?m)(--|//).*$", "", text)


def snake(name):
    if name[0].isupper():
        return name
    return re.sub(r"(?<=[a-z0-9])[A-Z]", lambda m: "_" + m[0].lower(), name).replace("-", "_")


def is_walk(path):
    return path.endswith("/Proof.antt")


def files():
    own = sorted(glob.glob("crates/*/specs/**/*.antt", recursive=True) + glob.glob("crates/*/proofs/**/*.antt", recursive=True))
    return own, sorted(glob.glob("crates/*/src/**/*.rt", recursive=True)), sorted(glob.glob("crates/*/must-fail/*.edit"))


def is_own(path, crates):
    steps = path.split(".")
    return steps[0] == "Rattle" and len(steps) > 1 and steps[1] in crates


def generated(path):
    return re.search(r"\.(Tie|Statement|Lts|Goals|Given|Met|Code)(\.|$)", path)


def imported(text, crates):
    """The names that a file takes from libraries, and those that it takes from the repository's own modules."""
    theirs, ours = set(), set()
    for path, items in USE.findall(uncommented(text)):
        names = {w for it in re.findall(r"[^{},]+", items or "") for w in it.replace(" as ", " ").split()}
        if is_own(path, crates) and not generated(path):
            ours |= names
        else:
            theirs |= names
    return theirs, ours


def table(texts, crates):
    """Each own name that is not in snake case, with its new spelling; and a line for each pair that fell together."""
    specs, lemmas, here = set(), set(), collections.defaultdict(set)
    for path, text in texts.items():
        if path.endswith(".antt"):
            names = set(DECLARED.findall(uncommented(text))) - WORDS
            if not is_walk(path):
                (specs if "/specs/" in path else lemmas).update(names)
        for word in set(re.findall(NAME, uncommented(text))):
            here[word].add(path)
    old = {n for n in specs | lemmas if snake(n) != n and re.fullmatch(r"[a-z][\w'₀-₉-]*", n)}
    new = {n: snake(n) for n in old}
    said = []
    rivals = collections.defaultdict(set)
    for n in specs | lemmas:
        rivals[new.get(n, n)].add(n)
    for name, group in sorted(rivals.items()):
        if len(group) < 2:
            continue
        keeper = sorted(group, key=lambda n: (n not in specs, "-" in n, n))[0]
        for n in sorted(group - {keeper}):
            if here[n] & here[keeper] or n in specs:
                new[n] = name + "_lem"
                said.append(f"fell together: {keeper} is {name}, {n} is {new[n]}")
    return new, said


def turned(text, path, new, crates):
    theirs, ours = imported(text, crates)
    fields = "Proof.antt" in path

    def one(m):
        word, at = m[0], m.start()
        if word not in new or word in theirs and word not in ours:
            return word
        if fields and word not in ours:
            # in a walk a step may have the name of a lemma: only what is imported, and a field of an own record, is ours
            return word if not (at and text[at - 1] == "." and word in FIELDS) else new[word]
        return new[word]

    return re.sub(NAME, one, text)


FIELDS = set()


def known(word, new, spelled):
    """For a text that the kit's port.py did not turn: the new spelling, also of a name that port.py respelled."""
    return new.get(word) or (snake(word) if snake(word) in spelled else word)


def main():
    dry = "--dry" in sys.argv
    crates = set(os.listdir("crates"))
    antt, rt, edits = files()
    texts = {p: read(p) for p in antt + rt + edits}
    new, said = table(texts, crates)
    spelled = {new.get(n, n) for p in antt if not is_walk(p) for n in DECLARED.findall(uncommented(texts[p]))}
    for p in antt:
        for m in re.finditer(r"(?ms)^( *)(?:pub )?record [^\n]* where\n((?:\1 +[^\n]*\n|\n)*)", uncommented(texts[p])):
            FIELDS.update(n for n in DECLARED.findall(m[2]))
    for p in sorted(texts):
        t = turned(texts[p], p, new, crates)
        if p.endswith(".edit"):
            t = re.sub(NAME, lambda w: known(w[0], new, spelled) if re.search("[A-Z-]", w[0]) else w[0], t)
        theirs, _ = imported(texts[p], crates)
        gained = {new[w] for w in re.findall(NAME, uncommented(texts[p])) if w in new and not is_walk(p)}
        if gained & theirs:
            said.append(f"{p}: a library's name is now an own one's too: {sorted(gained & theirs)}")
        if p.endswith(".rt"):
            params = set(re.findall(r"\b(\w+): ", uncommented(texts[p]))) | set(re.findall(r"\blet (?:mut )?(\w+)", texts[p]))
            if gained & params:
                said.append(f"{p}: also a parameter or a variable: {sorted(gained & params)}")
        if t != texts[p] and not dry:
            with open(p, "w", encoding="utf-8") as f:
                f.write(t)
    for p in ["README.md", *sorted(glob.glob("docs/*.md"))]:
        t = re.sub(r"`[^`\n]*`", lambda m: re.sub(NAME, lambda w: known(w[0], new, spelled), m[0]), read(p))
        if not dry:
            with open(p, "w", encoding="utf-8") as f:
                f.write(t)
    print("\n".join(said))
    print(f"{len(new)} names")


if __name__ == "__main__":
    main()
