#!/usr/bin/env python3
"""Spells this repository's own words of antt in snake case, as today's library does: `shelfIn` and `held-means` become `shelf_in` and `held_means`.

usage: python3 tools/respell.py [--check]     once, at the top of a checkout that port.py has turned

A word turns if a text of ours declares it: a definition, a lemma, a field, a constructor, a bound name. Types and modules keep their
capitals; names of functions of src/, exported names, strings, inputs and outputs stay, and so does what a file imports from the library, and
what Rattle makes (behind `tie.`, `goal.`, and the steps of a context). In comments and pages a word turns inside a code span alone.
--check writes nothing, and says which names would fall together.
"""
import collections
import glob
import os
import re
import sys

WORD = r"[^\s(){}\[\].;,@\"«»`]+"
OURS = {line.split(":")[0].split()[0] for line in open("crates.txt") if line.strip() and not line.startswith("#")}
# Names that two spellings would share: what each is called instead, and where.
APART_FILE = "tools/respell.tsv"


def snake(name):
    words = re.sub(r"(?<=[a-z0-9′'])([A-Z])(?=[A-Z]*[a-z]|[A-Z]*$|[-_0-9])", lambda m: "_" + m[1].lower(), name)
    words = re.sub(r"[A-Z]", lambda m: m[0].lower(), words)
    return words.replace("-", "_")


def turns(name):
    return bool(re.match(r"^[a-z][A-Za-z0-9_'′₀₁₂₃₄-]*$", name)) and (bool(re.search(r"[A-Za-z0-9]-[A-Za-z0-9]", name)) or bool(re.search(r"[A-Z]", name)))


def texts():
    return sorted(glob.glob("crates/*/specs/**/*.antt", recursive=True) + glob.glob("crates/*/proofs/**/*.antt", recursive=True))


def sources():
    return sorted(glob.glob("crates/*/src/**/*.rt", recursive=True))


def code_of(text):
    return re.sub(r"(?<![^\s(){}.;,@\"«»])--[^\n]*", "", text)


def imports(text):
    """Each imported word of the file, with whether it is ours, and the name it has here."""
    for m in re.finditer(r"(?m)^\s*(?:ghost )?(?:pub )?use ([^\s{;]+?)\.?(?:\{([^}]*)\})?(?: as (\S+?))?;?\s*$", text):
        path, items = m[1], m[2]
        ours = path.startswith("Rattle.") and path.split(".")[1] in OURS
        for item in (items or "").split(","):
            words = item.split()
            if words:
                yield ours, words[0], words[-1], path


def declared(turns=turns):
    names = collections.Counter()
    for path in texts():
        text = code_of(open(path, encoding="utf-8").read())
        text = re.sub(rf"(?m)^(?:abbrev |pub )*{WORD} : tie\.", "", text)
        for m in re.finditer(rf"(?m)(?:^|[({{;,]|\blet\b|\bλ\b|\|)\s*((?:(?:pub|abbrev|unfoldable|opaque|private|mutual|instance|data|record|constructor|where|infix[lr]? \d+)\s+)*)((?:{WORD}\s+)*?{WORD})\s+:(?=\s|$)", text):
            for w in m[2].split():
                if turns(w):
                    names[w] += 1
        # bound without a type: let x = , λ x y. , (x, y) patterns of clauses
        for m in re.finditer(rf"\b(?:let|in let)\s+({WORD})\s+=", text):
            if turns(m[1]):
                names[m[1]] += 1
        for m in re.finditer(rf"λ\s+((?:{WORD}\s*)+)\.", text):
            for w in m[1].split():
                if turns(w):
                    names[w] += 1
        # the left side of an equation
        for m in re.finditer(r"(?m)^\s*([^\s=:|][^\n=:|]*?) =(?:\s|$)", text):
            for w in re.findall(rf"(?<![^\s(){{}},]){WORD}", m[1]):
                if turns(w) and not re.search(rf"(?m)^use [^\n]*[{{ ,]{re.escape(w)}[,}} ]", text):
                    names[w] += 1
        # a module under another name
        for m in re.finditer(rf"(?m)^use [^\s{{]+ as ({WORD})$", text):
            if turns(m[1]):
                names[m[1]] += 1
        # constructors of a data type
        for m in re.finditer(rf"(?m)^\s+({WORD}(?:\s+{WORD})*)\s+:\s", text):
            for w in m[1].split():
                if turns(w):
                    names[w] += 1
        for ours, word, here, _ in imports(text):
            if ours and word != here and turns(here):
                names[here] += 1
    for path in sources():
        for ours, word, here, _ in imports(open(path, encoding="utf-8").read()):
            if ours:
                for w in (word, here):
                    if turns(w):
                        names[w] += 1
            elif word != here and turns(here):
                names[here] += 1
    return names


def foreign(text):
    return {here for ours, word, here, _ in imports(text) if not ours and word == here} | {word for ours, word, _, _ in imports(text) if not ours}


def answers(text):
    """What a walk by hand calls the parts that Rattle asks for: they keep the names that Rattle gives them."""
    return set(re.findall(rf"(?m)^(?:abbrev |pub )*({WORD}) : tie\.", text)) | set(re.findall(rf"\b(?:tie)\.({WORD})", text))


def respell(text, table, kept, span_only=False):
    def one(m):
        w = m[0]
        return table[w] if w in table and w not in kept else w

    def spans(t):
        return re.sub(r"`([^`\n]*)`", lambda m: "`" + re.sub(WORD, one, m[1]) + "`", t)

    if span_only:
        return spans(text)
    out = []
    for line in text.split("\n"):
        m = re.search(r"(?:(?<![^\s(){}.;,@\"«»])--|(?<![:\w])//)(?!-)", line)
        code, comment = (line[: m.start()], line[m.start() :]) if m else (line, "")
        parts = re.split(r"(\"(?:[^\"\\]|\\.)*\")", code)
        out.append("".join(p if i % 2 else re.sub(rf"(?<![^\s(){{}}\[\].;,@\"«»`]){WORD}", one, p) for i, p in enumerate(parts)) + spans(comment))
    return "\n".join(out)


def moved(check):
    """Rattle makes a module `specs.contracts` now: ours of that name in `running` is `EntryContracts`."""
    old, new = "crates/running/specs/Contracts.antt", "crates/running/specs/EntryContracts.antt"
    if check or not os.path.exists(old):
        return
    os.rename(old, new)
    for path in texts() + sources():
        text = open(path, encoding="utf-8").read()
        turned = text.replace("running.specs.Contracts", "running.specs.EntryContracts")
        if path == "crates/running/specs/Lib.antt":
            turned = re.sub(r"(?m)^pub mod Contracts$", "pub mod EntryContracts", turned)
        if turned != text:
            open(path, "w", encoding="utf-8").write(turned)


def main():
    check = "--check" in sys.argv
    moved(check)
    rows = [line.rstrip("\n").split("\t") for line in open(APART_FILE, encoding="utf-8") if not line.startswith("#")]
    apart = {row[0]: row[1] for row in rows if len(row) == 2}
    local = collections.defaultdict(dict)
    for row in rows:
        if len(row) == 3:
            for path in glob.glob(row[2], recursive=True):
                local[path][row[0]] = row[1]
    names = declared()
    table = {w: apart.get(w, snake(w)) for w in names} | apart
    plain = declared(lambda w: not turns(w))
    back = collections.defaultdict(set)
    for old, new in table.items():
        back[new].add(old)
    for new, olds in sorted(back.items()):
        if len(olds) > 1 or new in plain:
            # a name of the same spelling matters where both are seen in one file
            for path in texts() + sources():
                words = set(re.findall(WORD, code_of(open(path, encoding="utf-8").read()))) - set(local[path])
                met = [w for w in olds if w in words] + ([new] if new in words and new in plain else [])
                if len(met) > 1:
                    print(f"meet: {path}: {' '.join(met)} -> {new}")
    count = 0
    for path in texts() + sources() + sorted(glob.glob("docs/*.md")) + ["README.md"]:
        text = open(path, encoding="utf-8").read()
        kept = foreign(text) | answers(text) if not path.endswith(".md") else set()
        new = respell(text, table | local[path], kept, path.endswith(".md"))
        if new != text:
            count += 1
            if not check:
                open(path, "w", encoding="utf-8").write(new)
    print(f"{len(table)} words, {count} files")


main()
