#!/usr/bin/env python3
"""Spells the repository's own definitions, lemmas and record fields in snake case.

usage: python3 tools/respell.py [CRATES_FOLDER]

Run once, after port.py, at the top of the repository. It goes over specs/, proofs/, the ghost text of src/ and the
must-fail edits. Functions of src/, exported names, strings, inputs and outputs keep their names, and so do types and
modules, which begin with a capital letter, and the names that Rattle makes. It prints each name that falls together with
another one, and renames none of these.
"""
import collections
import os
import re
import sys

NAME = r"[^\W\d][\w'-]*"
DEF = re.compile(r"^(\s*)((?:(?:abbrev|unfoldable|pub)\s+)*)(" + NAME + r")((?:\s+" + NAME + r")*)\s*:(?=\s|$)")
# lemmas that port.py spelled as a definition beside them is spelled now
LEMMAS = {n: n + "_lem" for n in ("by_row", "goes_before", "key_in", "same_key", "zero_in", "too_many")}
# functions of src/ that stand in an edit
FUNCTIONS = {"score_of"}


def files(top):
    for folder, dirs, names in os.walk(top):
        dirs[:] = sorted(d for d in dirs if d != "out")
        for n in sorted(names):
            if n.endswith((".rt", ".antt", ".edit")):
                yield os.path.join(folder, n)


def snake(name):
    s = re.sub(r"([a-z0-9])([A-Z])", r"\1-\2", name).lower()
    return s.replace("-", "_")


def is_old(name):
    return name[0].islower() and ("-" in name or re.search(r"[a-z0-9][A-Z]", name) is not None)


def shared_antt(path):
    """A file of definitions or of lemmas, and not a proof of one function."""
    return path.endswith(".antt") and os.path.basename(path) != "Proof.antt"


def collect(top):
    names, fields = set(), set()
    for path in files(top):
        if not shared_antt(path):
            continue
        in_record = False
        for line in open(path, encoding="utf-8"):
            if re.match(r"^\s*(abbrev |pub )*(record|data) ", line):
                in_record = True
                m = re.match(r"^\s*constructor\s+(\S+)", line)
            elif line.strip() and not line.startswith(" "):
                in_record = False
            m = DEF.match(line)
            if not m or line.strip().startswith("--"):
                continue
            for n in [m.group(3)] + m.group(4).split():
                if is_old(n):
                    names.add(n)
                    if in_record and m.group(1):
                        fields.add(n)
    return names, fields


def imported(top, crates):
    """The names that a file of the repository brings in from a library."""
    found = set()
    for path in files(top):
        for line in open(path, encoding="utf-8"):
            m = re.match(r"\s*(?:ghost )?use ([^{]*)\.\{(.*)\}", line)
            if m and not (m.group(1).startswith("Rattle.") and m.group(1).split(".")[1] in crates):
                found.update(x.strip() for x in m.group(2).split(","))
    return found


TOKEN = re.compile(r"(?<![\w'-])" + NAME)


def turn_code(text, new, fields, aliases, lemmas):
    def one(m):
        n = m.group(0)
        if n in lemmas and not text[: m.start()].endswith(".") and not text[m.end():].startswith("."):
            return lemmas[n]
        if n not in new:
            return n
        before = text[: m.start()]
        if before.endswith("."):
            head = re.search(r"([\w'-]+)\.$", before)
            owner = head.group(1) if head else ""
            if n not in fields and owner not in aliases:
                return n
        return new[n]
    return TOKEN.sub(one, text)


def turn_comment(text, new):
    def quoted(m):
        return "`" + TOKEN.sub(lambda k: new.get(k.group(0), k.group(0)), m.group(1)) + "`"
    text = re.sub(r"`([^`]*)`", quoted, text)
    camel = {k: v for k, v in new.items() if "-" not in k}
    return TOKEN.sub(lambda k: camel.get(k.group(0), k.group(0)), text)


def turn(path, text, new, fields):
    mark = "--" if path.endswith(".antt") else "//"
    lemmas = LEMMAS if path.endswith(".antt") else {}
    aliases = set(re.findall(r"\bas ([\w'-]+)", text)) - {"goal", "tie"}
    out = []
    for line in text.split("\n"):
        at = re.search(r"(?:^|\s)" + re.escape(mark) + r"(?:\s|$)", line)
        if at and '"' not in line[: at.start()]:
            out.append(turn_code(line[: at.start()], new, fields, aliases, lemmas) + turn_comment(line[at.start():], new))
        elif '"' in line and path.endswith(".rt"):
            parts = re.split(r'("(?:[^"\\]|\\.)*")', line)
            out.append("".join(p if p.startswith('"') else turn_code(p, new, fields, aliases, lemmas) for p in parts))
        else:
            out.append(turn_code(line, new, fields, aliases, lemmas))
    return "\n".join(out)


def in_use(path, text, name):
    """The name stands in the file for something that the clauses or proofs there could take for it: a parameter, a
    variable, a definition, an import; not a part of a path, nor a function of src/ where it is declared, called or
    brought in."""
    for line in text.split("\n"):
        code = re.sub(r"(?:^|\s)(--|//)(\s.*|$)", "", line)
        if path.endswith(".rt"):
            code = re.sub(r"\b(fn|mod|pub use|use) [^;{]*", lambda m: re.sub(re.escape(name) + r"(?=\(|;|,|\}|$)", "", m.group(0)), code)
            code = re.sub(r"\bfn " + re.escape(name) + r"\b", "", code)
            code = re.sub(r"\b" + re.escape(name) + r"\(", "(", code)
            if re.match(r"\s*(pub )?use ", code):
                continue
        for m in re.finditer(r"(?<![\w'-])" + re.escape(name) + r"(?![\w'-])", code):
            before, after = code[: m.start()], code[m.end():]
            if before.endswith((".", "::")) or after.startswith((".", "::")):
                continue
            return True
    return False


def main():
    top = sys.argv[1] if len(sys.argv) > 1 else "crates"
    names, fields = collect(top)
    library = imported(top, set(os.listdir(top)))
    kept = sorted(names & library)
    names -= set(kept)
    if kept:
        print("also in the library, kept:", ", ".join(kept))
    by_new = collections.defaultdict(set)
    for n in names:
        by_new[snake(n)].add(n)
    texts = {p: open(p, encoding="utf-8").read() for p in files(top)}
    tokens = {p: set(TOKEN.findall(t)) for p, t in texts.items()}
    every = set().union(*tokens.values())
    new = {}
    for s, olds in sorted(by_new.items()):
        if len(olds) == 2 and s + "_lem" not in every:
            # a definition and a lemma on it
            word, lemma = sorted(olds, key=lambda n: "-" in n)
            new[word], new[lemma] = s, s + "_lem"
            continue
        clash = [p for p, t in texts.items() if olds & tokens[p] and in_use(p, t, s)]
        if len(olds) > 1:
            print("fall together:", s, "<-", ", ".join(sorted(olds)))
        elif clash and "-" in next(iter(olds)) and s + "_lem" not in every:
            new[next(iter(olds))] = s + "_lem"
        elif clash and s not in LEMMAS and s not in FUNCTIONS:
            print("in use:", s, "<-", *olds, *clash[:4])
        else:
            new[next(iter(olds))] = s
    # Rattle makes a module specs.contracts, so the file of a crate's records of promises has another name
    for folder in sorted(os.listdir(top)):
        old = os.path.join(top, folder, "specs", "Contracts.antt")
        if os.path.exists(old):
            os.rename(old, os.path.join(top, folder, "specs", "Promises.antt"))
    texts = {p: re.sub(r"(\bspecs\.|\bpub mod )Contracts\b", r"\1Promises", open(p, encoding="utf-8").read()) for p in files(top)}
    print(len(new), "names,", len(names) - len(new), "left")
    for p, t in texts.items():
        open(p, "w", encoding="utf-8").write(turn(p, t, new, fields))


main()
