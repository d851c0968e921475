#!/usr/bin/env python3
"""Counts the places of docs/DESIGN-PASS.md in crates/*/src (and, for point 8, in crates/*/proofs).

    python3 tools/design_places.py [-v]

Run at the top of a checkout. Test programs (crates/test_*) are counted for points 3 and 8 alone. With -v each place has a line.
"""
import collections
import glob
import re
import sys

LOUD = "-v" in sys.argv


def sources(tests):
    for path in sorted(glob.glob("crates/*/src/**/*.rt", recursive=True)):
        if tests or not path.split("/")[1].startswith("test_"):
            with open(path, encoding="utf-8") as file:
                yield path[len("crates/"):], re.sub(r"//[^\n]*", lambda m: " " * len(m.group()), file.read())


def functions(tests=False):
    """Yields path, name, parameters, what stands between them and the body, and the body."""
    for path, text in sources(tests):
        for match in re.finditer(r"\bfn (\w+)(?:<[^>]*>)?\(", text):
            at, deep = match.end(), 1
            while deep:
                deep += {"(": 1, ")": -1}.get(text[at], 0)
                at += 1
            body = re.search(r"(?:^|[ }])\{\n", text[at:], re.M)
            start = at + body.end() - 2 if body else at
            end, deep = start + 1, 1
            while deep and end < len(text):
                deep += {"{": 1, "}": -1}.get(text[end], 0)
                end += 1
            yield path, match.group(1), text[match.end() : at - 1], text[at:start], text[start:end]


def tell(point, what, places):
    places = list(places)
    print(f"{point} {len(places):4} {what}")
    if LOUD:
        for place in places:
            print("        ", place)


def enums():
    for path, text in sources(False):
        for match in re.finditer(r"enum (\w+) \{(.*?)\n\}", text, re.S):
            if re.search(r"\b(Refused\(u32\)|None|Nothing|Failed|Outside),", match.group(2)) and match.group(1) != "Grade":
                yield f"{path}: {match.group(1)}"


def fields():
    for path, text in sources(False):
        for match in re.finditer(r"struct (\w+)[^{;]*\{(.*?)\n\}", text, re.S):
            for field in re.findall(r"(\w+): (?:Verdict|bool|Result<\(\), Refusal>)", match.group(2)):
                yield f"{path}: {match.group(1)}.{field}"
            if re.search(r"\bnumber: u32", match.group(2)):
                yield f"{path}: {match.group(1)}.number"


def refusals():
    for path, name, params, head, body in functions():
        if re.match(r"\s*-> u32", head) and not name.startswith("tablet_") and re.search(r"refus|first$|number", name):
            yield f"{path}: {name}"


def numbers():
    for path, text in sources(False):
        for match in re.finditer(r"\b(Refused\([0-9]+\)|return [0-9]+;|refusal\([0-9]+\)|unfitted\([0-9]+\))", text):
            yield f"{path}: {match.group(1)}"


def kinds():
    for path, name, params, head, body in functions():
        for match in re.findall(r"\b(corner|grade|number|kind): (?:u32|usize|u64)\b", params):
            yield f"{path}: {name}({match})"
        if re.search(r"=> 0,", body) and re.search(r"=> 1,", body):
            yield f"{path}: {name} (a kind as a number)"


def shape(body):
    tokens = re.findall(r"[A-Za-z_]\w*|[0-9][\w.]*|\S", body)
    kept = {"if", "else", "while", "for", "in", "return", "let", "mut", "match", "as", "fn", "self"}
    return " ".join("n" if t[0].isdigit() else t if t in kept or not (t[0].isalpha() or t[0] == "_") else "x" for t in tokens), len(tokens)


def twins():
    found = collections.defaultdict(list)
    for path, name, params, head, body in functions():
        if path.split("/")[0] == "tablet_c":
            continue
        text, size = shape(body)
        if size >= 24:
            found[text].append(f"{path}: {name}")
    for names in found.values():
        if len(names) > 1:
            yield " = ".join(names)


def counted(tests):
    for path, text in sources(True):
        if path.startswith("test_") == tests:
            for match in re.finditer(r"\bwhile [^{]*", text):
                yield f"{path}: {match.group().strip()}"


def indexed():
    for path, name, params, head, body in functions():
        for match in re.finditer(r"\bfor (\w+) in [^{]*\.\.[^{]*\{\s*\w+\[\1\] = \w+\[?\1?\]?;?\s*\}", body):
            yield f"{path}: {name}"


def by_hand():
    for path, name, params, head, body in functions():
        for match in re.finditer(r"(\w+)\[([^\]]*)\] = (\w+)\[([^\]]*)\];", body):
            yield f"{path}: {name} ({match.group()})"
        for match in re.finditer(r"if \w+\[[^\]]*\] != \w+\[[^\]]*\]", body):
            yield f"{path}: {name} ({match.group()})"


LOOK = {"luma", "integral", "mask", "seen", "waiting", "patches", "candidates", "blob_index"}


def together(kind):
    for path, name, params, head, body in functions():
        names = set(re.findall(r"(\w+):", params))
        picture = {"w", "h"} <= names and names & {"capture", "bytes", "mask"}
        if path.split("/")[0] != "tablet_c" and (LOOK <= names if kind == "look" else picture):
            yield f"{path}: {name}"


def facts():
    for path, name, params, head, body in functions():
        asked = head.split("ensures")[0]
        for fact in ("FrameHeld", "CaptureHeld", "SidesHeld", "PlanesHeld", "BlobHeld", "Stacked", "Sized", "Sound", "≤ 4096"):
            if fact in asked:
                yield f"{path}: {name} ({fact})"


def lengths():
    for path, name, params, head, body in functions():
        if re.search(r"&(?:mut )?\[\w+\],\s*(n|k|count): usize", params):
            yield f"{path}: {name}"


def steps():
    for path, name, params, head, body in functions():
        if re.search(r"\bif (number|n) == 0 \{", body) or re.search(r"match (corner|number|kind) \{", body):
            yield f"{path}: {name}"


def main():
    tell("1", "enums of the shape of Option or Result", enums())
    tell("1", "fields that say whether the value beside them counts", fields())
    tell("1", "functions that answer a refusal as a number, 0 for none", refusals())
    tell("1", "refusals written as numbers", numbers())
    tell("1", "kinds handed over or told as numbers", kinds())
    tell("2", "groups of functions whose bodies differ only in names and numbers", twins())
    tell("3", "while loops, programs and libraries", counted(False))
    tell("3", "while loops, test programs", counted(True))
    tell("4", "elements copied or compared one by one by hand", by_hand())
    tell("5", "functions that are handed a picture as bytes, w and h", together("picture"))
    tell("5", "functions that are handed the eight areas of a look one by one", together("look"))
    tell("5", "facts asked again, each in three contracts or more", facts())
    tell("6", "slices handed over with a count beside", lengths())
    tell("7", "steps chosen by a number", steps())
    answers = glob.glob("crates/*/proofs/**/Answers.antt", recursive=True)
    print(f"8 {len(answers):4} files of answers, {sum(len(open(it, encoding='utf-8').readlines()) for it in answers)} lines")


main()
