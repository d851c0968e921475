#!/usr/bin/env python3
"""Spells the repository's names in its pages as its definitions are spelled now.

usage: python3 tools/respell_pages.py [PAGE..]

What a definition, lemma, field or constructor was called before the port and is called after it is read off the two
commits, file by file, from the heads that stand in the same place. Names between backticks in README.md, docs/ and host/
(or in the pages that are given) are turned by it, and paths of specs/Contracts, which is specs/Promises now. It prints the
names between backticks that look like the old spelling and that it doesn't know, and those that stand for two.
"""
import collections
import difflib
import re
import subprocess
import sys

OLD, NEW = "765e977", "5b65b8b"
NAME = r"[^\W\d][\w'′-]*"
HEAD = re.compile(r"^(\s*)((?:(?:abbrev|unfoldable|pub|instance)\s+)*)(?:(?:record|data|constructor)\s+)?("
                  + NAME + r"(?:\s+" + NAME + r")*)\s*(?::(?=\s|$)|(?=[({]|where\b|$))")
TOKEN = re.compile(r"(?<![\w'′-])" + NAME)
# not ours: Cargo's, the command line's, what the toolchain prints
OTHERS = re.compile(r"^(auto-orient|must-fail|libraries-built|logic-built|rattle-kit-.*|x86_64-.*)$")
# a page's names of the crate's records of promises
CONTRACTS = re.compile(r"(\b[a-z_]+/(?:specs/)?)Contracts\b")


def git(*words):
    return subprocess.run(["git", *words], check=True, capture_output=True, text=True, encoding="utf-8").stdout


def heads(text):
    found = []
    for line in text.split("\n"):
        code = re.sub(r"(?:^|\s)--(\s.*|$)", "", line)
        m = HEAD.match(code)
        if m and not re.match(r"\s*(use|pub mod|mod)\b", code):
            found += m.group(3).split()
    return found


def plain(name):
    return re.sub(r"([a-z0-9])([A-Z])", r"\1_\2", name).lower().replace("-", "_").replace("′", "'").removesuffix("_lem")


def mapping():
    """Returns for each old name the new ones that stand in its place, and how often."""
    found = collections.defaultdict(collections.Counter)
    now = set(git("ls-tree", "-r", "--name-only", NEW, "crates").splitlines())
    for path in git("ls-tree", "-r", "--name-only", OLD, "crates").splitlines():
        other = path if path in now else path.replace("/specs/Contracts.antt", "/specs/Promises.antt")
        if other not in now or not path.endswith(".antt") or path.endswith("/Proof.antt"):
            continue
        old, new = heads(git("show", f"{OLD}:{path}")), heads(git("show", f"{NEW}:{other}"))
        matcher = difflib.SequenceMatcher(None, [plain(n) for n in old], [plain(n) for n in new], autojunk=False)
        for tag, a, b, c, d in matcher.get_opcodes():
            if b - a == d - c and tag in ("equal", "replace"):
                for one, other in zip(old[a:b], new[c:d]):
                    found[one][other] += 1
    return found


def is_old(name):
    return "′" in name or (name[0].islower() and ("-" in name or re.search(r"[a-z0-9][A-Z]", name) is not None))


def turn(text, new, unknown):
    def name(m):
        n = m.group(0)
        if n in new:
            return new[n]
        if is_old(n) and not OTHERS.match(n):
            unknown[n] += 1
        return n

    def quoted(m):
        return "`" + TOKEN.sub(name, m.group(1)) + "`"

    return re.sub(r"`([^`\n]*(?:\n[^`\n]*)?)`", quoted, CONTRACTS.sub(r"\1Promises", text))


def main():
    found = mapping()
    new = {}
    for one, others in sorted(found.items()):
        if is_old(one):
            (most, times), *rest = others.most_common()
            new[one] = most
            if rest:
                print("stands for several:", one, "->", ", ".join(f"{n} ({k})" for n, k in others.most_common()))
    print(len(new), "names")
    pages = sys.argv[1:] or [p for p in git("ls-files", "README.md", "docs", "host").splitlines() if p != "docs/PORT.md"]
    unknown = collections.Counter()
    for page in pages:
        with open(page, encoding="utf-8") as it:
            text = it.read()
        turned = turn(text, new, unknown)
        if turned != text:
            with open(page, "w", encoding="utf-8") as it:
                it.write(turned)
            print("turned", page)
    for n, k in sorted(unknown.items()):
        print("not known:", n, k)


main()
