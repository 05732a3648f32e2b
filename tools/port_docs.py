#!/usr/bin/env python3
"""Spells the names of definitions, theorems and fields in this repository's pages as today's crates spell them.

usage: python3 tools/port_docs.py [--table FILE] [--check] [--lost] [PAGE..]     at the top of the repository

The table pairs, file by file and in their order, what specs/ and proofs/ declare at the commit before the move (232c910) with what they declare right behind
it (5f479ee, by /opt/rattle/port/port.py and tools/port_names.py). It turns the code spans of the pages, and in the tests the comments. A projection is written tight: `Valid .listed` becomes
`Valid.listed`. --table writes each old name, a tab, and the new one. --check changes no page. --lost lists the names in code spans that no crate has today.
"""

import difflib
import glob
import os
import re
import subprocess
import sys

BEFORE, BEHIND = "232c910", "5f479ee"
PAGES = "README.md docs/THEOREMS.md docs/TRUST.md docs/DECISIONS.md docs/LAYOUT.md docs/REFUSALS.md".split() + sorted(glob.glob("examples/*/README.md"))
WORD = re.compile(r'[^\s(){}.;,@"«»`\[\]/:]+')
DECLARED = re.compile(r"^ *(?:(?:unfoldable|abbrev|pub|pattern|opaque) )*([^\s(){}.;,@\"«»:|]+)(?: \{[^{}\n]*\})* :(?= |$)")
BLOCK = re.compile(r"^ *(?:(?:pub|abbrev|unfoldable) )*(?:record|data)(?: pub)? ([^\s:]+)")
SPAN = re.compile(r"`[^`\n]*`")


def git(*words):
    return subprocess.run(["git", *words], check=True, capture_output=True, text=True).stdout


def declared(text):
    """The names that a file declares, fields and constructors among them, in its order."""
    found = []
    for line in text.split("\n"):
        it = BLOCK.match(line) or DECLARED.match(line)
        if it and not re.match(r" *(--|use |ghost )", line):
            found.append(it[1])
    return found


def files_at(commit):
    listed = git("ls-tree", "-r", "--name-only", commit, "crates").split("\n")
    return [it for it in listed if re.match(r"crates/\w+/(specs|proofs)/.*\.antt$", it) and not it.endswith(("/Proof.antt", "/Lib.antt"))]


def snake(name):
    return re.sub(r"[A-Z]", lambda it: "_" + it[0].lower(), name.replace("-", "_"))


def table_of():
    table, odd = {}, []
    behind = set(files_at(BEHIND))
    for path in files_at(BEFORE):
        if path not in behind:
            odd.append(f"{path}: is no more there")
            continue
        old, new = declared(git("show", f"{BEFORE}:{path}")), declared(git("show", f"{BEHIND}:{path}"))
        if len(old) != len(new):
            odd.append(f"{path}: {len(old)} and {len(new)} declarations")
            # Those that are spelled alike tell how the others stand.
            pairs, alike = [], [[snake(it) for it in names] for names in (old, new)]
            for kind, a, b, c, d in difflib.SequenceMatcher(None, *alike, autojunk=False).get_opcodes():
                if kind == "equal" or b - a == d - c:
                    pairs += zip(old[a:b], new[c:d])
        else:
            pairs = zip(old, new)
        for one, other in pairs:
            table.setdefault(one, {}).setdefault(other, []).append(path)
    return table, odd


def turned(span, table):
    def one(it):
        return table.get(it[0], it[0])

    if "rt " in span or span.startswith("`bash ") or "/" in span and not re.search(r"\s", span):
        return span
    span = WORD.sub(one, span)
    return re.sub(r"(?<=[\w)']) \.(?=[a-z_])", ".", span)


def main(argv):
    found, odd = table_of()
    for it in odd:
        print(f"odd: {it}")
    table = {}
    for old, news in sorted(found.items()):
        if len(news) > 1:
            print(f"several: {old}: {', '.join(f'{new} in {paths[0]}' + (f' and {len(paths) - 1} more' if len(paths) > 1 else '') for new, paths in news.items())}")
        best = max(news, key=lambda it: len(news[it]))
        if best != old:
            table[old] = best
    if "--table" in argv:
        with open(argv[argv.index("--table") + 1], "w", encoding="utf-8") as it:
            it.writelines(f"{old}\t{new}\n" for old, new in sorted(table.items()))
    pages = [it for it in argv if it.endswith((".md", ".sh", ".hpp", ".cpp", ".h", ".c", ".rs"))] or PAGES
    for page in pages:
        with open(page, encoding="utf-8") as it:
            text = it.read()
        fenced, out = False, []
        for line in text.split("\n"):
            fenced = fenced != line.startswith("```") if page.endswith(".md") else False
            is_comment = page.endswith(".md") or re.match(r"\s*(#|//|/?\*)", line)
            out.append(line if fenced or not is_comment else SPAN.sub(lambda it: turned(it[0], table), line))
        new = "\n".join(out)
        if new != text:
            print(f"{page}: {sum(a != b for a, b in zip(text.split(chr(10)), out))} lines")
            if "--check" not in argv:
                with open(page, "w", encoding="utf-8") as it:
                    it.write(new)
    if "--lost" in argv:
        known = set()
        for at, folders, names in os.walk("crates"):
            folders[:] = [it for it in folders if it not in ("out", "must-fail")]
            for name in names:
                if name.endswith((".rt", ".antt")):
                    with open(f"{at}/{name}", encoding="utf-8") as it:
                        known |= set(WORD.findall(it.read()))
        for page in pages:
            with open(page, encoding="utf-8") as it:
                for number, line in enumerate(it, 1):
                    for span in SPAN.findall(line):
                        for word in WORD.findall(span.strip("`")):
                            if re.search(r"\w[-_]\w|[a-z][A-Z]", word) and word not in known:
                                print(f"lost: {page}:{number}: {word} in {span}")


if __name__ == "__main__":
    main(sys.argv[1:])
