#!/usr/bin/env python3
"""Spells the definitions, lemmas, fields and constructors that this repository declares as today's Rattle spells them.

usage: python3 tools/port_names.py [--check] [--table FILE]      at the top of the repository, once, right after /opt/rattle/port/port.py

A value's name is in snake case: `bandsOf` becomes `bands_of`. A dash stays where it joins the names of two functions on lists or
numbers, of base or of the library: `times-append` stays, `all-at` becomes `all_at`. A field and a constructor have no dash. A type keeps its name; a
function into `Type` gets an upper camel one. A lemma whose new name is a definition's gets `_lem`. It turns the code of .antt files,
the clauses and ghost items of .rt files, and code spans in the comments of both. --table writes each old name, a tab, and the new one.
--check changes no file.
"""

import os
import re
import subprocess
import sys

WORD = re.compile(r'[^\s(){}.;,@"«»`\[\]]+')
DECLARED = re.compile(r"^( *)((?:unfoldable |abbrev |pub |pattern )*)([^\s(){}.;,@\"«»:|]+)(?: \{[^{}\n]*\})* :(?= |$)")
BLOCK = re.compile(r"^( *)(?:(?:pub|abbrev|unfoldable) )*(record|data)(?: pub)? (\S+)")
USE = re.compile(r"^(?:(?:pub|unfoldable|ghost) )*use (\S+?)(?:\.\{([^}]*)\})?(?: as (\S+?))?;?$")
# A generated proof's own answers, which go with the function's code.
OF_A_FUNCTION = re.compile(r"/proofs/.*/(Proof|Answers|Invariants)\.antt$")
LIBRARY_WORDS = "length take drop set map get_or append sum cond eqb leb ltb suc zero mul div mod true false".split()


def files(top):
    for folder, folders, names in os.walk(os.path.join(top, "crates")):
        folders[:] = sorted(it for it in folders if it not in ("out", "must-fail"))
        for it in sorted(names):
            if it.endswith((".antt", ".rt")):
                yield os.path.join(folder, it)


def text_of(path):
    with open(path, encoding="utf-8", newline="") as it:
        return it.read()


def is_own(module):
    return re.match(r"Rattle\.(?!std\b|core\b|io\b|os\b|libc\b)", module) is not None


class Names:
    def __init__(self, paths):
        self.types, self.fields, self.values, self.defined, self.library, self.on_lists = set(), set(), {}, set(), set(LIBRARY_WORDS), set()
        self.tokens = []
        for path in paths:
            if path.endswith(".antt"):
                self.read(path)
                self.tokens.append(set(WORD.findall(re.sub(r"--.*", "", text_of(path)))))
            for line in text_of(path).split("\n"):
                it = USE.match(line)
                if it and not is_own(it[1]):
                    for one in (it[2] or it[1].split(".")[-1]).split(","):
                        self.library.add(one.split(" as ")[-1].strip())

    def read(self, path):
        inside, of_a_function = None, OF_A_FUNCTION.search(path)
        lines = text_of(path).split("\n")
        for at, line in enumerate(lines):
            if inside is not None and line.strip() and len(line) - len(line.lstrip()) <= inside:
                inside = None
            block = BLOCK.match(line)
            if block:
                inside = len(block[1])
                self.types.add(block[3])
                continue
            it = DECLARED.match(line)
            if not it:
                continue
            name = it[3]
            if of_a_function and inside is None:
                continue
            signature, more = line[it.end():], at + 1
            while more < len(lines) and len(lines[more]) - len(lines[more].lstrip()) > len(it[1]) and lines[more].strip():
                signature, more = signature + " " + lines[more].strip(), more + 1
            if re.search(r"(^|→ )\s*Type \S+\s*$", signature):
                self.types.add(name)
            elif inside is not None:
                self.fields.add(name)
            if inside is not None:
                continue
            is_top = "pub" in it[2] or not it[1] or (len(it[1]) == 2 and "where" not in lines[at - 1])
            if is_top or re.search(r"[a-z0-9][A-Z]", name):
                self.values.setdefault(name, set()).add(path)
                if "unfoldable" in it[2] or "abbrev" in it[2]:
                    self.defined.add(name)
                    if path.endswith("crates/base/specs/Lists.antt"):
                        self.on_lists.add(name)


def snake(name):
    return re.sub(r"(?<=[a-z0-9_])[A-Z]+", lambda it: "_" + it[0].lower(), name)


def small(name):
    return name if not name[:1].isupper() else name[0].lower() + name[1:]


def camel(name):
    return "".join(it[:1].upper() + it[1:] for it in re.split(r"[-_]", name))


def spelled(name, names, words):
    """The name in snake case, with a dash between two words that are names."""
    if name in names.types:
        return name if name[0].isupper() else camel(name)
    parts = [it if it in names.types else small(snake(re.sub(r"^get_?[dD]$", "get_or", it))) for it in name.split("-")]
    if name in names.fields or name in names.defined:
        return "_".join(small(it) for it in parts)
    joined, at, known = [], 0, []
    while at < len(parts):
        size = next((n for n in range(len(parts) - at, 0, -1) if "_".join(parts[at : at + n]) in words), 1)
        one = "_".join(parts[at : at + size])
        joined.append(one)
        known.append(one in words)
        at += size
    new = joined[0]
    for k in range(1, len(joined)):
        new += ("-" if known[k - 1] and known[k] else "_") + joined[k]
    return new


def table_of(names):
    words = {snake(it) for it in names.on_lists} | set(LIBRARY_WORDS) | {it for it in names.types if it[:1].isupper()}
    every = set(names.values) | names.fields
    table = {it: spelled(it, names, words) for it in every if re.search(r"[A-Z-]", it.strip("-"))}
    table = {old: new for old, new in table.items() if old != new and re.match(r"[^\W\d]", old)}
    # A definition comes before a lemma where two would have one name, also before a lemma that has it already.
    wanted = {new for old, new in table.items() if old in names.defined}
    for it in every - set(table):
        if it in wanted and it not in names.defined and it not in names.fields:
            table[it] = it
    taken = {it for it in every if it not in table and (it in names.values or it in names.types)}
    for old in sorted(table, key=lambda it: (it not in names.defined and it not in names.fields, it)):
        new = table[old]
        if old in names.fields and old not in names.values:
            continue
        if old in names.defined and not any(table.get(it, it) == new for it in names.defined if it != old):
            taken.add(new)
            continue
        if new in taken or (new in names.library and new not in LIBRARY_WORDS):
            new += "_lem"
        while new in taken:
            new += "'"
        taken.add(new)
        table[old] = new
    # A field meets a definition where one file has both.
    by_new = {}
    for old, new in list(table.items()) + [(it, it) for it in names.fields if it not in table]:
        by_new.setdefault(new, set()).add(old)
    for new, olds in by_new.items():
        for old in sorted(olds & names.fields):
            if any(other in names.defined and other != old and any({old, other} <= it for it in names.tokens) for other in olds):
                table[old] = new + "_lem"
    return {old: new for old, new in table.items() if old != new}


def turned(path, text, table, names):
    lines, out = text.split("\n"), []
    imported, aliases = set(), set()
    for line in lines:
        it = USE.match(line)
        if it and not is_own(it[1]):
            imported |= {one.split(" as ")[0].strip() for one in (it[2] or it[1].split(".")[-1]).split(",")}
        elif it and it[3] and not re.search(r"\.(Tie|Statement|Goals|Given|Lts|Code)$", it[1]):
            aliases.add(it[3])
    is_rust = path.endswith(".rt")

    def code(piece):
        def one(it):
            word = it[0]
            new = table.get(word)
            if not new or word in imported:
                return word
            before = piece[: it.start()]
            if before.endswith("."):
                head = re.search(r'([^\s(){}.;,@"«»`]+)\.$', before)
                through = head and head[1] in aliases
                if word not in names.fields and not through and not re.search(r"\buse Rattle\.\S*$", before):
                    return word
            return new

        return WORD.sub(one, piece)

    def words_of_rust(piece):
        # Rust's own names have no dash and no hump within a small name.
        return code(piece)

    for line in lines:
        mark = "//" if is_rust else "--"
        cut = re.search(r"(?:^|\s)" + mark + r"(?:\s|$|/)", line)
        head, tail = (line[: cut.start()], line[cut.start():]) if cut else (line, "")
        parts = re.split(r'("(?:[^"\\]|\\.)*")', head)
        head = "".join(it if n % 2 else (words_of_rust(it) if is_rust else code(it)) for n, it in enumerate(parts))
        tail = re.sub(r"`[^`]*`", lambda it: WORD.sub(lambda w: table.get(w[0], w[0]) if w[0] not in imported else w[0], it[0]), tail)
        tail = re.sub(r"(?<![\w`'-])[a-z][a-z0-9]*[A-Z]\w*", lambda w: table.get(w[0], w[0]), tail)
        out.append(head + tail)
    return "\n".join(out)


def meetings(path, text, table, names):
    """The names of a file that would fall together."""
    tokens = set(WORD.findall(re.sub(r'"(?:[^"\\]|\\.)*"|--.*|//.*', " ", text)))
    for old in sorted(tokens & set(table)):
        if table[old] in tokens and table.get(table[old], table[old]) == table[old]:
            yield old, table[old]


def main(argv):
    paths = list(files("."))
    names = Names(paths)
    table = table_of(names)
    if "--table" in argv:
        with open(argv[argv.index("--table") + 1], "w", encoding="utf-8") as it:
            it.writelines(f"{old}\t{new}\n" for old, new in sorted(table.items()))
    changed = 0
    for path in paths:
        text = text_of(path)
        for old, now in meetings(path, text, table, names):
            print(f"meets: {path}: {old} {now}")
        new = turned(path, text, table, names)
        if new != text:
            changed += 1
            if "--check" not in argv:
                with open(path, "w", encoding="utf-8", newline="") as it:
                    it.write(new)
    if "--check" not in argv:
        for crate in sorted(os.listdir("crates")):
            subprocess.run(["rt", "fmt"], cwd=os.path.join("crates", crate), check=True, stdout=subprocess.DEVNULL)
    print(f"port_names: {len(table)} names, {changed} files")


if __name__ == "__main__":
    main(sys.argv[1:])
