#!/usr/bin/env python3
"""Prints the functions of proved libraries, or those that `rt check --start F --generated FOLDER` has written, in MIR: a line `function F`,
`calls F G` for each function that it names, `divides F` where it does.

usage: mir.py built [--with F=OPERATOR] RLIB..     the library's MIR, as a program that uses it is compiled of it
       mir.py written CRATE FOLDER RLIB..          the same as text, also of a function that no proof covers; the libraries are those below the crate

--with: the last operator of the function F is taken for this one. An operator that is not listed here counts as a division, those on floats and on vectors among them, and so
does a step that is not, where it stands at the top of a body; a call whose function is not named counts as one of a function that is not there. A generic
function calls the methods of what its caller hands in, which count as the caller's: every function of each impl that it hands in.
"""

import json
import os
import re
import sys

# The operators on two operands that do not divide, as both forms of MIR have them but for capitals, `_` and `bit_`.
HARMLESS = "add sub mul shl shr and or xor eq ne lt le withaddr offset ptreq ptrne ptrlt ptrle".split()
# What else a value is made by, and what a body has beside assignments.
VALUES = ("Opd", "Op1", "AddrOf", "Aggregate", "Repeat")
STEPS = ("Seq", "Skip", "Block", "Loop", "If", "Switch", "Exit", "Return", "Unreachable", "LendStatic")


def plain(operator):
    return re.sub(r"^bit", "", operator.lower().replace("_", ""))


def head(term):
    return term if isinstance(term, str) else next(iter(term))


def pairs_in(term):
    """Every tag with what stands under it, in the order of the text."""
    if isinstance(term, dict):
        for tag, below in term.items():
            yield tag, below
            yield from pairs_in(below)
    elif isinstance(term, list):
        for it in term:
            yield from pairs_in(it)


class Function:
    def __init__(self, name):
        self.name, self.calls, self.operators, self.divides = name, [], [], False

    def say(self):
        print("function", self.name)
        for it in self.calls:
            print("calls", self.name, it)
        if self.divides or any(it not in HARMLESS for it in self.operators):
            print("divides", self.name)


def built(name, body, methods):
    it = Function(name)
    for step in body:
        if head(step) not in (*STEPS, "Assign", "Call"):
            it.calls.append("by-" + head(step))
    for tag, below in pairs_in(body):
        if tag == "Op2":
            it.operators.append(plain(head(below[0])))
        elif tag == "Assign" and head(below[1]) not in (*VALUES, "Op2"):
            it.divides = True
        elif tag == "Call" and head(below[0]) == "Method" and head(below[0]["Method"][0]) == "Given":
            pass
        elif tag == "Call" and head(below[0]) != "Fn":
            it.calls.append("by-" + head(below[0]))
        elif tag == "Fn":
            it.calls.append(below[0])
            for handed in below[1]["dicts"]:
                it.calls += methods_of(handed, methods)
    return it


def methods_of(handed, methods):
    """The functions of an impl that a call hands in; what the caller was given itself counts as its caller's, and `Destruct++none` drops nothing."""
    if head(handed) == "Given":
        return []
    name = handed["Impl"][0] if head(handed) == "Impl" else ""
    if name.endswith("::Destruct++none"):
        return []
    return methods.get(name) or ["by-" + (name or head(handed))]


def written(name, text, below):
    it, of = Function(name), {}
    for found in re.finditer(r"(?m)^use Rattle\.(\w+)\.proofs\.(\S+)\.Symbol(?: as (\S+))?$", text):
        callee = "::".join([found[1], *found[2].split(".")])
        # A function that its crate exports from a module has the name there.
        exported = [one for one in below if one.startswith(found[1] + "::") and one.endswith("::" + found[2])]
        of[found[3] or "Symbol"] = exported[0] if callee not in below and len(exported) == 1 else callee
    it.operators = [plain(found) for found in re.findall(r"Syntax\.op2\s+\(?Syntax\.(\w+)", text)]
    it.divides = len(it.operators) != text.count("Syntax.op2") or "Syntax.select" in text
    for word, callee in re.findall(r"Syntax\.(call\w*|foreign\w*)\s+([^\s]+)", text):
        known = re.match(r"(Symbol[\d']*)\.name$", callee)
        it.calls.append(of[known[1]] if word == "call" and known else "by-" + word)
    return it


def functions_of(rlib):
    with open(f"{rlib}/toolchain/mir.json", encoding="utf-8") as file:
        return [(name, it["body"]) for name, it in json.load(file)]


def main(kind, *words):
    if kind == "written":
        crate, folder, *rlibs = words
        below = {name for rlib in rlibs for name, _ in functions_of(rlib)}
        top = f"{folder}/Rattle-{crate}-proofs"
        for at, _, names in sorted(os.walk(top)):
            if at.endswith("/Code") and "Mir.antt" in names:
                with open(f"{at}/Mir.antt", encoding="utf-8") as file:
                    written("::".join([crate, *os.path.relpath(at, top).split("/")[:-1]]), file.read(), below).say()
        return
    with_operator = dict([words[1].split("=")]) if words[0] == "--with" else {}
    functions = [one for rlib in words[2 if with_operator else 0 :] for one in functions_of(rlib)]
    methods = {}
    for name, _ in functions:
        methods.setdefault(name.rpartition("::")[0], []).append(name)
    for name, body in functions:
        it = built(name, body, methods)
        if name in with_operator:
            it.operators[-1] = plain(with_operator[name])
        it.say()


if __name__ == "__main__":
    main(*sys.argv[1:])
