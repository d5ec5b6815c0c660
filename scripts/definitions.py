#!/usr/bin/env python3
"""Counts the definitions that a reader of a contract meets, by following names through `specs/`.

    scripts/definitions.py                  for the main calls: clauses, definitions, their lines and
                                            files, and how deep they go
    scripts/definitions.py CRATE FUNCTION   the definitions of one, those of a file together, the
                                            nearest to the contract first

It runs at the top of the repository. Left out are the toolchain's, the model (`model`, `model_tree`),
the wire (`xdr`, `wire`, `wire_attributes`, `rpc`) and the disk format, which are counted by themselves.
"""
import functools
import os
import re
import sys

MAIN = [
    ("session", "begin"), ("journal", "flush"), ("volume", "change"), ("fs", "write"), ("server", "turn"),
    ("server", "every_run"), ("server", "every_life"), ("peer", "step"),
]
LEFT_OUT = {"std", "model", "model_tree", "xdr", "wire", "wire_attributes", "rpc"}
LEFT_OUT |= {"layout", "inode", "seats", "directory", "extents", "freemap", "sector"}

USE = r"use Rattle\.(\w+)\.specs\.([\w.]+?)(?:\.\{([^}]*)\}| as (\w+))?;?\s*$"
WORD = re.compile(r"[A-Za-z_]\w*")
HEAD = re.compile(
    r"(?:abbrev |unfoldable )?pub (?:record |data )?([^\s:({]+)|(?:record|data|abbrev|unfoldable) ([^\s:({]+)"
    r"|([^\s:({-][^\s:({]*) :"
)


def imports_of(text):
    """Returns for each name that a text imports its crate, its module and its name there."""
    found = {}
    for crate, module, names, alias in re.findall(r"^\s*(?:pub |ghost )?" + USE, text, re.M):
        for name in names.split(",") if names else ():
            if name.strip():
                found[name.strip()] = crate, module, name.strip()
        if alias:
            found[alias] = crate, module, None
    return found


@functools.cache
def module_of(crate, module):
    """Returns what a module of specs imports, and the text of each of its definitions."""
    file = f"crates/{crate}/specs/{module.replace('.', '/')}.antt"
    if crate in LEFT_OUT or not os.path.exists(file):
        return {}, {}
    with open(file, encoding="utf-8") as opened:
        text = opened.read()
    texts, name = {}, None
    for line in text.split("\n"):
        head = None if re.match(r"(pub )?(use|mod|module) ", line) else HEAD.match(line)
        name = next(filter(None, head.groups())) if head else name
        if name and line.strip() and not line.lstrip().startswith("--"):
            texts[name] = texts.get(name, "") + line + "\n"
    return imports_of(text), texts


def named_in(text, imports, crate=None, module=None):
    """Yields the definitions that a text names."""
    own = module_of(crate, module)[1] if crate else {}
    for word in sorted(set(WORD.findall(text))):
        if word in own:
            yield crate, module, word
        elif word in imports:
            at, there, name = imports[word]
            names = [name] if name else re.findall(rf"\b{word}\.([A-Za-z_]\w*)", text)
            yield from ((at, there, it) for it in names if it in module_of(at, there)[1])


def behind(text, imports):
    """Returns the definitions behind a text, each with how many steps it is away."""
    depths, level = {}, list(named_in(text, imports))
    while level:
        depth, further = 1 + max(depths.values(), default=0), []
        for it in level:
            if it not in depths:
                depths[it] = depth
                crate, module, name = it
                names, texts = module_of(crate, module)
                further += named_in(texts[name], names, crate, module)
        level = [it for it in further if it not in depths]
    return depths


def contract_of(crate, function):
    """Returns the contract of a function that is `pub`, and what its file imports."""
    for folder, _, files in sorted(os.walk(f"crates/{crate}/src")):
        for file in sorted(files):
            with open(os.path.join(folder, file), encoding="utf-8") as opened:
                text = opened.read()
            found = re.search(rf"^( *)pub fn {function}\b.*?^\1\{{", text, re.M | re.S)
            if found and "ensures" in found.group():
                return found.group(), imports_of(text)
    sys.exit(f"{crate} has no public function {function} with a contract")


def main(asked):
    for crate, function in [] if asked else MAIN:
        contract, imports = contract_of(crate, function)
        found = behind(contract, imports)
        lines = sum(module_of(at, module)[1][name].count("\n") for at, module, name in found)
        files, clauses = len({it[:2] for it in found}), len(re.findall(r"^\s+(?:ensures|requires)", contract, re.M))
        print(f"{crate + '::' + function:20}{clauses:3} clauses {len(found):4} definitions", end=" ")
        print(f"{lines:4} lines {files:3} files {max(found.values(), default=0):3} deep")
    if asked:
        files = {}
        for (crate, module, name), depth in sorted(behind(*contract_of(*asked)).items(), key=lambda it: it[1]):
            files.setdefault(f"{crate}/specs/{module.replace('.', '/')}", []).append(name)
        for file, names in files.items():
            print(f"{file}: {', '.join(names)}")


main(sys.argv[1:])
