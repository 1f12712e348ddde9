#!/usr/bin/env python3
"""Writes docs/DEFINITIONS.md, the index of the definitions: each one of the crates' specs/ with the sentence that stands above it, in two parts,
those that the contract of `okws` reaches and the others.

    docs/definitions.py            writes the file, which isn't kept
    docs/definitions.py --fill     writes the sentences into the tables of docs/MODEL.md, docs/SCRIPT.md and docs/SERVER.md
    docs/definitions.py --check    says which definition that the contract reaches has no sentence, and where one of these pages quotes a definition,
                                   or tells a sentence in a table, that doesn't stand so in specs/; and which function that a page names doesn't exist,
                                   or is called by nothing that runs (docs/functions.py says how that is found), and which wrong body isn't there
"""
import re
import sys
from pathlib import Path

from functions import misnamed, unplanted

ROOT = Path(__file__).resolve().parent.parent
OUT = ROOT / "docs" / "DEFINITIONS.md"
# Where the contract of the top call stands, and the clauses of the outside that it speaks of.
ROOTS = ["okws_server/src/top.rt", "okws_outer/src/world.rt", "okws_outer/src/files.rt", "okws_outer/src/stream.rt"]
BEGINS = re.compile(r"(?:abbrev|unfoldable) (?:pub )?(?P<a>[^\s:(){},]+)|pub (?:record|data) (?P<b>[^\s:(){},]+)|pub (?P<c>[^\s:(){},]+) :")
USE = re.compile(r"(?:ghost )?use Rattle\.(\w+)\.specs\.([\w.]+)\.\{([^}]*)\}")
PAGES = ("MODEL.md", "SCRIPT.md", "SERVER.md")
# A row of a page's table: a definition, where it stands, and its sentence.
ROW = re.compile(r"^\| `([^`]+)` \| `(\w+)/(\w+)` \| (.*) \|$", re.M)
WORD = re.compile(r"[^\s(){}\[\],;.:λ→×⊎≡≢≤<+∷'`]+")


def imports(text):
    """Returns the definitions that a text imports, by the names that they have in it."""
    found = {}
    for crate, module, names in USE.findall(text):
        if module.startswith("declared"):
            continue
        for name in names.split(","):
            name, _, other = name.strip().partition(" as ")
            found[(other or name).strip()] = (crate, module, name.strip())
    return found


def definitions(path, crate, module):
    """Returns the head comment of a file of specs/, and its definitions: name, sentence, body."""
    lines = path.read_text().split("\n")
    head, at = [], 0
    while at < len(lines) and lines[at].startswith("-- "):
        head.append(lines[at][3:])
        at += 1
    found, pending = [], []
    for line in lines[at:]:
        begins = BEGINS.match(line)
        if line.startswith("-- ") and not line.startswith("-- ---"):
            pending.append(line[3:])
        elif begins and not line.startswith(("pub mod", "pub use")):
            name = begins["a"] or begins["b"] or begins["c"]
            if not (found and found[-1][0] == name):
                found.append([name, " ".join(pending), line])
            else:
                found[-1][2] += "\n" + line
            pending = []
        else:
            if found:
                found[-1][2] += "\n" + line
            if line.strip() == "" or line.startswith("-- ---"):
                pending = []
    return " ".join(head), found


def read_all():
    """Returns the modules in the order of crates.txt, and for each definition what it cites."""
    modules, cites = {}, {}
    for line in (ROOT / "crates.txt").read_text().split("\n"):
        crate = re.match(r"(\w+)\b[^#:]*:", line)
        lib = crate and ROOT / "crates" / crate[1] / "specs" / "Lib.antt"
        if not lib or not lib.exists():
            continue
        for module in re.findall(r"pub mod (\w+)", lib.read_text()):
            path = lib.parent / f"{module}.antt"
            head, found = definitions(path, crate[1], module)
            modules[crate[1], module] = head, found
            known = imports(path.read_text())
            known.update({name: (crate[1], module, name) for name, _, _ in found})
            for name, _, body in found:
                words = set(WORD.findall(body))
                cites[crate[1], module, name] = {known[it] for it in words if it in known}
    return modules, cites


def clauses_of(path):
    """Returns the clauses of a .rt file: the lines of its ensures, requires and ghost members."""
    text, taken, inside = path.read_text(), [], False
    for line in text.split("\n"):
        inside = inside or bool(re.match(r"\s*(ensures|requires|ghost \w+[:=]?)", line)) and "ghost use" not in line
        if inside:
            taken.append(line)
            inside = not line.rstrip().endswith(("}", "};"))
    return "\n".join(taken)


def reached(cites):
    left = []
    for name in ROOTS:
        path = ROOT / "crates" / name
        known = imports(path.read_text())
        left += [known[it] for it in WORD.findall(clauses_of(path)) if it in known]
    seen = set()
    while left:
        it = left.pop()
        if it not in seen:
            seen.add(it)
            left += cites.get(it, ())
    return seen


def table(modules, chosen):
    out = []
    for (crate, module), (head, found) in modules.items():
        rows = [(name, says) for name, says, _ in found if chosen((crate, module, name))]
        if rows:
            out.append(f"### `crates/{crate}/specs/{module}.antt`\n\n{head}\n\n| definition | says |\n|---|---|")
            out += [f"| `{name}` | {cell(says)} |" for name, says in rows]
            out.append("")
    return out


def cell(sentence):
    return sentence.replace("|", chr(92) + "|")


def sentences(modules):
    return {(crate, module, name): cell(says) for (crate, module), (_, found) in modules.items() for name, says, _ in found}


def fill(modules):
    """Writes into each page's tables the sentences that stand above the definitions."""
    says = sentences(modules)
    for page in PAGES:
        path = ROOT / "docs" / page
        path.write_text(ROW.sub(lambda it: f"| `{it[1]}` | `{it[2]}/{it[3]}` | {says.get((it[2], it[3], it[1]), it[4])} |", path.read_text()))


def mistold(modules):
    """Returns the rows of the pages' tables whose definition doesn't stand where they say, or has another sentence."""
    says = sentences(modules)
    return [
        f"docs/{page} tells another sentence of {name} than crates/{crate}/specs/{module}.antt"
        for page in PAGES
        for name, crate, module, told in ROW.findall((ROOT / "docs" / page).read_text())
        if says.get((crate, module, name)) != told
    ]


def misquoted():
    """Returns the quotations of the pages, each a block `antt CRATE/FILE`, that don't stand so in specs/."""
    found = []
    for page in PAGES:
        text = (ROOT / "docs" / page).read_text()
        found += [(page, *it) for it in re.findall(r"^```antt (\w+)/(\w+)\n(.*?)^```$", text, re.M | re.S)]
    return [
        f"docs/{page} quotes {crate}/specs/{module}.antt, which has no such lines: {block.split(chr(10))[0]}"
        for page, crate, module, block in found
        if block not in (ROOT / "crates" / crate / "specs" / f"{module}.antt").read_text()
    ]


def main():
    modules, cites = read_all()
    if sys.argv[1:] == ["--fill"]:
        fill(modules)
        return
    seen = reached(cites)
    missing = [f"{c}/specs/{m}.antt: {n}" for (c, m), (_, found) in modules.items() for n, says, _ in found if not says]
    unsaid = [n for (c, m), (_, found) in modules.items() for n, says, _ in found if not says and (c, m, n) in seen]
    count = sum(len(found) for _, found in modules.values())
    inner = sum((c, m, n) in seen for (c, m), (_, found) in modules.items() for n, _, _ in found)
    out = [
        "# Definitions",
        "",
        "Written by docs/definitions.py from the sentences above the definitions in the crates' specs/. MODEL.md, SCRIPT.md and SERVER.md are the texts to read; this is the index to look",
        f"things up in. The contract of `okws` reaches {inner} of {count} definitions: they are the first part, and nothing else has to be believed. The second part is what",
        "the proofs keep on the way.",
        "",
        "## Reached by the contract of `okws`",
        "",
        *table(modules, lambda it: it in seen),
        "## Internal",
        "",
        *table(modules, lambda it: it not in seen),
    ]
    text = "\n".join(out).rstrip("\n") + "\n"
    if sys.argv[1:] == ["--check"]:
        for it in missing:
            print(f"no sentence above {it}")
        wrong = misquoted() + mistold(modules) + misnamed() + unplanted()
        for it in wrong:
            print(it)
        sys.exit(1 if unsaid or wrong else 0)
    OUT.write_text(text)
    for it in missing:
        print(f"no sentence above {it}")


main()
