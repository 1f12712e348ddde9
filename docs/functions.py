"""The functions that the pages name: that each exists, and that the program or one of the two services calls it; and the wrong bodies that they list.

Used by docs/definitions.py --check. What calls what is read off the text, and comes out as too much rather than too little: `.name(` may be
every method `name` of the types of the crates below, and every implementation of a trait's method of that name; a word that names a free function may be
a call of it. So a function that is found to be reached may still never run; one that is not found so is called by nothing that runs, but for
tests. Laws, which have no body or stand in a module of laws, need no caller; nor do the functions of crates that only tests stand on.
"""
import re
from collections import defaultdict
from pathlib import Path

ROOT = Path(__file__).resolve().parent.parent
MAINS = ("okws_program", "svc_guest", "svc_probe")
# The crate that people write services with: they call its functions.
KITS = ("svc_kit",)
# Functions of the kit and of the standard library that pages name.
ELSEWHERE = {"Connection::open", "Vec::sort_by"}
CLAUSE = re.compile(r"\b(requires|ensures|decreases|invariant|ghost)\b[^{}]*$")
HEAD = re.compile(r"\b(impl|trait|mod|fn)\b")
TYPE = re.compile(r"[A-Z]\w*")
SKIPPED = re.compile(r"//[^\n]*|\"(?:\\.|[^\"\\])*\"|b?'(?:\\.|[^'\\])'|/\*.*?\*/", re.S)


class Function:
    def __init__(self, crate, module, owner, trait, name, body, tested):
        self.crate, self.module, self.owner, self.trait, self.name, self.body, self.tested = crate, module, owner, trait, name, body, tested

    def is_law(self):
        return self.module in ("law", "laws") or self.body is not None and not re.search(r"\w", self.body)


def closing(text, at):
    """Returns where the bracket that opens at `at` is closed."""
    depth = 0
    for i in range(at, len(text)):
        depth += (text[i] in "{([") - (text[i] in "})]")
        if depth == 0:
            return i
    return len(text) - 1


def body_of(text, at):
    """Returns the body of the function whose signature goes on at `at`, without clauses, and where it ends; none where there is just a signature."""
    last = at
    while at < len(text):
        if text[at] in "([":
            at = closing(text, at)
        elif text[at] == ";":
            return None, at
        elif text[at] == "{":
            end = closing(text, at)
            if not CLAUSE.search(text[last:at]):
                return text[at + 1 : end], end
            at, last = end, end + 1
        at += 1
    return None, at


def words_after(text, at):
    """Returns what stands between a keyword and the brace that opens its block, and where that is; generic parameters are dropped."""
    end = at
    while text[end] not in "{;":
        end = closing(text, end) + 1 if text[end] in "([" else end + 1
    words, depth = "", 0
    for i in range(at, end):
        arrow = text[i] == ">" and text[i - 1] in "-="
        depth += (text[i] == "<") - (text[i] == ">" and not arrow)
        if depth == 0 and text[i] not in "<>":
            words += text[i]
    return words.split("where")[0], end


def without_ghosts(body):
    """A body without the ghost statements and the invariants of loops that stand in it."""
    out, at = "", 0
    for it in re.finditer(r"\b(?:ghost|invariant|decreases|proof)\b[^;{}]*\{", body):
        if it.start() >= at:
            out += body[at : it.start()]
            at = closing(body, it.end() - 1) + 1
    return re.sub(r"\bghost\b[^;]*;", "", out + body[at:])


def functions_in(crate, module, text, owner=None, trait=None, tested=False):
    """Yields the functions of a piece of a source, whose comments and strings are blanked."""
    at = 0
    while it := HEAD.search(text, at):
        kind, at = it[1], it.end()
        before = text[max(0, it.start() - 200) : it.start()]
        marked = tested or bool(re.search(r"#\[(?:test|cfg\(test\))\]\s*(?:pub(?:\([^)]*\))?\s*)?(?:unsafe\s*)?$", before))
        if kind == "fn":
            name = re.match(r"\s*(\w+)", text[at:])
            if not name:
                continue
            body, end = body_of(text, at + name.end())
            yield Function(crate, module, owner, trait, name[1], without_ghosts(body) if body is not None else None, marked)
            at = end + 1
            continue
        words, opens = words_after(text, at)
        if text[opens : opens + 1] != "{":
            at = opens + 1
            continue
        end = closing(text, opens)
        inner = text[opens + 1 : end]
        if kind == "mod":
            yield from functions_in(crate, words.strip(), inner, tested=marked)
        elif kind == "trait":
            name = TYPE.search(words)[0]
            yield from functions_in(crate, module, inner, name, name, marked)
        else:
            first, _, second = words.partition(" for ")
            of = lambda part: (re.findall(r"(?<![:\w])(?:\w+\s*::\s*)*([A-Z]\w*)", part) or [None])[0]
            yield from functions_in(crate, module, inner, of(second) if second else of(first), of(first) if second else None, marked)
        at = end + 1


def listed():
    """Returns the crates of crates.txt in order, each with those of the repository that its line names."""
    lines = [line.partition("#")[0].partition(":") for line in (ROOT / "crates.txt").read_text().split("\n")]
    named = {name.strip(): below.split() for name, colon, below in lines if colon}
    return {name: [it for it in below if it in named] for name, below in named.items()}


def all_below(crates):
    """Returns of each crate those that it stands on, and those that these do."""
    found = {}

    def of(name):
        if name not in found:
            found[name] = set(crates[name]).union(*(of(it) for it in crates[name]))
        return found[name]

    return {name: of(name) for name in crates}


def read_all(renamed):
    """Yields the functions of all crates, and notes under which other names something is imported."""
    for crate in sorted(it for it in (ROOT / "crates").iterdir() if (it / "src").is_dir()):
        for path in sorted((crate / "src").rglob("*.rt")):
            text = SKIPPED.sub(lambda it: re.sub(r"[^\n]", " ", it[0]), path.read_text())
            text = re.sub(r"\bghost use\b[^;]*;", "", text)
            for line in re.findall(r"\buse\b[^;]*;", text):
                for name, here in re.findall(r"(\w+) as (\w+)", line):
                    renamed[here].add(name)
            yield from functions_in(crate.name, path.stem, text, tested=path.stem == "tests")


class Program:
    def __init__(self):
        self.below = all_below(listed())
        self.renamed = defaultdict(set)
        self.all = [it for it in read_all(self.renamed) if not it.tested]
        self.methods, self.free, self.traits = defaultdict(list), defaultdict(list), defaultdict(set)
        for it in self.all:
            (self.methods if it.owner else self.free)[it.name].append(it)
            if it.owner and it.owner == it.trait:
                self.traits[it.name].add(it.trait)
        self.types = {it.owner for it in self.all if it.owner}
        self.reached = set()
        self.crates = set(MAINS).union(*(self.below[it] for it in MAINS))
        self.walk([it for it in self.all if it.crate in KITS or it.name == "main" and it.crate in MAINS])

    def sees(self, crate, other):
        return other == crate or other in self.below.get(crate, ())

    def called(self, it):
        """Yields what a function may call."""
        body = it.body or ""
        for owner, name in re.findall(r"\b([A-Z]\w*)\s*(?:::\s*<[^;{}()]*?>\s*)?::\s*([a-z]\w*)", body):
            owners = {it.owner, it.trait} if owner == "Self" else {owner} | self.renamed[owner]
            known = owners & (self.types | {t for ts in self.traits.values() for t in ts})
            for other in self.methods[name]:
                if not known or other.owner in owners or other.trait in owners:
                    yield other
        for name in re.findall(r"\.\s*([a-z]\w*)\s*(?:::\s*<[^;{}()]*?>\s*)?\(", body):
            for other in self.methods[name]:
                if other.trait in self.traits[name] or self.sees(it.crate, other.crate):
                    yield other
        words = set(re.findall(r"\b[a-z_]\w*\b", body))
        for name in words.union(*(self.renamed[word] for word in words)):
            for other in self.free[name]:
                if self.sees(it.crate, other.crate):
                    yield other

    def walk(self, left):
        # What the language itself calls: implementations of traits that are not declared here.
        declared = {t for ts in self.traits.values() for t in ts}
        left = left + [it for it in self.all if it.trait and it.trait not in declared and it.trait != it.owner]
        while left:
            it = left.pop()
            if it not in self.reached:
                self.reached.add(it)
                left.extend(self.called(it))

    def may_be_named(self, it):
        return it in self.reached or it.is_law() or it.crate not in self.crates

    def named(self, word, crate):
        """Returns the functions that a word of a page with `::` names, on a crate's own page those of that crate first; none where it names no function."""
        *_, prefix, name = word.split("::")
        if name[:1].isupper() or prefix in self.below and any(it.module == name for it in self.all if it.crate == prefix):
            return None
        if prefix in self.below:
            found = [it for it in self.free[name] if it.crate == prefix]
        elif prefix[:1].isupper():
            found = [it for it in self.methods[name] if prefix in (it.owner, it.trait)]
        else:
            found = [it for it in self.free[name] if it.module == prefix]
        return [it for it in found if it.crate == crate] or found


PAGES = ("README.md", "docs/*.md", "crates/*/README.md")
MADE = ("DEFINITIONS.md", "CRATES.md")
TICKED = re.compile(r"`([^`\n]+)`")
WORD = re.compile(r"(?:\w+::)+\w+")


def bare_words(page, line):
    """Yields the names of functions without `::` in the tables of the pages: of a crate's page in the column of contracts, each with the type whose
    method it is, if it stands behind one of that type's; of ARCHITECTURE.md in the brackets of a row that begins with its crates; of MODEL.md in the
    columns that say what decides and what promises."""
    cells = [it.strip() for it in line.strip().strip("|").split(" | ")]
    if page.parts[-3:-2] == ("crates",) and len(cells) == 2:
        owner = None
        for word in TICKED.findall(re.sub(r"\([^()]*\)", "", cells[1])):
            if WORD.fullmatch(word):
                owner = word.split("::")[-2]
            elif re.fullmatch(r"[a-z]\w*", word):
                yield word, owner, (page.parent.name,)
    elif page.name == "ARCHITECTURE.md" and len(cells) == 2:
        crates = TICKED.findall(cells[0])
        for inner in re.findall(r"\(([^()]*)\)", cells[1]):
            for word in TICKED.findall(inner):
                if re.fullmatch(r"[a-z]\w*", word):
                    yield word, None, tuple(crates)
    elif page.name == "MODEL.md" and len(cells) == 6:
        crates = TICKED.findall(re.sub(r"\([^()]*\)", "", cells[2]))
        for word in TICKED.findall(cells[2] + cells[4]):
            if re.fullmatch(r"[a-z]\w*", word) and word not in crates:
                yield word, None, tuple(crates)


def misnamed():
    """Returns what the pages name that is no function, or that nothing which runs calls."""
    program, wrong = Program(), []
    for page in sorted(it for pattern in PAGES for it in ROOT.glob(pattern) if it.name not in MADE):
        shown, crate = page.relative_to(ROOT), page.parent.name
        fenced = False
        for line in page.read_text().split("\n"):
            fenced ^= line.startswith("```")
            if fenced:
                continue
            asked = [(word, program.named(word, crate)) for word in TICKED.findall(line) if WORD.fullmatch(word) and word not in ELSEWHERE]
            if line.startswith("|"):
                for word, owner, crates in bare_words(page, line):
                    found = [it for it in program.methods[word] + program.free[word] if it.crate in crates]
                    asked.append((word, [it for it in found if it.owner == owner] or found or None))
            for word, found in asked:
                if found == []:
                    wrong.append(f"{shown} names `{word}`, which is no function")
                elif found and not any(program.may_be_named(it) for it in found):
                    wrong.append(f"{shown} names `{word}`, which nothing that runs calls")
    return wrong


def unplanted():
    """Returns the wrong bodies that a crate's page lists and that stand neither in its must-fail/ nor in checks/edits/."""
    wrong = []
    for page in sorted(ROOT.glob("crates/*/README.md")):
        crate = page.parent.name
        listing = re.search(r"^Wrong bodies,[^\n]*\n\n((?:[- ] [^\n]*\n)+)", page.read_text(), re.M)
        for name in TICKED.findall(listing[1]) if listing else ():
            if not any((ROOT / folder / f"{name}.edit").exists() for folder in (f"crates/{crate}/must-fail", f"checks/edits/{crate}")):
                wrong.append(f"{page.relative_to(ROOT)} lists the wrong body `{name}`, which isn't there")
    return wrong
