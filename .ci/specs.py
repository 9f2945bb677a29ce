"""The definitions of crates/*/specs: their text, their sentences, and what each cites. Used by the checks beside it.

They stand in units. A unit is a crate, or a module of it that has specs of its own, as `crate::module`: its code stands in src/module.rt
and src/module/, its specs in specs/module.antt and specs/module/, its proofs likewise. What is in no such module belongs to the crate.
"""
import glob, os, re

BEGINS = re.compile(r"(abbrev pub|unfoldable pub|pub record|pub data|abbrev|unfoldable|record|data|pub(?= [^ ]+ :)) ([^ :({]+)")
HEADS = ("abbrev", "unfoldable", "record", "data", "pub")
WORD = re.compile(r"[\w◌>=<&|+∷-]+(?:\.\w+)?")


def unit(file, top="."):
    """The unit of a file, which is given from the top on: crates/NAME/src/.., say."""
    _, crate, _, part = file.split("/")[:4]
    name = part.partition(".")[0]
    own = [os.path.join(top, "crates", crate, place) for place in (f"src/{name}.rt", f"specs/{name}.antt")]
    return f"{crate}::{name}" if all(map(os.path.exists, own)) else crate


def folder(unit):
    """Where the specs of a unit stand."""
    crate, _, name = unit.partition("::")
    return f"crates/{crate}/specs/{name}".rstrip("/")


def module(file):
    """The name by which other files cite a file of specs."""
    return "Rattle." + file[len("crates/"):-len(".antt")].replace("/", ".")


class Definition:
    """A definition or law of a spec: its name, unit, file, place, sentence and lines; `use` gives what other modules lend to its file."""

    def __init__(self, name, kind, unit, file, number, sentence, use):
        self.name, self.kind, self.unit, self.file, self.number = name, kind, unit, file, number
        self.module, self.sentence, self.use, self.lines = module(file), sentence, use, []

    @property
    def text(self):
        return "\n".join(self.lines)

    @property
    def is_public(self):
        return "pub" in self.kind


def uses(line, into):
    """Notes what a line with `use` lends: a name, and the module and name that it stands for."""
    line = re.sub(r"^(?:ghost )?(?:pub )?use ", "", line.strip()).rstrip(";")
    listed = re.match(r"(Rattle\.[\w.]+)\.\{(.*)\}$", line)
    if listed:
        for word in listed.group(2).split(","):
            there, _, here = word.strip().partition(" as ")
            into[(here or there).strip()] = (listed.group(1), there.strip())
    whole = re.match(r"(Rattle\.[\w.]+) as (\w+)$", line)
    if whole:
        into["@" + whole.group(2)] = (whole.group(1), None)


def read(top="."):
    """All definitions, by module and name."""
    found = {}
    for file in sorted(glob.glob(os.path.join(top, "crates/*/specs/**/*.antt"), recursive=True)):
        path = os.path.relpath(file, top)
        use, comment, now = {}, [], None
        for number, line in enumerate(open(file, encoding="utf-8").read().split("\n"), 1):
            begins = BEGINS.match(line)
            if line.startswith("--"):
                comment.append(line[2:].strip())
                now = None
            elif begins:
                now = Definition(begins.group(2), begins.group(1), unit(path, top), path, number, " ".join(comment), use)
                now.lines.append(line)
                found[(now.module, now.name)] = now
                comment = []
            elif not line.strip():
                comment, now = [], None
            else:
                if "use " in line[:12]:
                    uses(line, use)
                elif now:
                    now.lines.append(line)
                comment = []
    return found


def cited(definitions, module, text, use):
    """The definitions that a text cites, where these names are lent to it."""
    out = set()
    for word in set(WORD.findall(text)):
        base, _, field = word.partition(".")
        if field and "@" + base in use:
            out.add((use["@" + base][0], field))
        out.add(use.get(base, (module, base)))
    return {one for one in out if one in definitions}


def closure(definitions, start):
    """These definitions, those that they cite, and so on."""
    seen, left = set(), list(start)
    while left:
        one = left.pop()
        if one not in seen:
            seen.add(one)
            found = definitions[one]
            left += cited(definitions, found.module, found.text, found.use)
    return seen


def contract(file, function):
    """The text of a public function's contract, and the names that its file borrows."""
    source, use = open(file, encoding="utf-8").read(), {}
    for line in source.split("\n"):
        if "use " in line[:12]:
            uses(line, use)
    begins = re.search(r"\bpub (?:ghost )?fn %s\b" % re.escape(function), source)
    if not begins:
        return None, use
    body = re.compile(r"^ *\{ *\}?$", re.M).search(source, begins.start())
    return source[begins.start():body.start() if body else len(source)], use
