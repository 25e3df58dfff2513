#!/usr/bin/env python3
"""Lists the definitions that the clauses of `run` reach, file by file, and keeps docs/TRUST.md true.

Without words: each file of definitions, how many of them are reached, and how many lines these have.
--check: compares docs/TRUST.md with that, and ends with 1 where they differ.
--write: puts the numbers into docs/TRUST.md.
--reached, --unreached: the definitions themselves.
--types: the types of the code, and what of Rattle's library, the reached definitions speak of.
"""
import re
import sys
from pathlib import Path

TOP = Path(__file__).resolve().parent.parent
ROOT = TOP / "crates/vale_driver/src/program.rt"
PAGE = TOP / "docs/TRUST.md"

USE = re.compile(r"^(pub |unfoldable pub )?use Rattle\.([A-Za-z0-9_.-]+?)(?:\.\{(.*)\})?(?: as (\S+))?;?$")
IMPORT = re.compile(r"^(pub )?mod |^use |^infix|^pub use |^unfoldable pub use")
MUTUAL = re.compile(r"^((unfoldable|abbrev|pub) )*mutual$")
SIGNATURE = re.compile(r"^(?:(?:pub|abbrev|unfoldable|open) )*(record |data )?(\S+)(.*)$")
CONSTRUCTOR = re.compile(r"^(?:pub )?(\S+) :")
WORD = re.compile(r"[^\s(){},;]+")
ROW = re.compile(r"^\| `(crates/\S+\.antt)` \| (\d+) \| (\d+) \|(.*)$")
TOTAL = re.compile(r"\d+ definitions on \d+ lines")


class Definition:
    """A definition: its module, and its lines with the comment in front."""

    def __init__(self, module, name, kind, comment):
        self.module, self.name, self.kind, self.lines = module, name, kind, list(comment)

    def text(self):
        return "\n".join(line for line in self.lines if not line.strip().startswith("--"))


class Names:
    """What the names in a file stand for: its own definitions, imports, and modules under a short name."""

    def __init__(self):
        self.own, self.imports, self.modules, self.given = {}, {}, {}, {}

    def use(self, found, given=False):
        module = found.group(2)
        if found.group(3) is None:
            self.modules[found.group(4) or module.split(".")[-1]] = module
            return
        for one in filter(None, (part.strip() for part in found.group(3).split(","))):
            was, _, now = one.partition(" as ")
            was, now = was.strip().strip("◌"), (now or was).strip().strip("◌")
            self.imports[now] = (module, was)
            if given:
                self.given[now] = (module, was)


class File(Names):
    """A file of definitions."""

    def __init__(self, module, path):
        super().__init__()
        self.module, self.path, self.definitions = module, path, []
        self.mutual, self.comment = 0, []
        for line in (TOP / path).read_text(encoding="utf-8").splitlines():
            if line.strip():
                self.take(line)

    def take(self, line):
        bare, indent = line.strip(), len(line) - len(line.lstrip())
        if bare.startswith("--"):
            self.comment.append(line)
            return
        comment, self.comment = self.comment, []
        use = USE.match(line)
        if use:
            self.use(use, bool(use.group(1)))
        elif IMPORT.match(line):
            pass
        elif indent == 0 and MUTUAL.match(bare):
            self.mutual = 2
        else:
            self.mutual = self.mutual if indent else 0
            self.take_line(line, bare, indent, comment)

    def take_line(self, line, bare, indent, comment):
        kind, name, rest = SIGNATURE.match(bare).groups()
        if indent == self.mutual and (kind or re.match(r"^\s*: ", rest) or rest.strip() == ":"):
            self.definitions.append(Definition(self.module, name, (kind or "").strip(), comment))
            self.own[name.strip("◌")] = self.definitions[-1]
        elif self.definitions and self.definitions[-1].kind == "data" and indent == self.mutual + 2:
            made = CONSTRUCTOR.match(bare)
            if made:
                self.own.setdefault(made.group(1).strip("◌"), self.definitions[-1])
        if self.definitions:
            self.definitions[-1].lines.append(line)


class Reach:
    """What the clauses of `run` reach, among all files of definitions."""

    def __init__(self):
        self.files, self.types, self.constants, self.library = {}, set(), set(), set()
        for path in sorted(TOP.glob("crates/*/specs/**/*.antt")):
            parts = path.relative_to(TOP / "crates").with_suffix("").parts
            module = ".".join(parts[:-1] if parts[-1] == "Lib" else parts)
            self.files[module] = File(module, str(path.relative_to(TOP)))
        self.found, left = set(), self.roots()
        while left:
            it = left.pop()
            if it is not None and it not in self.found:
                self.found.add(it)
                left += self.meant(self.files[it.module], it.text())

    def find(self, module, name, seen=()):
        """The definition of a name in a module; none where it is the code's or the library's."""
        if ".declared." in module:
            is_constant = "TheConstants" in module
            (self.constants if is_constant else self.types).add(module.split(".The")[0])
            return None
        it = self.files.get(module)
        if it is None:
            self.library.add(module)
            return None
        if name in it.own or name not in it.given or (module, name) in seen:
            return it.own.get(name)
        return self.find(*it.given[name], (*seen, (module, name)))

    def meant(self, names, text):
        """The definitions that a text speaks of."""
        found = []
        for word in WORD.findall(text):
            for token in {word, *word.split(":")}:
                token = token.strip("∷")
                head, _, rest = token.partition(".")
                if token in names.own:
                    found.append(names.own[token])
                elif token in names.imports:
                    found.append(self.find(*names.imports[token]))
                elif rest and head in names.modules:
                    found.append(self.find(names.modules[head], rest.split(".")[0]))
                elif rest and head in names.own:
                    found.append(names.own[head])
                elif rest and head in names.imports:
                    found.append(self.find(*names.imports[head]))
        return found

    def roots(self):
        """What the clauses of `run` speak of."""
        text, names = ROOT.read_text(encoding="utf-8"), Names()
        for line in text.splitlines():
            use = line.startswith("ghost use ") and USE.match(line[len("ghost "):])
            if use:
                names.use(use)
        head = text[text.index("pub fn run"):]
        head = head[:head.index("\n{\n")]
        clause = r"^    (?:requires|ensures).*(?:\n(?!    (?:requires|ensures)).*)*"
        return self.meant(names, "\n".join(re.findall(clause, head, re.M)))

    def counts(self):
        """For each file with definitions that are reached: how many there are, and on how many lines."""
        counts = {}
        for file in self.files.values():
            hit = [it for it in file.definitions if it in self.found]
            if hit:
                counts[file.path] = (len(hit), sum(len(it.lines) for it in hit))
        return counts


def total(counts):
    return f"{sum(n for n, _ in counts.values())} definitions on {sum(n for _, n in counts.values())} lines"


def check(reach):
    """What is not as docs/TRUST.md has it."""
    counts, page = reach.counts(), PAGE.read_text(encoding="utf-8")
    rows = {row.group(1): (int(row.group(2)), int(row.group(3))) for row in map(ROW.match, page.splitlines()) if row}
    wrong = [f"{path} is reached, and has no row" for path in counts if path not in rows]
    wrong += [f"{path} has a row, and isn't reached" for path in rows if path not in counts]
    wrong += [f"{path}: {counts[path]} and not {rows[path]}" for path in counts if rows.get(path, counts[path]) != counts[path]]
    wrong += [f"{path} is reached, and stands in an inner folder" for path in counts if "/inner/" in path]
    wrong += [f"a definition rests on the constants of {module}" for module in sorted(reach.constants)]
    if total(counts) not in page:
        wrong.append(f"in all there are {total(counts)}")
    return wrong


def write(reach):
    counts, lines = reach.counts(), []
    for line in PAGE.read_text(encoding="utf-8").splitlines():
        row = ROW.match(line)
        if row and row.group(1) in counts:
            line = "| `{}` | {} | {} |{}".format(row.group(1), *counts[row.group(1)], row.group(4))
        lines.append(TOTAL.sub(total(counts), line))
    PAGE.write_text("\n".join(lines) + "\n", encoding="utf-8")


def listed(reach, is_reached):
    for file in reach.files.values():
        names = [it.name for it in file.definitions if (it in reach.found) == is_reached]
        if names:
            print(f"{file.path}: {' '.join(names)}")


def main(words):
    reach = Reach()
    if "--check" in words:
        wrong = check(reach)
        print("\n".join(wrong) or "docs/TRUST.md is true")
        return int(bool(wrong))
    if "--write" in words:
        write(reach)
    elif "--reached" in words or "--unreached" in words:
        listed(reach, "--reached" in words)
    elif "--types" in words:
        print("\n".join(sorted(reach.types) + sorted(reach.library)))
    else:
        counts = reach.counts()
        for path, (definitions, lines) in counts.items():
            print(f"{definitions:4} definitions, {lines:4} lines  {path}")
        print(total(counts))
    return 0


sys.exit(main(sys.argv[1:]))
