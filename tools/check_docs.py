#!/usr/bin/env python3
"""Checks that what the documents name exists.

For each Markdown file of the repository:

- A file between backticks is there: from the top, from the document's folder, or from the folder of some crate.
- A name between backticks stands in the sources, definitions, proofs or wrong bodies of the crates, outside
  comments, or in crates.txt. `Type::name` wants the function or variant too.
- A relative link leads to a file, and its anchor to a heading. Where the link's text is a name between backticks
  and it leads to a source, the name stands in that source.
- Each line of a block of code marked `rust` or `antt` stands in some source.
- In a row that begins with links to sources, as those of docs/PROVED.md, each small name in parentheses is a clause
  in one of these sources, or a definition.

Words of scripts, of printed text, of commands and of the standards stand in the lists below. Prints what it can't
find, a line each, and then ends with status 1. Prints nothing where all is found.
"""

import re
import sys
from pathlib import Path

TOP = Path(__file__).resolve().parent.parent

# Words of scripts and of the printed text that stand in no source as a word of their own: names of handles, letters
# that stand for words in the tables, and faulty words.
SCRIPT_WORDS = {
    "a", "b", "c9", "cam", "A", "H", "T", "I", "F", "W", "N", "L", "P", "S", "HEX", "LINE", "NUMBER", "NAME", "KIND",
    "WORDS", "REPLY", "CODE", "CAPS", "DEVICECAPS", "WIDTH", "HEIGHT", "BYTESPERLINE", "SIZEIMAGE", "INDEX",
    "SEED", "step", "bulk", "run", "ABCD", "opem", "closse", "GRE", "then",
    "B", "C", "E", "K", "M", "USED", "SEQUENCE", "TIMESTAMP", "FLAGS", "COUNT", "LENGTH", "PAGES", "ADDRESS", "FRAME",
    "PENDING", "cap", "m", "v", "back", "args", "scale",
}
# Commands, with their words.
COMMANDS = {
    "rt", "ci", "check", "run", "test", "try", "fmt", "tidy", "must-fail", "python3", "only", "FILE", "FOLDER", "cases",
    "FUNCTION", "passed", "failed", "M", "version", "proved", "no", "valgrind", "tool", "callgrind", "captures", "hashes",
}
# The calls as the standard spells them, and a crate of the kit.
STANDARD = {"QUERYCAP", "QUERYBUF", "QBUF", "G_INPUT", "clap"}
# Words of Rust and of the definitions' language, and of the kit.
LANGUAGE = {
    "Source", "abbrev", "unfoldable", "requires", "ensures", "result", "pub", "now", "old", "new", "impl", "code",
    "tactic", "auto", "record", "Type", "out", "rattle-kit-13f", "logic", "dac8208d650f15bf", "UTF-8",
}
ALLOWED = SCRIPT_WORDS | COMMANDS | STANDARD | LANGUAGE

# Folders and files that the tools make, so that a clone doesn't have them.
MADE = {"out/", "crates/vmedia/out/vmedia"}

SOURCES = (".rt", ".antt", ".edit")
FILE = re.compile(r"^[\w./*-]+\.(rt|antt|md|txt|edit|script|py)$|^(\.ci|crates|docs|examples|tools)/[\w./*-]*$")
WORD = re.compile(r"[A-Za-z_][\w-]*|\d[\w,.]*")
NUMBER = re.compile(r"^(0x)?[0-9a-f][0-9a-f,._]*$", re.IGNORECASE)


def text_of(path):
    return path.read_text(encoding="utf-8")


def without_comments(path):
    """The text of a source without its comments."""
    mark = "--" if path.suffix == ".antt" else "//"
    kept = []
    for line in text_of(path).split("\n"):
        stripped = line.lstrip()
        if stripped.startswith(mark):
            continue
        kept.append(re.split(r"(?<![\w:\"])" + mark + r" ", line)[0])
    return "\n".join(kept)


class Names:
    """What the repository has: its sources' words, and its files."""

    def __init__(self):
        files = [p for p in (TOP / "crates").rglob("*") if p.suffix in SOURCES and "out" not in p.parts]
        self.text = {p: without_comments(p) for p in files}
        self.lines = set()
        self.words = set()
        for path, text in self.text.items():
            self.lines.update(line.strip() for line in text_of(path).split("\n"))
            self.words.update(re.findall(r"[A-Za-z_]\w*", text))
            self.words.update(re.findall(r"[A-Za-z_][\w-]*\w", text))
            self.words.add(path.stem)
        self.words.update(re.findall(r"\w+", text_of(TOP / "crates.txt")))
        self.clauses = {p: set(re.findall(r"\b(?:ensures|requires)\*?\s+(\w+)\s*\{", t)) for p, t in self.text.items()}
        self.definitions = set()
        for path, text in self.text.items():
            if path.parent.name == "specs":
                self.definitions.update(re.findall(r"^(?:(?:abbrev|unfoldable|pub) )+(\w+) :", text, re.M))
        # each type, with the words of the files that speak of it
        self.types = {}
        for text in self.text.values():
            for name in re.findall(r"\b(?:struct|enum|trait|type|data|record)\s+([A-Z]\w*)", text):
                self.types.setdefault(name, set())
        for text in self.text.values():
            words = set(re.findall(r"[A-Za-z_]\w*", text))
            for name in words & self.types.keys():
                self.types[name] |= words
        self.crates = [p for p in (TOP / "crates").iterdir() if p.is_dir()]

    def has_word(self, word):
        if word in self.words or word in ALLOWED or NUMBER.match(word):
            return True
        # a family of names, as write_X or X_size
        if word.startswith("X_"):
            return any(w.endswith(word[1:]) for w in self.words)
        if word.endswith("_X"):
            return any(w.startswith(word[:-1]) for w in self.words)
        if word.startswith("_") or word.endswith("_"):
            return any(word in w for w in self.words)
        return False

    def has_file(self, name, folder):
        if name in MADE:
            return True
        for base in [TOP, folder, *self.crates]:
            if "*" in name:
                if any(base.glob(name)):
                    return True
            elif (base / name).exists():
                return True
        return False


def unpromised(line, names, folder):
    """The names in parentheses of a row of clauses that its sources don't have as clauses, and that aren't defined."""
    cells = line.split(" | ", 1)
    goals = [(folder / target).resolve() for target in re.findall(r"\]\((\.\./crates/[^)#]+)\)", cells[0])]
    if not line.startswith("| [") or not goals or len(cells) < 2:
        return []
    clauses = set()
    for goal in goals:
        for source in [goal] if goal.is_file() else goal.rglob("*.rt"):
            clauses |= names.clauses.get(source, set())
    spans = [s for part in re.findall(r"\(([^()]*)\)", cells[1]) for s in re.findall(r"`([a-z]\w*)`", part)]
    return [s for s in spans if s not in clauses and s not in names.definitions]


def slug(heading):
    """The anchor of a heading."""
    heading = re.sub(r"\[([^\]]*)\]\([^)]*\)", r"\1", heading).replace("`", "").strip().lower()
    return re.sub(r"[^\w\- ]", "", heading).replace(" ", "-")


def anchors(path):
    return {slug(m.group(1)) for m in re.finditer(r"^#+ (.*)$", text_of(path), re.M)}


def missing_in(span, names, folder):
    """What of the text between two backticks doesn't exist."""
    span = span.replace("\\|", "|")
    if FILE.match(span):
        return None if names.has_file(span, folder) else span
    if re.match(r"^[\w./-]+/$", span):
        return None if names.has_file(span, folder) else span
    if re.match(r"^[A-Z]+$", span) and (TOP / span).is_file():
        return None
    path = re.match(r"^([A-Z]\w*)::([A-Za-z_]\w*)$", span)
    if path:
        return None if path.group(2) in names.types.get(path.group(1), ()) else span
    for word in WORD.findall(span):
        if not names.has_word(word.rstrip("-.,")):
            return word if word == span else f"{word} (of: {span})"
    return None


def check(path, names):
    """The faults of a document, each with its line's number."""
    faults = []
    fence = None
    indented = False
    before = ""
    for number, line in enumerate(text_of(path).split("\n"), 1):
        mark = re.match(r"^\s*```(\w*)", line)
        if mark:
            fence = mark.group(1) or "text" if fence is None else None
            continue
        if fence in ("rust", "antt"):
            if line.strip() and line.strip() not in names.lines:
                faults.append((number, f"no source has this line: {line.strip()}"))
            continue
        if fence is not None:
            continue
        indented = line.startswith("    ") and (indented or before.strip() == "") and not line.lstrip().startswith(("- ", "|"))
        before = line
        if indented or line.startswith("      "):
            continue
        for span in re.findall(r"`([^`]+)`", line):
            missing = missing_in(span, names, path.parent)
            if missing:
                faults.append((number, f"no such name or file: {missing}"))
        for name in unpromised(line, names, path.parent):
            faults.append((number, f"neither a clause there nor a definition: {name}"))
        for text, target in re.findall(r"\[([^\]]*)\]\(([^)\s]+)\)", line):
            if re.match(r"^[a-z]+:", target):
                continue
            file, _, anchor = target.partition("#")
            goal = (path.parent / file).resolve() if file else path
            if not goal.exists():
                faults.append((number, f"the link leads nowhere: {target}"))
                continue
            if anchor and goal.suffix == ".md" and anchor not in anchors(goal):
                faults.append((number, f"no such heading: {target}"))
            name = re.match(r"^`(?:\w+::)?(\w+)`$", text)
            if name and goal in names.text and not re.search(r"\b" + name.group(1) + r"\b", names.text[goal]):
                faults.append((number, f"{file} doesn't have {name.group(1)}"))
    return faults


def main():
    names = Names()
    documents = sorted(TOP.glob("*.md")) + sorted((TOP / "docs").glob("*.md")) + sorted((TOP / "examples").glob("*.md"))
    found = False
    for path in documents:
        for number, fault in check(path, names):
            print(f"{path.relative_to(TOP)}:{number}: {fault}", file=sys.stderr)
            found = True
    return 1 if found else 0


if __name__ == "__main__":
    sys.exit(main())
