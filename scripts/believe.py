#!/usr/bin/env python3
"""Writes docs/BELIEVE.md: what a reader has to believe in order to read the contract of `nys_top::run`.

Without words it writes the page. With `--check` it prints how the page differs from the sources, and ends
with status 1 where it does. It follows names from each clause down through the `use` lines.
"""

import difflib
import re
import sys
from collections import Counter, defaultdict
from dataclasses import dataclass

sys.dont_write_bytecode = True

from definitions import (ROOT, Sources, bare_text, comment_text, crate_of, file_of, is_comment, is_declared,
                         is_definition)

PAGE = ROOT / "docs" / "BELIEVE.md"
TOP = "nys_top.src.running"
BY_COMMAND = ("nys_top.specs.Commands", "IsSaidAnswer")
BY_REQUEST = ("nys_top.specs.Outcomes", "IsAnswerBy")
MACHINE_CRATES = {"nys_lex", "nys_tree", "nys_parse", "nys_named", "nys_names", "nys_meaning"}
# What protocols mean, and how a document is read.
DOCUMENT_CRATES = MACHINE_CRATES | {"nys_native", "nys_route", "nys_graph", "nys_scenario"}
PRINTED = "`printed`"

OPENING = """\
This page lists the definitions under the contract of the top call, `nys_top::run`: they have to mean what
they say, so that the contract does. `scripts/believe.py` writes it from the sources, by following names from
each clause down through the `use` lines; it reads texts and proves nothing. Read from the top: a definition
stands before those that use it, by crate and file, with its count of lines and the comment over it, under the
first clause that leads to it. On top come the enums, structs and constants that are declared in the code (of
a struct with a model contracts see the value that is shown, not its fields), and the library's definitions, by
the names that these definitions use. In all, where lines that are blank or say `use` aren't counted:"""
COMMANDS = """\
Of `answered`, for one command alone, and without the crates of the machine language (lexer, tree, parser,
names, meaning); and of `printed`, without what protocols mean and how a document is read:"""
TRAITS = "What `told`, `written` and `faults` are of any source or sink, the clauses of the traits say:"
UNREACHED = """\
Most of them are words of the contracts of lower calls and of laws. The last column counts those to which no
`ghost use` line of any crate's code leads either: words of proofs alone, or of nothing."""
COLUMNS = ["definitions", "lines", "of comment", "files", "crates", "of the code", "of the library"]


@dataclass
class Section:
    """A clause of the top call, its text, the keys that it names and all under them."""
    title: str
    text: str
    roots: set
    below: set


def clauses_of(text):
    """The clauses of a contract, by name."""
    pieces = re.split(r"\b(?:requires|ensures) (\w+) ", bare_text(text))[1:]
    return {name: piece.strip(" \n;").removeprefix("{").removesuffix("}").strip()
            for name, piece in zip(pieces[::2], pieces[1::2])}


def sections_of_run(sources):
    """A section for each clause of `run`, where a parameter stands for its type or trait."""
    text = file_of(TOP).read_text()
    head = text[text.index("pub fn run"):].partition("\n{")[0]
    scope, sections = dict(sources.scope(TOP)), []
    for name, kind in re.findall(r"(\w+): (?:&(?:mut )?)?\[?(\w+)", head):
        scope.update({name: scope[kind]} if kind in scope else {})
    for name, clause in clauses_of(head).items():
        keys = sources.keys_in(scope, clause)
        sections.append(Section(f"`{name}`", clause, keys, sources.below(keys)))
    return sections


def section_of_traits(sources, keys):
    """What the traits ask whose ghost members are among the keys."""
    traits = sorted({(key[0], key[1].split(".")[0]) for key in keys if is_declared(key) and "." in key[1]})
    texts, roots = [], set()
    for path, trait in traits:
        text = file_of(path).read_text()
        for name, clause in clauses_of(text[text.index(f"trait {trait}"):].partition("\n}")[0]).items():
            texts.append(f"{trait}, {name}: {clause.partition(';')[0].removesuffix(' }')}")
            roots |= sources.keys_in(sources.scope(path), clause)
    return Section("The traits", "\n".join(texts), roots, sources.below(roots))


def table(heads, rows):
    """The lines of a table of names and numbers."""
    return [f"| {' | '.join(heads)} |", "|---|" + "---:|" * (len(heads) - 1),
            *(f"| {name} | {' | '.join(f'{number:,}' for number in numbers)} |" for name, *numbers in rows)]


def counted(count, word):
    return f"{count:,} {word}{'' if count == 1 else 's'}"


def summed(items, word):
    """How many items, and how many lines."""
    return f"{counted(len(items), word)}, {counted(sum(item.code for item in items), 'line')}"


def head_of(path):
    """The first lines of a file, which say what it is about."""
    lines = file_of(path).read_text().splitlines()
    end = next(at for at, line in enumerate(lines) if not is_comment(line))
    return comment_text(lines[:end], "-")


def linked(path, shown):
    return f"[{shown}](../{file_of(path).relative_to(ROOT)})"


def meaning_of(item):
    return item.meaning or "without a comment"


def described(item):
    """The kind of a declaration and its file, with the value that contracts see of a struct with a model."""
    value = item.parts[0].right.partition("}")[0].strip("{ ")
    kind = f"{item.kind}, seen as `{value}`" if "model" in item.kind else item.kind
    return f"{kind}, {linked(item.path, item.path.replace('.src.', '/'))}"


class Page:
    """The text of docs/BELIEVE.md."""

    def __init__(self, sources):
        self.sources, self.lines, self.stood = sources, [], {}
        self.clauses = sections_of_run(sources)
        self.traits = section_of_traits(sources, set().union(*(each.below for each in self.clauses)))
        self.all = set().union(self.traits.below, *(each.below for each in self.clauses))
        self.place = {key: at for at, key in enumerate(sources.items)}

    def text(self):
        self.say("# What a reader has to believe")
        self.say(OPENING)
        self.totals()
        for section in [*self.clauses, self.traits]:
            self.section(section)
        self.unreached()
        return "\n".join(self.lines[:-1]) + "\n"

    def say(self, *lines):
        self.lines += [*lines, ""]

    def counts(self, keys):
        """Definitions, their lines, lines of comment, files and crates; declarations; names of the library."""
        items = [self.sources.items[key] for key in keys if is_definition(key)]
        declared = sum(is_declared(key) for key in keys)
        return [len(items), sum(item.code for item in items), sum(item.comments for item in items),
                len({item.path for item in items}), len({crate_of(item.key) for item in items}),
                declared, len(keys) - declared - len(items)]

    def totals(self):
        named = [(f"[{each.title}](#{each.title.strip('`').lower().replace(' ', '-')})", each.below)
                 for each in [*self.clauses, self.traits]]
        self.count_table("clause", named + [("all", self.all)])
        self.say(COMMANDS)
        self.count_table("command", self.by_command())

    def count_table(self, first, rows):
        self.say(*table([first, *COLUMNS], [(name, *self.counts(keys)) for name, keys in rows]))

    def by_command(self):
        """What is under the first clause where the commands are cut to one, and without machines."""
        parts, roots, below = self.sources.items[BY_COMMAND].parts, self.clauses[0].roots, self.sources.below
        commands = [part.left.split()[1] for part in parts if part.left]

        def only(command):
            def skips(key, part):
                if key == BY_REQUEST:
                    return "ask.Workload" in part.left
                return key == BY_COMMAND and bool(part.left) and part.left.split()[1] != command
            return skips

        def drawn(key, part):
            return key == BY_REQUEST and "ask.Document" in part.left

        rows = [(f"`{each.lower()}`", below(roots, skips=only(each))) for each in commands]
        rows += [("`workload`", below(roots, skips=drawn))]
        rows += [(f"`{each.lower()}`, no machines", below(roots, MACHINE_CRATES, only(each)))
                 for each in commands]
        printed = next(each.roots for each in self.clauses if each.title == PRINTED)
        return [*rows, ("all, no machines", below(roots, MACHINE_CRATES)),
                ("`printed`, no protocols, no document", below(printed, DOCUMENT_CRATES))]

    def section(self, section):
        below, fresh = section.below, [key for key in section.below if key not in self.stood]
        before = Counter(title for key, title in self.stood.items() if key in below and is_definition(key))
        self.say(f"## {section.title}")
        self.say(*([TRAITS, ""] if section is self.traits else []), "```", section.text, "```")
        if section is not self.clauses[0]:
            self.say(self.earlier(before, any(map(is_definition, fresh))))
        self.definitions([key for key in fresh if is_definition(key)])
        self.declarations([key for key in fresh if is_declared(key)])
        self.library([key for key in fresh if not is_definition(key) and not is_declared(key)])
        self.stood.update({key: section.title for key in fresh})

    def earlier(self, before, more):
        """How many definitions stood under the clauses above."""
        counts = " and ".join(f"{count:,} of {title}" for title, count in before.items())
        if not counts:
            return "It stands on these:" if more else "It stands on no definition."
        return f"It stands on {counts} above{', and on these:' if more else '.'}"

    def by_path(self, keys):
        """The items by file, in reading order."""
        paths = defaultdict(list)
        for key in sorted(keys, key=self.place.get):
            paths[key[0]].append(self.sources.items[key])
        return paths

    def definitions(self, keys):
        paths, last = self.by_path(keys), ""
        for path, items in paths.items():
            crate = path.split(".")[0]
            if crate != last:
                found = [item for items in paths.values() for item in items if crate_of(item.key) == crate]
                self.say(f"### {crate}: {summed(found, 'definition')}")
            self.say(f"{linked(path, path.split('.', 1)[1].replace('.', '/'))}: {head_of(path)}")
            self.say(*(f"- `{item.name}` ({item.code}): {meaning_of(item)}" for item in items))
            last = crate

    def declarations(self, keys):
        paths = self.by_path(keys)
        if paths:
            self.say(f"### Declared in the code: {summed([self.sources.items[key] for key in keys], 'item')}")
            self.say(*(f"- `{item.name}` ({item.code}), {described(item)}: {meaning_of(item)}"
                       for items in paths.values() for item in items))

    def library(self, keys):
        modules = defaultdict(list)
        for path, name in sorted(keys):
            modules[path.replace(".specs", "").replace(".declared", "")].append(f"`{name}`")
        if modules:
            self.say(f"### Of the library: {counted(len(keys), 'name')}")
            self.say(*(f"- {path}: {', '.join(names)}" for path, names in sorted(modules.items())))

    def unreached(self):
        """How many definitions of each crate no clause of `run` leads to, and how many no contract."""
        cited, rows = self.sources.below(self.sources.cited()), []
        for crate in self.sources.crates:
            keys = {key for key in self.sources.items if is_definition(key) and crate_of(key) == crate}
            rows.append((f"`{crate}`", len(keys), len(keys - self.all), len(keys - self.all - cited)))
        sums = ["all", *(sum(row[at] for row in rows) for at in (1, 2, 3))]
        self.say("## Definitions that no clause of `run` leads to")
        self.say(UNREACHED)
        heads = ["crate", "definitions", "not under `run`", "in no contract"]
        self.say(*table(heads, [row for row in rows if row[2]] + [sums]))


def main(words):
    made = Page(Sources()).text()
    if words != ["--check"]:
        PAGE.write_text(made)
        return 0
    kept = PAGE.read_text() if PAGE.exists() else ""
    names = ("docs/BELIEVE.md", "docs/BELIEVE.md by the sources")
    sys.stdout.writelines(difflib.unified_diff(kept.splitlines(True), made.splitlines(True), *names, n=1))
    return int(kept != made)


if __name__ == "__main__":
    sys.exit(main(sys.argv[1:]))
