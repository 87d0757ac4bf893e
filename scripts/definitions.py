"""The definitions of specs/, the declarations of the code, and what the names in them stand for.

It reads texts and proves nothing: a name stands for what the `use` lines of its file say, unless the text
binds it. `scripts/believe.py` writes docs/BELIEVE.md by it.
"""

import re
from dataclasses import dataclass, field
from pathlib import Path

ROOT = Path(__file__).resolve().parent.parent
CRATES = ROOT / "crates"

# The constructors of the library that begin with a small letter: in a pattern they bind nothing.
SMALL_CONSTRUCTORS = {"zero", "suc", "true", "false", "pos", "neg"}

DEFINITION = re.compile(r"^( *)(abbrev pub|unfoldable pub|pub record|pub data) (\S+)")
OTHER_ITEM = re.compile(r"^ *(use|pub use|pub mod|infix\w*|module|pub \S+ :|[^\s:=(){}]+ : )")
DECLARATION = re.compile(r"^(?:pub(?:\(\w+\))? )?(enum|struct|const|trait) (\w+)")
MEMBER = re.compile(r"^ +ghost (\w+): (\{.*\});")
USE = re.compile(r"^ *(?:pub )?(?:ghost )?use (?:Rattle\.)?([\w.:]+?)(?:(?:\.|::)\{(.*?)\})?(?: as (\w+))?;?$",
                 re.M | re.S)
TOKEN = re.compile(r"[(){},;]|[^\s(){},;]+")
BINDERS = re.compile(r"λ ([^.(){}]+?)\. |[({]([^(){}:;,=]+) : |let (\S+) |(\S+) ←|^ *pub (\S+) : ", re.M)


@dataclass
class Part:
    """A clause: the patterns to the left of its `=`, and the rest. Else the left side is empty."""
    left: str
    right: str


@dataclass
class Item:
    """A definition, or a declaration of the code; `code` and `comments` count its lines."""
    path: str
    kind: str
    name: str
    meaning: str
    code: int
    comments: int
    parts: list
    bound: set = field(default_factory=set)

    @property
    def key(self):
        return self.path, self.name


def crate_of(key):
    return key[0].split(".")[0]


def is_definition(key):
    return key[0].startswith("nys") and ".specs." in key[0]


def is_declared(key):
    return key[0].startswith("nys") and ".src." in key[0]


def module_of(file):
    """`nys_rules.specs.View` for the file of that name."""
    return ".".join(file.relative_to(CRATES).with_suffix("").parts)


def file_of(module):
    suffix = ".rt" if ".src." in module else ".antt"
    return (CRATES / module.replace(".", "/")).with_suffix(suffix)


def bare_text(text):
    """The text without its strings and its lines of comment."""
    text = re.sub(r'"(?:[^"\\]|\\.)*"', "", text)
    return re.sub(r"^\s*(--|//).*$", "", text, flags=re.M)


def comment_text(lines, marks):
    """Lines of comment as one line of text."""
    return " ".join(line.strip().lstrip(marks).strip() for line in lines)


def is_comment(line):
    return line.strip().startswith(("--", "//"))


def indent(line):
    return len(line) - len(line.lstrip(" "))


# The definitions of a file.

def ends_item(line, depth):
    """The line is no line of the item above it."""
    return indent(line) <= depth and (is_comment(line) or DEFINITION.match(line) or OTHER_ITEM.match(line))


def item_lines(lines, depth):
    """The lines of the item that stands first, and how many lines are behind them at the least."""
    end = next((at for at, line in enumerate(lines) if at > 0 and ends_item(line, depth)), len(lines))
    return [line for line in lines[:end] if line.strip()], end


def split_clause(text):
    """A clause, taken apart at its first `=` outside of brackets."""
    depth = 0
    for found in re.finditer(r"[(){}]| =(?=\s)", text):
        depth += {"(": 1, "{": 1, ")": -1, "}": -1}.get(found[0], 0)
        if depth == 0 and found[0] == " =":
            return Part(text[:found.start()], text[found.end():])
    return Part("", text)


def parts_of(kind, lines, depth):
    """A record or data is one part; a function is its signature and its clauses."""
    if kind in ("record", "data"):
        return [Part("", "\n".join(lines))]
    starts = [at for at, line in enumerate(lines) if at > 0 and indent(line) == depth
              and not line.strip().startswith(("}", ")", "unfolding "))]
    pieces = ["\n".join(lines[here:there]) for here, there in zip([0] + starts, starts + [len(lines)])]
    return [Part("", pieces[0])] + [split_clause(piece) for piece in pieces[1:]]


def definition(module, head, body, comment):
    """The item of a definition, from its first line, its lines and the comment above it."""
    kind, inner = head[2].replace("pub", "").strip(), sum(map(is_comment, body))
    return Item(module, kind, head[3], comment_text(comment, "-"), len(body) - inner, len(comment) + inner,
                parts_of(kind, body, len(head[1])))


def read_definitions(file):
    """The definitions of a file in their order; those of a section have its parameters."""
    lines, at, comment, section = file.read_text().splitlines(), 0, [], ""
    while at < len(lines):
        line, head, count = lines[at], DEFINITION.match(lines[at]), 1
        if head:
            body, count = item_lines(lines[at:], len(head[1]))
            item = definition(module_of(file), head, body, comment)
            if head[1]:
                item.parts, item.bound = item.parts + [Part("", section)], binders(section)
            yield item
        section = line if line.startswith("module _") else section
        comment = comment + [line] if is_comment(line) else comment if line.startswith("infix") else []
        at += count


# The declarations of a source file.

def declaration_lines(lines):
    """The lines of the declaration that stands first: it ends there, or with a closing line."""
    if lines[0].endswith((";", "}")):
        return lines[:1]
    return lines[:next(at for at, line in enumerate(lines) if line[:1] in ("}", ")", "]")) + 1]


def docs_above(lines, at):
    """The lines of `///` above a line, over its attributes."""
    docs = []
    while at > 0 and lines[at - 1].lstrip().startswith(("///", "#[")):
        at -= 1
        docs = [lines[at]] + docs if "///" in lines[at] else docs
    return docs


def model_of(text, name):
    """What contracts see of a struct in place of its fields, where it has a model."""
    model = re.search(rf"^impl(?:<.*?>)? Model for {name}\b.*?^}}", text, re.M | re.S)
    shown = re.compile(r"ghost (?:Value|view|invariant) = (\{.*?\});$", re.M | re.S)
    return "\n".join(shown.findall(model[0])) if model else ""


def held_by(kind, body):
    """The names in a declaration, without those of variants."""
    body = [re.sub(r"^    \w+", "", line) for line in body[1:]] if kind == "enum" else body
    return re.sub(r"\W+", " ", bare_text("\n".join(body)))


def declaration(file, head, body, docs):
    """The item of an enum, a struct or a constant."""
    model = model_of(file.read_text(), head[2])
    kind = head[1] + (" with a model" if model else "")
    code = [line for line in body if line and not is_comment(line)]
    comments = len(docs) + len(body) - len(code)
    parts = [Part("", model or held_by(head[1], body))]
    return Item(module_of(file), kind, head[2], comment_text(docs, "/"), len(code), comments, parts)


def read_declarations(file):
    """The enums, structs, constants and ghost members of traits of a source file."""
    lines, trait = file.read_text().splitlines(), ""
    for at, line in enumerate(lines):
        head, member = DECLARATION.match(line), MEMBER.match(line)
        docs = docs_above(lines, at)
        if head and head[1] != "trait":
            yield declaration(file, head, declaration_lines(lines[at:]), docs)
        if member and trait:
            name, parts = f"{trait}.{member[1]}", [Part("", member[2])]
            yield Item(module_of(file), "ghost member", name, comment_text(docs, "/"), 1, len(docs), parts)
        trait = head[2] if head and head[1] == "trait" else "" if line == "}" else trait


# What a name stands for.

def binders(text):
    """The names that a text binds: by functions, fields, `let` and `do`."""
    return {name for groups in BINDERS.findall(text) for group in groups for name in group.split()}


def names_in(part, outer=frozenset()):
    """The free names of a part, each with its first field. A name before `=` is a label or is bound."""
    left, tokens = TOKEN.findall(part.left), TOKEN.findall(part.right)
    free = [token for token in left if "." in token or not token[0].islower() or token in SMALL_CONSTRUCTORS]
    bound = outer | (set(left) - set(free)) | binders(part.right)
    used = [token for token, after in zip(tokens, tokens[1:] + [""]) if after not in ("=", "←")]
    for token in free + [token for token in used if token.partition(".")[0] not in bound]:
        head, _, tail = token.partition(".")
        yield head, tail.partition(".")[0]


def used_names(text, crate):
    """What the `use` lines let each name stand for: a name of a module, or a module."""
    names = {}
    for path, listed, alias in USE.findall(text):
        path = re.sub(r"^crate\b", crate, path.replace("::", "."))
        for name in filter(None, re.split(r"[\s,]+", listed)):
            names.update({part: (path, name) for part in name.split("◌") if part})
        if not listed:
            above, _, last = path.rpartition(".")
            names[alias or last] = (path, "") if ".specs" in path else (above, last)
    return names


def crates_in_order():
    """The crates, each behind those that it stands on, and else as crates.txt has them."""
    lines = [line for line in (ROOT / "crates.txt").read_text().splitlines() if re.match(r"\w+:", line)]
    needs, ordered = {line.split(":")[0]: line.split(":")[1].split() for line in lines}, []

    def place(crate):
        for below in needs[crate]:
            if below in needs and below not in ordered:
                place(below)
        if crate not in ordered:
            ordered.append(crate)

    for crate in needs:
        place(crate)
    return ordered


def spec_files(crate):
    """The files of definitions of a crate, in the order of its Lib.antt."""
    lib = CRATES / crate / "specs" / "Lib.antt"
    names = re.findall(r"^pub mod (\w+)", lib.read_text(), re.M) if lib.exists() else []
    return [CRATES / crate / "specs" / f"{name}.antt" for name in names]


def source_files(crate):
    return sorted((CRATES / crate / "src").glob("*.rt"))


class Sources:
    """All definitions and declarations by key, a definition behind those that it names."""

    def __init__(self):
        self.items, self.by_name, self.scopes, self.named = {}, {}, {}, {}
        self.crates = crates_in_order()
        for crate in self.crates:
            read = [item for file in spec_files(crate) for item in read_definitions(file)]
            declared = [item for file in source_files(crate) for item in read_declarations(file)]
            self.items.update({item.key: item for item in read + declared})
            self.by_name.update({(crate, item.name): item.key for item in declared})
        self.own = {}
        for path, name in self.items:
            self.own.setdefault(path, {}).update({part: (path, name) for part in name.split("◌") if part})

    def scope(self, module):
        """What the names of a file stand for: its own, and those that it uses."""
        if module not in self.scopes:
            used = used_names(bare_text(file_of(module).read_text()), module.split(".")[0])
            self.scopes[module] = {**used, **self.own.get(module, {})}
        return self.scopes[module]

    def resolve(self, path, name):
        """The key for a name of a module: of an item, or of the library."""
        crate = path.split(".")[0]
        if crate not in self.crates:
            return (path, name) if re.search(r"\.[A-Z]", path) else None
        if (path, name) in self.items:
            return path, name
        if ".specs.declared" in path:
            return self.generated(crate, path, name)
        if ".specs" not in path:
            return self.by_name.get((crate, name)) or self.passed_on(crate, name)
        owner = tuple(path.rsplit(".", 1))
        return owner if owner in self.items else None

    def generated(self, crate, path, name):
        """The declaration from which a name is made, as `fold-Expr` or a variant."""
        wanted = path.split(".")[-2:] if path.endswith("TheVariants") else name.split("-") + path.split(".")
        return next((self.by_name[crate, each] for each in wanted if (crate, each) in self.by_name), None)

    def passed_on(self, crate, name):
        """The declaration of another crate that a crate passes on."""
        path, passed = self.scope(f"{crate}.src.lib").get(name, (crate, ""))
        return self.resolve(path, passed) if passed and not path.startswith(crate) else None

    def stands_for(self, scope, head, tail=""):
        """The key for a name with its first field, which may be a member of a trait."""
        path, name = scope.get(head, ("", ""))
        key = self.resolve(path, name or tail)
        return self.by_name.get((crate_of((path, "")), f"{name}.{tail}"), key)

    def keys_in(self, scope, text):
        """The keys that a text names."""
        return {self.stands_for(scope, *name) for name in names_in(Part("", bare_text(text)))} - {None}

    def named_by(self, key):
        """The keys that each part of an item names."""
        if key not in self.named:
            item = self.items.get(key)
            scope = self.scope(item.path) if item else {}
            self.named[key] = [(part, self.part_keys(item, part, scope)) for part in item.parts] if item else []
        return self.named[key]

    def part_keys(self, item, part, scope):
        part = Part(bare_text(part.left), bare_text(part.right))
        return {self.stands_for(scope, *name) for name in names_in(part, item.bound)} - {None, item.key}

    def below(self, roots, without=frozenset(), skips=lambda key, part: False):
        """The keys under the roots: without those of some crates, and of parts that are skipped."""
        seen, todo = set(), list(roots)
        while todo:
            key = todo.pop()
            if key not in seen and crate_of(key) not in without:
                seen.add(key)
                todo += [each for part, keys in self.named_by(key) if not skips(key, part) for each in keys]
        return seen

    def cited(self):
        """The definitions that the `ghost use` lines of the code name."""
        scopes = [self.scope(module_of(file)) for crate in self.crates for file in source_files(crate)]
        keys = {self.resolve(path, name) for scope in scopes for path, name in scope.values() if name}
        return {key for key in keys if key and is_definition(key)}
