#!/usr/bin/env python3
"""Holds the tables of docs/PROVED.md against the code of the crates.

    tools/proved.py            prints, by crate, how many public functions there are and what accounts for them
    tools/proved.py --check    prints what is missing; the exit status is 1 where anything is

It shows three things.

- Each function, law, type, trait, impl or module in backticks in the column 'By' is in the crate that its row names,
  and public there, unless the row says 'inside the crate'.
- Each clause there (`run`, clauses `done`, ..) stands as `ensures NAME` in a function that is named with it; each
  definition there (`IsWhole`) stands in the crate's specs/.
- Each public function, one that lib.rt reaches through `pub mod` and `pub use`, is named in a row of its crate, by
  itself, by its type or trait or by its module, or stands in a list below. A row whose 'By' has the word 'their' or
  'its' names what its claim names. What a type has by a trait counts as the trait's.

Sources are read by braces and keywords, so what macros make isn't seen. That a row is true is shown by reading.
"""
import collections
import pathlib
import re
import sys

ROOT = pathlib.Path(__file__).resolve().parent.parent
# The crate of the table that has no column of crates.
PROGRAM = "mangle_tool"
# What needs no name in the tables, by crate: functions, types, traits and modules. These a row means in words:
IN_WORDS = {
    "arena_core": "alloc_str concat_strs",
    "oxc_data_structures": "UnsignedInt",
    "oxc_estree": "Config ESTreeSpan",
    "syntax_lex": "GetPrecedence is_identifier_start is_identifier_start_ascii is_identifier_start_unicode "
    "is_identifier_part is_identifier_part_ascii is_identifier_part_unicode is_irregular_whitespace "
    "is_white_space_single_line is_reserved_keyword_or_global_object is_regular_line_terminator "
    "is_irregular_line_terminator",
    "syntax_sem": "ClassId ElementId NodeId RedeclarationId ReferenceId ScopeId SymbolId SemanticId GetNodeId "
    "ElementKind NodeFlags ReferenceFlags ScopeFlags SymbolFlags Reference Span",
    "tree_nodes": "Field",
    "tool_outside": "Source Sink Work",
}
# and these are public for the crates above alone, whose claims stand on them.
HELPERS = {
    "syntax_lex": "Align64",
    "tree_nodes": "Kind literals roles own_name_at get_column word_list",
    "tree_core": "is_too_large",
    "place_list": "same_number",
    "scope_tables": "Faults roles sites sets bound_place",
}

# ---- the sources

QUIET = re.compile(r"""//[^\n]*|"(?:\\.|[^"\\])*"|'(?:\\u\{\w+\}|\\x\w\w|\\.|[^'\\\n])'""", re.S)
ITEM = re.compile(
    r"(?P<attribute>#!?\[)|(?P<bracket>[{(\[])"
    r"|(?:\b(?P<public>pub)(?P<part>\([^)]*\))?\s+)?(?:const\s+(?=fn\b))?"
    r"\b(?P<word>fn|struct|enum|trait|type|const|static|mod|use|impl|ghost|macro_rules!)(?!\w)\s*(?P<name>\w*)"
)
CLAUSE = re.compile(r"\b(ensures|requires)\*?\s*(\w*)\s*$")


def behind(text, at):
    """The offset behind the bracket that closes the one at `at`."""
    depth = 0
    for found in re.finditer(r"([{(\[])|[})\]]", text[at:]):
        depth += 1 if found[1] else -1
        if depth == 0:
            return at + found.end()
    raise SyntaxError(f"a bracket stands open: {text[at:at + 40]}")


def item_end(text, at, has_block):
    """Of an item whose head goes on at `at`: where it ends, where its block begins or None, and its clauses."""
    clauses, start = set(), at
    while True:
        at += re.search(r"[;{(\[]", text[at:]).start()
        if text[at] == ";":
            return at + 1, None, clauses
        clause = CLAUSE.search(text[start:at]) if text[at] == "{" else None
        after = behind(text, at)
        if text[at] == "{" and has_block and not clause:
            return after, at, clauses
        if clause:
            start = after
            if clause[1] == "ensures":
                clauses.add(clause[2])
        at = after


Item = collections.namedtuple("Item", "word name public head block clauses")


def items(text):
    """The items of a source or a block, but for tests."""
    at, is_test = 0, False
    while found := ITEM.search(text, at):
        if found["attribute"] or found["bracket"]:
            at = behind(text, found.end() - 1)
            is_test = is_test or bool(found["attribute"] and "(test)" in text[found.start() : at])
            continue
        word = found["word"]
        at, block, clauses = item_end(text, found.end(), word not in ("type", "const", "static", "use", "ghost"))
        if not is_test:
            public = bool(found["public"] and not found["part"])
            head = text[found.end("word") : at if block is None else block]
            yield Item(word, found["name"], public, head, text[block + 1 : at - 1] if block else "", clauses)
        is_test = False


def impl_head(head):
    """The trait of an impl as it is written, or None, and the name of its type."""
    head, depth, cut = " ".join(head.replace("->", "  ").split("where")[0].split()), 0, 0
    if head.startswith("<"):
        for i, letter in enumerate(head):
            depth += {"<": 1, ">": -1}.get(letter, 0)
            if depth == 0:
                cut = i + 1
                break
    trait, _, of = head[cut:].strip().rpartition(" for ")
    return trait or None, re.sub(r"<.*", "", of.lstrip("&")).split("::")[-1].strip()


class Crate:
    """What a crate has for others: `functions` by their names, `T::f` in a type or trait, with module and clauses;
    `types`, with them traits and constants; `modules`; `impls`, pairs of trait and type; `specs`, their text; and
    `names`, also of what isn't public."""

    def __init__(self, name):
        self.functions, self.types, self.modules, self.impls, self.names = {}, set(), set(), set(), set()
        self.items, self.uses, self.methods = {}, [], collections.defaultdict(list)
        folder = ROOT / "crates" / name
        self.specs = "\n".join(path.read_text(encoding="utf-8") for path in sorted(folder.glob("specs/**/*.antt")))
        root = folder / "src/lib.rt"
        if root.exists():
            self.read(root, folder / "src", (), True)
            self.publish()

    def read(self, path, folder, module, public):
        """Takes a module's source and those below it."""
        text = QUIET.sub(lambda found: re.sub(r"[^\n]", " ", found[0]), path.read_text(encoding="utf-8"))
        for item in items(text):
            if item.word == "mod":
                below = module + (item.name,)
                if public and item.public:
                    self.modules.add(item.name)
                self.read(folder / f"{item.name}.rt", folder / item.name, below, public and item.public)
            elif item.word == "use" and item.public and public:
                front, _, names = item.head.strip(" ;").rpartition("::")
                self.uses += [(module + tuple(front.split("::")), name) for name in re.findall(r"\w+", names)]
            elif item.word == "impl":
                trait, of = impl_head(item.head)
                if trait:
                    self.impls.add((trait, of))
                else:
                    self.methods[of] += [inner for inner in items(item.block) if inner.word == "fn"]
            elif item.word not in ("ghost", "use", "macro_rules!"):
                self.items[module, item.name] = item, public and item.public
                self.names.add(item.name)
                if item.word == "trait":
                    self.methods[item.name] += [
                        inner._replace(public=True) for inner in items(item.block) if inner.word == "fn"
                    ]

    def publish(self):
        """Sorts what is public."""
        for use in self.uses:
            if use in self.items:
                self.items[use] = self.items[use][0], True
        for (module, name), (item, public) in self.items.items():
            if public and item.word == "fn":
                self.functions[name] = module, item.clauses
            elif public:
                self.types.add(name)
                for method in self.methods[name]:
                    if method.public:
                        self.functions[f"{name}::{method.name}"] = module, method.clauses
        self.names |= {f"{of}::{method.name}" for of, methods in self.methods.items() for method in methods}

    def named(self, name):
        """The public functions that the name of a function, a type, a trait or a module stands for."""
        return [
            function
            for function, (module, _) in self.functions.items()
            if function == name or function.startswith(f"{name}::") or name in self.modules and name in module
        ]

    def has(self, name):
        return name in self.functions or name in self.types or name in self.modules

    def defines(self, name):
        """Whether specs/ have a definition, `D`, or a field of one, `D.f`."""
        name, _, field = name.partition(".")
        if not name[0].isupper():
            return False
        found = re.search(rf"\bpub (?:record )?{name}\b.*?(?=\n\n|\Z)", self.specs, re.S)
        return bool(found and (not field or re.search(rf"\bpub {field} :", found[0])))


# ---- the tables

NAME = re.compile(r"`([^`]+)`")
Row = collections.namedtuple("Row", "line crate claim by")


def rows():
    """The rows of the tables, each with its crate."""
    crate = PROGRAM
    for number, line in enumerate((ROOT / "docs/PROVED.md").read_text(encoding="utf-8").splitlines(), 1):
        cells = [cell.strip() for cell in line.strip("|").split("|")]
        if line.startswith("## "):
            crate = PROGRAM
        elif line.startswith("|") and not line.startswith("|--") and "Claim" not in cells[:2]:
            if len(cells) == 4:
                crate = cells[0].strip("`") or crate
            yield Row(number, crate, *cells[-3:-1])


def functions_for(name, crate, claim, last):
    """The public functions that a name of a row stands for; a method may stand without its type, which is then the last
    one that the cell named, else one of the claim, else any."""
    for of in last, *claim:
        if f"{of}::{name}" in crate.functions:
            return [f"{of}::{name}"]
    if crate.has(name):
        return crate.named(name)
    return [function for function in crate.functions if function.endswith(f"::{name}")]


def judge(row, crate, before):
    """What a row names that isn't there, and the functions that it names; `before` are those of a row before it."""
    claim = NAME.findall(row.claim)
    words = set(re.findall(r"\w+", NAME.sub("", row.by)))
    named = [f for name in claim for f in functions_for(name, crate, (), None)] if words & {"their", "its"} else []
    near = before if words & {"both", "these"} else list(named)
    missing, of_all, last, behind_clause = [], [], None, False
    for found in NAME.finditer(row.by):
        name, ahead = found[1], row.by[: found.start()]
        inside = ahead.count("(") > ahead.count(")")
        functions = functions_for(name, crate, claim, last)
        if row.by[found.end() :].startswith(" of `"):
            of_all.append(name)
        elif name.startswith("impl "):
            if tuple(name[5:].split(" for ")) not in crate.impls:
                missing.append(name)
        elif name.endswith(">"):
            if name not in {trait for trait, _ in crate.impls}:
                missing.append(name)
        elif (functions or crate.has(name)) and not inside:
            named += functions
            near = functions if behind_clause else near + functions
            last = name if name in crate.types else name.split("::")[0] if "::" in name else last
            behind_clause = False
        elif any(name in crate.functions[function][1] for function in near) or inside and crate.defines(name):
            behind_clause = True
        elif name in crate.names and "inside the crate" in row.by or inside and functions:
            continue
        elif name not in ("requires", "ensures"):
            missing.append(name)
    for clause in of_all:
        missing += [f"{clause} of {function}" for function in near if clause not in crate.functions[function][1]]
    return missing, named


def main():
    crates = {}
    for line in (ROOT / "crates.txt").read_text(encoding="utf-8").splitlines():
        if name := re.match(r"(\w+)[^#]*:", line):
            crates[name[1]] = Crate(name[1])
    faults, named, counts, before = [], collections.defaultdict(set), collections.Counter(), []
    for row in rows():
        if row.crate not in crates:
            faults.append(f"line {row.line}: no crate `{row.crate}`")
            continue
        crate = crates[row.crate]
        missing, found = judge(row, crate, before)
        named[row.crate] |= set(found)
        before = found or before
        counts[row.crate] += 1
        for name in missing:
            why = "isn't public" if name in crate.names else "isn't there"
            faults.append(f"line {row.line}: `{name}` {why} in {row.crate}")
    for name, crate in crates.items():
        unnamed = set()
        for word in " ".join(listed.get(name, "") for listed in (IN_WORDS, HELPERS)).split():
            functions = set(functions_for(word, crate, (), None))
            if not functions - named[name]:
                faults.append(f"{name}: `{word}` is listed in this script for nothing")
            unnamed |= functions
        left = crate.functions.keys() - named[name] - unnamed
        faults += [f"{name}: no row names `{function}`" for function in crate.functions if function in left]
        if "--check" not in sys.argv[1:] and (crate.functions or counts[name]):
            print(
                f"{name}: rows {counts[name]}, public functions {len(crate.functions)}, named {len(named[name])}, "
                f"listed in this script {len(unnamed - named[name])}, missing {len(left)}"
            )
    if "--check" in sys.argv[1:]:
        for fault in faults:
            print(fault)
        return 1 if faults else 0
    return 0


if __name__ == "__main__":
    sys.exit(main())
