#!/usr/bin/env python3
"""Counts the lines that a reader must read to trust `run` and the status of the program.

    python3 docs/trusted.py [NAME..]

Definitions of these names are not followed: without `ReplayEnds`, `ExplainEnds`, `HoldsTrace`, `SelfRunEnds` and
`IsPrintedText` what is left is read to trust `check` alone. The lines are those of each definition that the contracts of `run`
and of `Status::code` reach, without comments, blank lines and imports. Types of `src` are followed, and not counted. A variable
with the name of a definition counts as that definition, so the true number is a little smaller. As a module it reads
definitions for `docs/generate`.
"""

import collections
import dataclasses
import functools
import pathlib
import re
import sys

CRATES = pathlib.Path(__file__).resolve().parent.parent / "crates"
IMPORT = re.compile(r"(?:ghost )?(?:pub )?use Rattle\.(\w+)\.specs\.([\w.'-]+?)(?:\.\{([^}]*)\}| as (\w+))?;?$")
HEAD = re.compile(r"\s*(?:(?:pub|unfoldable|opaque) )*(?:abbrev|unfoldable|opaque|record|data)(?: pub)? ([^\s:({]+)")
MUTUAL = re.compile(r"\s*abbrev mutual")
WITHIN = re.compile(r"(module _ .*)|mutual$")
PART = re.compile(r"\s+(?:pub )?((?:[\w'-]+ )+):")
WORD = re.compile(r"[A-Za-z_][\w'-]*(?:\.[A-Za-z_][\w'-]*)*|>>=|>>")
BINDER = re.compile(r"[({]((?:[\w'-]+ )+):|λ ([^.]*)\.(?:\s|$)|let ([\w'-]+) =")
CODE_USE = re.compile(r"(?:pub )?use ([\w:]+?)::(?:\{([^}]*)\}|(\w+));", re.S)
CODE_HEAD = re.compile(r"pub (enum|struct|type|trait) (\w+)")
CODE_NAME = re.compile(r"[A-Z]\w*")


def is_code(line):
    """Whether a line of definitions says something that is no comment."""
    return bool(line.strip()) and not line.lstrip().startswith("--")


@dataclasses.dataclass(eq=False)
class Definition:
    """A definition with its text, and the names that it defines: of each its role, and its line in the text."""

    path: str
    line: int
    role: str
    name: str
    sentence: str
    text: list
    parts: dict = dataclasses.field(default_factory=dict)

    @property
    def counted(self):
        """How many lines it has, without comments and blank lines."""
        return sum(1 for line in self.text if is_code(line) and not line.startswith("module _"))


@dataclasses.dataclass(eq=False)
class File:
    """A file of definitions: its head, its definitions by their names, and where its other names come from. Definitions may
    stand within others of a module, whose line is the last one of these so far."""

    path: str
    head: str = ""
    within: str = ""
    definitions: list = dataclasses.field(default_factory=list)
    named: dict = dataclasses.field(default_factory=dict)
    imports: dict = dataclasses.field(default_factory=dict)


def said(comments):
    """The sentence of comment lines."""
    texts = [line.strip().lstrip("-/!").strip() for line in comments if not line.startswith("infix")]
    return " ".join(texts).strip()


def module_file(crate, parts):
    """The file that a path of modules names, and the parts that are left of the path. A crate passes others on under their
    names."""
    while len(parts) > 1 and (CRATES / parts[0] / "src").is_dir():
        crate, *parts = parts
    folders = ("src", parts[1:]) if parts[0] == "declared" else ("specs", parts)
    folder, names = folders
    ending = ".rt" if folder == "src" else ".antt"
    for count in range(len(names), 0, -1):
        path = f"{crate}/{folder}/{'/'.join(names[:count])}{ending}"
        if (CRATES / path).exists():
            return path, names[count:]
    return f"{crate}/{folder}/{'/'.join(names)}{ending}", []


def note_import(file, found):
    """Notes what an import gives names to: a file, and the name in it, or none for the whole file."""
    path, rest = module_file(found[1], found[2].split("."))
    whole = rest[0] if rest else None
    for item in filter(None, (item.strip() for item in (found[3] or "").split(","))):
        name, _, other = item.partition(" as ")
        file.imports[other or name] = (path, whole or name)
    if not found[3]:
        file.imports[found[4] or found[2].split(".")[-1]] = (path, whole)


def roles_of(definition):
    """What the parts of a definition are called."""
    return {"record": "field", "data": "case", "mutual": "member"}.get(definition.role, "local")


def note_part(file, definition, line):
    """Notes the names that a line of a definition gives to its parts."""
    if part := PART.match(line):
        for name in part[1].split():
            definition.parts.setdefault(name, (roles_of(definition), len(definition.text)))
            if roles_of(definition) != "local":
                file.named.setdefault(name, definition)


def begun(file, line, number, comments):
    """The definition that a line begins, if it begins one."""
    if MUTUAL.match(line):
        found = Definition(file.path, number, "mutual", "", said(comments), [])
    elif head := HEAD.match(line):
        role = next((word for word in ("record", "data") if f"{word} " in line.split(head[1])[0]), "abbrev")
        first = [other for other in comments if other.startswith("infix")]
        if file.within and line.startswith(" "):
            first = [file.within]
        found = Definition(file.path, number, role, head[1], said(comments), first)
        file.named[head[1]] = found
        found.parts[head[1]] = (role, len(found.text))
    else:
        return None
    file.definitions.append(found)
    return found


def take_line(file, definition, number, line, comments):
    """Takes a line of a file, and answers the definition that goes on after it."""
    if line.startswith(("use ", "pub use ", "pub mod ")):
        if found := IMPORT.match(line):
            note_import(file, found)
        return definition
    if found := WITHIN.match(line):
        file.within = found[1] or ""
        return None
    new = begun(file, line, number, comments)
    definition = new or definition
    if definition is None:
        return None
    if new is None:
        definition.text.extend(comments)
        note_part(file, definition, line)
    definition.text.append(line)
    return definition


def specs_file(path):
    """The definitions of a file of specs."""
    file, definition, comments = File(path), None, []
    for number, line in enumerate((CRATES / path).read_text().splitlines(), 1):
        if line.lstrip().startswith("--") or line.startswith("infix"):
            comments.append(line)
            continue
        if len(comments) == number - 1 and not HEAD.match(line):
            file.head, comments = said(comments), []
        if line.strip():
            definition = take_line(file, definition, number, line, comments)
        elif definition is not None:
            definition.text.extend([*comments, ""])
        comments = []
    for definition in file.definitions:
        while definition.text and not definition.text[-1].strip():
            definition.text.pop()
        if definition.role == "mutual":
            definition.name = next((name for name, part in definition.parts.items() if part[0] == "member"), "")
    return file


def code_imports(file, crate, text):
    """Notes where the names of a file of code come from."""
    for found in CODE_USE.finditer(text):
        first, *rest = found[1].split("::")
        owner = crate if first == "crate" else first
        while rest and (CRATES / rest[0] / "src").is_dir():
            owner, *rest = rest
        if (CRATES / owner / "src" / "lib.rt").exists():
            path = f"{owner}/src/{'/'.join(rest) or 'lib'}.rt"
        else:
            path = f"{crate}/src/{found[1].replace('::', '/')}.rt"
        for item in (found[2] or found[3]).split(","):
            name, _, other = item.strip().partition(" as ")
            file.imports.setdefault(other or name, (path, name))
    for line in text.splitlines():
        if line.startswith("ghost use") and (found := IMPORT.match(line)):
            note_import(file, found)


def code_type(path, lines, start, head):
    """The type that a line of code declares, and the number of its last line."""
    first = start
    while first and lines[first - 1].startswith(("///", "#[")):
        first -= 1
    end = start
    while not lines[end].rstrip().endswith((";", "}")) or lines[end].startswith(" "):
        end += 1
    comments = [line for line in lines[first:start] if line.startswith("///")]
    found = Definition(path, start + 1, head[1], head[2], said(comments), lines[start : end + 1])
    found.parts[head[2]] = (head[1], 0)
    return found, end


def code_file(path):
    """The types of a file of code."""
    file = File(path)
    text = (CRATES / path).read_text()
    lines, number = text.splitlines(), 0
    file.head = said([line for line in lines if line.startswith("//!")])
    code_imports(file, path.split("/")[0], text)
    while number < len(lines):
        if head := CODE_HEAD.match(lines[number]):
            found, number = code_type(path, lines, number, head)
            file.definitions.append(found)
            file.named[head[2]] = found
        number += 1
    return file


@functools.cache
def loaded(path):
    """The file of this path, or nothing where there is none."""
    if not (CRATES / path).exists():
        return None
    return specs_file(path) if path.endswith(".antt") else code_file(path)


def lookup(path, name, depth=0):
    """The definition that a name of a file means, or nothing."""
    file = loaded(path)
    if file is None or name is None or depth > 4:
        return None
    if name in file.named:
        return file.named[name]
    if name in file.imports:
        return lookup(*file.imports[name], depth + 1)
    return None


def meant(file, word):
    """The definition that a word of a file means and the name of it there, or nothing."""
    if word in (">>=", ">>"):
        word = f"◌{word}◌"
    first, _, rest = word.partition(".")
    if first not in file.imports:
        found = file.named.get(first)
        if found is None or found.parts.get(first, ("",))[0] == "field":
            return None
        return found, first
    path, item = file.imports[first]
    name = rest.split(".")[0] if item is None else item
    found = lookup(path, name)
    return (found, name if name in found.parts else found.name) if found else None


def is_former(file, word):
    """Whether a word in a pattern is a case of a type and no variable."""
    found = meant(file, word)
    if found is None or "." in word:
        return bool(found)
    definition, name = found
    return definition.role in ("enum", "struct", "type") or definition.parts.get(name, ("",))[0] == "case"


def clauses(definition):
    """The clauses of a definition, each as the numbers of its lines."""
    if definition.role not in ("abbrev", "mutual"):
        return [range(len(definition.text))]
    lines = definition.text
    code = [i for i, line in enumerate(lines) if is_code(line) and not line.startswith("module _")]
    indent = lambda i: len(lines[i]) - len(lines[i].lstrip())
    base = min((indent(i) for i in code[1 if definition.role == "mutual" else 0 :]), default=0)
    starts = [*([0] if lines[0].startswith("module _") else []), *(i for i in code if indent(i) == base)]
    return [range(a, b) for a, b in zip(starts, [*starts[1:], len(lines)])]


def variables(file, definition, text):
    """The variables of a clause."""
    found = set()
    for binder in BINDER.finditer(text):
        found.update(re.findall(r"[\w'-]+", next(group for group in binder.groups() if group)))
    left = re.match(r"((?:(?! [=:] )[\s\S])*?) =(?:\s|$)", text)
    if left and definition.role in ("abbrev", "mutual"):
        words = [word[0] for word in WORD.finditer(left[1])]
        own = [word for word in words if word in definition.parts and definition.parts[word][0] != "local"]
        found.update(word for word in words if word not in own[:1] and not is_former(file, word))
    return found


def code_words(text):
    """Each word of the code of a text, with its place."""
    if not text.lstrip().startswith("--"):
        yield from WORD.finditer(text)


def mentions(definition, strict=True):
    """What a definition names: the line in its text, the place in it, the definition and its name there."""
    file = loaded(definition.path)
    if definition.path.endswith(".rt"):
        yield from code_mentions(file, definition)
        return
    around = variables(file, definition, definition.text[0]) if strict and definition.text[0].startswith("module _") else set()
    for lines in clauses(definition):
        text = "\n".join(definition.text[i] for i in lines if not definition.text[i].lstrip().startswith("--"))
        bound = around | variables(file, definition, text) if strict else set()
        for i in lines:
            for word in code_words(definition.text[i]):
                if word[0].split(".")[0] not in bound and (found := meant(file, word[0])):
                    yield i, word.span(), *found


def code_mentions(file, definition):
    """What a type of code names."""
    words = WORD if definition.role == "trait" else CODE_NAME
    for i, line in enumerate(definition.text):
        if not line.lstrip().startswith("//"):
            for word in words.finditer(line):
                found = meant(file, word[0])
                if found and found[0] is not definition:
                    yield i, word.span(), *found


def function_words(path, name):
    """The words of the contract of a public function, and its file."""
    lines = (CRATES / path).read_text().splitlines()
    start = next(i for i, line in enumerate(lines) if re.match(rf"\s*pub fn {name}\b", line))
    end = next(i for i in range(start, len(lines)) if re.match(r"\s*\{$|.*[;}]$", lines[i]) and "ensures" not in lines[i]
               and not lines[i].rstrip().endswith("result }"))
    return lines[start:end]


def top_call():
    """Where `run` stands, and the contract of it and of the status that it answers."""
    for path in sorted((CRATES / "est_tool" / "src").glob("*.rt")):
        if re.search(r"^pub fn run\b", path.read_text(), re.M):
            return f"est_tool/src/{path.name}"
    raise SystemExit("no function `run` stands in est_tool")


def contracts():
    """The functions whose contracts are promised: of each its file, its name and its lines."""
    path = top_call()
    yield path, "run", function_words(path, "run")
    status = lookup(path, re.search(r"-> (\w+)", "\n".join(function_words(path, "run")))[1])
    yield status.path, "code", function_words(status.path, "code")


def starts():
    """The definitions that the contracts cite, in their order."""
    for path, _, lines in contracts():
        file = loaded(path)
        for word in WORD.finditer("\n".join(lines)):
            if found := meant(file, word[0]):
                yield found[0]


def reached(without=()):
    """Each definition that the contracts reach, breadth first."""
    todo, found = collections.deque(starts()), {}
    while todo:
        definition = todo.popleft()
        if definition in found or definition.name in without:
            continue
        found[definition] = len(found)
        todo.extend(other for _, _, other, _ in mentions(definition, strict=False))
    return list(found)


def main():
    total, blocks = {}, 0
    for definition in reached(sys.argv[1:]):
        if definition.path.endswith(".antt"):
            total[definition.path] = total.get(definition.path, 0) + definition.counted
            blocks += 1
    for path in sorted(total):
        print(f"{total[path]:5} {path}")
    whole = sum(definition.counted for path in total for definition in loaded(path).definitions)
    print(f"{sum(total.values()):5} lines in {blocks} definitions")
    print(f"{whole:5} lines in all of their {len(total)} files")


if __name__ == "__main__":
    main()
