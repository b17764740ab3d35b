"""What `tools/pages` reads of the sources: the public items of a crate, each with its comment, its
signature, its clauses and what these cite."""
import dataclasses
import pathlib
import re

ROOT = pathlib.Path(__file__).resolve().parent.parent
CRATES = ROOT / "crates"

ITEM = re.compile(r"pub (?:const )?(fn|struct|enum|trait|type|const) (\w+)")
METHOD = re.compile(r"    (?:pub )?(?:const )?fn (\w+)")
IMPL = re.compile(r"impl(?:<[^{]*?>)? (?:(\w+)(?:<.*?>)? for )?(\w+)")
CLAUSE = re.compile(r"\s*(requires|ensures)(\*?)(?: (\w+))? \{")
USE = re.compile(r"^pub use ([\w:]+)(?:::\{([^}]*)\})?;", re.MULTILINE)
CITED = re.compile(r"^ghost use Rattle\.(\w+)\.specs\.[\w.]+\.\{([^}]*)\}", re.MULTILINE)
MODULE = re.compile(r"^pub mod (\w+);", re.MULTILINE)
DEFINITION = re.compile(
    r"^(?:abbrev |data |record )*pub (?:abbrev |data |record )*(?!mod |use )([^\s(){}:;,.]+)(?= [:(])", re.MULTILINE
)
TYPE = re.compile(r"^(?:pub(?:\(\w+\))? )?(?:struct|enum|trait|type) (\w+)", re.MULTILINE)


@dataclasses.dataclass
class Clause:
    """A clause of a contract: `requires` or `ensures`, its name, its comment, and its text."""

    kind: str
    name: str
    comment: str
    text: str
    line: int


@dataclasses.dataclass
class Item:
    """A public item: its name, with its type in front if it is a method."""

    name: str
    kind: str
    signature: str
    comment: list
    clauses: list
    path: pathlib.Path
    line: int

    @property
    def crate(self):
        return self.path.relative_to(CRATES).parts[0]

    @property
    def place(self):
        return f"../{self.path.relative_to(ROOT)}#L{self.line}"


def items_of(path):
    """The public items of a source file, in order."""
    lines = path.read_text().split("\n")
    found, comment, owner, public = [], [], "", False
    for number, line in enumerate(lines):
        stripped = line.strip()
        if stripped.startswith("///"):
            comment.append(stripped[3:].strip())
            continue
        if stripped.startswith("#["):
            continue
        block = IMPL.match(line)
        if block:
            # A method of a trait is described where the trait is.
            owner, public = block[2], block[1] is None
        elif line == "}":
            owner = ""
        item, method = ITEM.match(line), METHOD.match(line) if owner else None
        if item:
            found.append(item_at(lines, number, item[2], item[1], comment, path))
            owner, public = (item[2], True) if item[1] == "trait" else ("", False)
        elif method and public and (stripped.startswith("pub") or is_trait(found, owner)):
            name = f"{owner}::{method[1]}"
            found.append(item_at(lines, number, name, "fn", comment, path))
        comment = []
    return found


def is_trait(found, owner):
    return any(item.kind == "trait" and item.name == owner for item in found)


def item_at(lines, number, name, kind, comment, path):
    indent = lines[number][: len(lines[number]) - len(lines[number].lstrip())]
    if kind == "fn":
        signature, clauses = head_of(lines, number, indent)
    else:
        signature, clauses = body_of(lines, number, indent, kind), []
    return Item(name, kind, signature, comment, clauses, path, number + 1)


def head_of(lines, number, indent):
    """The signature of a function, on one line, and its clauses."""
    words, clauses, comment = [], [], []
    for at, line in enumerate(lines[number:], number):
        clause = CLAUSE.match(line)
        if clause:
            kind = clause[1] + clause[2]
            clauses.append(Clause(kind, clause[3] or "", " ".join(comment), line[clause.end() :], at + 1))
            comment = []
        elif line.strip().startswith("//"):
            comment.append(line.strip()[2:].strip())
        elif clauses and line != indent + "{" and line != indent + "{}":
            clauses[-1].text += " " + line.strip()
        elif not clauses:
            words.append(line.strip().removesuffix("{}").removesuffix("{").rstrip(" ;"))
        ends = ("};",) if clauses else (" {", " {}", ";")
        if line.startswith(indent + "{") or line == indent + "}" or line.endswith(ends):
            break
    for clause in clauses:
        clause.text = clause.text.strip().removesuffix(";").removesuffix("}").strip()
    text = " ".join(word for word in words if word)
    text = text.replace("( ", "(").replace(", )", ")").replace("< ", "<").replace(", >", ">")
    return text, clauses


def body_of(lines, number, indent, kind):
    """A type as it is declared, without comments and members of its contract."""
    if kind in ("trait", "type", "const") or lines[number].endswith((";", "}")):
        return lines[number].strip().removesuffix("{").strip().rstrip(";")
    fields = []
    for line in lines[number + 1 :]:
        if line == indent + "}":
            break
        text = line.strip()
        if text and not text.startswith(("//", "#", "ghost")):
            fields.append(text.rstrip(","))
    shown = [field for field in fields if kind == "enum" or field.startswith("pub ")]
    hidden = [] if len(shown) == len(fields) else [".."]
    inside = ", ".join(field.removeprefix("pub ") for field in shown) or ""
    inside = ", ".join(filter(None, [inside, *hidden]))
    return f"{lines[number].strip().removesuffix('{').strip()} {{ {inside} }}"


def source(crate, *modules):
    """The file of a module of a crate."""
    if not modules:
        return CRATES / crate / "src/lib.rt"
    return (CRATES / crate / "src").joinpath(*modules).with_suffix(".rt")


def public_names(crate, modules):
    """What a module passes on: pairs of a path, as its crate sees it, and a name."""
    text = source(crate, *modules).read_text()
    for path, names in USE.findall(text):
        if names:
            yield from ((path, name.strip()) for name in names.split(",") if name.strip())
        else:
            yield tuple(path.rsplit("::", 1))


def module_items(crate, modules=()):
    """The items that a user finds in a module: its own, and those that it passes on."""
    own = items_of(source(crate, *modules)) if modules else []
    types = {item.name for item in own}
    methods = [
        item
        for file in files_of(crate, modules)[1:]
        for item in items_of(file)
        if "::" in item.name and item.name.split("::")[0] in types
    ]
    passed_on = [
        item
        for path, name in public_names(crate, modules)
        for item in resolved(crate, modules, path, name)
    ]
    return sorted(own + methods + passed_on, key=lambda item: item.name.split("::")[0].lower())


def resolved(crate, modules, path, name):
    """The item of this name at this path, with its methods; nothing if it is a module."""
    parts = path.split("::")
    if parts[0] == "crate":
        modules, parts = (), parts[1:]
    elif (CRATES / parts[0]).is_dir():
        crate, modules, parts = parts[0], (), parts[1:]
    place = (*modules, *parts)
    if not source(crate, *place).exists():
        place = tuple(parts)
    if not source(crate, *place).exists():
        return []
    own = [
        item
        for file in files_of(crate, place)
        for item in items_of(file)
        if item.name.split("::")[0] == name
    ]
    if own:
        return own
    for further, again in public_names(crate, place):
        if again == name:
            return resolved(crate, place, further, name)
    return []


def files_of(crate, modules):
    """The file of a module, and for methods those of its private modules."""
    main = source(crate, *modules)
    inner = main.with_suffix("") if modules else None
    return [main, *sorted(inner.glob("*.rt"))] if inner and inner.is_dir() else [main]


def modules_of(crate, modules=(), title=""):
    """The modules of a crate that a user can name: title, crate and path of each."""
    title = title or crate
    yield title, crate, modules
    if not modules:
        for path, name in sorted(public_names(crate, ()), key=lambda pair: pair[1]):
            parts = path.split("::")
            if (CRATES / parts[0]).is_dir() and source(parts[0], *parts[1:], name).exists():
                yield f"{crate}::{name}", parts[0], (*parts[1:], name)
    for name in MODULE.findall(source(crate, *modules).read_text()):
        yield from modules_of(crate, (*modules, name), f"{title}::{name}")


def plain(text):
    """A comment as it stands on a page: without the targets of its links."""
    return re.sub(r"\[(`[^`]*`)\](?:\([^)]*\))?", r"\1", text)


def sentences(text):
    """The sentences of a text."""
    return re.split(r"(?<=[.!?:])\s+(?=[A-Z`*(])", text)


def first_sentence(text):
    """What a comment says first. A sentence that goes on in a list ends before it."""
    first = plain(sentences(text)[0]) if text else ""
    return f"{first.removesuffix(':')}." if first.endswith(":") else first


def first_of_module(path):
    """What a source says of itself first."""
    words = []
    for line in path.read_text().split("\n"):
        if not line.startswith("//! "):
            break
        words.append(line[4:].strip())
    return first_sentence(" ".join(words))


def paragraph(comment):
    """The first paragraph of a comment, without a list that it leads to."""
    text = " ".join(comment[: comment.index("")] if "" in comment else comment)
    if not text.endswith((".", ")")):
        text = text[: text.rfind(". ") + 1]
    return text


def errors(comment):
    """What a comment says of errors."""
    if "# Errors" not in comment:
        return ""
    rest = comment[comment.index("# Errors") + 1 :]
    return plain(" ".join(rest[: rest.index("")] if "" in rest else rest))


def cited(path):
    """The names that a source takes from the definitions of this repository, each with the crate."""
    return {
        name.strip(): crate
        for crate, names in CITED.findall(path.read_text())
        if (CRATES / crate).is_dir()
        for name in names.split(",")
    }


def definitions(crate):
    """The definitions of a crate: name, file, line and the comment before each."""
    for file in sorted((CRATES / crate / "specs").rglob("*.antt")):
        comment = []
        for number, line in enumerate(file.read_text().split("\n"), 1):
            said = line.strip()
            found = re.match(r"(?:abbrev |data |record )*pub (?:abbrev |data |record )*([\w-]+)", said)
            if found:
                yield found[1], file, number, " ".join(comment)
            comment = [*comment, said[3:]] if said.startswith("-- ") and not said.startswith("-- --") else []


def crates_with_uses():
    """The crates, as crates.txt lists them, each with its whole line."""
    for line in (ROOT / "crates.txt").read_text().split("\n"):
        if ":" in line and not line.startswith("#"):
            yield line.split(":")[0].split(" ")[0], line


def names_with_two_meanings():
    """The names of definitions and types that two crates have of which one uses the other, each with
    these crates. Tests do not count."""
    uses = {crate: line.split(":")[1].split() for crate, line in crates_with_uses()}
    crates_of = {}
    for crate in uses:
        files = [(DEFINITION, file) for file in (CRATES / crate / "specs").rglob("*.antt")]
        files += [
            (TYPE, file) for file in (CRATES / crate / "src").rglob("*.rt") if "tests" not in file.parts
        ]
        for pattern, file in files:
            for name in pattern.findall(file.read_text()):
                crates_of.setdefault(name, set()).add(crate)
    return {
        name: sorted(crates)
        for name, crates in sorted(crates_of.items())
        if any(lower in uses[upper] for upper in crates for lower in crates)
    }
