"""What the tree of crates says of itself: its crates, their definitions, their public calls, and counts of them."""
import re
from functools import lru_cache
from pathlib import Path

TOP = Path(__file__).resolve().parent.parent
WORD = re.compile(r"[A-Za-z_][\w-]*")
SENTENCE = re.compile(r"(.*?[^.\d]\.)(?= |$)|(.*)", re.S)
SPEC = re.compile(r"^( *)(?:(?:abbrev|unfoldable)(?: \w+)* pub|pub record|pub data|pub(?! record| data| mod| use)) ([A-Za-z_][\w-]*)", re.M)
USE = re.compile(r"(?m)^\s*use Rattle\.(\w+)\.specs\.(\w+)\.\{([^}]*)\}")
CLAUSE = re.compile(r"^\s*(requires|ensures)\b\s*(\w+)?")


def first_sentence(text):
    found = SENTENCE.match(text)
    return (found[1] or found[2]).strip().removesuffix(".")


class Crate:
    """A line of crates.txt: the heading above it, the crate's name, how many of its calls may wait, and the libraries that it names."""

    def __init__(self, group, head, below):
        self.group, self.name, *said = group, *head.split()
        self.below = below.split()
        counted = [it for it in said if it.startswith("may_wait=")]
        self.may_wait = int(counted[0].partition("=")[2]) if counted else 0
        self.folder = TOP / "crates" / self.name
        self.root = next((it for it in (self.folder / "src/lib.rt", self.folder / "src/main.rt") if it.exists()), None)

    def owns(self):
        """The first sentence of its first file."""
        lines = self.root.read_text(encoding="utf-8").splitlines()
        head = []
        for line in lines:
            if not line.startswith("//!") or (head and not line.removeprefix("//!").strip()):
                break
            head.append(line.removeprefix("//!").strip())
        return first_sentence(" ".join(head))

    def sources(self):
        return sorted(self.folder.glob("src/**/*.rt"))

    def specs(self):
        return sorted(it for it in self.folder.glob("specs/*.antt") if it.name != "Lib.antt")

    @lru_cache
    def used(self):
        """The libraries of its line that its code names; the others are cited by definitions and lemmas alone."""
        code = "\n".join(line for path in self.sources() for line in path.read_text(encoding="utf-8").splitlines()
                         if not re.match(r"\s*(//|ghost use)", line))
        return [it for it in self.below if re.search(rf"\b{it}(::|\s*!)", code)]

    def cited(self):
        return [it for it in self.below if it not in self.used()]

    def code_lines(self):
        return sum(code_lines(path) for path in self.sources() if "test" not in path.name)


def crates():
    """The crates of crates.txt, in its order."""
    found, group = [], ""
    for line in (TOP / "crates.txt").read_text(encoding="utf-8").splitlines()[1:]:
        if line.startswith("#"):
            group = line.lstrip("# ").strip()
        elif ":" in line:
            found.append(Crate(group, *line.split(":", 1)))
    return found


def code_lines(path):
    """The lines of a file without contracts, comments and imports."""
    counted = depth = 0
    for line in map(str.strip, path.read_text(encoding="utf-8").splitlines()):
        change = line.count("{") - line.count("}")
        if depth > 0:
            depth += change
        elif re.match(r"(ghost use|use|pub use|mod|pub mod|requires|ensures|ghost)\b", line):
            depth = change
        elif line and not line.startswith("//"):
            counted += 1
    return counted


def with_below(name, all_crates):
    """This crate and all crates that it stands on."""
    by_name = {it.name: it for it in all_crates}
    found, left = set(), [name]
    while left:
        one = left.pop()
        if one in by_name and one not in found:
            found.add(one)
            left += by_name[one].below
    return [by_name[it] for it in found]


@lru_cache(maxsize=None)
def definitions(path):
    """The lines of each definition of a file, and the files of other crates' definitions that it names."""
    text = path.read_text(encoding="utf-8")
    uses = {name.strip(): path_of(crate, module) for crate, module, names in USE.findall(text) for name in names.split(",")}
    found, name, indent = {}, None, 0
    for line in text.splitlines():
        bare = line.strip()
        if not bare or re.match(r"use |--", bare):
            continue
        depth = len(line) - len(line.lstrip())
        if bare.startswith("module _"):
            name = None
            continue
        head = re.match(r"^ *(?:abbrev(?: pub)?|unfoldable(?: pub)?|pub record\b|record\b|pub data\b|data\b|pub) +([A-Za-z_◌][^\s:({]*)", line)
        is_field = head and re.match(r"pub (?!record\b|data\b)", bare) and name and depth > indent
        other = re.match(r"^ *([A-Za-z_][\w-]*) :(?!≡)", line)
        if head and not is_field:
            name, indent = head[1], depth
        elif other and (name is None or depth <= indent):
            name, indent = other[1], depth
        if name:
            found.setdefault(name, []).append(line)
    return found, uses


@lru_cache(maxsize=None)
def spans(path):
    """Where each definition of a file stands: its first line, with the comment above it, and the line behind its last one."""
    lines = path.read_text(encoding="utf-8").splitlines()
    own, found = definitions(path)[0], {}
    for name, body in own.items():
        first = lines.index(body[0])
        end = first
        for line in body:
            end = lines.index(line, end) + 1
        while first and lines[first - 1].lstrip().startswith("-- ") and not lines[first - 1].lstrip().startswith("-- ----"):
            first -= 1
        found[name] = first, end
    return found


def text_of(path, name):
    """A definition as it stands in its file, with the comment above it and those inside."""
    first, end = spans(path)[name]
    return path.read_text(encoding="utf-8").splitlines()[first:end]


def path_of(crate, module):
    path = TOP / "crates" / crate / "specs" / f"{module}.antt"
    return path if path.exists() else None


def reach(*starts):
    """The definitions that these need, themselves among them, each with its lines; a start is CRATE.File.Name."""
    seen, left = {}, []
    for start in starts:
        crate, file, name = start.split(".")
        left.append((path_of(crate, file), name))
        if left[-1][0] is None or name not in definitions(left[-1][0])[0]:
            raise LookupError(f"{start} is no definition")
    while left:
        path, name = left.pop()
        own, uses = definitions(path)
        if (path, name) in seen or name not in own:
            continue
        seen[path, name] = len(own[name])
        for word in set(WORD.findall("\n".join(own[name]))):
            if word in own and word != name:
                left.append((path, word))
            elif uses.get(word):
                left.append((uses[word], word))
    return seen


def says(path):
    """What the comment at the head of a file of definitions says."""
    head = []
    for line in path.read_text(encoding="utf-8").splitlines():
        if not line.startswith("--"):
            break
        head.append(line.removeprefix("--").strip())
    return " ".join(head).removesuffix(".")


def names_of(path):
    """The public names of a file of definitions, but for the fields of its records."""
    found, depth = [], {}
    for indent, name in SPEC.findall(path.read_text(encoding="utf-8")):
        found.append((len(indent), name))
    least = min((it for it, _ in found), default=0)
    own = definitions(path)[0]
    return list(dict.fromkeys(name for at, name in found if name in own and (at == least or own[name])))


def calls(path):
    """The public calls of a source file: each with the first sentence of its comment, and its clauses, by kind and name, if it has one."""
    found, said, scope = [], [], ""
    clauses = None
    for line in path.read_text(encoding="utf-8").splitlines():
        bare = line.strip()
        if re.match(r"(impl|pub trait)\b", line):
            scope = scope_of(line)
        elif line.startswith("}"):
            scope = ""
        if bare.startswith("///"):
            said.append(bare.removeprefix("///").strip())
            continue
        head = re.match(r"\s*pub (?:const )?fn (\w+)", line) or (scope.startswith("trait ") and re.match(r"\s+fn (\w+)", line))
        if head:
            clauses = []
            found.append((scope, head[1], first_paragraph(said), clauses))
        elif clauses is not None and (clause := CLAUSE.match(line)):
            law = re.match(r"\s*ensures \{ (\w+) \}$", line)
            clauses.append((clause[1], clause[2] or (law[1] if law else "")))
        if bare and not bare.startswith("#["):
            said = []
        if line.rstrip() in ("{", "    {") or re.match(r"\s*}$", line):
            clauses = None
    return found


def first_paragraph(said):
    text = " ".join(said[:said.index("")] if "" in said else said)
    return first_sentence(text)


def scope_of(line):
    """The type or the trait of a block."""
    trait = re.match(r"pub trait (\w+)", line)
    if trait:
        return f"trait {trait[1]}"
    line = re.sub(r"^impl\s*", "", line)
    depth = 0
    if line.startswith("<"):
        for at, char in enumerate(line):
            depth += {"<": 1, ">": -1}.get(char, 0)
            if depth == 0:
                line = line[at + 1:].strip()
                break
    return re.sub(r"<.*", "", line.split(" for ")[-1]).split(" ")[0].rstrip("{")
