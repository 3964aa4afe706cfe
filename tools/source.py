"""Reads the crates: the declarations of specs/ and of the files of lemmas in proofs/, the types and contracts of src/, the proof files; and to what each
name refers.

A module of specs/, or a file of lemmas, is split by its layout into declarations; a name is resolved as the language does: a local (parameter, pattern, λ, let), a
declaration of the same file, or what a `use` line brings in, renamed or qualified. What cannot be resolved is an error, never passed over.
"""

import io
import os
import re
import subprocess
import tarfile
from collections import namedtuple

# The constructors of the toolchain's types: in a pattern these are no variables.
LIBRARY_CONSTRUCTORS = {
    "zero", "suc", "true", "false", "[]", "∷", "inl", "inr", "nan", "inf", "fin", "pos", "negsuc", "refl", "yes", "no", "tt", "⊤", "none", "some",
}

# Reserved words and what every file sees without a `use` line.
WORDS = {
    "data", "record", "deriving", "module", "where", "use", "mod", "pub", "package", "using", "open", "as", "unfoldable", "abbrev", "axiom",
    "unfold", "unfolding", "mutual", "infix", "infixl", "infixr", "elim", "let", "in", "do", "λ", "∀", "Type", "=", ":", "→", "_", "|", "↦", "[", "]",
}
PRIM = {"×", "↔", "¬", "⊥", "⊤", "Unit", "absurd", "rw", "rw⁻¹", "simp", "search", "grw", "cc", "omega", "cap", "refl", "yes", "no"}
# The words of a contract: what is returned, and the value of a place, before and after the call; then those of the older spelling.
CONTRACT_WORDS = {"result", "self", "now", "⌜", "⌝", "∗"}

MARKS = ("unfoldable", "abbrev", "axiom", "pub")
DEFINITIONS = ("abbrev", "unfoldable", "record", "data", "type")


class Problem(Exception):
    """What is wrong with the sources or with what was asked for."""


# ---- the files

class Tree:
    """The files of crates.txt's crates, of the folder or of a git revision."""

    def __init__(self, files):
        self.files = files
        if "crates.txt" not in files:
            raise Problem("there is no crates.txt")
        self.below = {}
        for line in files["crates.txt"].splitlines():
            line = line.split("#")[0].strip()
            if line:
                # `staticlib` after the name says that it is built as a static library
                name, _, names = line.partition(":")
                self.below[name.split()[0]] = names.split()

    @staticmethod
    def of_folder(root):
        files = {}
        for top, folders, names in os.walk(os.path.join(root, "crates")):
            # what rt made is no source
            folders[:] = sorted(folder for folder in folders if folder != "out")
            for name in names:
                if name.endswith((".antt", ".rt")):
                    path = os.path.join(top, name)
                    with open(path, encoding="utf-8") as file:
                        files[os.path.relpath(path, root)] = file.read()
        path = os.path.join(root, "crates.txt")
        if os.path.isfile(path):
            with open(path, encoding="utf-8") as file:
                files["crates.txt"] = file.read()
        return Tree(files)

    @staticmethod
    def of_revision(root, revision):
        found = subprocess.run(["git", "-C", root, "rev-parse", "--verify", "--quiet", revision + "^{commit}"], capture_output=True)
        if found.returncode:
            raise Problem(f"git has no revision {revision}")
        commit = found.stdout.decode().strip()
        packed = subprocess.run(["git", "-C", root, "archive", commit], capture_output=True)
        if packed.returncode:
            raise Problem(packed.stderr.decode().strip())
        files = {}
        with tarfile.open(fileobj=io.BytesIO(packed.stdout)) as archive:
            for member in archive:
                if member.isfile() and (member.name == "crates.txt" or member.name.startswith("crates/") and member.name.endswith((".antt", ".rt"))):
                    files[member.name] = archive.extractfile(member).read().decode("utf-8")
        return Tree(files)

    def of(self, crate, part):
        """The files of a crate's folder src, specs or proofs, by their names in it."""
        start = f"crates/{crate}/{part}/"
        return {path[len(start):]: text for path, text in self.files.items() if path.startswith(start)}

    def lemmas_of(self, crate):
        """The files of lemmas in a crate's proofs/, by their names; what stands deeper is of one function each."""
        return {path: text for path, text in self.of(crate, "proofs").items() if "/" not in path and path != "Lib.antt"}

    def in_order(self):
        """The crates, each after those below it, otherwise as crates.txt lists them."""
        order = []

        def visit(crate, above):
            if crate in order or crate not in self.below:
                return
            if crate in above:
                raise Problem(f"crates.txt: {crate} is below itself")
            for name in self.below[crate]:
                visit(name, above + [crate])
            order.append(crate)

        for crate in self.below:
            visit(crate, [])
        return order


# ---- tokens

Token = namedtuple("Token", "text line start end")
TOKEN = re.compile(r"""\s+|\{-.*?-\}|--[^\n]*|(?P<token>"(?:\\.|[^"\\])*"|«[^»]*»|[(){}.;,@]|[^\s(){}.;,@"«»]+)""", re.S)


def tokens_of(text, line=1):
    """The tokens of a text of specs/ or of a contract, without comments and layout."""
    found, last, at = [], 0, line
    for match in TOKEN.finditer(text):
        at += text.count("\n", last, match.start())
        last = match.start()
        if match.group("token"):
            found.append(Token(match.group("token"), at, match.start(), match.end()))
    return found


def is_name(text):
    return text not in "(){}.;,@" and not text.startswith('"')


def is_number(text):
    return text[0].isdigit()


def parts_of(name):
    """The words that an operator is written with: `+` of `◌+◌`, and of the older `_+_`. In other names an underscore joins words."""
    if "◌" in name:
        return [part for part in name.split("◌") if part]
    if len(name) > 1 and (name.startswith("_") or name.endswith("_")):
        return [part for part in name.split("_") if part]
    return [name]


# ---- declarations

class Section:
    """A line `module _ (..) where`, or `mutual`."""

    def __init__(self, lines, tokens, line):
        self.lines, self.tokens, self.line = lines, tokens, line


class Declaration:
    """A declaration of specs/, or (sort type) an enum or struct of src/."""

    def __init__(self, crate, module, name, sort, is_pub, line):
        self.crate, self.module, self.name, self.sort, self.is_pub, self.line = crate, module, name, sort, is_pub, line
        self.comment = []      # the lines above it
        self.note = None       # the free-standing comment that it stands under: (line, lines)
        self.lines = []        # its own
        self.chunks = []       # (first line's number, lines): the signature, then each clause
        self.sections = []
        self.fixity = []
        self.makes = []        # constructors or variants
        self.references = None

    @property
    def key(self):
        return (self.crate, self.module, self.name)

    def is_definition(self):
        return self.sort in DEFINITIONS

    def statement(self):
        """What it declares without its clauses: of a law, what it says."""
        found = Declaration(self.crate, self.module, self.name, self.sort, self.is_pub, self.line)
        found.comment, found.note, found.sections, found.fixity = self.comment, self.note, self.sections, self.fixity
        found.chunks = self.chunks[:1]
        found.lines = list(self.chunks[0][1])
        return found

    def code(self):
        """Its lines without comments and empty ones."""
        mark = "//" if self.sort == "type" else "--"
        return [line for line in self.lines if line.strip() and not line.strip().startswith(mark)]


def shown(key):
    crate, module, name = key
    return f"{crate}:{module}.{name}"


def indent_of(line):
    return len(line) - len(line.lstrip(" "))


def is_comment(line):
    return line.lstrip().startswith("--")


class Module:
    """A file of specs/, or a file of lemmas in proofs/, which has a name of its own where specs/ has one of its name."""

    def __init__(self, crate, name, text, part="specs"):
        self.crate, self.name, self.part = crate, name, part
        self.uses = {}         # a name -> (path, name there)
        self.use_lines = {}    # a name -> how its `use` line renames it, where it does
        self.aliases = {}      # a qualifier -> path
        self.declarations = []
        self.head = []         # the comment at the file's top
        self.fixities = {}
        self.mods = []
        self.lines = text.split("\n")
        self.split(0, len(self.lines), 0, [])
        self.names = {}
        for each in self.declarations:
            for name in [each.name] + each.makes:
                for word in {name, *parts_of(name)}:
                    self.names.setdefault(word, each)
            if each.name in self.fixities:
                each.fixity = [self.fixities[each.name]]

    def where(self, line):
        name = self.name.removeprefix("proofs.") if self.part == "proofs" else self.name
        return f"crates/{self.crate}/{self.part}/{name.replace('.', '/')}.antt:{line}"

    def split(self, at, end, indent, sections, into=None):
        """The declarations of the lines from at to end, whose own lines stand at indent."""
        into = self.declarations if into is None else into
        comment, comment_at, note, current = [], 0, None, None
        while at < end:
            line = self.lines[at]
            if not line.strip():
                if comment:
                    if not self.head and not into and not self.uses and not sections:
                        self.head = comment
                    else:
                        note = (comment_at, comment)
                    comment = []
                at += 1
                continue
            if is_comment(line):
                if not comment:
                    comment_at = at + 1
                comment.append(line)
                at += 1
                continue
            if indent_of(line) != indent:
                raise Problem(f"{self.where(at + 1)}: the layout is not understood")
            first = at
            at += 1
            while at < end and (not self.lines[at].strip() or indent_of(self.lines[at]) > indent):
                at += 1
            last = at
            while not self.lines[last - 1].strip():
                last -= 1
            # comments at the end that are deeper belong to what follows in a section, here to nothing
            lines = self.lines[first:last]
            words = tokens_of("\n".join(lines), first + 1)
            kind = words[0].text
            if kind == "use" or kind == "pub" and words[1].text == "use":
                if comment and not self.head:
                    self.head = comment
                self.use(words, first + 1)
                comment = []
            elif kind == "mod" or kind == "pub" and words[1].text == "mod":
                self.mods.append(words[-1].text)
                comment = []
            elif kind in ("infix", "infixl", "infixr"):
                for word in words[2:]:
                    self.fixities[word.text] = lines[0].strip()
                comment = []
            elif kind in ("module", "mutual"):
                stop = next((w.line for w in words if w.text == "where"), first + 1)
                head = [w for w in words[1:] if w.line <= stop and w.text != "where"]
                section = Section(self.lines[first:stop], [w for w in head if w.text != "_"] if kind == "module" else [], first + 1)
                section.comment = comment
                body = stop
                while body < last and not self.lines[body].strip():
                    body += 1
                if body < last:
                    self.split(stop, last, indent_of(self.lines[body]), sections + [section], into)
                comment, note, current = [], None, None
            elif kind in ("open", "axiom", "ruleset"):
                raise Problem(f"{self.where(first + 1)}: `{kind}` is not understood")
            else:
                start = self.declared(words, lines, first + 1, sections)
                if start is not None:
                    start.comment, start.note = comment, note
                    into.append(start)
                    current = start
                elif current is None:
                    raise Problem(f"{self.where(first + 1)}: a clause without a signature")
                else:
                    current.lines += comment + lines
                    current.chunks.append((first + 1, lines))
                comment = []

    def use(self, words, line):
        words = [w for w in words if w.text != "pub"]
        if words[0].text != "use":
            raise Problem(f"{self.where(line)}: the `use` line is not understood")
        use_line(self, [w.text for w in words[1:]], self.where(line))

    def declared(self, words, lines, line, sections):
        """The declaration that these lines begin, or None where they are a clause."""
        k, marks = 0, []
        while words[k].text in MARKS:
            marks.append(words[k].text)
            k += 1
        if words[k].text in ("record", "data"):
            sort, name = words[k].text, words[k + 1].text
        else:
            name, after = words[k].text, k + 1
            if after < len(words) and words[after].text == "{":
                while words[after].text != "}":
                    after += 1
                after += 1
            if after >= len(words) or words[after].text != ":":
                if marks:
                    raise Problem(f"{self.where(line)}: the declaration is not understood")
                return None
            sort = "abbrev" if "abbrev" in marks else "unfoldable" if "unfoldable" in marks else "law"
        found = Declaration(self.crate, self.name, name, sort, "pub" in marks, line)
        found.lines, found.chunks, found.sections = list(lines), [(line, lines)], sections
        if sort == "data":
            for _, item in items_below(lines, line):
                for word in item:
                    if word.text == ":":
                        break
                    if word.text in ("deriving", "("):
                        break
                    found.makes.append(word.text)
        return found


def use_line(file, words, where):
    """The `use` line with these words after `use`: names and qualifiers that it brings into the file's scope."""
    text = " ".join(words)
    if "{" in words:
        brace = words.index("{")
        if words[brace - 1] != "." or words[-1] != "}":
            raise Problem(f"{where}: the `use` line is not understood")
        path = "".join(words[:brace - 1])
        for item in " ".join(words[brace + 1:-1]).split(","):
            item = item.split()
            if not item:
                continue
            if len(item) not in (1, 3) or len(item) == 3 and item[1] != "as":
                raise Problem(f"{where}: the `use` line is not understood")
            here = item[-1]
            for word in {here, *parts_of(here)}:
                file.uses[word] = (path, item[0])
            if len(item) == 3:
                file.use_lines[here] = f"use {path}.{{{item[0]} as {here}}}"
    elif "as" in words:
        path, alias = "".join(words[:words.index("as")]), words[-1]
        file.aliases[alias] = path
        file.use_lines[alias] = f"use {path} as {alias}"
    elif text:
        path = "".join(words)
        file.aliases[path.split(".")[-1]] = path


def items_below(lines, line):
    """The items under the first line of a record or of a data type: (line's number, tokens)."""
    words = tokens_of("\n".join(lines), line)
    stop = next((w.line for w in words if w.text == "where"), None)
    if stop is None:
        return []
    rest = [w for w in words if w.line > stop]
    if not rest:
        return []
    depth = min(indent_of(lines[w.line - line]) for w in rest)
    items = []
    for word in rest:
        starts = indent_of(lines[word.line - line]) == depth
        if starts and (not items or items[-1][0] != word.line):
            items.append((word.line, []))
        items[-1][1].append(word)
    return items


# ---- src/

class Code:
    """A file of src/: its types and the contracts of its exported functions."""

    def __init__(self, crate, path, text):
        self.crate, self.path = crate, path
        self.uses, self.use_lines, self.aliases = {}, {}, {}
        self.types, self.promises, self.imports = [], [], {}
        self.text = text
        self.bare = re.sub(r"//[^\n]*", lambda m: " " * len(m.group()), text)
        self.lines = text.split("\n")
        for match in re.finditer(r"(?m)^[ \t]*(pub\s+)?(ghost\s+)?use\s+([^;]*);", self.bare):
            if match.group(2):
                use_line(self, [w.text for w in tokens_of(match.group(3))], self.where(match.start()))
            else:
                self.import_types(match.group(3))
        self.find_types()
        self.find_promises()
        self.names = {each.name: each for each in self.types}

    def where(self, at):
        return f"crates/{self.crate}/src/{self.path}:{self.text.count(chr(10), 0, at) + 1}"

    def inner(self):
        """The Rust module that the file is, '' for the crate's root."""
        stem = self.path[:-len(".rt")]
        return "" if stem in ("lib", "main") else stem.replace("/", ".") + "."

    def import_types(self, text):
        path = [part.strip() for part in text.split("::")]
        for item in path[-1].strip("{} \n").split(","):
            name, _, other = item.strip().partition(" as ")
            self.imports[other.strip() or name] = ("::".join(path[:-1]), name)

    def closing(self, at, where):
        """The place after the bracket that closes the one at `at`."""
        pairs = {"{": "}", "(": ")"}
        shut, depth = pairs[self.bare[at]], 0
        for k in range(at, len(self.bare)):
            if self.bare[k] == self.bare[at]:
                depth += 1
            elif self.bare[k] == shut:
                depth -= 1
                if not depth:
                    return k + 1
        raise Problem(f"{self.where(where)}: a bracket is not closed")

    def find_types(self):
        for match in re.finditer(r"(?m)^[ \t]*(pub\s+)?(struct|enum)\s+(\w+)\s*(?=([{(;]))", self.bare):
            end = match.end() if match.group(4) == ";" else self.closing(match.end(), match.start())
            first = self.text.count("\n", 0, match.start(0)) + 1
            name = match.group(3)
            found = Declaration(self.crate, "declared." + self.inner() + name, name, "type", bool(match.group(1)), first)
            found.lines = self.text[match.start():end].split("\n")
            k = first - 2
            while k >= 0 and self.lines[k].strip().startswith(("//", "#[")):
                found.comment.insert(0, self.lines[k])
                k -= 1
            body = self.bare[match.end():end]
            found.body = body
            if match.group(2) == "enum":
                depth = 0
                for piece in re.finditer(r"[{}()]|\w+", body):
                    if piece.group() in "{(":
                        depth += 1
                    elif piece.group() in "})":
                        depth -= 1
                    elif depth == 1:
                        found.makes.append(piece.group())
            self.types.append(found)

    def find_promises(self):
        impls = []
        for match in re.finditer(r"(?m)^[ \t]*impl\s+(\w+)\s*(?=\{)", self.bare):
            impls.append((match.start(), self.closing(match.end(), match.start()), match.group(1)))
        for match in re.finditer(r'(?m)^[ \t]*pub\s+(?:extern\s+"C"\s+)?fn\s+(\w+)', self.bare):
            of = next((name for start, end, name in impls if start < match.start() < end), None)
            self.promises.append(Promise(self, match, of))


class Promise:
    """The contract of an exported function: its signature, what it requires and what it ensures."""

    def __init__(self, code, match, of):
        self.code, self.of = code, of
        self.name = (of + "::" if of else "") + match.group(1)
        self.line = code.text.count("\n", 0, match.start()) + 1
        bare = code.bare
        at = bare.index("(", match.end())
        end = code.closing(at, match.start())
        self.clauses = []
        clause = re.compile(r"\s*(requires|ensures)\s*(\w*)\s*(?=\{)")
        stop = re.compile(r"\s(requires|ensures)\b|\{|;(?![^\[\]]*\])").search(bare, end).start()
        self.signature = bare[match.start():stop]
        self.parameters = [name for name in re.findall(r"(?:mut\s+)?(\w+)\s*:(?!:)", bare[at:end])]
        at = stop
        while True:
            found = clause.match(bare, at)
            if not found:
                break
            shut = code.closing(found.end(), match.start())
            self.clauses.append((found.group(1), found.group(2), bare[found.end() + 1:shut - 1]))
            at = shut

    @property
    def key(self):
        return (self.code.crate, self.code.inner().rstrip("."), self.name)

    def shown(self):
        return f"{self.code.crate}::{self.code.inner().replace('.', '::')}{self.name}"

    def tokens(self, words_of=None):
        """The signature and the clauses, each as words. Labels of clauses are no part of what is promised."""
        words = re.findall(r"\w+|[^\w\s]", self.signature)
        for sort, _, text in self.clauses:
            words += [sort] + (words_of(text) if words_of else [w.text for w in tokens_of(text)])
        # what layout alone puts in
        return [w for k, w in enumerate(words) if not (w == "," and words[k + 1:k + 2] == [")"])]


# ---- names

class Scope:
    """The locals at a place: a stack of brackets, each with the names bound in it."""

    def __init__(self, names):
        self.frames = [[list(names), []]]

    def has(self, name):
        return any(name in names for names, _ in self.frames)

    def bind(self, names):
        self.frames[-1][0].extend(names)


class Walker:
    """Finds what the names of a text refer to."""

    def __init__(self, project, file, own, where):
        self.project, self.file, self.own, self.where = project, file, own, where
        self.references = []   # (what is written, key or ("library", path, name))

    def note(self, written, target):
        self.references.append((written, target))

    def look(self, name):
        """What a name of the file's scope refers to, or None."""
        if name in self.file.names:
            found = self.file.names[name]
            return found.key
        if name in self.file.uses:
            path, there = self.file.uses[name]
            return self.project.at(path, there, self.where)
        if name in self.file.aliases:
            return ("library", self.file.aliases[name], "")
        return self.project.imported(self.file, name)

    def makes(self, name, target):
        """Whether the name is a constructor of what it refers to."""
        if target is None:
            return name in LIBRARY_CONSTRUCTORS
        if target[0] == "library":
            return parts_of(target[2])[0] in LIBRARY_CONSTRUCTORS
        there = self.file.uses[name][1] if name in self.file.uses and name not in self.file.names else name
        found = self.project.declarations[target]
        return any(there == made or there in parts_of(made) for made in found.makes)

    def chain(self, words, k):
        """The index after a name that starts at k and all that is tied to it by dots, and the names: `a.b.c`."""
        names = [words[k].text]
        while k + 2 < len(words) and words[k + 1].text == "." and words[k + 1].start == words[k].end \
                and words[k + 2].start == words[k + 1].end and is_name(words[k + 2].text):
            names.append(words[k + 2].text)
            k += 2
        return k + 1, names

    def name(self, names, scope):
        """A name, or a chain of names, where a term is expected."""
        first = names[0].strip("«»")
        if is_number(first) or names[0] in WORDS or scope.has(first):
            return
        if len(names) > 1 and first in self.file.aliases:
            self.note(".".join(names[:2]), self.project.at(self.file.aliases[first], names[1], self.where))
            return
        if first == "Prim" and len(names) > 1:
            self.note(".".join(names), ("library", "Prim", names[1]))
            return
        target = self.look(first)
        if target is None:
            if first in PRIM:
                target = ("library", "Prim", first)
            elif first in self.own:
                return
            else:
                raise Problem(f"{self.where}: nothing is named `{first}` here")
        self.note(first, target)

    def pattern(self, words, scope):
        """Binds the variables of a pattern."""
        bound, k = [], 0
        while k < len(words):
            text = words[k].text
            if not is_name(text) or is_number(text) or text in WORDS:
                k += 1
                continue
            after, names = self.chain(words, k)
            if len(names) > 1:
                self.name(names, Scope([]))
            elif after < len(words) and words[after].text == "=" and k and words[k - 1].text in "{;":
                pass
            else:
                target = self.look(text)
                applied = k and words[k - 1].text == "(" and after < len(words) and words[after].text not in "),:" \
                    and target is not None and target[0] == "library"
                if target is not None and (self.makes(text, target) or applied):
                    self.note(text, target)
                elif target is None and text in ("refl", "yes", "no"):
                    self.note(text, ("library", "Prim", text))
                else:
                    bound.append(text)
            k = after
        scope.bind(bound)

    def shut(self, words, k):
        """The index of the bracket that closes the one at k."""
        depth = 0
        for j in range(k, len(words)):
            if words[j].text in "({":
                depth += 1
            elif words[j].text in ")}":
                depth -= 1
                if not depth:
                    return j
        raise Problem(f"{self.where}: a bracket is not closed")

    def binders(self, words):
        """How many names stand before the `:` of a group such as `(x y : A)`, without its brackets; 0 where it is none."""
        k = 0
        while k < len(words) and is_name(words[k].text) and words[k].text not in (":", "=", "→", "λ"):
            k += 1
        return k if k and k < len(words) and words[k].text == ":" else 0

    def group(self, words, scope):
        """A group `(x y : A)` without its brackets: its type, then its names are bound."""
        count = self.binders(words)
        self.term(words[count + 1:], scope)
        scope.bind([w.text for w in words[:count]])

    def term(self, words, scope):
        """A term or a type. What it binds ends with it."""
        names, lets = [], []
        scope.frames.append([names, lets])
        k = 0
        while k < len(words):
            text = words[k].text
            if text in "({":
                end = self.shut(words, k)
                inside = words[k + 1:end]
                if k and words[k - 1].text == "record" and text == "{":
                    self.fields(inside, scope)
                elif self.binders(inside):
                    self.group(inside, scope)
                elif text == "{" and len(inside) > 1 and inside[1].text == "=":
                    self.term(inside[2:], scope)
                else:
                    self.term(inside, scope)
                k = end + 1
            elif text == "λ":
                k = self.abstraction(words, k + 1, scope)
            elif text == "let":
                end = k + 1
                while words[end].text not in (":", "="):
                    end = self.shut(words, end) + 1 if words[end].text in "({" else end + 1
                bound = Scope([])
                self.pattern(words[k + 1:end], bound)
                lets.append((len(names), bound.frames[0][0], words[end].text == "="))
                k = end + 1
            elif text == "=" and lets and not lets[-1][2]:
                start, bound, _ = lets.pop()
                del names[start:]
                lets.append((start, bound, True))
                k += 1
            elif text == "in" and lets:
                start, bound, _ = lets.pop()
                del names[start:]
                names.extend(bound)
                k += 1
            elif text in ",;":
                del names[:]
                del lets[:]
                k += 1
            elif text == ".":
                # a field, by its name or its number
                k += 2
            elif is_name(text):
                k, chain = self.chain(words, k)
                if text == "elim":
                    raise Problem(f"{self.where}: `elim` is not understood in a definition")
                self.name(chain, scope)
            else:
                k += 1
        scope.frames.pop()

    def abstraction(self, words, k, scope):
        """Binds what stands between λ and its dot; the index after the dot."""
        while words[k].text != ".":
            if words[k].text in "({":
                end = self.shut(words, k)
                inside = words[k + 1:end]
                if self.binders(inside):
                    self.group(inside, scope)
                else:
                    self.pattern(inside, scope)
                k = end + 1
            else:
                if words[k].text != "_":
                    scope.bind([words[k].text])
                k += 1
        return k + 1

    def fields(self, words, scope):
        """The inside of `record { x = a; .. }` or `record { x : A; .. }`."""
        start, depth, labels = 0, 0, []
        for k in range(len(words) + 1):
            if k == len(words) or words[k].text == ";" and not depth:
                part = words[start:k]
                if part:
                    scope.frames.append([list(labels), []])
                    self.term(part[2:], scope)
                    scope.frames.pop()
                    if part[1].text == ":":
                        labels.append(part[0].text)
                start = k + 1
            elif words[k].text in "({":
                depth += 1
            elif words[k].text in ")}":
                depth -= 1

    def sections(self, sections, scope):
        for section in sections:
            k = 0
            while k < len(section.tokens):
                if section.tokens[k].text in "({":
                    end = self.shut(section.tokens, k)
                    self.group(section.tokens[k + 1:end], scope)
                    k = end
                k += 1

    def declaration(self, found, scope):
        """All that a declaration of specs/ names; its sections' parameters are bound first."""
        self.sections(found.sections, scope)
        if found.sort in ("record", "data"):
            self.structure(found, scope)
            return
        line, lines = found.chunks[0]
        words = tokens_of("\n".join(lines), line)
        colon = next(k for k, w in enumerate(words) if w.text == ":")
        levels = [w.text for w in words[:colon] if w.text not in (found.name, "{", "}") and w.text not in MARKS]
        scope.bind(levels)
        self.term(words[colon + 1:], scope)
        for line, lines in found.chunks[1:]:
            self.clause(found, line, lines, scope)

    def clause(self, found, line, lines, scope):
        words = tokens_of("\n".join(lines), line)
        if words[0].text == "unfolding":
            for word in words[1:]:
                self.name([word.text], scope)
            return
        helpers = []
        stop = next((k for k, w in enumerate(words) if w.text == "where"), None)
        if stop is not None:
            place = words[stop].line - line
            tail = lines[place + 1:]
            helpers = self.helpers(found, words[stop].line + 1, tail)
            words = words[:stop]
        depth = 0
        for k, word in enumerate(words):
            depth += (word.text in "({") - (word.text in ")}")
            if word.text == "=" and not depth:
                break
        else:
            return
        own = {found.name, *parts_of(found.name)}
        scope.frames.append([[], []])
        self.pattern([w for w in words[:k] if w.text not in own], scope)
        scope.bind([helper.name for helper in helpers])
        for helper in helpers:
            scope.frames.append([[], []])
            self.declaration(helper, scope)
            scope.frames.pop()
        self.term(words[k + 1:], scope)
        scope.frames.pop()

    def helpers(self, found, line, lines):
        module = self.project.modules[(found.crate, found.module)]
        rest = [text for text in lines if text.strip() and not is_comment(text)]
        if not rest:
            return []
        into = []
        module.split(line - 1, line - 1 + len(lines), min(map(indent_of, rest)), [], into)
        return into

    def structure(self, found, scope):
        """A record or a data type."""
        line, lines = found.chunks[0]
        words = tokens_of("\n".join(lines), line)
        start = next(k for k, w in enumerate(words) if w.text == found.name) + 1
        stop = next((k for k, w in enumerate(words) if w.text == "where"), len(words))
        k = start
        while words[k].text != ":":
            if words[k].text in "({":
                end = self.shut(words, k)
                self.group(words[k + 1:end], scope)
                k = end
            k += 1
        self.term(words[k + 1:stop], scope)
        for _, item in items_below(lines, line):
            item = [w for w in item if w.text != "pub"]
            if item[0].text == "deriving":
                continue
            colon = next((k for k, w in enumerate(item) if w.text == ":"), None)
            if colon is None:
                raise Problem(f"{self.where}: a part of {found.name} is not understood")
            self.term(item[colon + 1:], scope)
            if found.sort == "record":
                scope.bind([w.text for w in item[:colon]])


# ---- the project

class Project:
    """Every declaration of a tree, and what it refers to."""

    def __init__(self, tree):
        self.tree = tree
        self.modules, self.codes, self.declarations = {}, {}, {}
        for crate in tree.below:
            for path, text in tree.of(crate, "specs").items():
                name = path[:-len(".antt")].replace("/", ".")
                self.put(Module(crate, name, text))
            for path, text in tree.lemmas_of(crate).items():
                name = path[:-len(".antt")]
                if (crate, name) in self.modules:
                    name = "proofs." + name
                self.put(Module(crate, name, text, "proofs"))
            for path, text in tree.of(crate, "src").items():
                code = Code(crate, path, text)
                self.codes[(crate, path)] = code
                for each in code.types:
                    self.declarations[each.key] = each

    def put(self, module):
        self.modules[(module.crate, module.name)] = module
        for each in module.declarations:
            self.declarations.setdefault(each.key, each)

    def at(self, path, name, where):
        """What `path.{name}` of a `use` line is."""
        match = re.fullmatch(r"Rattle[.·](\w+?)(?:·(?:specs|proofs))?\.(specs|proofs)\.(.+)", path)
        if not match or match.group(1) not in self.tree.below:
            return ("library", path, name)
        crate, part, module = match.groups()
        if part == "proofs" and (crate, "proofs." + module) in self.modules:
            module = "proofs." + module
        if module.startswith("declared."):
            variants = module.endswith((".TheVariants", ".the-variants"))
            if variants:
                module = module.rpartition(".")[0]
            key = (crate, module, module.split(".")[-1])
            found = self.declarations.get(key)
            if found is None or variants and name not in found.makes or not variants and name != found.name:
                raise Problem(f"{where}: {path} has no {name}")
            return key
        found = self.modules.get((crate, module))
        if found is None or found.part != part or name not in found.names:
            raise Problem(f"{where}: {path} has no {name}")
        return found.names[name].key

    def references(self, found):
        """What a declaration names: (as it is written, key or ("library", path, name))."""
        if found.references is None:
            where = shown(found.key)
            if found.sort == "type":
                found.references = self.of_type(found)
            else:
                module = self.modules[(found.crate, found.module)]
                walker = Walker(self, module, set(), where)
                walker.declaration(found, Scope([]))
                found.references = walker.references
        return found.references

    def code_of(self, found):
        return next(code for (crate, _), code in self.codes.items() if crate == found.crate and found in code.types)

    def of_type(self, found):
        return self.rust_types(self.code_of(found), found.body, set(found.makes))

    def rust_types(self, code, text, skip):
        """The types of src/ that a piece of Rust names."""
        refs = []
        for name in re.findall(r"\b[A-Z]\w*", text):
            if name in skip:
                continue
            if name in code.names:
                refs.append((name, code.names[name].key))
            elif self.imported(code, name):
                refs.append((name, self.imported(code, name)))
        return refs

    def imported(self, file, name):
        """The enum or struct that a `use` line of Rust brings into a file of src/, or None."""
        if not isinstance(file, Code) or name not in file.imports:
            return None
        path, there = file.imports[name]
        parts = path.split("::")
        key = (parts[0], ".".join(["declared"] + parts[1:] + [there]), there)
        return key if key in self.declarations else None

    def promised(self, promise):
        """What a contract names."""
        code, where = promise.code, promise.shown()
        refs = self.rust_types(code, promise.signature, {"C"})
        if promise.of and promise.of in code.names:
            refs.append((promise.of, code.names[promise.of].key))
        for _, _, text in promise.clauses:
            walker = Walker(self, code, CONTRACT_WORDS, where)
            walker.term(tokens_of(text), Scope(promise.parameters))
            refs += walker.references
        return refs

    def promises(self, crates=None):
        return [each for (crate, _), code in self.codes.items() if crates is None or crate in crates for each in code.promises]

    def reached(self, keys, statements=()):
        """The declarations that the keys reach, in reading order, and the library's names: {path: names}. Of the keys in statements no proof is read."""
        seen, library, todo = {}, {}, [*statements, *keys]
        while todo:
            key = todo.pop()
            if key[0] == "library":
                library.setdefault(key[1], set()).add(key[2])
            elif key not in seen:
                found = self.declarations[key]
                seen[key] = found.statement() if key in statements else found
                todo += [target for _, target in self.references(seen[key])]
        return self.reading_order(list(seen.values())), library

    def reading_order(self, found):
        """By crate as crates.txt has them, types of src/ first, each module after those it names, as its file has them."""
        crates = {crate: k for k, crate in enumerate(self.tree.in_order())}
        order = []
        for crate in sorted({each.crate for each in found}, key=crates.get):
            mine = [each for each in found if each.crate == crate]
            order += self.after_named([each for each in mine if each.sort == "type"])
            modules = {}
            for each in mine:
                if each.sort != "type":
                    modules.setdefault(each.module, []).append(each)
            listed = self.modules[(crate, "Lib")].mods if (crate, "Lib") in self.modules else []
            place = {name: k for k, name in enumerate(listed)}
            done = []

            def visit(name, above=()):
                if name in done or name in above:
                    return
                for each in modules[name]:
                    for _, target in self.references(each):
                        if target[0] == crate and target[1] in modules:
                            visit(target[1], above + (name,))
                done.append(name)

            for name in sorted(modules, key=lambda n: (place.get(n, len(place)), n)):
                visit(name)
            for name in done:
                order += sorted(modules[name], key=lambda each: each.line)
        return order

    def after_named(self, types):
        order = []

        def visit(each):
            if each in order:
                return
            for _, target in self.references(each):
                if target in {t.key for t in types} and target != each.key:
                    visit(self.declarations[target])
            order.append(each)

        for each in sorted(types, key=lambda t: (t.module.count("."), self.code_of(t).path, t.line)):
            visit(each)
        return order
