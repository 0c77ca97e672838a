"""What the verdict on a wrong body rests on, found by names: the texts of all that the edited function and its contract
name, and of all that these name in turn, in its crate and in those below. No proof of them is among it, and no body but
the function's own. It reads texts alone, so it needs nothing that is built, and gives the same in each checkout, also
after a definition or a function has moved to another file or crate.

A name is found where the language finds it: beside the text, or by an import of the file. A call of a method leads to
each method of that name whose type or trait is named in what is reached: the type of a value stands in the head of the
function that it came from, or in the type that holds it. With a type come the heads of its impls of traits, and with a
trait those of all its impls, since a call may lead there by no name (an operator, `?`, a loop)."""
import collections
import functools
import hashlib
import os
import re

# Raise it when a verdict may come out differently for another reason than its texts: a change of the tool, say.
VERSION = 2

COMMENT = re.compile(r"(?m)^[ \t]*(?:--|//).*$")
WORD = re.compile(r"[^\W\d][\w'-]*|◌[^\s,{}()]*|[^\s,{}()]*◌[^\s,{}()]*")
NAME = re.compile(r"[^\W\d]\w*")
CALLED = re.compile(r"(?:\.|::)\s*([^\W\d]\w*)")
IMPORT = re.compile(r"(?s)\b(?:pub\s+)?(?:ghost\s+)?use\s+([^;{}\n]*?)(?:(?:::|\.)\{([^}]*)\}|)\s*(?:;|$)", re.M)
ITEM = re.compile(r"\b(struct|enum|union|trait|const|static|type|macro_rules!)\s+([^\W\d]\w*)")
# What begins a line of a declaration of antt's and isn't its name.
BEFORE_A_NAME = {"pub", "abbrev", "unfoldable", "record", "data", "opaque", "irreducible", "private", "unfold",
                 "instance", "class", "mutual", "axiom", "rule", "ruleset"}


def sum_of(*things):
    return hashlib.sha256(repr(things).encode()).hexdigest()


def end_of_item(text, at):
    """Returns where the item ends whose name ends at an offset: behind its braces, or at a semicolon outside of any."""
    depth = 0
    for it in re.finditer(r'"(?:[^"\\]|\\.)*"|[{}()\[\];]', text[at:]):
        depth += (it[0] in "{([") - (it[0] in "})]")
        if depth == 0 and it[0] in "};" or depth < 0:
            return at + it.end()
    return len(text)


class Unit:
    """A piece of text that a name leads to."""

    def __init__(self, place, kind, text, name="", owners=()):
        self.place, self.kind, self.text, self.name, self.owners = place, kind, text, name, owners
        self.sum = sum_of(" ".join(text.split()))


class Place:
    """A file: its crate, what it imports, and its units by name."""

    def __init__(self, crate, file, text):
        self.crate, self.file, self.units, self.imports = crate, file, collections.defaultdict(list), {}
        for it in IMPORT.finditer(text):
            path, names = it[1].strip(), it[2]
            if names is None:
                path, _, names = path.rpartition("::") if "::" in path else path.rpartition(".")
            for name in names.replace("\n", " ").split(","):
                real, _, other = name.strip().partition(" as ")
                at = f"{path}::{real}".rpartition("::")
                self.imports.setdefault((other or at[2]).strip(), []).append((at[0] if "::" in real else path, at[2]))
        self.text = text

    def add(self, kind, name, text):
        made = Unit(self, kind, text)
        self.units[name].append(made)
        return made


class Repository:
    """The texts of crates and of those below them, cut into units. A crate has a name, a folder, what it uses of the
    kit, and below()."""

    def __init__(self, crates, functions_of):
        self.crates = {it.name: it for it in crates}
        self.visible = {it.name: {it.name, *(one.name for one in it.below())} for it in crates}
        self.functions_of = functions_of
        self.places, self.named, self.methods = {}, collections.defaultdict(list), collections.defaultdict(list)
        self.of_type, self.functions, self.found = collections.defaultdict(list), {}, {}
        for it in crates:
            self.read(it)

    def read(self, crate):
        self.functions[crate.name] = {}
        by_file = collections.defaultdict(list)
        for it in self.functions_of(crate.folder):
            by_file[it.file].append(it)
        for at, _, names in sorted(os.walk(f"{crate.folder}/specs")):
            for name in sorted(names):
                if name.endswith(".antt"):
                    self.read_specs(crate, os.path.relpath(f"{at}/{name}", crate.folder))
        for at, _, names in sorted(os.walk(f"{crate.folder}/src")):
            for name in sorted(names):
                if name.endswith(".rt"):
                    file = os.path.relpath(f"{at}/{name}", crate.folder)
                    self.read_code(crate, file, by_file[file])

    def place(self, crate, file):
        with open(f"{crate.folder}/{file}", encoding="utf-8") as it:
            text = it.read()
        made = self.places[crate.name, file] = Place(crate.name, file, COMMENT.sub("", text))
        return made, text

    def add(self, place, kind, name, text):
        made = place.add(kind, name, text)
        self.named[place.crate, name].append(made)
        return made

    def read_specs(self, crate, file):
        """Cuts a file of definitions at its lines that aren't indented: a definition's lines begin with its name."""
        place, _ = self.place(crate, file)
        name, lines = "", collections.defaultdict(list)
        for line in IMPORT.sub("", place.text).split("\n"):
            if line.strip() and not line[0].isspace():
                words = [it for it in WORD.findall(line) if it not in BEFORE_A_NAME]
                # (an operator's declaration has its name among its arguments: it goes by each of them)
                name = next((it for it in words if "◌" in it), words[0] if words else name)
            if line.strip():
                lines[name].append(line)
        for name, them in lines.items():
            self.add(place, "spec", name, "\n".join(them))

    def read_code(self, crate, file, functions):
        """Cuts a file of code into the heads of its functions, its types, constants, macros, and the rest of impls."""
        place, text = self.place(crate, file)
        octets, last, outside = text.encode(), 0, []
        for it in functions:
            head = COMMENT.sub("", octets[it.start:it.begin].decode())
            outside.append(octets[last:it.start].decode())
            last = it.end
            block = it.block
            text_of_unit = f"{block.type} {block.trait} {head}"
            if not block.type:
                unit = self.add(place, "head", it.name, text_of_unit)
            else:
                # (a method isn't found by its name alone, but where a call or its type leads to it)
                owners = {*NAME.findall(f"{block.type.replace('+', ' ')}")}
                unit = Unit(place, "head", text_of_unit, it.name, owners | {*self.traits_in(block)})
                self.methods[it.name].append(unit)
                for name in unit.owners if block.trait or not block.is_of_type else ():
                    self.of_type[name].append(unit)
            self.functions[crate.name][it.path] = unit, it
        outside.append(octets[last:].decode())
        rest = IMPORT.sub("", COMMENT.sub("", "\n\n".join(outside)))
        for it in ITEM.finditer(rest):
            # (with the attributes before it)
            before = max(rest.rfind("\n\n", 0, it.start()), 0)
            self.add(place, "item", it[2], rest[before:end_of_item(rest, it.end())])
        for it in re.finditer(r"\bimpl\b[^{}]*\{[^{}]*", rest):
            if "ghost" in it[0]:
                unit = Unit(place, "item", rest[it.start():it.start() + 4000])
                for name in NAME.findall(it[0].partition("{")[0]):
                    self.of_type[name].append(unit)

    def traits_in(self, block):
        """Returns the names in what the head of an impl says of its trait: 'FromU32' has From and U32."""
        return [block.trait, *re.findall(r"[A-Z][a-z0-9]*", block.trait)] if block.trait else []

    def behind_import(self, path, name, crate, seen=()):
        """Returns the units that an imported name leads to."""
        path = path.strip().replace("::", ".").strip(".")
        found = re.fullmatch(r"Rattle\.(\w+)\.(specs|proofs)\.?(.*)", path)
        if found and found[1] in self.crates:
            if found[2] == "proofs":
                return []
            units = self.named[found[1], name]
            file = "specs/" + found[3].replace(".", "/") + ".antt"
            own = self.places.get((found[1], file))
            if own and name in own.units:
                return own.units[name]
            if own and name in own.imports and (path, name) not in seen:
                return [unit for at, real in own.imports[name]
                        for unit in self.behind_import(at, real, found[1], (*seen, (path, name)))]
            if units:
                return units
            # a constructor or a field by its own name, or a declared type: the last words of the path name its owner
            owners = [it for it in found[3].split(".") if (found[1], it) in self.named]
            return [unit for it in owners for unit in self.named[found[1], it]]
        head = path.partition(".")[0]
        of = crate if head in ("crate", "super", "self", "") else head
        if of not in self.crates:
            return []
        return self.named[of, name] or [unit for it in path.split(".") for unit in self.named[of, it]]

    def reached_from(self, place, text):
        """Returns the units that a text at a place names."""
        found, visible = [], self.visible[place.crate]
        words = {*WORD.findall(text), *NAME.findall(text)}
        for word in words | {it for it in place.imports if "◌" in it}:
            found += place.units.get(word, ())
            for path, name in place.imports.get(word, ()):
                found += self.behind_import(path, name, place.crate)
            if place.file.startswith("src/") or "declared" in str(place.imports.get(word, "")):
                found += [it for it in self.of_type.get(word, ()) if it.place.crate in visible]
        if place.file.startswith("src/"):
            # (a path through modules)
            for word in re.findall(r"::\s*([^\W\d]\w*)", text):
                found += [it for name in visible for it in self.named.get((name, word), ())]
        return found

    def behind(self, unit):
        if unit not in self.found:
            self.found[unit] = {*self.reached_from(unit.place, unit.text)} - {unit}
        return self.found[unit]

    @functools.lru_cache(None)
    def sum_of_unit(self, unit):
        """Returns the sum of a unit and of what its names lead to."""
        return sum_of(unit.sum, sorted({it.sum for it in self.behind(unit)}))

    def closure(self, units, code, crate):
        """Returns the units that these lead to, with the methods that the code calls, of types that are named."""
        seen, left, named, called = set(), [*units], {*NAME.findall(code)}, {*CALLED.findall(code)}
        while True:
            while left:
                it = left.pop()
                if it not in seen:
                    seen.add(it)
                    left += self.behind(it)
                    named |= {*NAME.findall(it.text)}
                    called |= {*CALLED.findall(it.text)} if it.kind == "item" else set()
            for name in called:
                for it in self.methods.get(name, ()):
                    if it in seen or it.place.crate not in self.visible[crate]:
                        continue
                    is_known = any((one, owner) in self.named
                                   for owner in it.owners for one in self.visible[it.place.crate])
                    if not is_known or it.owners & named:
                        left.append(it)
            if not left:
                return seen

    def functions_with(self, crate, file, text):
        """Returns the functions of a file whose body the first place of a text is in."""
        whole = self.octets(crate, file)
        at = whole.find(text.encode())
        return [(unit, it) for unit, it in self.functions[crate.name].values()
                if it.file == file and at >= 0 and it.begin <= at < it.end]

    @functools.lru_cache(None)
    def octets(self, crate, file):
        with open(f"{crate.folder}/{file}", "rb") as it:
            return it.read()

    def sum_of_edit(self, crate, edit):
        """Returns the sum of all that the verdict on an edit rests on."""
        own = self.functions[crate.name]
        functions = [own[it] for it in edit.named if it in own]
        for old, _ in edit.pairs:
            functions += [it for it in self.functions_with(crate, edit.file, old) if it not in functions]
        cycles = {it.cycle for _, it in functions if it.cycle}
        functions += [it for it in own.values() if it[1].cycle in cycles and it not in functions]
        own_sum = VERSION, edit.name, [it.split("::")[-1] for it in edit.named], edit.pairs
        if not functions:
            return sum_of(own_sum, self.whole(crate))
        bodies, units, code = [], [], " ".join(new for _, new in edit.pairs)
        for unit, it in functions:
            body = self.octets(crate, it.file)[it.begin:it.end].decode()
            bodies.append((self.sum_of_unit(unit), body))
            code += body
            units += [unit, *self.reached_from(unit.place, body)]
        units += self.reached_from(functions[0][0].place, " ".join(new for _, new in edit.pairs))
        # (a constant that is edited)
        units += [it for old, _ in edit.pairs for it in self.reached_from(functions[0][0].place, old)]
        found = self.closure(units, code, crate.name)
        proofs = sorted(self.proofs_of(crate, functions))
        return sum_of(own_sum, sorted(bodies), proofs, sorted(map(self.sum_of_unit, found)))

    def proofs_of(self, crate, functions):
        """Returns what stands in the files of the proofs of these functions, but for what they import."""
        folders = {f"{crate.folder}/proofs/{it.proof()}" for _, it in functions}
        files = {f"{at}/{name}" for folder in folders for at, _, names in os.walk(folder) for name in names}
        texts = [self.octets(crate, os.path.relpath(it, crate.folder)).decode() for it in files]
        return [IMPORT.sub("", COMMENT.sub("", it)).strip() for it in texts]

    @functools.lru_cache(None)
    def whole(self, crate):
        """Returns a sum of all texts that a check of the crate reads of this repository."""
        texts = []
        for name in sorted(self.visible[crate.name]):
            below = self.crates[name]
            files = sorted(os.path.relpath(f"{at}/{it}", below.folder) for part in ("src", "specs", "proofs")
                           for at, _, names in os.walk(f"{below.folder}/{part}") for it in names)
            texts += [(name, it, hashlib.sha256(self.octets(below, it)).hexdigest()) for it in files]
        return sum_of(texts)
