#!/usr/bin/env python3
"""Lists the definitions on which the promises of `drive` and `run` stand, from the sources.

    tools/theorem.py            prints the list
    tools/theorem.py --write    writes it into docs/THEOREM.md, between its two marker lines
    tools/theorem.py --check    fails where the document's list isn't that of the sources, or where the page above it names a
                                clause that isn't there, or leaves one out
    tools/theorem.py --text     prints the definitions themselves, in the order of the list

The list is the closure of the clauses over the words of specs/ and over the declared types, with what contracts see of them
(but not their invariants, which are proved of every value) and with those members of a trait that the definitions use. A name that a definition binds is not followed. Words of the
toolchain's library are named at the end and not followed.
"""
import glob
import os
import re
import sys
import textwrap

TOP = os.path.dirname(os.path.dirname(os.path.realpath(__file__)))
DOCUMENT = f"{TOP}/docs/THEOREM.md"
BEGIN, END = "<!-- the list begins: tools/theorem.py --write makes it -->", "<!-- the list ends -->"
# The promises: a function, and the file in which it stands.
ROOTS = [("drive", "crates/qc_conn/src/driving.rt"), ("run", "crates/qc_run/src/run.rt")]

WORD = re.compile(r"◌[^\s{}()\[\],;◌]+◌|(?<!\)\.)(?<![\w'])[\w'«»ℓΑ-Ωα-ω₀-₉+*≡≢≤<-]*\w[\w'»-]*(?:\.[\w'«»-]+)*")


def text_of(path):
    with open(f"{TOP}/{path}", encoding="utf-8") as file:
        return file.read()


class Item:
    """A definition: of specs/, a declared type, a trait's members, or an impl's."""

    def __init__(self, file, name, at, end, lines):
        self.file, self.name, self.at, self.end = file, name, at, end
        self.text = "\n".join(lines[at:end])
        self.code = "\n".join(re.sub(r"(^|\s)--.*|//.*", r"\1", line) for line in lines[at:end])


def with_comment(lines, at, mark):
    while at > 0 and lines[at - 1].lstrip().startswith(mark):
        at -= 1
    return at


# ---- specs/


class Specs:
    """A file of specs/: its definitions, and what its names stand for."""

    def __init__(self, path):
        self.path, self.items, self.names, self.modules = path, {}, {}, {}
        self.constructors = {}
        lines = text_of(path).split("\n")
        indents = indents_of_module(lines)
        starts = []
        for at, line in enumerate(lines):
            if it := re.match(r"^use (\S+?)(?:\.\{(.*)\})?(?: as (\w+))?$", line.strip()):
                self.use(it[1], it[2], it[3])
            elif line[: indents[at]].strip() == "" and not line[indents[at] :].startswith((" ", "-", "use ", "module ", "infix")):
                rest = line[indents[at] :]
                it = re.match(r"^(?:abbrev |unfoldable )?(?:pub )?(?:record |data )?(◌\S+◌|[\w'-]+)(.*)$", rest)
                is_head = it and (rest.startswith(("abbrev ", "unfoldable ", "pub ", "record ", "data ")) or re.match(r"^(?: \{[^}]*\})* :", it[2]))
                if is_head:
                    starts.append((at, it[1]))
        for (at, name), after in zip(starts, [*starts[1:], (len(lines), "")]):
            end = after[0]
            while end > at + 1 and (not lines[end - 1].strip() or lines[end - 1].lstrip().startswith(("--", "module ", "infix"))):
                end -= 1
            item = Item(path, name, at, end, lines)
            item.text = "\n".join(lines[with_comment(lines, at, "--") : end])
            self.items[name] = item
            if " data " in f" {lines[at].strip()}":
                for constructor in re.findall(r"^\s+([\w'-]+) :", "\n".join(lines[at + 1 : end]), re.M):
                    self.constructors[constructor] = name

    def use(self, path, inside, alias):
        if inside is None:
            self.modules[alias or path.split(".")[-1]] = path
            return
        for name in inside.split(","):
            given, _, local = name.strip().partition(" as ")
            self.names[local or given] = (path, given)


def indents_of_module(lines):
    """How far the definitions of each line's place are indented: those of a `module .. where` by two."""
    indents, inside = [], False
    for line in lines:
        if line.startswith("module "):
            inside = True
            indents.append(0)
            continue
        if inside and line.strip() and not line.startswith(" "):
            inside = False
        indents.append(2 if inside else 0)
    return indents


# ---- src/


class Source:
    """A file of src/: its declared types, its impls, and what its names stand for in code and in clauses."""

    def __init__(self, path):
        self.path, self.names, self.modules, self.types, self.types_used = path, {}, {}, {}, {}
        self.lines = text_of(path).split("\n")
        text = "\n".join(self.lines)
        for use in re.finditer(r"^ghost use (\S+?)(?:\.\{([^}]*)\})?(?: as (\w+))?;", text, re.M):
            Specs.use(self, use[1], use[2], use[3])
        for use in re.finditer(r"^(?:pub )?use ((?:\w+::)*)(?:(\w+)(?: as (\w+))?|\{([^;]*)\});", text, re.M):
            for name in (use[4] or f"{use[2]} as {use[3] or use[2]}").split(","):
                given, _, local = name.strip().partition(" as ")
                if given:
                    self.types_used[local or given.split("::")[-1]] = (use[1], given.split("::")[-1])
        for at, line in enumerate(self.lines):
            if it := re.match(r"^(?:pub(?:\(\w+\))? )?(struct|enum|trait|type|const) (\w+)", line):
                self.types[it[2]] = (it[1], at, self.block(at))

    def block(self, at):
        """The line after the block that begins at this one."""
        depth = 0
        for end in range(at, len(self.lines)):
            code = self.lines[end].partition("//")[0]
            depth += code.count("{") - code.count("}")
            if depth == 0 and code.rstrip().endswith(("}", ";")):
                return end + 1
        return len(self.lines)

    def impl_of(self, trait, name):
        for at, line in enumerate(self.lines):
            if re.match(rf"^impl(?:<.*>)? {trait}(?:<.*>)? for {name}\b", line):
                return at, self.block(at)
        return None


def ghosts_in(lines):
    """The ghost members of a trait or an impl: each name's first line and the line after its last."""
    found, depth = {}, 0
    for at, line in enumerate(lines):
        if it := re.match(r"^    ghost (\w+)\s*[:=]", line):
            end = at
            while not lines[end].rstrip().endswith(("};", "}")):
                end += 1
            found[it[1]] = (at, end + 1)
    return found


class World:
    def __init__(self):
        self.specs = {path: Specs(path) for path in paths("crates/*/specs/**/*.antt")}
        self.sources = {path: Source(path) for path in paths("crates/*/src/**/*.rt")}
        # Words of the toolchain's library, by their modules, and the members of each trait that are used.
        self.kit, self.members = {}, {}
        # Names of this repository that lead nowhere: the reading of its files here is wrong then.
        self.lost = set()

    def crate(self, path):
        return path.split("/")[1]

    # -- where a name leads

    def declared(self, crate, name, modules=()):
        """The declaration of a type, in this crate or in another one that it is passed on from."""
        of_name = [it for it in self.sources.values() if name in it.types]
        here = [it for it in of_name if self.crate(it.path) == crate]
        last = [it for it in here if modules and os.path.basename(it.path) in (f"{modules[-1]}.rt", "mod.rt")]
        return next(iter([*last, *here, *of_name]), None)

    def follow_path(self, path, name):
        """The items that a used name of an antt path stands for."""
        parts = path.split(".")
        if parts[0] != "Rattle":
            return []
        crate = parts[1]
        if not os.path.isdir(f"{TOP}/crates/{crate}"):
            if "declared" in parts:
                at = parts.index("declared")
                self.note_kit(crate, next(it for it in parts[at + 1 :] if it[0].isupper()))
            elif name is not None:
                self.note_kit(".".join(parts[1:]), name)
            return []
        if "declared" in parts:
            at = parts.index("declared")
            inner = parts[at + 1 :]
            kind = next(it for it in inner if it[0].isupper())
            if kind == "TheConstants":
                inner[-1] = kind = name
            source = self.declared(crate, kind, inner[: inner.index(kind)])
            if not source:
                self.lost.add(f"{path}.{name}")
            return [("type", source.path, kind)] if source else []
        file = f"crates/{crate}/specs/{'/'.join(parts[3:])}.antt"
        if file in self.specs:
            found = self.specs[file].constructors.get(name, name)
            if found in self.specs[file].items:
                return [("spec", file, found)]
        self.lost.add(f"{path}.{name}")
        return []

    def note_kit(self, module, name):
        if name != "Ghosts":
            self.kit.setdefault(module, set()).add(name)

    def is_constructor(self, scope, word):
        """Whether a name on the left side of an equation is a constructor's, and not one that the equation binds."""
        if word in getattr(scope, "constructors", {}) or word in ("zero", "suc", "true", "false", "tt"):
            return True
        path, given = scope.names.get(word, ("", ""))
        parts = path.split(".")
        file = f"crates/{parts[1]}/specs/{'/'.join(parts[3:])}.antt" if len(parts) > 3 else ""
        return "TheVariants" in parts or given[:1].isupper() or given in getattr(self.specs.get(file), "constructors", {})

    def words_in(self, code, bound):
        """The names of a text, less those that it binds."""
        code = re.sub(r'"(?:[^"\\]|\\.)*"', '""', code)
        bound = set(bound)
        bound.update(re.findall(r"(?<![\w.])([\w'-]+)(?=\s*=(?![=>]))", code))
        for names in re.findall(r"[({]\s*((?:[\w'-]+ )+):", code):
            bound.update(names.split())
        for names in re.findall(r"λ ((?:[\w'-]+ ?)+)\.", code):
            bound.update(names.split())
        return [word for word in WORD.findall(code) if "." in word or word not in bound], code

    def follow(self, scope, code, skip="", bound=()):
        words, code = self.words_in(code, bound)
        found = []
        if re.search(r"\bdo$|\bdo\b", code, re.M):
            words.append("◌>>=◌")
        spaced = set(code.split())
        for local in [*scope.names, *getattr(scope, "items", {})]:
            if local.startswith("◌") and local.count("◌") >= 2 and local.strip("◌") in spaced:
                words.append(local)
        for word in words:
            first, _, rest = word.partition(".")
            if first == skip and not rest:
                continue
            if rest and first in scope.modules and (rest[:1].isupper() or first not in bound):
                found += self.follow_path(scope.modules[first], rest.split(".")[0] or None)
            elif first in bound:
                continue
            elif first in scope.names:
                path, given = scope.names[first]
                found += self.follow_path(path, given)
            elif first in getattr(scope, "items", {}):
                found.append(("spec", scope.path, first))
            elif first in getattr(scope, "constructors", {}):
                found.append(("spec", scope.path, scope.constructors[first]))
        return found

    def follow_types(self, source, code):
        """The declared types that a text of code names."""
        found = []
        for name in re.findall(r"\b[A-Z]\w*", code):
            if name in source.types:
                found.append(("type", source.path, name))
            elif name in source.types_used:
                path, given = source.types_used[name]
                root = path.split("::")[0]
                crate = self.crate(source.path) if root in ("crate", "super", "self") else root
                if os.path.isdir(f"{TOP}/crates/{crate}"):
                    owner = self.declared(crate, given)
                    if owner:
                        found.append(("type", owner.path, given))
                elif root:
                    self.note_kit(root, given)
        return found

    # -- the items

    def spec(self, path, name):
        scope = self.specs[path]
        item = scope.items[name]
        code = item.code
        # The left sides of equations bind what isn't a constructor.
        bound = set()
        for left in re.findall(rf"^\s*{re.escape(name)} ([^=\n]*?) =(?=\s)", code, re.M):
            for word in re.findall(r"[\w'-]+", left):
                if not self.is_constructor(scope, word):
                    bound.add(word)
        code = "\n".join(line for line in code.split("\n") if not line.strip().startswith("unfolding"))
        found = self.follow(scope, code, name, bound)
        for local, (given_path, given) in scope.names.items():
            if given == "Ghosts" and re.search(rf"\b{local}\b", code):
                trait = next((it for it in given_path.split(".")[3:] if it[0].isupper()), None)
                self.members.setdefault(trait, set()).update(re.findall(r"(?<=\w)\.(\w+)", code))
        return item, [it for it in found if it[1:] != (path, name)]

    def type(self, path, name):
        source = self.sources[path]
        kind, at, end = source.types[name]
        first = at
        while first > 0 and re.match(r"\s*(///|//|#\[)", source.lines[first - 1]):
            first -= 1
        item = Item(path, name, at, end, source.lines)
        if kind == "trait":
            ghosts = ghosts_in(source.lines[at:end])
            used = sorted((it for it in self.members.get(name, ()) if it in ghosts), key=lambda it: ghosts[it])
            lines = [source.lines[at]]
            found = []
            for member in used:
                begin, after = (it + at for it in ghosts[member])
                lines += source.lines[with_comment(source.lines, begin, "//") : after]
                found += self.follow(source, "\n".join(source.lines[begin:after]))
                # A member whose type names another one.
                self.members[name] |= set(re.findall(r"\w+", "\n".join(source.lines[begin:after]))) & set(ghosts)
            for bound in re.findall(r"^    type \w+: (.*);", "\n".join(source.lines[at:end]), re.M):
                found += self.follow_types(source, bound)
            item.text = "\n".join([*source.lines[first:at], *lines, "}"])
            item.used = used
            return item, found
        item.text = "\n".join(source.lines[first:end])
        model = source.impl_of("Model", name)
        for other in self.sources.values():
            if not model and self.crate(other.path) == self.crate(path):
                model = other.impl_of("Model", name)
                where = other
                if model:
                    break
        else:
            where = source
        fields = "\n".join(line for line in item.code.split("\n")[1:] or [item.code])
        if kind != "struct" or not item.code.rstrip().endswith("}"):
            fields = item.code.partition(name)[2]
        if not model:
            return item, self.follow_types(source, re.sub(r"^\s*#\[.*", "", fields, flags=re.M))
        ghosts = ghosts_in(where.lines[model[0] : model[1]])
        lines, found = [where.lines[model[0]]], []
        scope = impl_scope(where, *model)
        # A representation invariant isn't among them: it is proved of every value, so nobody has to believe it.
        for member in ("Value", "view"):
            if member in ghosts:
                begin, after = (it + model[0] for it in ghosts[member])
                lines += where.lines[begin:after]
                code = "\n".join(where.lines[begin:after])
                found += self.follow(scope, re.sub(r"^\s*ghost \w+ =", "", code))
                for field in re.findall(r"\b\w+\.(\w+)", code):
                    for of_field in re.findall(rf"^\s*(?:pub(?:\(\w+\))? )?{field}: (.*),", item.code, re.M):
                        found += self.follow_types(source, of_field)
        item.text += "\n\n" + "\n".join([*lines, "}"])
        return item, found

    def impl(self, path, name):
        """What a type has for the members of a trait that are used."""
        trait, _, of = name.partition(" for ")
        source = self.sources[path]
        at, end = source.impl_of(trait, of)
        ghosts = ghosts_in(source.lines[at:end])
        used = [it for it in ghosts if it in self.members.get(trait, ())]
        scope = impl_scope(source, at, end)
        lines, found = [source.lines[at]], []
        for member in used:
            begin, after = (it + at for it in ghosts[member])
            lines += source.lines[begin:after]
            code = re.sub(r"^\s*ghost \w+ =", "", "\n".join(source.lines[begin:after]))
            found += self.follow(scope, code)
        item = Item(path, name, at, end, source.lines)
        item.text = "\n".join([*lines, "}"])
        item.used = used
        return item, found

    # -- the promises

    def root(self, function, path):
        source = self.sources[path]
        at = next(it for it, line in enumerate(source.lines) if re.match(rf"^pub fn {function}\b", line))
        end = next(it for it in range(at, len(source.lines)) if source.lines[it] == "{")
        first = next(it for it in range(at, end) if re.match(r"\s*(requires|ensures) ", source.lines[it]))
        head, clauses = "\n".join(source.lines[at:first]), source.lines[first:end]
        code = "\n".join(re.sub(r"//.*", "", line) for line in clauses)
        labels = re.findall(r"^\s*ensures (\w+)? ?\{", code, re.M)
        found = self.follow(source, code) + self.follow_types(source, head.partition("(")[2]) + self.follow_types(source, head.partition("(")[0])
        found += self.follow_types(source, code)
        generics = dict(re.findall(r"(\w+): (\w+)", head.partition("(")[0]))
        for param, member in re.findall(r"\b(\w+)\.(\w+)", code):
            if param in generics:
                self.members.setdefault(generics[param], set()).add(member)
        for member in re.findall(r"\b\w+\.Random\.(\w+)", code):
            self.members.setdefault("Rng", set()).add(member)
        for trait, member in re.findall(r"<\w+ as (\w+)>⟧\.(\w+)", code):
            self.members.setdefault(trait, set()).add(member)
        for of, trait in re.findall(r"<(\w+) as (\w+)>", code):
            for it in self.sources.values():
                if it.impl_of(trait, of):
                    found.append(("impl", it.path, f"{trait} for {of}"))
        return found, labels

    def closure(self, found):
        """All items that these lead to. Members of traits come to light on the way, so it goes on until nothing is new."""
        while True:
            before = {trait: set(used) for trait, used in self.members.items()}
            seen, waiting, edges = {}, list(found), {}
            while waiting:
                key = waiting.pop()
                if key in seen:
                    continue
                item, leads = getattr(self, key[0])(*key[1:])
                seen[key], edges[key] = item, leads
                waiting += leads
            if before == self.members:
                return seen, edges


def impl_scope(source, at, end):
    scope = type("Scope", (), {"names": dict(source.names), "modules": dict(source.modules), "path": source.path})()
    for line in source.lines[at:end]:
        if it := re.match(r"^    ghost use (\S+?)(?:\.\{([^}]*)\})?(?: as (\w+))?;", line):
            Specs.use(scope, it[1], it[2], it[3])
    return scope


def paths(pattern):
    return sorted(os.path.relpath(it, TOP) for it in glob.glob(f"{TOP}/{pattern}", recursive=True) if "/out/" not in it)


def in_order(seen, edges, roots):
    """The items file by file, each file behind those that it leads to, as far as that goes."""
    of_file, leads = {}, {}
    for key in seen:
        of_file.setdefault(key[1], []).append(key)
    for key in seen:
        leads.setdefault(key[1], set()).update(it[1] for it in edges[key] if it[1] != key[1])
    done, order = set(), []

    def visit(file):
        if file in done:
            return
        done.add(file)
        for low in sorted(leads.get(file, ()), key=lambda it: (not it.endswith(".rt"), it)):
            visit(low)
        order.append(file)

    for root in roots:
        for key in root:
            if key in seen:
                visit(key[1])
    for file in sorted(of_file):
        visit(file)
    return [(file, sorted(of_file[file], key=lambda key: seen[key].at)) for file in order if file in of_file]


def name_of(key, item):
    if getattr(item, "used", None) is None:
        return f"`{key[2]}`"
    return f"`{key[2]}` ({', '.join(item.used)})" if item.used else f"`{key[2]}`"


def wrapped(line, indent):
    return textwrap.fill(line, 118, subsequent_indent=indent, break_long_words=False, break_on_hyphens=False)


def rounded(count, by):
    return -(-count // by) * by


def report():
    world = World()
    roots, labels = [], {}
    for function, path in ROOTS:
        found, labels[function] = world.root(function, path)
        roots.append(found)
    both, edges = world.closure([key for root in roots for key in root])
    parts = [reach(root, edges) for root in roots]
    order = in_order(both, edges, roots)
    if world.lost:
        sys.exit("tools/theorem.py doesn't find the definitions of " + ", ".join(sorted(world.lost)))
    return both, parts, order, world.kit, labels


def reach(root, edges):
    seen, waiting = set(), list(root)
    while waiting:
        key = waiting.pop()
        if key not in seen:
            seen.add(key)
            waiting += edges.get(key, ())
    return seen


def table(both, parts, order, kit):
    lines, total, headline = [], 0, 0
    for file, keys in order:
        size = sum(both[key].text.count("\n") + 1 for key in keys)
        total += size
        headline += sum(both[key].text.count("\n") + 1 for key in keys if key in parts[0])
        needed = [function for (function, _), part in zip(ROOTS, parts) if any(key in part for key in keys)]
        of = "" if len(needed) == len(ROOTS) else f" (`{needed[0]}` alone)"
        names = ", ".join(name_of(key, both[key]) for key in keys)
        line = f"1. `{file.removeprefix('crates/')}`, about {rounded(size, 10)} lines{of}: {names}"
        lines.append(wrapped(line, "   "))
    head = wrapped(
        f"{len(both)} definitions in {len(order)} files, about {rounded(total, 100)} lines with their comments, of which the headline, "
        f"`{ROOTS[0][0]}`, alone needs about {rounded(headline, 100)}. Files stand below `crates/`.",
        "",
    )
    library = ["The words of the toolchain's library on which they stand:", ""]
    for module in sorted(kit):
        words = ", ".join(f"`{name}`" for name in sorted(kit[module]))
        library.append(wrapped(f"- `{module}`: {words}", "  "))
    return "\n".join([head, "", *lines, "", *library])


def main():
    word = sys.argv[1] if len(sys.argv) > 1 else ""
    if word not in ("", "--write", "--check", "--text"):
        sys.exit(__doc__)
    both, parts, order, kit, labels = report()
    listed = table(both, parts, order, kit)
    if word == "":
        print(listed)
        return
    if word == "--text":
        for file, keys in order:
            print(f"======== {file}\n")
            for key in keys:
                print(both[key].text, end="\n\n")
        return
    with open(DOCUMENT, encoding="utf-8") as file:
        page = file.read()
    above, begin, rest = page.partition(BEGIN)
    _, end, below = rest.partition(END)
    if not begin or not end:
        sys.exit("docs/THEOREM.md has no marker lines")
    made = f"{above}{BEGIN}\n\n{listed}\n\n{END}{below}"
    if word == "--write":
        with open(DOCUMENT, "w", encoding="utf-8") as file:
            file.write(made)
        return
    faults = []
    if made != page:
        faults.append("its list of definitions isn't that of the sources: tools/theorem.py --write makes it anew")
    for function, have in labels.items():
        named = set(re.findall(rf"`{function}\.(\w+)`", above))
        faults += [f"it names the clause `{function}.{it}`, which isn't there" for it in sorted(named - set(have))]
        faults += [f"it leaves out the clause `{function}.{it}`" for it in have if it and it not in named]
    for fault in faults:
        print(f"docs/THEOREM.md: {fault}", file=sys.stderr)
    sys.exit(1 if faults else 0)


main()
