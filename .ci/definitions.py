"""What the definitions of specs/ are, what each cites, and which of them public contracts reach.

It reads the files as text, by their layout (`rt fmt`): an item begins at the left edge. It knows no
types, so a name stands for the definition of that name that the file imports or makes.
"""
import collections
import pathlib
import re

Definition = collections.namedtuple("Definition", "name line kind block has_comment")
Key = collections.namedtuple("Key", "crate module name")

WORD = re.compile(r"[^\s(){}\[\],;\"]+")
USE = re.compile(
    r"^\s*(?:ghost )?use Rattle\.(\w+)\.specs\.([\w.]+?)(?:\.\{([^}]*)\})?(?: as ([\w]+))?;?\s*$", re.M | re.S
)
PASSED_ON = re.compile(r"^pub use Rattle\.(\w+)\.specs\.([\w.]+)\.\{([^}]*)\}", re.M)
MODIFIERS = r"(?:(?:abbrev|unfoldable|opaque|pub)\s+)*"
HEAD = re.compile(r"^(" + MODIFIERS + r")(?:(record|data|ruleset)\s+)?([^\s:(){}]+)")
NOT_ITEMS = ("use ", "pub use ", "pub mod ", "mod ", "unfolding", "mutual", "where")
ITEM = re.compile(r"^(pub(?:\([a-z]+\))? )?(?:unsafe )?(fn|struct|enum|trait|impl|const|type|mod|static)\b(.*)$")


def without_comments(text):
    return re.sub(r"--.*", "", text)


def unfolded(lines):
    """The lines with those of a `mutual` block moved to the left edge, under its modifiers."""
    modifiers = None
    for number, line in enumerate(lines):
        block = re.match(r"^(" + MODIFIERS + r")mutual$", line)
        if block:
            modifiers = block.group(1)
            yield "--" if number and lines[number - 1].startswith("--") else ""
        elif modifiers is not None and line.startswith("  "):
            starts = re.match(r"  (?:pub )?[^\s:(){}]+ :\s", line)
            yield (modifiers if starts else "") + line[2:]
        else:
            modifiers = None if line else modifiers
            yield line


def definitions(text):
    """The definitions of an .antt file, in order, each with its lines."""
    lines, found = list(unfolded(text.split("\n"))), []
    for number, line in enumerate(lines):
        if line.startswith("--"):
            continue
        head = None if not line or line[0] == " " or line.startswith(NOT_ITEMS) else HEAD.match(line)
        if head:
            modifiers, kind, name = head.groups()
            typed = re.match(r"^" + MODIFIERS + re.escape(name) + r"(?:\s+[({][^=]*)?\s*:(?:\s|$)", line)
            if (kind or typed) and not any(d.name == name for d in found):
                words = modifiers.split() + [kind or ""]
                above = number > 0 and lines[number - 1].startswith("--")
                found.append(Definition(name, number + 1, words, [line], above))
                continue
        if found:
            found[-1].block.append(line)
    return found


def constructors(definition):
    """The names of the cases of a `data`."""
    if "data" not in definition.kind:
        return []
    return re.findall(r"^\s+([^\s:]+)\s*:", "\n".join(definition.block), re.M)


def imports(text):
    """What each imported name stands for, and what each name of a module does."""
    names, modules = {}, {}
    for crate, module, braces, alias in USE.findall(text):
        if module.startswith(("declared", "contracts")):
            continue
        for item in filter(None, (i.strip() for i in braces.split(","))):
            name, _, other = item.partition(" as ")
            names[(other or name).strip()] = Key(crate, module, name.strip())
        if alias:
            modules[alias] = (crate, module)
    return names, modules


def cited(text, names, modules):
    """The definitions that a text cites."""
    text = without_comments(text)
    for word in WORD.findall(text):
        first, dot, rest = word.partition(".")
        if word in names:
            yield names[word]
        elif first in names:
            yield names[first]
        elif first in modules and dot:
            yield Key(*modules[first], rest.split(".")[0])
    for name, key in names.items():
        signs = [s for s in name.split("◌") if s] if "◌" in name else []
        if signs and all(s in text for s in signs):
            yield key


def spec_files(root):
    """Each file of a specs/ folder but the lists of modules, with its crate and module."""
    for path in sorted(root.glob("crates/*/specs/**/*.antt")):
        crate = path.relative_to(root).parts[1]
        module = ".".join(path.relative_to(root / "crates" / crate / "specs").with_suffix("").parts)
        if "out" not in path.parts and module not in ("Lib", "Internal"):
            yield crate, module, path


def is_internal(key):
    return key.module.split(".")[0] == "Internal"


def graph(root):
    """What each definition cites, and where it stands."""
    cites, places = {}, {}
    for crate, module, path in spec_files(root):
        text = path.read_text()
        names, modules = imports(text)
        found = definitions(text)
        known = dict(names)
        for definition in found:
            for name in [definition.name, *constructors(definition)]:
                known[name] = Key(crate, module, definition.name)
        for definition in found:
            key = Key(crate, module, definition.name)
            places[key] = (path, definition.line)
            cites[key] = set(cited("\n".join(definition.block), known, modules)) - {key}
            for name in constructors(definition):
                cites[Key(crate, module, name)] = {key}
    cites.update({key: {origin} for key, origin in passed_on(root).items()})
    return cites, places


def exported(folder):
    """The public names of a crate, and its public modules."""
    names, modules = set(), set()
    for root_file in (folder / "src" / "lib.rt", folder / "src" / "main.rt"):
        if root_file.exists():
            text = root_file.read_text()
            for _, used in re.findall(r"^pub use (\w+)::(\{[^}]*\}|[\w:]+);", text, re.M | re.S):
                names |= {n.strip().split(" as ")[0].split("::")[-1] for n in used.strip("{}").split(",")}
            names |= set(re.findall(r"^pub (?:fn|struct|enum|trait|const|type) (\w+)", text, re.M))
            modules |= set(re.findall(r"^pub mod (\w+);", text, re.M))
    return names, modules


def items(text):
    """The lines of each item at the left edge of a source file."""
    found = []
    for line in text.split("\n"):
        if ITEM.match(line):
            found.append([line])
        elif found and not re.match(r"^(ghost use|use|#|//)", line):
            found[-1].append(line)
    return found


def clauses(lines):
    """The text of the clauses and ghost items in these lines."""
    said, inside, depth = [], False, 0
    for line in lines:
        start = line.lstrip()
        if not inside and start.startswith(("ensures", "requires", "ghost ", "decreases")):
            inside, depth = not start.startswith("ghost use"), 0
        if inside:
            said.append(line)
            depth += line.count("{") - line.count("}")
            if depth <= 0 and ("}" in line or start.rstrip().endswith(";")):
                inside = False
    return "\n".join(said)


def public_methods(lines):
    """The lines of the public methods of an `impl` without a trait."""
    kept, keep = [], False
    for line in lines:
        method = re.match(r"^    (pub(?:\([a-z]+\))? )?(?:const )?fn ", line)
        if method:
            keep = (method.group(1) or "").strip() == "pub"
        if keep:
            kept.append(line)
    return kept


def public_clauses(item, names, is_public_module):
    """What a caller of the crate sees of an item's clauses."""
    public, kind, rest = ITEM.match(item[0]).groups()
    if kind == "impl":
        plain = re.sub(r"<[^<>]*>", "", re.sub(r"<[^<>]*>", "", item[0]))
        target = re.search(r"impl\s+(?:(\w+(?:::\w+)*)\s+for\s+)?(\w+)", plain)
        trait, name = target.groups() if target else (None, None)
        if trait == "Model":
            return clauses(item)
        if name not in names and not is_public_module:
            return ""
        return clauses(item if trait else public_methods(item[1:]))
    name = re.match(r"\s*(\w+)", rest)
    is_seen = (public or "").strip() == "pub" and (is_public_module or (name and name.group(1) in names))
    return clauses(item) if is_seen else ""


def passed_on(root):
    """Names that a file of specs/ passes on by `pub use`, each with the definition that it stands for."""
    found = {}
    for crate, module, path in spec_files(root):
        for other, other_module, braces in PASSED_ON.findall(path.read_text()):
            for name in filter(None, (n.strip() for n in braces.split(","))):
                found[Key(crate, module, name)] = Key(other, other_module, name)
    return found


def crates(root):
    return re.findall(r"^(\w+)", (root / "crates.txt").read_text(), re.M)


def cited_by_contracts(root):
    """The definitions that public contracts, models and ghost members cite, with what cites them."""
    found, origins = {}, passed_on(root)
    for crate in crates(root):
        names, public_modules = exported(root / "crates" / crate)
        for path in sorted(root.glob(f"crates/{crate}/src/**/*.rt")):
            if path.stem.endswith("tests"):
                continue
            text = path.read_text()
            imported, modules = imports(text)
            for item in items(text):
                said = public_clauses(item, names, path.stem in public_modules)
                for key in cited(said, imported, modules):
                    while key in origins:
                        key = origins[key]
                    found.setdefault(key, []).append((path, item[0].strip()))
    return found


def reached(root):
    """The definitions that these stand on."""
    cites, places = graph(root)
    seen, left = set(), list(cited_by_contracts(root))
    while left:
        key = left.pop()
        if key not in seen:
            seen.add(key)
            left += cites.get(key, ())
    return seen, places
