"""What the tools for edits and `unique` share: edits, that is files *.edit as rt reads them, and the functions and constants of a crate, as rt fmt lays them out."""
import os, re, subprocess, sys, zlib
from collections import namedtuple

ROOT = os.path.dirname(os.path.dirname(os.path.abspath(__file__)))
# `module`: the names of the modules around it; `owner`: the type that a method is of, or none. `first` and `last` are its lines in `file`, counted from 1, `brace` that
# behind which a function's body begins, and of a constant the line before it. `text`: what stands behind `brace`, without comments. `cycle`: the name that functions which
# call each other share, or none
Item = namedtuple("Item", "name kind public module owner cycle file first brace last text")
# `items` of all its files; `imported`: of each file the paths that its `use` lines name; `outside`: of each file what stands in no function's body and in no constant
Crate = namedtuple("Crate", "path items imported outside")

# a name as antt has it; what stands before and behind it is none of its letters
NAME = r"[A-Za-z][\w'-]*"
LETTER = r"[\w'·.-]"


class Bad(Exception):
    """What cannot be tried, and why."""


def read(path):
    with open(path, encoding="utf-8", errors="replace") as file:
        return file.read()


def pairs_of(edit):
    """An edit's replacements, in their order: the file, the text that stands in it once, and what is put there."""
    file, old, found = None, None, []
    for key, value in re.findall(r"^(file: |old: |new: ?)(.*)$", read(edit), re.M):
        if key == "file: ":
            file = value
        elif key == "old: ":
            old = value
        else:
            found.append((file, old, value))
            old = None
    if not found or not all(file and old for file, old, _ in found):
        raise Bad(f"{os.path.basename(edit)}: it has no whole 'file:', 'old:' and 'new:'")
    return found


def is_blank(old, new):
    """Whether a replacement changes blanks alone, to make another text the only one of its kind."""
    return old.split() == new.split()


def applied(crate, pairs, who, together=False):
    """The line of each replacement where they are made one after another, each within a line, so that lines keep their numbers. Of edits that are made together one of blanks may
    find its text gone: its line is 0, and it is left out."""
    texts, lines = {}, []
    for file, old, new in pairs:
        if file not in texts:
            texts[file] = read(f"{crate}/{file}") if os.path.isfile(f"{crate}/{file}") else ""
        count = texts[file].count(old)
        if count != 1 and not (together and is_blank(old, new)):
            raise Bad(f"{who}: this is {count} times in {file}: {old}")
        lines.append(texts[file].count("\n", 0, texts[file].index(old)) + 1 if count == 1 else 0)
        texts[file] = texts[file].replace(old, new) if count == 1 else texts[file]
    return lines


def cycle_of(lines, n):
    """The cycle that the attributes above line n name."""
    above = n - 2
    while above >= 0 and lines[above].strip().startswith("#["):
        found = re.search(r"#\[cycle\((\w+)\)\]", lines[above])
        if found:
            return found[1]
        above -= 1
    return None


def items_of(file, module, lines):
    """The functions and constants of a file: a function ends with a brace under its first letter, and contracts stand deeper than it."""
    owner = None
    for n, line in enumerate(lines, 1):
        if line[:1].strip():
            owner = (re.match(r"impl(?:<[^>]*>)? (\w+)", line) or [None, None])[1]
        function = re.match(r'( *)(pub )?(?:pub\(crate\) )?(?:unsafe )?(?:extern "C" )?fn (\w+)', line)
        constant = re.match(r"(pub )?const (\w+)(:.*)", line)
        if function:
            indent, public, name = function.groups()
            last = next(i for i in range(n, len(lines) + 1) if lines[i - 1] == indent + "}")
            brace = next(i for i in range(n, last) if re.fullmatch(indent + r"(\S.*)?\{", lines[i - 1]))
            public = bool(public) or (name, file) == ("main", "src/main.rt")
            yield Item(name, "function", public, module, owner if indent else None, cycle_of(lines, n), file, n, brace, last, "\n".join(lines[brace : last - 1]))
        if constant:
            last = next(i for i in range(n, len(lines) + 1) if lines[i - 1].endswith(";"))
            yield Item(constant[2], "constant", bool(constant[1]), module, None, None, file, n, n - 1, last, "\n".join([constant[3], *lines[n:last]]))


USE = re.compile(r"^(?:pub )?use ([\w:]+?)(?:::\{([^}]*)\})?;", re.M)


def imported_by(text):
    """The paths that the `use` items of a file name."""
    found = []
    for path, names in USE.findall(text):
        found += [f"{path}::{name.strip()}" for name in names.split(",") if name.strip()] or [path]
    return found


def crate_of(path):
    """A crate's items, and what its files import and say elsewhere."""
    items, imported, outside = [], {}, {}
    for at, _, files in sorted(os.walk(f"{path}/src")):
        for name in sorted(f for f in files if f.endswith(".rt")):
            file = os.path.relpath(os.path.join(at, name), path)
            module = file[:-3].split("/")[1:]
            module = tuple(module[:-1] if module[-1] in ("lib", "main", "mod") else module)
            lines = [re.sub(r"\s*//.*", "", line) for line in read(f"{path}/{file}").split("\n")]
            found = list(items_of(file, module, lines))
            within = {n for i in found for n in range(i.brace + 1, i.last + 1)}
            imported[file] = imported_by("\n".join(lines))
            outside[file] = USE.sub("", "\n".join(line for n, line in enumerate(lines, 1) if n not in within))
            items += found
    return Crate(path, items, imported, outside)


def path_of(item):
    """The names on the way to an item, its own last."""
    return [*item.module, *([item.owner] if item.owner else []), item.name]


def names(crate, item, file, text):
    """Whether a text of a file of the crate names an item: a method behind a dot or its type, anything else by its name alone where it is at home or imported, or behind its module's."""
    called = r"\(" if item.kind == "function" else r"\b"
    if item.owner:
        return re.search(rf"(?:\.|\b(?:{item.owner}|Self)::){item.name}{called}", text)
    module = item.module[-1] if item.module else "(?:super|crate)"
    near = file == item.file or any(re.fullmatch(rf"(?:.*::)?{module}::{item.name}", path) for path in crate.imported[file])
    return re.search(rf"\b{module}::{item.name}{called}" + (rf"|(?<![\w.:]){item.name}{called}" if near else ""), text)


def ghosts(text):
    """What a file calls by which name: the module that a name is of, or that stands behind a prefix."""
    names, prefixes = {}, {}
    for path, listed, prefix in re.findall(r"^(?:ghost |pub |unfoldable )*use ([^\s{;]+?)(?:\.\{([^}]*)\}| as (\w+));?$", text, re.M):
        names.update(dict.fromkeys(re.findall(NAME, listed), path))
        prefixes.update({prefix: path} if prefix else {})
    return names, prefixes


# ---- edits by turns
def is_changed(root, since, paths):
    """Whether something at these paths differs from a revision."""
    status = subprocess.run(["git", "diff", "--quiet", since, "--", *paths], cwd=root).returncode
    if status > 1:
        sys.exit(f"{since} is no revision")
    return status == 1


def is_in_turn(labels, third):
    """Whether edits of these names are of a turn, 0 to 2."""
    return zlib.crc32(" ".join(labels).encode()) % 3 == third
