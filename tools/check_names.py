#!/usr/bin/env python3
"""Finds in seconds what a proof finds in minutes: names, paths and layout that lead nowhere. `check_names.py`

It reads the files that git doesn't ignore, and looks at seven things:

- each name that a `use` takes from a file of specs/ or proofs/ of this repository stands in that file, and each crate
  that one names is of this repository or of the kit;
- the old line of each must-fail edit stands exactly once in its file, and the new one differs from it;
- each path that a document names is there, and in CONTRIBUTING.md each path of a crate is one of some crate;
- each library that `crates.txt` gives a crate stands in its sources;
- no two lemmas state the same, whatever their names, those of their variables, and the order of what they ask;
- no line of code, proofs, tools or prose passes 120 columns, but for attributes, which `rt fmt` joins, for tables and
  for what a program printed;
- no file of code or proofs passes 800 lines.

It ends with status 1 where one of them fails, a line for each. It proves nothing.
"""

import re
import subprocess
import sys
from pathlib import Path

COLUMNS = 120
LINES = 800
TOP = Path(__file__).resolve().parent.parent
# The language's own crates, and those of the kit that the repository uses.
KIT = frozenset({"core", "std", "std_alloc", "std_collections", "byteorder", "clap", "itoa", "lru", "toml"})
FOLDERS = (".ci", "clients", "crates", "docs", "samples", "tools")
CRATE_FOLDERS = ("proofs", "specs", "src")
COMMENTS = {".antt": re.compile("--.*"), ".rt": re.compile("//.*")}
USE = re.compile(r"\buse Rattle\.([^{}\s]+)\.\{([^}]*)\}")
# Files that the toolchain writes: types, contracts and goals as proofs see them.
WRITTEN = re.compile(r"\.(declared|contracts|Given|Goals)(\.|$)")
LEMMA = re.compile(r"^(?:pub )?([^\s(){},:]+) : ((?:.*\n)(?:[ \t]+.*\n)*)", re.M)
# A bracket or a separator, the dot after the variables of a λ, or all up to the next of these.
TOKEN = re.compile(r"[()\[\]{},;]|\.(?!\S)|(?:(?!\.(?!\S))[^\s()\[\]{},;])+")
WORD = re.compile(r"[^\W\d][\w'-]*")
OPENING, CLOSING = "([{", ")]}"
DOCUMENTED = re.compile(r"`([\w.+-]+(?:/[\w.+-]+)+)/?`|\]\(([\w./-]+)\)")


def files(*endings):
    """The files that are there and that git doesn't ignore, with one of these endings."""
    command = ["git", "ls-files", "--cached", "--others", "--exclude-standard"]
    names = subprocess.run(command, cwd=TOP, check=True, capture_output=True, text=True).stdout.split("\n")
    return [TOP / name for name in names if name.endswith(endings) and (TOP / name).is_file()]


def code_of(path):
    """The text of a file of code or proofs without its comments."""
    return COMMENTS[path.suffix].sub("", path.read_text())


def unknown_names(path, crates):
    """The names that a file imports from one that doesn't have them."""
    for module, names in USE.findall(code_of(path)):
        crate, _, place = module.partition(".")
        if crate not in crates and crate not in KIT:
            yield f"{crate} is no crate"
        if crate not in crates or WRITTEN.search(module):
            continue
        target = TOP / "crates" / crate / (place.replace(".", "/") + ".antt")
        if not target.is_file():
            yield f"{module} is no file"
            continue
        words = set(re.split(r"[\s(){},;]+", code_of(target)))
        for name in names.split(","):
            word = name.split(" as ")[0].strip()
            if word and word not in words:
                yield f"{module} has no {word}"


def lost_edits(path):
    """Why an edit can't be made."""
    fields = dict(line.split(": ", 1) for line in path.read_text().splitlines() if ": " in line)
    file = path.parent.parent / fields.get("file", "")
    if not file.is_file() or "old" not in fields or "new" not in fields:
        yield "has no file, no old or no new line"
    elif fields["old"] == fields["new"]:
        yield "changes nothing"
    else:
        count = sum(fields["old"] in line for line in file.read_text().splitlines())
        if count != 1:
            yield f"its old line stands {count} times"


def lost_paths(path, crates):
    """The paths that a document names and that aren't there: of crates, of folders at the top, of links; and in
    CONTRIBUTING.md those of a crate that no crate has."""
    for name, link in DOCUMENTED.findall(path.read_text()):
        first, _, rest = name.partition("/")
        if link:
            file = path.parent / link
        elif first in crates:
            file = TOP / "crates" / name
        elif first in FOLDERS and "NAME" not in rest:
            file = TOP / name
        elif first in CRATE_FOLDERS and path.name == "CONTRIBUTING.md":
            if not any((TOP / "crates" / crate / name).exists() for crate in crates):
                yield f"no crate has {name}"
            continue
        else:
            continue
        if not file.exists() and not is_ignored(file):
            yield f"{name or link} isn't there"


def unused_libraries():
    """The libraries of crates that their sources don't name, by the line of crates.txt."""
    for line in (TOP / "crates.txt").read_text().splitlines():
        crate, colon, libraries = line.partition(":")
        if not colon or crate.startswith("#"):
            continue
        folder = TOP / "crates" / crate
        text = "\n".join(code_of(path) for path in files(".rt", ".antt") if folder in path.parents)
        for library in libraries.split():
            if not re.search(rf"\b{library}::|\bRattle\.{library}\b", text):
                yield f"{crate} doesn't name {library}"


def split_at(tokens, separators):
    """The parts of tokens between separators that stand in no bracket."""
    parts, depth = [[]], 0
    for token in tokens:
        depth += (token in OPENING) - (token in CLOSING)
        if depth == 0 and token in separators:
            parts.append([])
        else:
            parts[-1].append(token)
    return parts


def bracket_at(tokens, start):
    """Where the bracket that opens at a place is closed, or the end."""
    depth = 0
    for place in range(start, len(tokens)):
        depth += (tokens[place] in OPENING) - (tokens[place] in CLOSING)
        if depth == 0:
            return place
    return len(tokens) - 1


def variables_at(tokens, start):
    """The variables that brackets as `(x y : T)` or `{T}` bind from a place on, each with its type, and where such
    brackets end."""
    bound = []
    while start < len(tokens) and tokens[start] in ("(", "{"):
        end = bracket_at(tokens, start)
        names, *types = split_at(tokens[start + 1:end], (":",))
        if not names or not all(map(WORD.fullmatch, names)) or not types and tokens[start] == "(":
            break
        bound += [(name, types[0] if types else []) for name in names]
        start = end + 1
    return bound, start


def renamed(tokens, name_of, inner=0):
    """The tokens without the names of variables: what `name_of` makes of the outer ones, and for one that they bind
    themselves how many stand around it."""
    written, place, inside = [], 0, {}

    def named(word):
        return inside[word] if word in inside else name_of(word)

    while place < len(tokens):
        token = tokens[place]
        bound, end = variables_at(tokens, place)
        if token == "λ":
            end = place + tokens[place:].index(".")
            bound = variables_at(tokens, place + 1)[0] or [(name, []) for name in tokens[place + 1:end]]
            # what a λ says of its variables' types follows from where it stands
            written.append(f"λ{len(bound)}")
            inside |= {name: f"b{inner + number}" for number, (name, _) in enumerate(bound)}
            inner += len(bound)
            place = end + 1
        elif bound and end < len(tokens) and tokens[end] in ("→", "×"):
            for name, of in bound:
                written += ["(", *renamed(of, named, inner), ")"]
                inside[name] = f"b{inner}"
                inner += 1
            place = end
        elif token in OPENING:
            end = bracket_at(tokens, place)
            written += [token, *renamed(tokens[place + 1:end], named, inner), tokens[end]]
            place = end + 1
        else:
            word = WORD.match(token)
            written.append(named(word[0]) + token[word.end():] if word else token)
            place += 1
    return written


def statement(text):
    """A lemma's statement, with its variables numbered from its conclusion on, and what it asks in an order of which
    names decide nothing."""
    *asked, conclusion = split_at(TOKEN.findall(text), ("→",))
    types, asks = {}, []
    for part in asked:
        bound, end = variables_at(part, 0)
        if end == len(part):
            types.update(bound)
        else:
            asks.append(part)
    cited = {word[0] for part in (conclusion, *asks, *types.values()) for word in map(WORD.match, part) if word}
    # a variable that nothing cites is the name of something asked
    asks += [of for name, of in types.items() if name not in cited]
    numbers = {}

    def known(word):
        return numbers.get(word, "?") if word in types else word

    def numbered(word):
        return numbers.setdefault(word, f"v{len(numbers)}") if word in types else word

    stated = [renamed(conclusion, numbered)]
    while asks:
        asks.sort(key=lambda part: renamed(part, known))
        stated.append(renamed(asks.pop(0), numbered))
    stated[1:] = sorted(stated[1:])
    for name in types:
        if name in cited:
            numbered(name)
    of = {numbers[name]: renamed(types[name], numbered) for name in types if name in cited}
    return " → ".join(" ".join(part) for part in stated + [of[name] for name in numbers.values()])


def lemmas_twice():
    """The lemmas that state what an earlier one does, with their files. Those inside a `module` aren't compared."""
    first = {}
    for path in files(".antt"):
        text = re.sub(r"^\s*--.*\n", "", path.read_text(), flags=re.M)
        for name, stated in LEMMA.findall(COMMENTS[".antt"].sub("", text)):
            # a goal's answer, and a definition, which has no variable
            if name == "use" or "goal." in stated or "(" not in stated:
                continue
            other, word = first.setdefault(statement(stated), (path, name))
            if (other, word) != (path, name):
                yield path, f"{name} states what {word} of {other.relative_to(TOP)} does"


def is_ignored(file):
    """Whether git ignores the file."""
    return subprocess.run(["git", "check-ignore", "-q", file], cwd=TOP, check=False).returncode == 0


def long_parts(path):
    """The lines of a file that are too wide, and whether it has too many of them."""
    lines = path.read_text().splitlines()
    for number, line in enumerate(lines, 1):
        kept = ("|", "    ") if path.suffix == ".md" else ()
        if len(line) > COLUMNS and not line.lstrip().startswith("#[") and not line.startswith(kept):
            yield f"line {number} has {len(line)} columns"
    if len(lines) > LINES and path.suffix != ".md":
        yield f"has {len(lines)} lines"


def main():
    crates = {path.name for path in (TOP / "crates").iterdir() if path.is_dir()}
    found = []
    for path in files(".antt", ".rt"):
        found += [(path, fault) for fault in unknown_names(path, crates)]
    for path in files(".edit"):
        found += [(path, fault) for fault in lost_edits(path)]
    for path in files(".md"):
        found += [(path, fault) for fault in lost_paths(path, crates)]
    for path in files(".antt", ".rt", ".py", ".md"):
        found += [(path, fault) for fault in long_parts(path)]
    found += [(TOP / "crates.txt", fault) for fault in unused_libraries()]
    found += lemmas_twice()
    for path, fault in found:
        print(f"{path.relative_to(TOP)}: {fault}")
    return 1 if found else 0


if __name__ == "__main__":
    sys.exit(main())
