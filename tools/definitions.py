#!/usr/bin/env python3
"""Makes docs/DEFINITIONS.md from the contracts and the specs: what the whole contract of each command rests on.

    tools/definitions.py            writes the page
    tools/definitions.py --check    writes nothing, and has status 1 where the page is not the one that would be made
    tools/definitions.py LETTER     prints the definitions themselves on which the command of this letter rests

A contract rests on the names in its clauses, and a definition on those in its text, but for the names that these bind
themselves and for fields. A file of definitions is headed by one sentence, with its source in brackets. The status of
--check is 1, too, where a file says that no public clause cites it, and the clause of a public function rests on it."""

import re
import signal
import sys
import textwrap
from dataclasses import dataclass, field
from pathlib import Path

ROOT = Path(__file__).resolve().parent.parent
CRATES = ROOT / "crates"
PAGE = ROOT / "docs" / "DEFINITIONS.md"
# The letter of each command, its name, and the functions that run it. A window that fits is told by a definition.
COMMANDS = {
    "f": ("fig", "gf_studio.fig_run"),
    "n": ("fig --named", "gf_studio.named_fig_run"),
    "p": ("paint", "gf_studio.paint_run gf_studio.PictureRun.FitsLines"),
    "r": ("repaint", "gf_studio.repaint_run gf_studio.PictureRun.FitsText"),
    "i": ("inspect", "gf_studio.inspect_run"),
    "m": ("import", "gf_import.import_run"),
    "e": ("edit", "gf_edit.edit_run"),
    "t": ("status", "gf_status.status_run"),
    "c": ("check", "gf_check.check_run"),
    "k": ("take", "gf_take_run.take_run"),
    "s": ("session", "gf_session_run.session_run"),
    "v": ("serve", "gf_serve.serve_run gf_serve.Dialogue.turn"),
    "w": ("the words of a command line", "gf_command.command"),
}
# Some clauses of `fig_run`, and what they promise; the others promise each byte of what is written.
CLAUSES = {
    "exports": "the text reads as a drawing with the colours that the lines mean",
    "exports waiting source refused": "and what waits, what was read, and why nothing is written",
}
# What the head of a file says whose definitions only proofs rest on.
PRIVATE = "No public clause cites this module."
HEAD = """# Definitions

What has to be believed for a claim: all else is proved. `tools/definitions.py` makes this page from
the contracts and the specs. For each command it counts the definitions on which the whole contract
rests, refusals too. Laws name [some more](CLAIMS.md#laws-each-named-by-its-claim), in `specs/` of
their crates.

| command | letter | definitions | their lines |
|---|---|---|---|
{counts}

To read the definitions of a command in one go, file by file and each with its comment, type its
letter: `tools/definitions.py f | less`.

What `fig` promises takes more definitions the more clauses of `fig_run` one reads:

| clauses | promise | definitions | their lines |
|---|---|---|---|
{clauses}
| all | and each byte that is written | {whole} |

## What `fig` rests on

Each file stands in `specs/` of its crate. Behind its name are the letters of the commands that rest
on it, and how many of its definitions count for `fig`, if not all do. Where no source is named, the
choice is this project's.

{fig}

## What other commands add

Here stand the files of which other commands take definitions that `fig` does not need. Each letter
is that of such a command. The first sentence of a file says what it defines.

{added}

## Types, and the language's own libraries

The types of the code that these speak of, each declared with a comment for each part:

{types}

They also speak of definitions of the language's own libraries: {kit}.

## Sources

- C. Sun, D. Chen: Consistency maintenance in real-time collaborative graphics editing systems. ACM
  Transactions on Computer-Human Interaction 9(1), 2002: concurrent operations, conflicts, versions
  as maximal compatible groups.
- K. Birman, A. Schiper, P. Stephenson: Lightweight causal and atomic group multicast. ACM
  Transactions on Computer Systems 9(3), 1991: when an operation is ready.
- FIG 3.2: Xfig, FIG Format 3.2; Netpbm, ppm(5); RFC 8259 (JSON), as serde_json reads it.

Worked examples that the logic computes stand in `crates/test_definitions/specs/`.
"""
IMPORT = re.compile(r"^\s*(?:ghost )?use Rattle\.(\w+)\.specs\.([\w.]+?)(?:\.\{([^}]*)\}| as (\w+))", re.M)
DEFINED = re.compile(r"(?:(?:abbrev|unfoldable|opaque|pub) )*(?:(?:record|data) (\S+)|(\S+) : )")
NAME = re.compile(r"(?<![\w.'-])[A-Za-z_][\w'-]*")
# An operator, as it stands between its arguments; a `do` stands for that of its lines.
OPERATOR = re.compile(r"(?<=\s)[^\w\s(){}\[\]:;,.'\"◌]+(?=\s)")
# What a text binds: in a lambda, in a binder with a type, in a let or a do, as a field of a type.
BINDERS = (
    r"λ ([\w' ]+)\.", r"λ \(([\w' ]+) :", r"[({]([\w' ]+) : ", r"\blet (\w+) ", r"(\w+) ←",
    r"(?m)^\s+(?:pub )?(\w+) : ",
)
# A field that a record's text gives a value.
GIVEN = re.compile(r"(?m)(?<=[{;])\s*\w+ = |^\s+\w+ = (?=[^\n]*;$)")


def bound_in(text):
    return {name for binder in BINDERS for names in re.findall(binder, text) for name in names.split()}


@dataclass
class Definition:
    """A definition: its text, the parameters of the blocks that it stands in, and the comment before it."""

    name: str
    text: str = ""
    parameters: str = ""
    comment: str = ""

    def names(self):
        """The names that it rests on."""
        text = GIVEN.sub(" ", self.parameters + self.text)
        bound = bound_in(text)
        for patterns in re.findall(rf"(?m)^\s*{re.escape(self.name)} (.*?) =(?:\s|$)", self.text):
            bound |= {name for name in NAME.findall(patterns) if name[0].islower()}
        operators = {f"◌{it}◌" for it in OPERATOR.findall(text)} | ({"◌>>=◌"} if " do\n" in text else set())
        return (set(NAME.findall(text)) - bound | operators) - {self.name}

    def names_in(self, alias):
        """The names that it takes from a file of definitions, which it calls so."""
        return re.findall(rf"(?<![\w.'-]){alias}\.([\w'-]+)", self.text)


def imports_of(text):
    """Where each imported name stands: the module, with its crate, and the name there."""
    found = {}
    for crate, module, names, alias in IMPORT.findall(text):
        if alias:
            found[alias] = (f"{crate}.{module}", alias)
        for name in filter(None, (part.strip() for part in names.split(","))):
            there, _, here = name.partition(" as ")
            found[here or there] = (f"{crate}.{module}", there)
    return found


@dataclass
class File:
    """A file of definitions: its first sentence, its definitions, and where imported names stand."""

    crate: str
    module: str
    head: str
    imports: dict
    definitions: dict = field(default_factory=dict)

    def sentence(self):
        """What the file defines, with its public source."""
        found = re.fullmatch(r"(.*?)\s*\(([^()]*(?:\([^()]*\)[^()]*)*)\)\.(.*)", self.head)
        meaning, source, more = found.groups() if found else (self.head.rstrip("."), "", "")
        source = re.sub(r", ACM TOC(HI|S) [^,]*, \d+", "", source)
        source = "; ".join(part for part in re.split(r"; |, over ", source) if "this project's" not in part)
        whole = f"{meaning}{f' ({source})' if source else ''}{more or '.'}"
        short = re.sub(r"Xfig(,|'s) FIG Format 3\.2", "FIG 3.2", whole)
        return re.sub(r" by serde_json's (value|compact text)", "", short)

    def share(self, counted):
        """How many of its definitions count, where not all do."""
        return "" if counted == set(self.definitions) else f", {len(counted)} of {len(self.definitions)}"


def read(path):
    crate = path.relative_to(CRATES).parts[0]
    module = ".".join(path.with_suffix("").relative_to(CRATES / crate / "specs").parts)
    text = path.read_text()
    head = re.match(r"(?:--[^\n]*\n)*", text).group(0)
    file = File(crate, module, " ".join(line[2:].strip() for line in head.splitlines()), imports_of(text))
    code = re.sub(r"(?m)^\s*use .*\n", "", text.removeprefix(head))
    # The blocks with parameters around a line, and the definition that it goes on: each with its indentation.
    blocks, now, depth, heading, comment = [], None, 0, None, ""
    for line in code.splitlines():
        if not line.strip():
            continue
        if line.lstrip().startswith("--"):
            comment += f"{line}\n"
            continue
        indent = len(line) - len(line.lstrip())
        if line.lstrip().startswith("module _"):
            blocks, now, heading = [it for it in blocks if it[0] < indent], None, (indent, "")
        if heading:
            heading = (heading[0], f"{heading[1]}{line}\n")
            if line.endswith(" where"):
                blocks, heading = [*blocks, heading], None
            continue
        found = DEFINED.match(line.lstrip())
        if found and (now is None or indent <= depth):
            blocks = [it for it in blocks if it[0] < indent]
            name, depth = found.group(1) or found.group(2), indent
            now = file.definitions.setdefault(name, Definition(name, "", "".join(it[1] for it in blocks), comment))
        comment = ""
        if now:
            now.text += f"{line}\n"
    return file


# Where each trait of the code stands.
TRAITS = {
    name: (f"{path.relative_to(CRATES).parts[0]}.declared", name)
    for path in CRATES.glob("gf_*/src/**/*.rt")
    for name in re.findall(r"(?m)^pub trait (\w+)", path.read_text())
}


def contract(place):
    """The contract of a public function, as a definition, where its imported names stand, and the traits it asks for."""
    crate, function = place.split(".")
    for path in sorted((CRATES / crate / "src").glob("**/*.rt")):
        text = path.read_text()
        if found := re.search(rf"(?ms)^pub fn {function}\b.*?^\{{", text):
            whole = re.sub(r"//.*", "", found.group(0))
            bounds = NAME.findall(re.search(r"(?s)<(.*?)>\(", whole).group(1))
            return Definition(function, whole), imports_of(text), {TRAITS[it] for it in bounds if it in TRAITS}
    sys.exit(f"{crate} has no function {function}")


def some_clauses(whole, names):
    """A contract with these clauses alone, as a definition."""
    parts = re.split(r"(?m)^    (?=(?:ensures|requires)\b)", whole.text)
    return Definition(whole.name, "".join(it for it in parts if it.split()[1] in names))


def rests_on(files, places, clauses=()):
    """The definitions that these contracts, or these clauses of them, rest on: each with its module."""
    found, cited = set(), []
    for place in places.split():
        if place.count(".") == 2:
            cited.append(tuple(place.rsplit(".", 1)))
            continue
        whole, imports, traits = contract(place)
        found |= traits
        whole = some_clauses(whole, clauses) if clauses else whole
        cited += [imports[name] for name in whole.names() if name in imports]
    return found | rest_of(files, cited)


def rest_of(files, cited):
    """The definitions that these rest on, themselves among them: each with its module."""
    found, left = set(), list(cited)
    while left:
        module, name = left.pop()
        if (module, name) in found:
            continue
        found.add((module, name))
        file = files.get(module)
        if file and name in file.definitions:
            for other in file.definitions[name].names():
                if other in file.definitions:
                    left.append((module, other))
                elif other in file.imports:
                    there, imported = file.imports[other]
                    is_file = there in files and imported not in files[there].definitions
                    taken = file.definitions[name].names_in(other) if is_file else [imported]
                    left += [(there, it) for it in taken]
    return found


def false_heads(files):
    """Each public function with a file of definitions that its clauses rest on, whose head denies it."""
    for path in sorted(CRATES.glob("gf_*/src/**/*.rt")):
        text = path.read_text()
        imports = imports_of(text)
        for function, whole in re.findall(r"(?ms)^ *pub fn (\w+)\b(.*?^ *\{)", text):
            names = Definition(function, re.sub(r"//.*", "", whole)).names()
            modules = {module for module, _ in rest_of(files, [imports[name] for name in names if name in imports])}
            yield from ((path, function, it) for it in modules if it in files and files[it].head.endswith(PRIVATE))


def type_of(module, name):
    """The type of the code that a name of a module that is made from declarations belongs to, a derived test too."""
    parts = module.split(".")
    found = next((it for it in parts[2:] if it[0].isupper() and not it.startswith("The")), name)
    return found.removesuffix("PartialEq") if parts[1] == "contracts" else found


def read_all():
    paths = sorted(path for path in CRATES.glob("*/specs/**/*.antt") if path.name != "Lib.antt")
    return {f"{file.crate}.{file.module}": file for file in map(read, paths)}


def item(text):
    """An item of a list, in lines of the page."""
    return textwrap.fill(f"- {text}", 100, subsequent_indent="  ", break_long_words=False, break_on_hyphens=False)


def by_letters(files):
    """Lists of files, each before the letters of the commands that rest on them."""
    return "; ".join(f"{', '.join(names)} ({letters})" for letters, names in files.items())


def by_crate(files):
    """Lists of files, each under the name of its crate."""
    return "\n\n".join("\n".join([f"`{crate}`", "", *map(item, texts)]) for crate, texts in files.items())


def crates():
    """The crates, the lowest first."""
    return [line.split(":")[0] for line in (ROOT / "crates.txt").read_text().splitlines() if ":" in line]


def sorted_by_crate(files):
    order = crates()
    return sorted(files, key=lambda at: (order.index(files[at].crate), at))


def text_of(files, letter):
    """The definitions on which a command rests, file by file, each with its comment."""
    counted = rests_on(files, COMMANDS[letter][1])
    for at in sorted_by_crate(files):
        file = files[at]
        own = [it for name, it in file.definitions.items() if (at, name) in counted]
        if own:
            yield f"{'-' * 100}\n-- {file.crate}/specs/{file.module.replace('.', '/')}.antt: {file.head}\n"
            yield from (f"{it.comment}{it.parameters}{it.text}" for it in own)


def page(files):
    order = crates()
    found = {letter: rests_on(files, places) for letter, (_, places) in COMMANDS.items()}
    every = set().union(*found.values())

    def count(believed):
        own = [files[module].definitions[name] for module, name in believed if module in files]
        return f"{len(own):,} | {sum(it.text.count(chr(10)) for it in own):,}"

    def letters(at, names):
        return "".join(it for it in COMMANDS if any((at, name) in found[it] for name in names))

    counts = [f"| {name} | {letter} | {count(found[letter])} |" for letter, (name, _) in COMMANDS.items()]
    clauses = [
        f"| {', '.join(f'`{it}`' for it in names.split())} | {promise} "
        f"| {count(rests_on(files, COMMANDS['f'][1], names.split()))} |"
        for names, promise in CLAUSES.items()
    ]
    fig, added = {}, {}
    for at in sorted_by_crate(files):
        file = files[at]
        counted = {name for module, name in every if module == at}
        own = {name for name in counted if (at, name) in found["f"]}
        place = file.module.replace(".", "/")
        if own:
            told = f"`{place}` ({letters(at, counted)}{file.share(own)}): {file.sentence()}"
            fig.setdefault(file.crate, []).append(told)
        if more := counted - own:
            added.setdefault(file.crate, {}).setdefault(letters(at, more), []).append(f"`{place}`")
    types, kit = {}, {}
    for module, name in every - {it for it in every if it[0] in files}:
        crate = module.split(".")[0]
        if crate in order:
            types.setdefault(crate, set()).add(type_of(module, name))
        else:
            kit.setdefault(crate, set()).add(name)
    listed = [item(f"`{it}`: {', '.join(f'`{name}`' for name in sorted(types[it]))}") for it in order if it in types]
    return HEAD.format(
        counts="\n".join([*counts, f"| all | | {count(every)} |"]), clauses="\n".join(clauses),
        whole=count(found["f"]), fig=by_crate(fig),
        added="\n".join(item(f"`{crate}`: {by_letters(added[crate])}") for crate in added),
        types="\n".join(listed), kit=", ".join(f"{len(kit[it])} of {it}" for it in sorted(kit)),
    )


def main():
    files = read_all()
    asked = sys.argv[1] if len(sys.argv) > 1 else None
    if asked in COMMANDS:
        signal.signal(signal.SIGPIPE, signal.SIG_DFL)
        print(*text_of(files, asked), sep="\n")
        return
    made = page(files)
    if asked is None:
        PAGE.write_text(made)
        return
    if asked != "--check":
        sys.exit(f"no letter of a command: {asked}; docs/DEFINITIONS.md has them")
    for path, function, module in false_heads(files):
        sys.exit(f"{path.relative_to(ROOT)}: a clause of {function} rests on {module}, which says that none does")
    if PAGE.read_text() != made:
        sys.exit("docs/DEFINITIONS.md is not what tools/definitions.py makes of the contracts and the specs: run it")


main()
