#!/usr/bin/env python3
"""Keeps the documents true to the source.

    tools/documents.py write    writes docs/clauses/CRATE.md and the marked parts of docs/MODEL.md and docs/model/ anew
    tools/documents.py check    prints what differs, and ends with 1 where something does
    tools/documents.py diff REV prints which public clauses and definitions of that revision are gone, new, changed or moved, by
                                crate, and ends with 1 where one is

A marked part of a page stands between its mark and `<!-- end -->`. `<!-- definitions of CRATE -->` has a table of the public
definitions of the crate's specs/, each with the comment above it. `<!-- pages of docs/model -->` has a table of these pages.
`<!-- how much there is to read -->` is a table whose last two columns say how many definitions and lines one reads who begins
at the names in the column before; its other columns are written by hand, as all else of these pages.

The check wants:

- the pages of docs/clauses, and the marked parts, to be as the source says, and each contract that was read to be whole;
- each public definition of specs/ to have a comment that stands by itself, and its crate to be in one page of docs/model;
- docs/MODEL.md to name the recursive definitions, and to begin at none of which the contract of `run` doesn't speak;
- each name in `these marks` of docs/COMMANDS.md, docs/GUARANTEES.md, docs/MEANING.md, docs/MODEL.md and docs/model to be one of
  the source;
- README.md to say of how many definitions the contract of `run` speaks, and to show of a case of examples/cases what the case
  has;
- the crates' edges in docs/ARCHITECTURE.md to be those of crates.txt, and the files in its last table to be there;
- the forms, statuses and texts of docs/fdr.1 and docs/COMMANDS.md to be those of the source, with a section there and a row in
  README.md for each command;
- what the programs write in front of their usage to have these forms, and the version;
- README.md, CHANGELOG.md, CITATION.cff and docs/fdr.1 to name the version of VERSION, the last three with one date; README.md
  and docs/GUARANTEES.md to name the logic of the kit that is here;
- each crate that a page or a source names to be there, and each wrong body of tests/wrong_bodies to fit its crate;
- each link to lead to a file and heading, and each path from the top that a page or a script names to be there;
- each paragraph of a page to be one line, and each page to have fewer than 300 that are written by hand, and fewer than 1,000
  in all but for those of docs/clauses;
- no two public definitions of specs/ to share a name, no line of specs/ and proofs/ to be over 160 columns, and no comment of
  specs/ to be over 130.

It notes, and that is no difference: another kit of the same logic than the documents name, and an edge of crates.txt
that no file of its crate uses.
"""

import functools
import pathlib
import re
import shutil
import subprocess
import sys
from collections.abc import Iterable, Iterator

sys.dont_write_bytecode = True

from sources.contracts import faults_of_contracts, functions, public_calls
from sources.crates import crate_lines, crate_names, source_files
from sources.definitions import Key, all_definitions, by_key, imports, is_recursive, names_in, reached_from
from sources.differences import differences_from

TOP = pathlib.Path(__file__).resolve().parent.parent
CRATES = TOP / "crates"
WRONG_BODIES = TOP / "tests" / "wrong_bodies"
CLAUSES = TOP / "docs" / "clauses"
MODEL = TOP / "docs" / "model"
DEFINITIONS_OF = r"^<!-- definitions of (\w+) -->$"
HOW_MUCH = "<!-- how much there is to read -->"
PAGES = "<!-- pages of docs/model -->"
EQUATIONS_OF = r"^<!-- equations of (\w+) -->$"
MEANING = TOP / "docs" / "MEANING.md"
# The definition whose equations a crate has on the page of what the programs mean, and the file that it is in.
EQUATIONS = {"fdr_top": ("meaning", "Meaning.antt"), "fdr_pair": ("pair_meaning", "PairMeaning.antt")}
MOST_COLUMNS = 160
MOST_COMMENT_COLUMNS = 130
MOST_LINES = 299
MOST_LINES_IN_ALL = 999
OUTSIDE = {"TABLE", "IMAGE", "flock"}


def clause_page(crate: str) -> str | None:
    """The contracts of a crate's public functions, as a page."""
    parts = [
        f"# Clauses of {crate}\n",
        "The contracts of the public functions, word for word. Written by `tools/documents.py` from the source; edit that.",
    ]
    parts += [f"\n## `{call.title}`\n\n```text\n{call.contract}\n```" for call in public_calls(TOP, crate) if call.has_clauses]
    return "\n".join(parts) + "\n" if len(parts) > 2 else None


def pages() -> dict[str, str]:
    return {name: page for name in crate_names(TOP) if (page := clause_page(name))}


# The calls that the programs make, and where they are.
CALLS = {"run": ("fdr_top", "top.rt"), "run_pair": ("fdr_pair", "run.rt")}


@functools.cache
def reached(call: str) -> set[Key]:
    """The definitions of which the contract of a program's call speaks."""
    crate, file = CALLS[call]
    source = (CRATES / crate / "src" / file).read_text()
    contract = next(one.contract for one in functions(CRATES / crate / "src" / file) if one.name == call)
    return reached_from(TOP, names_in(contract, {}, imports(source, "ghost use")))


def check_readme() -> Iterator[str]:
    by_run, by_pair, all_of_them = len(reached("run")), len(reached("run_pair")), len(by_key(TOP))
    if f"{by_run} and {by_pair} of the {all_of_them} definitions" not in (TOP / "README.md").read_text():
        yield f"README.md: `run` and `run_pair` speak of {by_run} and {by_pair} of the {all_of_them} definitions"


def check_clauses() -> Iterator[str]:
    want = pages()
    for name, page in want.items():
        path = CLAUSES / f"{name}.md"
        if not path.is_file() or path.read_text() != page:
            yield f"docs/clauses/{name}.md isn't what the source says: run tools/documents.py write"
    for path in CLAUSES.glob("*.md"):
        if path.stem not in want:
            yield f"docs/clauses/{path.name} is of no crate with clauses"


def crates_on(path: pathlib.Path) -> list[str]:
    """The crates whose definitions are on a page."""
    return re.findall(DEFINITIONS_OF, path.read_text(), re.M)


def layer_of(path: pathlib.Path) -> int:
    """Where the highest crate of a page stands in crates.txt."""
    layers = crate_names(TOP)
    return max((layers.index(crate) for crate in crates_on(path) if crate in layers), default=-1)


def model_pages() -> list[pathlib.Path]:
    """The pages that say in plain words what the definitions are, from the lowest layer up."""
    return [TOP / "docs" / "MODEL.md", *sorted(MODEL.glob("*.md"), key=lambda path: (layer_of(path), path.name))]


def in_reading_order() -> set[str]:
    """The names that docs/MODEL.md has under 'In which order to read'."""
    page = (TOP / "docs" / "MODEL.md").read_text()
    return set(re.findall(r"`([^`]+)`", page.partition("## In which order to read")[2].partition("\n## ")[0]))


def definition_rows(crate: str) -> Iterator[str]:
    """The marked part of a page that has the definitions of a crate."""
    own, first = all_definitions(TOP, crate), in_reading_order()
    by_run, by_pair = (sum(definition.key in reached(call) for definition in own) or "none" for call in CALLS)
    yield f"Definitions: {len(own)}. The contract of `run` speaks of {by_run} of them, that of `run_pair` of {by_pair}."
    yield ""
    yield "| definition | module | in plain words |"
    yield "|---|---|---|"
    for definition in own:
        name = f"**`{definition.name}`**" if definition.name in first else f"`{definition.name}`"
        words = definition.comment.replace("|", "\\|").replace("*", "\\*")
        yield f"| {name} | {definition.module} | {words} |"


def beginnings(cell: str) -> Iterable[Key]:
    """The definitions that a cell names, or those that the contract of a program's call names."""
    names = re.findall(r"`([^`]+)`", cell)
    return reached(names[0]) if names[0] in CALLS else [key for key in by_key(TOP) if key[2] in names]


def counted_rows(rows: list[str]) -> Iterator[str]:
    """The marked part of a page that says how much there is to read, from the rows that are there."""
    for row in rows:
        cells = [cell.strip() for cell in row.strip("|").split("|")]
        if row.startswith("| ") and cells[-1] != "lines":
            found = reached_from(TOP, beginnings(cells[-3]))
            cells[-2:] = [str(len(found)), f"{sum(len(by_key(TOP)[key].lines) for key in found):,}"]
            row = f"| {' | '.join(cells)} |"
        yield row


def page_rows() -> Iterator[str]:
    """The marked part of docs/MODEL.md that names the pages of docs/model, each with its first paragraph and its crates."""
    yield "| page | has | crates |"
    yield "|---|---|---|"
    for path in model_pages()[1:]:
        title, about = path.read_text().split("\n\n")[:2]
        crates = ", ".join(f"`{crate}`" for crate in crates_on(path))
        yield f"| [{title.removeprefix('# ')}](model/{path.name}) | {about} | {crates} |"


def equation_lines(crate: str) -> Iterator[str]:
    """The marked part of a page that has the equations of a crate, as its source says them, without `g.` and `outcome.`."""
    name, file = EQUATIONS[crate]
    source = (TOP / "crates" / crate / "specs" / file).read_text()
    yield "```"
    for equation in re.findall(rf"^{name} [^:\n].*(?:\n .*)*", source, re.M):
        yield from re.sub(r"\b(?:g|outcome)\.", "", equation).splitlines()
    yield "```"


def marked_part(mark: str, there: list[str]) -> Iterator[str]:
    """What stands in the part of a page with this mark, where these lines are there."""
    crate = re.match(DEFINITIONS_OF, mark)
    if crate:
        return definition_rows(crate[1])
    equations = re.match(EQUATIONS_OF, mark)
    if equations:
        return equation_lines(equations[1])
    return counted_rows([row for row in there if row]) if mark == HOW_MUCH else page_rows()


def model_page(path: pathlib.Path) -> str:
    """A page with its marked parts as the source says."""
    lines: list[str] = []
    there: list[str] = []
    mark = None
    for line in path.read_text().splitlines():
        if mark and line == "<!-- end -->":
            lines += ["", *marked_part(mark, there), ""]
            mark = None
        if mark:
            there.append(line)
        else:
            lines.append(line)
        if re.match(DEFINITIONS_OF, line) or re.match(EQUATIONS_OF, line) or line in (HOW_MUCH, PAGES):
            mark, there = line, []
    return "\n".join(lines) + "\n"


def stands_by_itself(comment: str) -> bool:
    """Whether a comment doesn't point to the one before it."""
    return not re.match(r"(?:its|the same|and|so it is|such)\b|one of these two|that number", comment, re.I)


def check_contracts() -> Iterator[str]:
    """The contracts that the pages of docs/clauses have are whole."""
    for crate in crate_names(TOP):
        for path in source_files(TOP, crate):
            yield from (f"{path.relative_to(TOP)}: {fault}" for fault in faults_of_contracts(path))


def check_model() -> Iterator[str]:
    """The pages of the model are as the source says, each crate is in one of them, and each definition has a comment."""
    marked = [crate for path in model_pages() for crate in crates_on(path)]
    for path in [*model_pages(), MEANING]:
        if path.read_text() != model_page(path):
            yield f"{path.relative_to(TOP)} isn't what the source says: run tools/documents.py write"
    for crate in crate_names(TOP):
        if marked.count(crate) != (1 if all_definitions(TOP, crate) else 0):
            yield f"docs/model: {marked.count(crate)} pages have the definitions of {crate}: put its marks into one, as the others are"
    for crate in set(marked) - set(crate_names(TOP)):
        yield f"docs/model: there is no crate {crate}"
    for definition in by_key(TOP).values():
        where = f"crates/{definition.crate}/specs/{definition.module}.antt: `{definition.name}`"
        if not definition.comment:
            yield f"{where} has no comment"
        elif not stands_by_itself(definition.comment):
            yield f"{where}: its comment doesn't stand by itself: {definition.comment}"
    named = {key[2] for call in CALLS for key in reached(call)} | set(CALLS)
    for row in re.findall(r"^\| .* \| \d+ \| [\d,]+ \|$", (TOP / "docs" / "MODEL.md").read_text(), re.M):
        cell = row.split("|")[-4]
        for name in re.findall(r"`([^`]+)`", cell):
            if name not in named:
                yield f"docs/MODEL.md: neither the contract of `run` nor that of `run_pair` speaks of `{name}`"


def check_recursive() -> Iterator[str]:
    """docs/MODEL.md says of each recursive definition what is said over it, or that no loop of the code goes so."""
    page = (TOP / "docs" / "MODEL.md").read_text()
    named = set(re.findall(r"`([^`]+)`", page.partition("## Recursive definitions")[2].partition("\n## ")[0]))
    for definition in by_key(TOP).values():
        if is_recursive(definition) and definition.name not in named:
            yield f"docs/MODEL.md: `{definition.name}` of {definition.crate} ({definition.module}) is recursive, and isn't named as such"


def check_guarantees() -> Iterator[str]:
    """Names in code marks of these pages are names of the source; `clause.field` names a field of a record in specs/."""
    known, fields = set(), {"old", "new", "now"}
    for crate in crate_names(TOP):
        known.add(crate)
        known.update(definition.name for definition in all_definitions(TOP, crate))
        for path in (CRATES / crate).rglob("*.rt"):
            known.update(re.findall(r"[A-Za-z_]\w*", path.read_text()))
        for path in (CRATES / crate / "specs").glob("*.antt"):
            known.update(re.findall(r"[A-Za-z_]\w*", path.read_text()))
            fields.update(re.findall(r"^ +pub (\w+) :", path.read_text(), flags=re.M))
        for folder in (CRATES / crate / "must-fail", WRONG_BODIES / crate):
            known.update(path.stem for path in folder.glob("*.edit"))
    for path in [TOP / "docs" / "COMMANDS.md", TOP / "docs" / "GUARANTEES.md", MEANING, *model_pages()]:
        page = path.relative_to(TOP)
        text = re.sub(r"```.*?```", lambda m: "\n" * m.group().count("\n"), path.read_text(), flags=re.S)
        for number, line in enumerate(text.splitlines(), 1):
            for mark in re.findall(r"`([^`]+)`", line):
                if re.search(r"[^\w:.]|\.\w+\(|^_|^[0-9A-F]{2,}$|^[0-9a-f]{16}$", mark) or mark in OUTSIDE:
                    continue
                promise = re.fullmatch(r"([a-z]\w*)\.([a-z]\w*)", mark)
                if promise and promise[2] not in fields:
                    yield f"{page}:{number}: no record has a promise `{promise[2]}`"
                for name in re.findall(r"\w+", mark):
                    if name not in known:
                        yield f"{page}:{number}: nothing is named `{name}`"


def check_edges() -> Iterator[str]:
    """The table of crates in ARCHITECTURE.md has the edges of crates.txt."""
    rows = {}
    for line in (TOP / "docs" / "ARCHITECTURE.md").read_text().splitlines():
        cells = line.split("|")
        if re.match(r"\| `fdr_\w+` \|", line) and len(cells) > 4:
            rows[cells[1].strip(" `")] = set(re.findall(r"`(\w+)`", cells[3]))
    edges = dict(crate_lines(TOP))
    for crate, needs in edges.items():
        if rows.get(crate) != set(needs):
            yield f"docs/ARCHITECTURE.md: {crate} stands on {' '.join(needs) or 'nothing'} in crates.txt"
    for crate in rows.keys() - edges.keys():
        yield f"docs/ARCHITECTURE.md: there is no crate {crate}"


def outcomes() -> Iterator[tuple[str, str]]:
    """The statuses and texts of the outcomes, as specs/Outcome of fdr_top and the messages of faults have them."""
    text = (CRATES / "fdr_top" / "specs" / "Outcome.antt").read_text()
    messages = (CRATES / "fdr_messages" / "specs" / "Messages.antt").read_text()
    program = re.findall(r'^program_name = (codes ".*")', text, re.M)[0]
    statuses = dict(re.findall(r"^status_of \(?outcome\.(\w+)[^=]*= (\d+)", text, re.M))
    bodies = dict(re.findall(r"^(\w+_message) program [^=]*= program (.*)", messages, re.M))
    inputs = re.findall(r'^input_text \S+ = codes "(.*)"', text, re.M)
    for name, says in re.findall(r"^text_of \(?outcome\.(\w+)[^=]*= (.*)", text, re.M):
        message = bodies.get(says.split()[0])
        words = says if message is None else f"{program} {message}"
        words = re.sub(r"decimal (\w+)", lambda number: f'"{number[1].upper()}"', re.sub(r"\w+ f$", '"FAULT"', words))
        for line in inputs if "input_text" in says else ["".join(re.findall(r'"(.*?)"', words))]:
            yield statuses[name], line


def sections() -> Iterator[tuple[str, str]]:
    """The commands of COMMANDS.md, in order: each with its form, which is the first line of its section."""
    page = (TOP / "docs" / "COMMANDS.md").read_text()
    for name, line in re.findall(r"^## `(\w+)`\n\n```\n(.*)$", page, re.M):
        yield name, re.split(r" (?:2?>|<)", line)[0]


def check_commands() -> Iterator[str]:
    """COMMANDS.md has the statuses and the texts, and README.md a row for each of its commands."""
    page = (TOP / "docs" / "COMMANDS.md").read_text()
    rows = {(status, text.strip("`")) for status, text in re.findall(r"^\| \S+ \| (\d+) \| (none|`[^`]*`) \|", page, re.M)}
    for status, text in sorted({(status, text or "none") for status, text in outcomes()} ^ rows):
        yield f"docs/COMMANDS.md: status {status}, text '{text}': the page and specs/Outcome differ"
    names = [name for name, _ in sections()]
    commands = re.findall(r"^\| \[`(\w+)`\]\(docs/COMMANDS\.md#(\w+)\) \|", (TOP / "README.md").read_text(), re.M)
    if commands != [(name, name) for name in names]:
        yield f"README.md: the rows of its commands aren't {', '.join(names)}, as the sections of docs/COMMANDS.md"


def check_manual() -> Iterator[str]:
    """The man page has the forms, the statuses and the texts."""
    manual = (TOP / "docs" / "fdr.1").read_text()
    rows = set(re.findall(r"^(\d+)\|(.*)$", manual, re.M))
    for row in sorted(set(outcomes()) ^ rows):
        yield f"docs/fdr.1: status {row[0]}, text '{row[1]}': the page and specs/Outcome differ"
    forms = [form for _, form in sections() if form.startswith("fdr ")]
    page = [line.removeprefix(".B ").replace("\\-", "-") for line in manual.splitlines() if line.startswith(".B fdr ")]
    if forms != page:
        yield "docs/fdr.1: its forms aren't those of docs/COMMANDS.md"


def check_usage() -> Iterator[str]:
    """What the programs write in front of their usage has the forms of COMMANDS.md and the version."""
    version = (TOP / "VERSION").read_text().strip()
    text = {name: (CRATES / name / "src" / "usage.rt").read_text() for name in ("fdr_prog", "fdr_pair_prog")}
    if re.findall(r'text: "(fdr .*)"', text["fdr_prog"]) != [form for _, form in sections()]:
        yield "crates/fdr_prog/src/usage.rt: its forms aren't those of docs/COMMANDS.md"
    for name, line in {"fdr_prog": f'VERSION: &str = "{version}"', "fdr_pair_prog": f'"fdrpair {version}\\n'}.items():
        if line not in text[name]:
            yield f"crates/{name}/src/usage.rt doesn't name the version {version}"


def check_session() -> Iterator[str]:
    """Where README.md shows a run of a case of examples/cases, it prints what the case has."""
    cases = {}
    for path in (TOP / "examples" / "cases").glob("*.args"):
        cases["fdr " + " ".join(path.read_text().split())] = path.with_suffix(".stdout").read_bytes()
    shown = re.findall(r"^\$ (.*)\n((?:(?!\$ |```).*\n)*)", (TOP / "README.md").read_text(), re.M)
    for words, lines in shown:
        if words in cases and lines.encode() != cases[words]:
            yield f"README.md: `{words}` doesn't print what it shows"
    if not any(words in cases for words, _ in shown):
        yield "README.md shows no run of a case of examples/cases"


def check_places() -> Iterator[str]:
    """The files that ARCHITECTURE.md names under 'Where to change what' are there."""
    page = (TOP / "docs" / "ARCHITECTURE.md").read_text()
    for row in page.partition("## Where to change what")[2].splitlines():
        crate = None
        for mark in re.findall(r"`([^`]+)`", row.split("|")[2] if row.count("|") > 2 else ""):
            if mark.startswith("fdr_"):
                crate = mark
            elif crate and "/" in mark and not mark.startswith(("tests/", "examples/")) and not (CRATES / crate / mark).exists():
                yield f"docs/ARCHITECTURE.md: {crate} has no {mark}"


def check_crates() -> Iterator[str]:
    """The crates that a page or a source names are there."""
    known = set(crate_names(TOP))
    sources = [path for folder in ("src", "specs", "proofs", "must-fail") for path in CRATES.glob(f"*/{folder}/**/*.*")]
    for path in [*written_pages(), *sorted(sources), *sorted(WRONG_BODIES.glob("*/*.*"))]:
        for number, line in enumerate(path.read_text().splitlines(), 1):
            for name in re.findall(r"\bfdr_[a-z_]*[a-z]\b", line):
                if name not in known:
                    yield f"{path.relative_to(TOP)}:{number}: there is no crate {name}"


def check_wrong_bodies() -> Iterator[str]:
    """Each wrong body that the gate leaves out fits its crate: a text that it changes is once in its file."""
    for path in sorted(WRONG_BODIES.glob("*/*.edit")):
        file, text, old = path, "", ""
        for line in path.read_text().splitlines():
            key, _, said = line.partition(":")
            said = said.removeprefix(" ")
            if key == "file":
                file = CRATES / path.parent.name / said
                text = file.read_text() if file.is_file() else ""
            elif key == "old":
                old = said
                if text.count(old) != 1:
                    yield f"{path.relative_to(TOP)}: a text that it changes is {text.count(old)} times in {file.relative_to(TOP)}"
            elif key == "new":
                text = text.replace(old, said)


def anchors(path: pathlib.Path) -> Iterator[str]:
    for heading in re.findall(r"^#+ (.*)$", path.read_text(), re.M):
        plain = re.sub(r"[^\w\- ]", "", heading.lower())
        yield plain.replace(" ", "-")


def check_names() -> Iterator[str]:
    """No two public definitions of the repository share a name."""
    found: dict[str, list[str]] = {}
    for crate in crate_names(TOP):
        for definition in all_definitions(TOP, crate):
            found.setdefault(definition.name, []).append(f"{crate} ({definition.module})")
    for name, places in sorted(found.items()):
        if len(places) > 1:
            yield f"specs: `{name}` is defined in {' and in '.join(places)}"


def check_columns() -> Iterator[str]:
    """No line of specs/ and proofs/ is too long to read."""
    for folder in ("specs", "proofs"):
        for path in sorted(CRATES.glob(f"*/{folder}/**/*.antt")):
            for number, line in enumerate(path.read_text().splitlines(), 1):
                most = MOST_COMMENT_COLUMNS if folder == "specs" and line.lstrip().startswith("--") else MOST_COLUMNS
                if len(line) > most:
                    yield f"{path.relative_to(TOP)}:{number}: {len(line)} columns, over {most}"


def check_version() -> Iterator[str]:
    """README.md names the version of VERSION; CHANGELOG.md begins with it and its date, which are those of docs/fdr.1 and
    CITATION.cff."""
    version = (TOP / "VERSION").read_text().strip()
    if f"Version {version}" not in (TOP / "README.md").read_text():
        yield f"README.md doesn't name version {version}"
    newest = re.search(r"^## (\S+), (\d{4}-\d\d-\d\d)$", (TOP / "CHANGELOG.md").read_text(), re.M)
    if not newest or newest.group(1) != version:
        yield f"CHANGELOG.md doesn't begin with version {version} and a date"
        return
    date = newest.group(2)
    if f'.TH FDR 1 {date} "fdr {version}"' not in (TOP / "docs" / "fdr.1").read_text():
        yield f"docs/fdr.1 doesn't name version {version} and {date}"
    cited = (TOP / "CITATION.cff").read_text()
    if f"\nversion: {version}\n" not in cited or f'\ndate-released: "{date}"\n' not in cited:
        yield f"CITATION.cff doesn't name version {version} and {date}"


def kits_named() -> Iterator[tuple[str, re.Match[str] | None]]:
    """The pages that name the kit that proved, each with what it names: the kit and its logic, or nothing."""
    for page in ("README.md", "docs/GUARANTEES.md"):
        yield page, re.search(r"(rattle-kit-\w+)`?,? logic `?([0-9a-f]{16})", (TOP / page).read_text())


@functools.cache
def kit_here() -> re.Match[str] | None:
    """The kit of the command `rt` and its logic, where there is one."""
    if not shutil.which("rt"):
        return None
    says = subprocess.run(["rt", "version"], capture_output=True, text=True, check=False).stdout
    return re.search(r"(rattle-kit-\w+) logic ([0-9a-f]{16})", says)


def check_kit() -> Iterator[str]:
    """The pages name a kit, and the logic of the one that is here."""
    here = kit_here()
    for page, named in kits_named():
        if not named:
            yield f"{page} doesn't name the kit and its logic"
        elif here and named[2] != here[2]:
            yield f"{page} names the logic {named[2]}, and `rt version` says {here[2]}"


def note_kit() -> Iterator[str]:
    """The pages name another kit of the same logic, or there is none to compare with."""
    here = kit_here()
    if not here:
        yield "`rt version` names no kit, so the one that the documents name isn't compared"
    for page, named in kits_named():
        if here and named and named[2] == here[2] and named[1] != here[1]:
            yield f"{page} names {named[1]}, and {here[1]} has the same logic"


def note_uses() -> Iterator[str]:
    """A crate uses nothing of one that it stands on: in its source, its definitions and its proofs."""
    for crate, needs in crate_lines(TOP):
        files = [path for folder in ("src", "specs", "proofs") for path in (CRATES / crate / folder).rglob("*")]
        text = "\n".join(path.read_text() for path in files if path.suffix in (".rt", ".antt"))
        for need in needs:
            if f"{need}::" not in text and f"Rattle.{need}." not in text:
                yield f"crates.txt: {crate} uses nothing of {need}"


def written_pages() -> list[pathlib.Path]:
    """The pages in Markdown."""
    return [*TOP.glob("*.md"), *(TOP / "docs").rglob("*.md"), *(TOP / "examples").glob("*.md")]


def check_paragraphs() -> Iterator[str]:
    """A paragraph of a page is one line, and so is an item of a list."""
    begins = re.compile(r"\s*(?:$|[|#]|```|[-*] |\d+\. )")
    for path in written_pages():
        inside, open_paragraph = False, False
        for number, line in enumerate(path.read_text().splitlines(), 1):
            if line.lstrip().startswith("```"):
                inside, open_paragraph = not inside, False
            elif not inside:
                if open_paragraph and not begins.match(line):
                    yield f"{path.relative_to(TOP)}:{number}: this line goes on with the paragraph above; a paragraph is one line"
                open_paragraph = bool(line.strip()) and not re.match(r"\s*[|#]", line)


def check_lengths() -> Iterator[str]:
    """What is written by hand of a page is short, and no page is very long, but for those of clauses."""
    for path in (path for path in written_pages() if path.parent != CLAUSES):
        text = path.read_text()
        lines = len(text.splitlines())
        by_hand = len(re.sub(r"^<!-- definitions of .*?^<!-- end -->$", "", text, flags=re.M | re.S).splitlines())
        if by_hand > MOST_LINES:
            yield f"{path.relative_to(TOP)} has {by_hand} lines that are written by hand, over {MOST_LINES}"
        elif lines > MOST_LINES_IN_ALL:
            yield f"{path.relative_to(TOP)} has {lines} lines, over {MOST_LINES_IN_ALL}"


def check_links() -> Iterator[str]:
    for path in written_pages():
        for target in re.findall(r"\]\(([^)\s]+)\)", path.read_text()):
            if re.match(r"\w+:", target):
                continue
            file, _, anchor = target.partition("#")
            there = (path.parent / file).resolve() if file else path
            if not there.exists():
                yield f"{path.relative_to(TOP)}: {target} leads nowhere"
            elif anchor and there.suffix == ".md" and anchor not in anchors(there):
                yield f"{path.relative_to(TOP)}: {target} leads to no heading"


def scripts() -> Iterator[pathlib.Path]:
    """The scripts that run the program or make what is in examples/."""
    for folder in ("tests", "bench", "examples"):
        yield from (path for path in sorted((TOP / folder).rglob("*")) if path.suffix in (".py", ".sh"))


def check_paths() -> Iterator[str]:
    """Each path from the top that a page or a script names leads to something."""
    path_named = re.compile(r"(?<![\w/.$-])(?:bench|crates|docs|examples|tests|tools)/[\w./*-]*")
    for path in [*written_pages(), *scripts()]:
        for number, line in enumerate(path.read_text().splitlines(), 1):
            for name in path_named.findall(line):
                if not any(TOP.glob(name.rstrip("."))):
                    yield f"{path.relative_to(TOP)}:{number}: there is no {name.rstrip('.')}"


def write() -> None:
    """Writes what is written from the source."""
    CLAUSES.mkdir(exist_ok=True)
    for path in CLAUSES.glob("*.md"):
        path.unlink()
    for name, page in pages().items():
        (CLAUSES / f"{name}.md").write_text(page)
    for path in [*model_pages(), MEANING]:
        path.write_text(model_page(path))


def check() -> int:
    """Prints the faults and the notes, and answers the status to end with."""
    checks = (
        *(check_readme, check_session, check_clauses, check_contracts, check_model, check_recursive, check_guarantees),
        *(check_edges, check_places, check_commands, check_manual, check_usage, check_version, check_kit, check_links, check_paths),
        *(check_paragraphs, check_lengths, check_names, check_columns, check_crates, check_wrong_bodies),
    )
    faults = [fault for one in checks for fault in one()]
    for note in (*note_kit(), *note_uses()):
        print("note:", note)
    print("\n".join(faults) if faults else "documents: as the source says")
    return 1 if faults else 0


def main(words: list[str]) -> int:
    match words:
        case ["write"]:
            write()
            return 0
        case ["check"]:
            return check()
        case ["diff", revision]:
            told = differences_from(TOP, revision)
            print("".join(line + "\n" for line in told), end="")
            return 1 if told else 0
    print(__doc__)
    return 2


if __name__ == "__main__":
    sys.exit(main(sys.argv[1:]))
