"""Each definition that a public clause or a law names is listed in docs/DEFINITIONS.md, with file and source."""
import re

from checks import code, specs
from checks.repository import ROOT, crates, lines_of, shown, text_of

LIST = ROOT / "docs" / "DEFINITIONS.md"
SECTION = re.compile(r"## .*`crates/(\w+)/specs`")
SOURCE = re.compile(r"\bours\b|FIPS 197|SP 800-38D|Iceberg|Avro|RFC \d+")
# members that say how a value is kept, and nothing of what it means
INSIDE = ("coded", "inverse", "inverse_ok", "invariant")


def public_texts(path):
    """What a file says in public: its name, and the text of its clauses."""
    functions, members = code.declared(path)
    for it in functions:
        if it.is_public:
            yield it.name, it.head
    for it in members:
        if it.is_public and it.name not in INSIDE:
            yield it.name, it.text


def cited():
    """The definitions that public clauses and the statements of laws name, each with a place that names it."""
    found = {}
    for crate in crates():
        for path in code.product_sources(crate):
            for name, text in public_texts(path):
                for definition in code.named_in(path, text):
                    found.setdefault(definition, f"{shown(path)}, {name}")
        laws = specs.spec_file(crate, "Laws.antt")
        for definition in code.named_in(laws, text_of(laws)) if laws.exists() else ():
            found.setdefault(definition, shown(laws))
    return {it: place for it, place in found.items() if is_declared(*it) and not specs.is_lemma(*it)}


def is_declared(crate, file, name):
    """Whether a file of specs/ declares the name; a case of a data type is listed with its type."""
    path = specs.spec_file(crate, file)
    return path.exists() and name in [it.name for it in specs.declarations(path)]


def listed():
    """The rows of the list: the crate, the file and the name, with the source and the number of the line."""
    crate = ""
    for number, line in lines_of(LIST):
        section = SECTION.match(line)
        if line.startswith("## "):
            crate = section[1] if section else ""
        cells = [cell.strip() for cell in line.strip("|").split("|")]
        if crate and line.startswith("| `") and len(cells) == 4:
            for name in re.findall(r"`([^`]+)`", cells[0]):
                yield (crate, cells[1].strip("`"), name), cells[3], number


def faults():
    """What the list lacks, and what it has that isn't so."""
    rows = {}
    for definition, source, number in listed():
        crate, file, name = definition
        rows[definition] = number
        path = specs.spec_file(crate, file)
        if not path.exists() or name not in [it.name for it in specs.declarations(path)]:
            yield f"{shown(LIST, number)}: `{name}` isn't declared in crates/{crate}/specs/{file}"
        if not SOURCE.search(source):
            yield f"{shown(LIST, number)}: `{name}` has no source: a public section, or 'ours'"
    for (crate, file, name), place in sorted(cited().items()):
        if (crate, file, name) not in rows:
            yield f"{shown(LIST)}: `{name}` of crates/{crate}/specs/{file} isn't listed; it is cited in {place}"
