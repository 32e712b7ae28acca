"""What the documents name exists: paths, calls with their clauses, definitions, wrong bodies."""
import re

from checks import code, specs
from checks.repository import ROOT, crates, folder_of, lines_of, shown, sources, text_of

CALL = re.compile(r"([a-z]\w*)((?:::\w+)+)(?:#(\w+))?$")
PATH = re.compile(r"(?:\./)?(?:crates|docs|tools|bench|\.ci)/[\w./+-]+$|[\w.-]+\.(?:md|txt)$|\./iceberg$")
PATH_IN_CRATE = re.compile(r"(?:src|specs|proofs|must-fail|data)/[\w./+-]+$")
DEFINED = re.compile(r"`([^`]+\.antt)`((?:,? (?:and )?`[^`/]+`)+)")
DEFINED_OF = re.compile(r"((?:`[^`/]+`,? (?:and )?)*`[^`/]+`) (?:of|in) `([^`]+\.antt)`")
QUOTED = re.compile(r"`([^`]+)`")
TYPE = r"\b(?:struct|enum|trait|const|static|type|mod) {}\b"


def documents():
    """The documents: those at the top, those of docs/ and bench/, and each crate's README.md."""
    top = [ROOT / name for name in ("README.md", "CONTRIBUTING.md", "bench/README.md")]
    return top + sorted((ROOT / "docs").glob("*.md")) + [folder_of(crate) / "README.md" for crate in crates()]


def lines_without_blocks(path):
    """The lines of a document that aren't in a block of code, with their numbers."""
    in_block = False
    for number, line in lines_of(path):
        if line.startswith("```"):
            in_block = not in_block
        elif not in_block:
            yield number, line


def belongs(function, path, owner):
    """Whether a function is the owner's: a type's or a trait's, or a module's."""
    return not owner or bool(re.search(rf"\b{owner}\b", function.owner)) or owner in (path.stem, path.parent.name)


def fault_of_call(crate, names, clause):
    """What is wrong with the name of a call, a clause or a type, or None."""
    *owners, name = names.strip(":").split("::")
    owner = owners[-1] if owners else ""
    functions = [(path, it) for path in sources(crate) for it in code.declared(path)[0] if it.name == name]
    found = [it for path, it in functions if belongs(it, path, owner)]
    if not found:
        is_type = any(re.search(TYPE.format(name), text_of(path)) for path in sources(crate))
        return None if is_type and not clause else "no such function"
    if clause and not any(re.search(rf"\b(?:ensures|requires) {clause} \{{", f.head) for f in found):
        return "no such clause"
    return None


def fault_of_word(word, document):
    """What is wrong with a quoted word that names a call, a path or a wrong body, or None."""
    call = CALL.match(word)
    if call and call[1] in crates():
        return fault_of_call(*call.groups())
    if re.fullmatch(r"\w+\.edit", word):
        return None if list(ROOT.glob(f"crates/*/must-fail/{word}")) else "no such wrong body"
    is_path = PATH.match(word) or (document.parent.parent.name == "crates" and PATH_IN_CRATE.match(word))
    if is_path and "NAME" not in word:
        return None if (ROOT / word).exists() or (document.parent / word).exists() else "no such file"
    return None


def defined_in(line):
    """The definitions that a line names with their file, as (file, name)."""
    for file, names in DEFINED.findall(line):
        yield from ((file, name) for name in QUOTED.findall(names))
    for names, file in DEFINED_OF.findall(line):
        yield from ((file, name) for name in QUOTED.findall(names))


def faults_of_document(path):
    """The faults of one document."""
    for number, line in lines_without_blocks(path):
        for word in QUOTED.findall(line):
            fault = fault_of_word(word, path)
            if fault:
                yield f"{shown(path, number)}: `{word}`: {fault}"
        for file, name in defined_in(line):
            if (ROOT / file).exists() and name not in [it.name for it in specs.declarations(ROOT / file)]:
                yield f"{shown(path, number)}: `{name}`: isn't declared in {file}"


def faults():
    """The faults of all documents."""
    for path in documents():
        if path.exists():
            yield from faults_of_document(path)
        else:
            yield f"{shown(path)}: isn't there"
