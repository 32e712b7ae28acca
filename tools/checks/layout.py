"""The form of crates: their README.md, how long functions and files are, how many wrong bodies there are; that
the documents list each crate, and the kit."""
import re
import shutil
import subprocess

from checks import code
from checks.repository import ROOT, crates, folder_of, is_tests_crate, lines_of, shown, sources, text_of
from checks.specs import spec_files

FUNCTION_LINES = 40
TEST_LINES = 60
TEST_FILE_LINES = 400
EDITS = 8
PROGRAM_EDITS = 4
PROGRAM = ("icb_run", "iceberg_cli")
CLAUSE_WIDTH = 100
# the documents that list crates, and which of them
LISTS = {
    "README.md": lambda crate: True,
    "docs/ARCHITECTURE.md": lambda crate: True,
    "CONTRIBUTING.md": is_tests_crate,
}
PARTS = ["Knows", "Doesn't know", "Calls", "Definitions", "Laws", "Tests"]


def is_sentence(text):
    """Whether a paragraph is one sentence: it ends with a full stop, and no other stands before a blank."""
    return text.endswith(".") and not re.search(r"[.!?] (?=[A-Z])", text)


def readme_faults(crate):
    """The faults of a crate's README.md."""
    path = folder_of(crate) / "README.md"
    if not path.exists():
        yield f"{shown(path)}: isn't there"
        return
    first, _, rest = text_of(path).partition("\n\n")
    sentence, _, body = rest.partition("\n\n")
    if first != f"# {crate}":
        yield f"{shown(path, 1)}: isn't '# {crate}'"
    if not is_sentence(" ".join(sentence.split())):
        yield f"{shown(path, 3)}: the paragraph below the name isn't one sentence"
    if re.search(r"^#", body, re.M):
        yield f"{shown(path)}: has another heading"
    yield from table_faults(crate, path, body) if is_tests_crate(crate) else list_faults(crate, path, body)


def list_faults(crate, path, body):
    """The faults of the list of a product crate's README.md."""
    found = re.findall(r"^- \*\*(.+?)\*\*[^:\n]*:", body, re.M)
    if found != PARTS:
        yield f"{shown(path)}: the list isn't {', '.join(PARTS)}, but {', '.join(found) or 'not there'}"
    for file in spec_files(crate):
        if not re.search(rf"`(?:specs/)?{file.stem}(?:\.antt)?`", body):
            yield f"{shown(path)}: `{file.name}` isn't among its definitions"


def table_faults(crate, path, body):
    """The faults of the table of a test crate's README.md."""
    if "| File | What it shows |" not in body:
        yield f"{shown(path)}: has no table '| File | What it shows |'"
    for source in sources(crate):
        name = str(source.relative_to(folder_of(crate) / "src"))
        if name not in ("lib.rt", "main.rt") and body.count(f"| `{name}` |") != 1:
            yield f"{shown(path)}: `{name}` has {body.count(f'| `{name}` |') or 'no'} rows, and is to have one"


def function_faults(path, is_product):
    """The faults of the functions of one file."""
    for it in code.declared(path)[0]:
        most = FUNCTION_LINES if is_product and not it.is_test else TEST_LINES
        if it.body > most:
            yield f"{shown(path, it.number)}: `{it.name}` has {it.body} lines, more than {most}"
        if is_product and not it.is_commented and " for " not in it.owner:
            yield f"{shown(path, it.number)}: `{it.name}` has no comment"
        head = it.head.split("\n")
        clauses = next((at for at, line in enumerate(head) if re.match(r"\s*(ensures|requires)\b", line)), len(head))
        for at, line in enumerate(head[clauses:], it.number + clauses):
            if len(line) > CLAUSE_WIDTH:
                yield f"{shown(path, at)}: a clause of {len(line)} columns"


def edit_faults(crate):
    """The faults of a crate's wrong bodies: too many, or a name that doesn't begin with the function's."""
    edits = sorted((folder_of(crate) / "must-fail").glob("*.edit"))
    most = PROGRAM_EDITS if crate in PROGRAM else EDITS
    if len(edits) > most:
        yield f"crates/{crate}/must-fail: {len(edits)} wrong bodies, more than {most}"
    for edit in edits:
        file = re.match(r"file: (\S+)", text_of(edit))
        source = folder_of(crate) / file[1] if file else edit
        names = re.findall(r"\b(?:fn|const|static|struct) (\w+)", text_of(source)) if source.exists() else []
        if not any(edit.name.startswith(name.lower()) for name in names):
            yield f"{shown(edit)}: its name doesn't begin with that of a function or a struct of its file"


def crate_faults(crate):
    """The faults of one crate."""
    yield from readme_faults(crate)
    product = code.product_sources(crate)
    for path in sources(crate):
        yield from function_faults(path, path in product)
        lines = sum(1 for _ in lines_of(path))
        if path not in product and lines > TEST_FILE_LINES + 1:
            yield f"{shown(path)}: has {lines - 1} lines, more than {TEST_FILE_LINES}"
    yield from edit_faults(crate)


def listing_faults():
    """The crates that a document which lists all of them, or all of tests, leaves out."""
    for name, are_listed in LISTS.items():
        listed = re.findall(r"`crates/(\w+)`", text_of(ROOT / name))
        for crate in crates():
            if crate not in listed and are_listed(crate):
                yield f"{name}: `crates/{crate}` isn't listed"


def kit_faults():
    """Whether README.md names the kit that is here; where `rt` isn't, there is nothing to compare with."""
    named = re.search(r"`(rattle-kit-[^`]+)`", text_of(ROOT / "README.md"))
    found = shutil.which("rt") and subprocess.run(["rt", "version"], capture_output=True, text=True, check=False)
    kit = found.stdout.split("\n")[0].strip() if found else None
    if kit and (not named or named[1] != kit):
        yield f"README.md: it names the kit '{named[1] if named else ''}', and `rt version` '{kit}'"


def faults():
    """The faults of all crates, and of the documents that list them."""
    for crate in crates():
        yield from crate_faults(crate)
    yield from listing_faults()
    yield from kit_faults()
