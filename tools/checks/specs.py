"""What a file of specs/ declares, and the form that it keeps: comments, width, and no lemma."""
import dataclasses
import functools
import re

from checks import code
from checks.repository import crates, folder_of, lines_of, shown

WIDTH = 100
KEYWORDS = r"(?:abbrev pub|unfoldable pub|abbrev|unfoldable|pub)"
TYPE = re.compile(rf"( *)(?:{KEYWORDS} )?(?:record|data) ([^\s:({{]+)")
VALUE = re.compile(rf"( *)(?:{KEYWORDS} )?([^\s:({{]+) : ")
BLOCK = re.compile(r"(?:abbrev |unfoldable )?mutual$|module ")
UNFOLDS = re.compile(r"\s*(?:abbrev|unfoldable)")
# words of a proof: tactics, and what joins equalities
PROOF = re.compile(r"(?<![\w.-])(?:omega|rw|simp|search|cc|refl|sym|subst|absurd|elim|ap)(?![\w-])|∙")


@dataclasses.dataclass
class Declaration:
    """One name that a file declares: where, and whether it unfolds, has a comment, has the words of a proof."""
    name: str
    number: int
    unfolds: bool
    is_commented: bool
    is_proved: bool = False

    def is_lemma(self):
        """A value that doesn't unfold, or whose body has the words of a proof, is no definition."""
        return self.is_proved or not self.unfolds


def begins(line, block):
    """The declaration that begins on a line of a block of declarations, as (name, whether it unfolds), or None."""
    for pattern, is_type in ((TYPE, True), (VALUE, False)):
        found = pattern.match(line)
        if found and len(found[1]) == (2 if block else 0):
            return found[2], is_type or bool(UNFOLDS.match(block) or UNFOLDS.match(line))
    return None


def is_comment_above(lines, at):
    """Whether a comment stands right above a line, or above its line of infix."""
    at -= 1
    while at >= 0 and re.match(r"\s*infix", lines[at]):
        at -= 1
    return at >= 0 and lines[at].strip().startswith("--")


@functools.lru_cache(maxsize=None)
def declarations(path):
    """The names that a file of specs/ declares, in order. A declaration ends where the next one begins."""
    lines = [line for _, line in lines_of(path)]
    found, block = [], ""
    for at, line in enumerate(lines):
        if line and not line.startswith((" ", "--")):
            block = line if BLOCK.match(line) else ""
        begun = begins(line, block)
        if begun:
            found.append(Declaration(begun[0], at + 1, begun[1], is_comment_above(lines, at)))
        elif found and not line.strip().startswith("--") and PROOF.search(line):
            found[-1].is_proved = True
    return found


def spec_files(crate):
    """The files of definitions of a crate."""
    return [it for it in sorted((folder_of(crate) / "specs").rglob("*.antt")) if it.name != "Lib.antt"]


def cited_by_impls():
    """The files of specs/ whose lemmas the ghost members of impls cite: these can't cite proofs/."""
    sources = [path for crate in crates() for path in code.product_sources(crate)]
    members = [(path, member) for path in sources for member in code.declared(path)[1]]
    named = {it for path, member in members for it in code.named_in(path, member.text)}
    return {spec_file(crate, file) for crate, file, name in named if is_lemma(crate, file, name)}


def spec_file(crate, file):
    """A file of definitions of a crate."""
    return folder_of(crate) / "specs" / file


def is_lemma(crate, file, name):
    """Whether a name of a file of specs/ is a lemma."""
    return any(it.name == name and it.is_lemma() for it in declarations(spec_file(crate, file)))


def lemma_faults(path):
    """The lemmas of a file of specs/, and what it uses of proofs/."""
    for number, line in lines_of(path):
        if re.match(r"use Rattle\.\w+\.proofs\b", line):
            yield f"{shown(path, number)}: specs/ uses lemmas of {line.split()[1]}"
    for it in declarations(path):
        if it.is_lemma():
            yield f"{shown(path, it.number)}: `{it.name}` is a lemma, which belongs into proofs/, or doesn't unfold"


def form_faults(path):
    """The lines of a file of specs/ that are too wide, and what has no comment."""
    for number, line in lines_of(path):
        if len(line) > WIDTH:
            yield f"{shown(path, number)}: a line of {len(line)} columns"
    for it in declarations(path):
        if not it.is_commented:
            yield f"{shown(path, it.number)}: `{it.name}` has no comment"


def faults():
    """The faults of all files of specs/. A file of lemmas for impls holds nothing else."""
    excused = cited_by_impls()
    for crate in crates():
        for path in spec_files(crate):
            yield from form_faults(path)
            if path in excused and all(it.is_lemma() for it in declarations(path)):
                continue
            yield from lemma_faults(path)
