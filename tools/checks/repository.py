"""What the checks read: the repository's files, and how they are shown in a fault."""
import functools
import pathlib

ROOT = pathlib.Path(__file__).resolve().parent.parent.parent


@functools.lru_cache(maxsize=None)
def text_of(path):
    """The text of a file."""
    return path.read_text(encoding="utf-8")


def lines_of(path):
    """The lines of a file, each with its number from 1."""
    return enumerate(text_of(path).split("\n"), 1)


def shown(path, number=None):
    """A place of the repository, as faults name it."""
    place = str(path.relative_to(ROOT))
    return place if number is None else f"{place}:{number}"


def crates():
    """The names of all crates, in the order of crates.txt."""
    rows = [line.split("#")[0].partition(":")[0].strip() for line in text_of(ROOT / "crates.txt").split("\n")]
    return [name for name in rows if name]


def folder_of(crate):
    """The folder of a crate."""
    return ROOT / "crates" / crate


def sources(crate):
    """The files of code of a crate."""
    return sorted((folder_of(crate) / "src").rglob("*.rt"))


def is_tests_crate(crate):
    """A crate that holds tests and nothing else."""
    return crate.endswith("_tests")
