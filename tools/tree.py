"""What stands in the tree: its crates, the files of a room, and the names that a file declares.

Of specs/ and proofs/ a name is public where it is marked so, within a `module _ .. where` as well. The members of a
record or a type, its fields and cases, are no names of their own."""
import re
from pathlib import Path

TOP = Path(__file__).resolve().parent.parent
TYPE = re.compile(r"^( *)((?:pub )?(?:record|data) (\S+).*\n)((?:\1 +.*\n|\n)*)", re.M)
NAMED = re.compile(r"^ *(?:(?:abbrev|unfoldable) )?pub (?:record |data )?(?!mod )(\S+)", re.M)


def crates():
    """The crates, lowest layer first, a static library and a program like any other."""
    for line in (TOP / "crates.txt").read_text().splitlines():
        if line.strip() and not line.startswith("#"):
            yield re.split(r"[\s:]", line.strip())[0]


def texts(crate, room):
    """Each file of one of a crate's rooms with its text; a room's own list of files, Lib, counts for nothing."""
    ending = ".rt" if room == "src" else ".antt"
    files = sorted((TOP / "crates" / crate / room).rglob("*" + ending))
    return [(file, file.read_text()) for file in files if file.name != "Lib.antt"]


def public(text):
    """The public names of a file of specs/ or proofs/, in its order."""
    return NAMED.findall(TYPE.sub(r"\1\2", text))
