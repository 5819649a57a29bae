"""The edits of crates/*/must-fail, crates/*/wrong and crates/*/uncompiled, as the scripts read them."""

from dataclasses import dataclass, field
from pathlib import Path

TOP = Path(__file__).resolve().parent.parent


@dataclass
class Change:
    """A text that is in its file exactly once, what a mutant puts in its place, and what its control does."""

    file: str
    old: str
    new: str
    right: str


@dataclass
class Edit:
    crate: str
    folder: str
    name: str
    changes: list = field(default_factory=list)
    # What the compiler says of one that doesn't compile.
    says: str = ""
    has_control: bool = False


def read(path):
    """The edit of a file: lines 'file: NAME', and then pairs of 'old: TEXT' and 'new: TEXT'. A line 'right: TEXT' after a pair has
    what the control puts there; without one the control has the pair's own new text."""
    edit = Edit(path.parts[-3], path.parts[-2], path.stem)
    file = old = ""
    for line in path.read_text(encoding="utf-8").split("\n"):
        word, _, text = line.partition(":")
        text = text.removeprefix(" ")
        if word == "file":
            file = text.strip()
        elif word == "old":
            old = text
        elif word == "new":
            edit.changes.append(Change(file, old, text, text))
        elif word == "right":
            edit.changes[-1].right = text
            edit.has_control = True
        elif word == "says":
            edit.says = text
    return edit


def edits(crates=(), folders=("must-fail", "wrong", "uncompiled")):
    """The edits of these crates, or of all, in these folders, in the order of their paths."""
    paths = sorted(path for folder in folders for path in TOP.glob(f"crates/*/{folder}/*.edit"))
    return [read(path) for path in paths if not crates or path.parts[-3] in crates]


def applied(edit, folder, is_control=False, texts=()):
    """The texts of the files in a crate's folder with an edit, or its control, put into them, on top of the texts that are given.
    None where an old text isn't in its file exactly once."""
    texts = dict(texts)
    for change in edit.changes:
        text = texts.get(change.file) or (folder / change.file).read_text(encoding="utf-8")
        if text.count(change.old) != 1:
            return None
        texts[change.file] = text.replace(change.old, change.right if is_control else change.new)
    return texts
