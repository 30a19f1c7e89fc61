"""Which pairs of files a batch asks about."""
from __future__ import annotations

import os
import shlex
from pathlib import Path
from typing import List, Tuple

from .circuits import read_file
from .errors import UsageError

ENDING = ".qasm"


def pairs_of(given: List[str]) -> List[Tuple[str, str]]:
    """The pairs of a manifest, or of two folders, in order."""
    if len(given) == 1:
        return manifest_pairs(given[0])
    return folder_pairs(given[0], given[1])


def manifest_pairs(path: str) -> List[Tuple[str, str]]:
    """The pairs that a file lists: two paths a line, quoted as in a shell where they have spaces, and taken from the folder
    of the file. A line may be empty, or a comment after `#`."""
    if os.path.isdir(path):
        raise UsageError(f"{path} is one directory: a batch takes a manifest, or two directories")
    folder = os.path.dirname(path)
    pairs = []
    for number, line in enumerate(read_file(path, "a manifest").decode("utf-8", "surrogateescape").splitlines(), 1):
        try:
            words = shlex.split(line, comments=True)
        except ValueError as error:
            raise UsageError(f"{path}:{number}: {str(error).lower()}") from None
        if not words:
            continue
        if len(words) != 2:
            raise UsageError(f"{path}:{number}: a line names two files, and this one names {len(words)}")
        pairs.append((os.path.join(folder, words[0]), os.path.join(folder, words[1])))
    if not pairs:
        raise UsageError(f"{path} lists no pair of files")
    return pairs


def folder_pairs(first: str, second: str) -> List[Tuple[str, str]]:
    """The pairs of files of one name, ending in .qasm, in two folders and below them. A file that only one folder has is
    paired with the other's, which can't be read then."""
    for folder in (first, second):
        if not os.path.isdir(folder):
            raise UsageError(f"{folder} is no directory: a batch takes a manifest, or two directories")
    names = sorted(_names(Path(first)) | _names(Path(second)))
    if not names:
        raise UsageError(f"neither {first} nor {second} has a file that ends in {ENDING}")
    return [(os.path.join(first, name), os.path.join(second, name)) for name in names]


def _names(folder: Path) -> "set[str]":
    return {str(path.relative_to(folder)) for path in folder.rglob("*" + ENDING) if path.is_file()}
