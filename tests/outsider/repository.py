"""A repository for programs outside the library, with copies of the crates that they use."""

import shutil

from tests import ROOT
from tests.repository.layers import listed

NOT_COPIED = shutil.ignore_patterns("out", "must-fail")


def crates_below(names, uses):
    """These crates and all that they use."""
    found = set(names)
    for name in names:
        found |= crates_below(uses[name], uses)
    return found


def repository(folder, used, programs):
    """Copies the crates that are used, as the repository has them, and lists the programs of these names above them."""
    _, crates = listed((ROOT / "crates.txt").read_text(encoding="utf-8"))
    needed = crates_below(used, {name: [each for each in depends if each in crates] for name, (_, depends) in crates.items()})
    for name in needed:
        shutil.copytree(ROOT / "crates" / name, folder / "crates" / name, ignore=NOT_COPIED)
    lines = [f"{name}: {' '.join(depends)}" for name, (_, depends) in crates.items() if name in needed]
    lines += [f"{name}: {' '.join(used)}" for name in programs]
    (folder / "crates.txt").write_text("\n".join(lines) + "\n", encoding="utf-8")
    if (ROOT / "HANDLES").is_file():
        shutil.copy(ROOT / "HANDLES", folder)
