"""The repository's files, as git lists them: those that are tracked, and new ones that aren't ignored."""

import subprocess

from tests import ROOT


def tracked(*patterns):
    """Paths from the repository's root."""
    listed = subprocess.run(["git", "ls-files", "-co", "--exclude-standard", *patterns], cwd=ROOT, check=True,
                            capture_output=True, text=True).stdout.split("\n")
    return [name for name in listed if name and (ROOT / name).is_file()]


def text_of(name):
    return (ROOT / name).read_text(encoding="utf-8", errors="replace")
