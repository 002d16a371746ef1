"""The version of the package: `pyproject.toml` has it, and the packed package its own facts."""
from __future__ import annotations

import re
from importlib import metadata
from pathlib import Path


def package_version() -> str:
    """Returns the version, from the folder of the sources or of the installed package."""
    sources = Path(__file__).resolve().parents[1] / "pyproject.toml"
    if sources.is_file():
        found = re.search(r'(?m)^version = "(.*)"$', sources.read_text("utf-8"))
        if found:
            return found[1]
    return metadata.version("mangohatch_tiff")
