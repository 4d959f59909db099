"""Builds the library of refuse.c, which is preloaded into a program to refuse what it asks for."""

import os
import subprocess
from pathlib import Path


def build_library(folder):
    """The library, built into this folder."""
    library = Path(folder) / "refuse.so"
    compiler = os.environ.get("CC", "cc")
    source = Path(__file__).resolve().parent / "refuse.c"
    subprocess.run([compiler, "-O2", "-shared", "-fPIC", "-o", library, source], check=True)
    return library
