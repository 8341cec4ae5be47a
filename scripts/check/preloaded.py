"""Small libraries that are loaded before a program (`LD_PRELOAD`): each is a file of this folder, in C."""

import os
import subprocess
from pathlib import Path


def library(room, name):
    """The library of NAME.c beside this file, made in a folder."""
    made = os.path.join(room, name + ".so")
    subprocess.run(["cc", "-shared", "-fPIC", "-O1", "-o", made, Path(__file__).with_name(name + ".c")], check=True)
    return made
