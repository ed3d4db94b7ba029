"""The program that the scripts of this folder run where they are given no other one."""

import pathlib
import subprocess

TOP = pathlib.Path(__file__).resolve().parent.parent


def program_at_hand():
    """The path of the program that ./amoebot runs. It is proved and built first where there is none."""
    told = subprocess.run([TOP / "tools/program"], stdout=subprocess.PIPE, check=True, text=True)
    return pathlib.Path(told.stdout.strip())
