"""Writes random drawings to files of a folder, each as NUMBER.scald. They are those that the program is compared over.

Usage: python3 -B -m model.random_files FOLDER COUNT, with checks/ as PYTHONPATH.
"""
import pathlib
import sys
from random import Random

from .__main__ import drawing_of
from .writing import write_drawing


def main():
    folder, count = pathlib.Path(sys.argv[1]), int(sys.argv[2])
    for number in range(1, count + 1):
        (folder / f"{number}.scald").write_text(write_drawing(drawing_of(Random(number), number)), encoding="ascii")


if __name__ == "__main__":
    main()
