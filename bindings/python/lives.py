"""Prints the lives that the products of a file tell of an office's events: lives.py FILE OFFICE
CLASS"""

import sys
from pathlib import Path

from warn_codes import Reader


def main(file: str, office: str, vtec_class: str) -> None:
    reader = Reader(office, vtec_class)
    reader.take(Path(file).read_bytes())
    for life in reader.lives():
        print("life", life)


if __name__ == "__main__":
    main(*sys.argv[1:])
