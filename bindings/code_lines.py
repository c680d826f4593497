"""Prints how many lines of each file are code: all but those of comments alone, of the text at the
head of a Python module, and empty ones. code_lines.py MOST FILE.. ends with 1 where a file has
more than MOST."""

import re
import sys
from pathlib import Path


def code_lines(path: Path) -> int:
    text = path.read_text()
    if path.suffix == ".py":
        text = re.sub(r'\A\s*""".*?"""', "", text, flags=re.S)
        text = re.sub(r"^\s*#.*$", "", text, flags=re.M)
    else:
        text = re.sub(r"^\s*/\*.*?\*/", "", text, flags=re.M | re.S)
        text = re.sub(r"^\s*//.*$", "", text, flags=re.M)
    return sum(bool(line.strip()) for line in text.splitlines())


def main(most: str, *files: str) -> int:
    counts = {file: code_lines(Path(file)) for file in files}
    for file, count in counts.items():
        print(f"{count} lines of code: {file}")
    return max(counts.values()) > int(most)


if __name__ == "__main__":
    sys.exit(main(*sys.argv[1:]))
