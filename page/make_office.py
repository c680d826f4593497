#!/usr/bin/env python3
"""Writes what the page knows of an office, as JSON, to standard output.

usage: python3 make_office.py SETTINGS [--training] [--docs DIR] > office.json

SETTINGS is the settings file that the journal was made with (docs/SETTINGS.md). Hazards, categories, flood values,
actions, limits and refusals are read from the tables of this repository's docs, so that the page and the programs
say the same. A table that no longer has its form ends this with one line, and nothing is written.

--training shows TEST across the page; it is taken from the office line too, where that has the word test or training.
"""
import json
import re
import sys
import tomllib
from pathlib import Path


class Fault(Exception):
    """What is wrong, in one line."""


def rows_of(path, header):
    """The rows of each table of the page whose header has exactly these cells."""
    rows, inside, found = [], False, False
    try:
        lines = path.read_text(encoding="utf-8").splitlines()
    except OSError as error:
        raise Fault(f"{path}: {error.strerror}") from error
    for line in lines:
        if not line.startswith("|"):
            inside = False
            continue
        cells = [cell.strip() for cell in line.strip().strip("|").split("|")]
        if cells == header:
            inside = found = True
        elif inside and not re.fullmatch(r"[|\-: ]+", line):
            if len(cells) != len(header):
                raise Fault(f"{path.name}: a row of {' | '.join(header)} has {len(cells)} cells: {line[:60]}")
            rows.append(cells)
    if not found or not rows:
        raise Fault(f"{path.name}: no table {' | '.join(header)}")
    return rows


def plain(cell):
    return re.sub(r"\s*\(`docs/[A-Z]+\.md`\)", "", cell).replace("`", "").strip()


def matched(pattern, text, where):
    found = re.fullmatch(pattern, text)
    if not found:
        raise Fault(f"{where}: not the form that is known here: {text[:60]}")
    return found


def categories_of(docs):
    rows = rows_of(docs / "HAZARDS.md", ["Category", "Name in texts", "Hazards"])
    return {matched(r"`([A-Z]{3})`", code, "HAZARDS.md, categories")[1]: name for code, name, _ in rows}


def hazards_of(docs, categories):
    header = ["Code", "Name in texts", "Category", "Family, rank", "Zones", "Flood values", "Open end"]
    where = "HAZARDS.md, hazards"
    hazards = []
    for code, name, category, family, kind, flood, open_end in rows_of(docs / "HAZARDS.md", header):
        code = matched(r"`([A-Z]{2}\.[A-Z])`", code, where)[1]
        named = matched(r"([A-Z]{3})(?: to open, ([A-Z]{3}) after)?", category, where)
        ranked = matched(r"none|([a-z]+) (\d+)", family, where)
        for known in (named[1], named[2] or named[1]):
            if known not in categories:
                raise Fault(f"{where}: {code} is of the category {known}, which has no name")
        hazards.append(
            {
                "code": code,
                "name": name,
                "opens": named[1],
                "follows": named[2] or named[1],
                "family": ranked[1],
                "rank": int(ranked[2] or 0),
                "kind": matched("[CZ]", kind, where)[0],
                "flood": matched("needed|barred", flood, where)[0] == "needed",
                "open_end": matched("yes|no", open_end, where)[0] == "yes",
            }
        )
    told = re.search(r"issues these (\d+) hazards", (docs / "HAZARDS.md").read_text(encoding="utf-8"))
    if not told or int(told[1]) != len(hazards):
        raise Fault(f"{where}: {len(hazards)} rows, and the page tells another number")
    return hazards


def flood_of(docs):
    rows = {plain(key): values for key, values in rows_of(docs / "HAZARDS.md", ["Key", "Values"])}
    lists = {}
    for key in ("severity", "cause", "status"):
        if key not in rows:
            raise Fault(f"HAZARDS.md, flood values: no key {key}")
        told = rows[key].split("(")[0]
        pairs = re.findall(r"`([A-Z0-9]{1,2})`([^`]*)", told)
        lists[key] = {code: re.sub(r"(,|\bor)\s*$", "", name.strip()).strip() for code, name in pairs}
        if len(lists[key]) < 2:
            raise Fault(f"HAZARDS.md, flood values: no values of {key}")
    return lists


# What an action means to a reader; the codes are compared with the table of headlines.
ACTIONS = {
    "NEW": "new",
    "EXA": "extended to more zones",
    "EXB": "extended to more zones and in time",
    "EXT": "changed in time",
    "CON": "continues",
    "COR": "corrected",
    "UPG": "upgraded",
    "CAN": "cancelled",
    "EXP": "expires",
    "ROU": "routine",
}


def actions_of(docs):
    rows = rows_of(docs / "PRODUCTS.md", ["Action", "Begin has come", "Begin is to come"])
    codes = [code for row in rows for code in row[0].split(", ")]
    if sorted(codes) != sorted(ACTIONS):
        raise Fault(f"PRODUCTS.md, headlines: the actions are {' '.join(sorted(codes))}")
    return {code: ACTIONS[code] for code in codes}


def refusals_of(docs):
    refusals = {}

    def add(cell, when, remedy, where):
        named = matched(r"([A-Z]\d{1,2}) ([A-Z][A-Za-z]+)", cell, where)
        refusals[named[1]] = {"rule": named[2], "when": plain(when), "remedy": plain(remedy)}

    for cell, _, when in rows_of(docs / "HTTP.md", ["Refusal", "Status", "Exactly if"]):
        add(cell, when, "", "HTTP.md, refused calls")
    where = "REQUESTS.md, refusals"
    for cell, when, _, remedy in rows_of(docs / "REQUESTS.md", ["Refusal", "When", "Example and reply", "What to do"]):
        add(cell, when, remedy, where)
    for reply, when, remedy in rows_of(docs / "REQUESTS.md", ["Reply", "When", "What to do"]):
        named = matched(r'`\{"no":"([A-Z]\d)","rule":"([A-Za-z]+)"\}`', reply, where)
        refusals[named[1]] = {"rule": named[2], "when": plain(when.replace("**", "")), "remedy": plain(remedy)}
    for letter, last in (("F", 6), ("J", 3), ("K", 4), ("E", 14), ("L", 21)):
        lacking = [f"{letter}{n}" for n in range(1, last + 1) if f"{letter}{n}" not in refusals]
        if lacking:
            raise Fault(f"{where}: no row of {' '.join(lacking)}")
    return refusals


def limits_of(docs):
    told = {name: number for name, number in rows_of(docs / "REQUESTS.md", ["What", "At most"])}
    wanted = {
        "text": "one of the four texts",
        "zones": "zones in one intent",
        "parts": "intents in a draft",
        "drafts": "drafts at a time",
        "idle": "minutes until another desk may take a draft",
        "corrections": "corrections of a product",
        "products": "products in a journal",
    }
    limits = {}
    for key, name in wanted.items():
        if name not in told:
            raise Fault(f"REQUESTS.md, limits: no row '{name}'")
        limits[key] = int(matched(r"([\d,]+)(?: bytes)?", told[name], "REQUESTS.md, limits")[1].replace(",", ""))
    return limits


LOCAL = ("Atlantic", "Eastern", "Central", "Mountain", "Arizona", "Pacific", "Alaska", "Hawaii", "UTC")


def settings_of(path):
    try:
        settings = tomllib.loads(Path(path).read_text(encoding="utf-8"))
    except (OSError, UnicodeDecodeError, tomllib.TOMLDecodeError) as error:
        raise Fault(f"{path}: {error}".replace("\n", " ")) from error
    for key in ("office", "site", "office_line", "zone", "desks", "zones"):
        if key not in settings:
            raise Fault(f"{path}: Missing {key}")
    if settings["zone"] not in LOCAL:
        raise Fault(f"{path}: BadValue zone")
    for code, name in settings["zones"].items():
        if not re.fullmatch(r"[A-Z]{2}[CZ]\d{3}", code) or not isinstance(name, str):
            raise Fault(f"{path}: BadValue zones ({code})")
    return settings


def office_of(path, docs, training):
    settings = settings_of(path)
    line = settings["office_line"]
    categories = categories_of(docs)
    return {
        "office": settings["office"],
        "site": settings["site"],
        "line": line,
        "local_zone": settings["zone"],
        "training": training or bool(re.search(r"\b(test|training)\b", line, re.IGNORECASE)),
        "desks": settings["desks"],
        "zones": dict(sorted(settings["zones"].items())),
        "hazards": hazards_of(docs, categories),
        "categories": categories,
        "actions": actions_of(docs),
        "flood": flood_of(docs),
        "limits": limits_of(docs),
        "refusals": refusals_of(docs),
    }


def main(words):
    docs, training, paths = Path(__file__).resolve().parent.parent / "docs", False, []
    while words:
        word = words.pop(0)
        if word == "--training":
            training = True
        elif word == "--docs" and words:
            docs = Path(words.pop(0))
        else:
            paths.append(word)
    if len(paths) != 1 or paths[0].startswith("-"):
        print(__doc__.strip().split("\n\n")[1], file=sys.stderr)
        return 2
    try:
        office = office_of(paths[0], docs, training)
    except Fault as fault:
        print(f"make_office: {fault}", file=sys.stderr)
        return 1
    print(json.dumps(office, indent=1, ensure_ascii=True))
    return 0


if __name__ == "__main__":
    sys.exit(main(sys.argv[1:]))
