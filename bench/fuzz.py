"""Throws damaged input at the built programs and at others of the same names, and looks for a difference, outside the gate.

    python3 bench/fuzz.py FOLDER [KINDS..] [--count N] [--seed S] [--show N] [--programs FOLDER]

FOLDER has the other programs: `warn_main`, `warn_archive`, `watch_notice`. KINDS are those of `KINDS` below (all where none is
given). `--count` is how many inputs each kind gets (200), `--seed` where the generator begins (1), `--show` how many differences of
a kind are printed (1). `--programs` has the programs of this repository, in place of those that stand below crates/.

Both programs get the same words, the same bytes and a copy of the same journal. They must end with the same status, write the
same bytes and leave the same journal. Of each kind the first differences are printed, with their input cut down to what still shows
them, and how many inputs differed. Where the clock's minute changed between the two runs, both run again. Which of the two is
wrong is not said here.
"""
import argparse
import collections
import datetime
import json
import os
import random
import re
import socket
import subprocess
import sys
import tempfile
import time

TOP = os.path.join(os.path.dirname(os.path.abspath(__file__)), "..")
SECONDS = 60                # that a run may take
TRIES = 400                 # runs that cutting an input down may take
Case = collections.namedtuple("Case", "program words given journal")
Outcome = collections.namedtuple("Outcome", "status written journal")


def sample(*path):
    with open(os.path.join(TOP, *path), "rb") as file:
        return file.read()


def now():
    return datetime.datetime.now(datetime.timezone.utc)


def stamp(minutes):
    return (now() + datetime.timedelta(minutes=minutes)).strftime("%y%m%dT%H%MZ")


# ---- damage

ODD_BYTES = [b"\x00", b"\r", b"\n", b"\t", b" ", b"\x7f", b"\x80", b"\xff", b"\xc3\xa9", b"\xed\xa0\x80", b"\"", b"'", b"-", b">", b"/",
             b"$$", b"&&"]
ODD_VALUES = [b"0", b"-1", b"1.0", b"1e0", b"-0", b"4294967295", b"4294967296", b"18446744073709551615", b"18446744073709551616", b"1e999",
              b"null", b"true", b"\"\"", b"[]", b"{}", b"[[]]", b"\"\\ud800\"", b"\"\\u0041\"", b"\"a\\nb\"", b"\"ufn\"", b"\"now\"",
              b"\"000000T0000Z\""]


def damaged_bytes(chance, text):
    """The text with a few bytes put in, taken out, changed, moved or cut off."""
    text = bytearray(text)
    for _ in range(chance.choice((1, 1, 1, 2, 3, 6))):
        at, size = chance.randrange(len(text) + 1), chance.choice((1, 1, 2, 5, 40))
        match chance.randrange(7):
            case 0:
                del text[at:at + size]
            case 1:
                text[at:at] = chance.choice(ODD_BYTES)
            case 2:
                text[at:at + 1] = bytes([chance.randrange(256)])
            case 3:
                text[at:at + 1] = b"%d" % chance.randrange(10)
            case 4:
                text[at:at] = text[chance.randrange(len(text) + 1):][:size]
            case 5:
                text[at:at + 1] = bytes([chance.choice(b"ABCDEFGHIJKLMNOPQRSTUVWXYZ")])
            case 6:
                if chance.random() < 0.2:
                    del text[at:]
    return bytes(text)


def damaged_lines(chance, lines):
    """The lines with a few of them taken out, doubled, exchanged or damaged."""
    lines = list(lines)
    for _ in range(chance.choice((0, 1, 1, 2, 4))):
        at, other = chance.randrange(len(lines)), chance.randrange(len(lines))
        match chance.randrange(4):
            case 0:
                del lines[at]
            case 1:
                lines.insert(at, lines[other])
            case 2:
                lines[at], lines[other] = lines[other], lines[at]
            case 3:
                lines[at] = damaged_bytes(chance, lines[at])
        if not lines:
            break
    return lines


def damaged_json(chance, line):
    """The line with a value changed, taken out or doubled, with damaged bytes, or about as long as a line may be."""
    if chance.random() < 0.03:
        return line[:1] + b" " * (chance.choice((65535, 65536, 65537, 65538)) - len(line)) + line[1:]
    members = re.findall(rb'"[a-z]+":(?:"[^"]*"|\[[^]]*\]|\{[^}]*\}|[0-9]+)', line)
    if chance.random() < 0.3 or not members:
        return damaged_bytes(chance, line)
    member = chance.choice(members)
    key, _, value = member.partition(b":")
    other = chance.choice(members).partition(b":")[2]
    new = chance.choice((b"", key + b":" + chance.choice(ODD_VALUES), key + b":" + other,
                         member + b"," + key + b":" + chance.choice(ODD_VALUES),
                         b'"x":1,' + member, b" " + key + b" :\t" + value + b" ", key + b":" + damaged_bytes(chance, value)))
    return line.replace(member, new, 1)


# ---- settings

TOML_VALUES = [b'"Lunar"', b'"UTC"', b"'K1X0'", b'""', b'"KLW"', b'"klwx"', b"1", b"1.5", b"true", b"[]", b"{}", b'"""\nABCD"""',
               b"'''WS\n'''", b'"\\u0041BC"', b'"A\\tB"', b"1979-05-27", b"1979-05-27T07:32:00Z", b"0x41", b"inf", b'["A", "B"]',
               b'["A", "A"]', b'[\n"A",\n]', b'["a"]', b'["A", 1]', b'"' + b"x" * 66 + b'"', b'"' + b"x" * 67 + b'"', b'"Caf\xc3\xa9"',
               b'"two  words"', b'"a-b"', b'"a1"', b'"' + b"a" * 41 + b'"', b'"\\x41"', b'"\\e"', b'"WWUS41"', b'"WWUS4"', b'"WWUS4A"']
TOML_LINES = [b"# remark", b"other = 1", b"[other]", b"[[zones]]", b"[zones]", b"[headings]", b"zones.MDZ007 = \"Kent\"",
              b"MDZ000 = \"None\"", b"MDX003 = \"Kind\"", b"\"MDZ008\" = \"Quoted\"", b"'MDZ009' = 'Literal'", b"a.b.c = 1",
              b"x = {a = 1, b = 2}", b"x = {a = 1,\n b = 2,}", b"x = [1, 2", b"= 1", b"x =", b"x = 1 y = 2", b"[a.b]\nc = 1", b"[\"a b\"]",
              b"\xef\xbb\xbf"]


def settings(source):
    chance, lines = source.chance, sample("samples", "office.toml").split(b"\n")
    for _ in range(chance.choice((0, 1, 1, 2, 3))):
        at = chance.randrange(len(lines))
        match chance.randrange(4):
            case 0:
                lines.insert(at, chance.choice(TOML_LINES))
            case 1:
                lines[at] = lines[at].partition(b"=")[0] + b"= " + chance.choice(TOML_VALUES)
            case _:
                lines = damaged_lines(chance, lines) or [b""]
    given = chance.choice((b"\n", b"\n", b"\n", b"\r\n")).join(lines)
    if chance.random() < 0.02:
        given += b"\n#" + b"x" * (chance.choice((1048575, 1048576, 1048577, 1048578)) - len(given) - 2)
    journal = chance.choice((None, None, None, b"", b".", b"G", b".abc", b"hello", b"G\x00\x00\x00\x00."))
    return Case("warn_main", ["init"], given, journal)


# ---- requests and journals

DESKS = ["D%d" % n for n in range(1, 31)]
ZONES = ["MDZ%03d" % n for n in range(3, 15)] + ["VAZ028", "VAZ029"]
COUNTIES = ["MDC005", "MDC021", "MDC031", "VAC013"]
HAZARDS = {"WSW": ["WS.W", "BZ.W", "IS.W", "LE.W", "WW.Y", "WS.A"], "NPW": ["HW.W", "WI.Y", "HW.A", "FZ.W", "FR.Y", "FG.Y"],
           "RFW": ["FW.W", "FW.A"],
           "CFW": ["CF.W", "CF.Y", "CF.A", "SU.W", "SU.Y"], "MWW": ["SR.W", "GL.W", "SC.Y"], "FFA": ["FA.A"], "FLW": ["FL.W"],
           "FLS": ["FL.Y", "FL.W"]}
SETTINGS = b"".join([b'office = "KLWX"\nsite = "LWX"\noffice_line = "National Weather Service"\nzone = "Eastern"\n',
                     b"desks = [%s]\n[headings]\n" % b", ".join(b'"%s"' % it.encode() for it in DESKS)]
                    + [b'%s = "WWUS4%d"\n' % (code.encode(), place) for place, code in enumerate(HAZARDS)] + [b"[zones]\n"]
                    + [b'%s = "Zone %c"\n' % (zone.encode(), 65 + place) for place, zone in enumerate(ZONES + COUNTIES)])


def flood(chance):
    return {"site": chance.choice(("FDKM2", "PTTP1")), "severity": chance.choice("N0123U"),
            "cause": chance.choice(("ER", "SM", "RS", "OO")), "begin": chance.choice(("000000T0000Z", stamp(30))),
            "crest": chance.choice(("000000T0000Z", stamp(300))), "end": "000000T0000Z",
            "status": chance.choice(("NO", "NR", "UU", "OO"))}


def texts(chance):
    words = ["Heavy snow.", "Winds to 50 mph", "and", "ice  accumulations", "of one quarter of an inch", "$", "&", "-", "x" * 70, " "]
    named = chance.sample(("what", "area", "impacts", "details"), chance.randrange(4))
    said = {name: " ".join(chance.choices(words, k=chance.randrange(1, 12))) for name in named}
    if said and chance.random() < 0.1:
        said[named[0]] += chance.choice((" $$", " &&", "\t", "\u007f", "\u00e9", " $ $"))
    if said and chance.random() < 0.1:
        said[named[-1]] = ("word " * 900)[:chance.choice((4095, 4096, 4097))]
    return said


def period(chance, hazard):
    minutes = chance.choice((5, 60, 240, 240, 600, 600, 3000, 3000)) if chance.random() < 0.95 else chance.choice((-5, 0))
    end = "ufn" if chance.random() < (0.5 if hazard.startswith("FL") else 0.02) else stamp(minutes)
    begin = "now" if chance.random() < 0.7 else stamp(chance.randrange(1, 240) if chance.random() < 0.9 else -3)
    return {"begin": begin, "end": end}


def zones_for(chance, floods):
    """Zones of the kind that the hazard wants; or one of them twice, one that is not in the settings, or one of the other kind."""
    zones = chance.sample(COUNTIES if floods else ZONES, chance.randrange(1, 4))
    if chance.random() < 0.06:
        zones.insert(chance.randrange(len(zones) + 1), chance.choice((zones[0], "MDZ099", "MDC099", "MDZ003", "MDC005")))
    return zones


def put(chance, category):
    hazard = chance.choice(HAZARDS[category]) if chance.random() < 0.95 else chance.choice(("WS.W", "TO.W", "FL.Y"))
    asked = dict({"hazard": hazard, "zones": zones_for(chance, hazard.startswith("FL"))}, **period(chance, hazard))
    if (hazard in ("FA.A", "FL.W", "FL.Y")) != (chance.random() < 0.03):
        asked["flood"] = flood(chance)
    if chance.random() < 0.5:
        asked["texts"] = texts(chance)
    return asked


def records(file):
    """The bodies of a journal's records."""
    at, found = 0, []
    while file[at:at + 1] == b"G":
        size = int.from_bytes(file[at + 1:at + 5], "big")
        found.append(file[at + 5:at + 5 + size])
        at += 5 + size
    return found


class Day:
    """Requests of many desks, made by rounds: what one round is answered, the next one knows."""

    def __init__(self, chance, journal, answer):
        """`answer` gives the replies to the lines of a script over the journal."""
        self.chance, self.answer, self.lines = chance, answer, []
        self.last, self.drafts, self.products, opened = collections.Counter(), {}, 0, 0
        for body in records(journal)[1:]:
            if body.startswith(b"edition"):
                continue
            request = json.loads(body.split(b"\n")[0].split(b" ", 1)[1])
            opened += request["do"] == "open"
            self.products += request["do"] in ("send", "issue", "correct")
            self.learn(request, {"ok": request["do"], "draft": opened, "product": self.products})
        opening = re.findall(rb"/O\.NEW\.KLWX\.(..\..\.[0-9]{4})\.", journal)
        self.events = ["WS.W.0001.%d" % now().year] + ["%s.%d" % (it.decode(), now().year) for it in opening]

    def round(self, size):
        self.busy, asked = set(), []
        for _ in range(size):
            desk, request = self.next()
            if desk not in self.busy:
                self.busy.add(desk)
                asked.append(dict({"desk": desk, "seq": self.last[desk] + 1}, **request))
        self.lines += [json.dumps(it, separators=(",", ":")).encode() for it in asked]
        for request, reply in zip(asked, self.answer(self.lines)[-len(asked):]):
            self.learn(request, json.loads(reply))

    def learn(self, request, reply):
        if "ok" not in reply:
            return
        self.last[request["desk"]] = request["seq"]
        if "events" in reply:
            self.events += reply["events"]
        self.products = reply.get("product", self.products)
        if request["do"] == "open":
            self.drafts[reply["draft"]] = (request["desk"], request["category"])
        if request["do"] in ("send", "discard"):
            self.drafts.pop(request["draft"], None)

    def next(self):
        """A desk and its next request, without desk and number."""
        chance, desk, category = self.chance, self.chance.choice(DESKS), self.chance.choice(list(HAZARDS))
        step = chance.randrange(10)
        if step >= 4 and self.drafts:
            draft = chance.choice(list(self.drafts))
            owner, category = self.drafts[draft]
            if step >= 8:
                word = chance.choice(("send", "send", "send", "drop", "take", "discard"))
                place = {"place": chance.randrange(2)} if word == "drop" else {}
                return owner if chance.random() < 0.9 else desk, dict({"do": word, "draft": draft}, **place)
            return owner, self.intent(draft, category)
        if step == 0:
            said = [{"event": self.event(category), "texts": texts(chance)} for _ in range(chance.randrange(3))]
            return desk, {"do": "correct", "product": max(1, self.products - chance.choice((0, 0, 0, 1, 2))), "texts": said}
        if step == 1:
            return desk, dict({"do": "issue"}, **put(chance, category))
        return desk, {"do": "open", "category": category}

    def event(self, category):
        """An event of the category, or any."""
        fitting = [it for it in self.events if it[:4] in HAZARDS[category]]
        return self.chance.choice(fitting if fitting and self.chance.random() < 0.9 else self.events)

    def intent(self, draft, category):
        chance, zones = self.chance, self.chance.sample(COUNTIES if category in ("FLW", "FLS") else ZONES[:5], self.chance.randrange(1, 4))
        fitting = any(it[:4] in HAZARDS[category] for it in self.events)
        step = chance.randrange(5) if fitting else chance.randrange(2)
        if step == 0 and category not in ("FFA", "FLW", "FLS"):
            return {"do": "routine", "draft": draft, "hazard": chance.choice(HAZARDS[category]), "zones": zones}
        if step <= 1:
            return dict(put(chance, category), do="put", draft=draft)
        if step == 2:
            joined = dict(put(chance, category), do="put", draft=draft, event=self.event(category))
            del joined["hazard"]
            return joined
        return {"do": chance.choice(("end", "restate")), "draft": draft, "event": self.event(category), "zones": zones}


def requests(source):
    """A script over a journal, of whose lines some are damaged."""
    chance, journal = source.chance, source.chance.choice(source.made)
    lines = source.day(journal, chance.randrange(1, 7))
    lines = [damaged_json(chance, line) if chance.random() < 0.04 else line for line in lines]
    if chance.random() < 0.3:
        lines = damaged_lines(chance, lines)
    end = chance.choice((b"\n", b"\n", b"\r\n"))
    return Case("warn_main", ["script"], end.join(lines) + chance.choice((end, b"", b"\r")), journal)


def training(source):
    chance, lines = source.chance, []
    for _ in range(chance.randrange(1, 40)):
        line = json.dumps(dict({"do": "issue"}, **put(chance, chance.choice(list(HAZARDS)))), separators=(",", ":")).encode()
        lines.append(damaged_json(chance, line) if chance.random() < 0.3 else line)
    return Case("warn_main", ["dry", "KLWX", stamp(0)], b"\n".join(lines) + chance.choice((b"\n", b"")), None)


def journal_of(bodies, last):
    return b"".join(b"G" + len(it).to_bytes(4, "big") + it for it in bodies) + last


def damaged_journal(chance, file):
    """The journal, whole, cut off, with damaged bytes, or with records taken out, doubled, exchanged or damaged."""
    match chance.randrange(6):
        case 0:
            return file
        case 1:
            return file[:chance.randrange(len(file) + 1)]
        case 2:
            return damaged_bytes(chance, file)
        case _:
            return journal_of(damaged_lines(chance, records(file)), chance.choice((b".", b".", b"x", b"", b"G", b".trailing")))


def journals(source):
    chance, journal = source.chance, source.chance.choice(source.made)
    words = chance.choice((["export"], ["board", "--at", stamp(chance.choice((0, 60, 600)))], ["board"], ["upgrade"], ["script"]))
    given = b"\n".join(source.day(journal, 1)) + b"\n" if words == ["script"] else b""
    return Case("warn_main", words, given, damaged_journal(chance, journal))


# ---- words, archives, notices

ODD_WORDS = ["", "-", "--at", "--at=", "--help", "0", "007", "7", "-1", "+1", "1.0", "8192", "8193", "1000", "18446744073709551615",
             "18446744073709551616", "180103T1530Z", "180103T1530", "180230T0000Z", "000000T0000Z", "991231T2359Z", "981113T0240Z",
             "981113T0241Z", "KLWX", "klwx", "KLW", "KLWXX", "init", "script", "export", "board", "upgrade", "dry", "drill", "serve", "O",
             "T", "E", "X", "o", "Eastern", "UTC", "\u00e9"]


def words(source):
    chance = source.chance
    first = chance.choice((["init"], ["script"], ["export"], ["board"], ["board", "--at"], ["upgrade"], ["dry"], ["dry", "KLWX"], ["drill"],
                           ["drill", "7"], []))
    program = chance.choice(("warn_main", "warn_main", "warn_archive", "watch_notice"))
    if program != "warn_main":
        first = [chance.choice(ODD_WORDS) for _ in range(chance.randrange(3))]
    more = chance.choices(ODD_WORDS, k=chance.choice((0, 1, 1, 1, 2, 3)))
    if first == ["drill"] and len(more) == 2 or first == ["drill", "7"]:
        more = [chance.choice(("0", "1", "007", "30", "8193", "-1", "")) if it.isdigit() else it for it in more]
    return Case(program, first + more, b"", chance.choice(source.made) if program == "warn_main" else None)


ARCHIVES = [("samples", "archive.txt"), ("crates", "warn_archive", "stdin")]
TTAAII = [b"WWUS41 KLWX 031530", b"WGUS61 KLWX 010000 CCA", b"WWUS41 KLWX  312359", b"wwus41 KLWX 031530", b"WWUS41 KLWX 320000", b"000",
          b"WWUS41 KLWX 031530 RRB"]
CODES = [b"MDZ003>005-VAZ028-032330-", b"MDZ003-\r\n004-032330-", b"MDC005-021-040000-", b"MDZ003-003-032330-", b"MDZ005>003-032330-",
         b"MDZ003-000-032330-", b"MDZ003-004-322330-", b"/O.CON.KLWX.WS.W.0001.000000T0000Z-180104T0000Z/",
         b"/O.CAN.KLWX.WS.W.0001.000000T0000Z-180104T0000Z/", b"/O.EXT.KLWX.WS.W.0001.000000T0000Z-180104T0600Z/",
         b"/O.NEW.KLWX.WS.W.0001.180103T1530Z-180104T0000Z/", b"/O.UPG.KLWX.WW.Y.0001.000000T0000Z-180104T0000Z/",
         b"/O.EXB.KLWX.WS.W.0001.180103T1800Z-180104T0300Z/", b"/O.ROU.KLWX.WS.W.0000.000000T0000Z-000000T0000Z/",
         b"/O.NEW.KLWX.FL.W.0002.180103T1530Z-000000T0000Z/", b"/FDKM2.2.ER.180103T1800Z.180104T0000Z.000000T0000Z.NO/",
         b"/00000.0.ER.000000T0000Z.000000T0000Z.000000T0000Z.OO/", b"$$", b"&&", b"1030 AM EST Wed Jan 3 2018",
         b"1030 AM EST /930 AM CST/ Wed Jan 3 2018", b"1230 PM EDT Wed Jan 3 2018", b"030 AM EST Thu Feb 29 2018",
         b"1030 AM XST Wed Jan 3 2018", b"NOON EST Wed Jan 3 2018", b"WSWLWX", b"", b" ", b"ABC"]


def archives(source):
    chance = source.chance
    text = chance.choice([sample(*it) for it in ARCHIVES] + source.exports * 2)
    lines = text.split(b"\n")
    begin = chance.randrange(max(1, len(lines) - 120))
    if chance.random() < 0.7:
        lines = lines[begin:begin + chance.randrange(1, 120)]
    for _ in range(chance.choice((0, 1, 2, 5))):
        lines.insert(chance.randrange(len(lines) + 1), chance.choice(CODES + TTAAII))
    lines = damaged_lines(chance, lines)
    given = chance.choice((b"\n", b"\n", b"\r\n", b"\r\r\n", b" \n")).join(lines)
    office = chance.choice(re.findall(rb"KLWX|KDMX|K[A-Z]{3}", text) or [b"KLWX"]).decode()
    return Case("warn_archive", [office, chance.choice("OOOOT"), chance.choice((stamp(0), stamp(600), "180103T1700Z", "180104T0000Z"))],
                given, None)


def notices(source):
    chance, minute, lines, ends = source.chance, 0, [], {}
    for _ in range(chance.randrange(1, 50)):
        minute += chance.choice((0, 0, 5, 10, 30, 60))
        watch = (chance.choice(("TO.A", "SV.A")), chance.choice((1, 2, 3, 9999)))
        if ends and chance.random() < 0.85:
            watch = chance.choice(list(ends))
        known = ends.setdefault(watch, {})
        zones = chance.sample(COUNTIES + list(known), chance.randrange(1, 4))
        line = {"at": stamp(minute), "do": chance.choice(("join", "join", "join", "end")) if known and chance.random() < 0.95 else "open",
                "hazard": watch[0], "number": watch[1], "zones": list(dict.fromkeys(zones))}
        if line["do"] != "end":
            same = [known[it] for it in zones if it in known]
            end = minute + chance.choice((30, 60, 120, 240, 240, 420) if chance.random() < 0.97 else (-1, 0))
            if same and chance.random() < 0.5:
                end = chance.choice(same)
            line["end"] = stamp(end)
            known.update({it: end for it in zones})
        line = json.dumps(line, separators=(",", ":")).encode()
        lines.append(damaged_json(chance, line) if chance.random() < 0.1 else line)
    return Case("watch_notice", ["KLWX", chance.choice(("Eastern", "Central", "UTC", "Arizona"))],
                b"\n".join(lines) + chance.choice((b"\n", b"")), None)


# ---- streams of calls

HEADS = [b"GET /board HTTP/1.1\r\n\r\n", b"GET /products/1 HTTP/1.1\r\n\r\n", b"GET /products/after/0 HTTP/1.1\r\n\r\n",
         b"GET /drafts/1 HTTP/1.1\r\n\r\n", b"GET /preview/1 HTTP/1.1\r\n\r\n", b"GET /products/4294967296 HTTP/1.1\r\n\r\n",
         b"PUT /requests HTTP/1.1\r\n\r\n", b"POST /requests HTTP/1.1\r\n\r\n",
         b"POST /requests HTTP/1.1\r\nTransfer-Encoding: chunked\r\n\r\n", b"POST /requests HTTP/1.1\r\nContent-Length: 65537\r\n\r\n",
         b"GET /board HTTP/1.1\r\nConnection: close\r\n\r\n", b"GET /board HTTP/1.0\r\n\r\n", b"\r\n\r\n"]


def streams(source):
    chance, journal, calls = source.chance, source.chance.choice(source.made), []
    for line in source.day(journal, 2):
        if chance.random() < 0.4:
            calls.append(chance.choice(HEADS))
        calls.append(b"POST /requests HTTP/1.1\r\nContent-Length: %d\r\n\r\n" % len(line) + line)
    port = str(chance.randrange(20000, 30000))
    return Case("warn_main", ["serve", "--port", port, "--workers", "1", "--connections", "1"], b"".join(damaged_lines(chance, calls)),
                journal)


# ---- runs

def served(child, port, given):
    """What a server answers to a stream over one link."""
    deadline = time.monotonic() + SECONDS
    while child.poll() is None and time.monotonic() < deadline:
        try:
            link = socket.create_connection(("127.0.0.1", port), SECONDS)
        except ConnectionRefusedError:
            time.sleep(0.002)
            continue
        answers = b""
        with link:
            try:
                link.sendall(given)
                link.shutdown(socket.SHUT_WR)
            except OSError:
                pass
            try:
                while piece := link.recv(65536):
                    answers += piece
            except OSError:
                pass
        return answers
    return b""


def run(program, case, folder):
    """What a program does with a case, over a copy of its journal."""
    path, line = os.path.join(folder, "journal"), [program]
    if os.path.exists(path):
        os.remove(path)
    if case.journal is not None:
        with open(path, "wb") as out:
            out.write(case.journal)
    if case.program == "warn_main":
        line.append(path)
    child = subprocess.Popen(line + case.words, stdin=subprocess.PIPE, stdout=subprocess.PIPE, stderr=subprocess.DEVNULL)
    answers = b""
    if case.words[:1] == ["serve"] and len(case.words) == 7:
        answers = served(child, int(case.words[2]), case.given)
        written = child.communicate(timeout=SECONDS)[0]
    else:
        try:
            written = child.communicate(case.given, timeout=SECONDS)[0]
        except subprocess.TimeoutExpired:
            child.kill()
            child.communicate()
            return Outcome("none in %d s" % SECONDS, b"", b"")
    left = None
    if os.path.exists(path):
        with open(path, "rb") as file:
            left = file.read()
    return Outcome(child.returncode, answers + written, left)


class Pair:
    """The programs of this repository, and the others."""

    def __init__(self, mine, other, folder):
        self.mine, self.other, self.folder = mine, other, folder

    def outcomes(self, case):
        while True:
            minute = int(time.time() // 60)
            both = [run(self.path(case.program), case, self.folder), run(os.path.join(self.other, case.program), case, self.folder)]
            if int(time.time() // 60) == minute:
                return both

    def path(self, name):
        path = os.path.join(self.mine, name) if self.mine else os.path.join(TOP, "crates", name, "out", name)
        if not os.path.exists(path):
            raise SystemExit("no program at %s: build it with `rt run` in crates/%s" % (path, name))
        return path

    def differ(self, case):
        mine, other = self.outcomes(case)
        return mine != other

    def cut_down(self, case):
        """The case with as much of its input and journal taken out as still shows a difference."""
        tries = TRIES
        for field in ("given", "journal"):
            size = len(getattr(case, field) or b"")
            while size > 0 and tries > 0:
                at, size = 0, (size + 1) // 2 if size > 1 else 0
                while size and at < len(getattr(case, field)) and tries > 0:
                    text, tries = getattr(case, field), tries - 1
                    less = case._replace(**{field: text[:at] + text[at + size:]})
                    if self.differ(less):
                        case = less
                    else:
                        at += size
        return case


class Source:
    """What the inputs of a kind are made from: journals in both editions, made by the programs of this repository, and their texts."""

    def __init__(self, pair, seed):
        self.pair, self.chance, self.made, self.exports = pair, random.Random(seed), [], []
        for rounds, edition in ((0, 2), (2, 2), (6, 2), (12, 2), (0, 1), (6, 1)):
            fresh = self.run(["init"], SETTINGS, None)
            # A journal of edition One has no mark.
            empty = fresh.journal if edition == 2 else journal_of(records(fresh.journal)[:1], b".")
            filled = self.run(["script"], b"\n".join(self.day(empty, rounds)) + b"\n", empty).journal
            self.made.append(filled)
            self.exports.append(self.run(["export"], b"", filled).written)
        self.exports = [it for it in self.exports if it]

    def run(self, words, given, journal):
        done = run(self.pair.path("warn_main"), Case("warn_main", words, given, journal), self.pair.folder)
        if done.status != 0:
            raise SystemExit("%s ended with status %s" % (words[0], done.status))
        return done

    def day(self, journal, rounds):
        """Requests for the office of this journal."""
        day = Day(self.chance, journal, lambda lines: self.run(["script"], b"\n".join(lines) + b"\n", journal).written.splitlines())
        for _ in range(rounds):
            day.round(8)
        return day.lines


def show(kind, seed, number, case, pair):
    case = pair.cut_down(case)
    mine, other = pair.outcomes(case)
    print("%s, seed %s, input %d: %s %s" % (kind, seed, number, case.program, " ".join(map(repr, case.words))))
    print("  given   %r" % case.given)
    if case.program == "warn_main":
        print("  journal %r" % case.journal)
    for name, one, two in zip(Outcome._fields, mine, other):
        if one != two:
            print("  %s here  %r" % (name, one))
            print("  %s there %r" % (name, two))
    sys.stdout.flush()


KINDS = {"settings": settings, "journals": journals, "requests": requests, "training": training, "words": words, "archives": archives,
         "notices": notices, "streams": streams}


def is_serving(source):
    """Whether the program takes the words of `serve`."""
    case = streams(source)._replace(given=b"")
    return run(source.pair.path("warn_main"), case, source.pair.folder).status != 2


def main():
    asked = argparse.ArgumentParser(usage=__doc__.split("\n\n")[1].strip())
    asked.add_argument("folder")
    asked.add_argument("kinds", nargs="*", choices=[[], *KINDS])
    asked.add_argument("--count", type=int, default=200)
    asked.add_argument("--seed", type=int, default=1)
    asked.add_argument("--show", type=int, default=1)
    asked.add_argument("--programs")
    asked = asked.parse_args()
    differing = 0
    with tempfile.TemporaryDirectory(dir="/dev/shm") as folder:
        pair = Pair(asked.programs, asked.folder, folder)
        for kind in asked.kinds or KINDS:
            source, found, statuses = Source(pair, "%s %d" % (kind, asked.seed)), 0, collections.Counter()
            if kind == "streams" and not is_serving(source):
                print("streams: the program does not serve yet")
                continue
            for number in range(1, asked.count + 1):
                case = KINDS[kind](source)
                mine, other = pair.outcomes(case)
                statuses[mine.status] += 1
                if mine != other:
                    found += 1
                    if found <= asked.show:
                        show(kind, asked.seed, number, case, pair)
            told = ", ".join("%s: %d" % it for it in sorted(statuses.items(), key=str))
            print("%s, seed %d: %d inputs, %d differ; statuses %s" % (kind, asked.seed, asked.count, found, told), flush=True)
            differing += found
    sys.exit(1 if differing else 0)


if __name__ == "__main__":
    main()
