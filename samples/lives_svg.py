#!/usr/bin/env python3
"""A picture (SVG) of warn_archive's report, or of the statistics of warn_stats.

    warn_archive KLWX O 000101T0000Z < archive.txt | lives_svg.py [WORDS] > lives.svg
    warn_stats KLWX O 180104T0000Z < archive.txt | lives_svg.py [WORDS] > statistics.svg

A report: a row for each zone, a bar for each event from its begin to its end in its hazard's
colour, a mark for each step (point at it to read it), a red cross for each breach and product that
can't be read, a red diamond for each gap; times along the top, in UTC. A report knows begin and end
of those rows alone that it shows: with the stamp 000101T0000Z it shows all that no line has ended.
Other bars begin with their first step; one whose end is not in the report is dashed to the right
edge.

--zones MDZ,VAZ028 and --hazards WS.W,WW.Y choose. Status: 0, or 1 where the input is neither, or
too much for one picture.
"""
import argparse
import itertools
from datetime import datetime, timedelta, timezone
from xml.sax.saxutils import escape, quoteattr

import reports
import statistics_csv

WIDTH, LEFT, TOP, LANE = 1400, 230, 70, 14
MOST = 4000  # lanes of one picture
ENDING = ('CAN', 'EXP', 'UPG')
STEPS = [
    timedelta(minutes=m)
    for m in (5, 10, 15, 30, 60, 120, 180, 360, 720, 1440, 2880, 10080, 20160, 43200, 525600)
]


def time_of(stamp):
    return datetime.strptime(stamp, '%y%m%dT%H%MZ').replace(tzinfo=timezone.utc)


def shape(name, title=None, **fields):
    words = ''.join(
        ' %s=%s' % (key.replace('_', '-'), quoteattr(str(value))) for key, value in fields.items()
    )
    return '<%s%s>%s</%s>' % (
        name,
        words,
        '<title>%s</title>' % escape(title) if title else '',
        name,
    )


def text(x, y, words, size=11, **fields):
    fields = ''.join(
        ' %s=%s' % (key.replace('_', '-'), quoteattr(str(value))) for key, value in fields.items()
    )
    return '<text x="%.1f" y="%.1f" font-size="%d"%s>%s</text>' % (
        x,
        y,
        size,
        fields,
        escape(words),
    )


def picture(width, height, title, parts):
    return '\n'.join(
        [
            '<svg xmlns="http://www.w3.org/2000/svg" width="%d" height="%d" viewBox="0 0 %d %d" '
            'font-family="sans-serif" role="img">' % (width, height, width, height),
            '<title>%s</title>' % escape(title),
            '<rect width="100%" height="100%" fill="white"/>',
            *parts,
            '</svg>',
        ]
    )


class Spell:
    """A bar: an event in a zone from an opening to what ends it. `end` is None where the report
    does not tell it."""

    def __init__(self, event, zone, steps):
        self.event, self.zone, self.steps = event, zone, steps
        self.begin, self.end, self.open = steps[0][1], None, False
        if steps[-1][0] in ENDING:
            self.end = steps[-1][1]


def spells_of(event, zone, steps):
    """The spells of a life: each ends with a step that ends it."""
    spell = []
    for step in steps:
        spell.append(step)
        if step[0] in ENDING:
            yield Spell(event, zone, spell)
            spell = []
    if spell:
        yield Spell(event, zone, spell)


class Lives:
    """What a report says, as a picture wants it."""

    def __init__(self, lines, chosen):
        self.spells, self.marks, self.count = {}, [], 0
        self.issued, self.faults, self.gaps = {}, [], []
        last = None
        for kind, values in lines:
            if kind == 'product':
                self.issued[values[0]] = last = time_of(values[2])
            elif kind == 'fault':
                self.faults.append(
                    (last, 'product %s: %s %s' % (values[0], values[1], values[2] or ''))
                )
            elif kind == 'gap':
                self.gaps.append(values)
            elif kind == 'breaches':
                self.count = int(values[0])
            elif kind in ('life', 'breach', 'row'):
                self.add(kind, values, chosen)

    def add(self, kind, values, chosen):
        event, zone = (
            (values[1], values[2])
            if kind == 'breach'
            else values[:2]
            if kind == 'life'
            else values[1::-1]
        )
        if not chosen(event, zone):
            return
        if kind == 'breach':
            told = '%s in product %s: %s' % (event, values[0], values[3])
            self.marks.append((zone, event, self.issued.get(values[0]), told))
        elif kind == 'life':
            steps = [(step[:3], time_of(step[4:])) for step in values[2].split()]
            self.spells[event, zone] = list(spells_of(event, zone, steps))
        else:
            spell = self.spells[event, zone][-1] if (event, zone) in self.spells else None
            if spell and not spell.end:
                spell.begin, spell.open = time_of(values[2]), values[3] == '000000T0000Z'
                spell.end = None if spell.open else time_of(values[3])

    def zones(self):
        return sorted(
            {zone for _, zone in self.spells} | {zone for zone, *_ in self.marks},
            key=lambda zone: (zone[:2], zone[2], zone[3:]),
        )

    def span(self):
        times = [
            time
            for spells in self.spells.values()
            for spell in spells
            for time in (spell.begin, spell.end, *(at for _, at in spell.steps))
            if time
        ]
        times += [time for *_, time, _ in self.marks if time] + [
            time for time, _ in self.faults if time
        ]
        times += list(self.issued.values())
        begin = min(times, default=datetime(2000, 1, 1, tzinfo=timezone.utc))
        end = max(times, default=begin)
        return begin, max(end, begin + timedelta(minutes=30))


def lanes_of(spells, last):
    """Spells of one zone in lanes, so that no two of a lane overlap."""
    lanes = []
    for spell in sorted(
        spells, key=lambda spell: (min(spell.begin, spell.steps[0][1]), spell.event)
    ):
        begin, end = min(spell.begin, spell.steps[0][1]), max(spell.end or last, spell.steps[-1][1])
        for lane in lanes:
            if lane[-1][1] <= begin:
                lane.append((spell, end))
                break
        else:
            lanes.append([(spell, end)])
    return [[spell for spell, _ in lane] for lane in lanes]


class Scale:
    """Times as places across the picture."""

    def __init__(self, begin, end):
        margin = (end - begin) / 50
        self.begin, self.end = begin - margin, end + margin
        self.step = next((step for step in STEPS if (end - begin) / step <= 11), STEPS[-1])

    def at(self, time):
        return LEFT + (WIDTH - LEFT - 20) * ((time - self.begin) / (self.end - self.begin))

    def ticks(self):
        zero = datetime(2000, 1, 1, tzinfo=timezone.utc)
        time = zero + self.step * -(-(self.begin - zero) // self.step)
        while time <= self.end:
            yield time
            time += self.step


def bar(spell, y, scale):
    """The shapes of a spell: from its issue to its begin thin, its bar, its marks."""
    hazard = spell.event[:4]
    colour, x = reports.hazard_colour(hazard), scale.at(spell.begin)
    end = scale.at(spell.end) if spell.end else WIDTH - 20
    told = '%s %s in %s, %s to %s' % (
        spell.event,
        reports.hazard_name(hazard),
        spell.zone,
        spell.begin.strftime('%d %H:%MZ'),
        spell.end.strftime('%d %H:%MZ')
        if spell.end
        else 'until further notice'
        if spell.open
        else 'an end that the report does not tell',
    )
    first = scale.at(spell.steps[0][1])
    if first < x:
        yield shape(
            'line',
            x1='%.1f' % first,
            x2='%.1f' % x,
            y1=y + 5,
            y2=y + 5,
            stroke=colour,
            stroke_width=2,
        )
    dashes = {} if spell.end or spell.open else {'stroke_dasharray': '6 3', 'fill_opacity': '0.35'}
    yield shape(
        'rect',
        told,
        x='%.1f' % x,
        y=y,
        width='%.1f' % max(end - x, 1.5),
        height=LANE - 4,
        fill=colour,
        stroke='#333',
        stroke_width='0.6',
        **dashes,
    )
    for action, at in spell.steps:
        yield shape(
            'circle',
            '%s %s at %s' % (spell.event, action, at.strftime('%d %b %Y %H:%MZ')),
            cx='%.1f' % scale.at(at),
            cy=y + 5,
            r='2.6',
            fill='#222' if action in ENDING else 'white',
            stroke='#222',
        )


def cross(x, y, told):
    return shape(
        'path',
        told,
        d='M%.1f %.1fl8 8m0 -8l-8 8' % (x - 4, y),
        stroke='#d00',
        stroke_width='2.2',
        fill='none',
    )


def diamond(x, y, told=None):
    return shape('path', told, fill='#d00', d='M%.1f %.1fl4 4l-4 4l-4 -4z' % (x, y))


class Rows:
    """The rows of the picture, from the top: the zones' names, their bars, and what is listed
    against the texts."""

    def __init__(self, lives, names, scale):
        self.lives, self.scale, self.parts, self.y, self.places = lives, scale, [], TOP, {}
        self.gaps = {
            '%s.%s.%s' % (hazard, found, year): 'gap: %s was wanted, %s found' % (wanted, found)
            for hazard, year, wanted, found in lives.gaps
        }
        by_zone = {}
        for (_, zone), spells in lives.spells.items():
            by_zone.setdefault(zone, []).extend(spells)
        for number, zone in enumerate(lives.zones()):
            lanes = lanes_of(by_zone.get(zone, []), scale.end) or [[]]
            if (self.y - TOP) / LANE + len(lanes) > MOST:
                reports.fail(
                    'more than %d rows: choose with --zones MDZ,VAZ028 or --hazards WS.W' % MOST
                )
            if number % 2:
                self.parts.append(
                    shape(
                        'rect',
                        x=0,
                        y=self.y - 2,
                        width=WIDTH,
                        height=len(lanes) * LANE,
                        fill='#f4f4f4',
                    )
                )
            self.parts.append(
                text(6, self.y + 9, ('%s %s' % (zone, names.get(zone, ''))).strip()[:36])
            )
            self.places[zone, None] = self.y
            for lane in lanes:
                self.lane(lane)
        self.parts += [
            cross(scale.at(at), self.places.get((zone, event), self.places[zone, None]) + 1, told)
            for zone, event, at, told in lives.marks
            if at
        ]
        self.parts += [
            cross(scale.at(at or scale.begin), TOP - 46, told) for at, told in lives.faults
        ]

    def lane(self, spells):
        for spell in spells:
            self.parts += bar(spell, self.y, self.scale)
            self.places[spell.zone, spell.event] = self.y
            if spell.event in self.gaps and spell.steps[0][0] == 'NEW':
                self.parts.append(
                    diamond(
                        self.scale.at(spell.steps[0][1]) - 6, self.y + 1, self.gaps[spell.event]
                    )
                )
        self.y += LANE


def legend_of(lives, y):
    """What the colours and marks mean, and where the picture ends."""
    parts, x = [
        shape('circle', cx=LEFT + 6, cy=y + 13, r='2.6', fill='white', stroke='#222'),
        text(LEFT + 16, y + 17, 'a step'),
        shape('circle', cx=LEFT + 86, cy=y + 13, r='2.6', fill='#222'),
        text(LEFT + 96, y + 17, 'a step that ends it'),
        cross(LEFT + 236, y + 9, 'a breach'),
        text(LEFT + 246, y + 17, 'a breach, or a product that can not be read'),
        diamond(LEFT + 516, y + 9),
        text(LEFT + 526, y + 17, 'a gap in the numbers before it'),
    ], LEFT
    y += 18
    for hazard in sorted({event[:4] for event, _ in lives.spells}):
        name = '%s %s' % (hazard, reports.hazard_name(hazard))
        if x + 7 * len(name) > WIDTH - 40:
            x, y = LEFT, y + 18
        parts += [
            shape(
                'rect',
                x=x,
                y=y + 8,
                width=12,
                height=10,
                fill=reports.hazard_colour(hazard),
                stroke='#333',
            ),
            text(x + 16, y + 17, name),
        ]
        x += 50 + 7 * len(name)
    return parts, y + 30


def lives_picture(lives, names):
    begin, end = lives.span()
    scale = Scale(begin, end)
    rows = Rows(lives, names, scale)
    form = '%b %d %H:%MZ' if scale.step < timedelta(days=1) else '%b %d %Y'
    ticks = []
    for time in scale.ticks():
        x = scale.at(time)
        ticks += [
            shape('line', x1='%.1f' % x, x2='%.1f' % x, y1=TOP - 12, y2=rows.y, stroke='#ccc'),
            text(x, TOP - 16, time.strftime(form), 10, text_anchor='middle'),
        ]
    title = 'Events by zone, %s to %s: %d listed against the texts' % (
        begin.strftime('%d %b %Y %H:%MZ'),
        end.strftime('%d %b %Y %H:%MZ'),
        lives.count,
    )
    legend, height = legend_of(lives, rows.y)
    return picture(WIDTH, height, title, [text(6, 20, title, 15), *ticks, *rows.parts, *legend])


def statistics_picture(lines, names):
    """Two bars for each hazard, its minutes and its mean lead; and one for each zone."""
    rows = [statistics_csv.row(kind, values, names) for kind, values in lines]
    bars = []
    for kind, code, name, _, openings, lead, mean, minutes in rows:
        if kind in ('hazard', 'zone'):
            colour = reports.hazard_colour(code) if kind == 'hazard' else '#8899aa'
            bars.append(
                (
                    ('%s %s' % (code, name)).strip(),
                    int(minutes),
                    float(mean or 0),
                    openings,
                    colour,
                    kind,
                )
            )
    most = max([minutes for _, minutes, *_ in bars], default=0) or 1
    longest = max([lead for _, _, lead, *_ in bars], default=0) or 1
    y, parts = TOP, []
    for name, minutes, lead, openings, colour, kind in bars:
        parts.append(text(6, y + 10, name[:36]))
        told = '%s: %d minutes in effect, %s openings' % (name, minutes, openings)
        parts.append(
            shape(
                'rect',
                told,
                x=LEFT,
                y=y,
                width='%.1f' % (560 * minutes / most),
                height=10,
                fill=colour,
                stroke='#333',
            )
        )
        parts.append(text(LEFT + 565 * minutes / most + 4, y + 9, '%d min' % minutes, 10))
        if kind == 'hazard':
            parts.append(
                shape(
                    'rect',
                    '%s: mean lead %.1f minutes' % (name, lead),
                    x=LEFT + 680,
                    y=y,
                    width='%.1f' % (360 * lead / longest),
                    height=10,
                    fill='#556',
                    stroke='#333',
                )
            )
            parts.append(text(LEFT + 684 + 360 * lead / longest, y + 9, '%.1f min' % lead, 10))
        y += 18
    heads = [
        text(6, 20, 'Minutes in effect and mean lead', 15),
        text(LEFT, TOP - 14, 'minutes in effect', 12),
        text(LEFT + 680, TOP - 14, 'mean lead of its openings', 12),
    ]
    return picture(WIDTH, y + 20, 'Minutes in effect and mean lead', heads + parts)


def main():
    words = argparse.ArgumentParser(
        description=__doc__, formatter_class=argparse.RawDescriptionHelpFormatter
    )
    words.error = lambda message: reports.fail(message, 2)
    words.add_argument('--settings', help='an office\'s settings, for the names of its zones')
    words.add_argument('--zones', help='zones, or their beginnings, such as MDZ,VAZ028')
    words.add_argument('--hazards', help='hazards such as WS.W,WW.Y')
    words.add_argument('input', nargs='?')
    words = words.parse_args()
    names = reports.zone_names(words.settings)
    lines = reports.lines_of(words.input)
    first = next(lines, '')
    lines = itertools.chain([first], lines) if first else lines
    if first.split(' ')[0] in ('hazard', 'total'):
        print(statistics_picture(statistics_csv.parted(lines), names))
        return 0
    zones = tuple(words.zones.split(',')) if words.zones else ''
    hazards = words.hazards.split(',') if words.hazards else None
    lives = Lives(
        reports.Report.parted(lines),
        lambda event, zone: zone.startswith(zones) and (hazards is None or event[:4] in hazards),
    )
    print(lives_picture(lives, names))
    return 0


if __name__ == '__main__':
    reports.run(main)
