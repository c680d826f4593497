#!/usr/bin/env python3
"""Settings of an office from the Weather Service's zone and county file.

    settings_of.py KLWX [--like office.toml] < bp05mr24.dbx > settings.toml

The file is the "zone-county correlation file" that the Weather Service publishes
(www.weather.gov/gis/ZoneCounty): lines of STATE|ZONE|CWA|NAME|STATE_ZONE|COUNTY|FIPS|TIME_ZONE|..
The zones and counties whose CWA is the office's go into [zones], with their names, and the office's
time zone into `zone`.

A name of the settings has 1 to 40 printable characters, begins with a letter, and has no digit, $,
& or -. One that has not this form is written in one that has, or left out, and told on standard
error: look at it before `init`, since a journal keeps its settings for ever. Office line, desks and
headings are those of --like; without it they are not written, and warn_main names the first that is
missing.

Status: 0, or 1 where a line can't be read, the office has no zones, or it has more than 2,000.
"""
import argparse
import os
import re
import sys
import tomllib
import unicodedata

MOST = 2000
# Upper case where daylight saving time is observed, lower case where it is not.
TIMES = {
    'V': 'Atlantic',
    'v': 'Atlantic',
    'E': 'Eastern',
    'C': 'Central',
    'M': 'Mountain',
    'm': 'Arizona',
    'P': 'Pacific',
    'A': 'Alaska',
    'H': 'Hawaii',
    'h': 'Hawaii',
}
CATEGORIES = 'WSW NPW RFW CFW MWW FFA FLW FLS'.split()


def tell(text):
    print('settings_of.py: ' + text, file=sys.stderr)


def fail(text, status=1):
    tell(' '.join(str(text).split()))
    sys.exit(status)


def name_for(zone, name):
    """The name in the form that settings take, or None; what was changed is told."""
    plain = unicodedata.normalize('NFKD', name).encode('ascii', 'ignore').decode()
    plain = ' '.join(re.sub('[^ -~]|[0-9$&-]', ' ', plain).split())
    plain = re.sub('^[^A-Za-z]+', '', plain)
    if len(plain) > 40:
        plain = plain[:40].rsplit(' ', 1)[0]
    if not plain:
        tell('%s is left out: nothing of its name %r can be written' % (zone, name))
        return None
    if plain != name:
        tell('%s: %r is written %r' % (zone, name, plain))
    return plain


def zones_of(lines, site):
    """The zones of an office with their names, and how many lines have each time zone."""
    zones, times = {}, {}
    for number, line in enumerate(lines, 1):
        if not line.strip():
            continue
        fields = line.rstrip('\r\n').split('|')
        if (
            len(fields) < 8
            or not re.fullmatch('[A-Z]{2}', fields[0])
            or not re.fullmatch('[0-9]{3}', fields[1])
            or not re.fullmatch('[0-9]{5}', fields[6])
        ):
            fail('line %d is no line of the zone and county file: %.60s' % (number, line.strip()))
        state, zone, office, name, _, county, fips, time = fields[:8]
        if office != site:
            continue
        for code, called in ((state + 'Z' + zone, name), (state + 'C' + fips[2:], county)):
            if code[3:] != '000':
                zones.setdefault(code, called.strip())
        times[time[:1]] = times.get(time[:1], 0) + 1
    return zones, times


def quoted(text):
    return '"%s"' % text.replace('\\', '\\\\').replace('"', '\\"')


def tell_settings(office, zones, times, like):
    time = max(times, key=times.get)
    if len(times) > 1:
        tell(
            'the office has several time zones (%s): %s is written'
            % (' '.join(sorted(times)), TIMES.get(time, time))
        )
    if time not in TIMES:
        fail('%r is a time zone that the desk has not' % time)
    print('office = "%s"\nsite = "%s"' % (office, office[1:]))
    if 'office_line' in like:
        print('office_line = %s' % quoted(like['office_line']))
    print('zone = "%s"' % TIMES[time])
    if 'desks' in like:
        print('desks = [%s]' % ', '.join(quoted(desk) for desk in like['desks']))
    print('[headings]')
    for category in CATEGORIES:
        if category in like.get('headings', {}):
            print('%s = %s' % (category, quoted(like['headings'][category])))
    print('[zones]')
    for zone in sorted(zones):
        name = name_for(zone, zones[zone])
        if name:
            print('%s = %s' % (zone, quoted(name)))


def main():
    words = argparse.ArgumentParser(
        description=__doc__, formatter_class=argparse.RawDescriptionHelpFormatter
    )
    words.error = lambda message: fail(message, 2)
    words.add_argument('--like', help='settings whose office line, desks and headings are taken')
    words.add_argument('office')
    words = words.parse_args()
    if not re.fullmatch('[A-Z0-9]{4}', words.office):
        fail('%r is no office: four of A to Z and 0 to 9, such as KLWX' % words.office, 2)
    try:
        like = {}
        if words.like:
            with open(words.like, 'rb') as file:
                like = tomllib.load(file)
        data = sys.stdin.buffer.read()
        try:
            lines = data.decode('utf-8').split('\n')
        except UnicodeDecodeError:
            lines = data.decode('latin-1').split('\n')
    except (OSError, ValueError) as error:
        fail('%s: %s' % (words.like, error))
    zones, times = zones_of(lines, words.office[1:])
    if not zones:
        fail('no line of the file is of %s' % words.office[1:])
    if len(zones) > MOST:
        fail(
            'the office has %d zones and counties, more than the %d of an office\'s settings'
            % (len(zones), MOST)
        )
    try:
        tell_settings(words.office, zones, times, like)
        sys.stdout.flush()
    except (TypeError, AttributeError):
        fail('%s: office_line is no text, desks is no list of texts or headings no table' % words.like)
    except OSError as error:
        os.dup2(os.open(os.devnull, os.O_WRONLY), sys.stdout.fileno())
        fail('standard output: %s' % error.strerror)


if __name__ == '__main__':
    main()
