#!/usr/bin/env python3
"""The statistics of warn_stats as a table for spreadsheets (CSV).

    warn_stats KLWX O 180103T2200Z < archive.txt | statistics_csv.py [--settings office.toml]
    statistics_csv.py [--settings office.toml] STATISTICS

The columns: kind (hazard, zone, total, faults), code, name, events, openings, lead_minutes,
mean_lead_minutes, minutes_in_effect; what a kind does not have is empty. Status: 0, or 1 where the
input is no whole output of warn_stats.
"""
import argparse
import csv
import re
import sys

import reports

COLUMNS = 'kind code name events openings lead_minutes mean_lead_minutes minutes_in_effect'.split()
FORMS = {
    'hazard': re.compile(
        r'hazard ([A-Z]{2}\.[A-Z]) events ([0-9]+) openings ([0-9]+) lead ([0-9]+) minutes ([0-9]+)'
    ),
    'zone': re.compile(r'zone (%s) openings ([0-9]+) minutes ([0-9]+)' % reports.ZONE.pattern),
    'total': re.compile(r'total openings ([0-9]+) minutes ([0-9]+)'),
    'faults': re.compile(r'faults ([0-9]+)'),
}


def parted(lines):
    """Each line of the statistics as its kind and values; ends with a fault where they are not
    whole."""
    last = None
    for number, line in enumerate(lines, 1):
        last = line.split(' ', 1)[0]
        if last == 'fault':
            reports.fail('the statistics end with a fault: %s' % line[6:])
        found = FORMS[last].fullmatch(line) if last in FORMS else None
        if not found:
            reports.fail('line %d is no line of the statistics: %.60s' % (number, line))
        yield last, found.groups()
    if last != 'faults':
        reports.fail('the statistics are not whole: they do not end with a line `faults`')


def row(kind, values, zones):
    if kind == 'hazard':
        code, events, openings, lead, minutes = values
        mean = '%.1f' % (int(lead) / int(openings)) if int(openings) else ''
        return [kind, code, reports.hazard_name(code), events, openings, lead, mean, minutes]
    if kind == 'zone':
        zone, openings, minutes = values
        return [kind, zone, zones.get(zone, ''), '', openings, '', '', minutes]
    if kind == 'total':
        return [kind, '', '', '', values[0], '', '', values[1]]
    return [kind, '', 'products that can not be read', values[0], '', '', '', '']


def main():
    words = argparse.ArgumentParser(
        description=__doc__, formatter_class=argparse.RawDescriptionHelpFormatter
    )
    words.error = lambda message: reports.fail(message, 2)
    words.add_argument('--settings', help='an office\'s settings, for the names of its zones')
    words.add_argument('statistics', nargs='?')
    words = words.parse_args()
    zones = reports.zone_names(words.settings)
    table = csv.writer(sys.stdout, lineterminator='\n')
    table.writerow(COLUMNS)
    for kind, values in parted(reports.lines_of(words.statistics)):
        table.writerow(row(kind, values, zones))
    return 0


if __name__ == '__main__':
    reports.run(main)
