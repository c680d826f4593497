#!/usr/bin/env python3
"""The report of warn_archive as JSON, an object a line.

    warn_archive KLWX O 180103T1900Z < archive.txt | report_json.py [--settings office.toml]
    report_json.py [--settings office.toml] REPORT

Each object has a `kind`: product, fault, life, breach, gap, shown, row, breaches. Times are ISO
8601 in UTC; hazards bear their names, and zones theirs where settings are given. Status: 0, or 1
where the input is no whole report.
"""
import argparse
import json

import reports


def event_of(event):
    return {
        'event': event,
        'hazard': event[:4],
        'hazard_name': reports.hazard_name(event[:4]),
        'number': int(event[5:9]),
        'year': int(event[10:]),
    }


def object_of(kind, values, zones):
    """A parted line of the report as a dict."""

    def zone_of(zone):
        return {'zone': zone, **({'zone_name': zones[zone]} if zone in zones else {})}

    if kind == 'product':
        number, identifier, issued, lines = values
        return {
            'number': int(number),
            'identifier': identifier,
            'issued': reports.iso(issued),
            'lines': int(lines),
        }
    if kind == 'fault':
        number, name, line = values
        return {'number': int(number), 'fault': name, **({'line': int(line)} if line else {})}
    if kind == 'life':
        event, zone, steps = values
        parted = [step.split('@') for step in steps.split()]
        return {
            **event_of(event),
            **zone_of(zone),
            'steps': [{'action': action, 'at': reports.iso(at)} for action, at in parted],
        }
    if kind == 'breach':
        number, event, zone, name = values
        return {'product': int(number), **event_of(event), **zone_of(zone), 'breach': name}
    if kind == 'gap':
        hazard, year, wanted, found = values
        return {
            'hazard': hazard,
            'hazard_name': reports.hazard_name(hazard),
            'year': int(year),
            'wanted': int(wanted),
            'found': int(found),
        }
    if kind == 'shown':
        return {'at': reports.iso(values[0]), 'rows': int(values[1])}
    if kind == 'row':
        zone, event, begin, end, flood = values
        return {
            **zone_of(zone),
            **event_of(event),
            'begin': reports.iso(begin),
            'end': reports.iso(end),
            **({'flood': flood} if flood else {}),
        }
    return {'count': int(values[0])}


def main():
    words = argparse.ArgumentParser(
        description=__doc__, formatter_class=argparse.RawDescriptionHelpFormatter
    )
    words.error = lambda message: reports.fail(message, 2)
    words.add_argument('--settings', help='an office\'s settings, for the names of its zones')
    words.add_argument('report', nargs='?')
    words = words.parse_args()
    zones = reports.zone_names(words.settings)
    for kind, values in reports.Report.parted(reports.lines_of(words.report)):
        if kind != 'ended':
            print(json.dumps({'kind': kind, **object_of(kind, values, zones)}))
    return 0


if __name__ == '__main__':
    reports.run(main)
