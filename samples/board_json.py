#!/usr/bin/env python3
"""A board as JSON, an object a line.

    warn_main office.journal board | board_json.py [--settings office.toml] [BOARD]
    curl -fsS http://127.0.0.1:8470/board | board_json.py

Times are ISO 8601 in UTC, an `end` of null is until further notice. Status: 0, or 1 where a line is
none of a board.
"""
import argparse
import json

import report_json
import reports


def main():
    words = argparse.ArgumentParser(
        description=__doc__, formatter_class=argparse.RawDescriptionHelpFormatter
    )
    words.error = lambda message: reports.fail(message, 2)
    words.add_argument('--settings', help='an office\'s settings, for the names of its zones')
    words.add_argument('board', nargs='?')
    words = words.parse_args()
    zones = reports.zone_names(words.settings)
    for number, line in enumerate(reports.lines_of(words.board), 1):
        kind, values = reports.Report.part(line) or ('', ())
        if kind == 'ended':
            reports.fail('the board ends with a fault: %s' % values[0])
        if kind != 'row':
            reports.fail('line %d is no line of a board: %.60s' % (number, line))
        print(json.dumps(report_json.object_of(kind, values, zones)))
    return 0


if __name__ == '__main__':
    reports.run(main)
