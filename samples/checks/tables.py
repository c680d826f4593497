"""Looks at what report_json.py wrote of samples/archive.txt: each object by the page's words, not
by the script's."""
import json
import sys

with open(sys.argv[1], encoding='ascii') as file:
    lines = [json.loads(line) for line in file]
by_kind = {}
for line in lines:
    by_kind.setdefault(line['kind'], []).append(line)
assert {kind: len(lines) for kind, lines in by_kind.items()} == {
    'product': 2,
    'fault': 1,
    'life': 4,
    'breach': 2,
    'shown': 1,
    'row': 2,
    'breaches': 1,
}, by_kind
assert by_kind['fault'][0] == {'kind': 'fault', 'number': 2, 'fault': 'NoSegmentEnd', 'line': 8}
life = by_kind['life'][2]
assert (
    life['zone'] == 'MDZ005'
    and life['zone_name'] == 'Carroll'
    and life['hazard_name'] == 'Winter Storm Warning'
)
assert life['steps'] == [
    {'action': 'NEW', 'at': '2018-01-03T15:30Z'},
    {'action': 'CAN', 'at': '2018-01-03T18:00Z'},
]
assert by_kind['breach'][0]['breach'] == 'PeriodMoved' and by_kind['breach'][0]['product'] == 3
assert by_kind['row'][0]['end'] == '2018-01-04T00:00Z' and by_kind['breaches'][0]['count'] == 3
