"""Looks whether a picture is XML and has what its report has: pictures.py PICTURE REPORT."""
import sys
import xml.etree.ElementTree as tree

SVG = '{http://www.w3.org/2000/svg}'
root = tree.parse(sys.argv[1]).getroot()
titles = [title.text for title in root.iter(SVG + 'title')]
with open(sys.argv[2], encoding='ascii') as file:
    lines = [line.split() for line in file]
if lines[0][0] == 'hazard':
    for word in lines:
        if word[0] == 'hazard':
            assert any(
                title.startswith(word[1]) and '%s minutes in effect' % word[9] in title
                for title in titles
            ), word
    sys.exit(0)
lives = [words for words in lines if words[0] == 'life']
steps = sum(len(words) - 3 for words in lives)
assert root.tag == SVG + 'svg'
assert len(lives) == sum(
    ' in %s, ' % words[2] in title and title.startswith(words[1])
    for words in lives
    for title in titles
)
assert steps == sum(
    title.split(' ')[1] in ('NEW', 'CON', 'EXA', 'EXB', 'EXT', 'UPG', 'CAN', 'EXP', 'COR')
    for title in titles
    if ' at ' in title
), steps
assert sum(words[0] == 'breach' for words in lines) == sum(
    ' in product ' in title for title in titles
)
gaps = {(words[3], words[4]) for words in lines if words[0] == 'gap'}
assert gaps == {
    (title.split()[1], title.split()[4]) for title in titles if title.startswith('gap')
}, gaps
