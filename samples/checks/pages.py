"""A page's blocks as a script, and what they wrote beside what the page says.

    pages.py script PAGE     the blocks marked sh, as one script: a line's number is the page's
    pages.py compare PAGE OUTPUT

Each block is followed in the script by a line that parts its output from the next one's. A block
marked output is compared with what the block before it wrote; stamps, years of events and clock
times count as equal.
"""
import re
import sys

MARK = '\x1e'


def blocks(page):
    """The fenced blocks: what they are marked as, the number of their first line, their lines."""
    with open(page, encoding='utf-8') as file:
        lines = file.read().split('\n')
    kind, first, block = None, 0, []
    for number, line in enumerate(lines):
        if line.startswith('```'):
            if kind is None:
                kind, first, block = line[3:].strip(), number + 1, []
            else:
                yield kind, first, block
                kind = None
        elif kind is not None:
            block.append(line)


def script(page):
    lines = {}
    for kind, first, block in blocks(page):
        if kind == 'sh':
            lines.update({first + number: line for number, line in enumerate(block)})
            lines[first + len(block)] = "printf '%s\\n'" % MARK
    return '\n'.join(lines.get(number, '') for number in range(max(lines, default=0) + 1)) + '\n'


def plain(text):
    text = re.sub(r'[0-9]{6}T[0-9]{4}Z', 'STAMP', text)
    text = re.sub(r'20[0-9]{2}-[0-9]{2}-[0-9]{2}T[0-9:]{5}Z', 'TIME', text)
    text = re.sub(r'("year": )20[0-9]{2}', r'\1YEAR', text)
    return re.sub(r'(\.[0-9]{4}\.)20[0-9]{2}', r'\1YEAR', text).strip()


def compare(page, output):
    with open(output, encoding='utf-8', errors='replace') as file:
        written = file.read().split(MARK + '\n')
    count, compared = 0, 0
    for kind, first, block in blocks(page):
        if kind == 'sh':
            count += 1
        elif kind == 'output':
            compared += 1
            if plain('\n'.join(block)) != plain(written[count - 1]):
                sys.exit(
                    '%s, line %d: the block before wrote something else:\n%s'
                    % (page, first, written[count - 1])
                )
    print('%d blocks, %d outputs' % (count, compared))


if sys.argv[1] == 'script':
    print(script(sys.argv[2]), end='')
else:
    compare(sys.argv[2], sys.argv[3])
