"""Follows the relative links of the pages: links.py TOP. A line for each that leads nowhere.

Looked at are the pages below TOP but for those of what was built, outside of their blocks and of
what stands between backticks.
"""
import os
import re
import sys

LINK = re.compile(r'\]\(([^()\s]+)\)')
BUILT = ('out', 'target', 'node_modules')


def lines_of(page):
    """The lines of a page that stand in no block, with their numbers."""
    inside = False
    with open(page, encoding='utf-8') as file:
        for number, line in enumerate(file, 1):
            if line.lstrip().startswith('```'):
                inside = not inside
            elif not inside:
                yield number, line


def anchors_of(page):
    """The anchors of a page's headings, as a host of repositories makes them."""
    found = set()
    for _, line in lines_of(page):
        if re.match('#{1,6} ', line):
            words = re.sub(r'\[([^]]*)\]\([^)]*\)', r'\1', line.lstrip('#').strip())
            found.add(re.sub(r'[^\w\- ]', '', words.lower()).replace(' ', '-'))
    return found


def pages_below(top):
    for folder, folders, names in os.walk(top):
        folders[:] = sorted(name for name in folders if name not in BUILT and name[0] != '.')
        yield from (os.path.join(folder, name) for name in sorted(names) if name.endswith('.md'))


def wrong_links(page):
    for number, line in lines_of(page):
        for link in LINK.findall(re.sub('`[^`]*`', '', line)):
            if re.match('[a-z]+:', link):
                continue
            path, _, anchor = link.partition('#')
            there = os.path.normpath(os.path.join(os.path.dirname(page), path)) if path else page
            if not os.path.exists(there):
                yield '%s, line %d: %s is not there' % (page, number, link)
            elif anchor and anchor not in anchors_of(there):
                yield '%s, line %d: %s has no such heading' % (page, number, link)


def main():
    pages = list(pages_below(sys.argv[1]))
    wrong = [line for page in pages for line in wrong_links(page)]
    print('\n'.join(wrong) or '%d pages' % len(pages))
    sys.exit(bool(wrong))


main()
