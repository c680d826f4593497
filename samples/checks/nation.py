"""A nation's archive in one stream: nation.py TEXTS OFFICES YEARS.

The texts of the folder as those of the offices KA00, KA01, .. in YEARS years up to 2018, file by
file of one office after the other, so that neither times nor offices stand together. The text of
KRNK stays as it is, in each copy.
"""
import os
import re
import sys

folder, offices, years = sys.argv[1], int(sys.argv[2]), int(sys.argv[3])
texts = []
for name in sorted(os.listdir(folder)):
    with open(os.path.join(folder, name), 'rb') as file:
        texts.append(file.read() + b'\n')
for text in texts:
    for year in range(2018, 2018 - years, -1):
        dated = re.sub(
            rb'18(030[0-9]T)',
            rb'%02d\1' % (year - 2000),
            text.replace(b'Mar 6 2018', b'Mar 6 %d' % year)
            .replace(b'Mar 7 2018', b'Mar 7 %d' % year)
            .replace(b'MAR 6 2018', b'MAR 6 %d' % year)
            .replace(b'MAR 7 2018', b'MAR 7 %d' % year),
        )
        for office in range(offices):
            code = b'A%02d' % office
            sys.stdout.buffer.write(
                dated.replace(b'KLWX', b'K' + code)
                .replace(b'LWX\n', code + b'\n')
                .replace(b'LWX\r', code + b'\r')
            )
