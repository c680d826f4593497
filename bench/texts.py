"""Measures product texts, outside the gate: one event in 6 and in 600 zones, with four bullets of 1,024 to 16,384 bytes.
Seconds are of processor time; those of a run that makes the text once are taken off.

    python3 bench/texts.py [COUNT]      how often each text is made, 300 where it is not given
"""
import os
import sys
import tempfile

from measure import kilobytes, program, run

HEADINGS = "".join('%s = "WWUS41"\\n' % name for name in "WSW NPW RFW CFW MWW FFA FLW FLS".split())
LINE = "NEW WS.W.0001.2018 180103T1530Z 180104T0000Z Eastern 180103T1530Z"
count = int(sys.argv[1]) if len(sys.argv) > 1 else 300


def script(path, times, zones, size):
    """A line that makes the text so often, and then tells its length."""
    names = "".join('MDZ%03d = "Northern Baltimore"\\n' % zone for zone in range(1, zones + 1))
    settings = ('office = "KLWX"\\nsite = "LWX"\\noffice_line = "Office"\\nzone = "Eastern"\\ndesks = ["A"]\\n[headings]\\n%s[zones]\\n%s'
                % (HEADINGS, names))
    texts = "|".join("%d*Heavy snow and wind. " % (size // 21) for _ in range(4))
    with open(path, "w") as out:
        out.write("rows of texts\nproduct %d Two O WSW - - %s|MDZ001>%03d-032330-|%s|%s\n" % (times, LINE, zones, texts, settings))


with tempfile.TemporaryDirectory() as folder:
    path = os.path.join(folder, "script")
    for zones in (6, 600):
        for size in (1024, 4096, 16384):
            script(path, 1, zones, size)
            once = run([program("worked_codes")], path)[0]
            script(path, count + 1, zones, size)
            seconds, _, memory, status = run([program("worked_codes")], path)
            each = max(seconds - once, 0.001) / count
            print("%d zones, four bullets of %d bytes: %.0f texts/s, %.2f ms each, peak %s, status %d"
                  % (zones, size, 1 / each, each * 1000, kilobytes(memory), status))
