"""What the scripts over reports share: names of hazards and zones, times, and input line by line.

Hazards that the desk issues have the names of docs/HAZARDS.md; the others are the commonest that a
reader meets. Colours are those of the Weather Service's maps where it has one for the hazard, as
far as known.
"""
import os
import re
import sys
import tomllib

HAZARDS = {  # code: (name, colour)
    'WS.W': ('Winter Storm Warning', '#ff69b4'),
    'BZ.W': ('Blizzard Warning', '#ff4500'),
    'IS.W': ('Ice Storm Warning', '#8b008b'),
    'LE.W': ('Lake Effect Snow Warning', '#008b8b'),
    'WW.Y': ('Winter Weather Advisory', '#7b68ee'),
    'WS.A': ('Winter Storm Watch', '#4682b4'),
    'HW.W': ('High Wind Warning', '#daa520'),
    'WI.Y': ('Wind Advisory', '#d2b48c'),
    'HW.A': ('High Wind Watch', '#b8860b'),
    'FZ.W': ('Freeze Warning', '#483d8b'),
    'FR.Y': ('Frost Advisory', '#6495ed'),
    'FZ.A': ('Freeze Watch', '#00ffff'),
    'FG.Y': ('Dense Fog Advisory', '#708090'),
    'FW.W': ('Red Flag Warning', '#ff1493'),
    'FW.A': ('Fire Weather Watch', '#ffdead'),
    'CF.W': ('Coastal Flood Warning', '#228b22'),
    'CF.Y': ('Coastal Flood Advisory', '#7cfc00'),
    'CF.A': ('Coastal Flood Watch', '#66cdaa'),
    'SU.W': ('High Surf Warning', '#228b22'),
    'SU.Y': ('High Surf Advisory', '#ba55d3'),
    'SR.W': ('Storm Warning', '#9400d3'),
    'GL.W': ('Gale Warning', '#dda0dd'),
    'SC.Y': ('Small Craft Advisory', '#d8bfd8'),
    'SR.A': ('Storm Watch', '#ffe4b5'),
    'GL.A': ('Gale Watch', '#ffc0cb'),
    'FA.A': ('Flood Watch', '#2e8b57'),
    'FL.W': ('Flood Warning', '#00ff00'),
    'FL.Y': ('Flood Advisory', '#00ff7f'),
    'TO.A': ('Tornado Watch', '#ffff00'),
    'SV.A': ('Severe Thunderstorm Watch', '#db7093'),
    'TO.W': ('Tornado Warning', '#ff0000'),
    'SV.W': ('Severe Thunderstorm Warning', '#ffa500'),
    'FF.W': ('Flash Flood Warning', '#8b0000'),
    'FF.A': ('Flash Flood Watch', '#2e8b57'),
    'FA.W': ('Areal Flood Warning', '#00ff00'),
    'FA.Y': ('Areal Flood Advisory', '#00ff7f'),
    'MA.W': ('Special Marine Warning', '#ffa500'),
    'SQ.W': ('Snow Squall Warning', '#c71585'),
    'TR.W': ('Tropical Storm Warning', '#b22222'),
    'TR.A': ('Tropical Storm Watch', '#f08080'),
    'HU.W': ('Hurricane Warning', '#dc143c'),
    'HU.A': ('Hurricane Watch', '#ff00ff'),
    'WC.W': ('Wind Chill Warning', '#b0c4de'),
    'WC.Y': ('Wind Chill Advisory', '#afeeee'),
    'EH.W': ('Excessive Heat Warning', '#c71585'),
    'HT.Y': ('Heat Advisory', '#ff7f50'),
}
KINDS = {
    'W': ('Warning', '#c04040'),
    'A': ('Watch', '#c0a040'),
    'Y': ('Advisory', '#7070c0'),
    'S': ('Statement', '#909090'),
    'F': ('Forecast', '#909090'),
    'O': ('Outlook', '#909090'),
    'N': ('Synopsis', '#909090'),
}
ZONE = re.compile('[A-Z]{2}[CZ][0-9]{3}')
EVENT = re.compile(r'[A-Z]{2}\.[WAYSFON]\.[0-9]{4}\.20[0-9]{2}')
STAMP = re.compile('[0-9]{6}T[0-9]{4}Z')


def name_of_script():
    return os.path.basename(sys.argv[0])


def fail(text, status=1):
    """One line on standard error that says what is wrong, and the end."""
    print('%s: %s' % (name_of_script(), ' '.join(str(text).split())), file=sys.stderr)
    sys.exit(status)


def hazard_name(code):
    """The name of a hazard such as WS.W: of the table, or its letters and kind."""
    if code in HAZARDS:
        return HAZARDS[code][0]
    return '%s %s' % (code[:2], KINDS.get(code[3:4], ('', ''))[0])


def hazard_colour(code):
    return HAZARDS[code][1] if code in HAZARDS else KINDS.get(code[3:4], ('', '#909090'))[1]


def zone_names(settings):
    """The zones of an office's settings with their names; none where no file is named."""
    if not settings:
        return {}
    try:
        with open(settings, 'rb') as file:
            zones = tomllib.load(file).get('zones')
    except OSError as error:
        fail('%s: %s' % (settings, error.strerror))
    except ValueError as error:
        fail('%s: %s' % (settings, error))
    if not isinstance(zones, dict):
        fail('%s has no table [zones]' % settings)
    return zones


def iso(stamp):
    """180103T1530Z as 2018-01-03T15:30Z; zeros, which are no time, as None."""
    if stamp == '000000T0000Z':
        return None
    return '20%s-%s-%sT%s:%sZ' % (stamp[:2], stamp[2:4], stamp[4:6], stamp[7:9], stamp[9:11])


def lines_of(name):
    """The lines of a file, or of standard input where none is named, without their line ends.

    Where the input is a file and a person sits at a terminal, how far it has come is told there.
    """
    try:
        file = (
            open(name, encoding='ascii')
            if name
            else open(sys.stdin.fileno(), encoding='ascii', closefd=False)
        )
        size = (
            os.fstat(file.fileno()).st_size if os.path.isfile('/dev/fd/%d' % file.fileno()) else 0
        )
        shows = size > 1 << 20 and sys.stderr.isatty() and not sys.stdout.isatty()
        done = shown = 0
        with file:
            for line in file:
                done += len(line)
                if shows and done - shown > size // 100:
                    shown = done
                    print(
                        '\r%s: %d %%' % (name_of_script(), 100 * done // size),
                        end='',
                        file=sys.stderr,
                    )
                yield line.rstrip('\n')
        if shows:
            print('\r%s: 100 %%' % name_of_script(), file=sys.stderr)
    except OSError as error:
        fail('%s: %s' % (name or 'standard input', error.strerror))
    except UnicodeDecodeError:
        fail('%s is no report: it has bytes that no report has' % (name or 'standard input'))


def run(main):
    """Runs a script's main, which returns its status; a reader that went away (`| head`) is no
    fault."""
    try:
        status = main()
        sys.stdout.flush()
    except OSError as error:
        # What could not be written is not tried again at the end.
        os.dup2(os.open(os.devnull, os.O_WRONLY), sys.stdout.fileno())
        if not isinstance(error, BrokenPipeError):
            fail('standard output: %s' % error.strerror)
        status = 0
    except KeyboardInterrupt:
        status = 130
    sys.exit(status)


class Report:
    """The lines of warn_archive's report, parted: each as a kind and its values.

    product: number, identifier, issued, lines      fault: number, name, line
    life: event, zone, steps                        breach: number, event, zone, name
    gap: hazard, year, wanted, found                shown: at, rows
    row: zone, event, begin, end, flood             breaches: count
    ended: name (the program's own fault line, after which nothing comes)
    """

    FORMS = {
        'product': re.compile(r'product ([0-9]+) ([A-Z0-9]+) (%s) ([0-9]+)' % STAMP.pattern),
        'fault': re.compile(r'product ([0-9]+) fault ([A-Za-z]+)(?: ([0-9]+))?'),
        'life': re.compile(
            r'life (%s) (%s)((?: [A-Z]{3}@%s)+)' % (EVENT.pattern, ZONE.pattern, STAMP.pattern)
        ),
        'breach': re.compile(
            r'breach ([0-9]+) (%s) (%s) ([A-Za-z]+)' % (EVENT.pattern, ZONE.pattern)
        ),
        'gap': re.compile(r'gap ([A-Z]{2}\.[A-Z]) ([0-9]{4}) ([0-9]{4,5}) ([0-9]{4,5})'),
        'shown': re.compile(r'shown (%s) ([0-9]+)' % STAMP.pattern),
        'breaches': re.compile(r'breaches ([0-9]+)'),
        'row': re.compile(
            r'(%s) (%s) (%s)-(%s)(?: (/\S+/))?'
            % (ZONE.pattern, EVENT.pattern, STAMP.pattern, STAMP.pattern)
        ),
        'ended': re.compile(r'fault ([A-Za-z]+(?: .*)?)'),
    }

    @classmethod
    def part(cls, line):
        first = line.split(' ', 1)[0]
        kinds = (
            ('product', 'fault')
            if first == 'product'
            else ('ended',)
            if first == 'fault'
            else (first, 'row')
        )
        for kind in kinds:
            found = cls.FORMS[kind].fullmatch(line) if kind in cls.FORMS else None
            if found:
                return kind, found.groups()
        return None

    @classmethod
    def parted(cls, lines):
        """Each line of a report as kind and values; ends with a fault where the report is no whole
        one."""
        last = None
        for number, line in enumerate(lines, 1):
            parted = cls.part(line)
            if not parted or last == 'breaches':
                fail('line %d is no line of an archive\'s report: %.60s' % (number, line))
            last = parted[0]
            yield parted
            if last == 'ended':
                fail('the report ends with a fault: %s' % parted[1][0])
        if last != 'breaches':
            fail('the report is not whole: it does not end with a line `breaches`')
