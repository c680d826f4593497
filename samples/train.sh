#!/bin/sh
# A training office over days, in a folder of its own: follow-ups, cancellations, corrections and
# upgrades can be trained, at any times, and each text that comes out of it is marked as a test.
#
#   train.sh FOLDER init SETTINGS        makes it from an office's own settings, in a folder that is
#                                        new or empty
#   train.sh FOLDER at STAMP < REQUESTS  answers requests (docs/REQUESTS.md) as at that minute, and
#                                        shows the new texts
#   train.sh FOLDER board STAMP          the live hazards at that minute
#   train.sh FOLDER texts                all texts
#   train.sh FOLDER serve PORT [STAMP]   serves it to desks on this machine, from now or from that
#                                        minute on, for 1,000 links
#
# Its settings differ from the office's: the headings are XXXX00, and the office line begins with
# TEST. `at` and `texts` also write class T in place of O, and test lines in each text: `train.sh
# FOLDER texts | warn_archive KLWX T STAMP` reads them. What `serve` answers has the heading and the
# office line alone. Neither mark is proved of; the program is the same.
#
# Needs faketime (apt-get install faketime) and python3; WARN_MAIN names the program where it is not
# on the path. Status: 0, or another with one line that says what is wrong.
# In `a && b || c` the end is meant for both.
# shellcheck disable=SC2015
fail() {
  echo "train.sh: $*" >&2
  exit 2
}
usage="usage: train.sh FOLDER init SETTINGS | at STAMP | board STAMP | texts | serve PORT [STAMP]"
[ $# -ge 2 ] || fail "$usage"
folder=$1 what=$2
shift 2
program=${WARN_MAIN-warn_main}
journal=$folder/training.journal
here=$(cd "$(dirname "$0")" && pwd)
for command in "$program" python3 faketime flock; do
  command -v "$command" > /dev/null || fail "$command is not there"
done

# The office's settings as those of its training office.
training_settings() {
  python3 - "$1" <<'PYTHON'
import json
import sys
import tomllib

try:
    with open(sys.argv[1], 'rb') as file:
        settings = tomllib.load(file)
    print('office = %s\nsite = %s' % (json.dumps(settings['office']), json.dumps(settings['site'])))
    print('office_line = %s' % json.dumps(('TEST ' + settings['office_line'])[:66].rstrip()))
    print('zone = %s\ndesks = %s\n[headings]' % (json.dumps(settings['zone']), json.dumps(settings['desks'])))
    for category in 'WSW NPW RFW CFW MWW FFA FLW FLS'.split():
        print('%s = "XXXX00"' % category)
    print('[zones]')
    for zone, name in settings['zones'].items():
        print('%s = %s' % (json.dumps(zone), json.dumps(name)))
except (OSError, ValueError, KeyError, TypeError, AttributeError) as error:
    print('train.sh: %s: %s' % (sys.argv[1], ' '.join(str(error).split())), file=sys.stderr)
    sys.exit(2)
PYTHON
}

# Texts as texts of a test: class T, a line at the head of each product, and one at the end of each
# segment.
as_tests() {
  awk '
    /^[A-Z][A-Z][A-Z][A-Z][0-9][0-9] [A-Z0-9]+ [0-9]+/ { head = 1 }
    /^\/O\.[A-Z]+\.[A-Z0-9]+\.[A-Z]+\./ { sub("^/O", "/T") }
    /^\$\$$/ { print "THIS IS A TEST MESSAGE. DO NOT TAKE ACTION BASED ON THIS MESSAGE.\n" }
    { print }
    head && / [AP]M [A-Z]+ [A-Z][a-z][a-z] [A-Z][a-z][a-z] [0-9]+ [0-9]+$/ {
      print "\n...THIS MESSAGE IS FOR TEST PURPOSES ONLY..."
      head = 0
    }'
}

# 180103T1530Z as faketime wants it.
time_of() {
  echo "$1" | grep -qx '[0-9]\{6\}T[0-9]\{4\}Z' || fail "$1 is no stamp: 180103T1530Z is one"
  plain=$(echo "$1" | sed 's/^\(..\)\(..\)\(..\)T\(..\)\(..\)Z$/20\1-\2-\3 \4:\5/')
  date -u -d "$plain" '+@%Y-%m-%d %H:%M:%S' 2> /dev/null || fail "$1 is no time"
}

# Time in an office never runs back.
not_back() {
  last=$(python3 "$here/journal.py" --sum "$journal" | sed -n 's/.*last entry \([0-9].*Z\)$/\1/p') || exit 2
  [ "$last" = "" ] || [ "$(printf '%s\n' "$last" "$1" | sort | head -1)" = "$last" ] \
    || fail "the training office is at $last already, and its time never runs back"
}

texts() {
  "$program" "$journal" export
}

if [ "$what" = init ]; then
  [ $# = 1 ] || fail "$usage"
  mkdir -p "$folder" || exit 2
  [ -z "$(ls -A "$folder")" ] || fail "$folder is not empty: a training office wants a folder of its own"
  training_settings "$1" > "$folder/settings.toml" || { rm -f "$folder/settings.toml"; exit 2; }
  told=$("$program" "$journal" init < "$folder/settings.toml") \
    || { rm -f "$journal" "$folder/settings.toml"; fail "$1: $(echo "$told" | tail -1)"; }
  echo "This folder holds a training office. None of its texts is a warning." > "$folder/TRAINING"
  echo ready
  exit 0
fi
[ -f "$folder/TRAINING" ] && [ -s "$journal" ] \
  || fail "$folder holds no training office: train.sh $folder init SETTINGS"
exec 9> "$journal.lock" || exit 2
case $what in
  board | texts) ;;
  *) flock -n 9 || fail "another program has the training office in $folder" ;;
esac
case $what in
  at)
    [ $# = 1 ] || fail "$usage"
    time=$(time_of "$1") || exit 2
    not_back "$1"
    before=$(texts | wc -c)
    TZ=UTC0 faketime -f "$time" "$program" "$journal" script
    status=$?
    texts | tail -c +$((before + 1)) | as_tests
    exit "$status"
    ;;
  board)
    [ $# = 1 ] || fail "$usage"
    time_of "$1" > /dev/null || exit 2
    "$program" "$journal" board --at "$1"
    ;;
  texts)
    [ $# = 0 ] || fail "$usage"
    texts | as_tests
    ;;
  serve)
    [ $# = 1 ] || [ $# = 2 ] || fail "$usage"
    case $1 in "" | *[!0-9]*) fail "$1 is no port" ;; esac
    [ "$1" != 8470 ] || fail "8470 is the port of a live office; take another, such as 8471"
    echo "a training office at http://127.0.0.1:$1; Ctrl-C ends it" >&2
    if [ $# = 2 ]; then
      time=$(time_of "$2") || exit 2
      not_back "$2"
      TZ=UTC0 exec faketime -f "$time" "$program" "$journal" serve --port "$1" --workers 8 --connections 1000
    fi
    exec "$program" "$journal" serve --port "$1" --workers 8 --connections 1000
    ;;
  *) fail "$usage" ;;
esac
