#!/bin/sh
# Copies a journal that may be in use, and keeps the copy only where warn_main reads it as a whole
# journal.
#
# usage: backup.sh JOURNAL FOLDER          prints the name of the copy: FOLDER/NAME-20180103T153000Z.journal
#
# The journal is read alone, and no lock of it is taken: a copy from the beginning to the end, taken
# while a request is written, has the requests before it. The newest copies stay, KEEP of them (30
# where nothing is said). WARN_MAIN names the program where it is not on the path. Status: 0, or 1
# with one line that says what is wrong.
# In `a && b || c` the end is meant for both.
# shellcheck disable=SC2015
fail() {
  echo "backup.sh: $*" >&2
  exit 1
}
[ $# = 2 ] || fail "usage: backup.sh JOURNAL FOLDER"
journal=$1 folder=$2 program=${WARN_MAIN-warn_main} keep=${KEEP-30}
[ -s "$journal" ] && [ -f "$journal" ] && [ -r "$journal" ] || fail "$journal is no journal that can be read"
[ -d "$folder" ] && [ -w "$folder" ] || fail "$folder is no folder that can be written"
command -v "$program" > /dev/null || fail "$program is not there: put it on the path, or name it in WARN_MAIN"
case $keep in "" | *[!0-9]* | 0) fail "KEEP is $keep, and has to be a number above 0" ;; esac
name=${journal##*/}
name=${name%.journal}
exec 9> "$folder/.$name.lock" || exit 1
flock -n 9 || fail "another backup.sh is at work in $folder"

part=$folder/.$name.part
trap 'rm -f "$part"' EXIT
tries=0
until fault=$(cp "$journal" "$part" 2>&1) && "$program" "$part" export > /dev/null 2>&1; do
  tries=$((tries + 1))
  # Right after a disk fault a copy may catch a record that is half written.
  if [ "$tries" = 5 ]; then
    [ -n "$fault" ] || fault=$("$program" "$part" export 2> /dev/null | tail -1)
    fail "no whole copy of $journal in $tries tries: $fault"
  fi
  sleep 0.5
done
copy=$folder/$name-$(date -u +%Y%m%dT%H%M%SZ).journal
[ ! -e "$copy" ] || fail "$copy is there already"
sync "$part" && mv "$part" "$copy" && sync "$folder" || fail "$copy could not be written"
echo "$copy"

# The names are in the order of time, so the first ones are the oldest.
set -- "$folder/$name"-????????T??????Z.journal
while [ $# -gt "$keep" ]; do
  rm -f "$1"
  shift
done
