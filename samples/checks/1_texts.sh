# shellcheck shell=sh disable=SC2012,SC2013,SC2015,SC2016,SC2086,SC2094,SC2154,SC2238,SC2317
# Checks of texts and reports: names, the real day, joining, tables, pictures, and the nation's
# archive.

# Every script is read whole by its interpreter, and answers --help where it has words.
check_scripts() {
  for file in "$here"/*.py "$here/watch_desk" "$here"/checks/*.py; do
    python3 -W error -c 'import sys
with open(sys.argv[1], encoding="utf-8") as file: compile(file.read(), sys.argv[1], "exec")' "$file" || say "$file"
  done
  for file in "$here"/*.sh "$here/check" "$here"/checks/*.sh "$top"/*.sh; do sh -n "$file" || say "$file"; done
  if command -v shellcheck > /dev/null; then
    (cd "$top" && shellcheck .ci/run warn ./*.sh samples/*.sh samples/check samples/check_front samples/checks/*.sh) \
      || say "shellcheck"
  fi
  for file in desk join_texts report_json board_json statistics_csv lives_svg follow journal settings_of; do
    py $file.py --help | grep -q "$file.py" || say "$file.py --help"
    bad py $file.py --no-such-word
  done
  for file in "$here"/*; do
    name=${file##*/}
    grep -q "$name" "$here/README.md" || say "samples/README.md does not name $name"
  done
}

# Every relative link of a page leads to a file, and to a heading where it names one.
check_links() {
  python3 "$here/checks/links.py" "$top" || exit 1
}

# The table of names is that of docs/HAZARDS.md.
check_names() {
  sed -n 's/^| `\([A-Z][A-Z]\.[A-Z]\)` | \([A-Za-z ]*\) | .*/\1 \2/p' "$top/docs/HAZARDS.md" | sort > page
  [ "$(wc -l < page)" = 28 ] || say "docs/HAZARDS.md has $(wc -l < page) hazards, not 28"
  PYTHONPATH=$here python3 -c 'import reports
for code, (name, _) in reports.HAZARDS.items(): print(code, name)' | sort > table
  comm -23 page table > lacks
  [ ! -s lacks ] || say "reports.py has another name: $(cat lacks)"
}

# The day of real-looking texts: what join_texts.py tells of it, and the report beside it.
check_real() {
  cp -r "$here/real/texts" .
  py join_texts.py --office KLWX texts > archive.txt 2> told || say "$(cat told)"
  awk '/^```/ { inside = !inside; shown = inside && $0 == "```"; next } shown' "$here/real/README.md" > page
  same page told
  status 3 warn_archive KLWX O 180308T0400Z < archive.txt > report.txt
  same "$here/real/report.txt" report.txt
  # The board of an earlier minute: the texts up to it, as docs/ARCHIVE.md has it.
  at=180306T2055Z
  last=$(awk -v at=$at '$1 == "product" && $4 <= at { k = $2 } END { print k }' report.txt)
  awk -v last="$last" '/^[A-Z]+[0-9][0-9] KLWX [0-9]+/ { n++ } n <= last' archive.txt > earlier.txt
  status 3 warn_archive KLWX O $at < earlier.txt > earlier
  grep -q "^shown $at 9$" earlier || say "$(grep shown earlier)"
  # As the same page says, what join_texts.py leaves out makes the difference.
  cat texts/*.txt | warn_archive KLWX O 180308T0400Z | tail -1 > plain
  [ "$(cat plain)" = "breaches 20" ] || say "without join_texts.py: $(cat plain)"
}

text() {
  printf '%s\n%s\n\n%s EST Wed Jan %s\n\n%s\n%s\n\n$$\n' "$1" "$2" "$3" "$4" "$5" "$6"
}

check_joining() {
  mkdir wire
  new=/O.NEW.KLWX.WS.W.0001.180103T1530Z-180104T0000Z/
  end=/O.CAN.KLWX.WS.W.0001.000000T0000Z-180104T0000Z/
  text "WWUS41 KLWX 031530" WSWLWX "1030 AM" "3 2018" MDZ003-032330- $new > first
  text "WWUS41 KLWX 031800" WSWLWX "100 PM" "3 2018" MDZ003-031900- $end > second
  cat first second > wanted
  # The order of names is not that of time; no last line end; CR CR LF; a repeat before its
  # original; blanks in the heading.
  printf '%s' "$(cat first)" > wire/b
  sed 's/$/\r\r/' second > wire/a
  sed 's/031530/031530 RRA/' first > wire/A
  sed 's/WWUS41 KLWX 031800/ WWUS41  KLWX 031800 /' second > wire/z
  printf 'no text\n' > wire/none
  py join_texts.py wire > joined 2> told || say "$(cat told)"
  tr -s '\n' < joined > joined.lines
  tr -s '\n' < wanted > wanted.lines
  same wanted.lines joined.lines
  grep -q 'texts kept: 2, offices: 1, left out: 3, no heading in the file: 1, there already: 2' told || say "$(cat told)"
  status 0 warn_archive KLWX O 180103T1900Z < joined > report
  # The same from standard input, in one stream.
  for file in wire/a wire/A wire/b; do cat $file; echo; done | py join_texts.py - 2> told > piped || say "$(cat told)"
  same joined piped
  # A year's turn: December comes before January.
  text "WWUS41 KLWX 312330" WSWLWX "630 PM" "31 2017" MDZ004-010500- /O.NEW.KLWX.WS.W.0009.171231T2330Z-180101T0500Z/ \
    | sed 's/Wed Jan 31/Sun Dec 31/' > december
  py join_texts.py first december 2> /dev/null | grep WWUS41 > order
  printf 'WWUS41 KLWX 312330\nWWUS41 KLWX 031530\n' | cmp -s - order || say "$(cat order)"
  # A text without its time line is dated by its heading, near the one before it.
  sed 's/.*EST.*//' second > undated
  cat first undated > mixed
  text "WWUS41 KLWX 031900" WSWLWX "200 PM" "3 2018" MDZ005-032330- /O.NEW.KLWX.WS.W.0002.180103T1900Z-180104T0000Z/ > third
  py join_texts.py third mixed 2> /dev/null | grep WWUS41 > order
  printf 'WWUS41 KLWX 031530\nWWUS41 KLWX 031800\nWWUS41 KLWX 031900\n' | cmp -s - order || say "$(cat order)"
  # What can't be done: one line, and nothing written.
  bad py join_texts.py
  bad py join_texts.py nowhere
  bad py join_texts.py --office LWX first
  mkdir full && echo x > full/KLWX.txt
  bad py join_texts.py --into full first
  echo x | cmp -s - full/KLWX.txt || say "a file of an earlier run was changed"
  status 1 py join_texts.py wire/none 2> told
  py join_texts.py --left left wire > /dev/null 2> told || say "$(cat told)"
  [ "$(wc -l < left)" = 3 ] && [ "$(wc -l < told)" = 1 ] || say "--left: $(cat told left)"
}

# The tables: every line of a report as an object, sums that are those of the output, and no half
# inputs.
check_reports() {
  status 3 warn_archive KLWX O 180103T1900Z < "$here/archive.txt" > report
  py report_json.py --settings "$here/office.toml" report > json || say "report_json.py"
  [ "$(wc -l < json)" = "$(wc -l < report)" ] || say "not a line each"
  python3 "$here/checks/tables.py" json || say "tables.py"
  py report_json.py < report > piped && py report_json.py report | cmp -s - piped || say "a pipe differs"
  warn_stats KLWX O 180103T2200Z < "$here/statistics.txt" > statistics || say "warn_stats"
  py statistics_csv.py --settings "$here/office.toml" statistics > csv || say "statistics_csv.py"
  cat > wanted <<'CSV'
kind,code,name,events,openings,lead_minutes,mean_lead_minutes,minutes_in_effect
hazard,WS.W,Winter Storm Warning,1,2,300,150.0,300
hazard,WW.Y,Winter Weather Advisory,1,1,0,0.0,120
zone,MDZ003,Washington,,2,,,360
zone,MDZ004,Frederick,,1,,,60
total,,,,3,,,420
faults,,products that can not be read,1,,,,
CSV
  same wanted csv
  sed -n '/^shown/,/^breaches/p' report | sed '1d; $d' > board
  py board_json.py board > rows || say "board_json.py"
  printf '%s\n' '{"zone": "MDZ003", "event": "WS.W.0001.2018", "hazard": "WS.W", "hazard_name": "Winter Storm Warning", "number": 1, "year": 2018, "begin": "2018-01-03T15:30Z", "end": "2018-01-04T00:00Z"}' \
    '{"zone": "MDZ004", "event": "WS.W.0001.2018", "hazard": "WS.W", "hazard_name": "Winter Storm Warning", "number": 1, "year": 2018, "begin": "2018-01-03T15:30Z", "end": "2018-01-04T00:00Z"}' > wanted
  same wanted rows
  sed '$d' report > cut
  printf '\377\376\n' > bytes
  (cat report; echo more) > longer
  warn_archive KLWX > usage || true
  for script in report_json statistics_csv board_json lives_svg; do
    for input in cut bytes longer usage nowhere; do
      case $script-$input in board_json-cut) continue ;; esac
      bad py $script.py $input
    done
    bad py $script.py --settings nowhere report
    bad py $script.py --settings report report
    case $script in board_json) ;; *) bad py $script.py /dev/null ;; esac
  done
  for script in report_json lives_svg; do
    py $script.py report > /dev/full 2> told && say "a full disk is no fault"
    [ "$(wc -l < told)" = 1 ] || say "$(cat told)"
  done
  py statistics_csv.py statistics > /dev/full 2> told && say "a full disk is no fault"
  py report_json.py report | head -1 > /dev/null
}

# The pictures are XML with a bar for each spell and a mark for each line against the texts, and
# tell how far they are.
check_pictures() {
  (cd "$here/real" && py join_texts.py --office KLWX texts) > archive.txt 2> told
  status 3 warn_archive KLWX O 000101T0000Z < archive.txt > report
  py lives_svg.py --settings "$here/office.toml" report > lives.svg || say "lives_svg.py"
  python3 "$here/checks/pictures.py" lives.svg report || say "pictures.py"
  warn_stats KLWX O 180308T1200Z < archive.txt > statistics
  py lives_svg.py statistics > statistics.svg || say "lives_svg.py of statistics"
  python3 "$here/checks/pictures.py" statistics.svg statistics || say "pictures.py"
  py lives_svg.py --hazards SV.W --zones VAC report > some.svg || say "a part"
  [ "$(grep -c 'SV.W.0012.2018 Severe' some.svg)" = 2 ] || say "a part"
  : | warn_archive KLWX O 180308T0400Z > empty
  py lives_svg.py empty > empty.svg || say "an empty report"
  awk 'BEGIN { for (i = 1; i < 40000; i++) print "product " i " WSWLWX 180306T1012Z 0"; print "shown 180308T0400Z 0\nbreaches 0" }' > long
  script -qec "python3 '$here/lives_svg.py' long > long.svg" /dev/null > typescript
  grep -q '100 %' typescript || say "no progress line"
}

# A nation's archive: the texts of a hundred offices over ten years in one stream, and one
# warn_archive an office, side by side.
check_nation() {
  python3 "$here/checks/nation.py" "$here/real/texts" 100 10 > stream || say "nation.py"
  py join_texts.py --into nation - < stream 2> told || say "$(cat told)"
  grep -q 'texts kept: 15010, offices: 101,' told || say "$(cat told)"
  rm nation/KRNK.txt
  mkdir reports
  ls nation | sed 's/\.txt$//' \
    | xargs -P "$(nproc)" -I{} sh -c 'warn_archive {} O 180308T0400Z < nation/{}.txt > reports/{}.txt || [ $? = 3 ]' || say "xargs"
  [ "$(ls reports | wc -l)" = 100 ] || say "$(ls reports | wc -l) reports"
  [ "$(tail -1 reports/KA00.txt)" = "breaches 90" ] || say "$(tail -1 reports/KA00.txt)"
  for office in KA01 KA57 KA99; do
    sed "s/${office#K}/A00/" reports/$office.txt | cmp -s - reports/KA00.txt || say "$office differs from KA00"
  done
  # The last of the ten years is the report that stands beside the texts, but for the ends of the
  # years before it.
  grep '^life .*2018 ' reports/KA00.txt > last
  grep '^life ' "$here/real/report.txt" > wanted
  same wanted last
}
