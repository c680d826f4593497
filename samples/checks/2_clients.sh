# shellcheck shell=sh disable=SC2012,SC2013,SC2015,SC2016,SC2086,SC2094,SC2154,SC2238,SC2317
# Checks of what speaks to an office: the client, the follower, copies, the watch, training, the
# demos.

desk() {
  py desk.py --at "$(at)" --state state --patience 20 "$@"
}

# The texts of a journal that is in use, read from a copy.
texts_of() {
  cp "$1" copy.journal && warn_main copy.journal export
}

check_client() {
  port=$(free_port)
  bad desk --patience 0.5 board
  start_office office.journal
  [ "$(desk next)" = 1 ] || say "a desk that has sent nothing has the number 1"
  desk issue WS.W MDZ003 MDZ004 --end 8h --what 'Heavy snow.' > reply || say "issue"
  grep -q '^{"events":\["WS.W.0001.20..\"],"ok":"send","product":1,"time":"[0-9T]*Z"}$' reply || say "$(cat reply)"
  desk board > board
  curl -s "$(at)/board" | cmp -s - board || say "another board than curl's"
  desk board --json | grep -q '"zone": "MDZ003", "event": "WS.W.0001.' || say "board --json"
  desk products 1 > text
  curl -s "$(at)/products/1" | cmp -s - text || say "another text than curl's"
  # A refusal is told as the office wrote it, has status 1, and uses no number.
  status 1 desk issue WW.Y MDZ003 --end 8h > reply 2> told
  grep -q '"no":"L12"' reply && grep -q 'refused L12 Conflict' told || say "$(cat reply told)"
  [ "$(desk next)" = 2 ] || say "a refusal used a number"
  printf '%s\n' '{"do":"open","category":"NPW"}' \
    '{"do":"put","draft":1,"hazard":"WI.Y","zones":["MDZ005"],"begin":"now","end":"'"$(later)"'"}' > requests
  desk requests requests > replies || say "requests"
  desk draft 1 | grep -q '"owner": "A"' || say "draft"
  desk preview 1 | grep -q 'WI.Y.0001' || say "preview"
  echo '{"do":"send","draft":1}' >> requests
  desk requests requests > replies || say "requests, a line more"
  [ "$(wc -l < replies)" = 1 ] && [ "$(wc -l < requests.replies)" = 3 ] || say "a line was asked again"
  # Another program has used the desk's numbers: the next one is asked for again.
  curl -s -d '{"desk":"A","seq":5,"do":"open","category":"WSW"}' "$(at)/requests" | grep -q '"ok":"open"' || say "curl"
  desk issue FG.Y MDZ006 --end 2h > reply || say "after another's number"
  [ "$(desk products | grep -c '^WWUS')" = 3 ] || say "products"
  desk follow --every 0.2 > followed &
  follower=$!
  tries=0
  until [ "$(grep -c '^WWUS' followed)" = 3 ]; do
    tries=$((tries + 1))
    [ $tries -lt 200 ] || say "follow"
    sleep 0.1
  done
  end_tree $follower
  # What it can't do.
  before=$(cksum < office.journal)
  bad desk issue WS.W MDZ003
  bad desk issue WS.W MDZ003 --end soon
  bad desk --desk a next
  bad desk --at ftp://x board
  bad desk requests nowhere
  printf '{"do":"open",\n' > broken
  bad desk requests broken
  printf '{"do":"open","desk":"B","category":"WSW"}\n' > named
  bad desk requests named
  bad desk products 99
  bad desk draft 99
  bad desk --desk Z issue WS.W MDZ003 --end 8h
  mkdir empty
  other=$(free_port)
  python3 -m http.server "$other" --bind 127.0.0.1 --directory empty > other.log 2>&1 &
  pids="$pids $!"
  await "http://127.0.0.1:$other/"
  bad py desk.py --at "http://127.0.0.1:$other" --state other-state issue WS.W MDZ003 --end 8h
  bad py desk.py --at "http://127.0.0.1:$other" --state other-state board
  [ "$before" = "$(cksum < office.journal)" ] || say "what was wrong changed the journal"
  # A saved request of which nobody can say what became: told, kept, and given up by a person alone.
  saved 2 "$(date +%s)"
  desk issue FG.Y MDZ003 --end 2h > /dev/null 2> told
  [ $? = 4 ] && tail -1 told | grep -q 'the last number that the office knows is 6:' || say "unsure: $(cat told)"
  desk forget | grep -q '"seq": 2' || say "forget"
  [ "$(desk next)" = 7 ] || say "forget changed a number"
  # An old one that was never accepted is not sent any more; a fresh one is.
  saved 7 1000
  desk issue FG.Y MDZ003 --end 2h > reply 2> told || say "behind an old request: $(cat told)"
  grep -q 'was never accepted: it is given up' told && [ "$(desk next)" = 8 ] || say "an old request was sent: $(cat told)"
  saved 8 "$(date +%s)"
  desk issue FG.Y MDZ004 --end 2h > reply 2> told || say "behind a fresh request: $(cat told)"
  [ "$(desk next)" = 10 ] || say "a fresh request was not sent: $(cat told)"
  # Killed when the office had answered, and another command before it is started again: the line is
  # not asked again.
  printf '{"do":"open","category":"WSW"}\n' > between
  desk requests between > replies
  sed -i 's/"done": true/"done": false/' state/*_A.json
  rm between.replies
  desk issue FG.Y MDZ005 --end 2h > reply || say "between"
  desk requests between | cmp -s - replies || say "a line was asked twice"
  [ "$(desk next)" = 12 ] || say "a line was asked twice: $(desk next)"
}

# A request of desk A as a killed client leaves it: its number, and when it was saved.
saved() {
  cat > state/127.0.0.1_"$port"_A.json <<SAVED
{"key": 1, "at": $2, "seq": $1, "body": "{\"desk\": \"A\", \"seq\": $1, \"do\": \"open\", \"category\": \"WSW\"}", "reply": null, "done": false}
SAVED
}

# What no clause can say of real links: that bytes come in pieces, at which address is listened, how
# many workers wait, and what a port that is taken, or closed, makes of a run.
check_edges() {
  port=$(free_port)
  sed 's/^desks = .*/desks = ["EDGE"]/' "$here/office.toml" | warn_main edge.journal init > told || say "no office: $(cat told)"
  start_office edge.journal 3 40
  python3 "$here/checks/edges.py" "$port" pieces || say "a call in pieces"
  python3 "$here/checks/edges.py" "$port" 3 || say "three workers"
  # Only this machine's own address is listened at.
  for address in 127.0.0.2 $(hostname -I 2> /dev/null | tr ' ' '\n' | grep '^[0-9.]*$'); do
    curl -s -o answer --max-time 5 "http://$address:$port/board"
    case $? in 7 | 28) ;; *) say "somebody listens at $address" ;; esac
  done
  # The port is taken, and the file is another program's: a fault of each, and nothing is served.
  status 9 warn_main edge.journal serve --port "$(free_port)" --workers 1 --connections 1 > taken
  grep -qx 'fault DiskFault' taken || say "$(cat taken)"
  sed 's/^desks = .*/desks = ["EDGE"]/' "$here/office.toml" | warn_main other.journal init > told
  status 10 warn_main other.journal serve --port "$port" --workers 2 --connections 1 > taken
  grep -qx 'fault PortFault' taken || say "$(cat taken)"
  # Nobody listens: each dial takes a round.
  closed=$(free_port)
  status 15 warn_follow KLWX O "$(date -u +%y%m%dT%H%MZ)" "$closed" 3 > told
  [ "$(sed -n 1p told)" = 'place 0' ] && [ "$(sed -n '$p' told)" = 'fault RoundsSpent' ] || say "$(cat told)"
}

# Requests posted by a client that is killed at any moment, to an office that is killed too, over a
# link that is cut: each once.
check_once() {
  port=$(free_port)
  python3 "$here/checks/once.py" "$here" "$port" "$(free_port)" 40 > told 2>&1 || say "$(tail -30 told)"
  cat told
}

check_following() {
  port=$(free_port)
  start_office office.journal
  for zone in MDZ003 MDZ004 MDZ005 MDZ006; do desk issue WS.W $zone --end 8h > /dev/null || say "issue"; done
  cat > hook <<'HOOK'
#!/bin/sh
[ ! -e refuse ] || exit 1
echo "$1" >> hooked
HOOK
  chmod +x hook
  follow() {
    py follow.py --at "$(at)" --patience "${patience-20}" --once place texts "$@"
  }
  touch refuse
  status 5 follow ./hook 2> told
  [ ! -e place ] || say "the place went on without the hook"
  rm refuse
  follow ./hook || say "follow.py"
  [ "$(cat place)" = 4 ] && [ "$(wc -l < hooked)" = 4 ] || say "$(cat place hooked)"
  texts_of office.journal > export
  cat texts/*.txt | cmp -s - export || say "the folder has other texts"
  # Killed at any moment, and started again: no text is missed.
  desk --desk B issue FG.Y MDZ003 MDZ004 --end 2h > /dev/null
  rm -r texts place hooked
  for wait in 0.05 0.1 0.15 0.2 0.25 0.3 30; do
    timeout -s KILL $wait python3 "$here/follow.py" --at "$(at)" --once place texts ./hook
  done > told 2>&1
  [ "$(cat place)" = 5 ] && [ "$(sort -u hooked | wc -l)" = 5 ] || say "after kills: $(cat place)"
  texts_of office.journal > export
  cat texts/*.txt | cmp -s - export || say "after kills the folder has other texts"
  kill "$office"
  wait "$office" 2> /dev/null
  patience=1
  bad follow
  patience=20
  rm office.journal
  start_office office.journal
  status 4 follow 2> told
  grep -q 'another journal' told || say "$(cat told)"
  echo x > place
  bad follow
  bad py follow.py place
}

check_journals() {
  port=$(free_port)
  start_office office.journal
  desk issue WS.W MDZ003 --end 8h --what 'Snow with "do":"issue" in it' > /dev/null || say "issue"
  desk --desk B issue FL.W MDC021 --end ufn --flood FDKM2.2.ER.000000T0000Z.000000T0000Z.000000T0000Z.NO > /dev/null || say "flood"
  before=$(cksum < office.journal)
  py journal.py office.journal > listed || say "journal.py"
  [ "$(grep -c '^[0-9]*: [0-9T]*Z {' listed)" = 2 ] || say "$(cat listed)"
  tail -1 listed | grep -q "^products 2 of 8192, bytes $(wc -c < office.journal) of 268435456$" || say "$(tail -1 listed)"
  py journal.py --texts office.journal | grep -v '^[0-9]*: \|^office \|^products ' > texts
  texts_of office.journal | cmp -s - texts || say "other texts than export's"
  # Where it says damaged, and at which byte, the program says so too.
  for size in 300 440 460 900; do
    head -c $size office.journal > cut
    py journal.py cut > /dev/null 2> told && say "$size bytes are a journal"
    wanted=$(warn_main cut export | tail -1)
    grep -q "damaged at byte ${wanted##* }:" told || say "$size bytes: $(cat told), and the program: $wanted"
    bad py journal.py cut
  done
  bad py journal.py office.toml
  bad py journal.py /dev/null
  bad py journal.py nowhere
  [ ! -e nowhere ] && [ "$before" = "$(cksum < office.journal)" ] || say "a file was made or changed"
}

check_backups() {
  port=$(free_port)
  start_office office.journal
  mkdir copies
  # Copies taken while requests are written: each is whole, and begins as the journal does.
  for number in 1 2 3 4 5 6 7 8 9 10 11 12; do
    echo '{"do":"open","category":"WSW"}'
    echo '{"do":"discard","draft":'$number'}'
  done > requests
  desk requests requests > /dev/null 2>&1 &
  writer=$!
  copies=0
  while kill -0 $writer 2> /dev/null && [ $copies -lt 6 ]; do
    sh "$here/backup.sh" office.journal copies > name || say "backup.sh"
    copies=$((copies + 1))
    sleep 1
  done
  wait $writer || say "the writer"
  [ "$copies" -gt 0 ] || say "no copy"
  for copy in copies/*.journal; do
    warn_main "$copy" export > /dev/null || say "$copy is no journal"
    end=$(py journal.py --sum "$copy" | sed -n 's/^\([0-9]*\): closed.*/\1/p')
    cmp -s -n "$end" "$copy" office.journal || say "$copy does not begin as the journal"
  done
  sleep 1
  KEEP=1 sh "$here/backup.sh" office.journal copies > name || say "backup.sh"
  [ "$(ls copies)" = "$(basename "$(cat name)")" ] || say "KEEP: $(ls copies)"
  before=$(ls -l copies)
  bad sh "$here/backup.sh"
  bad sh "$here/backup.sh" nowhere copies
  bad sh "$here/backup.sh" office.journal nowhere
  bad env KEEP=none sh "$here/backup.sh" office.journal copies
  bad env WARN_MAIN=no_such_program sh "$here/backup.sh" office.journal copies
  head -c 600 office.journal > damaged
  bad sh "$here/backup.sh" damaged copies
  [ "$before" = "$(ls -l copies)" ] && [ ! -e nowhere ] || say "a copy was made of what is none"
}

check_watching() {
  port=$(free_port)
  start_office office.journal
  watch() {
    python3 "$here/watch_desk" --at "$(at)" --patience "${patience-20}" --slow 30 "$@" > said
  }
  desk issue WS.W MDZ003 --end 8h > /dev/null || say "issue"
  status 0 watch office.journal
  grep -q '^OK: board of 1 rows .*; 1 products of 8192; journal of [0-9]* bytes .* | .*products=1;' said || say "$(cat said)"
  mkdir copies
  status 1 watch --backups copies office.journal
  sh "$here/backup.sh" office.journal copies > name
  status 0 watch --backups copies office.journal
  touch -d '2 days ago' "$(cat name)"
  status 1 watch --backups copies office.journal
  head -c 600 office.journal > damaged
  status 2 watch damaged
  status 2 watch nowhere
  status 3 watch --no-such-word
  # An office whose clock was ahead.
  warn_main ahead.journal init < "$here/office.toml" > told
  echo '{"desk":"A","seq":1,"do":"open","category":"WSW"}' | faketime -f '+3h' warn_main ahead.journal script > told || say "faketime"
  status 2 watch ahead.journal
  grep -q 'minutes ahead of the clock' said || say "$(cat said)"
  kill "$office"
  wait "$office" 2> /dev/null
  patience=1
  status 2 watch
  grep -q '^CRITICAL: the board does not answer' said || say "$(cat said)"
}

check_settings() {
  py settings_of.py KLWX --like "$here/office.toml" < "$here/zones.dbx" > settings.toml || say "settings_of.py"
  [ "$(warn_main - init < settings.toml)" = ready ] || say "not accepted"
  for zone in MDZ003 VAC069 DCZ001; do grep -q "^$zone = " settings.toml || say "no $zone"; done
  grep -q RNK settings.toml && say "a zone of another office"
  py settings_of.py KMFL --like "$here/office.toml" < "$here/zones.dbx" > miami.toml 2> told || say "KMFL"
  grep -q "FLC086: 'Miami-Dade' is written 'Miami Dade'" told || say "$(cat told)"
  [ "$(warn_main - init < miami.toml)" = ready ] || say "not accepted"
  # Without --like the program names what lacks, so that nothing is begun by mistake.
  py settings_of.py KLWX < "$here/zones.dbx" > bare.toml
  [ "$(warn_main - init < bare.toml)" = "fault SettingsRefused Missing office_line" ] || say "bare settings"
  bad py settings_of.py KXXX < "$here/zones.dbx"
  bad py settings_of.py LWX < "$here/zones.dbx"
  bad py settings_of.py KLWX < "$here/office.toml"
  bad py settings_of.py KLWX --like nowhere < "$here/zones.dbx"
  for like in 'desks = 3' 'office_line = 3' 'headings = 3' 'desks = ['; do
    echo "$like" > like.toml
    bad py settings_of.py KLWX --like like.toml < "$here/zones.dbx"
  done
}

train() {
  sh "$here/train.sh" course "$@"
}

check_training() {
  [ "$(train init "$here/office.toml")" = ready ] || say "init"
  train at 180103T1530Z > first <<'LINES' || say "at"
{"desk":"A","seq":1,"do":"issue","hazard":"WS.A","zones":["MDZ003","MDZ004"],"begin":"180104T0600Z","end":"180104T2300Z"}
LINES
  train at 180104T0300Z > second <<'LINES' || say "at, the next day"
{"desk":"A","seq":2,"do":"open","category":"WSW"}
{"desk":"A","seq":3,"do":"put","draft":1,"hazard":"WS.W","zones":["MDZ003"],"begin":"180104T0600Z","end":"180104T2300Z","texts":{"what":"Heavy snow."}}
{"desk":"A","seq":4,"do":"end","draft":1,"event":"WS.A.0001.2018","zones":["MDZ003","MDZ004"]}
{"desk":"A","seq":5,"do":"send","draft":1}
{"desk":"A","seq":6,"do":"correct","product":2,"texts":[{"event":"WS.W.0001.2018","texts":{"what":"Snow."}}]}
LINES
  grep -q '^/T.UPG.KLWX.WS.A.0001' second && grep -q '^/T.COR.KLWX.WS.W.0001' second || say "$(cat second)"
  train texts > texts
  ! grep -q '^/O\.' texts || say "a text of class O"
  [ "$(grep -c 'FOR TEST PURPOSES ONLY' texts)" = 3 ] || say "not every text is marked"
  [ "$(grep -c '^TEST National' texts)" = 3 ] && [ "$(grep -c '^XXXX00 KLWX' texts)" = 3 ] || say "heading or office line"
  grep -c '^\$\$$' texts > ends
  grep -c 'THIS IS A TEST MESSAGE' texts | cmp -s - ends || say "not every segment is marked"
  status 0 warn_archive KLWX T 180104T1200Z < texts > report
  train board 180104T1200Z > board
  sed -n '/^shown/,/^breaches/p' report | sed '1d; $d' | cmp -s - board || say "a reader finds another board"
  bad train at 180103T1700Z < /dev/null
  bad train at 1801T1700Z < /dev/null
  bad train init "$here/office.toml"
  bad train serve 8470
  bad train
  bad sh "$here/train.sh" . texts
  mkdir mine
  warn_main mine/training.journal init < "$here/office.toml" > told
  bad sh "$here/train.sh" mine texts
  bad sh "$here/train.sh" other init nowhere
  port=$(free_port)
  train serve "$port" 180104T1230Z > served 2>&1 &
  pids="$pids $!"
  await "$(at)/board"
  curl -s "$(at)/board" | cmp -s - board || say "the served board is another"
  bad train at 180104T1300Z < /dev/null
}

check_demos() {
  port=$(free_port)
  export WARN_PROGRAMS="$work/bin"
  sh "$top/demo.sh" > told || say "demo.sh"
  grep -q '"product":2,' told && grep -q 'Monocacy' told || say "$(tail -3 told)"
  sh "$top/archive_demo.sh" > told || say "archive_demo.sh"
  grep -q '^breaches 3$' told || say "$(tail -3 told)"
  sh "$top/notice_demo.sh" > told || say "notice_demo.sh"
  grep -q '^/O.EXP.KLWX.TO.A.0123' told || say "$(tail -3 told)"
  sh "$top/serve_demo.sh" "$port" > told || say "serve_demo.sh"
  [ "$(tail -1 told)" = "requests 1 products 1" ] || say "$(tail -3 told)"
  # Beside a live office: it refuses the port, and the office is as it was.
  start_office office.journal
  before=$(cksum < office.journal)
  bad sh "$top/serve_demo.sh" "$port"
  grep -q 'serve_demo.sh 8480' bad.err || say "$(cat bad.err)"
  bad sh "$top/serve_demo.sh" x
  for demo in demo archive_demo notice_demo; do bad sh "$top/$demo.sh" what; done
  # A build that fails leaves nothing behind that waits for a server.
  unset WARN_PROGRAMS
  mkdir kit
  printf '#!/bin/sh\nsleep 1\necho "no build" >&2\nexit 10\n' > kit/rt
  chmod +x kit/rt
  other=$(free_port)
  status 10 env PATH="$PWD/kit:$PATH" sh "$top/serve_demo.sh" "$other" > told 2>&1
  ! pgrep -f "^sh $top/serve_demo.sh $other" > /dev/null || say "something of the demo goes on"
  [ "$before" = "$(cksum < office.journal)" ] || say "a demo reached the office"
}
