# shellcheck shell=sh disable=SC2012,SC2013,SC2015,SC2016,SC2086,SC2094,SC2154,SC2238,SC2317
# Checks of the proxy, the unit, and the pages for those who run an office or write a client.

# The sample of the proxy with the check's own ports and files in place of a machine's; $proxy is
# its port.
start_proxy() {
  proxy=$(free_port)
  mkdir -p run/cache
  [ -s desk.pem ] || openssl req -x509 -newkey rsa:2048 -nodes -days 2 -subj /CN=localhost \
    -addext 'subjectAltName=DNS:localhost,IP:127.0.0.1' -keyout desk.key -out desk.pem 2> openssl.log || say "$(cat openssl.log)"
  printf 'A:%s\n' "$(openssl passwd -apr1 secret)" > desks.htpasswd
  {
    echo "worker_processes 4; pid run/nginx.pid; error_log run/error.log; events { worker_connections 256; }"
    echo "http { access_log off; client_body_temp_path run/body; proxy_temp_path run/proxy;"
    echo "fastcgi_temp_path run/f; uwsgi_temp_path run/u; scgi_temp_path run/s;"
    [ "$(id -u)" != 0 ] || chmod -R a+rwX run
    sed -e "s#/var/cache/warn_main#$PWD/run/cache#; s#/etc/ssl/certs/desk.pem#$PWD/desk.pem#" \
      -e "s#/etc/ssl/private/desk.key#$PWD/desk.key#; s#/etc/nginx/desks.htpasswd#$PWD/desks.htpasswd#" \
      -e "s#/var/log/nginx/desk.log#$PWD/run/desk.log#; s#listen 443#listen 127.0.0.1:$proxy#" \
      -e "s#desk.example.net#localhost#; s#127.0.0.1:8470#127.0.0.1:$port#" "$here/nginx.conf"
    echo "}"
  } > nginx.conf
  [ "$(id -u)" != 0 ] || sed -i '1s/^/user root; /' nginx.conf
  nginx -p "$PWD" -c nginx.conf -g 'daemon off;' > nginx.log 2>&1 &
  nginx=$!
  pids="$pids $nginx"
  await --cacert desk.pem -u A:secret "https://localhost:$proxy/board"
}

by_proxy() {
  curl -sS --max-time 40 --cacert desk.pem -u A:secret -w ' %{http_code}' "$@"
}

check_proxy() {
  port=$(free_port)
  start_office office.journal 4
  start_proxy
  url=https://localhost:$proxy
  answers() {
    wanted=$1
    shift
    got=$(by_proxy "$@")
    [ "$got" = "$wanted" ] || say "$got, not $wanted: $*"
  }
  # No kept links: of many calls, several at a time, none waits for an idle one.
  for number in $(seq 40); do echo "$url/products/$number"; done \
    | xargs -P 8 -n 1 curl -s -o /dev/null --max-time 40 --cacert desk.pem -u A:secret -w '%{time_total}\n' | sort -n > times
  [ "$(wc -l < times)" = 40 ] || say "$(wc -l < times) of 40 calls"
  awk '{ if ($1 > 15) exit 1 }' times || say "a call of $(tail -1 times) seconds"
  # A call waits for nobody who opened a link to the proxy and says nothing.
  for number in $(seq 8); do
    python3 -c "import socket, time; s = socket.create_connection(('127.0.0.1', $proxy)); time.sleep(30)" &
    pids="$pids $!"
  done
  sleep 0.5
  by_proxy -m 10 "$url/products/1" > /dev/null || say "held up by idle links"
  # Cross-site calls, by either field; the site's own, and programs.
  body='{"desk":"A","seq":1,"do":"open","category":"WSW"}'
  other='{"no":"P3","rule":"OtherSite"} 403'
  answers "$other" -H 'Sec-Fetch-Site: cross-site' -d "$body" $url/requests
  answers "$other" -H 'Sec-Fetch-Site: same-site' -d "$body" $url/requests
  answers "$other" -H 'Origin: https://evil.example' -d "$body" $url/requests
  answers "$other" -H 'Origin: null' -d "$body" $url/requests
  answers "$other" -H "Origin: http://localhost:$proxy" -d "$body" $url/requests
  answers '{"draft":1,"ok":"open"} 200' -H 'Sec-Fetch-Site: same-origin' -H "Origin: $url" -d "$body" $url/requests
  answers '{"draft":1,"ok":"open"} 200' -d "$body" $url/requests
  # What the proxy refuses is JSON, with the office's code where it has one.
  answers '{"no":"P2","rule":"UnknownUser"} 401' -u A:wrong $url/board
  head -c 70000 /dev/zero > long
  answers '{"no":"F6","rule":"BodyTooLong"} 413' --data-binary @long $url/requests
  answers '{"no":"F3","rule":"NoRoute"} 404' $url/nothing
  answers '{"no":"F4","rule":"WrongMethod"} 405' -X PUT $url/requests
  answers '{"no":"E14","rule":"NoProduct"} 404' $url/products/9
  answers '{"no":"P1","rule":"BadCall"} 400' -H "X: $(head -c 40000 /dev/zero | tr '\0' a)" $url/board
  answers '{"no":"P1","rule":"BadCall"} 400' "http://localhost:$proxy/board"
  grep -q ' A 127.0.0.1 "POST /requests HTTP/1.1" 200 ' run/desk.log || say "no line in the log"
  # The client through it, with its password, and the office killed behind it.
  export DESK_PASSWORD=secret
  desk="python3 $here/desk.py --at $url --user A --authority desk.pem --state state --patience 20"
  $desk issue WS.W MDZ003 --end 8h > reply || say "desk.py through the proxy"
  kill "$office"
  wait "$office" 2> /dev/null
  answers '{"no":"P6","rule":"NotServed"} 503' -d "$body" $url/requests
  (sleep 2; exec warn_main office.journal serve --port "$port" --workers 4 --connections 1000 > /dev/null) &
  pids="$pids $!"
  $desk issue FG.Y MDZ003 --end 4h > reply || say "the office came back, and the client did not"
  bad env DESK_PASSWORD=wrong python3 "$here/desk.py" --at $url --user A --authority desk.pem --state other board
  bad python3 "$here/desk.py" --at $url --user A --state other board
  kill "$nginx"
  wait "$nginx" 2> /dev/null
  (sleep 2; exec nginx -p "$PWD" -c nginx.conf -g 'daemon off;' > nginx.log 2>&1) &
  pids="$pids $!"
  $desk issue WI.Y MDZ003 --end 4h > reply || say "the proxy came back, and the client did not"
  [ "$(py journal.py office.journal | grep -c '"do":"issue"')" = 3 ] || say "not three issues"
  for pid in $(cat run/nginx.pid); do kill "$pid"; done
}

# The unit: what it runs, its wait for the clock, its lock; its exposure where systemd-analyze is
# there.
check_unit() {
  port=$(free_port)
  warn_main office.journal init < "$here/office.toml" > told || say "init"
  value() {
    sed -n "s#^$1=##p" "$here/warn_main.service" | sed -e "s#/var/lib/warn_main/#$PWD/#g; s#/usr/local/bin/#$work/bin/#" \
      -e "s#--port 8470#--port $port#; s#-w 10 #-w 1 #; s#/run/warn_main.clock#$PWD/clock#g; s#sleep 5#sleep 0.2#; s#^+##; s#[$][$]#\$#g"
  }
  [ "$(value Restart) $(value RestartPreventExitStatus) $(value StartLimitIntervalSec)" = "always 2 5 6 0" ] || say "it gives up"
  # systemd takes the words as a shell does, but for $$.
  value ExecStart | sed 's/^/exec /' > start.sh
  sh start.sh > served 2>&1 &
  pids="$pids $!"
  await "$(at)/board"
  status 75 sh start.sh > second 2>&1
  # It waits while the clock is not synchronised, and goes on once it is, or once a person says so.
  mkdir machine
  printf '#!/bin/sh\ncat "%s/synchronised"\n' "$PWD" > machine/timedatectl
  chmod +x machine/timedatectl
  value ExecStartPre | sed 's/^/exec /' > wait.sh
  echo no > synchronised
  PATH="$PWD/machine:$PATH" timeout 2 sh wait.sh > told 2>&1 && say "it did not wait"
  grep -q 'waiting for a synchronised clock' told || say "$(cat told)"
  echo yes > synchronised
  PATH="$PWD/machine:$PATH" timeout 30 sh wait.sh || say "it waits for a clock that is synchronised"
  echo no > synchronised
  touch clock
  PATH="$PWD/machine:$PATH" timeout 30 sh wait.sh || say "it waits although a person said so"
  command -v systemd-analyze > /dev/null || return 0
  systemd-analyze security --offline=true --no-pager "$here/warn_main.service" > exposure 2>&1 || say "$(tail -2 exposure)"
  sed -n 's/.*Overall exposure level for warn_main.service: \([0-9.]*\) .*/\1/p' exposure > level
  awk '{ exit !($1 <= 4.5) } END { if (NR != 1) exit 1 }' level || say "exposure $(cat level)"
  echo "exposure $(cat level)"
}

# Runs the blocks of a page in an empty folder, and compares what it says that they write.
run_page() {
  python3 "$here/checks/pages.py" script "$1" > script || say "$1"
  grep -q . script || say "$1 has no block to run"
  mkdir page prefix
  port=$(free_port)
  (
    cd page || exit 1
    TOP=$top PREFIX=$work/$2/prefix SAMPLES=$here PORT=$port PROXY_PORT=$(free_port) BUILT=$work/bin
    export TOP PREFIX SAMPLES PORT PROXY_PORT BUILT
    exec setsid sh -eux ../script
  ) > output 2> trace &
  page=$!
  wait $page
  got=$?
  # What the page left running ends with it.
  kill -- -$page 2> /dev/null
  if [ $got != 0 ]; then
    grep '^+' trace | tail -1
    tail -5 trace
    say "$1: status $got of the command above"
  fi
  python3 "$here/checks/pages.py" compare "$1" output || exit 1
}

# A clone whose programs are built, a front and a kit on the path. What `rt run` and `rt try` would
# build first is started at once.
make_clone() {
  mkdir -p clone/crates kit
  ln -s "$here" clone/samples
  for name in $programs; do
    mkdir -p "clone/crates/$name/out"
    cp "$work/bin/$name" "clone/crates/$name/out/"
  done
  ln -s "$top/warn" kit/warn
  cat > kit/rt <<'RT'
#!/bin/sh
case $1 in run | try) ;; *) exit 2 ;; esac
until [ "$1" = -- ]; do shift; done
shift
exec "out/$(basename "$PWD")" "$@"
RT
  chmod +x kit/rt
  HOME=$PWD
  PATH=$PWD/kit:$PATH
}

# The pages of the programs: their blocks, run as they stand from the top of the clone.
check_pages() {
  make_clone
  for page in COMMANDS SETTINGS REQUESTS ARCHIVE STATISTICS TRAINING NOTICES SERVING FOLLOWING; do
    python3 "$here/checks/pages.py" script "$top/docs/$page.md" | sed "s/8475/$(free_port)/g" > "$page.sh"
    grep -q . "$page.sh" || say "$page.md has no block to run"
    (cd clone && exec setsid sh -ux "../$page.sh") > "$page.out" 2> "$page.trace" &
    group=$!
    wait $group
    kill -- -$group 2> /dev/null
    grep -v '^+' "$page.trace" > "$page.told"
    if grep -E 'not found|No such file|[Ss]yntax|^curl:|Traceback|^warn: ' "$page.told" \
      || grep '^fault \(Usage\|NoJournal\|AlreadyKept\|PortFault\)' "$page.out"; then
      say "$page.md: $(tail -5 "$page.told")"
    fi
    python3 "$here/checks/pages.py" compare "$top/docs/$page.md" "$page.out" || exit 1
  done
}

# Each page that serves a trial, worked through where an office at work has the port: nothing of it
# is accepted there.
check_beside() {
  make_clone
  port=$(free_port)
  start_office office.journal
  before=$(cksum < office.journal)
  for page in SERVING FOLLOWING OPERATING CLIENTS; do
    mkdir "$page"
    [ $page = OPERATING ] || [ $page = CLIENTS ] || cp -R clone/. "$page"
    python3 "$here/checks/pages.py" script "$top/docs/$page.md" | sed "s/8475/$port/g" > "$page.sh"
    (
      cd "$page" || exit 1
      TOP=$top PREFIX=$work/beside/prefix SAMPLES=$here PORT=$port BUILT=$work/bin
      export TOP PREFIX SAMPLES PORT BUILT
      exec setsid timeout 60 sh -u "../$page.sh"
    ) > "$page.out" 2>&1 &
    group=$!
    wait $group
    kill -- -$group 2> /dev/null
    [ "$before" = "$(cksum < office.journal)" ] || say "$page.md reached an office at work"
  done
  # The trial was refused there, and not passed by.
  grep -q 'error: 403' SERVING.out FOLLOWING.out || grep -q UnknownDesk SERVING.out || say "$(cat SERVING.out)"
}

check_operating() {
  run_page "$top/docs/OPERATING.md" operating
}

check_clients() {
  run_page "$top/docs/CLIENTS.md" clients
}

# The front `warn`, the installer, man pages and completions have a check of their own beside this
# one.
check_front() {
  port=$(free_port)
  BUILT=$work/bin PORT=$port sh "$here/check_front" || say "check_front"
}
