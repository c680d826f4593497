"""What the check stands on: an office with a clock of its own, a relay that can lose answers, nginx, and browsers."""
import base64
import json
import os
import random
import resource
import shutil
import signal
import socket
import subprocess
import sys
import threading
import time
import urllib.error
import urllib.request
from datetime import datetime, timedelta, timezone
from pathlib import Path

from selenium import webdriver
from selenium.webdriver.chrome.options import Options
from selenium.webdriver.chrome.service import Service
from selenium.webdriver.common.by import By
from selenium.webdriver.common.keys import Keys

TOP = Path(__file__).resolve().parent.parent.parent
MAIN = os.environ.get("WARN_MAIN", str(TOP / "crates/warn_main/out/warn_main"))
ARCHIVE = os.environ.get("WARN_ARCHIVE", str(TOP / "crates/warn_archive/out/warn_archive"))
FAKE = next((str(p) for p in Path("/usr/lib").glob("*/faketime/libfaketimeMT.so.1")), "")
PATH = {**os.environ, "PATH": os.environ["PATH"] + ":/usr/sbin"}


def until(seen, seconds=60, what="it"):
    """Waits until the function gives something true, and gives that. The last look is after the time, so that a machine
    that stood still meanwhile is no fault."""
    end, pause = time.monotonic() + seconds, 0.02
    while True:
        late = time.monotonic() > end
        try:
            found = seen()
        except Exception as error:  # an element that is being drawn anew
            found, last = None, error
        else:
            last = None
        if found:
            return found
        if late:
            told = what() if callable(what) else what
            raise AssertionError(f"not within {seconds} s: {told}{f' ({last})' if last else ''}")
        time.sleep(pause)
        pause = min(0.2, pause * 1.5)


PORTS = threading.Lock()


def free_port(taken=set()):
    with PORTS:
        return port_of(taken)


def port_of(taken):
    ports = [p for p in range(8700, 8740) if p not in taken]
    random.shuffle(ports)
    for port in ports:
        with socket.socket() as tried:
            tried.setsockopt(socket.SOL_SOCKET, socket.SO_REUSEADDR, 1)
            try:
                tried.bind(("127.0.0.1", port))
            except OSError:
                continue
        taken.add(port)
        return port
    raise AssertionError("no free port from 8700 to 8739")


class Clock:
    """A clock that an office and its nginx go by, set by a file, at first at 15:30 UTC on January 3, 2018; the
    machine's own where faketime has no hold."""

    def __init__(self, file):
        self.file = file
        self.ahead = 0.0
        self.held = bool(FAKE) and self.holds()

    def environment(self):
        if not FAKE:
            return PATH
        return {
            **PATH,
            "LD_PRELOAD": FAKE,
            "FAKETIME_TIMESTAMP_FILE": str(self.file),
            "FAKETIME_NO_CACHE": "1",
            "FAKETIME_DONT_FAKE_MONOTONIC": "1",
        }

    def holds(self):
        self.set(datetime(2018, 1, 3, 15, 30, 5, tzinfo=timezone.utc))
        journal = self.file.with_suffix(".journal")
        subprocess.run(
            [MAIN, journal, "init"],
            stdin=open(TOP / "samples/office.toml"),
            capture_output=True,
            env=self.environment(),
        )
        told = subprocess.run(
            [MAIN, journal, "script"],
            input='{"desk":"A","seq":1,"do":"issue","hazard":"WS.W","zones":["MDZ003"],"begin":"now","end":"180104T0000Z"}\n',
            env=self.environment(),
            capture_output=True,
            text=True,
        )
        return '"time":"180103T1530Z"' in told.stdout

    def set(self, moment):
        self.ahead = moment.timestamp() - time.time()
        self.file.write_text(f"{self.ahead:+.0f}\n")

    def forward(self, **more):
        self.ahead += timedelta(**more).total_seconds()
        self.file.write_text(f"{self.ahead:+.0f}\n")

    def now(self):
        return datetime.fromtimestamp(time.time() + (self.ahead if self.held else 0), timezone.utc)

    def stamp(self, **more):
        return (self.now() + timedelta(**more)).strftime("%y%m%dT%H%MZ")


class Relay:
    """Between nginx and the office. `lose` names a word of a POST: the office gets the request, nobody its answer.
    `keep`: the office does not even get it. `hold`: the answer waits until `free` is set."""

    def __init__(self, office):
        self.office, self.port = office, free_port()
        self.lose = self.keep = self.hold = None
        self.free, self.met = threading.Event(), threading.Event()
        self.posts = []
        self.server = socket.create_server(("127.0.0.1", self.port), backlog=64)
        threading.Thread(target=self.run, daemon=True).start()

    def run(self):
        while True:
            link, _ = self.server.accept()
            threading.Thread(target=self.serve, args=(link,), daemon=True).start()

    def serve(self, link):
        with link:
            try:
                call = b""
                while b"\r\n\r\n" not in call:
                    call += self.piece(link)
                head, body = call.split(b"\r\n\r\n", 1)
                length = next(
                    (int(f.split(b":")[1]) for f in head.split(b"\r\n") if f.lower().startswith(b"content-length:")), 0
                )
                while len(body) < length:
                    body += self.piece(link)
                post = head.startswith(b"POST")
                if post:
                    self.posts.append(body)
                if post and self.keep and self.keep in body:
                    self.met.set()
                    return
                with socket.create_connection(("127.0.0.1", self.office), timeout=20) as on:
                    on.sendall(head + b"\r\n\r\n" + body)
                    answer = b""
                    while piece := on.recv(65536):
                        answer += piece
                if post and self.lose and self.lose in body:
                    self.met.set()
                    return
                if post and self.hold and self.hold in body:
                    self.met.set()
                    self.free.wait(60)
                link.sendall(answer)
            except OSError:
                pass

    @staticmethod
    def piece(link):
        piece = link.recv(65536)
        if not piece:
            raise ConnectionError
        return piece


class Office:
    """An office, its relay and its proxy."""

    started = []

    def __init__(self, folder, settings, clock, training=False, script=""):
        Office.started.append(self)
        self.process = self.proxy = None
        self.folder, self.settings, self.clock = folder, settings, clock
        folder.mkdir()
        self.journal, self.port, self.page = folder / "office.journal", free_port(), free_port()
        self.run("init", text=settings)
        if script:
            self.run("script", text=script)
        (folder / "settings.toml").write_text(settings)
        words = [sys.executable, str(TOP / "page/make_office.py"), str(folder / "settings.toml")] + (
            ["--training"] if training else []
        )
        (folder / "office.json").write_text(subprocess.run(words, check=True, capture_output=True, text=True).stdout)
        self.relay = Relay(self.port)
        conf = subprocess.run(
            [
                "sh",
                str(TOP / "page/plain_nginx.sh"),
                str(self.page),
                str(self.relay.port),
                str(folder),
                str(folder / "office.json"),
            ],
            check=True,
            capture_output=True,
            text=True,
        ).stdout
        # nginx passes nothing of its environment on to its workers, unless it is told to.
        keep = "".join(f"env {name};\n" for name in clock.environment() if name.startswith("FAKETIME"))
        (folder / "nginx.conf").write_text(keep + conf)
        self.open()
        self.open_proxy()

    at = property(lambda self: f"http://127.0.0.1:{self.page}")

    def run(self, *words, text=""):
        told = subprocess.run(
            [MAIN, self.journal, *words], input=text, capture_output=True, text=True, env=self.clock.environment()
        )
        assert told.returncode == 0, f"{words}: status {told.returncode} {told.stdout[-200:]} {told.stderr[-200:]}"
        return told.stdout

    def open(self):
        words = [
            MAIN,
            str(self.journal),
            "serve",
            "--port",
            str(self.port),
            "--workers",
            "4",
            "--connections",
            "1000000",
        ]
        for _ in range(20):
            self.process = subprocess.Popen(
                words,
                stdout=subprocess.DEVNULL,
                stderr=subprocess.DEVNULL,
                stdin=subprocess.DEVNULL,
                env=self.clock.environment(),
                # What is ignored here stays so: a file that cannot grow is then a failing disk, and no end.
                restore_signals=False,
            )
            for _ in range(100):
                if self.process.poll() is not None:
                    break
                with socket.socket() as tried:
                    if tried.connect_ex(("127.0.0.1", self.port)) == 0:
                        return
                time.sleep(0.05)
            time.sleep(0.5)
        raise AssertionError("the office does not listen")

    def kill(self):
        self.process.kill()
        self.process.wait()

    def open_proxy(self):
        words = [
            "nginx",
            "-e",
            str(self.folder / "error.log"),
            "-p",
            str(self.folder),
            "-c",
            str(self.folder / "nginx.conf"),
            "-g",
            "daemon off;",
        ]
        self.proxy = subprocess.Popen(
            words,
            stdout=subprocess.DEVNULL,
            stderr=open(self.folder / "nginx.log", "w"),
            stdin=subprocess.DEVNULL,
            env=self.clock.environment(),
            start_new_session=True,
        )
        until(lambda: self.call("/office.json")[0] == 200, 15, "nginx")

    def kill_proxy(self):
        os.killpg(self.proxy.pid, signal.SIGKILL)
        self.proxy.wait()

    def call(self, path, body=None, **head):
        asked = urllib.request.Request(
            self.at + path, data=body and body.encode(), headers={k.replace("_", "-"): v for k, v in head.items()}
        )
        try:
            with urllib.request.urlopen(asked, timeout=10) as answer:
                return answer.status, answer.read().decode(), answer.headers
        except urllib.error.HTTPError as error:
            return error.code, error.read().decode(), error.headers
        except OSError as error:
            return 0, str(error), {}

    def direct(self, path, body):
        """The text of an answer of the office itself, past its relay and its proxy."""
        asked = urllib.request.Request(f"http://127.0.0.1:{self.port}{path}", data=body.encode())
        try:
            with urllib.request.urlopen(asked, timeout=10) as answer:
                return answer.read().decode()
        except urllib.error.HTTPError as error:
            return error.read().decode()

    def last(self, desk):
        """The number of the desk's last request, by the office's refusal of one that is far ahead."""
        body = json.dumps({"desk": desk, "seq": 4294967295, "do": "take", "draft": 0})
        return json.loads(self.direct("/requests", body))["last"]

    def ask(self, desk, **request):
        """A request by another client of the desk: by the office's number."""
        return json.loads(
            self.direct("/requests", json.dumps({"desk": desk, "seq": self.last(desk) + 1, **request}))
        )

    def disk(self, full):
        """The journal cannot grow; it can again."""
        size = self.journal.stat().st_size if full else resource.RLIM_INFINITY
        resource.prlimit(self.process.pid, resource.RLIMIT_FSIZE, (size, resource.RLIM_INFINITY))

    def close(self):
        for end in (self.kill_proxy, self.kill):
            try:
                end()
            except (OSError, AttributeError):
                pass


# The first element of a selector that is seen, can be used if that is wanted, and begins with a text if one is given;
# in the middle of the window then, for a click.
FIND = """
const [css, text, used] = arguments;
for (const e of document.querySelectorAll(css)) {
  if (!e.checkVisibility() || (used && e.matches(":disabled, :disabled *"))) continue;
  if (text !== null && !e.innerText.trim().startsWith(text)) continue;
  if (used) e.scrollIntoView({ block: "center" });
  return e;
}
return null;"""


class Page:
    """A browser at a desk, used by clicks and keys."""

    started = []

    def __init__(self, office, desk, profile, size=(1180, 860)):
        Page.started.append(self)
        self.office, self.desk, self.profile, self.size = office, desk, profile, size
        self.shots = office.folder.parent.parent / "shots"
        self.start()

    def start(self):
        options = Options()
        options.binary_location = shutil.which("chromium")
        words = [
            "--headless=new",
            "--disable-dev-shm-usage",
            "--disable-gpu",
            "--disable-extensions",
            "--no-first-run",
            "--lang=en-US",
            f"--user-data-dir={self.profile}",
            f"--window-size={self.size[0]},{self.size[1]}",
            "--disable-background-timer-throttling",
        ]
        if os.geteuid() == 0:
            words.append("--no-sandbox")
        for word in words:
            options.add_argument(word)
        options.set_capability("goog:loggingPrefs", {"browser": "ALL"})
        self.web = webdriver.Chrome(service=Service(shutil.which("chromedriver")), options=options)
        self.web.set_page_load_timeout(180)
        self.open()

    def open(self, office=None, desk=None):
        """Opens the page, of another office and desk where they are named, and waits for its board."""
        self.office, self.desk = office or self.office, desk or self.desk
        self.web.get(f"{self.office.at}/?desk={self.desk}")
        self.board_is_new()

    def board_is_new(self):
        until(lambda: self.find("#state.good"), 60, "a board")

    def reload(self):
        self.web.refresh()
        self.board_is_new()

    def tab(self):
        """Goes on in a new, empty tab of this browser; the one of before."""
        before = self.web.current_window_handle, self.office, self.desk
        self.web.switch_to.new_window("tab")
        return before

    def back_to(self, before):
        """Ends this tab, and goes on with the one of before."""
        self.web.close()
        handle, self.office, self.desk = before
        self.web.switch_to.window(handle)

    def kill(self):
        """As a power cut: each process of this browser at once."""
        self.faults()
        mine = f"--user-data-dir={self.profile}".encode()
        for entry in Path("/proc").glob("[0-9]*/cmdline"):
            try:
                if mine in entry.read_bytes().split(b"\0"):
                    os.kill(int(entry.parent.name), signal.SIGKILL)
            except OSError:  # it has ended
                pass
        self.web.service.stop()
        for lock in Path(self.profile).glob("Singleton*"):
            lock.unlink()

    def close(self):
        self.web.quit()

    def script(self, text, *words):
        return self.web.execute_script(text, *words)

    def poke(self):
        """The page asks the office at once, as it does where the network comes back."""
        self.script("dispatchEvent(new Event('online'))")

    def one(self, css):
        return self.web.find_element(By.CSS_SELECTOR, css)

    def all(self, css):
        return self.web.find_elements(By.CSS_SELECTOR, css)

    def find(self, css, text=None, used=False):
        return self.script(FIND, css, text, used)

    def text(self, css):
        return self.script("return document.querySelector(arguments[0])?.innerText.trim() ?? ''", css)

    def value(self, css):
        return self.script("return document.querySelector(arguments[0])?.value", css)

    def texts(self, css):
        """The texts of what is shown, read at one moment."""
        return self.script(
            "return [...document.querySelectorAll(arguments[0])].filter((e) => e.checkVisibility()).map((e) => e.innerText.trim())",
            css,
        )

    def says(self, css, word, seconds=60):
        """Waits until the text of an element has the word; that text."""
        found = lambda: self.text(css)
        return until(lambda: word in found() and found(), seconds, lambda: f"{word!r} in {css}, there is {found()!r}")

    def wait(self, css, seconds=60):
        return until(lambda: self.find(css), seconds, css)

    def click(self, css, text=None, seconds=60):
        def found():
            element = self.find(css, text, True)
            if element is not None:
                element.click()
            return element

        until(found, seconds, f"{css} {text or ''}")

    def type(self, css, *keys):
        """Clicks into a field and types."""

        def found():
            field = self.find(css, None, True)
            if field is not None:
                field.click()
            return field

        until(found, 60, css).send_keys(*keys)

    def choose(self, label, word):
        """A list of the flood's values, by its label and the beginning of what is chosen."""
        field = next(e for e in self.all(".flood label") if e.text.startswith(label))
        field.find_element(By.CSS_SELECTOR, "select").send_keys(word)

    def keys(self, *keys):
        self.web.switch_to.active_element.send_keys(*keys)

    def press(self, key):
        """A key of the page, with nothing focused."""
        self.script("document.activeElement.blur()")
        self.one("body").send_keys(key)

    def view(self, name):
        self.click(f"nav a[data-view={name}]")
        self.wait(f"#{name}")

    def notice(self, word, seconds=60):
        return self.says("#notice", word, seconds)

    # Compose.
    def hazard(self, word, part=0):
        self.type(f"[data-part='{part}'] .f-hazard input[role=combobox]", Keys.CONTROL + "a" + Keys.NULL, word, Keys.ENTER)
        self.wait(f"[data-part='{part}'] .f-zones input")

    def zones(self, words, part=0):
        self.type(f"[data-part='{part}'] .f-zones input", words, Keys.ENTER)

    def moment(self, name, stamp, part=0, zone_hours=-5):
        """Types a local time into a field of begin or end."""
        local = datetime.strptime(stamp, "%y%m%dT%H%MZ") + timedelta(hours=zone_hours)
        self.type(f"[data-part='{part}'] .f-{name} input[type=datetime-local]", *self.moment_keys(local))

    @staticmethod
    def moment_keys(local):
        return Keys.ARROW_LEFT * 6, local.strftime("%m%d%Y"), Keys.ARROW_RIGHT, local.strftime("%I%M%p")

    def words(self, name, text, part=0):
        """Takes out what a text holds, and pastes another."""
        self.type(f"[data-part='{part}'] .text[data-field={name}] textarea", Keys.CONTROL + "a" + Keys.NULL, Keys.BACKSPACE)
        self.web.execute_cdp_cmd("Input.insertText", {"text": text})

    def preview(self):
        self.click("#preview")
        return self.looked_at()

    def looked_at(self):
        """The office's text that the page shows."""
        return until(
            lambda: self.script("return document.getElementById('look-text')?.textContent"),
            60,
            lambda: f"a preview; {self.texts('.fault')} {self.texts('#notice')}",
        )

    def draft(self):
        """The number of the draft that is looked at."""
        return int(self.text("#compose .hint").split("draft ")[1].rstrip("."))

    def send(self):
        """Send, the one question, and the product's number."""
        before = self.text("#notice")
        self.ask_send()
        self.click("dialog button.send")
        told = until(
            lambda: "Sent: product" in self.text("#notice") and self.text("#notice") != before and self.text("#notice"),
            60,
            lambda: f"a product; {self.text('#notice')} {self.text('#waiting')}",
        )
        return int(told.split("product ")[1].split(",")[0].split(".")[0])

    def ask_send(self):
        """The question before a send."""
        self.click("#send")
        self.wait("dialog")
        return self.text("dialog")

    def refused(self):
        """What is said beside the fields, once something is."""
        self.click("#preview")
        return until(lambda: " ".join(self.texts(".fault")), 60, "a refusal")

    def fresh(self):
        self.view("compose")
        if self.all("#back"):
            self.click("#back")
        self.click("#compose .buttons button", "Clear")

        def cleared():
            if self.find("dialog"):
                self.click("dialog button", "Clear it", 1)
            return not self.find("dialog") and self.find("[data-part='0'] .f-hazard input") and not self.find(".f-zones")

        until(cleared, 60, "an empty form")

    # The board.
    def event(self, word):
        """Opens an event of the board; the names of what is offered."""
        self.view("board")
        self.script(
            "const f = document.getElementById('filter'); if (f.value) { f.value = ''; f.dispatchEvent(new Event('input')); }"
        )
        opened = """
          const b = [...document.querySelectorAll("button.event")].find((e) => e.innerText.replace(/\\s+/g, " ").includes(arguments[0]));
          if (b && b.getAttribute("aria-expanded") !== "true") b.scrollIntoView({ block: "center" });
          return b && (b.getAttribute("aria-expanded") === "true" ? "open" : b);"""

        def found():
            button = self.script(opened, word)
            if button is None:
                self.poke()
            elif button != "open":
                button.click()
            return button

        until(found, 60, f"event {word}")
        return until(lambda: self.texts(".offers button"), 60, "offers")

    def follow(self, word, name):
        offers = self.event(word)
        assert name in offers, f"{name} is not offered for {word}: {offers}"
        self.click(".offers button", name)
        self.wait("#compose")

    def board(self):
        """The rows that the board shows, by zone: zone, event, begin and end as it writes them in UTC."""
        self.view("board")
        if not self.script("return document.querySelector('input[name=mode][value=zone]').checked"):
            self.click("input[name=mode][value=zone]")
        rows = self.script(
            """
          let zone = ""; const rows = [];
          for (const tr of document.querySelectorAll("#board-body table:not(.over) tbody tr:not(.details):not(.more)")) {
            zone = tr.querySelector(".zone .code")?.textContent ?? zone;
            const times = [...tr.querySelectorAll("td")].filter((td) => td.className === "time" || /further/.test(td.textContent)).slice(0, 2);
            rows.push([zone, tr.querySelector(".chip").textContent + "." + tr.querySelector(".number").textContent,
              ...times.map((td) => td.querySelector("small")?.textContent ?? td.textContent)]);
          }
          return rows;"""
        )
        self.click("input[name=mode][value=event]")
        return sorted(rows)

    def shot(self, name):
        picture = self.web.execute_cdp_cmd("Page.captureScreenshot", {"format": "png", "optimizeForSpeed": True})
        (self.shots / f"{name}.png").write_bytes(base64.b64decode(picture["data"]))

    def tall_shot(self, name, height):
        """A picture from the top of the page on, in a window of this height."""
        self.window(1180, height)
        self.script("scrollTo(0, 0)")
        self.shot(name)
        self.window()

    def window(self, width=0, height=0, scale=1):
        """Another window; without a size that of before."""
        if not width:
            self.web.execute_cdp_cmd("Emulation.clearDeviceMetricsOverride", {})
            return
        size = {"width": width, "height": height, "deviceScaleFactor": scale, "mobile": False}
        self.web.execute_cdp_cmd("Emulation.setDeviceMetricsOverride", size)

    def prefers(self, theme):
        """What the machine is set to, light or dark."""
        media = {"features": [{"name": "prefers-color-scheme", "value": theme}]}
        self.web.execute_cdp_cmd("Emulation.setEmulatedMedia", media)

    def faults(self):
        """Errors of the page itself; what the office refuses is none."""
        return [
            e["message"]
            for e in self.web.get_log("browser")
            if e["level"] == "SEVERE" and "Failed to load resource" not in e["message"]
        ]


def close_all():
    """Ends what this check started, also where a step failed in the middle."""
    for one in Page.started + Office.started:
        try:
            one.close()
        except Exception:  # it has ended, or never began
            pass
