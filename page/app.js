// The page: header, views, keys, and what each view needs of the others.
import { $, h, put, para, askPerson } from "./dom.js";
import { Facts } from "./facts.js";
import { Watch } from "./watch.js";
import { Desk } from "./desk.js";
import { openStore, kept, keep } from "./store.js";
import { Refused, Dropped } from "./outbox.js";
import { wordsOf, waitingText } from "./words.js";
import { localText, utcText, spanText, minuteOfMillis } from "./times.js";
import { BoardView } from "./view_board.js";
import { ComposeView } from "./view_compose.js";
import { DraftsView } from "./view_drafts.js";
import { ProductsView } from "./view_products.js";

const VIEWS = ["board", "compose", "drafts", "products"];

class App {
  constructor(facts) {
    this.facts = facts;
    this.desk = null;
    this.view = "";
    this.watch = new Watch({
      onBoard: (changed) => this.#board(changed), onProducts: () => this.#products(), onTick: () => this.#tick() });
    this.views = { board: new BoardView(this), compose: new ComposeView(this), drafts: new DraftsView(this),
      products: new ProductsView(this) };
  }

  get root() { return `warn.${this.facts.office}`; }
  get writes() { return Boolean(this.desk?.writes); }

  async start() {
    const { facts } = this;
    document.title = `${facts.training ? "TEST " : ""}${facts.office} warning desk`;
    $("office").textContent = facts.office;
    $("line").textContent = facts.line;
    if (facts.training) { document.body.classList.add("training"); $("test").hidden = false; }
    this.theme(kept(`${this.root}.theme`, ""));
    try { this.store = await openStore(this.root); } catch { this.store = null; }
    const chosen = new URLSearchParams(location.search).get("desk") ?? sessionStorage.getItem(`${this.root}.desk`)
      ?? kept(`${this.root}.desk`, "");
    const select = $("desk");
    select.append(...["", ...facts.desks].map((name) => h("option", { value: name }, name || "none")));
    select.value = facts.desks.includes(chosen) ? chosen : "";
    select.disabled = false;
    select.addEventListener("change", () => this.#choose(select.value));
    $("help").addEventListener("click", () => this.help());
    addEventListener("hashchange", () => this.#route());
    addEventListener("keydown", (event) => this.#key(event));
    this.#choose(select.value);
    this.#route();
    this.watch.start();
    this.#tick();
  }

  // Views.
  #route() {
    const [view, ...rest] = location.hash.slice(1).split("/");
    this.show(VIEWS.includes(view) ? view : "board", rest[0]);
  }
  go(view, detail = "") {
    const hash = `#${view}${detail === "" ? "" : `/${detail}`}`;
    if (location.hash === hash) this.#route(); else location.hash = hash;
  }
  show(view, detail) {
    const other = view !== this.view, notice = $("notice");
    // A success has been read once the person goes on to another view.
    if (other && notice.className === "good" && Date.now() - this.toldAt > 3000) notice.hidden = true;
    this.view = view;
    for (const name of VIEWS) $(name).hidden = name !== view;
    if (other) scrollTo(0, 0);
    for (const link of document.querySelectorAll("nav a")) link.ariaCurrent = link.dataset.view === view ? "page" : null;
    this.views[view].show(detail, other);
  }

  // The desk.
  #choose(name) {
    if (this.desk?.name === name) return;
    this.desk?.close();
    this.desk = null;
    sessionStorage.setItem(`${this.root}.desk`, name);
    keep(`${this.root}.desk`, name);
    history.replaceState(null, "", `?desk=${name}${location.hash}`);
    if (name && !this.store) this.tell("This browser keeps nothing, so it cannot send safely: the page only reads.", "bad");
    if (name && this.store) {
      this.desk = new Desk(name, this.facts.office, { store: this.store,
        onChange: () => this.#desk(), onWaiting: (state) => this.#waits(state),
        onSettled: (item, reply) => this.#settled(item, reply),
        onRefused: (error) => this.failed(error, "What was sent before the page was closed") });
      this.desk.open();
    }
    this.#desk();
    this.views.compose.load();
  }
  #desk() {
    const reads = $("reads"), why = this.desk ? this.desk.why : "no desk is chosen";
    reads.hidden = !why;
    if (why && reads.dataset.why !== why) {
      put(reads, `This tab only reads: ${why}. `);
      if (navigator.locks && /tab/.test(why)) {
        reads.append(h("button", { onclick: () => this.desk.steal() }, "Work the desk here"));
      }
    }
    // A tab that gets its desk takes up the form where another one has left it.
    const holds = this.desk?.holds ?? false;
    if (holds && !this.held) this.views.compose.load();
    this.held = holds;
    reads.dataset.why = why;
    document.body.classList.toggle("busy", Boolean(this.desk?.busy));
    $("draft-count").textContent = this.desk?.drafts.length || "";
    for (const view of Object.values(this.views)) view.deskChanged?.();
  }
  #waits(state) {
    const box = $("waiting");
    box.hidden = !state;
    if (state?.why === "late") {
      const at = minuteOfMillis(state.at + this.watch.offset);
      const choose = (value) => () => { box.hidden = true; state.decide(value); };
      put(box, h("p", {}, `${state.words}: asked at ${this.facts.both(at)}, and it never reached the office. `,
        "It is late now. Look at the board before you choose."),
      para("buttons", h("button", { onclick: choose(false) }, "Give it up"),
        h("button", { class: "send", onclick: choose(true) }, "Send it now")));
      return;
    }
    const text = state ? waitingText(state) : "";
    if (box.textContent !== text) box.textContent = text;
    this.#desk();
  }
  /** A request of before a reload was answered. */
  #settled(item, reply) {
    if (reply.product) this.views.compose.sent(reply);
    this.tell(`${item.words}: this was under way when the page closed, and the office has it` +
      `${reply.product ? ` as product ${reply.product}` : ""}. It stands once.`, "good");
    this.watch.poke();
  }

  // The office.
  #board(changed) {
    this.#tick();
    this.views.board.draw();
    if (changed) this.views.compose.boardChanged();
    // What page/check measures.
    if (!this.drawn) requestAnimationFrame(() => performance.measure("first-view", "board-answer"));
    this.drawn = true;
  }
  #products() {
    this.views.products.listChanged();
    this.views.board.draw();
    this.#count();
  }
  #count() {
    const seen = kept(`${this.root}.seen`, null), fresh = seen === null ? 0 : Math.max(0, this.watch.last - seen);
    $("new-count").textContent = fresh || "";
    $("new-count").setAttribute("aria-label", fresh ? `${fresh} new` : "");
  }
  seen(number) {
    const before = kept(`${this.root}.seen`, null);
    if (before === null || number > before) keep(`${this.root}.seen`, number);
    this.#count();
  }

  #tick() {
    const { watch, facts } = this, minute = watch.minute();
    const seconds = new Date(Date.now() + watch.offset).getUTCSeconds();
    const local = localText(minute, facts.local_zone), utc = utcText(minute).replace(" UTC",
      `:${String(seconds).padStart(2, "0")} UTC`);
    $("clock").textContent = `${local} · ${local.slice(-6) === utc.slice(-6) ? utc.slice(0, 12) : utc}`;
    const state = $("state"), alarm = $("alarm"), old = watch.isOld();
    const age = watch.good ? Math.round(watch.age() / 1000) : 0;
    document.body.classList.toggle("old", old && Boolean(watch.good));
    let text, kind = "waits";
    if (!watch.good) {
      text = watch.trouble ? `The office does not answer (${watch.trouble}). There is no board to show yet.`
        : "Asking the office for its board.";
      if (watch.trouble) kind = "bad";
    } else {
      const at = minuteOfMillis(watch.good.wall + watch.offset);
      const told = age < 120 ? `${age} s` : spanText(Math.floor(age / 60));
      text = old ? `NO ANSWER FROM THE OFFICE FOR ${told}. What is shown is the board of ${facts.both(at)}, not of now.`
        : `Board as of ${told} ago${watch.trouble ? `, and the office does not answer since (${watch.trouble})` : ""}`;
      kind = old ? "bad" : watch.trouble ? "waits" : "good";
    }
    if (state.textContent !== text) state.textContent = text;
    state.className = kind;
    const said = kind === "bad" ? "The office does not answer. The board shown is old." : "";
    if (alarm.textContent !== said) alarm.textContent = said;
    if (minute !== this.lastMinute && watch.rows) { this.lastMinute = minute; this.views.board.draw(); }
    if (this.view === "drafts") this.views.drafts.tick();
  }

  // What is told to the person.
  tell(text, kind = "") {
    const box = $("notice");
    box.hidden = !text;
    box.className = kind;
    this.toldAt = Date.now();
    put(box, h("span", {}, text), h("button", { class: "shut", "aria-label": "Close this message",
      onclick: () => { box.hidden = true; } }, "×"));
    if (text) box.scrollIntoView({ block: "nearest" });
  }
  /** Any end of a chain of requests that is no success. Refusals are given as words. */
  failed(error, what) {
    const refused = error instanceof Refused;
    this.tell(`${what}: ${refused ? wordsOf(error.refusal, this.facts).told : error.message}`, "bad");
    if (!refused && !(error instanceof Dropped)) console.error(error);
  }

  // Keys.
  #key(event) {
    const field = event.target.closest?.("input, textarea, select, [contenteditable]");
    if (document.querySelector("dialog[open]")) return;
    if (event.key === "Enter" && (event.ctrlKey || event.metaKey) && this.view === "compose") {
      event.preventDefault();
      this.views.compose.preview();
      return;
    }
    if (event.key === "Escape") { this.views[this.view].escape?.(); return; }
    if (field || event.ctrlKey || event.metaKey || event.altKey || kept(`${this.root}.nokeys`, false)) return;
    const number = ["1", "2", "3", "4"].indexOf(event.key);
    if (number >= 0) this.go(VIEWS[number]);
    else if (event.key === "n") { this.go("compose"); this.views.compose.focus(); }
    else if (event.key === "/") { this.views[this.view].filter?.(); } else if (event.key === "?") this.help();
    else { if (this.view === "board") this.views.board.key(event); return; }
    event.preventDefault();
  }
  async help() {
    const keys = [["1 2 3 4", "Board, Compose, Drafts, Products"], ["n", "compose"], ["/", "filter"],
      ["arrows up, down", "from event to event, on the board"],
      ["Enter", "open an event"], ["Ctrl and Enter", "preview what is composed"], ["Escape", "back"],
        ["?", "this list"]];
    const off = h("input", { type: "checkbox", checked: kept(`${this.root}.nokeys`, false), onchange: (e) =>
      keep(`${this.root}.nokeys`, e.target.checked) });
    const theme = h("select", { onchange: (e) => { keep(`${this.root}.theme`, e.target.value);
      this.theme(e.target.value); } },
      [["", "as the machine"], ["light", "light"], ["dark", "dark"]].map(([value, text]) => h("option", { value },
        text)));
    theme.value = kept(`${this.root}.theme`, "");
    await askPerson("Keys and colours", h("div", {},
      h("table", { class: "keys" },
        h("tbody", {}, keys.map(([key, text]) => h("tr", {}, h("th", { scope: "row" }, h("kbd", {}, key)),
        h("td", {}, text))))),
      h("p", {}, h("label", {}, off, " no single keys")), h("p", {}, h("label", {}, "Colours ", theme))), "Close");
  }
  theme(value) {
    if (value) document.documentElement.dataset.theme = value; else delete document.documentElement.dataset.theme;
  }
}

async function main() {
  try {
    const answer = await fetch("office.json", { cache: "no-cache" });
    if (!answer.ok) throw new Error(`office.json: status ${answer.status}`);
    const app = new App(new Facts(await answer.json()));
    await app.start();
  } catch (error) {
    $("state").textContent = `This page cannot start: ${error.message}. It is set up by page/make_office.py (docs/PAGE.md).`;
    $("state").className = "bad";
    throw error;
  }
}
main();
