// Drafts: those that this browser knows, checked against the office; taken over, looked at, sent, discarded.
import { $, h, put, para, askPerson } from "./dom.js";
import { call } from "./outbox.js";
import { minuteOf, spanText } from "./times.js";
import { partInWords } from "./requests.js";
import { partOfIntent } from "./view_compose.js";
import { kept, keep } from "./store.js";

export class DraftsView {
  constructor(app) {
    this.app = app;
    this.shown = new Map();
    this.list = h("div", { class: "drafts", "aria-live": "off" });
    this.told = h("p", { class: "hint", role: "status" });
    this.number = h("input", { type: "number", min: 1, max: 4294967295, "aria-label": "Number of a draft",
      placeholder: "number" });
    $("drafts").append(h("h1", {}, "Drafts"), h("p", { class: "hint" },
      "A draft is a product in preparation. Previews are drafts too, until they are sent or thrown away."),
      h("form", { class: "row", onsubmit: (event) => { event.preventDefault();
        this.#lookFor(Number(this.number.value)); } },
        h("button", { onclick: () => this.find() }, "Look for drafts of other desks"), h("span", {}, " or "),
          h("label", {}, "draft ", this.number), h("button", { type: "submit" }, "Look")),
      this.told, this.list);
  }
  get #key() { return `${this.app.root}.others`; }
  show() { this.refresh(); }
  deskChanged() { if (this.app.view === "drafts" && !this.app.desk?.busy) this.refresh(); }
  filter() { this.number.focus(); }
  tick() {
    const minute = this.app.watch.minute();
    if (minute !== this.minute) { this.minute = minute; this.#draw(); }
  }

  /** A draft as the office shows it; undefined where it has none, null without an answer. */
  async #ask(number) {
    const answer = await call(`/drafts/${number}`);
    if (answer?.status === 404) return undefined;
    if (answer?.status !== 200) return null;
    try { return JSON.parse(answer.text); } catch { return null; }
  }
  async refresh() {
    const turn = this.turn = (this.turn ?? 0) + 1, mine = this.app.desk?.drafts ?? [], others = kept(this.#key, []);
    const numbers = [...new Set([...mine, ...others])].sort((a, b) => a - b), found = new Map();
    for (const number of numbers) {
      const draft = await this.#ask(number);
      if (turn !== this.turn) return;
      if (draft === null) { this.told.textContent = "The office does not answer; this list may be old."; return; }
      if (draft) found.set(number, draft);
      else {
        this.app.desk?.forget(number);
        keep(this.#key, kept(this.#key, []).filter((n) => n !== number));
      }
    }
    this.shown = found;
    this.told.textContent = found.size ? "" : "This browser knows of no open draft.";
    $("draft-count").textContent = this.app.desk?.drafts.length || "";
    this.#draw();
  }
  /** Numbers only rise: open drafts are near the highest known. Slow, for the proxy's limit. */
  async find() {
    this.told.textContent = "Looking.";
    const known = [...(this.app.desk?.drafts ?? []), ...kept(this.#key, []), kept(`${this.app.root}.highest`, 0)];
    const high = Math.max(...known), found = [];
    let top = high;
    for (let number = Math.max(1, high - 80); number <= top + 64; number += 4) {
      const drafts = await Promise.all([0, 1, 2, 3].map((k) => this.#ask(number + k)));
      if (drafts.includes(null)) { this.told.textContent = "The office does not answer."; return; }
      for (const draft of drafts.filter(Boolean)) { found.push(draft.draft); top = Math.max(top, draft.draft); }
      await new Promise((go) => setTimeout(go, 99));
    }
    keep(`${this.app.root}.highest`, top);
    keep(this.#key, found);
    await this.refresh();
    if (!found.length) this.told.textContent = "No open draft was found near the numbers that this browser knows.";
  }
  async #lookFor(number) {
    if (!Number.isInteger(number) || number < 1) return;
    const draft = await this.#ask(number);
    if (!draft) { this.told.textContent = draft === undefined ? `There is no draft ${number}.`
      : "The office does not answer."; return; }
    keep(this.#key, [...new Set([...kept(this.#key, []), number])]);
    await this.refresh();
  }

  #draw() {
    const { app } = this;
    if (app.view !== "drafts") return;
    const key = document.activeElement?.dataset?.key;
    put(this.list, ...[...this.shown.values()].map((draft) => this.#card(draft)));
    if (key) this.list.querySelector(`[data-key="${key}"]`)?.focus();
  }
  #card(draft) {
    const { app } = this, { facts, watch } = app, number = draft.draft;
    const mine = draft.owner === app.desk?.name, touched = minuteOf(draft.touched), free = touched +
      facts.limits.idle, now = watch.minute();
    const rest = Math.max(0, free - now);
    const button = (word, text, run, more = {}) => h("button", { "data-key": `${word}${number}`,
      disabled: !app.writes || more.not, class: more.kind ?? "", onclick: run }, text);
    const half = mine && app.desk.unfinished === number && !app.desk.busy;
    const buttons = half ? [button("discard", "Discard", () => this.#discard(draft))] : mine
      ? [button("open", "Look it over and send", () => app.views.compose.adopt(draft),
        { kind: "main", not: !draft.intents.length }), button("discard", "Discard", () => this.#discard(draft))]
      : [button("take", rest ? `Take over in ${spanText(rest)}` : "Take over", () => this.#take(draft),
        { not: rest > 0 || !app.desk })];
    return h("article", { class: "card" }, h("h2", {}, `Draft ${number} `,
      h("small", {}, `${draft.category} ${facts.categories[draft.category]}`)),
      h("p", {}, mine ? "Yours" : `Of desk ${draft.owner}`, `, last touched at ${facts.both(touched)}.`),
      half ? para("warn", "Not finished: the page was closed while it was being made. The form has the whole; preview it again.") : null,
      draft.intents.length ? h("ul", {}, draft.intents.map((intent) => h("li", {}, partInWords(partOfIntent(intent),
        facts, 12)))) : para("hint", "Nothing is in it yet."),
      para("buttons", buttons));
  }
  async #take(draft) {
    const { app } = this;
    try {
      await app.desk.work((outbox) => outbox.ask({ do: "take", draft: draft.draft },
        `Take over draft ${draft.draft}`));
      app.tell(`Draft ${draft.draft} is yours now.`, "good");
    } catch (error) { app.failed(error, "Take over"); }
    this.refresh();
  }
  async #discard(draft) {
    const { app } = this;
    const yes = await askPerson(`Throw draft ${draft.draft} away?`,
      h("ul", {}, draft.intents.map((intent) => h("li", {}, partInWords(partOfIntent(intent), app.facts, 6)))),
      "Keep it", "Throw it away");
    if (!yes) return;
    try {
      const owner = await app.desk.work((outbox) => app.desk.discard(outbox, draft.draft));
      if (owner) app.tell(`Draft ${draft.draft} is desk ${owner}'s now: it was not thrown away.`, "bad");
      else app.tell(`Draft ${draft.draft} is gone.`, "good");
    } catch (error) { app.failed(error, "Discard"); }
    this.refresh();
  }
}
