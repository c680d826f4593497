// The board: what is in force, what is yet to begin, what has just run out; by event or by zone.
import { $, h, put, para, many, drawParts } from "./dom.js";
import { byEvent, byZone, holdsWords, stateOf, floodOf } from "./board.js";
import { offersOf } from "./offers.js";
import { names } from "./products.js";
import { runsOf } from "./zones.js";
import { levelOf } from "./facts.js";
import { spanText, utcText, minuteOf } from "./times.js";
import { kept, keep } from "./store.js";

export const chip = (hazard) => h("span", { class: `chip ${levelOf(hazard)}` }, hazard);

export class BoardView {
  constructor(app) {
    this.app = app;
    this.open = "";
    this.parts = [];
    const mode = kept(`${app.root}.mode`, "event");
    this.input = h("input", { type: "search", id: "filter", placeholder: "hazard, event, zone or name",
      "aria-label": "Filter the board", autocomplete: "off",
      oninput: () => this.draw(), onkeydown: (event) => this.key(event) });
    this.radios = ["event", "zone"].map((value) => h("input", { type: "radio", name: "mode", value,
      checked: value === mode,
      onchange: () => { keep(`${app.root}.mode`, value); this.open = ""; this.draw(); } }));
    this.told = h("p", { class: "told", role: "status" });
    this.body = h("div", { id: "board-body" });
    $("board").append(h("div", { class: "tools" }, this.input, h("fieldset", { class: "switch" },
      h("legend", { class: "hear" }, "Order"), this.radios.map((one) => h("label", {}, one, ` by ${one.value}`))),
      this.told), this.body);
  }
  get mode() { return this.radios[1].checked ? "zone" : "event"; }
  show() { this.draw(); }
  deskChanged() { this.draw(); }
  filter() { this.input.focus(); this.input.select(); }
  escape() {
    if (this.open) { const key = this.open; this.open = ""; this.draw(); this.#focus(key);
      } else if (this.input.value) { this.input.value = ""; this.draw(); }
  }
  key(event) {
    if (event.key === "ArrowDown" || event.key === "ArrowUp") {
      event.preventDefault();
      this.#step(event.key === "ArrowDown" ? 1 : -1);
    }
  }
  #step(by) {
    const rows = [...this.body.querySelectorAll("button.event")];
    const at = rows.indexOf(document.activeElement);
    rows[Math.max(0, Math.min(rows.length - 1, at + by))]?.focus();
  }
  #focus(key) { this.body.querySelector(`button.event[data-key="${CSS.escape(key)}"]`)?.focus(); }

  draw() {
    const { app } = this, { watch } = app;
    if (app.view !== "board" || !watch.rows) return;
    const minute = watch.minute(), words = this.input.value.trim().toLowerCase().split(/\s+/).filter(Boolean);
    const sign = [watch.text, this.mode, words, this.open, app.writes, app.desk?.name, watch.last,
      watch.lapsed.length].join("\n");
    const typed = `${this.mode} ${words}`, other = typed !== this.typed;
    if (sign === this.sign && (minute === this.minute || this.#passes(minute))) return;
    Object.assign(this, { sign, minute, typed });
    const focused = this.body.contains(document.activeElement) ? document.activeElement : null;
    const key = focused?.dataset.key, act = focused?.dataset.act;
    this.#sections(words, minute, other ? [] : this.parts.map((one) => one.drawn()));
    if (act) this.body.querySelector(`button[data-act="${act}"]`)?.focus();
    else if (key) this.#focus(key);
  }

  /** A minute on: what is left is told anew in its place, unless a row begins, ends, or comes near its end. */
  #passes(minute) {
    const all = [...this.app.watch.rows, ...this.app.watch.lapsed];
    const marks = (row, at) =>
      `${stateOf(row, at)} ${row.end !== null && Math.abs(row.end - at) <= 30} ${row.end + 30 < at}`;
    if (all.some((row) => marks(row, minute) !== marks(row, this.minute))) return false;
    for (const { left, group, state } of this.lefts) put(left, this.#left(group, minute, state));
    this.minute = minute;
    return true;
  }

  #sections(words, minute, drawn) {
    const { watch, facts } = this.app;
    this.parts.forEach((one) => one.stop());
    this.parts = [];
    this.lefts = [];
    // What the office has on its board is shown, whatever the clock here says of its end.
    const parts = { now: [], coming: [], over: watch.lapsed.filter((row) => row.end + 30 >= minute) };
    for (const row of watch.rows) (parts[stateOf(row, minute)] ?? parts.now).push(row);
    const group = (rows) => (this.mode === "zone" ? byZone(rows) : byEvent(rows))
      .filter((g) => holdsWords(g, words, facts));
    const sections = [["In force", "now"], ["Yet to begin", "coming"], ["Ran out within the last half hour", "over"]];
    const live = [...parts.now, ...parts.coming], counted = (name) => new Set(live.map((row) => row[name])).size;
    this.told.textContent = live.length ? `${many(counted("event"), "event")} in ${many(counted("zone"), "zone")}` : "";
    const children = [], bodies = [];
    for (const [title, name] of sections) {
      const groups = group(parts[name]);
      if (!groups.length && name !== "now") continue;
      const body = h("tbody"), heads = [...(this.mode === "zone" ? ["Zone", "Hazard"] : ["Hazard", "Zones"]), "Begin",
        "End", name === "coming" ? "Begins" : name === "over" ? "Ended" : "Left"];
      const empty = !groups.length && para("none", words.length ? "Nothing in force fits the filter."
        : "Nothing is in force.");
      children.push(h("h2", {}, `${title} `, h("small", {}, groups.length ? String(groups.length) : "")), empty ||
        h("table", { class: `rows ${name} by-${this.mode}` },
          h("thead", {}, h("tr", {}, heads.map((head) => h("th", { scope: "col" }, head)))), body));
      if (groups.length) bodies.push([body, groups, name]);
    }
    put(this.body, ...children);
    const part = this.mode === "zone" ? 8 : 40;
    this.parts = bodies.map(([body, groups, name], i) => drawParts(body, groups, (g) => this.#group(g, minute, name),
      part, Math.max(part, drawn[i] ?? 0)));
  }

  #group(group, minute, name) {
    const fragment = document.createDocumentFragment();
    if (this.mode === "event") {
      fragment.append(this.#row(group, group.key, minute, name, null));
      if (this.open === group.key) fragment.append(this.#details(group, minute));
      return fragment;
    }
    group.rows.forEach((row, i) => {
      const key = `${row.zone} ${row.event}`, one = { ...row, zones: [row.zone], key };
      fragment.append(this.#row(one, key, minute, name, i === 0 ? group : ""));
      if (this.open === key) fragment.append(this.#details(one, minute));
    });
    return fragment;
  }

  #row(group, key, minute, name, zone) {
    const { facts } = this.app, state = name === "over" ? "over" : stateOf(group, minute);
    const turn = () => {
      this.open = this.open === key ? "" : key;
      this.draw();
      this.#focus(key);
    };
    const button = h("button", { class: "event", "data-key": key, "aria-expanded": String(this.open === key), onclick: turn },
      chip(group.hazard), h("span", { class: "name" }, facts.hazardName(group.hazard)),
      h("span", { class: "number" }, group.event.slice(5)));
    const time = (m) => (m === null ? h("td", {}, "until further notice")
      : h("td", { class: "time" }, facts.local(m), h("small", {}, utcText(m))));
    const hazard = h("th", { scope: "row", class: "hazard" }, button);
    const zones = h("td", { class: "zones" }, this.#zones(group.zones));
    const first = zone === null ? [hazard, zones]
      : [h("td", { class: "zone" }, zone ? [h("span", { class: "code" }, zone.zone), " ", facts.zoneName(zone.zone)]
        : ""), hazard];
    const left = h("td", { class: "left" }, this.#left(group, minute, state));
    this.lefts.push({ left, group, state });
    return h("tr", { class: `${state} ${levelOf(group.hazard)}${zone === "" ? " same" : ""}` }, first,
      time(group.begin), time(group.end), left);
  }
  #left(group, minute, state) {
    if (state === "coming") return `in ${spanText(group.begin - minute)}`;
    if (group.end === null) return "open";
    if (state === "over") return `${spanText(minute - group.end)} ago`;
    const left = spanText(group.end - minute);
    return state === "soon" ? h("strong", { class: "soon" }, `ends in ${left}`) : left;
  }
  #zones(codes) {
    const { facts } = this.app, names = codes.slice(0, 5).map((code) => facts.zoneName(code) || code);
    const more = codes.length > 5 ? ` and ${codes.length - 5} more` : "";
    return [h("span", { class: "code" }, runsOf(codes).slice(0, 6).join(" "), codes.length > 40 ? " .." : ""), " ",
      names.join(", ") + more];
  }

  #details(group, minute) {
    const { app } = this, { facts, watch } = app;
    const all = [...watch.rows, ...watch.lapsed].filter((row) => row.event === group.event);
    const zones = [...new Set(all.map((row) => row.zone))].sort();
    const offers = offersOf(all, minute, facts, watch.newest);
    const flood = group.flood && floodOf(group.flood);
    const product = [...watch.products.values()].filter((p) => names(p, group.event))
      .sort((a, b) => b.number - a.number)[0];
    const list = [["Zones", `${zones.length}: ${facts.zonesInWords(zones, 60)}`]];
    if (flood) list.push(["Flood", this.#flood(flood)]);
    const last = product && h("p", {}, "Last told in ", h("a", { href: `#products/${product.number}` },
      `product ${product.number}`), ".");
    const buttons = app.desk ? offers.map((offer) => h("button", { "data-act": offer.act, "data-key": this.open,
      disabled: !app.writes,
      title: offer.says, onclick: () => app.views.compose.follow(offer, group, all) }, offer.name))
        : [h("p", {}, "Choose a desk above to follow it up.")];
    return h("tr", { class: "details" }, h("td", { colspan: "5" },
      h("div", { class: "offers", role: "group", "aria-label": `Follow up ${facts.eventText(group.event)}` },
        buttons),
      h("dl", {}, list.map(([name, text]) => [h("dt", {}, name), h("dd", {}, text)])), last));
  }
  #flood(flood) {
    const { facts } = this.app, at = (name, stamp) => (minuteOf(stamp) === null ? ""
      : `, ${name} ${facts.both(minuteOf(stamp))}`);
    return `${flood.site === "00000" ? "no forecast point" : flood.site}, ${facts.flood.severity[flood.severity] ?? flood.severity}, ` +
      `${facts.flood.cause[flood.cause] ?? flood.cause}${at("begin", flood.begin)}${at("crest", flood.crest)}${at("end", flood.end)}`;
  }
}
