// The fields of a part: times, zones, texts, flood values. Each changes its part and calls `changed`.
import { h, newId, para, small, faultPlace, askPerson } from "./dom.js";
import { combo } from "./combo.js";
import { fieldOf, minutesOfField, utcText, offsetAt, spanText, minuteOf } from "./times.js";
import { findZones, readZones, runsOf } from "./zones.js";
import { faultOf, madePlain, bytesOf, joined } from "./texts.js";
import { FIELDS, FIELD_NAMES, noFlood } from "./requests.js";
import { kept, keep } from "./store.js";

/** A group of controls with a place for what is wrong with it. */
export function field(name, title, ...children) {
  const id = newId();
  return h("fieldset", { class: `field f-${name}`, "data-field": name, "aria-describedby": id },
    h("legend", {}, title), children, faultPlace(id));
}

/**
 * A minute, in local time with UTC beside it. `none` names the choice that is null (Now, Until further notice);
 * `value` is undefined while the time is not whole. `quick` gives hours to add to `from()`.
 */
export function timeField({ label, none, value, set, facts, minute, quick = [], from }) {
  const zone = facts.local_zone, name = newId(), told = h("span", { class: "utc" });
  const input = h("input", { type: "datetime-local", step: 60, "aria-label": `${label}, local time`,
    value: typeof value === "number" ? fieldOf(value, zone) : "" });
  const at = none && h("input", { type: "radio", name, checked: value !== null });
  const never = none && h("input", { type: "radio", name, checked: value === null });
  const second = small("", null, { hidden: true });
  let now = value;

  function tell() {
    second.hidden = true;
    if (now === null) { told.textContent = ""; return; }
    const meant = minutesOfField(input.value, zone);
    if (!input.value) told.textContent = "";
    else if (!meant.length) told.textContent = "this hour is left out: clocks go forward";
    else {
      const off = now - minute();
      told.textContent = `${offsetAt(zone, now).name} = ${utcText(now)}, ${off > 0 ? `in ${spanText(off)}` : off === 0 ? "this minute" : `${spanText(-off)} ago`}`;
      told.classList.toggle("past", off < 0);
      if (meant.length === 2) {
        const other = meant.find((m) => m !== now);
        second.hidden = false;
        second.textContent = `take it as ${offsetAt(zone, other).name}`;
        second.onclick = () => { now = other; set(now); tell(); };
      }
    }
  }
  function take(minuteNow) {
    now = minuteNow;
    if (at) { at.checked = now !== null; never.checked = now === null; }
    input.value = typeof now === "number" ? fieldOf(now, zone) : "";
    set(now);
    tell();
  }
  input.addEventListener("input", () => { const meant = minutesOfField(input.value, zone); now = meant[0];
    if (at) at.checked = true; set(now); tell(); });
  at?.addEventListener("change", () => { take(minutesOfField(input.value, zone)[0]); input.focus(); });
  never?.addEventListener("change", () => take(null));
  tell();
  const more = quick.map((hours) => small(`+${hours} h`, () => take(from.minute() + hours * 60),
    { title: `${hours} hours after ${from.words}` }));
  return h("div", { class: "when" }, none ? [h("label", {}, never, ` ${none}`), h("label", {}, at, " at")] : null,
    input, told, second,
    more.length ? h("span", { class: "quick" }, more) : null);
}

/** Zones: a field that finds them by name, code, run or group, and the chosen ones as chips; one button takes `all`. */
export function zonesField({ part, facts, kind, changed, root, all }) {
  const chips = h("ul", { class: "chips", "aria-label": "Chosen zones" }), told = para("hint");
  const fault = faultPlace();
  const groups = () => kept(`${root}.groups`, {});
  let most = 60;
  function say(text) { fault.textContent = text; fault.hidden = !text; }
  function add(codes) {
    const wrong = codes.filter((code) => code[2] !== kind);
    part.zones = [...new Set([...part.zones, ...codes])].filter((code) => !wrong.includes(code)).sort();
    say(wrong.length ? `${wrong.slice(0, 4).join(", ")}: no ${kind === "C" ? "county" : "forecast zone"}.` : "");
    draw();
    changed();
  }
  /** Whether the text named zones and nothing else. */
  function read(text) {
    const { codes, unknown } = readZones(text, facts, groups());
    if (codes.length) add(codes);
    if (unknown.length) say(`The office has no zone ${unknown.join(", ")}.`);
    return !unknown.length && codes.length > 0;
  }
  const { field: input, box } = combo({
    label: "Add zones by name, code or run", placeholder: kind === "C" ? "county or code" : "name, MDZ003 or MDZ003>006",
    find: (text) => findZones(text, facts, kind, groups(), part.zones).map((f) => (f.group
      ? { text: f.group, note: `your group of ${f.codes.length}`, value: f.codes }
      : { text: facts.zoneText(f.code), value: [f.code] })),
    take: (value, text) => { if (value) add(value); else if (!read(text)) input.value = text; } });
  input.addEventListener("blur", () => {
    const { codes, unknown } = readZones(input.value, facts, groups());
    if (codes.length && !unknown.length) { add(codes); input.value = ""; }
  });
  function draw() {
    const shown = part.zones.slice(0, most);
    chips.replaceChildren(...shown.map((code) => h("li", { class: code[2] === kind ? "" : "wrong" },
      facts.zoneText(code),
      h("button", { "aria-label": `Take out ${facts.zoneText(code)}`, onclick: () => {
        const at = part.zones.indexOf(code);
        part.zones = part.zones.filter((z) => z !== code);
        draw();
        changed();
        (chips.children[Math.min(at, chips.children.length - 1)]?.querySelector("button") ?? input).focus();
      } }, "×"))));
    if (part.zones.length > most) {
      chips.append(h("li", {}, small(`and ${part.zones.length - most} more`, () => { most = 600; draw(); })));
    }
    told.textContent = part.zones.length > 2
      ? `${part.zones.length} zones: ${runsOf(part.zones).slice(0, 12).join("-")}` : "";
    none.hidden = part.zones.length < 2;
    save.hidden = part.zones.length < 2;
  }
  const save = small("Keep as a group", async () => {
    const name = h("input", { type: "text", maxlength: 40, autocomplete: "off" });
    const yes = await askPerson(`A group of ${part.zones.length} zones`,
      h("p", {}, h("label", {}, "Its name ", name)), "Leave it", "Keep it");
    const word = name.value.trim();
    if (!yes || !word) return;
    keep(`${root}.groups`, { ...groups(), [word]: part.zones });
    told.textContent = `Kept as ${word}: type it to add these zones.`;
  });
  const none = small("Take all out", () => { part.zones = []; draw(); changed(); input.focus(); });
  const every = small(`All ${all.length}`, () => add(all));
  draw();
  return h("div", {}, chips, box, para("row", every, none, save), told, fault);
}

/** The four texts, each with its bytes and the first thing that cannot be sent. */
export function textsField({ texts, facts, changed, open = true }) {
  const box = h("div", { class: "texts" });
  for (const name of FIELDS) {
    const id = newId(), told = h("span", { class: "bytes" }), wrong = faultPlace(id);
    const mend = small("Make it plain", () => { area.value = madePlain(area.value); took(); area.focus(); });
    const area = h("textarea", { rows: name === "what" ? 3 : 2, "aria-describedby": id, value: texts[name],
      spellcheck: true });
    function look() {
      const fault = faultOf(area.value.trim(), facts.limits.text), bytes = bytesOf(joined(area.value).trim());
      told.textContent = bytes
        ? `${bytes.toLocaleString("en-US")} of ${facts.limits.text.toLocaleString("en-US")} bytes` : "";
      told.classList.toggle("past", bytes > facts.limits.text);
      wrong.textContent = fault
        ? `${fault.text} (${fault.code}${fault.code === "E11" ? `, at ${fault.at + 1}` : ""}).` : "";
      wrong.hidden = !fault;
      mend.hidden = !fault?.mends;
      area.toggleAttribute("aria-invalid", Boolean(fault));
    }
    const took = () => { texts[name] = area.value; look(); changed(); };
    area.addEventListener("input", took);
    look();
    box.append(h("div", { class: "text", "data-field": name }, h("label", {}, FIELD_NAMES[name], area),
      para("row", told, mend), wrong));
  }
  return open ? box : h("details", { open: FIELDS.some((f) => texts[f]) }, h("summary", {}, "Texts (not needed)"),
    box);
}

/** Flood values: H-VTEC in words. The forecast point of an open event cannot change. */
export function floodField({ part, facts, minute, changed, fixed }) {
  part.flood ??= noFlood();
  const { flood } = part, set = (key) => (value) => { flood[key] = value; changed(); };
  const pick = (key, title, values) => {
    const select = h("select", { onchange: () => set(key)(select.value) }, h("option", { value: "" }, "choose"),
      Object.entries(values).map(([code, name]) => h("option", { value: code }, `${code}: ${name}`)));
    select.value = flood[key];
    return h("label", {}, title, select);
  };
  const site = h("input", { type: "text", maxlength: 5, size: 7, value: flood.site, spellcheck: "false",
    autocomplete: "off", disabled: fixed,
    oninput: () => { site.value = site.value.toUpperCase(); set("site")(site.value); } });
  const no = small("none (00000)", () => { site.value = "00000"; set("site")("00000"); }, { hidden: fixed });
  const times = [["begin", "Flood begins"], ["crest", "Crest"], ["end", "Flood ends"]].map(([key, title]) =>
    h("div", { class: "flood-time" }, h("span", { class: "lead" }, title),
    timeField({ label: title, none: "not given", value: flood[key], set: set(key), facts, minute })));
  return h("div", { class: "flood" }, h("div", { class: "row" }, h("label", {}, "Forecast point", site), no,
    pick("severity", "Severity", facts.flood.severity),
    pick("cause", "Cause", facts.flood.cause), pick("status", "Record", facts.flood.status)), times);
}

/** Flood values of a board's row, as the form has them. */
export const floodForm = (flood) => flood && { ...flood, begin: minuteOf(flood.begin), crest: minuteOf(flood.crest),
  end: minuteOf(flood.end) };
