// Product texts, read as the office writes them (docs/PRODUCTS.md): what is said of which event, and its bullets.
import { dateOf, minuteOf, minuteOfMillis, HOURS, MONTHS, NO_MINUTE } from "./times.js";
import { FIELDS, noTexts } from "./requests.js";

const LINE = /^\/([OTEX])\.([A-Z]{3})\.([A-Z0-9]{4})\.([A-Z]{2})\.([A-Z])\.(\d{4})\.(.{12})-(.{12})\/$/;
const LABELS = { WHAT: "what", WHERE: "area", WHEN: "when", IMPACTS: "impacts", "ADDITIONAL DETAILS": "details" };
const ORDER = ["what", "area", "when", "impacts", "details"];

/** `1030 AM EST Wed Jan 3 2018` as a minute. */
function minuteOfLocal(line) {
  const m = /^(\d{1,2})(\d\d) (AM|PM) ([A-Z]{3,4}) \w{3} (\w{3}) (\d{1,2}) (\d{4})$/.exec(line);
  if (!m || !(m[4] in HOURS)) return null;
  const hour = (m[1] % 12) + (m[3] === "PM" ? 12 : 0);
  return minuteOfMillis(Date.UTC(+m[7], MONTHS.indexOf(m[5]), +m[6], hour - HOURS[m[4]], +m[2]));
}

/** Category, minute and segments of a text; of each segment its UGC, its lines and its bullets. */
export function readProduct(text, number) {
  const lines = text.split("\n"), product = { number, text, category: (lines[1] ?? "").slice(0, 3), segments: [] };
  product.corrected = / CC[A-X]$/.test(lines[0] ?? "");
  product.minute = minuteOfLocal(lines[5] ?? "");
  for (let at = 6; at < lines.length; at += 1) {
    if (!/^[A-Z]{2}[CZ]\d{3}[->]/.test(lines[at])) continue;
    const segment = { ugc: "", lines: [], bullets: [] };
    while (at < lines.length && !lines[at].startsWith("/") && lines[at] !== "$$") segment.ugc += lines[at++];
    segment.zones = zonesOfUgc(segment.ugc);
    for (; at < lines.length && lines[at] !== "$$"; at += 1) {
      const line = LINE.exec(lines[at]), last = segment.bullets.at(-1);
      const bullet = /^\* ([A-Z ]+?)\.\.\.(.*)$/.exec(lines[at]);
      if (line) segment.lines.push(lineOf(line, lines[at + 1]));
      else if (bullet && LABELS[bullet[1]]) segment.bullets.push({ field: LABELS[bullet[1]], text: bullet[2] });
      else if (last && lines[at].startsWith("  ")) {
        const next = lines[at].trim();
        last.text += (isCut(lines[at - 1], next) ? "" : " ") + next;
      }
    }
    product.segments.push(segment);
  }
  product.year = product.minute === null ? 0 : dateOf(product.minute).getUTCFullYear();
  product.numbers = new Set(product.segments.flatMap((s) => s.lines.filter((l) => l.etn).map((l) => l.key)));
  return product;
}

/** Whether a word of more than 64 signs was cut between two lines: the first is full then, with 66 signs. */
const isCut = (line, next) =>
  line.length === 66 && line.length - line.lastIndexOf(" ") - 1 + next.split(" ")[0].length > 64;

function lineOf(m, next) {
  const hazard = `${m[4]}.${m[5]}`;
  return { action: m[2], hazard, etn: Number(m[6]), key: `${hazard}.${m[6]}`, end: m[8] === NO_MINUTE ? null
    : minuteOf(m[8]),
    flood: /^\/[A-Z0-9]{5}\..{47}\/$/.test(next ?? "") ? next : "" };
}

/** The zones of a UGC text, without its expiry (10-1702). */
export function zonesOfUgc(ugc) {
  const zones = [];
  let head = "";
  for (const group of ugc.split("-").filter(Boolean)) {
    const m = /^([A-Z]{2}[CZ])?(\d{3})(?:>(\d{3}))?$/.exec(group.trim());
    if (!m) continue;
    head = m[1] ?? head;
    for (let n = Number(m[2]); n <= Number(m[3] ?? m[2]); n += 1) zones.push(head + String(n).padStart(3, "0"));
  }
  return zones;
}

const HAS_WHEN = (line) => !["CAN", "EXP", "UPG", "ROU"].includes(line.action);

/**
 * Bullets by line of a segment. Each line's stand together, in the order of the lines, and have the order WHAT, WHERE,
 * WHEN, IMPACTS, DETAILS; WHEN stands for just the lines that have one (in edition One for none). Where more than one
 * reading is left, a line that ends something has the fewest.
 */
export function bulletsByLine({ lines, bullets }) {
  const whens = bullets.some((b) => b.field === "when");
  function read(i, from) {
    if (i === lines.length) return from === bullets.length ? [] : null;
    const when = whens && HAS_WHEN(lines[i]);
    let most = from;
    while (most < bullets.length &&
      (most === from || ORDER.indexOf(bullets[most].field) > ORDER.indexOf(bullets[most - 1].field))) most += 1;
    const ends = Array.from({ length: most - from + 1 }, (_, k) => (HAS_WHEN(lines[i]) || lines[i].action === "ROU"
      ? most - k : from + k));
    for (const end of ends) {
      const own = bullets.slice(from, end), rest = own.some((b) => b.field === "when") === when && read(i + 1, end);
      if (rest) return [Object.fromEntries(FIELDS.map((f) => [f, own.find((b) => b.field === f)?.text ?? ""])),
        ...rest];
    }
    return null;
  }
  return read(0, 0) ?? lines.map(() => noTexts());
}

/**
 * Whether a product speaks of an event that is open. Texts do not tell the year of an event that goes on over New
 * Year; while it is open no other one has its hazard and number.
 */
export const names = (product, event) => product.numbers.has(event.slice(0, 9)) &&
  product.year >= Number(event.slice(10));

/** An open event's texts in a product: those of the first segment that has any; null if it does not name it. */
export function textsOf(product, event) {
  if (!names(product, event)) return null;
  for (const segment of product.segments) {
    const sets = bulletsByLine(segment);
    const i = segment.lines.findIndex((line, k) => line.key === event.slice(0, 9) && Object.values(sets[k])
      .some(Boolean));
    if (i >= 0) return sets[i];
  }
  return noTexts();
}

/** What a text says, in the order of its segments: action, event and zones; equal lines of segments are joined. */
export function saysOf(product) {
  const said = new Map();
  for (const segment of product.segments) {
    for (const line of segment.lines) {
      const key = `${line.action} ${line.key}`;
      if (!said.has(key)) said.set(key, { ...line, zones: [] });
      said.get(key).zones.push(...segment.zones.filter((z) => !said.get(key).zones.includes(z)));
    }
  }
  return [...said.values()];
}

/** What may not change between looking at a text and sending it: zones, actions, events and ends, without the minute. */
export function senseOf(product) {
  return product.segments.map((s) => `${s.zones.join("-")} ${s.lines.map((l) =>
    `${l.action}.${l.key}.${l.end}.${l.flood}`).join(" ")} ${s.bullets.filter((b) =>
      b.field !== "when")
    .map((b) => b.field + b.text).join("|")}`).join("\n");
}
