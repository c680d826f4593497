// The parts of a product, as the form has them, and the requests that they become (docs/REQUESTS.md).
import { joined } from "./texts.js";
import { stampOf, NO_MINUTE } from "./times.js";

export const FIELDS = ["what", "area", "impacts", "details"];
export const FIELD_NAMES = { what: "What", area: "Where", impacts: "Impacts", details: "Additional details" };
export const noTexts = () => ({ what: "", area: "", impacts: "", details: "" });
export const noFlood = () => ({ site: "", severity: "", cause: "", begin: null, crest: null, end: null,
  status: "NO" });

/** A part: kind is new, join, end, restate or routine; begin is null for now, end null for until further notice. */
export function partOf(kind, more = {}) {
  return { kind, hazard: "", event: "", zones: [], begin: null, end: undefined, flood: null, texts: noTexts(),
    ...more };
}

export const hazardOfPart = (part) => part.hazard || part.event.slice(0, 4);

/** The draft's category: that of the first part that has a hazard. */
export function categoryOf(parts, facts) {
  const part = parts.find((one) => hazardOfPart(one));
  return part && facts.category(hazardOfPart(part), part.kind === "new");
}

const stampOrNone = (minute) => (minute === null || minute === undefined ? NO_MINUTE : stampOf(minute));

/** The fields of a part's request, behind desk, seq, do and draft. */
export function fieldsOf(part) {
  const texts = Object.fromEntries(FIELDS.map((f) => [f, joined(part.texts[f]).trim()]).filter(([, text]) => text));
  const fields = part.kind === "new" || part.kind === "routine" ? { hazard: part.hazard } : { event: part.event };
  fields.zones = [...part.zones];
  if (part.kind === "new" || part.kind === "join") {
    fields.begin = part.begin === null ? "now" : stampOf(part.begin);
    fields.end = part.end === null ? "ufn" : stampOf(part.end);
    if (part.flood) {
      const { begin, crest, end } = part.flood;
      fields.flood = { ...part.flood, begin: stampOrNone(begin), crest: stampOrNone(crest), end: stampOrNone(end) };
    }
  }
  if (Object.keys(texts).length) fields.texts = texts;
  return fields;
}

const WORDS = { new: "put", join: "put", end: "end", restate: "restate", routine: "routine" };
export const requestOf = (part, draft) => ({ do: WORDS[part.kind], draft, ...fieldsOf(part) });

/** A part in words: the line above its card, and in the question before Send. */
export function partInWords(part, facts, most = 600) {
  const name = part.event ? facts.eventText(part.event) : facts.hazardName(part.hazard);
  const zones = facts.zonesInWords(part.zones, most);
  const end = part.end === null ? "until further notice" : part.end ? `until ${facts.both(part.end)}` : "";
  const begin = part.begin === null ? "" : `from ${facts.both(part.begin)} `;
  switch (part.kind) {
    case "new": return `New ${name} for ${zones}, ${begin}${end}`;
    case "join": return `${name} for ${zones}, ${begin}${end}`;
    case "end": return `End ${name} in ${zones}`;
    case "restate": return `${name} goes on in ${zones}`;
    default: return `Routine word on ${name} for ${zones}`;
  }
}

/** What the form itself can see is missing or wrong: {part, field, text}. The office sees the rest. */
export function lacksOf(parts, facts, faultOfText) {
  const lacks = [], add = (part, field, text) => lacks.push({ part, field, text });
  const wanted = categoryOf(parts, facts);
  parts.forEach((part, i) => {
    const hazard = facts.hazard(hazardOfPart(part));
    if (!hazard) { add(i, "hazard", "Choose a hazard."); return; }
    if (facts.category(hazard.code, part.kind === "new") !== wanted) {
      add(i, "hazard", `A ${hazard.name} goes out in another kind of product (${facts.category(hazard.code, part.kind === "new")}, ` +
        `not ${wanted}): send it by itself.`);
    }
    if (!part.zones.length) add(i, "zones", `Name at least one ${hazard.kind === "C" ? "county" : "zone"}.`);
    if (part.zones.length > facts.limits.zones) add(i, "zones", `At most ${facts.limits.zones} zones in one part.`);
    const wrong = part.zones.filter((zone) => zone[2] !== hazard.kind);
    if (wrong.length) add(i, "zones",
      `${hazard.name} is for ${hazard.kind === "C" ? "counties" : "forecast zones"}: take out ${wrong.slice(0, 5).join(", ")}.`);
    if (part.kind === "new" || part.kind === "join") {
      if (part.begin === undefined) add(i, "begin", "Give the begin, or take Now.");
      if (part.end === undefined) add(i, "end", "Give the end.");
      if (part.flood) floodLacks(part.flood).forEach((text) => add(i, "flood", text));
    }
    for (const field of FIELDS) {
      const fault = faultOfText(part.texts[field].trim(), facts.limits.text);
      if (fault) add(i, field, `${fault.text}.`);
    }
  });
  return lacks;
}

function floodLacks(flood) {
  const lacks = [];
  if (!/^[A-Z0-9]{5}$/.test(flood.site)) lacks.push("The forecast point has five letters or digits; 00000 where there is none.");
  if (!flood.severity) lacks.push("Choose the severity.");
  if (!flood.cause) lacks.push("Choose the cause.");
  if ([flood.begin, flood.crest, flood.end].includes(undefined)) lacks.push("A time of the flood is not whole.");
  return lacks;
}
