// Refusals in plain words: what is wrong, what to do, and the field that it speaks of. What no request of this page
// brings about is told in the words of docs/REQUESTS.md (office.json).
import { minuteOf } from "./times.js";

const FULL = "A new journal has to be begun; tell whoever keeps the office.";
const OWN = {
  K1: () => ["The office has no desk of this name.", "Choose another desk above."],
  K2: () => ["This desk was used elsewhere meanwhile; this request was not carried out.",
    "Look at the board, then do it again."],
  K3: () => ["This desk was used elsewhere meanwhile, and the office no longer tells whether this request was carried out.",
    "Look at the products and the board before you do it again."],
  K4: () => ["The office counts this desk's requests otherwise than this page.",
    "Do it again: the page now has the office's number."],
  C1: () => ["The clock of the office's machine is wrong.", "It has to be set before anything can be sent."],
  E1: () => ["This draft is gone: it was sent or discarded.", "Preview again."],
  E2: (r) => [`Desk ${r.owner} owns this draft.`,
    "Leave it to that desk, or take it over when it has lain for ten minutes."],
  E3: (r, f) => [`Another desk touched this draft less than ten minutes ago.`,
    `It can be taken over from ${f.both(minuteOf(r.free_at))}.`],
  E4: (r, f) => [`The office has ${f.limits.drafts} drafts open.`, "Discard one that nobody needs."],
  E11: (r) => [`A sign that cannot be sent stands at place ${r.at + 1}.`, "Take it out."],
  E12: (r, f) => [`The text is longer than ${f.limits.text} bytes.`, "Shorten it."],
  L2: (r, f) => [`${f.eventText(r.event)} is no longer open.`, "Issue it anew if it is still needed."],
  L3: (r, f) => [`${f.eventText(r.event)} is not in force in ${f.zoneText(r.zone)}.`, "Take that zone out."],
  L4: (r, f) => [`${f.eventText(r.event)} has run out in ${f.zoneText(r.zone)}, and nothing has said so.`,
    "Expire it there first, or issue it anew."],
  L5: (r, f) => [`Two parts speak of ${f.eventText(r.event)} in ${f.zoneText(r.zone)}.`,
    "Take the zone out of one of them."],
  L6: () => ["The begin has passed, or the end is not after both the begin and now.",
    "Begin now or later, and end after that."],
  L7: (r, f) => [`${f.eventText(r.event)} has begun in ${f.zoneText(r.zone)}, so its begin cannot move.`,
    "Choose Now as begin: it keeps the begin that it has."],
  L12: (r, f) => [`${f.eventText(r.first)} and ${f.eventText(r.second)} would both be in force in ${f.zoneText(r.zone)}, and they are of one kind.`,
    "End one of them there in this product, or shorten one."],
  L13: (r, f) => [`Its number is still that of ${f.eventText(r.event)} of ${r.event.slice(10)}, which is open.`,
    "End that one first, or wait until it is over for half an hour."],
  L15: (r) => [`Only the last product of its kind can be corrected, which is ${r.last}.`,
    `Correct product ${r.last}.`],
  L16: () => ["Nothing that this product speaks of is in force any more.", "Send a new product."],
  L17: () => ["This product has been corrected as often as it can be (CCX).", "Send a new one: Continue."],
  L18: (r) => [`The product would have ${r.lines} lines; 2,000 are the most.`,
    "Send it in two, with fewer zones each."],
  L19: (r) => [`The text would have ${r.bytes} bytes; 65,536 are the most.`,
    "Shorten the texts, or name fewer zones."],
  L20: () => ["The office's journal is full of products.", FULL],
  L21: () => ["The office's journal is full.", FULL],
};

const BESIDE = { hazard: "E8 E10 L2 L13 L14", zones: "E7 E9 E13 L3 L4 L5 L12 L18", begin: "L7", end: "L6 L8",
  flood: "L9 L10 L11" };

/** {told, field}: what is wrong, what to do and the code; the field of the form, undefined where it speaks of none. */
export function wordsOf(refusal, facts) {
  const known = facts.refusals[refusal.no], own = OWN[refusal.no];
  const [text, remedy] = own ? own(refusal, facts) : [
    known ? `Refused where ${known.when}.` : "The office refused this.", known?.remedy ? `${known.remedy}.` : ""];
  const named = ["J2", "E11", "E12"].includes(refusal.no) && refusal.field;
  const field = named || Object.keys(BESIDE).find((one) => BESIDE[one].split(" ").includes(refusal.no));
  return { told: `${text} ${remedy} (${refusal.no} ${refusal.rule ?? known?.rule ?? ""})`, field };
}

/** The part of the form that a refusal of the whole product speaks of: by its place, event, hazard or zone. */
export function placeOf(refusal, parts) {
  if (typeof refusal.place === "number") return refusal.place;
  const events = [refusal.event, refusal.first, refusal.second].filter(Boolean);
  const names = (part) => events.some((e) => part.event === e || (part.kind === "new" &&
    e.startsWith(`${part.hazard}.`)));
  const at = (test) => parts.findIndex(test);
  const both = at((p) => names(p) && (!refusal.zone || p.zones.includes(refusal.zone)));
  if (both >= 0) return both;
  const event = events.length ? at(names) : at((p) => refusal.hazard && p.hazard === refusal.hazard);
  if (event >= 0) return event;
  return Math.max(0, refusal.zone ? at((p) => p.zones.includes(refusal.zone)) : 0);
}

/** Why a request still waits, in words. */
export function waitingText(state) {
  const what = state.words || "A request";
  if (state.why === "D1") return `The office's disk failed at: ${what}. It is sent again until it is kept.`;
  if (state.why === "M1") return `The office is out of memory at: ${what}. It is sent again.`;
  if (state.why === "P2") return `The proxy asks for patience at: ${what}. It is sent again.`;
  if (/^status 40[13]$/.test(state.why) ||
    state.why === "P3") return `The proxy does not let this browser in (${state.why}): sign in again in another tab. ${what} is sent again.`;
  return `No answer from the office yet to: ${what}. It is sent again until there is one; it cannot go out twice.`;
}
