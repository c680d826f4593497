// What a desk may do with an event at this minute, by the rules of docs/PRODUCTS.md. The office decides; this only
// keeps from offering what it would refuse.
import { lineOf } from "./facts.js";
import { stateOf } from "./board.js";
import { names } from "./products.js";

const WINDOW = 30;

/**
 * `rows` are those of one event, live or lapsed within half an hour. `last` is the newest product of each category
 * (FLW with FLS), as read; a Map by category.
 */
export function offersOf(rows, minute, facts, last = new Map()) {
  if (!rows.length) return [];
  const hazard = facts.hazard(rows[0].hazard);
  if (!hazard) return [];
  const live = rows.filter((row) => stateOf(row, minute) !== "over");
  const near = (row) => row.end !== null && Math.abs(row.end - minute) <= WINDOW;
  const offers = [], offer = (act, name, says, more) => offers.push({ act, name, says, ...more });
  if (live.length) {
    offer("continue", "Continue", "say again that it goes on");
    offer("time", "Extend in time", "give it another end");
    offer("area", "Extend in area", "add zones to it");
  }
  if (live.some((row) => !near(row))) offer("cancel", "Cancel", "end it before its time");
  if (rows.some(near)) offer("expire", "Expire", "let it run out");
  if (live.length) {
    const kin = facts.kin(hazard.code);
    if (kin.some((other) => other.rank > hazard.rank)) {
      offer("upgrade", "Upgrade", "to a higher hazard of its kind");
    }
    if (kin.some((other) => other.rank <= hazard.rank)) {
      offer("replace", "Replace", "by another hazard of its kind");
    }
    const product = last.get(lineOf(hazard.follows));
    if (product && names(product, rows[0].event)) {
      offer("correct", "Correct", `the texts of product ${product.number}`, { product: product.number });
    }
    if (!hazard.flood) offer("routine", "Routine update", "a word without an event number");
  }
  return offers;
}

/** The rows that an offer is for: to cancel, those not near their end; to expire, those that are; else the live ones. */
export function rowsFor(act, rows, minute) {
  const near = (row) => row.end !== null && Math.abs(row.end - minute) <= WINDOW;
  if (act === "expire") return rows.filter(near);
  const live = rows.filter((row) => stateOf(row, minute) !== "over");
  return act === "cancel" ? live.filter((row) => !near(row)) : live;
}
