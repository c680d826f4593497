// The board: a line for each live zone and event, as GET /board gives it (docs/COMMANDS.md).
import { minuteOf, NO_MINUTE } from "./times.js";

const ROW = /^([A-Z]{2}[CZ]\d{3}) ([A-Z]{2}\.[A-Z]\.\d{4}\.\d{4}) (\d{6}T\d{4}Z)-(\d{6}T\d{4}Z)(?: (\/.{52}\/))?$/;

/** Rows of a board's text. A line of another form is no board of this office: that is a fault, not a shorter board. */
export function readBoard(text) {
  const rows = [], known = new Map([[NO_MINUTE, null]]);
  const at = (stamp) => { if (!known.has(stamp)) known.set(stamp, minuteOf(stamp)); return known.get(stamp); };
  if (text !== "" && !text.endsWith("\n")) throw new Error("the board's text is cut short");
  for (const line of text.split("\n")) {
    if (line === "") continue;
    const m = ROW.exec(line), begin = m && at(m[3]), end = m && at(m[4]);
    if (!m || begin === null ||
      (end === null && m[4] !== NO_MINUTE)) throw new Error(`no line of a board: ${line.slice(0, 60)}`);
    rows.push({ zone: m[1], event: m[2], hazard: m[2].slice(0, 4), begin, end, flood: m[5] ?? "" });
  }
  return rows;
}

/** What a row is at a minute: `coming`, `soon` (ends within the hour), `now`, or `over`. */
export function stateOf(row, minute) {
  if (row.end !== null && row.end <= minute) return "over";
  if (row.begin > minute) return "coming";
  return row.end !== null && row.end - minute <= 60 ? "soon" : "now";
}

/** Rows of one event with one period and one flood stand together. The order: first end, then event. */
export function byEvent(rows) {
  const groups = new Map();
  for (const row of rows) {
    const key = `${row.event} ${row.begin} ${row.end} ${row.flood}`;
    const group = groups.get(key);
    if (group) { group.zones.push(row.zone); group.rows.push(row); } else groups.set(key,
      { ...row, key, zones: [row.zone], rows: [row] });
  }
  return [...groups.values()].sort((a, b) =>
    (a.end ?? Infinity) - (b.end ?? Infinity) || a.event.localeCompare(b.event) || a.begin - b.begin);
}

export function byZone(rows) {
  const groups = new Map();
  for (const row of rows) {
    if (!groups.has(row.zone)) groups.set(row.zone, { zone: row.zone, key: row.zone, rows: [] });
    groups.get(row.zone).rows.push(row);
  }
  return [...groups.values()];
}

/** Whether a group says all the words: in its hazard, event, zones or their names. */
export function holdsWords(group, words, facts) {
  const said = (row) => (row.words ??= `${row.event} ${facts.hazardName(row.hazard)} ${row.flood} ${facts.zoneText(row.zone)}`.toLowerCase());
  return words.every((word) => group.rows.some((row) => said(row).includes(word)));
}

/** Rows whose end has come since an earlier board, and is at most half an hour past: they may still be said to expire. */
export function lapsedOf(before, rows, minute) {
  const ended = before.filter((r) => r.end !== null && r.end <= minute && minute <= r.end + 30);
  const live = new Set(ended.length ? rows.map((r) => `${r.event} ${r.zone}`) : []);
  return ended.filter((r) => !live.has(`${r.event} ${r.zone}`));
}

/** An H-VTEC text as the values of a request (10-1703). */
export function floodOf(text) {
  const m = /^\/([A-Z0-9]{5})\.(.)\.(..)\.(.{12})\.(.{12})\.(.{12})\.(..)\/$/.exec(text);
  return m && { site: m[1], severity: m[2], cause: m[3], begin: m[4], crest: m[5], end: m[6], status: m[7] };
}
