// Minutes, stamps and local time. A minute counts from 2000-01-01T00:00Z; a stamp is yymmddThhnnZ (10-1703).
// Local time is the office's, by the rules of docs/SETTINGS.md, whatever zone the browser is set to.
const START = Date.UTC(2000, 0, 1);
export const NO_MINUTE = "000000T0000Z";
const DAYS = ["Sun", "Mon", "Tue", "Wed", "Thu", "Fri", "Sat"];
export const MONTHS = ["Jan", "Feb", "Mar", "Apr", "May", "Jun", "Jul", "Aug", "Sep", "Oct", "Nov", "Dec"];
const RULES = {
  Atlantic: [-4, "AST"], Eastern: [-5, "EST", "EDT"], Central: [-6, "CST", "CDT"], Mountain: [-7, "MST", "MDT"],
  Arizona: [-7, "MST"], Pacific: [-8, "PST", "PDT"], Alaska: [-9, "AKST", "AKDT"], Hawaii: [-10, "HST"],
  UTC: [0, "UTC"],
};
/** Hours from UTC by abbreviation. */
export const HOURS = Object.fromEntries(Object.values(RULES).flatMap(([hours, standard, daylight]) =>
  [[standard, hours], [daylight, hours + 1]]));
const two = (n) => String(n).padStart(2, "0");

export const minuteOfMillis = (millis) => Math.floor((millis - START) / 60000);
export const dateOf = (minute) => new Date(START + minute * 60000);

/** The minute of a stamp; null for anything else, and for the stamp that is no minute. */
export function minuteOf(stamp) {
  const m = /^(\d\d)(\d\d)(\d\d)T(\d\d)(\d\d)Z$/.exec(stamp);
  if (!m) return null;
  const [year, month, day, hour, min] = [2000 + +m[1], +m[2], +m[3], +m[4], +m[5]];
  const date = new Date(Date.UTC(year, month - 1, day, hour, min));
  const same = date.getUTCMonth() === month - 1 && date.getUTCDate() === day && hour < 24 && min < 60;
  return same ? minuteOfMillis(date.getTime()) : null;
}

export function stampOf(minute) {
  const d = dateOf(minute);
  return two(d.getUTCFullYear() % 100) + two(d.getUTCMonth() + 1) + two(d.getUTCDate()) +
    "T" + two(d.getUTCHours()) + two(d.getUTCMinutes()) + "Z";
}

/** The minute, in UTC, of 2:00 local standard time on the n-th Sunday of a month. */
function sunday(year, month, n, hours) {
  const first = new Date(Date.UTC(year, month, 1)).getUTCDay();
  return minuteOfMillis(Date.UTC(year, month, 1 + ((7 - first) % 7) + 7 * (n - 1), hours));
}

/** Hours from UTC and the abbreviation at a minute: daylight time from March's second to November's first Sunday. */
export function offsetAt(zone, minute) {
  const [hours, standard, daylight] = RULES[zone];
  if (daylight) {
    const year = dateOf(minute + hours * 60).getUTCFullYear();
    const begin = sunday(year, 2, 2, 2 - hours), end = sunday(year, 10, 1, 2 - (hours + 1));
    if (minute >= begin && minute < end) return { hours: hours + 1, name: daylight };
  }
  return { hours, name: standard };
}

/** 7:00 PM EST Wed Jan 3 */
export function localText(minute, zone, withYear = false) {
  const offset = offsetAt(zone, minute), d = dateOf(minute + offset.hours * 60), hour = d.getUTCHours();
  return `${hour % 12 || 12}:${two(d.getUTCMinutes())} ${hour < 12 ? "AM" : "PM"} ${offset.name} ` +
    `${DAYS[d.getUTCDay()]} ${MONTHS[d.getUTCMonth()]} ${d.getUTCDate()}${withYear ? ` ${d.getUTCFullYear()}` : ""}`;
}

/** 00:00 UTC Thu Jan 4 */
export function utcText(minute) {
  const d = dateOf(minute);
  return `${two(d.getUTCHours())}:${two(d.getUTCMinutes())} UTC ` +
    `${DAYS[d.getUTCDay()]} ${MONTHS[d.getUTCMonth()]} ${d.getUTCDate()}`;
}

/** The value of a datetime-local field. */
export function fieldOf(minute, zone) {
  const d = dateOf(minute + offsetAt(zone, minute).hours * 60);
  return `${d.getUTCFullYear()}-${two(d.getUTCMonth() + 1)}-${two(d.getUTCDate())}` +
    `T${two(d.getUTCHours())}:${two(d.getUTCMinutes())}`;
}

/** The minutes that a datetime-local field may mean: none in the hour that a spring night skips, two in autumn's. */
export function minutesOfField(field, zone) {
  const m = /^(\d{4})-(\d\d)-(\d\d)T(\d\d):(\d\d)/.exec(field);
  if (!m) return [];
  const local = minuteOfMillis(Date.UTC(+m[1], +m[2] - 1, +m[3], +m[4], +m[5]));
  const [hours, , daylight] = RULES[zone];
  const tries = daylight ? [local - (hours + 1) * 60, local - hours * 60] : [local - hours * 60];
  return tries.filter((minute) => minute + offsetAt(zone, minute).hours * 60 === local);
}

/** 2 d 5 h, 5 h 20 min, 20 min */
export function spanText(minutes) {
  const days = Math.floor(minutes / 1440), hours = Math.floor((minutes % 1440) / 60), rest = minutes % 60;
  if (days) return hours ? `${days} d ${hours} h` : `${days} d`;
  if (hours) return rest ? `${hours} h ${rest} min` : `${hours} h`;
  return `${rest} min`;
}
