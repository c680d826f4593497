// Lists of zones as people write them: MDZ003>006, MDZ003-004-007, MDZ003, 4; names; groups of one's own.
const CODE = /^([A-Z]{2}[CZ])(\d{3})$/;

/** MDZ003>006, MDZ009, VAZ028: runs of three and more are drawn together, as UGC does (10-1702). */
export function runsOf(codes) {
  const sorted = [...codes].sort(), runs = [];
  for (let i = 0; i < sorted.length;) {
    const [, head, digits] = CODE.exec(sorted[i]) ?? [null, sorted[i], ""];
    let j = i;
    while (j + 1 < sorted.length && sorted[j + 1] === head + String(Number(digits) + j + 1 - i).padStart(3,
      "0")) j += 1;
    if (j - i >= 2) {
      runs.push(`${sorted[i]}>${sorted[j].slice(3)}`);
      i = j + 1;
    } else {
      runs.push(sorted[i]);
      i += 1;
    }
  }
  return runs;
}

/** Zones that a text names, and the words in it that name none. `groups` has the desk's own, by name. */
export function readZones(text, facts, groups = {}) {
  const codes = [], unknown = [];
  let head = "";
  const add = (code) => { if (!codes.includes(code)) codes.push(code); };
  const whole = named(text.trim(), facts, groups);
  if (whole) return { codes: whole, unknown };
  for (const word of text.toUpperCase().split(/[\s,;-]+|(?<=\d)\.+/).filter(Boolean)) {
    const m = /^([A-Z]{2}[CZ])?(\d{1,3})(?:>(?:[A-Z]{2}[CZ])?(\d{1,3}))?$/.exec(word);
    const short = m && !m[1] && !head;
    if (!m || short) {
      const group = named(word, facts, groups);
      if (group) group.forEach(add); else unknown.push(word);
      continue;
    }
    head = m[1] ?? head;
    const first = Number(m[2]), last = m[3] ? Number(m[3]) : first;
    if (m[3] ? last <= first : m[1] && m[2].length < 3) { unknown.push(word); continue; }
    const inside = [];
    for (let n = first; n <= last; n += 1) inside.push(head + String(n).padStart(3, "0"));
    // A run takes the zones that the office has; one alone has to be there.
    const known = inside.filter((code) => code in facts.zones);
    if (known.length) known.forEach(add); else unknown.push(word);
  }
  return { codes, unknown };
}

/** The zones of a group, or of a name that one zone alone has. */
function named(word, facts, groups) {
  const lower = word.toLowerCase();
  const group = Object.keys(groups).find((name) => name.toLowerCase() === lower);
  if (group) return groups[group].filter((code) => code in facts.zones);
  const same = facts.zoneCodes.filter((code) => facts.zones[code].toLowerCase() === lower);
  return same.length === 1 ? same : null;
}

/** Zones and groups that begin with, then those that hold, what was typed; the best first. */
export function findZones(text, facts, kind, groups = {}, without = []) {
  const word = text.trim().toLowerCase();
  const found = [], chosen = new Set(without);
  for (const name of Object.keys(groups).sort()) {
    const fits = groups[name].filter((code) => code[2] === kind);
    if (fits.length && name.toLowerCase().includes(word)) found.push({ group: name, codes: fits });
  }
  const first = [], later = [];
  for (const code of facts.zoneCodes) {
    if (code[2] !== kind || chosen.has(code)) continue;
    const name = facts.zones[code].toLowerCase(), low = code.toLowerCase();
    if (low.startsWith(word) || name.startsWith(word)) first.push({ code });
    else if (name.includes(word) || low.includes(word)) later.push({ code });
  }
  return found.concat(first, later).slice(0, 40);
}
