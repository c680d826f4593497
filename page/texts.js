// What a bullet's text may hold: space to tilde, no $$ and no && (each would end a segment), so many bytes.
const PLAIN = { "\u2018": "'", "\u2019": "'", "\u201c": '"', "\u201d": '"', "\u2013": "-", "\u2014": "-",
  "\u2212": "-",
  "\u2026": "...", "\u00a0": " ", "\u2009": " ", "\u202f": " ", "\u00b0": " degrees", "\u00bd": "1/2",
    "\u00bc": "1/4",
  "\u00be": "3/4", "\u00d7": "x", "\u2022": "-", "\u2032": "'", "\u2033": '"', "\t": " " };

/** Line breaks become blanks: the office wraps the text itself. */
export const joined = (text) => text.replace(/\s*[\r\n]+\s*/g, " ");

export const bytesOf = (text) => new TextEncoder().encode(text).length;

/** The first thing that the office would refuse, in words, or null. `at` counts characters. */
export function faultOf(text, most) {
  const line = joined(text);
  for (let at = 0; at < line.length; at += 1) {
    const c = line.charCodeAt(at), pair = line.slice(at, at + 2);
    if (c < 32 || c > 126) {
      const shown = c < 32 || c === 127 ? "a control character" : `"${String.fromCodePoint(line.codePointAt(at))}"`;
      return { at, code: "E11", text: `${shown} cannot be sent: only plain letters, digits and signs can`,
        mends: true };
    }
    if (pair === "$$" || pair === "&&") return { at, code: "E11", text: `"${pair}" would end the segment` };
  }
  const bytes = bytesOf(line);
  if (bytes > most) return { at: most, code: "E12", text: `too long by ${bytes - most}` };
  return null;
}

/** The text with signs of a word processor, accents and line breaks in plain letters; what has none is left. */
export function madePlain(text) {
  return joined(text).replace(/[^\x20-\x7e]/gu, (sign) => {
    if (sign in PLAIN) return PLAIN[sign];
    const bare = sign.normalize("NFKD").replace(/[^\x20-\x7e]/g, "");
    return bare || sign;
  });
}
