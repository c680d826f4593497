// What office.json tells (page/make_office.py): zones, hazards, categories, limits, and the words for them.
import { localText, utcText } from "./times.js";

export class Facts {
  constructor(told) {
    Object.assign(this, told);
    this.byCode = new Map(told.hazards.map((hazard) => [hazard.code, hazard]));
    this.zoneCodes = Object.keys(told.zones).sort();
  }
  hazard(code) { return this.byCode.get(code); }
  hazardName(code) { return this.byCode.get(code)?.name ?? code; }
  zoneName(code) { return this.zones[code] ?? ""; }
  zoneText(code) { return this.zones[code] ? `${code} ${this.zones[code]}` : code; }
  /** Winter Storm Warning 1 */
  eventText(event) { return `${this.hazardName(event.slice(0, 4))} ${Number(event.slice(5, 9))}`; }
  /** The category of a product that opens the hazard, or that follows one of its events. */
  category(code, opens) {
    const hazard = this.byCode.get(code);
    return hazard && (opens ? hazard.opens : hazard.follows);
  }
  /** Hazards of the same family in the same category, without this one. */
  kin(code) {
    const one = this.byCode.get(code);
    return one?.family ? this.hazards.filter((h) => h.family === one.family && h.code !== code) : [];
  }
  local(minute) { return localText(minute, this.local_zone); }
  both(minute) { return `${this.local(minute)} (${utcText(minute)})`; }
  /** Washington, Frederick and 3 more */
  zonesInWords(codes, most = 600) {
    const names = codes.slice(0, most).map((code) => this.zoneText(code));
    if (codes.length > most) names.push(`${codes.length - most} more`);
    return names.length < 2 ? names.join("") : `${names.slice(0, -1).join(", ")} and ${names.at(-1)}`;
  }
}

/** W, A or Y: warning, watch, advisory. */
export const levelOf = (hazard) => hazard[3];
/** FLW and FLS count as one where a product is corrected. */
export const lineOf = (category) => (category === "FLW" ? "FLS" : category);
