// The page's own logic, without a browser. Expected values are from docs/PRODUCTS.md, docs/REQUESTS.md and the calendar.
import test from "node:test";
import assert from "node:assert/strict";
import { execFileSync } from "node:child_process";
import { minuteOf, stampOf, localText, utcText, minutesOfField, fieldOf, offsetAt, spanText } from "../times.js";
import { Facts, lineOf } from "../facts.js";
import { readZones, runsOf, findZones } from "../zones.js";
import { faultOf, madePlain, joined, bytesOf } from "../texts.js";
import { readBoard, byEvent, byZone, stateOf, lapsedOf, floodOf, holdsWords } from "../board.js";
import { offersOf, rowsFor } from "../offers.js";
import { names, bulletsByLine, readProduct, textsOf, saysOf, senseOf, zonesOfUgc } from "../products.js";
import { partOf, requestOf, fieldsOf, categoryOf, lacksOf, partInWords, noFlood } from "../requests.js";
import { wordsOf, placeOf } from "../words.js";

const here = new URL("..", import.meta.url).pathname;
const told = execFileSync("python3", [`${here}make_office.py`, `${here}../samples/office.toml`], { encoding: "utf8" });
const facts = new Facts(JSON.parse(told));
const at = (stamp) => minuteOf(stamp);

test("stamps", () => {
  assert.equal(at("000101T0000Z"), 0);
  assert.equal(at("981113T0240Z"), 52000000);
  assert.equal(stampOf(52000000), "981113T0240Z");
  for (const no of ["000000T0000Z", "180229T0000Z", "181301T0000Z", "180101T2400Z", "180101T0060Z", "now", ""]) assert.equal(at(no), null);
  assert.equal(stampOf(at("200229T2359Z")), "200229T2359Z");
});

test("local time, winter and summer, over midnight and New Year", () => {
  assert.equal(localText(at("180103T1530Z"), "Eastern"), "10:30 AM EST Wed Jan 3");
  assert.equal(localText(at("180104T0000Z"), "Eastern"), "7:00 PM EST Wed Jan 3");
  assert.equal(localText(at("180104T0500Z"), "Eastern"), "12:00 AM EST Thu Jan 4");
  assert.equal(localText(at("180101T0459Z"), "Eastern", true), "11:59 PM EST Sun Dec 31 2017");
  assert.equal(utcText(at("180101T0000Z")), "00:00 UTC Mon Jan 1");
  assert.deepEqual(offsetAt("Eastern", at("180311T0659Z")), { hours: -5, name: "EST" });
  assert.deepEqual(offsetAt("Eastern", at("180311T0700Z")), { hours: -4, name: "EDT" });
  assert.deepEqual(offsetAt("Eastern", at("181104T0559Z")), { hours: -4, name: "EDT" });
  assert.deepEqual(offsetAt("Eastern", at("181104T0600Z")), { hours: -5, name: "EST" });
  assert.equal(offsetAt("Arizona", at("180701T0000Z")).name, "MST");
  assert.equal(localText(at("180701T0000Z"), "Alaska"), "4:00 PM AKDT Sat Jun 30");
  assert.equal(localText(at("180701T0000Z"), "Hawaii"), "2:00 PM HST Sat Jun 30");
  assert.equal(localText(at("180701T0000Z"), "Atlantic"), "8:00 PM AST Sat Jun 30");
});

test("a field of local time: none in spring's hour, two in autumn's", () => {
  assert.deepEqual(minutesOfField("2018-03-11T02:30", "Eastern"), []);
  assert.deepEqual(minutesOfField("2018-11-04T01:30", "Eastern").map(stampOf), ["181104T0530Z", "181104T0630Z"]);
  assert.deepEqual(minutesOfField("2018-01-03T19:00", "Eastern").map(stampOf), ["180104T0000Z"]);
  assert.deepEqual(minutesOfField("", "Eastern"), []);
  for (const zone of ["Eastern", "Central", "Mountain", "Arizona", "Pacific", "Alaska", "Hawaii", "Atlantic", "UTC"]) {
    for (let m = at("180310T0000Z"); m < at("180313T0000Z"); m += 30) assert.ok(minutesOfField(fieldOf(m, zone), zone).includes(m));
  }
});

test("spans", () => {
  assert.deepEqual([0, 59, 60, 130, 1440, 1500].map(spanText), ["0 min", "59 min", "1 h", "2 h 10 min", "1 d", "1 d 1 h"]);
});

test("zones as people write them", () => {
  assert.deepEqual(readZones("MDZ003>006", facts).codes, ["MDZ003", "MDZ004", "MDZ005", "MDZ006"]);
  assert.deepEqual(readZones("mdz003-004, vaz028", facts).codes, ["MDZ003", "MDZ004", "VAZ028"]);
  assert.deepEqual(readZones("MDZ003>006-VAZ028-", facts).codes.length, 5);
  assert.deepEqual(readZones("Carroll", facts).codes, ["MDZ005"]);
  assert.deepEqual(readZones("Frederick", facts), { codes: [], unknown: ["FREDERICK"] });
  assert.deepEqual(readZones("north", facts, { North: ["MDZ005", "MDZ006", "XXZ001"] }).codes, ["MDZ005", "MDZ006"]);
  assert.deepEqual(readZones("MDZ099 MDZ006>003 MDZ3", facts).unknown, ["MDZ099", "MDZ006>003", "MDZ3"]);
  assert.deepEqual(runsOf(["MDZ006", "MDZ003", "MDZ004", "MDZ005", "VAZ028"]), ["MDZ003>006", "VAZ028"]);
  assert.deepEqual(runsOf(["MDZ003", "MDZ004"]), ["MDZ003", "MDZ004"]);
  assert.deepEqual(findZones("fred", facts, "Z").map((f) => f.code), ["MDZ004", "VAZ028"]);
  assert.deepEqual(findZones("", facts, "C").map((f) => f.code), ["MDC005", "MDC021"]);
  assert.deepEqual(findZones("md", facts, "C", {}, ["MDC005"]).map((f) => f.code), ["MDC021"]);
});

test("texts", () => {
  assert.equal(faultOf("Snow $$ ice", 4096).at, 5);
  assert.equal(faultOf("a && b", 4096).code, "E11");
  assert.equal(faultOf("caf\u00e9", 4096).at, 3);
  assert.equal(faultOf("x".repeat(4096), 4096), null);
  assert.equal(faultOf("x".repeat(4097), 4096).code, "E12");
  assert.equal(joined("one\r\n  two\n\nthree"), "one two three");
  assert.equal(madePlain("\u201cSnow\u201d \u2013 6\u00b0\u2026 caf\u00e9\n<script>"), '"Snow" - 6 degrees... cafe <script>');
  assert.equal(bytesOf("\u00b0"), 2);
});

const BOARD = `MDC021 FL.W.0001.2018 180103T1530Z-000000T0000Z /FDKM2.2.ER.000000T0000Z.000000T0000Z.000000T0000Z.NO/
MDZ003 FG.Y.0001.2018 180103T1000Z-180103T1500Z
MDZ004 FG.Y.0001.2018 180103T1000Z-180103T1500Z
MDZ004 WI.Y.0001.2018 180103T1800Z-180103T2300Z
MDZ006 FG.Y.0001.2018 180103T1000Z-180103T1700Z
`;

test("a board", () => {
  const rows = readBoard(BOARD);
  assert.equal(rows.length, 5);
  assert.equal(rows[0].end, null);
  assert.deepEqual(floodOf(rows[0].flood).site, "FDKM2");
  assert.deepEqual(readBoard(""), []);
  for (const bad of ["<html>", BOARD.slice(0, -9), "MDZ003 FG.Y.0001.2018 180103T1000Z\n", '{"no":"M1"}']) assert.throws(() => readBoard(bad));
  assert.deepEqual(byEvent(rows).map((g) => [g.event, g.zones.length]), [["FG.Y.0001.2018", 2], ["FG.Y.0001.2018", 1], ["WI.Y.0001.2018", 1], ["FL.W.0001.2018", 1]]);
  assert.deepEqual(byZone(rows).map((g) => g.rows.length), [1, 1, 2, 1]);
  const states = (stamp) => rows.map((row) => stateOf(row, at(stamp)));
  assert.deepEqual(states("180103T1400Z"), ["coming", "soon", "soon", "coming", "now"]);
  assert.deepEqual(states("180103T1500Z"), ["coming", "over", "over", "coming", "now"]);
  assert.ok(holdsWords(byEvent(rows)[0], ["fog", "washington"], facts));
  assert.ok(!holdsWords(byEvent(rows)[0], ["flood"], facts));
  // What ran out may be said to expire for half an hour; what a line has ended is gone at once.
  assert.deepEqual(lapsedOf(rows, readBoard(""), at("180103T1530Z")).map((r) => r.zone), ["MDZ003", "MDZ004"]);
  assert.deepEqual(lapsedOf(rows, readBoard(""), at("180103T1531Z")), []);
});

test("what is offered", () => {
  const rows = readBoard(BOARD), fog = rows.filter((row) => row.hazard === "FG.Y"), flood = rows.slice(0, 1);
  const acts = (list, stamp, last) => offersOf(list, at(stamp), facts, last).map((offer) => offer.act);
  assert.deepEqual(acts(fog, "180103T1200Z"), ["continue", "time", "area", "cancel", "routine"]);
  // 30 minutes before its end and after, an end says EXP; MDZ006 goes on until 1700 and can be cancelled.
  assert.deepEqual(acts(fog, "180103T1430Z"), ["continue", "time", "area", "cancel", "expire", "routine"]);
  assert.deepEqual(acts(fog.slice(0, 2), "180103T1429Z"), ["continue", "time", "area", "cancel", "routine"]);
  assert.deepEqual(acts(fog.slice(0, 2), "180103T1530Z"), ["expire"]);
  assert.deepEqual(acts(flood, "180103T1600Z"), ["continue", "time", "area", "cancel"]);
  const wind = rows.filter((row) => row.hazard === "WI.Y");
  assert.ok(acts(wind, "180103T1200Z").includes("upgrade"));
  assert.ok(acts(wind, "180103T1200Z").includes("replace"));
  const last = new Map([["NPW", { number: 4, numbers: new Set(["FG.Y.0001"]), year: 2018 }]]);
  assert.ok(acts(fog, "180103T1200Z", last).includes("correct"));
  assert.ok(!acts(wind, "180103T1200Z", last).includes("correct"));
  assert.deepEqual(rowsFor("expire", fog, at("180103T1430Z")).map((r) => r.zone), ["MDZ003", "MDZ004"]);
  assert.deepEqual(rowsFor("cancel", fog, at("180103T1430Z")).map((r) => r.zone), ["MDZ006"]);
  assert.equal(lineOf("FLW"), "FLS");
});

const TEXT = `WWUS71 KLWX 031100
NPWLWX

URGENT - WEATHER MESSAGE
National Weather Service Baltimore MD/Washington DC
600 AM EST Wed Jan 3 2018

MDZ004-031500-
/O.NEW.KLWX.WI.Y.0001.180103T1800Z-180103T2300Z/
/O.CON.KLWX.FG.Y.0001.000000T0000Z-180103T1500Z/
Frederick-
600 AM EST Wed Jan 3 2018

...Wind Advisory in effect from 100 PM EST Wed Jan 3 to 600 PM EST
  Wed Jan 3...
...Dense Fog Advisory remains in effect until 1000 AM EST Wed Jan
  3...

* WHAT...West winds 20 to 30 mph with gusts up to 50 mph expected,
  <b>strongest</b> on ridges.

* WHEN...From 100 PM EST Wed Jan 3 to 600 PM EST Wed Jan 3.

* IMPACTS...Branches may fall.

* WHEN...Until 1000 AM EST Wed Jan 3.

$$

MDZ005-031900-
/O.NEW.KLWX.WI.Y.0001.180103T1800Z-180103T2300Z/
Carroll-
600 AM EST Wed Jan 3 2018

...Wind Advisory in effect from 100 PM EST Wed Jan 3 to 600 PM EST
  Wed Jan 3...

* WHAT...West winds 20 to 30 mph with gusts up to 50 mph expected,
  <b>strongest</b> on ridges.

* WHEN...From 100 PM EST Wed Jan 3 to 600 PM EST Wed Jan 3.

* IMPACTS...Branches may fall.

$$

`;

test("a product", () => {
  const product = readProduct(TEXT, 2);
  assert.equal(product.category, "NPW");
  assert.equal(stampOf(product.minute), "180103T1100Z");
  assert.deepEqual(product.segments.map((s) => s.zones), [["MDZ004"], ["MDZ005"]]);
  assert.deepEqual([...product.numbers], ["WI.Y.0001", "FG.Y.0001"]);
  // An event of 2017 that goes on in 2018 keeps its number; one of 2019 is not spoken of in 2018.
  assert.ok(names(product, "WI.Y.0001.2018") && names(product, "WI.Y.0001.2017") && !names(product, "WI.Y.0001.2019"));
  assert.deepEqual(textsOf(product, "WI.Y.0001.2018"), { what: "West winds 20 to 30 mph with gusts up to 50 mph expected, <b>strongest</b> on ridges.", area: "", impacts: "Branches may fall.", details: "" });
  assert.deepEqual(textsOf(product, "FG.Y.0001.2018"), { what: "", area: "", impacts: "", details: "" });
  assert.equal(textsOf(product, "WI.Y.0002.2018"), null);
  assert.equal(textsOf(product, "WI.Y.0001.2019"), null);
  assert.deepEqual(saysOf(product).map((l) => `${l.action} ${l.key} ${l.zones}`), ["NEW WI.Y.0001 MDZ004,MDZ005", "CON FG.Y.0001 MDZ004"]);
  // A minute later the text has another time, and says the same; another end is another sense.
  const later = TEXT.replaceAll("600 AM EST Wed Jan 3 2018", "601 AM EST Wed Jan 3 2018").replace("031100", "031101");
  assert.equal(senseOf(readProduct(later, 0)), senseOf(product));
  assert.notEqual(senseOf(readProduct(TEXT.replaceAll("T2300Z", "T2200Z"), 0)), senseOf(product));
  assert.deepEqual(zonesOfUgc("MDC005-MDZ003>005-007-VAZ028-032330-"), ["MDC005", "MDZ003", "MDZ004", "MDZ005", "MDZ007", "VAZ028"]);
});

test("whose bullet it is", () => {
  const of = (actions, ...fields) => bulletsByLine({ lines: actions.split(" ").map((action) => ({ action })),
    bullets: fields.map((field, i) => ({ field, text: `${field}${i}` })) }).map((set) => Object.values(set).filter(Boolean).join());
  // An added line has its WHEN alone; a routine line has none.
  assert.deepEqual(of("CON ROU", "when", "what"), ["", "what1"]);
  assert.deepEqual(of("NEW CON", "what", "when", "impacts", "when"), ["what0,impacts2", ""]);
  assert.deepEqual(of("NEW CON", "when", "what", "when"), ["", "what1"]);
  assert.deepEqual(of("UPG NEW", "what", "when"), ["", "what0"]);
  assert.deepEqual(of("CAN NEW", "what", "what", "area", "when"), ["what0", "what1,area2"]);
  assert.deepEqual(of("CAN", "what", "details"), ["what0,details1"]);
  assert.deepEqual(of("EXT CON CON", "what", "area", "when", "details", "when", "when"), ["what0,area1,details3", "", ""]);
  // Edition One has no WHEN at all.
  assert.deepEqual(of("NEW CON", "what", "impacts"), ["what0,impacts1", ""]);
});

test("a word that was cut is whole again", () => {
  const long = "https://www.example.gov/".padEnd(100, "x"), head = "* WHAT...";
  const first = 66 - head.length;
  const wrapped = `${head}${long.slice(0, first)}\n  ${long.slice(first)} and\n  more.`;
  const text = TEXT.replace(/\* WHAT\.\.\.West[^*]*ridges\./, wrapped);
  assert.equal(textsOf(readProduct(text, 1), "WI.Y.0001.2018").what, `${long} and more.`);
});

test("parts and their requests", () => {
  const part = partOf("new", { hazard: "WS.W", zones: ["MDZ003"], end: at("180104T0000Z") });
  part.texts.what = " Heavy\nsnow. ";
  assert.deepEqual(requestOf(part, 7), { do: "put", draft: 7, hazard: "WS.W", zones: ["MDZ003"], begin: "now", end: "180104T0000Z", texts: { what: "Heavy snow." } });
  assert.equal(categoryOf([part], facts), "WSW");
  assert.equal(categoryOf([partOf("new", { hazard: "FL.W" })], facts), "FLW");
  assert.equal(categoryOf([partOf("restate", { event: "FL.W.0001.2018" })], facts), "FLS");
  const flood = partOf("join", { event: "FL.W.0001.2018", zones: ["MDC021"], end: null, flood: { ...noFlood(), site: "FDKM2", severity: "2", cause: "ER", crest: at("180103T1700Z") } });
  assert.deepEqual(fieldsOf(flood), { event: "FL.W.0001.2018", zones: ["MDC021"], begin: "now", end: "ufn",
    flood: { site: "FDKM2", severity: "2", cause: "ER", begin: "000000T0000Z", crest: "180103T1700Z", end: "000000T0000Z", status: "NO" } });
  assert.deepEqual(lacksOf([part], facts, faultOf), []);
  assert.deepEqual(lacksOf([partOf("new")], facts, faultOf).map((l) => l.field), ["hazard"]);
  assert.deepEqual(lacksOf([partOf("new", { hazard: "WS.W", zones: ["MDC021"] })], facts, faultOf).map((l) => l.field), ["zones", "end"]);
  assert.deepEqual(lacksOf([part, partOf("end", { event: "FG.Y.0001.2018", zones: ["MDZ003"] })], facts, faultOf).map((l) => [l.part, l.field]), [[1, "hazard"]]);
  assert.match(partInWords(part, facts), /^New Winter Storm Warning for MDZ003 Washington, until 7:00 PM EST Wed Jan 3 \(00:00 UTC Thu Jan 4\)$/);
});

test("each refusal has words, and stands beside its field", () => {
  const values = { event: "WS.W.0001.2018", first: "WS.W.0001.2018", second: "WW.Y.0001.2018", zone: "MDZ003", hazard: "WS.W", free_at: "180103T1540Z",
    owner: "B", last: 3, lines: 2004, bytes: 69690, at: 5, field: "what", place: 0, minute: -1 };
  for (const no of Object.keys(facts.refusals)) {
    const { told } = wordsOf({ no, ...values }, facts), code = ` (${no} ${facts.refusals[no].rule})`;
    assert.ok(told.length > code.length + 10 && told.endsWith(code) && !/undefined|null|NaN/.test(told), `${no}: ${told}`);
  }
  assert.equal(wordsOf({ no: "L6", rule: "BadPeriod", place: 1 }, facts).field, "end");
  assert.equal(wordsOf({ no: "E11", rule: "BadText", at: 5, field: "impacts" }, facts).field, "impacts");
  const parts = [partOf("new", { hazard: "WS.W", zones: ["MDZ003"] }), partOf("end", { event: "WS.A.0001.2018", zones: ["MDZ003", "MDZ006"] })];
  assert.equal(placeOf({ place: 1 }, parts), 1);
  assert.equal(placeOf({ no: "L3", event: "WS.A.0001.2018", zone: "MDZ006" }, parts), 1);
  assert.equal(placeOf({ no: "L12", first: "WS.W.0001.2018", second: "WW.Y.0001.2018", zone: "MDZ003" }, parts), 0);
});
