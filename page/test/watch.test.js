// What follows the office: its board, how old it is, its products. The office here is a table of answers.
import test from "node:test";
import assert from "node:assert/strict";
import { Watch, OLD } from "../watch.js";

const ROW = "MDZ005 FG.Y.0001.2018 180103T1000Z-180103T1500Z\n";
const product = (number, line = "/O.CON.KLWX.FG.Y.0001.000000T0000Z-180103T1500Z/") => `WWUS71 KLWX 031100
NPWLWX

URGENT - WEATHER MESSAGE
Office ${number}
600 AM EST Wed Jan 3 2018

MDZ005-031500-
${line}
Carroll-
600 AM EST Wed Jan 3 2018

$$
`;

/** An office with a board, products, and a clock; `fails` says what its calls answer in place of these. */
function office(count) {
  const it = { board: ROW, texts: Array.from({ length: count }, (_, i) => product(i + 1)), date: "Wed, 03 Jan 2018 14:00:00 GMT",
    asked: [], fails: null };
  it.fetch = async (path) => {
    it.asked.push(path);
    if (it.fails === "silent") throw new TypeError("network");
    if (it.fails) return answer(502, it.fails);
    if (path === "/board") return answer(200, it.board);
    const m = /^\/products\/(after\/)?(\d+)$/.exec(path), text = it.texts[Number(m[2]) - (m[1] ? 0 : 1)];
    return text ? answer(200, text) : answer(404, '{"no":"F3","rule":"NotFound"}');
  };
  const answer = (status, text) => ({ status, text: async () => text, headers: { get: () => it.date } });
  it.watch = new Watch({ fetcher: it.fetch });
  return it;
}

test("a board, and its office's clock", async () => {
  const { watch } = office(0);
  assert.ok(await watch.look());
  assert.deepEqual(watch.rows.map((row) => row.event), ["FG.Y.0001.2018"]);
  assert.ok(!watch.isOld() && watch.trouble === "");
  // 2018-01-03T14:00Z is so many minutes from 2000-01-01T00:00Z: 6,577 days and 14 hours.
  assert.equal(watch.minute(), 6577 * 1440 + 14 * 60);
});

test("a board grows old: after 30 seconds, and where the machine slept", async () => {
  const { watch } = office(0);
  assert.equal(OLD, 30000);
  assert.ok(watch.isOld(), "there is none yet");
  await watch.look();
  const now = watch.good;
  watch.good = { wall: now.wall - 29000, steady: now.steady };
  assert.ok(!watch.isOld());
  // By the machine's clock, or by the steady one, which another setting of the clock does not move.
  watch.good = { wall: now.wall - 30000, steady: now.steady };
  assert.ok(watch.isOld());
  watch.good = { wall: now.wall + 3600000, steady: now.steady - 30000 };
  assert.ok(watch.isOld());
});

test("what is no board of the office is trouble, and no newer board", async () => {
  for (const fails of ["silent", "<html>", '{"no":"P1","rule":"NoAnswer"}']) {
    const it = office(0);
    await it.watch.look();
    const { good, rows } = it.watch;
    it.fails = fails;
    assert.ok(!await it.watch.look());
    assert.ok(it.watch.trouble);
    assert.equal(it.watch.good, good);
    assert.equal(it.watch.rows, rows);
  }
  const it = office(0);
  await it.watch.look();
  it.board = ROW.slice(0, -10);
  assert.ok(!await it.watch.look(), "a board that is cut short");
});

test("the newest products are found, the older ones on demand, and new ones as they come", async () => {
  const it = office(101), { watch } = it;
  await watch.look();
  await watch.follow();
  assert.equal(watch.last, 101);
  assert.deepEqual([Math.min(...watch.products.keys()), watch.products.size], [62, 40]);
  assert.ok(it.asked.length < 70, `${it.asked.length} calls`);
  await watch.older();
  assert.equal(watch.first, 22);
  it.texts.push(product(102), product(103));
  await watch.follow();
  assert.equal(watch.last, 103);
  assert.equal(watch.newest.get("NPW").number, 103);
  assert.equal((await watch.product(5)).number, 5);
  assert.equal(await watch.product(999), null);
});

test("a new journal behind the same proxy counts from 1 again", async () => {
  const it = office(9), { watch } = it;
  await watch.look();
  await watch.follow();
  assert.equal(watch.last, 9);
  it.fails = "silent";
  await watch.look();
  Object.assign(it, { fails: null, texts: [product("new")] });
  await watch.look();
  await watch.follow();
  assert.equal(watch.last, 1);
  assert.match((await watch.product(1)).text, /Office new/);
});

test("what ran out may be said to expire, until it was", async () => {
  const it = office(1), { watch } = it;
  await watch.look();
  await watch.follow();
  Object.assign(it, { date: "Wed, 03 Jan 2018 15:00:10 GMT", board: "" });
  await watch.look();
  assert.deepEqual(watch.lapsed.map((row) => row.zone), ["MDZ005"]);
  it.texts.push(product(2, "/O.EXP.KLWX.FG.Y.0001.000000T0000Z-180103T1500Z/"));
  await watch.follow();
  assert.deepEqual(watch.lapsed, []);
});
