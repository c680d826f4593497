// Exactly once: a lost answer, a reload, a late send, a desk that is used elsewhere. The office here is a small model.
import test from "node:test";
import assert from "node:assert/strict";
import { Outbox, Refused, Dropped, LATE } from "../outbox.js";

/** An office that keeps each desk's last number and request; `plan` says what becomes of each call's answer. */
function office() {
  const it = { last: 0, kept: "", done: [], plan: [], calls: 0 };
  it.fetch = async (path, { body }) => {
    it.calls += 1;
    const fate = it.plan.shift() ?? "answer";
    if (fate === "never") throw new TypeError("network");
    const answer = it.take(JSON.parse(body), body);
    if (fate === "lost") throw new TypeError("network");
    if (typeof fate === "object") return reply(fate.status, fate.body);
    return reply(answer.no ? 409 : 200, JSON.stringify(answer));
  };
  it.take = (request, body) => {
    if (request.seq === it.last && body === it.kept) return { ok: "send", product: it.done.length, events: [] };
    if (request.seq <= it.last) return { no: request.seq === it.last ? "K2" : "K3", rule: "x", last: it.last };
    if (request.seq > it.last + 1) return { no: "K4", rule: "Gap", last: it.last };
    if (request.do === "bad") return { no: "L6", rule: "BadPeriod", place: 0 };
    Object.assign(it, { last: request.seq, kept: body });
    it.done.push(request);
    return { ok: "send", product: it.done.length, events: [] };
  };
  return it;
}
const reply = (status, text) => ({ status, text: async () => text, headers: { get: () => null } });
function memory() {
  const kept = new Map();
  return { kept, get: async (key) => kept.get(key) ?? null, set: async (key, value) => { kept.set(key, structuredClone(value)); }, remove: async (key) => { kept.delete(key); } };
}
const outboxOf = (it, store, more = {}) => new Outbox({ desk: "A", key: "k", store, fetcher: it.fetch, wait: async () => {}, ...more });

test("the office tells the number, and each request is kept before it is sent", async () => {
  const it = office(), store = memory(), seen = [];
  const out = outboxOf({ ...it, fetch: (path, words) => { if (JSON.parse(words.body).seq < 4294967295) seen.push(store.kept.get("k")?.body === words.body); return it.fetch(path, words); } }, store);
  await out.ask({ do: "open", category: "WSW" }, "open");
  await out.ask({ do: "send", draft: 1 }, "send");
  assert.deepEqual(it.done.map((r) => r.seq), [1, 2]);
  assert.deepEqual(seen, [true, true]);
  assert.equal(store.kept.size, 0);
});

test("a lost answer is asked for with the same bytes, and stands once", async () => {
  const it = office(), told = [];
  const out = outboxOf(it, memory(), { onChange: (state) => told.push(state?.why ?? null) });
  it.plan = ["answer", "lost", "never", { status: 502, body: "<html>" }, { status: 503, body: '{"no":"P1","rule":"NoAnswer"}' }];
  const answer = await out.ask({ do: "send", draft: 1 }, "send");
  assert.equal(answer.product, 1);
  assert.equal(it.done.length, 1);
  assert.deepEqual(told, ["silent", "silent", "status 502", "P1", null]);
});

test("a crash between: another page finds the request and settles it", async () => {
  const it = office(), store = memory(), settled = [];
  const first = outboxOf(it, store, { wait: () => new Promise(() => {}) });
  it.plan = ["answer", "lost"];
  first.ask({ do: "send", draft: 1 }, "send");
  await new Promise((done) => { setTimeout(done, 20); });
  assert.equal(it.done.length, 1);
  assert.ok(store.kept.get("k"));
  const second = outboxOf(it, store, { onReply: (item) => settled.push(item.seq) });
  const left = await second.resume();
  assert.equal(left.reply.product, 1);
  assert.deepEqual(settled, [1]);
  assert.equal(it.done.length, 1);
  assert.equal(await second.resume(), null);
});

test("a send that never arrived is not carried out late without asking", async () => {
  for (const decision of [false, true]) {
    const it = office(), store = memory(), asked = [];
    await store.set("k", { seq: 1, body: '{"desk":"A","seq":1,"do":"send","draft":1}', word: "send", words: "send", at: 0 });
    const out = outboxOf(it, store, { clock: () => LATE + 1, onChange: (state) => { if (state?.decide) { asked.push(state.words); state.decide(decision); } } });
    if (decision) await out.resume(); else await assert.rejects(out.resume(), Dropped);
    assert.deepEqual(asked, ["send"]);
    assert.equal(it.done.length, decision ? 1 : 0);
    assert.equal(store.kept.size, 0);
  }
  // One that did arrive only gets its kept reply: nobody is asked.
  const it = office(), store = memory(), body = '{"desk":"A","seq":1,"do":"send","draft":1}';
  it.take(JSON.parse(body), body);
  await store.set("k", { seq: 1, body, word: "send", words: "send", at: 0 });
  const left = await outboxOf(it, store, { clock: () => LATE + 1 }).resume();
  assert.equal(left.reply.product, 1);
  assert.equal(it.done.length, 1);
});

test("refusals settle, and use up no number", async () => {
  const it = office(), store = memory(), out = outboxOf(it, store);
  await assert.rejects(out.ask({ do: "bad" }, "bad"), (error) => error instanceof Refused && error.refusal.no === "L6");
  assert.equal(store.kept.size, 0);
  await out.ask({ do: "open", category: "WSW" }, "open");
  assert.deepEqual(it.done.map((r) => r.seq), [1]);
});

test("the desk used elsewhere: a number that went by is told as one that nobody knows of", async () => {
  const it = office(), store = memory(), body = '{"desk":"A","seq":1,"do":"open","category":"WSW"}';
  it.last = 5;
  await store.set("k", { seq: 1, body, word: "open", words: "open", at: Date.now() });
  await assert.rejects(outboxOf(it, store).resume(), (error) => error.refusal.no === "K3");
  await outboxOf(it, store).ask({ do: "open", category: "WSW" }, "open");
  assert.deepEqual(it.done.map((r) => r.seq), [6]);
});

test("a failing disk and lacking memory: the same bytes again", async () => {
  const it = office(), out = outboxOf(it, memory());
  it.plan = ["answer", { status: 500, body: '{"no":"D1","rule":"DiskFault"}' }, { status: 503, body: '{"no":"M1","rule":"OutOfMemory"}' }];
  await out.ask({ do: "send", draft: 1 }, "send");
  assert.equal(it.done.length, 1);
});

test("a tab that lost its desk sends nothing more", async () => {
  const it = office(), store = memory();
  let may = true;
  const out = outboxOf(it, store, { may: () => may });
  it.plan = ["answer", "never"];
  const asked = out.ask({ do: "send", draft: 1 }, "send");
  may = false;
  await assert.rejects(asked, Dropped);
  assert.equal(it.done.length, 0);
});

test("requests go one after another", async () => {
  const it = office(), out = outboxOf(it, memory());
  await Promise.all(["WSW", "NPW", "CFW"].map((category) => out.ask({ do: "open", category }, category)));
  assert.deepEqual(it.done.map((r) => r.category), ["WSW", "NPW", "CFW"]);
  assert.deepEqual(it.done.map((r) => r.seq), [1, 2, 3]);
});
