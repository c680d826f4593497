// Each request once. What is to be sent is kept in the browser, with its desk and number, before it goes out, and is
// sent again with the same bytes until the office has answered it. The office keeps its reply to a desk's last number,
// so a repeat changes nothing (docs/REQUESTS.md).
export const TIMEOUT = 15000;
/** A send that nobody has answered for so long is not carried out late without asking. */
export const LATE = 120000;
const PROBE = 4294967295;
const READS = "This tab only reads.";
const late = new Set(["send", "issue", "correct"]);

export class Refused extends Error {
  constructor(refusal) { super(refusal.no); this.refusal = refusal; }
}
export class Dropped extends Error {}

/** One call: status, text and date of the answer; null without one. */
export async function call(path, body, fetcher = (...words) => fetch(...words)) {
  try {
    const answer = await fetcher(path, {
      method: body === undefined ? "GET" : "POST", body, cache: "no-store", redirect: "error",
        credentials: "same-origin",
      headers: body === undefined ? {} : { "Content-Type": "application/json" },
        signal: AbortSignal.timeout(TIMEOUT) });
    return { status: answer.status, text: await answer.text(), date: answer.headers.get("Date") };
  } catch { return null; }
}

export const jsonOf = (text) => { try { return JSON.parse(text); } catch { return null; } };

export class Outbox {
  /**
   * `store` has get, set and remove, each a promise that is kept once the disk has it. `key` names the office and the
   * desk. `onChange(state)` is told whenever something waits; `onReply(item, reply)` settles each accepted request,
   * also one of before a reload; `may()` is false where this tab may not send.
   */
  constructor({ desk, key, store, fetcher, onChange = () => {}, onReply = () => {}, may = () => true,
    wait = (ms) => new Promise((done) => { setTimeout(done, ms); }), clock = Date.now }) {
    Object.assign(this, { desk, key, store, fetcher, onChange, onReply, may, wait, clock });
    this.last = null;
    this.chain = Promise.resolve();
  }

  /** The office's last number of this desk, by its own refusal of one that is far ahead; null without an answer. */
  async learn() {
    const body = JSON.stringify({ desk: this.desk, seq: PROBE, do: "take", draft: 0 });
    const answer = await call("/requests", body, this.fetcher);
    const told = answer && jsonOf(answer.text);
    if (told?.no === "K1") throw new Refused(told);
    if (told?.no !== "K4") return null;
    this.last = told.last;
    return told.last;
  }

  /** Sends what a crash or a reload left, and gives it with its reply; null if nothing was left. */
  resume() {
    return this.#inTurn(async () => {
      const item = await this.store.get(this.key);
      return item ? { item, reply: await this.#deliver(item, true) } : null;
    });
  }

  /** Sends a request by the desk's next number; the reply, or Refused, or Dropped where the person gave it up. */
  ask(request, words) {
    return this.#inTurn(async () => {
      if (await this.store.get(this.key)) throw new Dropped("Another request still waits for its answer.");
      for (let tries = 0; await this.learn() === null; tries += 1) await this.#pause("silent", words, tries);
      const { do: word, ...fields } = request, seq = this.last + 1;
      const item = { seq, body: JSON.stringify({ desk: this.desk, seq, do: word, ...fields }), word, words,
        at: this.clock() };
      if (!this.may()) throw new Dropped(READS);
      await this.store.set(this.key, item);
      return this.#deliver(item, false);
    });
  }

  #inTurn(job) {
    const run = this.chain.then(job);
    this.chain = run.catch(() => {});
    return run;
  }

  async #pause(why, words, tries) {
    this.onChange({ why, words, tries });
    await this.wait(Math.min(500 * 2 ** tries, 4000));
    if (!this.may()) throw new Dropped(READS);
  }

  async #deliver(item, again) {
    for (let tries = 0; ; tries += 1) {
      if ((again || tries > 0) && late.has(item.word) && this.clock() - item.at > LATE) {
        const last = await this.learn();
        if (last === null) { await this.#pause("silent", item.words, tries); continue; }
        // Its number is free: it never arrived. To send it now would be late, so the person decides.
        if (last === item.seq - 1) {
          if (!await this.#decided(item)) { await this.#settle(); throw new Dropped("Given up: it was not sent."); }
          item.at = this.clock();
          await this.store.set(this.key, item);
        }
      }
      const answer = await call("/requests", item.body, this.fetcher);
      const told = answer && jsonOf(answer.text);
      if (answer?.status === 200 && told?.ok) {
        this.last = item.seq;
        await this.onReply(item, told);
        await this.#settle();
        return told;
      }
      // The proxy's own answers have the letter P. The disk's and the memory's leave the request to be sent again.
      if (told?.no && !/^[PDM]/.test(told.no)) {
        await this.#settle();
        throw new Refused(told);
      }
      await this.#pause(told?.no ?? (answer ? `status ${answer.status}` : "silent"), item.words, tries);
    }
  }

  async #settle() {
    await this.store.remove(this.key);
    this.onChange(null);
  }

  #decided(item) {
    return new Promise((done) => { this.onChange({ why: "late", words: item.words, at: item.at, decide: done }); });
  }
}
