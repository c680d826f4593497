// A desk at work in this tab: the right to send, its drafts, and each request once.
import { Outbox, Refused } from "./outbox.js";
import { kept, keep } from "./store.js";

export class Desk {
  constructor(name, office, { store, fetcher, onChange, onWaiting, onSettled, onRefused }) {
    Object.assign(this, { name, onChange, onSettled, onRefused });
    this.root = `warn.${office}.${name}`;
    this.holds = false;
    this.closed = false;
    this.why = "asking the browser for the desk";
    this.waiting = null;
    this.busy = false;
    this.outbox = new Outbox({ desk: name, key: this.root, store, fetcher, may: () => this.holds,
      onChange: (state) => { this.waiting = state; onWaiting(state); },
      onReply: (item, reply) => this.#settled(item, reply) });
  }

  /** One tab of a browser works a desk. Another one waits for it, and only reads meanwhile. */
  open(steal = false) {
    if (!navigator.locks) {
      this.#says("this browser gives no locks here: open the page by https, or on this machine");
      return;
    }
    const name = `${this.root}.desk`, body = () => this.#hold();
    const leave = (error) => {
      this.holds = false;
      if (this.closed || error.name !== "AbortError") return;
      this.#says("another tab has taken this desk over");
      navigator.locks.request(name, body).catch(leave);
    };
    if (steal) { navigator.locks.request(name, { steal: true }, body).catch(leave); return; }
    navigator.locks.query().then(({ held }) => {
      if (held.some((one) => one.name === name)) this.#says("another tab of this browser works this desk");
    });
    this.wish = new AbortController();
    navigator.locks.request(name, { signal: this.wish.signal }, body).catch(leave);
  }
  steal() { this.wish?.abort(); this.open(true); }

  async #hold() {
    if (this.closed) return;
    this.holds = true;
    this.#says("");
    const gone = new Promise((done) => { this.let = done; });
    this.#resume();
    await gone;
  }
  #says(why) { this.why = why; this.onChange(); }

  close() {
    this.closed = true;
    this.holds = false;
    this.wish?.abort();
    this.let?.();
  }

  async #resume() {
    this.busy = true;
    this.onChange();
    try {
      const left = await this.outbox.resume();
      if (left) this.onSettled(left.item, left.reply, true);
    } catch (error) { this.onRefused(error); }
    this.busy = false;
    this.onChange();
  }

  get writes() { return this.holds && !this.busy && !this.waiting; }

  /** Runs a chain of requests; one at a time. */
  async work(job) {
    if (!this.writes) throw new Error(this.why || "the desk still waits for an answer");
    this.busy = true;
    this.onChange();
    try { return await job(this.outbox); } finally {
      this.busy = false;
      this.onChange();
    }
  }

  // Drafts: by number, as far as this browser knows them. Settling twice changes nothing.
  get drafts() { return kept(`${this.root}.drafts`, []); }
  know(number) { if (!this.drafts.includes(number)) keep(`${this.root}.drafts`, [...this.drafts, number]); }
  forget(number) { keep(`${this.root}.drafts`, this.drafts.filter((n) => n !== number)); }

  /** The draft that a preview is making: one that a crash left so may lack parts. */
  get unfinished() { return kept(`${this.root}.unfinished`, null); }
  set unfinished(number) { keep(`${this.root}.unfinished`, number); }

  #settled(item, reply) {
    if (item.word === "discard" || item.word === "send") this.forget(JSON.parse(item.body).draft);
    else if (reply.draft) {
      this.know(reply.draft);
      this.unfinished = item.word === "take" ? null : reply.draft;
    }
  }

  /** Throws a draft away; one that is gone is no fault. Where another desk has taken it, that desk. */
  async discard(outbox, number) {
    try { await outbox.ask({ do: "discard", draft: number }, `Discard draft ${number}`); } catch (error) {
      if (!(error instanceof Refused) || !["E1", "E2"].includes(error.refusal.no)) throw error;
      this.forget(number);
      return error.refusal.owner;
    }
  }
}
