// Follows the office: its board every few seconds, its products as they come, and its clock.
import { call } from "./outbox.js";
import { readBoard, lapsedOf } from "./board.js";
import { readProduct } from "./products.js";
import { minuteOfMillis } from "./times.js";
import { lineOf } from "./facts.js";

const EVERY = 5000;
/** A board that is older than this is marked in red. */
export const OLD = 30000;
const FIRST = 40;

export class Watch {
  constructor({ fetcher, onBoard = () => {}, onProducts = () => {},
    onTick = () => {} } = {}) {
    Object.assign(this, { fetcher, onBoard, onProducts, onTick });
    this.rows = null;
    this.text = null;
    this.lapsed = [];
    this.good = null;
    this.trouble = "";
    this.offset = 0;
    this.products = new Map();
    this.last = 0;
    this.first = 1;
    this.found = false;
    this.newest = new Map();
  }

  minute() { return minuteOfMillis(Date.now() + this.offset); }

  /** Milliseconds since the board was asked for that is shown; a machine that slept counts too. */
  age() {
    return this.good && Math.max(Date.now() - this.good.wall, performance.now() - this.good.steady);
  }
  isOld() { return !this.good || this.age() >= OLD; }

  start() {
    this.#loop();
    setInterval(() => this.onTick(), 1000);
    document.addEventListener("visibilitychange", () => { this.onTick(); if (!document.hidden) this.poke(); });
    addEventListener("online", () => this.poke());
  }
  /** Asks at once. */
  poke() { this.hurry?.(); }

  async #loop() {
    for (;;) {
      const asked = await this.look();
      if (asked) await this.follow();
      await new Promise((done) => {
        const timer = setTimeout(done, this.trouble ? 2000 : EVERY);
        this.hurry = () => { clearTimeout(timer); done(); };
      });
    }
  }

  async look() {
    const began = { wall: Date.now(), steady: performance.now() };
    const answer = await call("/board", undefined, this.fetcher);
    if (!this.good) performance.mark("board-answer");
    const mended = this.trouble !== "";
    try {
      if (!answer) throw new Error("no answer");
      if (answer.status !== 200) throw new Error(`status ${answer.status}`);
      const rows = answer.text === this.text ? this.rows : readBoard(answer.text);
      this.#clock(answer.date, began.wall);
      const changed = rows !== this.rows;
      this.lapsed = lapsedOf([...this.lapsed, ...(this.rows ?? [])], rows, this.minute());
      Object.assign(this, { rows, text: answer.text, good: began, trouble: "" });
      if (mended) await this.#same();
      this.onBoard(changed);
      return true;
    } catch (error) {
      this.trouble = error.message;
      this.onTick();
      return false;
    }
  }

  #clock(date, began) {
    const told = Date.parse(date ?? "");
    if (Number.isNaN(told)) return;
    const off = told + 500 - (began + Date.now()) / 2;
    this.offset = Math.abs(off) < 2000 ? 0 : off;
  }

  /** After a pause the office may be another one: a new journal counts its products from 1 again. */
  async #same() {
    if (!this.last) return;
    const text = await this.#text(`/products/${this.last}`);
    if (text !== null && text !== this.products.get(this.last)?.text) {
      this.products.clear();
      Object.assign(this, { last: 0, first: 1, found: false });
      this.newest.clear();
    }
  }

  /** The text of a product; "" where there is none, null without an answer. */
  async #text(path) {
    const answer = await call(path, undefined, this.fetcher);
    return answer?.status === 200 ? answer.text : answer?.status === 404 ? "" : null;
  }

  #add(number, text) {
    const product = readProduct(text, number), line = lineOf(product.category);
    this.products.set(number, product);
    if (number > (this.newest.get(line)?.number ?? 0)) this.newest.set(line, product);
    return product;
  }

  /** Products that came since; at first the newest ones are looked for, since nothing tells how many there are. */
  async follow() {
    if (!this.found && !await this.#findLast()) return;
    let came = false;
    for (;;) {
      const text = await this.#text(`/products/after/${this.last}`);
      if (!text) break;
      this.last += 1;
      const said = this.#add(this.last, text);
      // What ran out and is now said to expire is done.
      const expires = (row) => said.segments.some((s) => s.zones.includes(row.zone)
        && s.lines.some((line) => line.action === "EXP" && row.event.startsWith(line.key)));
      this.lapsed = this.lapsed.filter((row) => !expires(row));
      came = true;
    }
    if (came) this.onProducts();
  }

  async #findLast() {
    let low = 0, high = 1;
    for (; ;) {
      const text = await this.#text(`/products/${high}`);
      if (text === null) return false;
      if (text === "") break;
      [low, high] = [high, high * 2];
    }
    while (high - low > 1) {
      const middle = (low + high) >> 1, text = await this.#text(`/products/${middle}`);
      if (text === null) return false;
      if (text) low = middle; else high = middle;
    }
    this.last = low;
    this.first = low + 1;
    this.found = true;
    await this.older();
    return true;
  }

  /** Forty more of the older products. */
  async older() {
    const down = Math.max(1, this.first - FIRST);
    for (let high = this.first - 1; high >= down; high -= 4) {
      const numbers = [0, 1, 2, 3].map((k) => high - k).filter((n) => n >= down);
      const texts = await Promise.all(numbers.map((n) => this.#text(`/products/${n}`)));
      if (texts.some((text) => !text)) break;
      numbers.forEach((n, i) => this.#add(n, texts[i]));
      this.first = numbers.at(-1);
    }
    this.onProducts();
  }

  async product(number) {
    if (!this.products.has(number)) {
      const text = await this.#text(`/products/${number}`);
      if (text) return readProduct(text, number);
    }
    return this.products.get(number) ?? null;
  }
}
