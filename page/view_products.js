// Products: the newest first, as the office sends them; the text as it went out, to copy, print and correct.
import { $, h, put, para, drawParts } from "./dom.js";
import { names, saysOf } from "./products.js";
import { lineOf } from "./facts.js";
import { localText, utcText } from "./times.js";
import { kept } from "./store.js";

export class ProductsView {
  constructor(app) {
    this.app = app;
    this.number = 0;
    this.input = h("input", { type: "search", placeholder: "kind, hazard, zone or number",
      "aria-label": "Filter the products", autocomplete: "off", oninput: () => this.#list() });
    this.list = h("ol", { class: "list", "aria-label": "Products, the newest first" });
    this.older = h("button", { hidden: true, onclick: async () => { this.older.disabled = true;
      await app.watch.older(); this.older.disabled = false; } }, "Older products");
    this.side = h("article", { class: "text", tabindex: -1 });
    $("products").append(h("div", { class: "two" }, h("div", { class: "left" }, h("div", { class: "tools" },
      this.input), this.list, this.older), this.side));
  }
  filter() { this.input.focus(); this.input.select(); }
  show(detail) {
    const wanted = Number(detail);
    if (wanted) this.number = wanted;
    else if (!this.number) this.number = this.app.watch.last;
    this.#list();
    this.#text();
  }
  listChanged() {
    if (!this.number && this.app.view === "products") this.number = this.app.watch.last;
    if (kept(`${this.app.root}.seen`, null) === null) this.app.seen(this.app.watch.last);
    if (this.app.view !== "products") return;
    this.#list();
    if (this.text !== this.number) this.#text(); else this.#buttons();
  }
  deskChanged() { if (this.app.view === "products") this.#buttons(); }

  #list() {
    const { app } = this, { watch, facts } = app, seen = kept(`${app.root}.seen`, 0);
    const words = this.input.value.trim().toLowerCase().split(/\s+/).filter(Boolean);
    const all = [...watch.products.values()].sort((a, b) => b.number - a.number)
      .filter((p) => words.every((w) => String(p.number) === w || this.#words(p).includes(w)));
    const focused = document.activeElement?.dataset?.number;
    this.parts?.stop();
    this.parts = drawParts(this.list, all, (product) => {
      const says = saysOf(product), told = says.slice(0, 4);
      return h("li", { class: product.number > seen ? "fresh" : "" }, h("a", { href: `#products/${product.number}`,
        "data-number": product.number,
        "aria-current": product.number === this.number ? "true" : null },
      h("span", { class: "head" }, h("b", {}, String(product.number)),
        ` ${product.category}${product.corrected ? " corrected" : ""} `,
        h("time", {}, product.minute === null ? "" : facts.local(product.minute)),
          product.number > seen ? h("em", {}, "new") : null),
      told.map((line) => h("span", { class: "say" }, h("b", {}, line.action),
        ` ${facts.hazardName(line.hazard)}${line.etn ? ` ${line.etn}` : ""}, ${facts.actions[line.action]}`)),
      says.length > 4 ? h("span", { class: "say" }, `and ${says.length - 4} more`) : null));
    }, 60);
    if (!all.length) put(this.list, h("li", { class: "none" }, words.length ? "No product fits the filter."
      : "No product was sent yet."));
    this.older.hidden = watch.first <= 1;
    if (focused) this.list.querySelector(`[data-number="${focused}"]`)?.focus();
  }
  #words(product) {
    const { facts } = this.app;
    product.words ??= `${product.text} ${product.segments.flatMap((s) => [...s.zones.map((z) => facts.zoneText(z)), ...s.lines.map((l) => facts.hazardName(l.hazard))]).join(" ")}`.toLowerCase();
    return product.words;
  }
  async #text() {
    const { app } = this, number = this.number;
    if (!number) { put(this.side, para("none", "No product was sent yet.")); return; }
    const product = await app.watch.product(number);
    if (number !== this.number) return;
    if (!product) { put(this.side, h("p", { class: "none" },
      `Product ${number} is not here: the office has none, or does not answer.`)); return; }
    this.text = number;
    this.product = product;
    const { facts } = app;
    this.actions = h("p", { class: "buttons" });
    this.pre = h("pre", { class: "product", tabindex: 0, "aria-label": `Text of product ${number}` }, product.text);
    put(this.side, h("h1", {}, `Product ${number} `,
      h("small", {}, `${product.category} ${facts.categories[product.category] ?? ""}`)),
      para("hint", product.minute === null ? ""
        : `${localText(product.minute, facts.local_zone, true)} (${utcText(product.minute)})`), this.actions,
        this.pre);
    this.#buttons();
    app.seen(number);
    this.#list();
  }
  #buttons() {
    const { app, product } = this;
    if (!product || !this.actions) return;
    const last = app.watch.newest.get(lineOf(product.category))?.number === product.number;
    const corrects = app.desk && last && (app.watch.rows ?? []).some((row) => names(product, row.event));
    const focused = this.actions.contains(document.activeElement) && document.activeElement.textContent;
    put(this.actions, h("button", { onclick: (event) => this.#copy(event.target) }, "Copy"),
      h("button", { onclick: () => print() }, "Print"),
      corrects ? h("button", { class: "correct", disabled: !app.writes, onclick: () =>
        app.views.compose.correct(product.number) }, "Correct") : "");
    if (focused) [...this.actions.children].find((b) => b.textContent === focused)?.focus();
  }
  async #copy(button) {
    try { await navigator.clipboard.writeText(this.product.text); button.textContent = "Copied"; } catch {
      getSelection().selectAllChildren(this.pre);
      button.textContent = "Marked: press Ctrl C";
    }
    setTimeout(() => { button.textContent = "Copy"; }, 2000);
  }
}
