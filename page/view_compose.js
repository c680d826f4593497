// Compose: the parts of a product as cards, the office's own text of them, and Send.
import { $, h, put, para, small, faultPlace, many, askPerson } from "./dom.js";
import { combo } from "./combo.js";
import { field, timeField, zonesField, textsField, floodField, floodForm } from "./fields.js";
import { partOf, noTexts, categoryOf, hazardOfPart, requestOf, lacksOf, partInWords, FIELDS,
  FIELD_NAMES } from "./requests.js";
import { faultOf, joined } from "./texts.js";
import { floodOf, byEvent } from "./board.js";
import { rowsFor } from "./offers.js";
import { names, readProduct, textsOf, senseOf, saysOf } from "./products.js";
import { call, jsonOf, Refused, Dropped } from "./outbox.js";
import { wordsOf, placeOf } from "./words.js";
import { chip } from "./view_board.js";
import { minuteOf } from "./times.js";

const TITLES = { new: "New event", join: "Change an event", end: "End an event", restate: "An event goes on",
  routine: "Routine word" };
const empty = () => ({ parts: [partOf("new")], correct: null });

export class ComposeView {
  constructor(app) {
    this.app = app;
    this.form = empty();
    this.look = null;
    this.host = $("compose");
  }
  get #key() { return `${this.app.desk?.root ?? this.app.root}.form`; }
  /** The form is kept as it is typed; a tab that only reads leaves the other one's alone. */
  #keep() {
    clearTimeout(this.timer);
    this.timer = setTimeout(() => this.#keepNow(), 250);
  }
  async #keepNow() {
    clearTimeout(this.timer);
    if (this.app.desk?.holds) await this.app.store.set(this.#key, this.form);
  }

  /** The desk's own form, as it was left. */
  async load() {
    clearTimeout(this.timer);
    const key = this.#key, form = await this.app.store?.get(key);
    if (key !== this.#key) return;
    this.form = form ?? empty();
    this.look = null;
    this.draw();
  }
  show() { if (!this.host.childElementCount) this.draw(); }
  focus() { this.host.querySelector("input, textarea, select")?.focus(); }
  deskChanged() {
    const not = !this.app.writes || Boolean(this.look?.refused);
    for (const button of this.host.querySelectorAll("[data-sends]")) button.disabled = not;
  }
  escape() { if (this.look) this.back(); }
  get #holds() {
    const { parts, correct } = this.form;
    return Boolean(correct) || parts.length > 1 || parts.some((p) => hazardOfPart(p) || p.zones.length ||
      FIELDS.some((f) => p.texts[f].trim()));
  }

  // From the board.
  async follow(offer, group, all) {
    const { watch, facts } = this.app, minute = watch.minute();
    if (this.#holds && !await this.#mayReplace()) return;
    const rows = rowsFor(offer.act, all, minute), zones = (list) => [...new Set(list.map((row) => row.zone))].sort();
    const period = { begin: group.begin > minute ? group.begin : null, end: group.end };
    const texts = ["continue", "time", "area"].includes(offer.act) ? await this.#textsFor(group.event) : noTexts();
    const event = group.event, same = { event, texts, ...period, flood: floodForm(floodOf(group.flood)) };
    // What was opened has a period, and zones: those of them that the offer is for.
    const here = rows.filter((row) => group.zones.includes(row.zone)), some = zones(here.length ? here : rows);
    const { rank } = facts.hazard(group.hazard), higher = (one) => one.rank > rank === (offer.act === "upgrade");
    const swap = async () => [partOf("new", { zones: some, ...period,
      kin: facts.kin(group.hazard).filter(higher).map((one) => one.code),
      texts: { ...noTexts(), area: (await this.#textsFor(event)).area } }), ...end()];
    const end = () => [partOf("end", { event, zones: some })];
    const parts = {
      continue: () => [partOf("restate", { event, zones: zones(rows), texts })],
      time: () => [partOf("join", { ...same, zones: some })],
      area: () => [partOf("join", { ...same, zones: [] })],
      cancel: end, expire: end, upgrade: swap, replace: swap,
      routine: () => [partOf("routine", { hazard: group.hazard, zones: zones(rows) })],
    };
    if (offer.act === "correct") { await this.correct(offer.product); return; }
    await this.#start({ parts: await parts[offer.act](), correct: null });
    const target = { time: ".f-end input[type=datetime-local]", area: ".f-zones input", upgrade: ".f-hazard input",
      replace: ".f-hazard input" }[offer.act] ?? "textarea, h2";
    this.host.querySelector(target)?.focus();
  }
  async #mayReplace() {
    return askPerson("Another product is being composed", h("p", {}, "It was not sent. Begin anew in its place?"),
      "Keep it", "Begin anew");
  }
  /** The texts of the newest product that says something of the event. */
  async #textsFor(event) {
    const { watch } = this.app;
    for (let n = watch.last, looked = 0; n > 0 && looked < 200; n -= 1, looked += 1) {
      const product = await watch.product(n);
      if (!product) break;
      const texts = textsOf(product, event);
      if (texts && FIELDS.some((f) => texts[f])) return texts;
    }
    return noTexts();
  }
  async #start(form) {
    await this.#drop();
    this.form = form;
    this.#keep();
    this.app.tell("");
    this.app.go("compose");
    this.draw();
  }

  /** A correction: the texts of each event of the product that is still in force. */
  async correct(number) {
    const { app } = this, product = await app.watch.product(number);
    if (!product) { app.tell(`Product ${number} cannot be read.`, "bad"); return; }
    if (this.form.correct?.product !== number && this.#holds && !await this.#mayReplace()) return;
    const events = [...new Set(app.watch.rows.map((row) => row.event))].filter((event) => names(product, event))
      .map((event) => ({ event, texts: textsOf(product, event), was: textsOf(product, event) }));
    await this.#start({ parts: [], correct: { product: number, events } });
    this.host.querySelector("textarea")?.focus();
  }

  // The form.
  draw() {
    this.host.classList.toggle("look", Boolean(this.look));
    if (this.look) { this.#drawLook(); return; }
    const { form } = this;
    if (form.correct) { this.#drawCorrect(); return; }
    const cards = form.parts.map((part, i) => this.#card(part, i));
    const add = Object.entries(TITLES).map(([kind, title]) => small(title, () => {
      form.parts.push(partOf(kind));
      this.changed();
      this.draw();
      this.#cardAt(form.parts.length - 1)?.querySelector("input")?.focus();
    }));
    put(this.host, h("h1", {}, "Compose ", h("small", { id: "category" })),
      ...this.#around(cards, "Preview", form.parts.length < this.app.facts.limits.parts &&
        para("row add", h("span", {}, "Add to the same product: "), add)));
    this.#tellCategory();
  }
  #tellCategory() {
    const { facts } = this.app, category = categoryOf(this.form.parts, facts), told = $("category");
    if (told) told.textContent = category ? `${category} ${facts.categories[category]}` : "";
  }
  changed() {
    this.#keep();
    this.#tellCategory();
  }
  #card(part, i) {
    const { app } = this, { facts, watch } = app, changed = () => this.changed();
    const redraw = (focus) => {
      const now = this.#card(part, i);
      card.replaceWith(now);
      now.querySelector(focus)?.focus();
      this.changed();
    };
    const hazard = facts.hazard(hazardOfPart(part)), minute = () => watch.minute();
    const title = `${i + 1}. ${TITLES[part.kind]}${part.event ? `: ${facts.eventText(part.event)}` : ""}`;
    const takeOut = () => {
      this.form.parts.splice(i, 1);
      this.changed();
      this.draw();
    };
    const card = h("article", { class: "card", "data-part": i }, h("header", {}, h("h2", { tabindex: -1 }, title),
      this.form.parts.length > 1 && small("Take out", takeOut, { "aria-label": `Take out part ${i + 1}` })));
    card.append(part.kind === "new" || part.kind === "routine" ? this.#hazardField(part, redraw)
      : this.#eventField(part, redraw));
    if (!hazard) return card;
    const kind = hazard.kind, joining = part.kind === "join";
    const inIt = watch.rows?.filter((row) => row.event === part.event).map((row) => row.zone) ?? [];
    // All that may be: of the hazard's kind, or those where the event is that goes on or ends.
    const all = ["end", "restate"].includes(part.kind) ? [...new Set([...inIt, ...part.zones])].sort()
      : facts.zoneCodes.filter((code) => code[2] === kind);
    const note = joining && para("hint", `In force in ${many(inIt.length, "zone")} now: `,
      `${facts.zonesInWords(inIt, 8)}. Zones that are new to it are added.`);
    card.append(field("zones", kind === "C" ? "Counties" : "Zones", note,
      zonesField({ part, facts, kind, changed, root: app.root, all })));
    if (part.kind === "new" || joining) {
      if (hazard.flood) part.flood ??= null; else part.flood = null;
      const ends = joining && watch.rows?.find((row) => row.event === part.event)?.end;
      const from = typeof ends === "number" ? { words: "its end", minute: () => ends }
        : { words: "its begin", minute: () => Math.max(part.begin ?? 0, roundUp(minute())) };
      const begin = timeField({ label: "Begin", none: "now", value: part.begin, facts, minute,
        set: (m) => { part.begin = m; changed(); } });
      const end = timeField({ label: "End", none: hazard.open_end ? "until further notice" : null, value: part.end,
        facts, minute, set: (m) => { part.end = m; changed(); }, quick: joining ? [1, 2, 3, 6, 12] : [3, 6, 12, 24], from });
      card.append(h("div", { class: "times" }, field("begin", "Begin", begin), field("end", "End", end)));
      if (hazard.flood) card.append(field("flood", "Flood values",
        floodField({ part, facts, minute, changed, fixed: joining })));
    }
    card.append(field("texts", "Texts", textsField({ texts: part.texts, facts, changed,
      open: part.kind !== "end" })));
    return card;
  }
  #hazardField(part, redraw) {
    const { facts } = this.app;
    const choose = (value, text) => {
      const typed = text.trim().toLowerCase();
      const exact = facts.hazards.find((one) => [one.code, one.name].some((n) => n.toLowerCase() === typed));
      const code = value ?? exact?.code;
      if (!code) {
        this.#fault(this.#cardAt(this.form.parts.indexOf(part)), "hazard",
          "The office issues no such hazard. Choose one of the list.");
        return;
      }
      part.hazard = code;
      part.flood = null;
      if (!facts.hazard(code).open_end && part.end === null) part.end = undefined;
      redraw(".f-zones input");
    };
    const hazard = facts.hazard(part.hazard);
    const { box } = combo({ label: "Hazard by name or code", placeholder: "name or code, such as WS.W",
      keepText: true, value: hazard ? `${hazard.code} ${hazard.name}` : "",
      find: (text) => {
        const words = hazard && text === `${hazard.code} ${hazard.name}` ? [] : wordsIn(text);
        const may = (one) => (part.kin?.includes(one.code) ?? true) && !(part.kind === "routine" && one.flood);
        const fits = facts.hazards.filter((one) => may(one) && holdsAll(`${one.code} ${one.name}`, words));
        return bestFirst(fits, words.join(" ")).map((one) => ({ text: `${one.code} ${one.name}`,
          note: facts.category(one.code, true), value: one.code }));
      }, take: choose });
    return field("hazard", "Hazard", h("div", { class: "row" }, hazard ? chip(hazard.code) : null, box));
  }
  #eventField(part, redraw) {
    const { facts, watch } = this.app;
    if (part.event) return field("hazard", "Event", para("row", chip(hazardOfPart(part)),
      h("strong", {}, facts.eventText(part.event)), h("span", { class: "code" }, part.event)));
    const wanted = categoryOf(this.form.parts.filter((one) => one !== part), facts);
    const events = byEvent([...(watch.rows ?? []), ...(part.kind === "end" ? watch.lapsed : [])])
      .filter((g) => !wanted || facts.category(g.hazard, false) === wanted);
    const find = (text) => events.filter((g) => holdsAll(`${g.event} ${facts.hazardName(g.hazard)}`, wordsIn(text)))
      .map((g) => ({ text: `${facts.eventText(g.event)} ${g.event}`, value: g,
        note: `in ${facts.zonesInWords(g.zones, 3)}` }));
    const take = (g) => {
      if (!g) return;
      const flood = part.kind === "join" ? floodForm(floodOf(g.flood)) : null;
      const begin = g.begin > watch.minute() ? g.begin : null;
      Object.assign(part, { event: g.event, zones: [...g.zones].sort(), begin, end: g.end, flood });
      redraw(".f-zones input");
    };
    const { box } = combo({ label: "Event by name or number", placeholder: "an event of the board", find, take });
    return field("hazard", "Event", box, !events.length && para("hint", "No event on the board fits this product."));
  }
  #drawCorrect() {
    const { app, form } = this, { facts } = app, { product, events } = form.correct;
    const cards = events.map((one, i) => h("article", { class: "card", "data-part": i }, h("h2", { tabindex: -1 },
      `${facts.eventText(one.event)} `, h("span", { class: "code" }, one.event)),
      textsField({ texts: one.texts, facts, changed: () => this.#keep() })));
    put(this.host, h("h1", {}, `Correct product ${product}`), para("hint",
      "A correction changes texts alone: zones, begin and end stay. For those, change the event."),
      ...this.#around(cards, "Look it over"));
  }
  /** The cards, what is wrong with all of them, and the buttons. */
  #around(cards, name, more) {
    return [faultPlace("form-fault"), h("div", { id: "parts" }, cards), more,
      para("buttons", h("button", { onclick: () => this.clear() }, "Clear"),
        h("button", { class: "main", id: "preview", "data-sends": true, disabled: !this.app.writes,
          onclick: () => this.preview() }, `${name} `, h("kbd", {}, "Ctrl Enter")))];
  }
  #cardAt(place) { return this.host.querySelector(`[data-part="${place}"]`); }
  async clear() {
    if (this.#holds && !await askPerson("Clear the form?", h("p", {}, "What it holds was not sent."),
      "Keep it", "Clear it")) return;
    await this.#drop();
    this.form = empty();
    this.#keep();
    this.app.tell("");
    this.draw();
    this.focus();
  }
  /** The draft of a preview that was not sent is thrown away. */
  async #drop() {
    const draft = this.look?.draft;
    this.look = null;
    if (!draft || !this.app.writes) return;
    const { app } = this;
    const done = app.desk.work((outbox) => app.desk.discard(outbox, draft));
    await done.catch((error) => app.failed(error, "Discard"));
  }

  // What is wrong, beside its field.
  #fault(card, name, text) {
    const box = card ? card.querySelector(`[data-field="${name}"]`) ?? card.querySelector(".field") : null;
    const told = box?.querySelector(":scope > .fault") ?? $("form-fault");
    if (!told) { this.app.tell(text, "bad"); return; }
    told.textContent = text;
    told.hidden = false;
    box?.classList.add("faulty");
    const details = box?.closest("details");
    if (details) details.open = true;
  }
  #clearFaults() {
    for (const told of this.host.querySelectorAll(".field > .fault, #form-fault")) {
      told.hidden = true;
      told.textContent = "";
    }
    for (const box of this.host.querySelectorAll(".faulty")) box.classList.remove("faulty");
  }
  #toFault() { this.host.querySelector(".faulty input, .faulty textarea, .faulty select, [aria-invalid]")?.focus(); }
  #showRefusal(refusal, at) {
    const { told, field } = wordsOf(refusal, this.app.facts);
    const card = this.#cardAt(at ?? placeOf(refusal, this.form.parts));
    this.#fault(field && card, field, told);
    if (refusal.no === "L12") this.#offerEnd(refusal, card);
    this.#toFault();
    card?.scrollIntoView({ block: "nearest" });
  }
  /** Two hazards of one kind: the older one may be ended in the same product. */
  #offerEnd(refusal, card) {
    const { facts, watch } = this.app;
    const here = this.form.parts, fresh = (event) => !watch.rows.some((row) => row.event === event);
    const old = [refusal.first, refusal.second].find((event) => !fresh(event) &&
      !here.some((p) => p.kind === "join" && p.event === event));
    if (!old || here.some((p) => p.kind === "end" && p.event === old)) return;
    const wanted = new Set(here.flatMap((p) => p.zones));
    const zones = watch.rows.filter((row) => row.event === old && wanted.has(row.zone)).map((row) => row.zone);
    card?.querySelector(".f-zones > .fault")?.append(small(`End ${facts.eventText(old)} there in this product`, () => {
      here.push(partOf("end", { event: old, zones }));
      this.changed();
      this.draw();
    }));
  }

  // Preview: the office's own text of a draft.
  async preview() {
    const { app } = this, { facts } = app;
    if (this.look || !app.writes) return;
    this.#clearFaults();
    if (this.form.correct) { await this.#lookAtCorrection(); return; }
    // What is looked at is what the draft is made of, whatever is typed meanwhile.
    const parts = structuredClone(this.form.parts), lacks = lacksOf(parts, facts, faultOf);
    if (lacks.length) {
      // A text says itself what is wrong with it.
      for (const lack of lacks.filter((one) => !FIELDS.includes(one.field))) {
        this.#fault(this.#cardAt(lack.part), lack.field, lack.text);
      }
      this.#toFault();
      return;
    }
    let at = null;
    try {
      await app.desk.work(async (outbox) => {
        const category = categoryOf(parts, facts);
        await this.#keepNow();
        const { draft } = await outbox.ask({ do: "open", category }, `Open a draft of ${category}`);
        try {
          for (const [i, part] of parts.entries()) {
            at = i;
            await outbox.ask(requestOf(part, draft), `Put into draft ${draft}: ${partInWords(part, facts, 3)}`);
          }
          at = null;
          await this.#lookAt(draft, parts);
          app.desk.unfinished = null;
        } catch (error) {
          await app.desk.discard(outbox, draft);
          throw error;
        }
      });
      this.#toLook();
    } catch (error) {
      if (error instanceof Refused && error.refusal.no[0] !== "K") this.#showRefusal(error.refusal, at);
      else app.failed(error, "Preview");
    }
  }
  /** `look` is what may be sent: its text, its request, and `words(most)`, what it does, with so many zones by name. */
  async #lookAt(draft, parts) {
    this.look = { ...await this.#ask(draft), draft, request: { do: "send", draft },
      words: (most) => parts.map((part) => partInWords(part, this.app.facts, most)) };
  }
  #toLook() {
    this.draw();
    this.host.querySelector("h1")?.focus();
  }
  async #ask(draft) {
    const answer = await call(`/preview/${draft}`);
    if (answer?.status === 200) return { text: answer.text, sense: senseOf(readProduct(answer.text, 0)) };
    const told = answer && jsonOf(answer.text);
    if (told?.no && told.no[0] !== "P") throw new Refused(told);
    throw new Dropped("the office does not answer; nothing was sent.");
  }
  async #lookAtCorrection() {
    const { app } = this, { facts } = app, { product, events } = structuredClone(this.form.correct);
    if (events.some((one) => FIELDS.some((f) => faultOf(one.texts[f].trim(), facts.limits.text)))) {
      this.#toFault();
      return;
    }
    for (const { texts } of events) for (const f of FIELDS) texts[f] = joined(texts[f]).trim();
    const changed = events.filter((one) => FIELDS.some((f) => one.was[f] !== one.texts[f]));
    const changes = changed.flatMap(({ event, was, texts }) => FIELDS.filter((f) => was[f] !== texts[f])
      .map((f) => ({ what: `${facts.eventText(event)}, ${FIELD_NAMES[f]}`, was: was[f], now: texts[f] })));
    const told = await app.watch.product(product);
    if (!told) { app.tell("The office does not answer.", "bad"); return; }
    if (!changes.length) { app.tell("Nothing is changed yet.", "bad"); return; }
    this.look = { text: told.text, changes, words: () => [`Correction of product ${product}: ${changes.map((c) => c.what).join("; ")}`],
      request: { do: "correct", product, texts: changed.map(({ event, texts }) => ({ event, texts })) } };
    this.#toLook();
  }

  #drawLook() {
    const { app, look } = this, { facts } = app, focused = document.activeElement?.id;
    const warning = look.refused ?? (look.changed
      ? "The office's text is another one than before: something changed since. Look it over again." : null);
    const summary = look.changes ? look.changes.map((c) => [h("strong", {}, `${c.what}: `),
      h("del", {}, c.was || "(nothing)"), " ", h("ins", {}, c.now || "(nothing)")]) : look.words(30);
    const says = look.changes ? [] : saysOf(readProduct(look.text, 0)).map((line) => h("span", { class: "act" },
      h("b", {}, line.action), ` ${facts.hazardName(line.hazard)}${line.etn ? ` ${line.etn}` : ""}: ${many(line.zones.length, "zone")}`));
    const before = new Set((look.before ?? look.text).split("\n")), same = (line) => before.has(line.replace("\n", ""));
    const lines = look.text.split(/(?<=\n)/).map((line) => (same(line) ? line : h("mark", {}, line)));
    put(this.host, h("h1", { tabindex: -1 }, "Look it over"),
      warning && h("p", { class: "warn", role: "alert" }, warning),
      h("ul", { class: "summary" }, summary.map((one) => h("li", {}, one))), para("says", says),
      para("hint", look.changes ? `The office writes the text of a correction when it is sent. This is product ${
        look.request.product} as it stands; what changes is above.`
        : `This is what the office would send now. It is draft ${look.draft}.`),
      h("pre", { class: "product", tabindex: 0, id: "look-text", "aria-label": "The office's text" }, lines),
      para("buttons", h("button", { id: "back", onclick: () => this.back() }, "Back to the form ", h("kbd", {}, "Esc")),
        h("button", { class: "send", id: "send", "data-sends": true, disabled: !app.writes || Boolean(look.refused),
          onclick: () => this.send() }, look.changes ? "Send the correction" : "Send")));
    if (focused) $(focused)?.focus();
  }
  async back() {
    if (this.app.desk?.busy) return;
    await this.#drop();
    this.draw();
    this.host.querySelector("#preview")?.focus();
  }
  /** The board is another one: so may be what the office would say. */
  async boardChanged() {
    if (!this.look?.draft || this.app.desk?.busy || this.app.view !== "compose") return;
    try { await this.#again(); } catch (error) {
      if (!(error instanceof Refused) || !this.look) return;
      this.look.refused = `The office would refuse this now: ${wordsOf(error.refusal, this.app.facts).told}`;
      this.#drawLook();
    }
  }
  /** Asks for the text again. */
  async #again() {
    const { draft } = this.look, now = await this.#ask(draft), { look } = this;
    if (look?.draft !== draft) return;
    const other = now.text !== look.text || look.refused, changed = look.changed || now.sense !== look.sense;
    Object.assign(look, { before: look.text, changed, refused: null }, now);
    if (other) this.#drawLook();
  }
  /** Whether what the office would send is still what was looked at; if not, that is said. */
  async #stands() {
    if (this.look?.draft) await this.#again();
    const { look } = this;
    if (look && (look.changed || look.refused)) this.app.tell("The text has changed since you looked. Look it over again.", "bad");
    return look && !look.changed && !look.refused;
  }

  async send() {
    const { app, look } = this;
    if (!look || look.refused || !app.writes) return;
    try {
      look.changed = false;
      if (!await this.#stands()) return;
      const yes = await askPerson(app.facts.training ? "Send this TEST product?" : "Send this product to the public?",
        h("ul", {}, look.words(12).map((text) => h("li", {}, text))), "Not yet", "Send it", "send");
      // The question may have stood for long.
      if (!yes || !await this.#stands()) return;
      this.sent(await app.desk.work((outbox) => outbox.ask(look.request, `Send ${look.words(2).join("; ")}`)));
    } catch (error) {
      if (error instanceof Refused && error.refusal.no !== "K3") {
        const refusal = error.refusal;
        await this.back();
        if (/^[KDM]/.test(refusal.no)) app.failed(error, "Send"); else this.#showRefusal(refusal, null);
      } else app.failed(error, "Send");
    }
  }
  sent(reply) {
    const { app } = this;
    this.look = null;
    this.form = empty();
    this.#keepNow();
    this.draw();
    const opened = reply.events.map((event) => `${app.facts.eventText(event)} (${event})`).join(", ");
    app.tell(`Sent: product ${reply.product}${opened ? `, which opens ${opened}` : ""}.`, "good");
    app.go("products", reply.product);
    app.watch.poke();
  }

  /** A draft of the list, taken into the form: its parts, and the draft itself to be looked at. */
  async adopt({ draft, intents }) {
    const { app } = this;
    if (this.#holds && this.look?.draft !== draft && !await this.#mayReplace()) return;
    if (this.look?.draft !== draft) await this.#drop();
    this.form = { parts: intents.map(partOfIntent), correct: null };
    this.#keep();
    try { await this.#lookAt(draft, this.form.parts); } catch (error) {
      if (!(error instanceof Refused)) { app.failed(error, `Draft ${draft}`); return; }
      // It cannot be sent as it stands: the form takes it over, and the draft goes.
      this.look = { draft };
      await this.#drop();
      app.go("compose");
      this.draw();
      this.#showRefusal(error.refusal, null);
      return;
    }
    app.go("compose");
    this.#toLook();
  }
}

/** Hazards whose name or code begins with what was typed come before those that only hold it. */
function bestFirst(hazards, typed) {
  const begins = (one) => [one.code, one.name].some((name) => name.toLowerCase().startsWith(typed));
  return [...hazards.filter(begins), ...hazards.filter((one) => !begins(one))];
}
const wordsIn = (text) => text.toLowerCase().split(/\s+/).filter(Boolean);
const holdsAll = (text, words) => words.every((word) => text.toLowerCase().includes(word));
const roundUp = (minute) => Math.ceil(minute / 15) * 15;

/** An intent as the office shows it, as a part of the form. */
export function partOfIntent(intent) {
  const kind = { put: intent.hazard ? "new" : "join", end: "end", restate: "restate", routine: "routine" }[intent.do];
  return partOf(kind, { hazard: intent.hazard ?? "", event: intent.event ?? "", zones: intent.zones,
    begin: intent.begin === "now" || intent.begin === undefined ? null : minuteOf(intent.begin),
    end: intent.end === "ufn" ? null : intent.end === undefined ? undefined : minuteOf(intent.end),
    flood: intent.flood ? floodForm(intent.flood) : null, texts: { ...noTexts(), ...intent.texts } });
}
