// Elements. Text only ever becomes text: nothing here takes HTML.
export function h(tag, attrs = {}, ...children) {
  const element = document.createElement(tag);
  if (tag === "button") element.type = "button";
  for (const [name, value] of Object.entries(attrs)) {
    if (value === undefined || value === null || value === false) continue;
    if (name.startsWith("on")) element.addEventListener(name.slice(2), value);
    else if (name === "value" || name === "checked" || name === "disabled" ||
      name === "hidden") element[name] = value;
    else element.setAttribute(name, value === true ? "" : value);
  }
  put(element, children);
  return element;
}

/** New children; what is null, undefined or false is left out. */
export const put = (element, ...children) => element.replaceChildren(...children.flat(Infinity)
  .filter((c) => c !== null && c !== undefined && c !== false));

/** A paragraph of a class: `para("hint", ..)`. */
export const para = (kind, ...children) => h("p", { class: kind }, ...children);

/** 1 zone, 3 zones */
export const many = (n, one) => `${n} ${one}${n === 1 ? "" : "s"}`;

/** A small button, and a place for what is wrong. */
export const small = (text, onclick, more = {}) => h("button", { class: "small", onclick, ...more }, text);
export const faultPlace = (id) => h("p", { class: "fault", id, role: "alert", hidden: true });

export const $ = (id) => document.getElementById(id);

let ids = 0;
export const newId = () => `id${ids += 1}`;

/**
 * Draws a long list in parts: the first at once, the others as its end comes into view. `stop()` ends that, `drawn()`
 * tells how many are there.
 */
export function drawParts(into, items, draw, part = 60, first = part) {
  let at = 0;
  const end = h(into.tagName === "TBODY" ? "tr" : "div", { class: "more" });
  const seen = new IntersectionObserver((marks) => { if (marks.some((m) => m.isIntersecting)) next(part); },
    { rootMargin: "1200px" });
  function next(count) {
    const rows = items.slice(at, at + count).map(draw);
    at += rows.length;
    end.before(...rows);
    seen.unobserve(end);
    if (at < items.length) seen.observe(end); else end.remove();
  }
  into.replaceChildren(end);
  next(first);
  return { stop: () => seen.disconnect(), drawn: () => at };
}

/** A question; whether it was answered by `yes`. `no` has the focus, and Escape means it. */
export function askPerson(title, body, no, yes, kind = "") {
  return new Promise((done) => {
    const id = newId(), dialog = h("dialog", { "aria-labelledby": id }, h("h2", { id }, title), body);
    let chosen = false;
    const button = (value, text, more) => text &&
      h("button", { class: more, onclick: () => { chosen = value; dialog.close(); } }, text);
    dialog.append(para("buttons", button(false, no, ""), button(true, yes, kind)));
    dialog.addEventListener("close", () => { dialog.remove(); done(chosen); });
    document.body.append(dialog);
    dialog.showModal();
    dialog.querySelector(".buttons button").focus();
  });
}
