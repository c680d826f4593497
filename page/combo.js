// A text field with a list of what fits: arrows choose, Enter takes, Escape closes. The pattern is ARIA's combobox.
import { h, newId } from "./dom.js";

/**
 * `find(text)` gives {text, note, value} in order; `take(value, text)` is called for what was chosen, or with null and
 * the text where Enter came without a choice. Returns {field, box}.
 */
export function combo({ label, find, take, placeholder = "", keepText = false, value = "" }) {
  const listId = newId(), list = h("ul", { role: "listbox", id: listId, hidden: true, "aria-label": label });
  const field = h("input", { type: "text", role: "combobox", "aria-label": label, "aria-controls": listId,
    "aria-expanded": "false",
    "aria-autocomplete": "list", autocomplete: "off", spellcheck: "false",
      placeholder, value });
  let found = [], at = -1;

  function mark(to) {
    at = to;
    [...list.children].forEach((item, i) => {
      item.setAttribute("aria-selected", String(i === at));
      if (i === at) { field.setAttribute("aria-activedescendant", item.id);
        item.scrollIntoView({ block: "nearest" }); }
    });
    if (at < 0) field.removeAttribute("aria-activedescendant");
  }
  function close() { list.hidden = true; field.setAttribute("aria-expanded", "false"); mark(-1); }
  function open() {
    found = find(field.value);
    list.replaceChildren(...found.map((one, i) => h("li", { role: "option", id: `${listId}-${i}`,
      "aria-selected": "false",
      onmousedown: (event) => { event.preventDefault(); choose(i); } }, one.text, one.note ? h("small", {},
        ` ${one.note}`) : null)));
    list.hidden = found.length === 0;
    field.setAttribute("aria-expanded", String(!list.hidden));
    mark(field.value.trim() && found.length ? 0 : -1);
  }
  function choose(i) {
    const text = field.value;
    field.value = keepText && i >= 0 ? found[i].text : "";
    const value = i >= 0 ? found[i].value : null;
    close();
    take(value, text);
  }
  field.addEventListener("input", open);
  field.addEventListener("click", () => { if (list.hidden) open(); });
  field.addEventListener("blur", close);
  field.addEventListener("keydown", (event) => {
    if (event.key === "ArrowDown" || event.key === "ArrowUp") {
      event.preventDefault();
      if (list.hidden) open();
      const step = event.key === "ArrowDown" ? 1 : -1;
      if (found.length) mark((at + step + found.length) % found.length);
    } else if (event.key === "Enter" && !event.ctrlKey && !event.metaKey) {
      event.preventDefault();
      if (list.hidden && !field.value.trim()) return;
      choose(list.hidden ? -1 : at);
    } else if (event.key === "Escape" && !list.hidden) {
      event.stopPropagation();
      close();
    }
  });
  return { field, box: h("div", { class: "combo" }, field, list) };
}
