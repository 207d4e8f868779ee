/* Elements. Texts of files go in as text alone; `piece` takes what the desk drew, where each text was escaped. */

export function byId(id) {
  return document.getElementById(id);
}

/** An element with attributes (`on..` are listeners) and children: elements, or texts. */
export function make(name, attributes, ...children) {
  const made = document.createElement(name);
  for (const [key, value] of Object.entries(attributes || {})) {
    if (key.startsWith("on")) {
      made.addEventListener(key.slice(2), value);
    } else if (key.startsWith("aria-")) {
      made.setAttribute(key, String(value));
    } else if (value === true) {
      made.setAttribute(key, "");
    } else if (value !== false && value !== null && value !== undefined) {
      made.setAttribute(key, String(value));
    }
  }
  made.append(...children.flat().filter((child) => child !== null && child !== undefined && child !== false));
  return made;
}

export function drawn(name, attributes, ...children) {
  const made = document.createElementNS("http://www.w3.org/2000/svg", name);
  for (const [key, value] of Object.entries(attributes)) { made.setAttribute(key, String(value)); }
  made.append(...children);
  return made;
}

/** Puts a piece that the desk drew into a place. Its styles are set one by one, since the page allows none inline. */
export function piece(place, html) {
  const template = document.createElement("template");
  template.innerHTML = html;
  for (const part of template.content.querySelectorAll("[data-style]")) {
    for (const rule of part.getAttribute("data-style").split(";")) {
      const at = rule.indexOf(":");
      if (at > 0) { part.style.setProperty(rule.slice(0, at).trim(), rule.slice(at + 1).trim()); }
    }
  }
  place.replaceChildren(template.content);
}

function tableCell(cell, at) {
  if (at === 0) { return make("th", {scope: "row"}, cell); }
  return cell instanceof Node ? cell : make("td", {class: "number"}, cell);
}

/** A table of texts; the first cell of each row names it. A cell may be an element of its own. */
export function table(caption, heads, rows) {
  return make("table", {}, make("caption", {}, caption),
    make("thead", {}, make("tr", {}, heads.map((head) => make("th", {scope: "col"}, head)))),
    make("tbody", {}, rows.map((cells) => make("tr", {}, cells.map(tableCell)))));
}
