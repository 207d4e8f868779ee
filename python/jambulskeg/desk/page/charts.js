/* The charts and tables of the day, as `view` draws them, drawn anew after each change. */

import {get} from "./ask.js";
import {byId, piece} from "./make.js";
import {desk, on} from "./store.js";

const PLACES = {
  charts: "charts", costs: "parts", left: "left", visits: "visits-part", stops: "stops", sheets: "sheets",
};
const FOLDED = "#parts details, #stops details, #sheets details";
const PAUSE = 150;
let drawing = false, again = false, timer = null;

/** Draws a little after the last change, so that one change after another is answered first. */
function later() {
  window.clearTimeout(timer);
  timer = window.setTimeout(show, PAUSE);
}

/** What tells a folded part from the others, also when it is drawn anew. */
function keyOf(part) {
  return part.dataset.vehicle || part.querySelector("summary").textContent;
}

/** Draws the day; one that changes meanwhile is drawn once more at the end. */
async function show() {
  again = drawing;
  if (drawing) { return; }
  drawing = true;
  const id = desk.day.id, step = desk.day.step, isBroken = desk.day.status === "broken";
  const found = isBroken ? null : await get("day/" + id + "/charts").catch(() => null);
  drawing = false;
  if (again || id !== desk.day.id || step !== desk.day.step) {
    again = false;
    await show();
  } else {
    put(found);
  }
}

function put(found) {
  if (!found) {
    for (const id of Object.values(PLACES)) { byId(id).replaceChildren(); }
    return;
  }
  const state = new Map(Array.from(document.querySelectorAll(FOLDED)).map((part) => [keyOf(part), part.open]));
  const words = byId("search") ? byId("search").value : "", vehicle = byId("vehicle") ? byId("vehicle").value : "";
  for (const [name, id] of Object.entries(PLACES)) { piece(byId(id), found[name]); }
  for (const part of document.querySelectorAll(FOLDED)) {
    if (state.has(keyOf(part))) { part.open = state.get(keyOf(part)); }
  }
  byId("search").value = words;
  const options = Array.from(byId("vehicle").options);
  if (options.some((option) => option.value === vehicle)) { byId("vehicle").value = vehicle; }
  window.beginPage();
}

export function begin() {
  on("day", later);
}
