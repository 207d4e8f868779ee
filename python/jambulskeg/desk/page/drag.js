/* Visits are dragged by a pointer: mouse, pen or finger. */

import {board, chipOf, listOf, ordered, pick, put, putBest} from "./board.js";
import {make} from "./make.js";
import {desk, name} from "./store.js";

const FAR = 6;
let drag = null;

function nodeOf(chip) {
  return Number(chip.getAttribute("data-node"));
}

function began(event) {
  const chip = event.target.closest(".chip");
  if (!chip || event.button !== 0 || desk.searching) { return; }
  const node = nodeOf(chip);
  drag = {node, nodes: desk.chosen.includes(node) ? ordered(desk.chosen) : [node], x: event.clientX, y: event.clientY,
    ghost: null, place: null, pointer: event.pointerId};
}

function lifted() {
  const first = name(drag.nodes[0]);
  const more = drag.nodes.length > 1 ? " and " + (drag.nodes.length - 1) + " more" : "";
  drag.ghost = make("div", {class: "ghost"}, first + more);
  drag.slot = make("li", {class: "slot", "aria-hidden": "true"});
  document.body.append(drag.ghost);
  board.setPointerCapture(drag.pointer);
  for (const node of drag.nodes) { chipOf(node).classList.add("taken"); }
}

function moved(event) {
  if (!drag) { return; }
  if (!drag.ghost) {
    if (Math.hypot(event.clientX - drag.x, event.clientY - drag.y) < FAR) { return; }
    lifted();
  }
  event.preventDefault();
  drag.ghost.style.setProperty("transform", "translate(" + (event.clientX + 12) + "px," + (event.clientY + 8) + "px)");
  show(placeAt(event.clientX, event.clientY));
}

/** The row under a point, and the visit there that the dragged ones would come before. */
function placeAt(x, y) {
  const row = document.elementsFromPoint(x, y).map((part) => part.closest(".van")).find(Boolean);
  if (!row) { return null; }
  const list = row.querySelector(".chips"), mark = list.getAttribute("data-row");
  const isBest = x < list.getBoundingClientRect().left || y < list.getBoundingClientRect().top;
  const chips = Array.from(list.querySelectorAll(".chip")).filter((chip) => !drag.nodes.includes(nodeOf(chip)));
  const next = chips.find((chip) => isBefore(x, y, chip.getBoundingClientRect()));
  return {vehicle: mark === "left" ? null : Number(mark), before: next ? nodeOf(next) : null, isBest};
}

/** Whether a point lies before the middle of a box, in reading order. */
function isBefore(x, y, box) {
  return y < box.top || (y <= box.bottom && x < box.left + box.width / 2);
}

function show(place) {
  drag.place = place;
  for (const list of board.querySelectorAll(".chips.over")) { list.classList.remove("over"); }
  drag.slot.remove();
  if (!place) { return; }
  const list = listOf(place.vehicle);
  list.classList.add("over");
  if (place.vehicle !== null && !place.isBest) {
    list.insertBefore(drag.slot, place.before === null ? null : chipOf(place.before).closest("li"));
  }
}

function ended(event) {
  if (!drag) { return; }
  const done = drag;
  cleared();
  if (!done.ghost) {
    pick(done.node, event);
  } else if (done.place && done.place.isBest) {
    putBest(done.nodes, done.place.vehicle);
  } else if (done.place) {
    put(done.nodes, done.place.vehicle, done.place.before);
  }
}

function cleared() {
  if (drag && drag.ghost) {
    drag.ghost.remove();
    drag.slot.remove();
    for (const chip of board.querySelectorAll(".taken")) { chip.classList.remove("taken"); }
    for (const list of board.querySelectorAll(".over")) { list.classList.remove("over"); }
  }
  drag = null;
}

/** Whether a pointer is down on a visit, which will say itself what it chooses. */
export function isDown() {
  return drag !== null;
}

export function begin() {
  board.addEventListener("pointerdown", began);
  board.addEventListener("pointermove", moved);
  board.addEventListener("pointerup", ended);
  board.addEventListener("pointercancel", cleared);
  document.addEventListener("keydown", (event) => { if (event.key === "Escape") { cleared(); } });
}
