/* Everything that a pointer does, by the keyboard. */

import {board, chipOf, focusOn, listOf, ordered, put, putBest, rows, run, vanName} from "./board.js";
import {isDown} from "./drag.js";
import {byId, make} from "./make.js";
import {ask, choose, desk, name, on} from "./store.js";

const STEPS = {ArrowLeft: -1, ArrowRight: 1, ArrowUp: -1, ArrowDown: 1};
let carried = null;

function said(words) {
  byId("said").textContent = words;
}

function focused() {
  const chip = document.activeElement && document.activeElement.closest("#board .chip");
  return chip ? Number(chip.getAttribute("data-node")) : null;
}

function placeOf(node) {
  const found = rows();
  const row = found.findIndex((entry) => entry.visits.includes(node));
  return {row, at: row < 0 ? -1 : found[row].visits.indexOf(node)};
}

/** Goes from a visit to another one: along its row, or to the next row that has visits. */
function walk(node, key) {
  const found = rows();
  let {row, at} = placeOf(node);
  if (key === "Home") { return found[row].visits[0]; }
  if (key === "End") { return found[row].visits[found[row].visits.length - 1]; }
  if (key === "ArrowLeft" || key === "ArrowRight") { return found[row].visits[at + STEPS[key]]; }
  do { row += STEPS[key]; } while (found[row] && !found[row].visits.length);
  return found[row] ? found[row].visits[Math.min(at, found[row].visits.length - 1)] : undefined;
}

function went(node, event) {
  const next = walk(node, event.key);
  if (next === undefined) { return; }
  if (event.shiftKey && (event.key === "ArrowLeft" || event.key === "ArrowRight")) {
    const from = desk.chosen.length && placeOf(desk.chosen[0]).row === placeOf(node).row ? anchor(node) : node;
    choose(from === next ? [next] : directed(from, next));
  }
  focusOn(next);
}

/** The visit that a run began at: the end of it where the keyboard is not. */
function anchor(node) {
  return desk.chosen[0] === node ? desk.chosen[desk.chosen.length - 1] : desk.chosen[0];
}

function directed(from, to) {
  const found = run(from, to);
  return found[0] === from ? found : found.reverse();
}

function lift(node) {
  const nodes = desk.chosen.includes(node) ? ordered(desk.chosen) : [node];
  choose(nodes);
  const {row, at} = placeOf(node);
  const others = free(row, nodes);
  const slot = make("li", {class: "slot", "aria-hidden": "true"});
  carried = {nodes, node, row, at: Math.min(at, others.length), slot};
  show();
  said(words(nodes) + " taken up. Arrows choose a place, Enter puts down, B at the van's best place, Escape lets be.");
}

function words(nodes) {
  return nodes.length > 1 ? nodes.length + " visits" : name(nodes[0]);
}

/** The visits of a row that are not carried. */
function free(row, nodes) {
  return rows()[row].visits.filter((node) => !nodes.includes(node));
}

function show() {
  const vehicle = rows()[carried.row].vehicle, others = free(carried.row, carried.nodes);
  const before = vehicle === null ? null : others[carried.at];
  const list = listOf(vehicle);
  for (const other of board.querySelectorAll(".chips.over")) { other.classList.remove("over"); }
  list.classList.add("over");
  list.insertBefore(carried.slot, before === undefined || before === null ? null : chipOf(before).closest("li"));
  list.scrollIntoView({block: "nearest"});
}

function shifted(key) {
  const count = rows().length;
  if (key === "ArrowUp" || key === "ArrowDown") {
    carried.row = Math.min(count - 1, Math.max(0, carried.row + STEPS[key]));
    carried.at = Math.min(carried.at, free(carried.row, carried.nodes).length);
  } else {
    const most = free(carried.row, carried.nodes).length;
    const next = Math.min(most, Math.max(0, carried.at + (STEPS[key] || 0)));
    carried.at = key === "Home" ? 0 : key === "End" ? most : next;
  }
  show();
  said(placeWords());
}

function placeWords() {
  const vehicle = rows()[carried.row].vehicle, others = free(carried.row, carried.nodes);
  if (vehicle === null) { return "Left out"; }
  return (carried.at < others.length ? "Before " + name(others[carried.at]) : "At the end") + " of " + vanName(vehicle);
}

function dropped() {
  const {nodes, row, at} = carried, vehicle = rows()[row].vehicle, others = free(row, nodes);
  letBe();
  put(nodes, vehicle, vehicle === null || at >= others.length ? null : others[at]);
}

function letBe() {
  if (!carried) { return; }
  carried.slot.remove();
  for (const other of board.querySelectorAll(".chips.over")) { other.classList.remove("over"); }
  carried = null;
}

function isWay(key) {
  return key in STEPS || key === "Home" || key === "End";
}

/** What a key does while visits are carried; whether it did anything. */
function carriedKey(key) {
  if (isWay(key)) {
    shifted(key);
  } else if (key === "Enter" || key === " ") {
    dropped();
  } else if (key === "b" || key === "B") {
    const {nodes, row} = carried, vehicle = rows()[row].vehicle;
    letBe();
    putBest(nodes, vehicle);
  } else if (key === "Escape") {
    letBe();
    said("Let be.");
  } else {
    if (key === "Tab") { letBe(); }
    return false;
  }
  return true;
}

/** What a key does at a visit; whether it did anything. */
function restingKey(node, event) {
  if (isWay(event.key)) {
    went(node, event);
  } else if (event.key === "Enter" || event.key === " ") {
    lift(node);
  } else if (event.key === "Delete") {
    put(desk.chosen.includes(node) ? desk.chosen : [node], null, null);
  } else {
    return false;
  }
  return true;
}

function pressed(event) {
  const node = focused();
  if (node === null || desk.searching || event.ctrlKey || event.metaKey || event.altKey) { return; }
  if (carried ? carriedKey(event.key) : restingKey(node, event)) { event.preventDefault(); }
}

function undoing(event) {
  const key = event.key.toLowerCase(), isAsked = (event.ctrlKey || event.metaKey) && (key === "z" || key === "y");
  if (!isAsked || !desk.day || desk.searching || event.target.closest("input, dialog")) { return; }
  ask(key === "z" && !event.shiftKey ? "undo" : "redo", () => ({}));
  event.preventDefault();
}

export function begin() {
  board.addEventListener("keydown", pressed);
  document.addEventListener("keydown", undoing);
  board.addEventListener("focusin", () => {
    const node = focused();
    if (node !== null && !desk.chosen.includes(node) && !carried && !isDown()) { choose([node]); }
  });
  on("day", letBe);
}
