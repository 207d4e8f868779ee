/* The routes: a row for each van with a button for each visit, and the visits that are left out. */

import {byId, make} from "./make.js";
import {change, choose, clock, desk, name, on, tell, whereIs} from "./store.js";

export const board = byId("board");

/** The rows in order: each vehicle, and last what is left out (vehicle null), with their visits. */
export function rows() {
  const found = desk.day.vehicles.map((van, vehicle) => ({vehicle, visits: van.visits}));
  return [...found, {vehicle: null, visits: desk.day.left}];
}

/** Visits in the order of their rows. */
export function ordered(nodes) {
  return rows().flatMap((row) => row.visits).filter((node) => nodes.includes(node));
}

export function chipOf(node) {
  return board.querySelector('.chip[data-node="' + node + '"]');
}

export function listOf(vehicle) {
  return board.querySelector('.chips[data-row="' + (vehicle === null ? "left" : vehicle) + '"]');
}

export function vanName(vehicle) {
  return vehicle === null ? "what is left out" : desk.day.vehicles[vehicle].name;
}

function asked(node) {
  const window = desk.day.nodes[node][1];
  return window ? ", may begin " + clock(window[0]) + " to " + clock(window[1]) : "";
}

function chip(node, vehicle, place) {
  const van = vehicle === null ? null : desk.day.vehicles[vehicle];
  const begins = van && van.begins.length ? van.begins[place + 1] : "";
  const must = desk.day.nodes[node][3] === null;
  const where = van ? ", stop " + (place + 1) + " of " + van.name : ", left out";
  const label = name(node) + where + (begins ? ", begins " + begins : "") + asked(node)
    + (must ? ", must be made" : "");
  return make("li", {}, make("button", {
    type: "button", class: "chip" + (must && !van ? " must" : ""), "data-node": node, tabindex: -1,
    "aria-pressed": desk.chosen.includes(node), "aria-label": label,
  }, name(node), make("small", {}, begins || (van ? "" : must ? "must be made" : "may be left"))));
}

function chips(vehicle, visits) {
  return make("ol", {class: "chips", "data-row": vehicle === null ? "left" : vehicle},
    visits.map((node, place) => chip(node, vehicle, place)));
}

function pressed(label, words, isPressed, listener, disabled) {
  const attributes = {type: "button", "aria-pressed": isPressed, "aria-label": label, disabled, onclick: listener};
  return make("button", attributes, words);
}

function about(van, vehicle) {
  const times = van.begins.length ? van.begins[0] + " to " + van.begins[van.begins.length - 1] : "stays at home";
  const badge = make("span", {class: "badge c" + van.colour, "aria-hidden": "true"}, van.letters);
  return make("div", {class: "about"},
    make("b", {class: "route-name"}, badge, " ", van.name),
    times, van.load ? make("span", {}, "; load " + van.load) : null, make("br"),
    pressed("Pin " + van.name, "Pin", van.pinned, () => change({kind: "pin", vehicle, pinned: !van.pinned}),
      desk.searching),
    pressed("Switch " + van.name + " off", "Off", van.off, () => change({kind: "switch", vehicle, on: van.off}),
      desk.searching));
}

function row(van, vehicle) {
  const label = van.name + ": " + van.visits.length + " visits" + (van.off ? ", switched off" : "")
    + (van.pinned ? ", pinned" : "");
  return make("div", {class: "van" + (van.off ? " off" : ""), role: "group", "aria-label": label},
    about(van, vehicle), chips(vehicle, van.visits));
}

function left() {
  const count = desk.day.left.length, words = count === 1 ? "1 visit" : count + " visits";
  return make("div", {class: "van", role: "group", "aria-label": "Left out: " + words},
    make("div", {class: "about"}, make("b", {}, "Left out"), words), chips(null, desk.day.left));
}

/** The visit that the keyboard comes to first. */
function restTab(node) {
  const first = (node !== null && chipOf(node)) || board.querySelector(".chip");
  if (first) { first.tabIndex = 0; }
}

export function focusOn(node) {
  const chip = chipOf(node);
  if (!chip) { return; }
  for (const other of board.querySelectorAll('.chip[tabindex="0"]')) { other.tabIndex = -1; }
  chip.tabIndex = 0;
  chip.focus();
}

function show() {
  const active = document.activeElement && document.activeElement.closest("#board .chip");
  const node = active ? Number(active.getAttribute("data-node")) : null;
  const label = !active && board.contains(document.activeElement) && document.activeElement.getAttribute("aria-label");
  desk.chosen = desk.chosen.filter((entry) => entry < desk.day.nodes.length);
  if (desk.day.status === "broken") {
    board.replaceChildren();
    return;
  }
  board.replaceChildren(...desk.day.vehicles.map(row), left());
  restTab(node === null ? null : node);
  if (node !== null) { focusOn(node); }
  if (label) {
    const same = Array.from(board.querySelectorAll("button")).find((b) => b.getAttribute("aria-label") === label);
    if (same) { same.focus(); }
  }
}

function mark() {
  for (const chip of board.querySelectorAll(".chip")) {
    chip.setAttribute("aria-pressed", desk.chosen.includes(Number(chip.getAttribute("data-node"))));
  }
}

/** The run of visits from one to another of the same row; the other alone where they are in two rows. */
export function run(from, to) {
  const one = whereIs(from), other = whereIs(to);
  if (one.vehicle !== other.vehicle) { return [to]; }
  const visits = rows().find((entry) => entry.vehicle === one.vehicle).visits;
  return visits.slice(Math.min(one.place, other.place), Math.max(one.place, other.place) + 1);
}

/** A press on a visit chooses it; with Shift the run to it, with Control it too. */
export function pick(node, event) {
  if (event.shiftKey && desk.chosen.length) {
    choose(run(desk.chosen[0], node));
  } else if (event.ctrlKey || event.metaKey) {
    choose(desk.chosen.includes(node) ? desk.chosen.filter((entry) => entry !== node) : [...desk.chosen, node]);
  } else {
    choose([node]);
  }
  if (desk.chosen.includes(node)) { focusOn(node); }
}

/** Moves visits in front of a visit of a row (null: to its end), in the order that they have. */
export function put(nodes, vehicle, before) {
  return change(vehicle === null ? {kind: "move", nodes, vehicle} : {kind: "move", nodes, vehicle, before});
}

/** Moves a visit to where it costs least in the route of a van, several to its end. */
export function putBest(nodes, vehicle) {
  return nodes.length > 1 || vehicle === null ? put(nodes, vehicle, null)
    : change({kind: "move", nodes, vehicle, best: true});
}

on("day", show);
on("chosen", mark);
on("searching", () => { if (desk.day) { show(); } });
on("opened", () => tell("chosen"));
