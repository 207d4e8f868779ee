/* What the day is, what it costs, and what was said of the last change. */

import {byId, make, table} from "./make.js";
import {change, desk, name, on} from "./store.js";

const WORDS = {
  fine: "keeps all rules", checking: "being checked", unfinished: "unfinished", empty: "nothing is planned yet",
  broken: "breaks a rule",
};
const PARTS = [
  ["arcs", "arcs"], ["fixed costs", "fixed"], ["spans", "span"], ["global spans", "global"], ["lateness", "soft"],
  ["penalties", "penalty"],
];
const MOST_NAMED = 5;

function total(parts) {
  return Object.values(parts).reduce((sum, value) => sum + value, 0);
}

function missingWords(names) {
  if (!names.length) { return ""; }
  const more = names.length > MOST_NAMED ? " and " + (names.length - MOST_NAMED) + " more" : "";
  const what = names.length > 1 ? " visits that must be made are not: " : " visit that must be made is not: ";
  return " " + names.length + what + names.slice(0, MOST_NAMED).join(", ") + more + ".";
}

function stateWords() {
  const day = desk.day;
  if (day.status === "broken") { return day.sentence; }
  const used = day.vehicles.filter((van) => van.visits.length).length;
  const left = day.left.length === 1 ? "1 visit is left out." : day.left.length + " visits are left out.";
  return used + " of " + day.vehicles.length + " vans leave, " + left + missingWords(day.missing);
}

function showState() {
  const day = desk.day;
  byId("state").replaceChildren(
    make("span", {class: "verdict " + day.status}, WORDS[day.status]),
    day.status === "broken" ? "" : make("b", {id: "cost"}, String(day.cost)), stateWords());
}

function signed(value) {
  const kind = value < 0 ? " better" : value > 0 ? " worse" : "";
  return make("td", {class: "number" + kind}, value > 0 ? "+" + value : String(value));
}

function row(words, before, now) {
  return before === null ? [words, String(now)] : [words, String(before), String(now), signed(now - before)];
}

function showCosts() {
  const day = desk.day;
  if (day.status === "broken") { byId("costs").replaceChildren(); return; }
  const before = desk.answer && desk.answer.made ? desk.answer.before : null;
  const rows = PARTS.map(([words, key], at) => row(words, before ? before[key] : null, day.parts[at][1]));
  rows.push(row("all", before ? total(before) : null, day.cost));
  const heads = before ? ["part", "before", "now", "change"] : ["part", "now"];
  const shown = table(before ? "Costs before the last step and now" : "Costs", heads, rows);
  shown.tBodies[0].lastElementChild.className = "sum";
  byId("costs").replaceChildren(shown);
}

/** Where a rule is broken. */
function where(refusal) {
  if (refusal.vehicle === undefined || refusal.vehicle < 0) { return ""; }
  const place = refusal.place >= 0 ? ", stop " + refusal.place : "";
  const rule = refusal.dimension ? refusal.dimension : "rule ‘" + refusal.rule + "’";
  return " (" + rule + ", " + desk.day.vehicles[refusal.vehicle].name + place + ")";
}

function showSaid() {
  const answer = desk.answer, refusal = desk.refusal, box = byId("refusal");
  box.hidden = !refusal;
  box.replaceChildren();
  if (refusal) { box.append(make("strong", {}, "Not done. "), refusal.sentence, where(refusal), ...ways(refusal)); }
  byId("said").textContent = refusal || !answer ? "" : answer.sentence + difference(answer);
}

function difference(answer) {
  if (!answer.before || desk.day.status === "broken") { return ""; }
  const more = desk.day.cost - total(answer.before);
  const words = more > 0 ? more + " more." : more < 0 ? -more + " less." : "as before.";
  return " The day costs " + desk.day.cost + ", " + words;
}

/** An edit with which a route cannot be driven may leave the visit out. */
function ways(refusal) {
  const asked = desk.asked;
  if (!refusal.rule || !asked || asked.kind !== "edit" || asked.leave) { return []; }
  const words = "Change it and leave " + name(asked.node) + " out";
  return [" ", make("button", {type: "button", onclick: () => change({...asked, leave: true})}, words)];
}

export function begin() {
  on("day", () => { showState(); showCosts(); showSaid(); });
  on("said", showSaid);
  on("checked", () => {
    showState();
    byId("said").textContent += " The whole day was checked: " + WORDS[desk.day.status] + ".";
  });
}
