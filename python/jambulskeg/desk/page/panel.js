/* The visit that is chosen: what it asks, other values of that, and where it could go. */

import {get} from "./ask.js";
import {put, vanName} from "./board.js";
import {byId, make} from "./make.js";
import {change, clock, clockRead, desk, name, on, whereIs} from "./store.js";

const place = byId("visit");

/** What a visit asks, as pairs of words. */
function facts(node) {
  const day = desk.day, where = whereIs(node), [, window, demand, penalty, kind, partner] = day.nodes[node];
  const isMade = where.vehicle !== null;
  const rows = [["made by", isMade ? vanName(where.vehicle) + ", stop " + (where.place + 1) : "nobody"]];
  if (isMade && day.vehicles[where.vehicle].begins.length) {
    rows.push(["begins", day.vehicles[where.vehicle].begins[where.place + 1]]);
  }
  if (day.time !== null) {
    rows.push(["may begin", window ? clock(window[0]) + " to " + clock(window[1]) : "at any time"]);
  }
  if (day.load !== null) { rows.push([day.load, String(demand)]); }
  const left = penalty === null ? "never: it must be made" : String(penalty);
  rows.push(["left out for", kind === "choice" ? "it is one of a choice" : left]);
  if (partner !== null) { rows.push(["goes with", name(partner)]); }
  return [...rows, ...Object.entries(day.further[node] || {}).filter((pair) => pair[1])];
}

function factsList(node) {
  return make("dl", {}, facts(node).flatMap(([key, value]) => [make("dt", {}, key), make("dd", {}, value)]));
}

function field(id, label, value) {
  return [make("label", {for: id}, label), make("input", {id, value, autocomplete: "off"})];
}

/** A small form of one edit; `read` gives what it changes, or a sentence that says what is wrong. */
function form(legend, words, fields, read) {
  const problem = make("p", {role: "alert", class: "worse"});
  function send(event) {
    event.preventDefault();
    const found = read();
    problem.textContent = typeof found === "string" ? found : "";
    if (typeof found !== "string") { change({kind: "edit", node: desk.chosen[0], ...found}); }
  }
  const parts = make("p", {}, fields, make("button", {type: "submit"}, words));
  return make("form", {onsubmit: send},
    make("fieldset", {disabled: desk.searching}, make("legend", {}, legend), parts, problem));
}

function windowRead() {
  const texts = [byId("edit-open").value, byId("edit-close").value];
  if (texts.every((text) => !text.trim())) { return {window: null}; }
  const edges = texts.map(clockRead);
  if (!edges.includes(null)) { return {window: edges}; }
  return "Both are whole numbers" + (desk.day.clock === null ? "." : ", or times such as 8:30.");
}

function windowForm(node) {
  const window = desk.day.nodes[node][1], texts = window ? window.map(clock) : ["", ""];
  const fields = [...field("edit-open", "from", texts[0]), ...field("edit-close", "to", texts[1])];
  return form("May begin (empty: at any time)", "Change the window", fields, windowRead);
}

function demandForm(node) {
  const fields = field("edit-demand", desk.day.load, desk.day.nodes[node][2]);
  return form("What it loads", "Change the load", fields, () => {
    const text = byId("edit-demand").value;
    return /^\s*-?\d+\s*$/.test(text) ? {demand: Number(text)} : "The load is a whole number.";
  });
}

function penaltyForm(node) {
  const penalty = desk.day.nodes[node][3], fields = field("edit-penalty", "penalty", penalty === null ? "" : penalty);
  return form("Left out for (empty: it must be made)", "Change the penalty", fields, () => {
    const text = byId("edit-penalty").value;
    if (!text.trim()) { return {penalty: null}; }
    return /^\s*\d+\s*$/.test(text) ? {penalty: Number(text)} : "The penalty is a whole number, or empty.";
  });
}

function offerLine(node, offer) {
  const van = make("b", {}, vanName(offer.vehicle)), {extra, before} = offer;
  if (extra === null) { return make("li", {}, van, ": ", offer.sentence); }
  const where = before === null ? "at its end" : "before " + name(before);
  const cost = extra ? "the day costs " + Math.abs(extra) + (extra > 0 ? " more" : " less") : "the day costs the same";
  const press = () => put([node], offer.vehicle, before);
  const words = "Put it there", label = words + ": " + vanName(offer.vehicle) + ", " + where;
  return make("li", {}, van, ", " + where + ": " + cost + " ",
    make("button", {type: "button", disabled: desk.searching, "aria-label": label, onclick: press}, words));
}

async function offered(node, list) {
  list.replaceChildren(make("li", {}, "looking"));
  const step = desk.day.step;
  let lines = [];
  try {
    const found = await get("day/" + desk.day.id + "/why/" + node);
    if (desk.day.step !== step || desk.chosen[0] !== node) { return; }
    lines = found.offers.map((offer) => offerLine(node, offer));
  } catch (problem) {
    lines = [make("li", {}, problem.message)];
  }
  list.replaceChildren(...lines);
}

function offers(node) {
  const list = make("ul", {class: "offers", "aria-live": "polite"});
  const words = "Where could it go, and why not?";
  return [make("button", {type: "button", id: "why", onclick: () => offered(node, list)}, words), list];
}

function many() {
  const words = desk.chosen.length + " visits are chosen: " + desk.chosen.map(name).join(", ");
  const press = () => put(desk.chosen, null, null);
  const attributes = {type: "button", disabled: desk.searching, onclick: press};
  return [make("p", {}, words), make("button", attributes, "Leave them out")];
}

function one(node) {
  const day = desk.day, kind = day.nodes[node][4];
  return [make("h3", {}, name(node)), factsList(node), ...offers(node),
    ...(day.time === null ? [] : [windowForm(node)]), ...(day.load === null ? [] : [demandForm(node)]),
    ...(kind === "choice" ? [] : [penaltyForm(node)])];
}

function show() {
  const has = desk.day && desk.day.status !== "broken" && desk.chosen.length;
  if (!has) {
    place.replaceChildren(make("p", {}, "Choose a visit to see and change what it asks."));
  } else {
    place.replaceChildren(...(desk.chosen.length > 1 ? many() : one(desk.chosen[0])));
  }
}

export function begin() {
  on("chosen", show);
  on("day", show);
  on("searching", show);
}
