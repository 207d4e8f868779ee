/* A search: it is begun with its seconds, shows how the cost falls, and is stopped. */

import {get, post} from "./ask.js";
import {byId, drawn, make, table} from "./make.js";
import {desk, on, reload, tell} from "./store.js";

const EVERY = 350, WIDTH = 600, HEIGHT = 150, EDGE = 46;
let timer = null, turn = 0;

function isBusy(found) {
  return found.status === "waiting" || found.status === "searching";
}

function buttons() {
  const busy = desk.searching, day = desk.day;
  byId("plan").hidden = busy;
  byId("plan").textContent = day.status === "empty" || day.status === "broken" ? "Plan" : "Improve from here";
  byId("stop").hidden = !busy;
  byId("undo").disabled = busy || !day.can_undo;
  byId("redo").disabled = busy || !day.can_redo;
}

function words(found) {
  const last = found.points[found.points.length - 1];
  const missing = last && last[2] ? " and leaves " + last[2] + " visits that must be made" : "";
  const best = last ? " The best costs " + last[1] + missing + "." : "";
  return found.sentence + " " + found.spent + " of " + found.asked + " seconds, " + found.rounds + " rounds." + best;
}

function label(x, y, words, anchor) {
  return drawn("text", {x, y, "text-anchor": anchor, class: "number"}, words);
}

/** The cost over time as a line of steps; the table says the same. */
function curve(found) {
  const last = found.points[found.points.length - 1];
  const points = found.points.filter((point) => point[2] === last[2]), costs = points.map((point) => point[1]);
  const low = Math.min(...costs), high = Math.max(...costs, low + 1), now = Math.max(found.spent, last[0]);
  const x = (seconds) => EDGE + (WIDTH - EDGE - 10) * Math.min(1, seconds / found.asked);
  const y = (cost) => 12 + (HEIGHT - 36) * (high - cost) / (high - low);
  const steps = points.slice(1).map(([seconds, cost]) => "H" + x(seconds) + "V" + y(cost)).join("");
  const words = "The best cost over time, from " + costs[0] + " to " + last[1] + ". The table below says the same.";
  return drawn("svg", {viewBox: "0 0 " + WIDTH + " " + HEIGHT, role: "img", "aria-label": words},
    drawn("path", {class: "curve", d: "M" + x(points[0][0]) + " " + y(costs[0]) + steps + "H" + x(now)}),
    drawn("circle", {class: "dot-now", cx: x(now), cy: y(last[1]), r: 4}),
    label(EDGE - 6, 16, String(high), "end"), label(EDGE - 6, HEIGHT - 20, String(low), "end"),
    label(EDGE, HEIGHT - 5, "0 s", "start"), label(WIDTH - 10, HEIGHT - 5, found.asked + " s", "end"));
}

function show(found) {
  byId("progress").hidden = found.status === "none";
  if (found.status === "none") { return; }
  byId("progress-words").textContent = words(found);
  byId("progress-chart").replaceChildren(...(found.points.length ? [curve(found)] : []));
  const heads = ["seconds", "cost", "must be made and is not"];
  byId("progress-table").replaceChildren(
    table("The best cost over time", heads, found.points.map((point) => point.map(String))));
}

/** Looks how the search goes; of two looks at a time the later one counts. */
async function look() {
  window.clearTimeout(timer);
  turn += 1;
  const id = desk.day.id, own = turn;
  const found = await get("day/" + id + "/search").catch(() => null);
  if (desk.day.id !== id || own !== turn) { return; }
  const was = desk.searching;
  desk.searching = found !== null && isBusy(found);
  if (found) { show(found); }
  if (was && !desk.searching) {
    desk.answer = desk.refusal = null;
    await reload();
    byId("said").textContent = found ? found.sentence : "The desk does not answer.";
  }
  if (was !== desk.searching) { tell("searching"); }
  if (desk.searching) { timer = window.setTimeout(look, EVERY); }
}

async function plan() {
  const seconds = Number(byId("seconds").value);
  try {
    await post("day/" + desk.day.id + "/plan", {seconds});
    desk.answer = null;
    desk.refusal = null;
  } catch (problem) {
    desk.refusal = {sentence: problem.message, made: false};
  }
  tell("said");
  await look();
}

export function begin() {
  byId("plan").addEventListener("click", plan);
  byId("stop").addEventListener("click", () => post("day/" + desk.day.id + "/stop", {}).then(look, look));
  on("day", () => {
    buttons();
    if (desk.answer) { byId("progress").hidden = true; }
  });
  on("searching", buttons);
  on("opened", () => { desk.searching = false; look(); });
}
