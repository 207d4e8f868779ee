/* The day that is open, and what was said of it last. Whoever shows a part of it listens. */

import {get, post, Refusal} from "./ask.js";

export const desk = {day: null, chosen: [], answer: null, refusal: null, searching: false};
const listeners = {};
let queue = Promise.resolve();

export function on(name, listener) {
  (listeners[name] = listeners[name] || []).push(listener);
}

export function tell(name, value) {
  for (const listener of listeners[name] || []) { listener(value); }
}

function taken(reply) {
  desk.day = reply.day;
  desk.answer = reply.answer;
  desk.refusal = reply.answer.made ? null : reply.answer;
  tell("day");
}

function refused(problem) {
  if (!(problem instanceof Refusal)) { throw problem; }
  desk.refusal = {sentence: problem.message, made: false};
  tell("said");
}

/** Posts to the open day, one request after the other, and shows the day that comes back. */
export function ask(word, tree) {
  const path = "day/" + desk.day.id + "/" + word;
  queue = queue.then(() => post(path, tree())).then(taken).catch(refused);
  return queue;
}

export function change(asked) {
  desk.asked = asked;
  return ask("change", () => ({step: desk.day.step, change: asked}));
}

export async function open(id) {
  try {
    const day = await get("day/" + id);
    desk.day = day;
    desk.chosen = [];
    desk.answer = desk.refusal = null;
    tell("opened");
    tell("day");
  } catch (problem) {
    refused(problem);
  }
}

const PAUSE = 120;
let timer = null;

/** Of a large day the vans that changed are checked first; looks what the program finds of the whole day. */
async function look() {
  const {id, step} = desk.day;
  const found = await get("day/" + id + "/checked").catch(() => null);
  if (!found || desk.day.id !== id || desk.day.step !== step) { return; }
  if (found.step !== step || found.status === "broken") {
    await reload();
    desk.refusal = found.notice ? {sentence: found.notice, made: false} : null;
    tell("said");
  } else if (found.status === "checking") {
    timer = window.setTimeout(look, PAUSE);
  } else {
    desk.day.status = found.status;
    desk.day.steps[0].fine = found.status === "fine";
    tell("checked");
  }
}

on("day", () => {
  window.clearTimeout(timer);
  if (desk.day.status === "checking") { timer = window.setTimeout(look, PAUSE); }
});

export async function reload() {
  const day = await get("day/" + desk.day.id);
  desk.day = day;
  tell("day");
}

export function choose(nodes) {
  desk.chosen = nodes;
  tell("chosen");
}

export function name(node) {
  return desk.day.nodes[node][0];
}

/** A time as the planner writes it. */
export function clock(value) {
  if (desk.day.clock === null) { return String(value); }
  const minutes = value + desk.day.clock;
  return Math.floor(minutes / 60) + ":" + String(minutes % 60).padStart(2, "0");
}

/** The time that a planner wrote; null where it is none. */
export function clockRead(text) {
  const found = /^\s*(\d+):([0-5]\d)\s*$/.exec(text);
  if (found && desk.day.clock !== null) { return 60 * Number(found[1]) + Number(found[2]) - desk.day.clock; }
  return /^\s*\d+\s*$/.test(text) ? Number(text) : null;
}

/** Where a visit is: its vehicle (null: left out) and its place in the route. */
export function whereIs(node) {
  for (let vehicle = 0; vehicle < desk.day.vehicles.length; vehicle += 1) {
    const place = desk.day.vehicles[vehicle].visits.indexOf(node);
    if (place >= 0) { return {vehicle, place}; }
  }
  return {vehicle: null, place: desk.day.left.indexOf(node)};
}
