/* The days of the folder: one is opened, made, named, compared, exported, and its steps are shown. */

import {get, post} from "./ask.js";
import {byId, make, piece, table} from "./make.js";
import {ask, desk, on, open, tell} from "./store.js";

const EXPORTS = [
  ["csv", "Table of stops (CSV)"], ["sheets", "A sheet for each driver (pages in a ZIP)"],
  ["page", "The whole day (page)"], ["geojson", "Map (GeoJSON)"], ["json", "Model and solution for the program (JSON)"],
];
let known = {days: [], examples: []};

export async function list() {
  known = await get("days");
  const options = known.days.map((day) => make("option", {value: day.id}, dayWords(day)));
  const first = make("option", {value: ""}, known.days.length ? "choose" : "none yet");
  byId("days").replaceChildren(first, ...options);
  if (desk.day) { byId("days").value = desk.day.id; }
  byId("example").replaceChildren(...known.examples.map((name) => make("option", {value: name}, name)));
  return known.days;
}

function shown() {
  const has = desk.day !== null;
  byId("welcome").hidden = has;
  byId("work").hidden = !has;
  for (const part of document.querySelectorAll(".ofday")) { part.hidden = !has; }
}

function opened() {
  const day = desk.day;
  document.title = day.name + " at the desk";
  history.replaceState(null, "", "#" + day.id);
  byId("doubts-part").hidden = !day.doubts.length;
  byId("doubts").replaceChildren(...day.doubts.map((words) => make("li", {}, words)));
  exportsShown();
  byId("beside").hidden = true;
  shown();
  list();
}

function exportLine(kind, words) {
  return make("p", {}, make("a", {href: "api/day/" + desk.day.id + "/export/" + kind, download: true}, words));
}

/** The files of a day; a calendar is of a date. */
function exportsShown() {
  const date = make("input", {type: "date", id: "export-date", value: new Date().toISOString().slice(0, 10)});
  const calendar = exportLine("icalendar-" + date.value, "Calendar (iCalendar)");
  date.addEventListener("change", () => {
    if (date.value) { calendar.firstChild.href = "api/day/" + desk.day.id + "/export/icalendar-" + date.value; }
  });
  const kinds = EXPORTS.filter(([kind]) => kind !== "geojson" || desk.day.has_places);
  const field = make("p", {}, make("label", {for: "export-date"}, "of "), date);
  const dated = desk.day.clock === null ? [] : [calendar, field];
  byId("exports").replaceChildren(...kinds.map(([kind, words]) => exportLine(kind, words)), ...dated);
}

function stepLine(step, at) {
  const word = step.fine ? "" : step.fine === null ? ", not checked as a whole" : ", unfinished";
  const cost = step.number ? ", cost " + step.cost + word : "";
  const press = () => ask("goto", () => ({number: step.number}));
  const button = make("button", {type: "button", "aria-label": "Go to: " + step.words, onclick: press}, "Go to");
  return make("li", {}, step.words + cost + " ", at ? button : "(now)");
}

function steps() {
  const found = desk.day.steps;
  byId("steps").replaceChildren(make("ol", {class: "steps", reversed: true, start: found.length}, found.map(stepLine)));
}

function fileTree(file) {
  return new Promise((done, failed) => {
    const reader = new FileReader();
    reader.onload = () => done({name: file.name, data: String(reader.result).split(",", 2)[1] || ""});
    reader.onerror = () => failed(new Error("The file " + file.name + " cannot be read."));
    reader.readAsDataURL(file);
  });
}

function chosenFrom() {
  return document.querySelector('input[name="from"]:checked').value;
}

function chosenShown() {
  for (const kind of ["tables", "model", "example"]) { byId("of-" + kind).hidden = kind !== chosenFrom(); }
  byId("of-clock").hidden = chosenFrom() === "tables";
}

async function asked() {
  const kind = chosenFrom(), tree = {from: kind};
  if (byId("new-name").value.trim()) { tree.name = byId("new-name").value; }
  const file = (id, what) => {
    if (!byId(id).files.length) { throw new Error("Choose the file of " + what + "."); }
    return fileTree(byId(id).files[0]);
  };
  if (kind === "model") { tree.model = await file("file-model", "the model"); }
  if (kind === "example") { tree.example = byId("example").value; }
  if (kind !== "tables" && byId("clock").value.trim()) { tree.clock = byId("clock").value; }
  if (kind === "tables") {
    tree.places = await file("file-places", "places");
    tree.vans = await file("file-vans", "vans");
    for (const name of ["measure", "unit"]) { tree[name] = byId(name).value; }
    for (const [name, id] of [["speed", "speed"], ["cost", "cost-km"], ["wait", "wait"]]) {
      tree[name] = Number(byId(id).value);
    }
  }
  return tree;
}

/** The lines of a table around a faulty one, with the faulty cell marked; null where no line was told. */
function faultyLines(fault, asks) {
  const file = [asks.places, asks.vans].find((entry) => entry && fault.file === entry.name);
  if (!file || !fault.line) { return null; }
  const bytes = Uint8Array.from(atob(file.data), (letter) => letter.charCodeAt(0));
  const lines = new TextDecoder().decode(bytes).split(/\r\n|\n|\r/);
  const comma = [",", ";", "\t"].sort((a, b) => lines[0].split(b).length - lines[0].split(a).length)[0];
  const heads = lines[0].split(comma), from = Math.max(1, fault.line - 3);
  const rows = lines.slice(from, fault.line + 2).map((line, at) => [String(from + at + 1), ...line.split(comma)]);
  const shown = table(file.name, ["line", ...heads], rows), row = shown.tBodies[0].rows[fault.line - 1 - from];
  const column = heads.findIndex((head) => head.trim().toLowerCase() === fault.column);
  if (row) { (row.cells[column + 1] && column >= 0 ? row.cells[column + 1] : row).classList.add("faulty"); }
  return make("div", {class: "scroll", tabindex: 0, role: "region", "aria-label": "The faulty line"}, shown);
}

async function made(event) {
  event.preventDefault();
  const box = byId("new-problem");
  let asks = {};
  box.hidden = true;
  try {
    asks = await asked();
    const found = await post("days", asks);
    byId("dialog-new").close();
    await open(found.id);
  } catch (problem) {
    box.replaceChildren(make("strong", {}, "The day was not made. "), problem.message);
    const lines = problem.tree ? faultyLines(problem.tree, asks) : null;
    if (lines) { box.append(lines); }
    box.hidden = false;
  }
}

async function named(event) {
  event.preventDefault();
  try {
    const found = await post("day/" + desk.day.id + "/name", {name: byId("name").value});
    desk.day.name = found.name;
    byId("dialog-name").close();
    opened();
  } catch (problem) {
    byId("name").setCustomValidity(problem.message);
    byId("name").reportValidity();
    byId("name").setCustomValidity("");
  }
}

function dayWords(day) {
  return day.name + (day.cost === null ? "" : ": cost " + day.cost);
}

async function comparing() {
  await list();
  const others = known.days.filter((day) => day.id !== desk.day.id)
    .map((day) => make("option", {value: day.id + "/now"}, dayWords(day)));
  const steps = desk.day.steps.slice(1).map((step) =>
    make("option", {value: desk.day.id + "/" + step.number}, "as it was: " + step.words + ", cost " + step.cost));
  byId("other").replaceChildren(...steps, ...others);
  byId("dialog-compare").showModal();
}

async function compared(event) {
  event.preventDefault();
  byId("dialog-compare").close();
  if (!byId("other").value) { return; }
  try {
    const found = await get("beside/" + byId("other").value + "/" + desk.day.id + "/now");
    piece(byId("beside-body"), found.html);
  } catch (problem) {
    desk.refusal = {sentence: problem.message, made: false};
    tell("said");
    return;
  }
  byId("beside").hidden = false;
  byId("beside").scrollIntoView();
}

/** Files that are dropped on the page: one is a model, two are tables; that with the column `start` has the vans. */
async function dropped(event) {
  event.preventDefault();
  document.body.classList.remove("dropping");
  const files = Array.from(event.dataTransfer.files);
  if (!files.length) { return; }
  const give = (id, file) => {
    const holder = new DataTransfer();
    holder.items.add(file);
    byId(id).files = holder.files;
  };
  const kind = files.length === 1 && /\.json$/i.test(files[0].name) ? "model" : "tables";
  document.querySelector('input[name="from"][value="' + kind + '"]').checked = true;
  if (kind === "model") {
    give("file-model", files[0]);
  } else {
    for (const file of files.slice(0, 2)) { give(await isOfVans(file) ? "file-vans" : "file-places", file); }
  }
  chosenShown();
  if (!byId("dialog-new").open) { byId("dialog-new").showModal(); }
}

async function isOfVans(file) {
  const head = (await file.slice(0, 2000).text()).split("\n", 1)[0].toLowerCase();
  return /\bstart\b/.test(head) || (/van|vehicle|fahrzeug/i.test(file.name) && !/\bx\b/.test(head));
}

export function begin() {
  byId("days").addEventListener("change", () => { if (byId("days").value) { open(byId("days").value); } });
  byId("new").addEventListener("click", () => {
    byId("new-problem").hidden = true;
    chosenShown();
    byId("dialog-new").showModal();
  });
  byId("form-new").addEventListener("submit", made);
  byId("form-new").addEventListener("change", chosenShown);
  byId("rename").addEventListener("click", () => {
    byId("name").value = desk.day.name;
    byId("dialog-name").showModal();
  });
  byId("form-name").addEventListener("submit", named);
  byId("compare").addEventListener("click", comparing);
  byId("form-compare").addEventListener("submit", compared);
  byId("beside-close").addEventListener("click", () => { byId("beside").hidden = true; });
  for (const word of ["new", "name", "compare"]) {
    byId(word + "-cancel").addEventListener("click", () => byId("dialog-" + word).close());
  }
  document.addEventListener("dragover", (event) => {
    event.preventDefault();
    document.body.classList.add("dropping");
  });
  document.addEventListener("dragleave", (event) => {
    if (!event.relatedTarget) { document.body.classList.remove("dropping"); }
  });
  document.addEventListener("drop", dropped);
  on("opened", opened);
  on("day", steps);
  on("checked", steps);
  shown();
}
