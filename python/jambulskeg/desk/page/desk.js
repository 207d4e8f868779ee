/* The page of the desk: its parts are begun, then the day of the address, or the only one, is opened. */

import * as charts from "./charts.js";
import * as costs from "./costs.js";
import * as days from "./days.js";
import * as drag from "./drag.js";
import * as keys from "./keys.js";
import {byId} from "./make.js";
import * as panel from "./panel.js";
import * as search from "./search.js";
import {ask, open} from "./store.js";

for (const part of [costs, search, drag, keys, panel, charts, days]) { part.begin(); }
byId("undo").addEventListener("click", () => ask("undo", () => ({})));
byId("redo").addEventListener("click", () => ask("redo", () => ({})));

const found = await days.list();
const asked = decodeURIComponent(location.hash.slice(1));
if (found.some((day) => day.id === asked)) {
  await open(asked);
} else if (found.length === 1) {
  await open(found[0].id);
}
document.body.dataset.ready = "true";
