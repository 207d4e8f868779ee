"use strict";
(function () {
  var search, table, count, choice;
  function each(list, work) { Array.prototype.forEach.call(list, work); }
  function filter() {
    var words = search.value.toLowerCase().split(/\s+/).filter(Boolean), shown = 0;
    each(table.tBodies[0].rows, function (row) {
      var text = row.textContent.toLowerCase();
      var fits = words.every(function (word) { return text.indexOf(word) >= 0; });
      row.classList.toggle("hidden", !fits);
      shown += fits ? 1 : 0;
    });
    tell(shown);
  }
  function tell(shown) {
    count.textContent = shown + " of " + table.tBodies[0].rows.length + " visits";
  }
  function choose() {
    each(document.querySelectorAll("[data-vehicle]"), function (part) {
      var other = choice.value !== "" && part.getAttribute("data-vehicle") !== choice.value;
      part.classList.toggle(/^(TBODY|DETAILS)$/.test(part.tagName) ? "hidden" : "faint", other);
    });
  }
  function valueOf(cell) {
    var text = cell.textContent.trim(), clock = /^(\d+):(\d\d)(?: \(day (\d+)\))?/.exec(text);
    if (text === "") { return null; }
    if (clock) { return 1440 * ((clock[3] || 1) - 1) + 60 * clock[1] + Number(clock[2]); }
    return /^-?\d+$/.test(text) ? Number(text) : text;
  }
  function compared(one, other) {
    if (one === null || other === null) { return (one === null) - (other === null); }
    if (typeof one === "number" && typeof other === "number") { return one - other; }
    return String(one).localeCompare(String(other), undefined, { numeric: true });
  }
  function sort(head) {
    var down = head.getAttribute("aria-sort") === "ascending", body = head.closest("table").tBodies[0];
    var rows = Array.prototype.slice.call(body.rows).map(function (row) {
      return { row: row, value: valueOf(row.cells[head.cellIndex]) };
    });
    rows.sort(function (one, other) {
      var both = one.value === null || other.value === null;
      return compared(one.value, other.value) * (down && !both ? -1 : 1);
    });
    each(head.parentNode.cells, function (cell) { cell.removeAttribute("aria-sort"); });
    head.setAttribute("aria-sort", down ? "descending" : "ascending");
    rows.forEach(function (entry) { body.appendChild(entry.row); });
  }
  function mark() {
    each(document.querySelectorAll(".scroll"), function (part) {
      part.classList.toggle("more", part.scrollLeft + part.clientWidth < part.scrollWidth - 2);
    });
  }
  function sortable(head) {
    var button = document.createElement("button");
    button.type = "button";
    button.textContent = head.textContent;
    button.title = "sort by this column";
    head.textContent = "";
    head.appendChild(button);
    button.addEventListener("click", function () { sort(head); });
  }
  /* Begins with what the page has now; a page whose parts are drawn anew begins again. */
  function begin() {
    search = document.getElementById("search"); table = document.getElementById("visits");
    count = document.getElementById("count"); choice = document.getElementById("vehicle");
    each(document.querySelectorAll(".sorts thead th"), sortable);
    each(document.querySelectorAll(".scroll"), function (part) { part.addEventListener("scroll", mark); });
    mark();
    if (search && table) {
      search.addEventListener("input", filter);
      if (search.value) { filter(); } else { tell(table.tBodies[0].rows.length); }
    }
    if (choice) {
      choice.addEventListener("change", choose);
      if (choice.value !== "") { choose(); }
    }
  }
  window.addEventListener("resize", mark);
  document.addEventListener("toggle", mark, true);
  window.beginPage = begin;
  begin();
  window.addEventListener("beforeprint", function () {
    each(document.querySelectorAll("details"), function (part) { part.open = true; });
  });
})();
