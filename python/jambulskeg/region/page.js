"use strict";
(function () {
  var choice = document.getElementById("vehicle"), map = document.getElementById("map");
  var search = document.getElementById("search"), vans = document.getElementById("vans");
  var count = document.getElementById("count");
  function choose() {
    map.querySelectorAll(".bright").forEach(function (route) { route.classList.remove("bright"); });
    var route = choice.value === "" ? null : document.getElementById("van" + choice.value);
    map.classList.toggle("chosen", route !== null);
    if (route) {
      route.classList.add("bright");
      route.parentNode.appendChild(route);
    }
  }
  function filter() {
    var words = search.value.toLowerCase().split(/\s+/).filter(Boolean), shown = 0;
    Array.prototype.forEach.call(vans.tBodies[0].rows, function (row) {
      var text = row.textContent.toLowerCase();
      var fits = words.every(function (word) { return text.indexOf(word) >= 0; });
      row.classList.toggle("hidden", !fits);
      shown += fits ? 1 : 0;
    });
    count.textContent = shown + " of " + vans.tBodies[0].rows.length + " vans";
  }
  document.querySelectorAll("[data-layer]").forEach(function (box) {
    function show() { map.classList.toggle(box.getAttribute("data-layer"), box.checked); }
    box.addEventListener("change", show);
    show();
  });
  choice.addEventListener("change", choose);
  search.addEventListener("input", filter);
  vans.addEventListener("click", function (event) {
    var row = event.target.closest("tr[data-van]");
    if (row) {
      choice.value = row.getAttribute("data-van");
      choose();
      map.scrollIntoView({block: "nearest"});
    }
  });
  choose();
  filter();
})();
