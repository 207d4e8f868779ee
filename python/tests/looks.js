/* What is wrong with a page for those who read it by a screen reader, by keyboard, or with weak eyes; for try_desk. */
(() => {
  const found = [], all = (selector) => Array.from(document.querySelectorAll(selector));
  const say = (words, e) => found.push(words + ": " + e.outerHTML.slice(0, 90));
  const isHidden = (e) => e.closest("[aria-hidden=true]") !== null;
  const seen = (e) => e.getClientRects().length > 0 && getComputedStyle(e).visibility === "visible" && !isHidden(e);

  function nameOf(e) {
    const ids = (e.getAttribute("aria-labelledby") || "").split(/\s+/).filter(Boolean);
    const named = ids.map((id) => (document.getElementById(id) || {}).textContent || "").join(" ");
    const labels = Array.from(e.labels || []).map((label) => label.textContent).join(" ");
    return (e.getAttribute("aria-label") || named || labels || (e.tagName === "INPUT" ? "" : e.textContent)).trim();
  }

  function names() {
    const roles = "[role=region], [role=group], [role=toolbar], [role=img]";
    for (const e of all("button, a, input, select, summary, dialog, aside, " + roles)) {
      if ((seen(e) || e.tagName === "DIALOG") && !nameOf(e)) { say("no name", e); }
    }
    const ids = all("[id]").map((e) => e.id);
    for (const id of ids.filter((entry, at) => ids.indexOf(entry) !== at)) { found.push("two of the id " + id); }
    if (document.documentElement.lang !== "en" || !document.title) { found.push("no language or title"); }
  }

  function tables() {
    for (const e of all("table")) {
      if (!e.caption) { say("no caption", e); }
      for (const cell of e.querySelectorAll("th")) { if (!cell.scope) { say("no scope", cell); } }
    }
  }

  function headings() {
    let last = 1;
    for (const e of all("h1, h2, h3, h4").filter(seen)) {
      const level = Number(e.tagName[1]);
      if (level > last + 1) { say("a heading is left out before", e); }
      last = level;
    }
  }

  /** Each drawing has words, and each chart a table that says the same. */
  function drawings() {
    const captions = all("caption").map((e) => e.textContent);
    for (const e of all("svg:not(svg svg)").filter((entry) => !isHidden(entry))) {
      if (e.getAttribute("role") !== "img" || !e.getAttribute("aria-label")) { say("a drawing without words", e); }
    }
    for (const e of all("svg[role=img]")) {
      const words = e.getAttribute("aria-label"), table = /table '([^']+)'/.exec(words);
      const sheets = /sheets of the vehicles/.test(words) && document.querySelector(".sheet table");
      if (!table && !sheets && !/table below/.test(words)) { say("a chart without a table", e); }
      if (table && !captions.includes(table[1])) { say("its table is missing", e); }
    }
  }

  function colour(text) {
    const numbers = text.match(/[\d.]+/g).map(Number);
    return numbers.length > 3 ? numbers : [...numbers, 1];
  }

  function shade(numbers) {
    const parts = numbers.slice(0, 3).map((value) => value / 255);
    const [r, g, b] = parts.map((part) => part <= 0.03928 ? part / 12.92 : ((part + 0.055) / 1.055) ** 2.4);
    return 0.2126 * r + 0.7152 * g + 0.0722 * b;
  }

  function ground(e) {
    for (let at = e; at; at = at.parentElement) {
      const found = colour(getComputedStyle(at).backgroundColor);
      if (found[3] > 0.99) { return found; }
    }
    return [255, 255, 255, 1];
  }

  function ratio(one, other) {
    const [dark, light] = [shade(one), shade(other)].sort((a, b) => a - b);
    return (light + 0.05) / (dark + 0.05);
  }

  function contrasts() {
    const walker = document.createTreeWalker(document.body, NodeFilter.SHOW_TEXT);
    while (walker.nextNode()) {
      const e = walker.currentNode.parentElement;
      if (!walker.currentNode.data.trim() || e.closest("svg, script, option") || !seen(e)) { continue; }
      let opacity = 1;
      for (let at = e; at; at = at.parentElement) { opacity *= Number(getComputedStyle(at).opacity); }
      const reached = ratio(colour(getComputedStyle(e).color), ground(e));
      if (reached < 4.5 || opacity < 1) { say("contrast " + reached.toFixed(2) + ", opacity " + opacity, e); }
    }
  }

  function focus() {
    for (const e of all("button, input, select, summary, a, [tabindex='0']").filter(seen)) {
      if (e.disabled) { continue; }
      e.focus({focusVisible: true, preventScroll: true});
      const style = getComputedStyle(e);
      if (document.activeElement !== e) { continue; }
      if (parseFloat(style.outlineWidth) < 2 || style.outlineStyle === "none") { say("the focus is not seen", e); }
      if (ratio(colour(style.outlineColor), ground(e.parentElement)) < 3) { say("the focus is faint", e); }
    }
    document.activeElement.blur();
  }

  function sizes() {
    for (const e of all("button, select, summary").filter(seen)) {
      const {width, height} = e.getBoundingClientRect();
      if (width < 24 || height < 24) { say("small: " + width.toFixed(0) + " by " + height.toFixed(0), e); }
    }
  }

  for (const look of [names, tables, headings, drawings, contrasts, focus, sizes]) { look(); }
  return Array.from(new Set(found)).slice(0, 12).join("\n");
})()
