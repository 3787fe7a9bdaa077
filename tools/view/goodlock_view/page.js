"use strict";
(() => {
  const tools = document.getElementById("tools");
  const main = document.getElementById("findings");
  const control = (name) => document.getElementById(name);

  function openTarget() {
    const target = document.getElementById(location.hash.slice(1));
    if (target && target.matches("details.finding")) target.open = true;
  }
  window.addEventListener("hashchange", openTarget);
  openTarget();

  // On paper all that is shown is open.
  let opened = [];
  window.addEventListener("beforeprint", () => {
    opened = [...document.querySelectorAll("details.finding:not([open])")];
    for (const finding of opened) finding.open = true;
  });
  window.addEventListener("afterprint", () => {
    for (const finding of opened) finding.open = false;
  });

  if (!tools) return;
  tools.hidden = false;
  const items = [...document.querySelectorAll("[data-cycles]")].map((element, rank) => ({
    element, rank, home: element.parentNode, cycles: Number(element.dataset.cycles), threads: element.dataset.threads,
    state: element.dataset.state.split(" "), place: element.querySelector(".places").textContent, texts: null,
  }));
  const orders = {
    rank: (a, b) => a.rank - b.rank,
    cycles: (a, b) => b.cycles - a.cycles || a.rank - b.rank,
    place: (a, b) => (a.place < b.place ? -1 : a.place > b.place ? 1 : a.rank - b.rank),
  };

  // A long name stands in a finding by its two ends, with a link to the whole of it: search looks at that, too.
  const names = new Map();
  function nameAt(hash) {
    if (!names.has(hash)) {
      names.set(hash, document.getElementById(hash.slice(1)).nextElementSibling.textContent.toLowerCase());
    }
    return names.get(hash);
  }

  function textsOf(element) {
    const hashes = new Set([...element.querySelectorAll('a[href^="#name-"]')].map((link) => link.hash));
    return [element.textContent.toLowerCase(), ...[...hashes].map(nameAt)];
  }

  function isAsked(item, words) {
    if (control("threads").value && control("threads").value !== item.threads) return false;
    if (control("state") && control("state").value && !item.state.includes(control("state").value)) return false;
    if (words.length === 0) return true;
    if (item.texts === null) item.texts = textsOf(item.element);
    return words.every((word) => item.texts.some((text) => text.includes(word)));
  }

  function filter() {
    const words = control("search").value.toLowerCase().split(/\s+/).filter((word) => word !== "");
    let shown = 0;
    for (const item of items) {
      item.element.hidden = !isAsked(item, words);
      if (!item.element.hidden) shown += 1;
    }
    control("shown").textContent = `${shown} of ${items.length} shown`;
  }

  function sort() {
    items.sort(orders[control("order").value]);
    for (const item of items) item.home.append(item.element);
  }

  function showAll() {
    for (const name of ["search", "threads", "state"]) if (control(name)) control(name).value = "";
    filter();
  }

  function fold() {
    const shown = [...main.querySelectorAll("details.finding:not([hidden])")];
    const open = shown.some((finding) => !finding.open);
    for (const finding of shown) finding.open = open;
    control("fold").textContent = open ? "Close all" : "Open all";
  }

  function step(by) {
    const heads = [...main.querySelectorAll("details.finding:not([hidden]) > summary")];
    const at = heads.indexOf(document.activeElement);
    const next = at < 0 ? (by > 0 ? 0 : heads.length - 1) : at + by;
    if (heads[next]) heads[next].focus();
  }

  const keys = { "/": () => control("search").focus(), j: () => step(1), k: () => step(-1), a: fold, Escape: showAll };
  document.addEventListener("keydown", (event) => {
    if (event.ctrlKey || event.altKey || event.metaKey) return;
    const isTyping = event.target.matches("input, select");
    if (!(event.key in keys) || (isTyping && event.key !== "Escape")) return;
    event.preventDefault();
    keys[event.key]();
  });
  control("search").addEventListener("input", filter);
  control("threads").addEventListener("change", filter);
  if (control("state")) control("state").addEventListener("change", filter);
  control("order").addEventListener("change", sort);
  control("fold").addEventListener("click", fold);
  filter();
})();
