
"use strict";
// Adds what a page of outcomes needs a script for: search, sorting, opening all rows, and the choice of a view.
(() => {
  const find = (id) => document.getElementById(id);
  const body = find("rows");
  const rows = Array.from(body.children);
  const label = new Map(rows.map((row) => [row, row.querySelector("b").textContent]));
  const texts = (row) => Array.from(row.querySelectorAll("b, small, pre"), (part) => part.textContent);
  const searched = new Map(rows.map((row) => [row, texts(row).join("\n").toLowerCase()]));
  const chance = (row) => Number(row.style.getPropertyValue("--c"));
  const text = new Intl.Collator("en", { numeric: true });
  const orders = {
    chance: () => rows,
    text: () => rows.slice().sort((a, b) => text.compare(label.get(a), label.get(b))),
  };

  // Presses one button of its group.
  function press(button) {
    for (const other of button.parentElement.children) {
      other.setAttribute("aria-pressed", String(other === button));
    }
  }

  function sort(button) {
    press(button);
    body.append(...orders[button.dataset.sort]());
  }

  function show(button) {
    press(button);
    const view = button.dataset.view;
    find("table").hidden = view !== "table";
    find("tree").hidden = view !== "tree";
    document.querySelector(".of-table").hidden = view !== "table";
  }

  function search() {
    const wanted = find("find").value.trim().toLowerCase();
    const found = rows.filter((row) => {
      row.hidden = !searched.get(row).includes(wanted);
      return !row.hidden;
    });
    const sum = found.reduce((all, row) => all + chance(row), 0);
    const percent = `${(100 * sum).toFixed(2)} %`;
    find("found").textContent = wanted ? `${found.length} of ${rows.length} rows: ${percent}` : "";
    nameOpening();
  }

  const visible = () => rows.filter((row) => !row.hidden);
  const allOpen = () => visible().length > 0 && visible().every((row) => row.open);

  function nameOpening() {
    find("open").textContent = allOpen() ? "Close all" : "Open all";
  }

  function openAll() {
    const open = !allOpen();
    for (const row of visible()) row.open = open;
    nameOpening();
  }

  find("tools").hidden = false;
  find("find").addEventListener("input", search);
  find("open").addEventListener("click", openAll);
  body.addEventListener("toggle", nameOpening, true);
  for (const button of document.querySelectorAll("[data-sort]")) {
    button.addEventListener("click", () => sort(button));
  }
  for (const button of document.querySelectorAll("[data-view]")) {
    button.addEventListener("click", () => show(button));
  }
  if (find("tree")) find("tree").hidden = true;
  search(); // a browser may keep what was typed before the page was loaded again
})();
