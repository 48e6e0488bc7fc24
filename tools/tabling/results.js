// Makes the table of a piece of results when it is unfolded first.
"use strict";
const columns = JSON.parse(document.getElementById("columns").textContent);

function added(parent, name, text, kind) {
  const made = parent.appendChild(document.createElement(name));
  made.textContent = text;
  made.className = kind;
  return made;
}

function unfold(piece) {
  if (!piece.open || piece.querySelector("table")) return;
  const table = piece.appendChild(document.createElement("table"));
  const heading = table.insertRow();
  for (const [name] of columns) added(heading, "th", name, "");
  for (const [verdict, ...texts] of JSON.parse(piece.querySelector("script").textContent)) {
    const row = table.insertRow();
    row.className = verdict;
    columns.forEach(([, kind], at) => added(row, "td", texts[at], kind));
  }
}

for (const piece of document.querySelectorAll("details")) piece.addEventListener("toggle", () => unfold(piece));
