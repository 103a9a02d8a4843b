"use strict";
// Where another history of the same cell parts from the run that the page shows.

function fillParting(run, place, choose) {
  const { parting } = run.cell;
  if (!parting) return;
  place.hidden = false;
  if (parting.event === null) {
    place.append(made("p", `${parting.other} has the same events`));
    return;
  }
  place.append(made("p", `this run and ${parting.other} part at event ${parting.event}`));
  const body = made("tbody", "", ...parting.rows.map((row) => partingRow(row, parting.event, choose)));
  const heads = ["event", "this run", parting.other].map((it) => made("th", it));
  place.append(made("table", "", made("thead", "", made("tr", "", ...heads)), body));
  const own = parting.tasks.map(({ task, both }) => made("li", both ? `${task}: ${both.map(afterLast).join(" | ")}` : `${task} does the same in both`));
  place.append(made("p", "the first event of each task that differs from its own ones in the other run:"), made("ul", "", ...own));
}

function partingRow([event, ours, theirs], first, choose) {
  const row = made("tr", "", made("th", String(event)), made("td", ours || "-"), made("td", theirs || "-"));
  row.className = event < first ? "same" : "other";
  row.addEventListener("click", () => choose(event));
  return row;
}

function afterLast(words) {
  return words || "nothing more";
}
