"use strict";

// --- light and dark

const root = document.documentElement;
const systemIsDark = window.matchMedia("(prefers-color-scheme: dark)");

function colour(name) {
  return getComputedStyle(root).getPropertyValue(name).trim();
}

function setTheme(theme) {
  root.dataset.theme = theme;
  document.querySelectorAll(".chart.js-plotly-plot").forEach((chart) => Plotly.relayout(chart, themeOf(chart)));
}

setTheme(systemIsDark.matches ? "dark" : "light");
systemIsDark.addEventListener("change", (event) => setTheme(event.matches ? "dark" : "light"));
document.getElementById("theme").addEventListener("click", () => setTheme(root.dataset.theme === "dark" ? "light" : "dark"));

// The colours of a chart's layout, as Plotly.relayout takes them.
function themeOf(chart) {
  const made = { paper_bgcolor: colour("--panel"), plot_bgcolor: colour("--panel"), "font.color": colour("--ink"), colorway: palette() };
  for (const axis of ["xaxis", "yaxis"]) {
    made[`${axis}.gridcolor`] = colour("--grid");
    made[`${axis}.linecolor`] = colour("--line");
  }
  for (let at = 0; at < (chart.layout.shapes || []).length; at += 1) {
    made[`shapes[${at}].line.color`] = colour("--quiet");
  }
  return made;
}

function palette() {
  return [colour("--mark"), colour("--second"), "#2f9e63", "#a05bd0", "#c9a227", "#d2487c", "#4aa8b5", "#8a8f98"];
}

// --- charts: each is drawn when it comes into view

const figures = JSON.parse(document.getElementById("figures").textContent);
// (on a phone the buttons below a chart serve instead of plotly's own)
const settings = {
  responsive: true,
  displaylogo: false,
  displayModeBar: window.matchMedia("(min-width: 40rem)").matches,
  modeBarButtonsToRemove: ["select2d", "lasso2d", "autoScale2d"],
};

function draw(chart) {
  const figure = figures[chart.dataset.figure];
  Plotly.newPlot(chart, figure.data, figure.layout, settings).then(() => Plotly.relayout(chart, themeOf(chart)));
}

const watcher = new IntersectionObserver(
  (entries) =>
    entries
      .filter((entry) => entry.isIntersecting)
      .forEach((entry) => {
        watcher.unobserve(entry.target);
        draw(entry.target);
      }),
  { rootMargin: "400px" }
);
document.querySelectorAll(".chart").forEach((chart) => watcher.observe(chart));

// The part of the axis that a button shows.
function moved([from, to], move) {
  const width = to - from;
  const parts = { in: [0.25, -0.25], out: [-0.5, 0.5], left: [-0.25, -0.25], right: [0.25, 0.25] };
  const [left, right] = parts[move];
  return [from + left * width, to + right * width];
}

document.querySelectorAll(".tools button").forEach((button) =>
  button.addEventListener("click", () => {
    const chart = button.closest(".panel").querySelector(".chart");
    if (!chart.layout) {
      return;
    }
    const isAll = button.dataset.move === "all";
    const change = isAll
      ? { "xaxis.autorange": true, "yaxis.autorange": true }
      : { "xaxis.range": moved(chart.layout.xaxis.range, button.dataset.move) };
    Plotly.relayout(chart, change);
  })
);

// --- tables: they sort by a column, as numbers where both cells are numbers, and filter

function compare(one, other) {
  const numbers = [one, other].map((text) => (text === "" ? NaN : Number(text)));
  if (numbers.some(Number.isNaN)) {
    return one.localeCompare(other, undefined, { numeric: true });
  }
  return numbers[0] - numbers[1];
}

function sortBy(head) {
  const ascending = head.getAttribute("aria-sort") !== "ascending";
  const body = head.closest("table").tBodies[0];
  const column = head.cellIndex;
  const rows = Array.from(body.rows);
  rows.sort((one, other) => compare(one.cells[column].textContent, other.cells[column].textContent) * (ascending ? 1 : -1));
  body.append(...rows);
  for (const other of head.parentElement.cells) {
    other.setAttribute("aria-sort", "none");
  }
  head.setAttribute("aria-sort", ascending ? "ascending" : "descending");
}

document.querySelectorAll("th button").forEach((button) => button.addEventListener("click", () => sortBy(button.closest("th"))));

document.querySelectorAll("[data-filter]").forEach((input) =>
  input.addEventListener("input", () => {
    const wanted = input.value.toLowerCase();
    for (const row of document.getElementById(input.dataset.filter).tBodies[0].rows) {
      row.hidden = !row.textContent.toLowerCase().includes(wanted);
    }
  })
);

// --- while `soldrich watch` writes the page again: a script beside it says which one is the newest

function reloadWhenWritten(address, stamp) {
  window.soldrichWritten = (newest) => {
    if (newest !== stamp) {
      window.location.reload();
    }
  };
  setInterval(() => {
    const script = document.createElement("script");
    script.src = `${address}?${Date.now()}`;
    script.onload = script.onerror = () => script.remove();
    document.head.append(script);
  }, 1000);
}
