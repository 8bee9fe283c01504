// The overview: a row for each node, with how far it is behind and how that was; and what times mean to people.
import { make } from "./rows.js";

const SVG = "http://www.w3.org/2000/svg";
const WIDTH = 132, HEIGHT = 26;
// Microseconds since 1970 of the years from 2001 on, and of 2100.
const CLOCK_FROM = 978307200000000n, CLOCK_TO = 4102444800000000n;

function isClock(time) {
  return time !== null && BigInt(time) >= CLOCK_FROM && BigInt(time) < CLOCK_TO;
}

// Whether the times of a node are a clock's.
export function isOfClock(node) {
  return [node.readable, ...node.streams.map((stream) => stream.closed)].some(isClock);
}

// A time of a clock in words, else "".
export function clockWords(time) {
  return isClock(time) ? `${new Date(Number(BigInt(time) / 1000n)).toISOString().replace("T", " ").slice(0, 19)} UTC` : "";
}

// How many times are between two, in seconds where they are a clock's, else in commits.
export function spanWords(span, inSeconds) {
  if (inSeconds) return `${(Number(span) / 1e6).toFixed(Number(span) < 10e6 ? 1 : 0)} s`;
  return `${span} commit${String(span) === "1" ? "" : "s"}`;
}

export function secondsWords(seconds) {
  if (seconds === null) return "";
  const whole = Math.floor(seconds), parts = [[86400, "d"], [3600, "h"], [60, "min"], [1, "s"]];
  const at = parts.findIndex(([size]) => whole >= size);
  if (at < 0) return "0 s";
  const next = parts[at + 1], rest = next ? Math.floor((whole % parts[at][0]) / next[0]) : 0;
  return `${Math.floor(whole / parts[at][0])} ${parts[at][1]}${rest ? ` ${rest} ${next[1]}` : ""}`;
}

// Bytes in words: three digits or more, and the unit.
export function bytesWords(bytes) {
  const units = ["B", "KiB", "MiB", "GiB", "TiB"];
  let number = Number(bytes), at = 0;
  while (number >= 1024 && at < units.length - 1) { number /= 1024; at++; }
  return `${at === 0 ? number : number.toFixed(number < 10 ? 2 : number < 100 ? 1 : 0)} ${units[at]}`;
}

// When a node started, to the minute, by the seconds since.
function sinceWords(seconds) {
  return `${new Date(Date.now() - Number(seconds) * 1000).toISOString().replace("T", " ").slice(0, 16)} UTC`;
}

// What a node tells of itself, in the order of the columns; nothing of what it doesn't tell.
function toldOf(stats) {
  if (stats === null) return ["", "", "", "", ""];
  const { memory, connections, most_connections: most, version, guarded, seconds } = stats;
  return [memory === null || memory === "0" ? "" : bytesWords(memory), `${connections}${most === "0" ? "" : `, ${most} at most`}`, version ?? "",
    guarded === null ? "" : guarded ? "yes" : "no", seconds === null ? "" : sinceWords(seconds)];
}

function drawn(name, attributes) {
  const it = document.createElementNS(SVG, name);
  for (const [key, value] of Object.entries(attributes)) it.setAttribute(key, String(value));
  return it;
}

// The lag of the last polls, the newest on the right; nothing is drawn where it wasn't known.
export function sparkline(lags, inSeconds) {
  const known = lags.map((lag) => (lag === null ? null : Number(lag)));
  const most = Math.max(1, ...known.filter((lag) => lag !== null));
  const words = `lag of the last ${lags.length} polls, ${spanWords(Math.max(0, ...known.filter((lag) => lag !== null)), inSeconds)} at most`;
  const svg = drawn("svg", { viewBox: `0 0 ${WIDTH} ${HEIGHT}`, width: WIDTH, height: HEIGHT, class: "spark", role: "img", "aria-label": words });
  const place = (lag, at) => `${((at + 120 - lags.length) / 119) * (WIDTH - 4) + 2},${HEIGHT - 3 - (lag / most) * (HEIGHT - 6)}`;
  const runs = [[]];
  known.forEach((lag, at) => { if (lag === null) runs.push([]); else runs[runs.length - 1].push(place(lag, at)); });
  svg.append(drawn("title", {}), ...runs.filter((run) => run.length > 1).map((run) => drawn("polyline", { points: run.join(" "), class: "lag" })));
  svg.firstChild.textContent = words;
  return svg;
}

function lagWords(node) {
  if (node.lag === null) return "";
  const lacks = node.lacks === "0" ? "" : `, lacks ${node.lacks} entr${node.lacks === "1" ? "y" : "ies"} of others`;
  return node.lag === "0" && !lacks ? "none" : `${spanWords(BigInt(node.lag), isOfClock(node))}${lacks}`;
}

function cell(name, ...children) {
  const it = make("td", {}, ...children);
  it.dataset.name = name;
  return it;
}

export function saidOf(node) {
  return !node.up ? "away" : node.damaged ? "failed" : node.age !== null && node.age > 3 ? `silent for ${Math.round(node.age)} s` : "up";
}

function row(node) {
  const said = saidOf(node), clock = clockWords(node.readable);
  const it = make("tr", {}, make("th", { scope: "row" }, node.node), cell("state", make("span", { class: said === "up" ? "pill" : "pill no" }, said)),
    cell("resolved time", node.readable ?? "", ...(clock ? [make("span", { class: "soft" }, ` ${clock}`)] : [])), cell("oldest readable", node.horizon ?? ""), cell("lag", lagWords(node)),
    cell("lag lately", ...(node.lags.some((lag) => lag !== null) ? [sparkline(node.lags, isOfClock(node))] : [])), cell("operations", node.operations ?? ""), cell("least pinned", node.least_hold ?? ""),
    cell("seen up for", secondsWords(node.up_for)), ...toldOf(node.stats).map((word, at) => cell(TOLD[at], word)));
  it.dataset.node = node.node;
  return it;
}

const TOLD = ["memory", "connections", "version", "guarded", "up since"];
const COLUMNS = ["node", "state", "resolved time", "oldest readable", "lag", "lag lately", "operations", "least pinned", "seen up for", ...TOLD];

// The table of all nodes; columns that no node fills are left out.
export function overview(nodes) {
  const rows = nodes.map(row);
  const kept = COLUMNS.map((_, at) => at < 6 || rows.some((it) => it.children[at].textContent !== ""));
  for (const it of rows) [...it.children].forEach((one, at) => { if (!kept[at]) one.remove(); });
  const head = make("tr", {}, ...COLUMNS.filter((_, at) => kept[at]).map((name) => make("th", { scope: "col" }, name)));
  return make("table", { class: "overview" }, make("thead", {}, head), make("tbody", {}, ...rows));
}

// What is to be said of nodes of different logs, else "".
export function otherLogs(nodes) {
  const known = nodes.filter((node) => node.log !== null);
  return new Set(known.map((node) => node.log)).size < 2 ? "" :
    `These nodes are of different logs, so their rows are not those of one primary: ${known.map((node) => `${node.node} has log ${node.log}`).join(", ")}.`;
}
