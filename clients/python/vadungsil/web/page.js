// The page: how the nodes stand, live; a time; a question; the rows of that moment, and what changed.
import { axisOf, picture, words } from "./draw.js";
import { clockWords, isOfClock, otherLogs, overview, saidOf, spanWords } from "./overview.js";
import { answerCard, changesCard, make, refusal } from "./rows.js";
import { listTables } from "./tables.js";

const $ = (id) => document.getElementById(id);
const FIELDS = { get: ["table", "key"], range: ["table", "low", "high"], tag: ["table", "tag"], count: ["table"] };
const MOST = { at: 2n ** 62n, with: 2n ** 62n, table: 65535n, key: 2n ** 64n - 1n, low: 2n ** 64n - 1n, high: 2n ** 64n - 1n, tag: 2n ** 32n - 1n };
const BEGIN = { kind: "range", table: "1", key: "0", low: "0", high: String(2n ** 64n - 1n), tag: "0", view: "auto", with: "" };
const VIEWS = ["auto", "hex", "text", "json"];
const LABELS = { at: "the time", with: "the time since which", table: "the table", key: "the key", low: "the first key", high: "the last key", tag: "the tag" };
// With more nodes their streams are drawn only where that is opened.
const FEW_NODES = 4, FEW_STREAMS = 10;
const STEPS = 1000000n;
const state = { ...BEGIN, at: "", nodes: [], window: null, names: { tables: {}, streams: {} }, source: null, heard: 0, asked: "", running: null, retry: null };

function isNumber(name, word) {
  return /^[0-9]{1,20}$/.test(word) && BigInt(word) <= MOST[name];
}

// ---------------------------------------------------------------- the address

function readAddress() {
  const words = new URLSearchParams(location.search);
  for (const name of [...Object.keys(BEGIN), "at"]) {
    const word = words.get(name) ?? "";
    if (name === "kind" ? word in FIELDS : name === "view" ? VIEWS.includes(word) : isNumber(name, word)) state[name] = word;
  }
}

function addressOf(at) {
  const words = new URLSearchParams({ kind: state.kind });
  for (const name of FIELDS[state.kind]) words.set(name, state[name]);
  if (at !== "") words.set("at", at);
  if (state.with !== "") words.set("with", state.with);
  words.set("view", state.view);
  return `/?${words}`;
}

// ---------------------------------------------------------------- the moment

function time() {
  return state.at !== "" ? BigInt(state.at) : state.window ? BigInt(state.window.to) : null;
}

function isWide() {
  return state.window && BigInt(state.window.to) - BigInt(state.window.from) > STEPS;
}

function sliderTime(value) {
  const from = BigInt(state.window.from), to = BigInt(state.window.to);
  return isWide() ? from + ((to - from) * BigInt(value)) / STEPS : from + BigInt(value);
}

function showMoment() {
  const slider = $("slider"), at = time();
  slider.disabled = !state.window;
  if (state.window) {
    const from = BigInt(state.window.from), to = BigInt(state.window.to), span = to - from;
    slider.max = String(isWide() ? STEPS : span);
    const inside = at < from ? from : at > to ? to : at;
    slider.value = String(isWide() ? ((inside - from) * STEPS) / span : inside - from);
    slider.setAttribute("aria-valuetext", `time ${at}`);
  }
  $("window").textContent = windowWords(at);
  $("follow").checked = state.at === "";
  if (document.activeElement !== $("at")) $("at").value = at === null ? "" : String(at);
  $("link").href = addressOf(at === null ? "" : String(at));
  drawNodes();
}

// The times that all can read, and who keeps others from the newest.
function windowWords(at) {
  if (!state.window) return "no time that all nodes can read";
  const known = state.nodes.filter((node) => node.readable !== null), newest = known.map((node) => BigInt(node.readable)).reduce((one, other) => (one > other ? one : other), 0n);
  const slow = known.filter((node) => node.readable === state.window.to && BigInt(node.readable) < newest).map((node) => node.node);
  const shown = at !== null && clockWords(at) ? `; shown is ${clockWords(at)}` : "";
  return `all nodes can read ${state.window.from} to ${state.window.to}${slow.length ? `, since ${slow.join(", ")} can read no further; the newest is ${newest}` : ""}${shown}`;
}

function setTime(word) {
  state.at = word;
  changed();
}

// ---------------------------------------------------------------- the nodes

function nodeWords(node) {
  const held = node.streams.filter((stream) => stream.holds);
  if (held.length === 0) return "no stream holds it back";
  const named = held.slice(0, 4).map(streamName).join(", ") + (held.length > 4 ? ` and ${held.length - 4} more` : "");
  const lacks = held[0].lacks === "entries" ? `entry ${BigInt(held[0].prefix) + 1n}` : "a mark";
  return `${named} hold${held.length > 1 ? "" : "s"} it back, by ${spanWords(BigInt(held[0].lag), isOfClock(node))}${held.length > 1 ? "" : `: it lacks ${lacks}`}`;
}

function streamName(stream) {
  return state.names.streams[stream.stream] ?? `stream ${stream.stream}`;
}

function streamList(node) {
  const lines = node.streams.map((stream) => make("li", { class: stream.holds ? "late" : "" }, `${streamName(stream)}: ${words(stream)}`));
  return make("ul", { class: "streams" }, ...(lines.length > FEW_STREAMS ? [] : lines));
}

function nodeCard(node, axis) {
  const said = saidOf(node);
  const card = make("article", { class: node.up ? "card" : "card away" }, make("div", { class: "title" }, make("h3", {}, node.node),
    make("span", { class: said === "up" ? "pill" : "pill no" }, said), make("span", { class: "soft" }, node.log === null ? "" : `log ${node.log}`)));
  card.dataset.node = node.node;
  if (!node.up) card.append(make("p", { class: "trouble" }, `${node.error}; trying again until it is back`));
  else if (node.refused) card.append(refusal(node.refused));
  else card.append(picture(node, axis, time(), streamName), make("p", { class: "words" }, nodeWords(node)), streamList(node));
  return card;
}

function drawNodes() {
  const wide = $("nodes").clientWidth || $("overview").clientWidth, columns = Math.max(1, Math.min(state.nodes.length, Math.floor(wide / 450)));
  const axis = axisOf(state.nodes, Math.max(240, Math.min(736, Math.floor(wide / columns) - 52)));
  $("overview").replaceChildren(overview(state.nodes));
  $("logs").textContent = otherLogs(state.nodes);
  $("logs").hidden = $("logs").textContent === "";
  $("nodes").replaceChildren(...state.nodes.map((node) => nodeCard(node, axis)));
  listTables($("held"), state.nodes, (table) => ({ at: state.at, view: state.view, name: state.names.tables[table] ?? String(table) }));
}

function heard(event) {
  const { nodes, window: times, names } = JSON.parse(event.data);
  if (state.heard === 0) {
    $("drawings").open = nodes.length <= FEW_NODES;
    $("tables").replaceChildren(...Object.entries(names.tables).map(([number, name]) => make("option", { value: name }, `table ${number}`)));
  }
  Object.assign(state, { nodes, window: times, names, heard: Date.now() });
  live("live, once a second", false);
  showMoment();
  ask();
}

function live(words, broken) {
  $("live").textContent = words;
  $("live").classList.toggle("broken", broken);
}

function listen() {
  clearTimeout(state.retry);
  if (state.source || document.hidden) return;
  state.source = new EventSource("/api/events");
  state.source.onmessage = heard;
  state.source.onerror = () => {
    live("the web server doesn't answer; trying again", true);
    hush();
    state.retry = setTimeout(listen, 1000);
  };
}

function hush() {
  if (state.source) state.source.close();
  state.source = null;
}

// ---------------------------------------------------------------- questions

function parameters(more) {
  const words = new URLSearchParams(more);
  for (const name of FIELDS[state.kind]) words.set(name, state[name]);
  return words;
}

async function fetched(path, signal) {
  const got = await fetch(path, { signal });
  const value = await got.json();
  if (value.answers === undefined) throw new Error(value.error ?? `status ${got.status}`);
  return value;
}

// Asks where the question, the time or the state of a node is another than when it was asked last, or it has come to be able to answer.
async function ask() {
  const at = time();
  const canRead = (node) => at !== null && node.readable !== null && BigInt(node.horizon) <= at && at <= BigInt(node.readable);
  const health = state.nodes.map((node) => [node.node, node.up, node.damaged, canRead(node)]);
  const asked = JSON.stringify([state.kind, FIELDS[state.kind].map((name) => state[name]), String(at), state.with, state.view, health]);
  if (at === null) { $("told").textContent = "no time can be read"; $("answers").replaceChildren(); state.asked = ""; return; }
  if (asked === state.asked) return;
  state.asked = asked;
  if (state.running) state.running.abort();
  state.running = new AbortController();
  const { signal } = state.running;
  try {
    showAnswers(await fetched(`/api/${state.kind}?${parameters({ at })}`, signal));
    const since = state.with !== "" && state.kind !== "count";
    $("changes-part").hidden = !since;
    if (since) showChanges(await fetched(`/api/changes?${parameters({ kind: state.kind, from: state.with, to: at })}`, signal));
  } catch (error) {
    if (error.name === "AbortError") return;
    state.asked = "";
    $("told").textContent = `not answered: ${error.message}`;
    $("told").className = "bad";
  }
}

function sameness(value) {
  const many = value.answers.filter((it) => it.refused === undefined && it.away === undefined).length;
  return value.equal === null ? "" : value.equal ? ` The ${many} nodes that answered are equal.` : " THE NODES ARE NOT EQUAL.";
}

function showAnswers(value) {
  const named = state.names.tables[value.question.table];
  $("told").textContent = `At time ${value.at}${named === undefined ? "" : `, table ${value.question.table} (${named})`}.${sameness(value)}`;
  $("told").className = value.equal === false ? "bad" : "";
  $("told").dataset.at = value.at;
  const next = state.kind === "range" ? (key) => { state.low = key; showForm(); changed(); } : null;
  $("answers").replaceChildren(...value.answers.map((answer) => answerCard(answer, state.view, next)));
}

function showChanges(value) {
  $("changes-told").textContent = `From time ${value.from} to time ${value.to}.${sameness(value)}`;
  const shown = value.equal ? value.answers.filter((it) => it.changes !== undefined).slice(0, 1) : value.answers;
  $("changes").replaceChildren(...shown.map((answer) => changesCard(answer, state.view)));
}

// ---------------------------------------------------------------- the form

function showForm() {
  for (const name of ["kind", "view", "table", "key", "low", "high", "tag", "with"]) $(name).value = state[name];
  for (const box of document.querySelectorAll("#form [aria-invalid]")) box.removeAttribute("aria-invalid");
  showFlaw("");
  for (const label of document.querySelectorAll("label[data-of]")) label.hidden = !label.dataset.of.split(" ").includes(state.kind);
}

function changed() {
  history.replaceState(null, "", addressOf(state.at));
  showMoment();
  ask();
}

// The number that a field says: that of a table may be its name.
function numberIn(name) {
  const word = $(name).value.trim();
  return (name === "table" && Object.keys(state.names.tables).find((it) => state.names.tables[it] === word)) || word;
}

// What is wrong in a field, else "".
function flawOf(name) {
  const word = numberIn(name), named = Object.values(state.names.tables);
  if (name === "with" && word === "") return "";
  if (!isNumber(name, word)) return `${LABELS[name]} is a number from 0 to ${MOST[name]}${name === "table" && named.length ? `, or a name: ${named.join(", ")}` : ""}, and not ${JSON.stringify(word)}`;
  const [low, high] = ["low", "high"].map((it) => numberIn(it));
  if (["low", "high"].includes(name) && isNumber("low", low) && isNumber("high", high) && BigInt(low) > BigInt(high)) return `the first key, ${low}, is above the last, ${high}`;
  return "";
}

function showFlaw(flaw) {
  $("wrong").textContent = flaw && `Not asked: ${flaw}. Below is the answer to what was asked before.`;
  $("wrong").hidden = flaw === "";
  $("answers").classList.toggle("old", flaw !== "");
}

// Takes what is in a field, and tells what is wrong in any that the question has.
function typed(name) {
  const flaws = ["at", "with", ...FIELDS[state.kind]].map((it) => [it, it === "at" && state.at === "" && name !== "at" ? "" : flawOf(it)]);
  for (const [it, flaw] of flaws) $(it).setAttribute("aria-invalid", String(flaw !== ""));
  const flaw = flaws.map(([, it]) => it).find((it) => it !== "") ?? "";
  showFlaw(flaw);
  if (flaw !== "") return;
  for (const it of FIELDS[state.kind]) state[it] = numberIn(it);
  state[name] = numberIn(name);
  changed();
}

function step(by) {
  const at = time();
  if (at !== null && at + by >= 0n && at + by <= MOST.at) setTime(String(at + by));
}

function begin() {
  readAddress();
  showForm();
  for (const name of ["table", "key", "low", "high", "tag", "with", "at"]) $(name).addEventListener("input", () => typed(name));
  for (const name of ["kind", "view"]) $(name).addEventListener("change", () => { state[name] = $(name).value; showForm(); changed(); });
  $("slider").addEventListener("input", () => setTime(String(sliderTime($("slider").value))));
  $("follow").addEventListener("change", () => setTime($("follow").checked ? "" : String(time() ?? "")));
  $("back").addEventListener("click", () => step(-1n));
  $("on").addEventListener("click", () => step(1n));
  $("form").addEventListener("submit", (event) => event.preventDefault());
  document.addEventListener("visibilitychange", () => { if (document.hidden) { hush(); live("stopped while the tab is hidden", false); } else listen(); });
  listen();
}

begin();
