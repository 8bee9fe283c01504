// A node's streams on the axis of time, with the window that can be read: as docs/streams.svg.
const SVG = "http://www.w3.org/2000/svg";
const LEFT = 80, RIGHT = 14, TOP = 30;
// About as wide is a letter of the drawing; no text of it is smaller than the least size, whatever the drawing's width.
const LETTER = 6.8, LEAST_SIZE = 11;
const LAST = 2n ** 62n;

function part(name, attributes, text) {
  const it = document.createElementNS(SVG, name);
  for (const [key, value] of Object.entries(attributes)) it.setAttribute(key, String(value));
  if (text !== undefined) it.textContent = text;
  return it;
}

function greatest(values, otherwise) {
  return values.reduce((one, other) => (one > other ? one : other), otherwise);
}

// The times that all pictures show: from the least time that can be read to the last mark of any stream that isn't retired, and a little beyond.
export function axisOf(nodes, width) {
  const known = nodes.filter((node) => node.horizon !== null);
  if (known.length === 0) return { from: 0n, to: 1n, width };
  const from = known.map((node) => BigInt(node.horizon)).reduce((one, other) => (one < other ? one : other));
  const ends = known.flatMap((node) => [BigInt(node.readable), ...node.streams.flatMap((stream) =>
    [stream.closed, ...stream.first_waiting.map((mark) => mark.m)].map(BigInt))]).filter((time) => time < LAST);
  const last = greatest(ends, from);
  const span = last - from;
  return { from, to: last + (span / 14n || 1n), width };
}

function placeOf(axis, time) {
  const at = time < axis.from ? axis.from : time > axis.to ? axis.to : time;
  const share = Number(((at - axis.from) * 1000000n) / (axis.to - axis.from)) / 1e6;
  return LEFT + share * (axis.width - LEFT - RIGHT);
}

// Round steps, so that at most seven times are written below, and as many as have room.
function ticks(axis) {
  const room = Math.floor((axis.width - LEFT - RIGHT) / ((String(axis.to).length + 2) * LETTER));
  const most = BigInt(Math.max(1, Math.min(6, room - 1)));
  let step = 1n;
  for (let next = 0; (axis.to - axis.from) / step > most; next += 1) step = next % 3 === 1 ? (step / 2n) * 5n : step * 2n;
  const found = [];
  for (let time = ((axis.from + step - 1n) / step) * step; time <= axis.to && found.length < 9; time += step) found.push(time);
  return found;
}

export function words(stream) {
  const found = [`prefix ${stream.prefix}`, stream.retired ? "retired" : `closed ${stream.closed}`];
  if (stream.extra > 0) found.push(`${stream.extra} above a gap at ${BigInt(stream.prefix) + 1n}`);
  if (stream.waiting > 0) found.push(`${stream.waiting} mark${stream.waiting > 1 ? "s" : ""} wait${stream.waiting > 1 ? "" : "s"}`);
  return found.join(" · ");
}

function drawStream(axis, stream, y, height, called) {
  const until = placeOf(axis, stream.retired ? axis.to : BigInt(stream.closed));
  const found = [part("line", { x1: until, y1: y, x2: axis.width - RIGHT, y2: y, class: "open" }),
    part("line", { x1: LEFT, y1: y, x2: until, y2: y, class: "closed", "stroke-width": Math.min(5, height * 0.35) }),
    part("circle", { cx: until, cy: y, r: Math.min(4.5, height * 0.42), class: "tip" })];
  for (const mark of stream.first_waiting) {
    const circle = part("circle", { cx: placeOf(axis, BigInt(mark.m)), cy: y, r: Math.min(5, height * 0.4), class: "waits" });
    circle.append(part("title", {}, `mark waits: ${mark.n} up to ${mark.m}`));
    found.push(circle);
  }
  const name = part("text", { x: 0, y: y + 4, class: stream.holds ? "name late" : "name" }, called.length > 11 ? `${called.slice(0, 10)}…` : called);
  name.append(part("title", {}, `${called}: ${words(stream)}`));
  return [...found, name];
}

function drawWindow(axis, node, bottom) {
  const from = placeOf(axis, BigInt(node.horizon)), to = placeOf(axis, BigInt(node.readable));
  const first = `oldest readable ${node.horizon}`, last = `resolved time ${node.readable}`;
  return [part("rect", { x: from, y: TOP - 6, width: Math.max(to - from, 2), height: bottom - TOP + 6, class: "window" }),
    ...[from, to].map((x) => part("line", { x1: x, y1: TOP - 6, x2: x, y2: bottom, class: "edge" })),
    ...(to - from > (first.length + last.length + 2) * LETTER ? [part("text", { x: from, y: 14, class: "head" }, first)] : []),
    part("text", { x: Math.max(to, Math.min(last.length * LETTER, axis.width)), y: 14, class: "head", "text-anchor": "end" }, last)];
}

// The picture of a node that is known, with the time that is looked at, as wide as the axis says; `called` gives a stream's name.
export function picture(node, axis, time, called) {
  const height = Math.max(LEAST_SIZE + 1, Math.min(26, 360 / node.streams.length));
  const bottom = TOP + height * node.streams.length + 4;
  const svg = part("svg", { viewBox: `0 0 ${axis.width} ${bottom + 22}`, width: axis.width, height: bottom + 22, role: "img",
    "aria-label": `${node.node}: oldest readable time ${node.horizon}, resolved time ${node.readable}; ${node.streams.map((it) => `${called(it)} ${words(it)}`).join("; ")}` });
  svg.append(...drawWindow(axis, node, bottom));
  svg.append(part("line", { x1: LEFT, y1: bottom, x2: axis.width - RIGHT, y2: bottom, class: "axis" }));
  for (const tick of ticks(axis)) svg.append(part("text", { x: placeOf(axis, tick), y: bottom + 16, class: "small", "text-anchor": "middle" }, String(tick)));
  node.streams.forEach((stream, at) => svg.append(...drawStream(axis, stream, TOP + height * at + height / 2, height, called(stream))));
  if (time !== null && time >= axis.from && time <= axis.to) {
    const x = placeOf(axis, time);
    svg.append(part("line", { x1: x, y1: TOP - 6, x2: x, y2: bottom, class: "now" }), part("circle", { cx: x, cy: bottom, r: 4, class: "knob" }));
  }
  return svg;
}
