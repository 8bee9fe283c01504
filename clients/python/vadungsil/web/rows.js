// Rows, refusals and changes as elements. Whatever a row holds goes in as text, never as markup.
export function make(name, attributes = {}, ...children) {
  const it = document.createElement(name);
  for (const [key, value] of Object.entries(attributes)) it.setAttribute(key, value);
  it.append(...children);
  return it;
}

function bytesOf(hex) {
  const found = new Uint8Array(hex.length / 2);
  for (let at = 0; at < found.length; at += 1) found[at] = parseInt(hex.slice(2 * at, 2 * at + 2), 16);
  return found;
}

// The text of JSON with a line for each value. Only what stands between its texts is moved, so that no number loses a digit.
export function indented(text) {
  JSON.parse(text);
  let found = "", depth = 0;
  const line = () => `\n${"  ".repeat(depth)}`;
  for (const token of text.match(/"(?:[^"\\]|\\.)*"|[{}\[\],:]|[^\s{}\[\],:"]+/g)) {
    if (token === "{" || token === "[") { depth += 1; found += token + line(); }
    else if (token === "}" || token === "]") { depth -= 1; found = `${found.trimEnd()}${/[{[]$/.test(found.trimEnd()) ? "" : line()}${token}`; }
    else found += token === "," ? token + line() : token === ":" ? ": " : token;
  }
  return found;
}

// Characters that don't stand for themselves on a line, as vadungsil.bodies has them; within JSON lines may end.
const HIDDEN = /[\p{C}\p{Zl}\p{Zp}]/u, HIDDEN_IN_JSON = /[\p{Cf}\p{Cn}\p{Co}\p{Cs}\p{Zl}\p{Zp}]/u;

// JSON of so many letters stays on its line.
const SHORT = 60;

// A body as JSON in lines where it is a long object or list, as text where it is plain text, else in hexadecimal behind \\x.
function readable(bytes, hex) {
  let text;
  try {
    text = new TextDecoder("utf-8", { fatal: true, ignoreBOM: true }).decode(bytes);
    const isShort = text.length <= SHORT && !HIDDEN.test(text);
    if (/^\s*[{[]/.test(text) && !HIDDEN_IN_JSON.test(text) && !isShort) return indented(text);
  } catch (error) {
    if (!(error instanceof SyntaxError)) return `\\x${hex}`;
  }
  return HIDDEN.test(text) ? `\\x${hex}` : text;
}

// A body in the wanted view, and what is to be said where it isn't of that kind.
export function body(hex, view) {
  if (hex === "") return make("span", { class: "soft" }, "empty");
  if (view === "hex") return make("code", {}, hex);
  const bytes = bytesOf(hex);
  if (view === "auto") return make("code", {}, readable(bytes, hex));
  try {
    const text = new TextDecoder("utf-8", { fatal: true, ignoreBOM: true }).decode(bytes);
    if (view === "text") return make("code", {}, text);
    try {
      return make("code", {}, indented(text));
    } catch (error) {
      return make("span", {}, make("code", {}, text), make("span", { class: "note" }, "not JSON"));
    }
  } catch (error) {
    return make("span", {}, make("code", {}, view === "text" ? new TextDecoder().decode(bytes) : hex), make("span", { class: "note" }, "not UTF-8"));
  }
}

export function refusal(refused) {
  const box = make("p", { class: "trouble" }, make("strong", {}, refused.line), `: ${refused.meaning}; ${refused.advice}`);
  box.dataset.number = refused.number;
  return box;
}

function title(answer, said) {
  return make("div", { class: "title" }, make("h3", {}, answer.node), make("span", { class: "soft" }, said));
}

function card(answer, said, ...parts) {
  const it = make("article", { class: "card" }, title(answer, said), ...parts);
  it.dataset.node = answer.node;
  return it;
}

function troubled(answer) {
  if (answer.away !== undefined) return card(answer, "away: see above");
  return card(answer, `refused ${answer.refused.number}`, refusal(answer.refused));
}

function rowsTable(rows, view) {
  const head = make("tr", {}, ...["key", "tag", "body"].map((name) => make("th", { scope: "col" }, name)));
  const lines = rows.map((row) => make("tr", {}, make("td", { class: "number" }, row.key), make("td", { class: "number" }, String(row.tag)),
    make("td", {}, body(row.body, view))));
  return make("div", { class: "rows", tabindex: "0" }, make("table", {}, make("thead", {}, head), make("tbody", {}, ...lines)));
}

// What a node answered. `next` is called with a key from which to go on.
export function answerCard(answer, view, next) {
  if (answer.rows === undefined && answer.count === undefined) return troubled(answer);
  if (answer.count !== undefined) return card(answer, "count", make("p", { class: "words" }, make("strong", {}, answer.count), answer.count === "1" ? " row" : " rows"));
  const many = answer.rows.length;
  const parts = many ? [rowsTable(answer.rows, view)] : [make("p", { class: "words soft" }, "no row")];
  if (answer.more) {
    const on = make("button", { type: "button" }, "go on");
    on.addEventListener("click", () => next(String(BigInt(answer.rows[many - 1].key) + 1n)));
    parts.push(make("p", { class: "words" }, `the first ${many}; `, next ? on : ""));
  }
  return card(answer, `${many}${answer.more ? " and more" : ""} row${many === 1 ? "" : "s"}`, ...parts);
}

function changeLine(change, view) {
  const parts = [make("b", {}, change.what), `key ${change.key} `];
  if (change.before) parts.push(make("span", { class: "soft" }, `tag ${change.before.tag} `), body(change.before.body, view));
  if (change.before && change.after) parts.push(" → ");
  if (change.after) parts.push(make("span", { class: "soft" }, `tag ${change.after.tag} `), body(change.after.body, view));
  return make("li", { class: change.what }, ...parts);
}

export function changesCard(answer, view) {
  if (answer.changes === undefined) return troubled(answer);
  const parts = [make("ul", { class: "changes" }, ...answer.changes.map((change) => changeLine(change, view)))];
  if (answer.until !== null) parts.push(make("p", { class: "words soft" }, `looked at up to key ${answer.until}`));
  return card(answer, `${answer.changes.length} key${answer.changes.length === 1 ? "" : "s"}`, ...parts);
}
