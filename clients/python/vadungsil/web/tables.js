// The tables that nodes hold anything of, each a link to its rows.
import { make } from "./rows.js";

let shown = "";

// A link to all rows of a table, at the time and in the view that are shown.
function link(table, { at, view, name }) {
  const words = new URLSearchParams({ kind: "range", table: String(table), ...(at === "" ? {} : { at }), view });
  return make("a", { href: `/?${words}` }, name);
}

function listOf(node, tellOf) {
  const links = node.tables.map((table) => link(table, tellOf(table))), more = node.tables_count - links.length;
  const it = make("p", {}, `${node.node}: ${node.tables_count} table${node.tables_count === 1 ? "" : "s"}`,
    ...links.flatMap((one, at) => [at ? ", " : ": ", one]), ...(more ? [` and ${more} more`] : []));
  it.dataset.node = node.node;
  return it;
}

// The lists of the nodes that tell their tables, made anew only where something is another, so that a link keeps its focus.
export function listTables(place, nodes, tellOf) {
  const telling = nodes.filter((node) => node.tables !== null);
  const key = JSON.stringify(telling.map((node) => [node.node, node.tables_count, node.tables.map((table) => [table, tellOf(table)])]));
  if (key === shown) return;
  shown = key;
  place.replaceChildren(...telling.map((node) => listOf(node, tellOf)));
  place.hidden = telling.length === 0;
}
