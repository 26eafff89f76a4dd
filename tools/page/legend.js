// What the marks on the map mean: the tables, each with its switch and its look, the kinds of rows, and what waits.

const SVG = "http://www.w3.org/2000/svg", SWATCH = 9;

const legend = new Map();  // by table, its item, and what that shows

/** A part of a picture. */
function svgPart(name, attributes, ...parts) {
  const made = document.createElementNS(SVG, name);
  for (const [key, value] of Object.entries(attributes)) made.setAttribute(key, String(value));
  made.append(...parts);
  return made;
}

/** A mark as the map has it, with its sign. */
function swatch(style, sign = "") {
  const how = { fill: style.fill, stroke: style.edge === LIGHT ? "#6b7d8a" : style.edge, "stroke-width": 1.5 };
  const points = style.corners?.map(it => it.map(part => part * SWATCH).join()).join(" ");
  const ink = { fill: inkOf(style), "text-anchor": "middle", "dominant-baseline": "central", "font-size": 12 };
  const shape = points ? svgPart("polygon", { ...how, points }) : svgPart("circle", { ...how, r: SWATCH });
  const text = svgPart("text", { ...ink, "font-weight": "bold" }, sign);
  const view = { viewBox: "-16 -16 32 32", width: 28, height: 28, role: "img", "aria-label": phrase(style.name) };
  return svgPart("svg", view, shape, ...sign ? [text] : []);
}

/** Shows the tables on the map, how many of their rows it has, and the kinds that are told apart. */
function showLegend(all, counts) {
  const inOrder = tables().map(({ table }) => all.find(it => it.table === table));
  const wanted = inOrder.filter(it => it.isWorkedOn || !it.isOn || counts.get(it.table) > 0 || hasPlaces(it.all));
  arrange(byId("legend"), wanted.map(it => fillLegend(it, counts.get(it.table))));
  byId("tabled").hidden = wanted.length === 0;
}

/** Whether rows of a table have a place of the map's system, also where none of them is searched for. */
const hasPlaces = all => all.some(it => placeOfRow(it)?.system === shown.srs_id);

/** A table with its switch. Its item stays the same while what it says changes: else a tap under way would be lost. */
function fillLegend(it, count) {
  const there = legend.get(it.table) ?? legendItem(it);
  legend.set(it.table, there);
  const words = !it.isOn ? phrase("not shown") : it.isWorkedOn ? phrase("{0} on this map, worked on", count)
    : it.all.length < MOST_ALONGSIDE ? phrase("{0} on this map", count)
    : phrase("{0} on this map, of its first rows", count);
  Object.assign(there.box, { checked: it.isOn, disabled: it.isWorkedOn });
  if (there.words.textContent !== words) there.words.textContent = words;
  const shows = JSON.stringify(it.told.kinds);
  if (there.shows === shows) return there.item;
  there.shows = shows;
  there.kinds.replaceChildren(...it.told.kinds.map(({ sign, words, count }) =>
    element("li", swatch(it.style, sign), `${words} `, element("small", String(count)))));
  return there.item;
}

/** The item of a table. */
function legendItem({ table, identifier, style }) {
  const box = Object.assign(document.createElement("input"), { type: "checkbox" });
  const words = element("small", ""), kinds = Object.assign(element("ul", ""), { className: "kinds" });
  box.addEventListener("change", () => switchTable(table, box.checked));
  box.setAttribute("aria-label", phrase("On the map: {0}", identifier));
  const name = element("span", identifier, words);
  return { item: element("li", element("label", box, swatch(style), name), kinds), box, words, kinds, shows: "" };
}

function listenToLegend() {
  byId("tells").value = choiceOfTables().tells;
  byId("tells").addEventListener("change", () => chooseOfTables({ tells: byId("tells").value }));
  const { waits, refused } = STYLES_OF_WAITING;
  byId("meanings").replaceChildren(...[[waits, phrase("waits to be sent")],
    [refused, phrase("refused, or changed meanwhile")],
    [STYLE_OF_GROUP, phrase("so many rows: a tap on it goes nearer"), "12"]]
    .map(([style, words, sign]) => element("li", swatch(style, sign), words)));
}
