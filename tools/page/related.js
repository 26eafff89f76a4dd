// The tables of the package, and what its rows and media are related to.

let askings = 0;  // how often related media were asked for: only the last answer is shown

/** A table of the package with its last change, and a pyramid's zooms. */
function listed(table, pyramid, known) {
  const isOlder = known && known.last_change !== table.last_change;
  const zooms = pyramid?.matrices.map(it => it.zoom_level).join(", ");
  const laid = !pyramid ? [] : [isOlder ? phrase("zooms {0}, as of {1}", zooms, known.last_change)
    : phrase("zooms {0}", zooms)];
  const lines = [`${table.table}, ${table.kind}`, phrase("last change {0}", table.last_change), ...laid];
  return element("li", table.identifier, ...lines.map(it => element("small", it)));
}

/** A media item: a picture as a picture, the rest as a link. A row has no bytes to show, but may be related to more. */
async function relatedItem({ table, id, name }) {
  if (name !== "media") {
    const button = element("button", `${table} ${id}`);
    button.addEventListener("click", () => showRelated(table, id));
    return element("li", "", button);
  }
  const body = await ask(`${ROOT}media/${table}/${id}`, "blob");
  if (!body) return element("li", phrase("{0} {1} isn't to be had", table, id));
  const link = element("a", `${table} ${id} (${body.type})`), image = new Image();
  Object.assign(link, { href: `${ROOT}media/${table}/${id}`, target: "_blank", rel: "noopener" });
  if (body.type.startsWith("image/") && await drawn(image, body)) link.prepend(image);
  return element("li", "", link);
}

/** Shows what a row or a media item is related to, a media item itself first. */
async function showRelated(table, id) {
  const turn = ++askings;
  [byId("table").value, byId("number").value, byId("answer").textContent] = [table, id, phrase("asking ..")];
  byId("related").replaceChildren();
  const related = await ask(`${ROOT}related/${table}/${id}`, "json", isRelated);
  if (turn !== askings) return;
  const none = saidOf("gone") || phrase("{0} has no {1}.", table, id), count = related?.length;
  byId("answer").textContent = !related ? none
    : count === 0 ? phrase("{0} {1} is related to no items.", table, id)
    : plural(count, "{0} {1} is related to one item.", "{0} {1} is related to {2} items.", table, id, count);
  const isMedia = rows.contents.some(it => it.table === table && it.kind === "media");
  const own = related && isMedia ? [{ table, id, name: "media" }] : [];
  for (const it of [...own, ...related ?? []]) {
    const item = await relatedItem(it);
    if (turn !== askings) return;
    byId("related").append(item);
  }
}
