// The list of the maps behind the work: whether each is shown, how strong, in which order, and with which names.

/** Lists the maps, the first on top, and the package's own where it has tiles. */
function listLayers(own, lying) {
  const mine = shown.table ? [itemOf(own, phrase("{0}, of the package", shown.identifier))] : [];
  byId("layers").replaceChildren(...mine, ...lying.map((it, at) => {
    const words = element("small", "");
    const item = it.layer ? itemOf(it.look, it.map.name) : element("li", it.map.name);
    item.append(words);
    it.words = words;
    if (it.map.columns?.length && it.layer) item.append(choiceOfNames(it));
    if (lying.length > 1 && it.layer) item.append(...[-1, 1].map(by => mover(it, at, by, lying.length)));
    return item;
  }));
}

/** A map in the list: whether it is shown, and how strong. */
function itemOf(look, name) {
  const box = Object.assign(document.createElement("input"), { type: "checkbox", checked: look.on });
  const range = { type: "range", min: WEAKEST, max: 100, step: 10, value: look.strength, disabled: !look.on };
  const strength = Object.assign(document.createElement("input"), range);
  strength.setAttribute("aria-label", phrase("How strong: {0}", name));
  box.addEventListener("change", () => { lookAnew(look, { on: box.checked }); focusOn(name, "[type=checkbox]"); });
  strength.addEventListener("change", () => {
    lookAnew(look, { strength: Number(strength.value) });
    focusOn(name, "[type=range]");
  });
  const item = element("li", element("label", box, name), strength);
  item.dataset.name = name;
  return item;
}

/** The focus stays where it was in a list that is made anew. */
function focusOn(name, what) {
  const item = [...byId("layers").children].find(it => it.dataset.name === name);
  item?.querySelector(what)?.focus({ preventScroll: true });
}

/** By which column the shapes of a map have names. */
function choiceOfNames(it) {
  const names = it.map.columns.map(name => new Option(phrase("By {0}", name), name));
  const choice = element("select", new Option(phrase("No names"), ""), ...names);
  choice.value = it.look.column;
  choice.setAttribute("aria-label", phrase("Names: {0}", it.map.name));
  choice.addEventListener("change", () => {
    lookAnew(it.look, { column: choice.value });
    focusOn(it.map.name, "select");
  });
  return choice;
}

/** A button that moves a map in the list. */
function mover(it, at, by, count) {
  const button = Object.assign(element("button", phrase(by < 0 ? "Up" : "Down")), { type: "button" });
  Object.assign(button, { disabled: at + by < 0 || at + by >= count, className: by < 0 ? "up" : "down" });
  button.setAttribute("aria-label", `${button.textContent}: ${it.map.name}`);
  button.addEventListener("click", () => {
    moveBehind(at, by);
    focusOn(it.map.name, by < 0 ? ".up:enabled, .down" : ".down:enabled, .up");
  });
  return button;
}
