// The fields that a form has by the table 'forms', and the first words that are common among its table's titles. The
// note's own field keeps them as words of the note, and so what is typed is kept, compared and saved as a note is.

const MOST_CHIPS = 8;   // choices that have a button each; more are a list
const MOST_TITLES = 6;  // common first words that have a button

// What the form has, which this file alone writes: its fields (laid), as they were laid out (told); its text and values
// (now), and the note that these were taken from (from).
let inForm = { laid: [], told: "", now: null, from: "" };

/** Shows the fields of the form's table, with what its note tells of them; without any the form is as it is. */
function showFields() {
  if (!form) return;
  const laid = fieldsOf(allRowsOf(FORMS), form.table), from = byId("note").value.trim(), had = document.activeElement;
  inForm = { laid, told: JSON.stringify(laid), now: partedNote(from, laid), from };
  byId("note").closest("label").hidden = laid.length > 0;
  byId("fields").hidden = byId("text").closest("label").hidden = laid.length === 0;
  byId("text").value = inForm.now.text;
  byId("fields").replaceChildren(...laid.map(fieldItem));
  if (had === byId("note") && laid.length) byId("text").focus({ preventScroll: true });
  showTitles();
}

/** Shows the fields anew where the office has laid out others; what is in the form stays. */
function showFieldsAnew() {
  if (form && JSON.stringify(fieldsOf(allRowsOf(FORMS), form.table)) !== inForm.told) showFields();
}

/** Has the form a note that no field has made, as where the device told its place: a field that is set keeps it. */
function takeNote(note) {
  byId("note").value = note;
  Object.assign(inForm, { now: partedNote(note.trim(), inForm.laid), from: note.trim() });
  byId("text").value = inForm.now.text;
}

/** Keeps a value of a field, or the text, in the note. */
function takeIntoNote(field, value) {
  if (field) inForm.now.values.set(field.name, value);
  else inForm.now.text = value.trim();
  byId("note").value = noteOfFields(inForm.now, inForm.laid, inForm.from);
  if (field) sayOfField(field, "");
  keepDraft("strict");
}

/** A field with its name, what sets it, and room for what is odd about it. */
function fieldItem(field) {
  const value = inForm.now.values.get(field.name) ?? "", name = field.label + (field.unit ? ` (${field.unit})` : "");
  const why = Object.assign(element("small", ""), { className: "bad", id: `why-${field.name}` });
  const mark = field.isWanted ? " *" : "";
  if (field.choices.length && field.choices.length <= MOST_CHIPS) {
    return element("fieldset", element("legend", name + mark), ...chipsOf(field, value), why);
  }
  return element("label", name + mark, field.choices.length ? listOf(field, value) : inputOf(field, value), why);
}

/** The choices of a field, each a button; and a value that is none of them. Another press takes a choice back. */
function chipsOf(field, value) {
  const all = value && !field.choices.includes(value) ? [...field.choices, value] : field.choices;
  const words = field.kind === "yesno" ? phrase : it => it;
  const chips = all.map(it => Object.assign(element("button", words(it)), { type: "button", value: it }));
  const press = chosen => chips.forEach(it => it.setAttribute("aria-pressed", String(it.value === chosen)));
  press(value);
  for (const it of chips) {
    it.setAttribute("aria-label", `${field.label}: ${it.textContent}`);
    it.addEventListener("click", () => {
      const chosen = it.getAttribute("aria-pressed") === "true" ? "" : it.value;
      press(chosen);
      takeIntoNote(field, chosen);
    });
  }
  return chips;
}

/** The choices of a field as a list. */
function listOf(field, value) {
  const all = value && !field.choices.includes(value) ? [...field.choices, value] : field.choices;
  const list = element("select", new Option("", ""), ...all.map(it => new Option(it, it)));
  list.value = value;
  list.addEventListener("change", () => takeIntoNote(field, list.value));
  return list;
}

/** What a text, a number or a day is typed into; a day that is none is shown as a text. */
function inputOf(field, value) {
  const isDate = field.kind === "date" && !(value && doubtOfValue(field, value));
  const how = { type: isDate ? "date" : "text", value, autocomplete: "off" };
  const made = Object.assign(document.createElement("input"), how);
  if (field.kind === "number") made.inputMode = "decimal";
  made.addEventListener("input", () => takeIntoNote(field, valueTyped(field, made.value)));
  return made;
}

/** Says at a field what is odd about it. */
function sayOfField(field, why) {
  const small = byId(`why-${field.name}`), of = small.parentElement.querySelector("input, select, button");
  small.textContent = why;
  of.setAttribute("aria-describedby", small.id);
  if (why && !of.matches("button")) of.setAttribute("aria-invalid", "true"); else of.removeAttribute("aria-invalid");
  return of;
}

/** Whether something is odd about the fields that wasn't said yet; it is said beside each of them. */
function areFieldsDoubted() {
  const isAsked = form.fresh || typed() !== form.before;
  const doubts = isAsked ? doubtsOfFields(inForm.now, inForm.laid) : [], labels = doubts.map(it => it.field.label);
  const told = doubts.map(({ field, why }) => `${field.name} ${why}`), before = form.doubtsTold ?? [];
  for (const field of inForm.laid) sayOfField(field, "");
  if (told.every(it => before.includes(it))) return false;
  const [first] = doubts.map(({ field, why }) => sayOfField(field, why));
  byId("told").textContent = phrase("Look at: {0}. Press Save again if that is right.", labels.join(", "));
  setOf(form, { doubtsTold: [...before, ...told] });
  first.focus();
  return true;
}

/** Offers to a new row the first words that are common among the titles of its table. */
function showTitles() {
  const titles = form.fresh ? allRowsOf(form.table).map(it => it.title) : [];
  const words = [...commonWords(titles, MOST_TITLES).values()].map(it => it.word);
  byId("titles").hidden = words.length === 0;
  byId("titles").replaceChildren(...words.map(word => {
    const chip = Object.assign(element("button", word), { type: "button" });
    chip.setAttribute("aria-label", phrase("Title: {0}", word));
    chip.addEventListener("click", () => {
      byId("title").value = beganWith(byId("title").value, word, words);
      keepDraft("strict");
    });
    return chip;
  }));
}

function listenToFields() {
  byId("text").addEventListener("input", () => takeIntoNote(null, byId("text").value));
  byId("into").addEventListener("change", showFields);
}
