// Who works at this browser; and which rows a crew saved, are of a kind, or were saved on a day: the list is of them
// alone where that is chosen.

const CREW_NAME = "mmpkg crew name";
const MOST_LIKE = 30;  // how many kinds there are to choose from

/** The crew's name, as this browser keeps it; empty where nobody told one. */
function crewName() {
  try {
    return localStorage.getItem(CREW_NAME) ?? "";
  } catch {
    return "";  // a browser that keeps nothing
  }
}

/** Keeps the crew's name; each row that is saved from now on has it. */
function keepCrewName() {
  const name = nameOfCrew(byId("signer").value);
  try {
    localStorage.setItem(CREW_NAME, name);
  } catch { /* then no row has it */ }
  showCrewName();
}

/** Shows the crew's name, or asks for it. */
function showCrewName() {
  byId("signer").value = crewName();
  byId("whoever").textContent = crewName() ? phrase("Crew: {0}", crewName()) : phrase("Which crew is this?");
}

/** The note of a row that is saved now, with who does so and when, where the crew has a name. */
const signedNow = note => signed(note, signatureAt(crewName(), Date.now()));

/** When a row was saved last, or else made, in the clock's milliseconds; null where neither is known. */
const timeOf = ({ id, note }) => savedAt(note) ?? madeAt(id);

/** Whether a row is of the crew, of the kind and of the day that are chosen. */
function isOfWhom(row) {
  const crew = byId("crews").value, day = byId("when").value, kind = byId("like").value;
  if (kind && folded(firstWord(row.title)) !== kind) return false;
  if (!crew && !day) return true;
  const { signature } = signatureIn(row.note), at = timeOf(row);
  return (!crew || signature?.by === crew) && (!day || at !== null && dayTold(new Date(at)) === day);
}

/** A moment in words, by the device's zone. */
const momentInWords = at =>
  `${dayTold(at)} ${[at.getHours(), at.getMinutes()].map(it => String(it).padStart(2, "0")).join(":")}`;

/** Who saved a row last, and when, in words; nothing where its note doesn't tell it. */
function wordsOfWho(note) {
  const { signature } = signatureIn(note);
  if (!signature) return "";
  return phrase("by {0}, {1}", signature.by, momentInWords(new Date(signature.at)));
}

/** Has values to choose from, by their words. The one that is chosen stays. */
function offerChoices(it, words) {
  const chosen = byId(it).value;
  if (chosen && !words.has(chosen)) words.set(chosen, byId(it).selectedOptions[0].text);
  const list = [...words].sort(([, one], [, other]) => WORDS.compare(one, other));
  const before = [...byId(it).options].slice(1).map(option => option.value);
  if (String(before) === String(list.map(([value]) => value))) return;
  byId(it).replaceChildren(new Option(phrase("all"), ""), ...list.map(([value, text]) => new Option(text, value)));
  byId(it).value = chosen;
}

/** Has the names of all crews to choose from that saved a row of the table; and its kinds, where they are seen. */
function tellCrews(all) {
  const names = new Set(all.map(it => signatureIn(it.note).signature?.by ?? ""));
  offerChoices("crews", new Map([...names].filter(it => it).map(it => [it, it])));
  if (!byId("who").open) return;
  const kinds = commonWords(all.map(it => it.title), MOST_LIKE);
  offerChoices("like", new Map([...kinds].map(([value, { word }]) => [value, word])));
}

function listenToWho() {
  showCrewName();
  byId("signer").addEventListener("change", keepCrewName);
  for (const it of ["crews", "like", "when"]) byId(it).addEventListener("input", search);
  byId("who").addEventListener("toggle", () => tellCrews(rowsNow()));
  // Another tab was told the name.
  addEventListener("storage", event => event.key === CREW_NAME && showCrewName());
}
