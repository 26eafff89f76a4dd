// What the device told of the form's place, as words of its note, as long as the place is the device's.

/** Takes what the device told of the place before out of the form's note, and says so. */
function dropTold() {
  const { told, rest } = parted(byId("note").value);
  if (!told) return;
  takeNote(rest);
  byId("told").textContent = phrase("Taken out of the note, since the place is another now: {0}", told);
}

/** Sets the form's place to the device's, with what that tells of it in the note. */
function setPlaceTold(at) {
  setPlace(at.east, at.north, digitsOf(at.accuracy));
  centreOn([at.north, at.east]);
  const own = ownHeight(byId("note").value), words = wordsTold(at, at.age, own !== "");
  const note = withTold(byId("note").value, words), whole = noteOf(placeOfForm(), note);
  const hasRoom = new TextEncoder().encode(whole).length <= MOST_TEXT;
  if (hasRoom) takeNote(note);
  const within = withinTold(at.accuracy), said = [at.fix.by === "receiver"
    ? phrase("The receiver tells this place {0}.", within) : phrase("The device tells this place {0}.", within)];
  if (wordsOfWorth(at.worth)) said.push(wordsOfWorth(at.worth));
  if (!hasRoom) said.push(phrase("The note has no room for that."));
  if (own && at.height !== null) said.push(phrase("The note keeps its own {0}.", own));
  byId("told").textContent = said.join(" ");
  keepDraft("strict");
}

function listenToTold() {
  for (const it of ["east", "north"]) byId(it).addEventListener("input", dropTold);
}
