// Places in systems that the page can't reckon: the program of maps brings them over, by PROJ. Where it doesn't answer
// such a place isn't known, which is said, and all else goes on.

const NO_PROJ = toSay("The program beside the desk that knows this map's system doesn't answer: open the package " +
  "again.");
const NOT_YET = toSay("The device's place isn't brought into this map's system yet.");
const NO_WAY = 5, NO_PROGRAM = 6;  // why there is no place, beside what a browser tells: for good, and for now

// By what is told in degrees, what it is in the system of a map: { system, place, worth, why }.
const broughtOver = new WeakMap();
let next = null, isBringing = false;  // the place that comes next, and whether one is on its way

/** How the program of maps is asked for a system that the page can't reckon; null where it isn't. */
const systemBeyond = number => MAPS && !rows.systems[number] ? rows.beyond[number] ?? null : null;

/** Whether places in degrees can be told in a system. */
const isReckoned = number => Boolean(rows.systems[number] ?? systemBeyond(number));

/** What the program of maps answers to places, or why there is none. */
async function askBeyond(system, places, back = false) {
  try {
    const how = { method: "POST", body: questionOf(system, places, back), credentials: "omit", redirect: "error" };
    const response = await fetch(`${MAPS}places`, { ...how, signal: AbortSignal.timeout(ANSWERS) });
    if (!response.ok) return { why: response.status === 500 ? await response.text() : NO_PROJ };
    const told = await response.json();
    return isBrought(told, places.length) ? told : { why: NO_PROJ };
  } catch {
    return { why: NO_PROJ };
  }
}

/** Has what is told in degrees brought into the system of the map that is shown, where the page can't reckon that. */
async function bringOver(told) {
  const number = shown?.srs_id, system = systemBeyond(number), before = broughtOver.get(told);
  if (!told || !system || before?.system === number && before.code !== NO_PROGRAM) return;
  const answer = await askBeyond(system, [[told.longitude, told.latitude]]), { places: [place] = [], worth } = answer;
  const why = place ? "" : answer.why ? phrase(answer.why) : whyNotBrought(answer);
  const code = answer.why === NO_PROJ ? NO_PROGRAM : NO_WAY;
  broughtOver.set(told, { system: number, place: place && { east: place[0], north: place[1] }, worth, why, code });
}

/** Where what is told in degrees is in the system of the map that is shown; null where that isn't known. */
function placeHere(told) {
  const own = told && shown ? rows.systems[shown.srs_id] : null, there = told && shown ? broughtOver.get(told) : null;
  if (own) return placeInSystem(own, told) && { ...placeInSystem(own, told), worth: 0 };
  return there?.place && there.system === shown.srs_id ? { ...there.place, worth: there.worth } : null;
}

/** Why it isn't known where what is told in degrees is on the map that is shown. */
function whyNotHere(told) {
  const there = told ? broughtOver.get(told) : null;
  if (!isKnownHere(told)) return { code: NO_PROGRAM, message: phrase(NOT_YET) };
  return there?.why && there.system === shown.srs_id ? { code: there.code, message: there.why } : { code: TOO_FAR };
}

/** Whether it is known where what is told in degrees is on the map that is shown, or why it isn't. */
const isKnownHere = told => !systemBeyond(shown.srs_id) || broughtOver.get(told)?.system === shown.srs_id;

/** Has places brought over as they come, of those that come meanwhile the last alone, and tells each. */
async function bringEach(told, tell) {
  next = told;
  if (isBringing) return;
  isBringing = true;
  while (next) {
    const now = next;
    await bringOver(now);
    if (next === now) next = null;
    if (isKnownHere(now)) tell(now);
  }
  isBringing = false;
}

/**
 * By its word, the degrees of each place of rows in systems that the page can't reckon; and what is told of these, in a
 * file (words) and on the screen (said).
 */
async function degreesBeyond(list) {
  const found = new Map(), told = [], places = list.map(placeOfRow).filter(it => it && systemBeyond(it.system));
  for (const number of new Set(places.map(it => it.system))) {
    const own = places.filter(it => it.system === number);
    for (const part of inParts(own, MOST_BROUGHT)) told.push(await degreesOfPart(number, part, found));
  }
  const each = of => [...new Set(told.flatMap(it => it[of]))];
  return { found, words: each("words"), said: each("said") };
}

/** Takes the degrees of some places of a system, and answers what is told of them. */
async function degreesOfPart(number, part, found) {
  const asks = part.map(it => [Number(it.east), Number(it.north)]);
  const answer = await askBeyond(systemBeyond(number), asks, true);
  (answer.places ?? []).forEach((it, at) => it && found.set(wordOf(part[at]), { longitude: it[0], latitude: it[1] }));
  const told = say => answer.why ? [say(answer.why)] : wordsOfDegrees(number, answer, say);
  return { words: told(english), said: told(phrase) };
}
