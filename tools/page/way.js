// The way to the place of the form, from the map's middle, or from the device while that leads there.

const ALOUD = 10000;  // milliseconds from one word for a screen reader to the next, as the device leads

// While the device leads: the promise of a screen that stays on, where it is, once it has told that, and when that may
// be told aloud again.
let led = null;

const isLeading = () => led !== null;

/** Where the device is that leads; nothing where none does, or it hasn't told yet. */
const ledFrom = () => led?.at ?? null;

/** The way from the map's middle to a place, in words; nothing where that is none of the map. */
function wayFromMiddle(place) {
  const middle = map?.getCenter();
  if (!place || !middle || place.system !== shown.srs_id) return "";
  return wordsOfWay(place.east - middle.lng, place.north - middle.lat);
}

/** The place of the form, where it is of the map's system; null where there is none. */
function placeOnMap() {
  const place = form && map ? placeOfForm() : null;
  return place?.system === shown?.srs_id ? place ?? null : null;
}

/** Tells the way to the form's place. */
function showWay() {
  const place = placeOnMap(), at = led?.at;
  byId("lead").hidden = byId("here").hidden || form?.fresh || !(place || led);  // who makes a row stands at it
  byId("way").className = led ? "led" : "";
  byId("way").textContent = !place ? "" : led && !at ? phrase("asking the device ..")
    : at ? [wordsOfWay(place.east - at.east, place.north - at.north), wordsOfFix(at.fix, myAge())].join(", ")
    : phrase("From the map's middle: {0}", wayFromMiddle(place));
  showOffset(place, at);
}

/**
 * Has the device lead to the form's place, or no more. As long as it does the screen stays on, where the browser lets
 * it.
 */
function lead(on) {
  led?.awake?.then(it => it?.release());
  led = null;
  byId("lead").setAttribute("aria-pressed", String(on));
  if (on) {
    led = { awake: null, at: null, aloud: 0 };
    askForPlaces("way", follow, cannotLead);
    stayAwake();
  } else askForNone("way");
  showDraft();
}

/**
 * Keeps the screen on while the device leads. A browser takes that back from a page that is hidden, so it is asked
 * anew.
 */
function stayAwake() {
  if (led && !document.hidden) led.awake = navigator.wakeLock?.request("screen").catch(() => null);
}

/** Shows where the device is now, and the way from there; the map follows where it has left that. */
function follow(fix) {
  const place = placeOnMap(), isFirst = !led?.at, at = onMyMap(fix);
  if (!led || !place) return;
  if (!at) return cannotLead(whyNotHere(fix));
  led.at = at;
  const here = L.latLng(led.at.north, led.at.east);
  showDraft();
  signalReached(place, led.at);
  tellAloud();
  if (!isFirst && map.getBounds().contains(here)) return;
  fitTo(L.latLngBounds(here, [Number(place.north), Number(place.east)]).pad(0.2));
}

/** Has a screen reader tell the way now and then: it is another each second. */
function tellAloud() {
  if (performance.now() < led.aloud) return;
  led.aloud = performance.now() + ALOUD;
  byId("aloud").textContent = byId("way").textContent;
}

/** Says why the device doesn't lead. What isn't forbidden may come again. */
function cannotLead(error) {
  if (error.code === 1) lead(false);
  byId("way").textContent = whyNoDevice(error);
}

/** What follows the map's middle, where that has moved. */
function moved() {
  drawMarks();
  showLines();
  if (form) showWay();
  if (byId("order").value === "near" && !isNearMe()) showRows();
}
