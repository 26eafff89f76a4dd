// My place: where the device is, or a receiver, as it tells that; on the map, and for who asks. The device is asked as
// long as somebody does, and where no receiver tells it.

const LOOKS_AGAIN = 1000;  // milliseconds from one look at how old my place is to the next
// Pixels by which the map's middle may be beside the place that it follows: since those are whole, and behind zooms.
const PIXEL = 1.5, SLACK = 16;
// Its mark is a star, and no row has that colour; where it is old the star is hollow.
const MINE = "#7a1fa2";
const STAR = "M16 1 20 12 31 16 20 20 16 31 12 20 1 16 12 12Z";

const OLD_PLACE = phrase("No new place comes: my place on the map is where it was told last.");

const askers = new Map();  // by who asks where the device is, what is done with each place, and with an error
// What this file alone writes: the device's watch, if there is one; the last place, in degrees, and whether it was said
// that it is old; whether my place is shown (on) and wasn't told yet (isFirst), whether the map follows it (follows)
// and where it did last (middle); its mark; and what looks how old it is.
const tracked = {
  watch: null, fix: null, saidOld: false, on: false, isFirst: false, follows: false, middle: null, mark: null,
  looking: 0,
};

const momentNow = () => ({ ticks: performance.now(), clock: Date.now() });

/** Whether somebody asks where the device is. */
const isAskedWhere = () => askers.size > 0;

/** How many seconds ago my place was told. */
const myAge = () => tracked.fix ? ageOf(tracked.fix, momentNow()) : Infinity;

/** A place that was told, in metres of the map's system; null where that can't be reckoned. */
function onMyMap(fix) {
  const place = placeHere(fix), within = place && withinBoth(fix.accuracy, place.worth);
  return place && { ...place, accuracy: within, height: fix.height, heightWithin: fix.heightWithin, fix };
}

/** Has somebody told each place, from now on; or why there is none. */
function askForPlaces(who, tell, fail) {
  askers.set(who, { tell, fail });
  tendDevice();
  if (myAge() <= OLD) tell(tracked.fix);
}

/** Has somebody told no more places. Where nobody asks any more the device isn't asked either. */
function askForNone(who) {
  askers.delete(who);
  tendDevice();
  if (!askers.size && !isReceiving()) tracked.fix = null;
  drawMyPlace();
  showNearest();
}

/** Asks the device where it is as long as somebody wants to know it and no receiver tells it. */
function tendDevice() {
  const wants = askers.size > 0 && !isReceiving();
  if (wants && tracked.watch === null && navigator.geolocation) {
    const how = { enableHighAccuracy: true, timeout: DEVICE_PATIENCE, maximumAge: 0 };
    const tell = ({ coords }) => tracked.watch !== null && placeCame(fixOf(coords, momentNow()));
    tracked.watch = navigator.geolocation.watchPosition(tell, noPlaceCame, how);
  }
  if (!wants && tracked.watch !== null) {
    navigator.geolocation.clearWatch(tracked.watch);
    tracked.watch = null;
  }
  if (askers.size > 0 === tracked.looking > 0) return;
  clearInterval(tracked.looking);
  tracked.looking = askers.size ? setInterval(lookAtMyPlace, LOOKS_AGAIN) : 0;
}

/** Takes over where the device is, or a receiver; where the page can't reckon the map's system it is brought there. */
function placeCame(fix) {
  if (shown && systemBeyond(shown.srs_id)) bringEach(fix, it => (askers.size || isReceiving()) && takeFix(it));
  else takeFix(fix);
}

/** Tells where the device is to who asks. */
function takeFix(fix) {
  tracked.fix = fix;
  drawMyPlace();
  for (const { tell } of [...askers.values()]) tell(fix);
  lookAtMyPlace();
}

/** Tells who asks why there is no place. */
function noPlaceCame(error) {
  for (const { fail } of [...askers.values()]) fail(error);
}

/** Draws where the device is, and how far it may be off, as long as somebody asks for it. */
function drawMyPlace() {
  const at = askers.size && map ? onMyMap(tracked.fix) : null, isOld = myAge() > OLD;
  tracked.mark?.remove();
  tracked.mark = null;
  if (!at) return;
  const place = [at.north, at.east], how = { interactive: false, color: MINE, weight: 2, fillOpacity: 0.12 };
  const ring = L.circle(place, { ...how, radius: at.accuracy ?? 0, dashArray: isOld ? "4 8" : null });
  const icon = L.divIcon({ className: isOld ? "mine old" : "mine", iconSize: [32, 32], html: myStar() });
  const star = L.marker(place, { icon, interactive: false, keyboard: false });
  tracked.mark = L.layerGroup(at.accuracy ? [ring, star] : [star]).addTo(map);
}

/** My place's mark. */
function myStar() {
  const [svg, path] = ["svg", "path"].map(it => document.createElementNS("http://www.w3.org/2000/svg", it));
  path.setAttribute("d", STAR);
  svg.setAttribute("viewBox", "0 0 32 32");
  svg.append(path);
  return svg;
}

/** Looks how old my place is; says where it has become old, and has the list go by what is known. */
function lookAtMyPlace() {
  const age = myAge(), isOld = tracked.fix !== null && age > OLD;
  tendDevice();
  byId("mine").textContent = wordsOfFix(tracked.fix && { ...tracked.fix, ...accuracyHere() }, age);
  byId("mine").classList.toggle("old", isOld);
  if (isOld && isLeading()) showWay();
  if (isOld !== tracked.saidOld) {
    tracked.saidOld = isOld;
    drawMyPlace();
    if (tracked.on && isOld) sayFor("device", OLD_PLACE);
    if (!isOld && saidOf("device") === OLD_PLACE) say("device", null);
  }
  showNearest();
}

/** Within how many metres my place is in the map's system, where that is known. */
function accuracyHere() {
  const at = onMyMap(tracked.fix);
  return at && { accuracy: at.accuracy };
}

/** Shows my place, and follows it; or no more. */
function showMyPlace(on) {
  if (on === tracked.on) return;
  Object.assign(tracked, { on, isFirst: on, saidOld: false });
  byId("locate").setAttribute("aria-pressed", String(on));
  byId("follow").hidden = byId("mine").hidden = !on;
  followMyPlace(on);
  say("device", on ? phrase("The device is asked where it is ..") : null);
  byId("mine").textContent = wordsOfFix(null, 0);
  if (on) askForPlaces("map", tellMyPlace, failMyPlace); else askForNone("map");
  lookAtMyPlace();
}

/** Shows where I am now. The first place is told in words. */
function tellMyPlace(fix) {
  const at = onMyMap(fix);
  if (!at) return failMyPlace(whyNotHere(fix));
  if (tracked.isFirst) {
    tracked.isFirst = false;
    const isInside = shown.bounds.contains([at.north, at.east]), within = withinTold(at.accuracy);
    const words = isInside ? phrase("The device is here, {0}.", within)
      : phrase("The device is here, {0}, outside the map.", within);
    sayFor("device", `${words} ${wordsOfWorth(at.worth)}`.trim());
  }
  keepInMiddle();
}

/** Says why my place isn't shown. What isn't forbidden may come again. */
function failMyPlace(error) {
  if ([1, TOO_FAR, NO_WAY].includes(error.code)) showMyPlace(false);
  sayFor("device", whyNoDevice(error));
}

/** Has the map keep my place in its middle, or lets go. Zooms keep the middle then. */
function followMyPlace(on) {
  tracked.follows = on;
  tracked.middle = null;
  byId("follow").setAttribute("aria-pressed", String(on));
  byId("map").classList.toggle("follows", on);
  if (!map) return;
  for (const it of ["scrollWheelZoom", "touchZoom", "doubleClickZoom"]) map.options[it] = on ? "center" : true;
  keepInMiddle();
}

/** Has the map's middle at my place, where it follows that. */
function keepInMiddle() {
  const at = tracked.follows && !map._animatingZoom ? onMyMap(tracked.fix) : null;
  if (!at) return;
  const to = L.latLng(at.north, at.east);
  tracked.middle = null;  // a move that this ends, as of a map that glides, lets go of nothing
  if (fromMiddle(to) > PIXEL) map.setView(to, map.getZoom(), { animate: false });
  tracked.middle = to;
}

/** How many pixels a place is from the map's middle. */
const fromMiddle = place => map.latLngToContainerPoint(place).distanceTo(map.getSize().divideBy(2));

/** Lets go where the map was moved elsewhere, as by keys or to a row; what came while it zoomed is followed. */
function mapWasMoved() {
  if (!tracked.follows || !tracked.middle) return;
  if (fromMiddle(tracked.middle) > SLACK) followMyPlace(false); else keepInMiddle();
}

/** Shows my place on a map that was made anew; where its system can't be reckoned that is over. */
function showMyPlaceAnew(can) {
  nearestToMiddle();
  if (!can) showMyPlace(false);
  map.on("dragstart", () => followMyPlace(false));
  map.on("moveend", mapWasMoved);
  drawMyPlace();
  followMyPlace(tracked.follows);
  if (can && tracked.fix && systemBeyond(shown.srs_id)) placeCame(tracked.fix);
}

/** Where the device is now, in the map's system: as it told that just now, or as it is asked. */
async function deviceAt() {
  const fix = myAge() <= FRESH ? tracked.fix : isReceiving() ? await nextPlace() : await askDevice();
  await bringOver(fix);
  const at = onMyMap(fix);
  if (!at) throw Object.assign(new Error(), whyNotHere(fix));
  return { ...at, age: ageOf(fix, momentNow()) };
}

/** Asks the device where it is, once. */
function askDevice() {
  if (!navigator.geolocation) return Promise.reject(Object.assign(new Error(), { code: 2 }));
  const how = { enableHighAccuracy: true, timeout: DEVICE_PATIENCE, maximumAge: 0 };
  return new Promise((good, bad) => navigator.geolocation.getCurrentPosition(
    ({ coords }) => good(fixOf(coords, momentNow())), bad, how));
}

/** The next place that a receiver tells. */
function nextPlace() {
  return new Promise((good, bad) => {
    const patience = setTimeout(() => end(bad, { code: 3 }), DEVICE_PATIENCE);
    const end = (act, what) => { clearTimeout(patience); askForNone("form"); act(what); };
    askers.set("form", { tell: fix => end(good, fix), fail: error => end(bad, error) });
    tendDevice();
  });
}

function listenToMyPlace() {
  byId("locate").addEventListener("click", () => showMyPlace(!tracked.on));
  byId("follow").addEventListener("click", () => followMyPlace(!tracked.follows));
}
