// The place that the form has: typed, by a tap, by the map's middle, by the device, or by a photo.

/** The place in the form's fields; null where they are empty, undefined where they are none. */
function placeOfForm() {
  const [east, north] = ["east", "north"].map(it => byId(it).value.trim());
  if (!east && !north) return null;
  if (!METRES.test(east) || !METRES.test(north)) return undefined;
  return { system: form.place?.system ?? form.system, east: east.replace(",", "."), north: north.replace(",", ".") };
}

/** Tells the system of the form's place, and draws it. */
function showPlace() {
  const system = form.place?.system ?? form.system;
  byId("system").textContent = system === null ? "" : phrase("in metres of system {0}", system);
  showDraft();
}

/** Puts a place of the map's system into the form. */
function setPlace(east, north, digits) {
  if (!form) return;
  [byId("east").value, byId("north").value] = [east.toFixed(digits), north.toFixed(digits)];
  setOf(form, { place: { system: shown.srs_id } });
  dropTold();
  showPlace();
  keepDraft("strict");
}

const isTapping = () => byId("tap").getAttribute("aria-pressed") === "true";

/** Whether the next tap on the map sets the place. */
function tap(on) {
  byId("tap").setAttribute("aria-pressed", String(on));
  byId("map").classList.toggle("taps", on);
}

/** Sets the place by a tap: where it was, also where it hit a mark. */
function tapped({ originalEvent, latlng }) {
  if (!isTapping()) return;
  const { lng, lat } = originalEvent ? map.mouseEventToLatLng(originalEvent) : latlng;
  setPlace(lng, lat, digitsHere());
  tap(false);
}

/** Asks the device for the form's place. */
function placeByDevice() {
  if (form.asked) return;
  byId("told").textContent = phrase("asking the device ..");
  setOf(form, { asked: takePlace(form, placeTyped()) });
}

const placeTyped = () => `${byId("east").value} ${byId("north").value}`;

/**
 * Takes the device's place into the form that asked for it, where that is open still and has no other meanwhile;
 * answers whether it told one.
 */
async function takePlace(now, before) {
  const place = await deviceAt().catch(error => ({ why: whyNoDevice(error) }));
  setOf(now, { asked: null });
  if (form !== now) return false;
  const isOurs = !place.why && placeTyped() === before;
  byId("told").textContent = place.why ?? "";
  if (isOurs) setPlaceTold(place);
  return !place.why;
}

/** Where the form's photo was taken, in metres of the map's system; null where that isn't told or can't be reckoned. */
const photoAt = () => placeHere(form?.shot);

/** Offers the photo's place to the form, or says why that can't be; it is taken where its button is pressed alone. */
async function offerPlaceOfPhoto() {
  if (form?.shot && shown && systemBeyond(shown.srs_id)) await bringOver(form.shot);
  const place = photoAt();
  byId("shot").hidden = !place;
  byId("noshot").textContent = !form?.shot || place ? ""
    : phrase("The photo tells where it was taken, and this page can't reckon that in the map's system.");
}

/** Sets the place where the photo was taken. */
function placeByPhoto() {
  const place = photoAt();
  if (!place) return;
  setPlace(place.east, place.north, 2);
  bringIntoSight(placeOfForm());
  const words = phrase("The photo tells this place; how exact it is it doesn't tell.");
  byId("told").textContent = `${words} ${wordsOfWorth(place.worth)}`.trim();
}
