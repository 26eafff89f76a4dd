// Where rows and the device are, in the system of the map.

const DEVICE_PATIENCE = 20000;  // milliseconds until a device that doesn't tell where it is is given up
const TOO_FAR = 4;              // why there is no place, beside what a browser tells: it can't be reckoned

/** The place that a note tells, in metres of a system, and the rest of the note; null where it tells none. */
const placeIn = note => placeOfNote(note, rows.only);

/** Why the device tells no place, in words. */
function whyNoDevice({ code, message }) {
  const words = toSay({ 1: "The browser may not tell where the device is: allow it for this address.",
    2: "The device doesn't know where it is.",
    3: "The device didn't tell where it is within 20 seconds.",
    [TOO_FAR]: "The device is too far from here for this map's system." });
  if (code === NO_WAY || code === NO_PROGRAM) return message;
  return phrase(words[code] ?? "The device tells no place: {0}", message);
}

/** Shows the buttons that ask the device where the page can reckon the map's system. */
function offerDevice() {
  const can = Boolean((navigator.geolocation || navigator.serial) && isReckoned(shown.srs_id));
  byId("locate").hidden = byId("here").hidden = !can;
  if (!can) lead(false);
  showMyPlaceAnew(can);
}
