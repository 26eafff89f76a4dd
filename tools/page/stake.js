// How a place is staked out, as the device leads there: how far east, north and up it is from the device, and a sound
// and a shake where that is within a metre.

const SIGNALS = 1000;       // milliseconds from one signal to the next
const TONE = 880, LASTS = 0.25, LOUD = 0.4;  // of the sound: hertz, seconds, and the part of what the device can
const QUIET = "mmpkg quiet";

let sounds = null;          // what makes sounds, once a press has let it
let signalled = -Infinity;  // when the last signal was

/** How much higher the form's place is than the device, where both tell their height. */
function heightTo({ height, heightWithin }) {
  const told = heightIn(byId("note").value);
  return told === null || height === null ? null : { up: told - height, within: heightWithin };
}

const isReached = (place, at) => Math.hypot(place.east - at.east, place.north - at.north) < NEAR;

/** Tells how far a place is from the device that leads there; nothing where none does. */
function showOffset(place, at) {
  const reached = Boolean(place && at) && isReached(place, at);
  const words = place && at ? wordsOfOffset(place.east - at.east, place.north - at.north, heightTo(at)) : "";
  byId("offset").textContent = reached ? phrase("Here: {0}", words) : words;
  byId("offset").classList.toggle("led", isLeading());
  byId("offset").classList.toggle("reached", reached);
  byId("quiet").hidden = !isLeading();
}

const isQuiet = () => byId("quiet").getAttribute("aria-pressed") === "true";

/** Has the device make itself heard and felt where the place is reached. */
function signalReached(place, at) {
  if (!isReached(place, at) || isQuiet() || performance.now() < signalled + SIGNALS) return;
  signalled = performance.now();
  navigator.vibrate?.(200);
  if (!sounds) return;
  const tone = sounds.createOscillator(), loudness = sounds.createGain(), now = sounds.currentTime;
  tone.frequency.value = TONE;
  loudness.gain.setValueAtTime(LOUD, now);
  loudness.gain.exponentialRampToValueAtTime(0.001, now + LASTS);
  tone.connect(loudness);
  loudness.connect(sounds.destination);
  tone.start(now);
  tone.stop(now + LASTS);
}

/** Lets the page make sounds: a browser wants a press for that. */
function allowSounds() {
  sounds ??= window.AudioContext ? new AudioContext() : null;
  sounds?.resume().catch(() => {});  // then it is still
}

/** Has the device be quiet, or not; a browser that keeps nothing forgets that. */
function hush(on) {
  byId("quiet").setAttribute("aria-pressed", String(on));
  try {
    localStorage.setItem(QUIET, on ? "yes" : "");
  } catch { /* so it is asked anew the next time */ }
}

function listenToStake() {
  let was = "";
  try {
    was = localStorage.getItem(QUIET) ?? "";
  } catch { /* a browser that keeps nothing */ }
  hush(was === "yes");
  byId("lead").addEventListener("click", allowSounds);
  byId("quiet").addEventListener("click", () => hush(!isQuiet()));
}
