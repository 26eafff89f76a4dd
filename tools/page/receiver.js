// A GNSS receiver at a serial port, where the browser lets the page open one: as long as that tells places the device
// is asked for none.

const SPEEDS = [115200, 38400, 9600, 4800];  // bits a second; a receiver by USB or Bluetooth goes by none
const SPEED_KEPT = "mmpkg receiver speed";
const UNREAD = 4096;  // bytes without a sentence behind which they are none of a receiver

// What is open, which this file alone writes: its port, who reads it, what hears it, how many bytes came, and the last
// place; null where none is.
let receiver = null;

/** Whether a receiver tells places. */
const isReceiving = () => Boolean(receiver?.fix) && ageOf(receiver.fix, momentNow()) <= OLD;

/** Says what the receiver tells, or how it is. */
function sayOfReceiver(words) {
  if (byId("received").textContent !== words) byId("received").textContent = words;
}

/** Opens the port of a receiver, which the browser has its user choose. */
async function openReceiver() {
  const baudRate = Number(byId("speed").value);
  say("receiver", null);
  byId("receiver").disabled = true;
  try {
    const port = await navigator.serial.requestPort();
    await port.open({ baudRate });
    keepSpeed(baudRate);
    receiver = { port, reader: null, hears: newReceiver(), bytes: 0, fix: null, isLeft: false };
  } catch (error) {
    if (error.name !== "NotFoundError") sayOfReceiver(phrase("The receiver can't be opened: {0}", error.message));
    return;
  } finally {
    byId("receiver").disabled = false;
  }
  showReceiver();
  sayOfReceiver(phrase("The receiver tells nothing yet."));
  await readReceiver(receiver);
}

/** Reads the receiver as long as it is there. An error of the line, as of its speed, doesn't end that. */
async function readReceiver(line) {
  while (line.port.readable && !line.isLeft) {
    line.reader = line.port.readable.getReader();
    try {
      for (let part = await line.reader.read(); !part.done; part = await line.reader.read()) {
        hearReceiver(line, part.value);
      }
      break;
    } catch {
      Object.assign(line, { hears: newReceiver(), bytes: 0 });
    } finally {
      line.reader.releaseLock();
    }
  }
  await line.port.close().catch(() => {});
  receiver = null;
  showReceiver();
  sayOfReceiver(line.isLeft ? "" : phrase("The receiver is gone."));
  if (!line.isLeft) sayFor("receiver", phrase("The receiver is gone: the device is asked where it is again."));
  lookAtMyPlace();
}

/** Takes over what the receiver tells. */
function hearReceiver(line, bytes) {
  line.bytes += bytes.length;
  for (const { place, words } of line.hears.take(bytes)) {
    sayOfReceiver(place ? [words, withinTold(place.accuracy), highTold(place)].filter(it => it).join(", ") : words);
    if (!place) continue;
    line.fix = { ...place, came: momentNow(), by: "receiver", words: words.split(",")[0] };
    placeCame(line.fix);
  }
  if (line.hears.good || line.bytes <= UNREAD) return;
  sayOfReceiver(phrase("What comes isn't a receiver's NMEA: is the speed right?"));
}

/** A place's height, in words. */
const highTold = ({ height, heightWithin }) => height === null ? ""
  : heightWithin === null ? phrase("{0} m above the ellipsoid", numeral(height.toFixed(2)))
  : phrase("{0} m above the ellipsoid ({1})", numeral(height.toFixed(2)), withinTold(heightWithin));

/** Closes the receiver's port. */
function leaveReceiver() {
  receiver.isLeft = true;
  receiver.reader?.cancel().catch(() => {});
}

/** Shows whether a receiver is open. */
function showReceiver() {
  byId("receiver").textContent = phrase(receiver ? "Leave the receiver" : "Connect a receiver");
  byId("speed").disabled = receiver !== null;
}

/** Keeps the speed for the next time; a browser that keeps nothing forgets it. */
function keepSpeed(speed) {
  try {
    localStorage.setItem(SPEED_KEPT, String(speed));
  } catch { /* so it is chosen anew the next time */ }
}

function listenToReceiver() {
  if (!navigator.serial) return;
  let kept = null;
  try {
    kept = localStorage.getItem(SPEED_KEPT);
  } catch { /* a browser that keeps nothing */ }
  byId("receivers").hidden = false;
  byId("speed").replaceChildren(...SPEEDS.map(it => new Option(String(it), String(it))));
  byId("speed").value = SPEEDS.includes(Number(kept)) ? kept : String(SPEEDS[0]);
  byId("receiver").addEventListener("click", () => receiver ? leaveReceiver() : openReceiver());
}
