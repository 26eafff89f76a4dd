// Sound of a row: what is recorded in the form, and what is played there.

const RATE = 32000, EACH = 1000;  // bits a second of speech, and milliseconds from one part of a recording to the next
const RECORDED = ["audio/ogg;codecs=opus", "audio/webm;codecs=opus", "audio/mp4"];
const MARGIN = 65536;             // bytes that are left to a recording's last parts

let recording = null;  // while sound is recorded, or the microphone is asked for: the form, the recorder, its parts
let sounding = null;      // the form whose sound is played

/** Offers to record where the browser knows a microphone and writes what a row takes. */
async function offerRecorder() {
  const listed = await navigator.mediaDevices?.enumerateDevices?.().catch(() => []) ?? [];
  const can = Boolean(navigator.mediaDevices?.getUserMedia && kindOfRecording());
  byId("record").hidden = !can || !listed.some(it => it.kind === "audioinput");
}

/** What the browser records that a row takes, if anything. */
const kindOfRecording = () => RECORDED.find(it => window.MediaRecorder?.isTypeSupported(it));

/** Begins to record, once the browser lets the page have a microphone. */
async function beginRecording() {
  const mine = recording = { form, recorder: null, parts: [], size: 0 };
  setOf(form, { coming: form.coming + 1 });
  tellRecording(phrase("The browser is asked for the microphone .."));
  try {
    const stream = await navigator.mediaDevices.getUserMedia({ audio: true, video: false });
    if (recording !== mine) return letGo(stream);
    mine.recorder = new MediaRecorder(stream, { mimeType: kindOfRecording(), audioBitsPerSecond: RATE });
    mine.whole = new Promise(good => mine.recorder.addEventListener("stop", () => good(new Blob(mine.parts))));
    mine.recorder.addEventListener("dataavailable", ({ data }) => takePart(mine, data));
    mine.recorder.addEventListener("stop", () => recording === mine && endRecording());
    mine.recorder.start(EACH);
    tellRecording(wordsOfRecording(mine));
  } catch (error) {
    if (recording === mine) dropRecording(whyNoMicrophone(error));
  }
}

/** Takes a part of a recording over, and ends it where it would be too long. */
function takePart(mine, data) {
  mine.parts.push(data);
  mine.size += data.size;
  if (recording !== mine) return;
  if (mine.size > PHOTO_BYTES - MARGIN) endRecording(phrase("The recording has as much as the package takes of one."));
  else tellRecording(wordsOfRecording(mine));
}

const wordsOfRecording = ({ size }) =>
  phrase("Recording: {0} of at most {1}.", wordsOfSize(size), wordsOfSize(PHOTO_BYTES));

/** Tells how it is about the recording, and what its button does. */
function tellRecording(words) {
  byId("record").ariaPressed = String(recording !== null);
  byId("record").textContent = phrase(recording ? "End recording" : "Record sound");
  byId("recorded").textContent = words;
}

/** Takes what was recorded into its form. */
function endRecording(words = "") {
  const mine = recording;
  if (!mine) return;
  if (!mine.recorder) return dropRecording("");
  recording = null;
  setOf(mine.form, { coming: mine.form.coming - 1 });
  tellRecording(words);
  bring(mine.form, [{ name: phrase("The recording"), file: mine.whole }]);
  stopRecorder(mine.recorder);
}

/** Throws away what was recorded, or asked for, and says why, where there is more to say. */
function dropRecording(why) {
  const mine = recording;
  recording = null;
  if (!mine) return;
  setOf(mine.form, { coming: mine.form.coming - 1 });
  if (mine.recorder) stopRecorder(mine.recorder);
  tellRecording(why);
}

/** Ends a recorder, and lets its microphone go. */
function stopRecorder(recorder) {
  if (recorder.state !== "inactive") recorder.stop();
  letGo(recorder.stream);
}

/** Plays a sound in place of what was played before. */
function play(body) {
  endPlaying();
  sounding = form;
  byId("player").hidden = false;
  byId("player").src = URL.createObjectURL(body);
  byId("player").play().catch(() => {});  // the player says what it can't
}

function endPlaying() {
  const player = byId("player");
  sounding = null;
  player.pause();
  URL.revokeObjectURL(player.src);
  player.removeAttribute("src");
  player.hidden = true;
}

/** The button that plays a sound, where the browser can. */
function playButton(body, words) {
  if (!isSound(body.type) || byId("player").canPlayType(body.type) === "") return [];
  const ariaLabel = phrase("Play {0}", words);
  const made = Object.assign(element("button", phrase("Play")), { type: "button", ariaLabel });
  made.addEventListener("click", () => play(body));
  return [made, " "];
}

/** Ends what sounds or is recorded for a form that is no more open. */
function endSound() {
  if (sounding && sounding !== form) endPlaying();
  if (recording && recording.form !== form) dropRecording("");
}

function listenToSound() {
  byId("record").addEventListener("click", () => recording ? endRecording() : form && beginRecording());
  // Before the form is saved, which waits for what comes.
  byId("edit").addEventListener("submit", () => endRecording(), true);
  new ResizeObserver(endSound).observe(byId("edit"));
  navigator.mediaDevices?.addEventListener?.("devicechange", offerRecorder);
  offerRecorder();
}
