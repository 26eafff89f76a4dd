// The camera in the form: a picture that is taken here is like a file that was chosen, and its Exif tells when, where
// and in which direction it was taken, as far as the device tells that.

const SIGHT_WIDE = 2048, SIGHT_HIGH = 1536, CHOSEN = "mmpkg camera";

// While the camera is open, or asked for: its stream, where the device or its receiver is, and in which direction the
// camera looks.
let sight = null;

/** Offers the camera where the browser knows one. */
async function offerCamera() {
  const listed = await navigator.mediaDevices?.enumerateDevices?.().catch(() => []) ?? [];
  byId("shoot").hidden = !navigator.mediaDevices?.getUserMedia || !listed.some(it => it.kind === "videoinput");
}

/** Keeps which camera was chosen, or tells it; a browser that keeps nothing has none. */
function chosenCamera(id) {
  try {
    if (id) localStorage.setItem(CHOSEN, id);
    return localStorage.getItem(CHOSEN);
  } catch {
    return null;
  }
}

/** The camera that is wanted, in pixels of its own: the one that was chosen, else one on the back. */
const wantedCamera = id => ({ audio: false, video: { width: { ideal: SIGHT_WIDE }, height: { ideal: SIGHT_HIGH },
  resizeMode: { ideal: "none" }, ...id ? { deviceId: { ideal: id } } : { facingMode: { ideal: "environment" } } } });

/** Opens the camera, where the browser lets the page have it; says why not. */
async function openCamera() {
  closeCamera();
  const mine = sight = { stream: null, place: null, direction: null };
  byId("finder").hidden = false;
  byId("shoot").ariaExpanded = "true";
  byId("shutter").disabled = true;
  byId("sight").textContent = phrase("The browser is asked for the camera ..");
  byId("shutter").scrollIntoView({ block: "nearest" });
  try {
    const stream = await navigator.mediaDevices.getUserMedia(wantedCamera(chosenCamera()));
    if (sight !== mine) return letGo(stream);
    await lookThrough(mine, stream);
  } catch (error) {
    if (sight === mine) closeCamera(whyNoCamera(error));
  }
}

const letGo = stream => { for (const it of stream?.getTracks() ?? []) it.stop(); };

/** Shows what the camera sees, and has the device tell where it is and how it is turned. */
async function lookThrough(mine, stream) {
  mine.stream = stream;
  const gone = () => sight === mine && closeCamera(phrase("The camera has gone."));
  stream.getVideoTracks()[0].addEventListener("ended", gone);
  byId("viewfinder").srcObject = stream;
  await byId("viewfinder").play();
  if (sight !== mine) return;
  const cameras = (await navigator.mediaDevices.enumerateDevices()).filter(it => it.kind === "videoinput");
  if (sight !== mine) return;
  byId("turn").hidden = cameras.length < 2;
  byId("shutter").disabled = false;
  byId("sight").textContent = "";
  byId("shutter").scrollIntoView({ block: "nearest" });
  if (document.activeElement === byId("shoot")) byId("shutter").focus({ preventScroll: true });
  const at = fix => {
    mine.place = placeOfShot(fix);
    tellShot(mine);
  };
  askForPlaces("camera", at, () => {});
  for (const it of TURNS) addEventListener(it, turned);
  tellShot(mine);
}

const TURNS = ["deviceorientationabsolute", "deviceorientation"];

/** Takes over how the device is turned, where it tells that by the compass; one without a compass tells null once. */
function turned({ absolute, alpha, beta, gamma }) {
  if (!sight || !absolute || alpha === null) return;
  sight.direction = directionOf(alpha, beta, gamma);
  tellShot(sight);
}

/** Tells what a picture would tell now. */
function tellShot(mine) {
  const words = wordsOfShot(mine.place, mine.direction);
  if (sight === mine && byId("senses").textContent !== words) byId("senses").textContent = words;
}

/** Lets the camera go, and says why, where there is more to say. */
function closeCamera(why = "") {
  const mine = sight;
  sight = null;
  letGo(mine?.stream);
  if (mine) askForNone("camera");
  for (const it of TURNS) removeEventListener(it, turned);
  byId("viewfinder").srcObject = null;
  byId("finder").hidden = true;
  byId("shoot").ariaExpanded = "false";
  byId("senses").textContent = "";
  byId("sight").textContent = why;
}

/** Whether something of what the camera shows is to be seen: what an observer tells may be of a moment ago. */
function isCameraSeen() {
  const [it, around] = ["finder", "panel"].map(name => byId(name).getBoundingClientRect());
  return it.height > 0 && it.bottom > Math.max(around.top, 0) && it.top < Math.min(around.bottom, innerHeight);
}

/** Lets the camera go by its button or by a key, where the focus is on what goes then. */
function endCamera() {
  closeCamera();
  byId("shoot").focus({ preventScroll: true });
}

/** Opens the next of several cameras, and keeps that it was chosen. */
async function turnCamera() {
  const own = sight?.stream?.getVideoTracks()[0].getSettings().deviceId;
  const cameras = (await navigator.mediaDevices.enumerateDevices()).filter(it => it.kind === "videoinput");
  const at = cameras.findIndex(it => it.deviceId === own);
  chosenCamera(cameras[(at + 1) % cameras.length]?.deviceId);
  await openCamera();
}

/** Takes what the camera sees now into the form. */
function shoot() {
  if (!form || !sight?.stream) return;
  const file = pictureOf(sight, Date.now());
  file.catch(() => {});  // it is told where the form takes it, behind those before it
  bring(form, [{ name: phrase("What the camera saw"), file }]);
}

/** What the camera sees now as a JPEG that tells when, where and in which direction it was taken. */
async function pictureOf({ place, direction }, at) {
  const image = await createImageBitmap(byId("viewfinder")), ahead = -new Date(at).getTimezoneOffset();
  const whole = await jpegOf(image, Math.min(1, PHOTO_SIDE / Math.max(image.width, image.height)));
  image.close();
  return jpegWith(whole, segmentOfShot({ at, ahead, place, direction }));
}

function listenToCamera() {
  byId("shoot").addEventListener("click", () => sight ? endCamera() : openCamera());
  byId("shutter").addEventListener("click", shoot);
  byId("turn").addEventListener("click", turnCamera);
  byId("shut").addEventListener("click", endCamera);
  byId("finder").addEventListener("keydown", event => {
    if (event.key !== "Escape") return;
    event.stopPropagation();  // the form stays open
    endCamera();
  });
  // A camera that nobody sees is let go: the form closed, the panel hidden, scrolled away, another tab.
  const unseen = () => sight && closeCamera(phrase("The camera was let go, since it wasn't to be seen."));
  new IntersectionObserver(() => isCameraSeen() || unseen()).observe(byId("finder"));
  byId("reporter").addEventListener("click", unseen);  // the report lies over it
  document.addEventListener("visibilitychange", () => document.hidden && unseen());
  navigator.mediaDevices?.addEventListener?.("devicechange", offerCamera);
  offerCamera();
}
