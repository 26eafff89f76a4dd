// Photos: chosen or taken, drawn smaller until the package takes them, and related to their rows by mapping rows. One
// picture is drawn at a time: one of 12 megapixels takes 50 MB.

const PHOTO_SIDE = 2048, PHOTO_BYTES = 4194304, SMALL_SIDE = 384;
const NO_PHOTOS = phrase("The package relates no photos to this table.");

let drawing = Promise.resolve();  // the pictures that are drawn, one behind another
const smalls = new WeakMap();     // by form, what is drawn small of its photos

/** The relation that leads from a table to photos, if any. */
const photosOf = table => rows.relations.find(it => it.base === table && it.name === "media");

/**
 * The photos of the form's row: those that stand, those that wait, those that were chosen, and room for those on their
 * way.
 */
async function showPhotos() {
  const now = form, turn = nextTurn(), relation = photosOf(form.table);
  endSound();
  for (const it of ["shoot", "record"]) byId(it).disabled = !relation;
  offerDrawing(Boolean(relation));
  offerTrack();
  showLines();
  byId("camera").disabled = byId("pictures").disabled = !relation;
  byId("thumbnails").ariaBusy = "true";
  const parts = await Promise.all([photosThere(now), photosThatWait(now), photosChosen(now)]);
  if (form !== now || now.turn !== turn) return;
  const comes = () => Object.assign(element("li", phrase("a photo comes ..")), { className: "comes" });
  const none = relation ? [] : [element("li", NO_PHOTOS)], more = Array.from({ length: now.coming }, comes);
  byId("thumbnails").replaceChildren(...[none, ...parts, more].flat().filter(it => it));
  byId("thumbnails").ariaBusy = "false";
}

/** The photos of a form that were chosen. */
const photosChosen = now => Promise.all(now.photos.map(async photo => {
  const picture = await smallOf(now, photo.id, async () => bodyOfBytes(photo.bytes));
  const words = isPaper(picture.type) && photo.name ? phrase("{0}, not saved yet", photo.name)
    : phrase("not saved yet");
  return thumbnail(picture, words, phrase("Leave out"), () => {
    setOf(now, { photos: now.photos.filter(it => it !== photo) });
    keepPhotos();
    showPhotos();
  });
}));

/** The photos of a form's row that wait, but for those of the act that the form changes. */
const photosThatWait = now => Promise.all(outbox.waiting
  .filter(it => it.number !== now.act?.number && it.table === now.table && it.of === now.row.id)
  .flatMap(act => photosIn(act).map(async id => {
    const picture = await smallOf(now, id, async () => bodyOfBytes(await photoOf(id)));
    return picture.size && thumbnail(picture, phrase(act.refused ? "refused" : "waits"));
  })));

/** The photos of a form's row in the package. */
async function photosThere(now) {
  const { table, row } = now;
  const related = rows.stood.has(row.id) ? await ask(`${ROOT}related/${table}/${row.id}`, "json", isRelated) : [];
  if (!related) return saidOf("gone") ? [element("li", phrase("The photos of the package aren't to be had now."))] : [];
  const files = related.filter(it => it.name === "media"), addresses = files.map(it => addressOf(it.table, it.id));
  const load = address => smallOf(now, address, () => ask(address, "blob"));
  const bodies = await Promise.all(addresses.map(load));
  if (form === now) shapesOfRow(now, files, bodies);
  return bodies.map((body, at) => {
    const { table: of, id } = files[at], off = () => takeOff(files[at], body.type);
    return body && thumbnail(body, `${of} ${id}`, phrase("Take off"), off, addresses[at]);
  });
}

/** A photo's or a file's bytes, with their type where that is known. */
const bodyOfBytes = bytes => new Blob([bytes ?? ""], { type: typeInForm(bytes) ?? "" });

/** A picture of a form, made small once; null where it isn't to be had. */
async function smallOf(now, key, load) {
  const there = smallsOf(now), made = there.get(key) ?? load().then(smallPicture);
  there.set(key, made);
  if (await made === null) there.delete(key);
  return made;
}

function smallsOf(now) {
  if (!smalls.has(now)) smalls.set(now, new Map());
  return smalls.get(now);
}

/** A picture made small; what is none stays as it is, and a shape has words. */
const smallPicture = body => !body?.size ? body : isShape(body.type) ? withWords(body) : isPaper(body.type) ? body
  : withImage(body, image => smallOfImage(image, body)).catch(() => body);

/** Does something with a picture, which alone is drawn meanwhile. */
function withImage(body, act) {
  const drawn = drawing.then(async () => {
    const image = await createImageBitmap(body);
    try {
      return await act(image);
    } finally {
      image.close();
    }
  });
  drawing = drawn.catch(() => {});
  return drawn;
}

/** A picture that is drawn, made small where it isn't. */
function smallOfImage(image, body) {
  const part = SMALL_SIDE / Math.max(image.width, image.height);
  return part < 1 ? jpegOf(image, part) : body;
}

/** A photo, small, or a file, with what becomes of it. One that has an address is a link to it. */
function thumbnail(body, words, button, act, address) {
  const image = new Image(), frame = element(address ? "a" : "span", image);
  if (address) Object.assign(frame, { href: address, target: "_blank", rel: "noopener" });
  const none = () => frame.replaceChildren(isPaper(body.type) ? wordsOfFile(body) : body.type || phrase("no picture"));
  if (isPaper(body.type)) none();
  else drawn(image, body).then(picture => picture ? image.alt = words : none());
  const item = element("li", frame, element("small", words), ...playButton(body, words));
  if (!button) return item;
  const made = Object.assign(element("button", button), { type: "button" });
  if (address) twice(made, act); else made.addEventListener("click", act);
  item.append(made);
  return item;
}

/** Takes a photo off the form's row, and out of the package where nothing else is related to it. */
function takeOff({ mapping, table, id }, type) {
  const records = [["map-drop", mapping, form.row.id, id], ["media-drop", table, id]];
  const what = `take ${nounOf(type)} ${id} off ${nameOf(form.row)}`;
  return post([{ table: form.table, of: form.row.id, what, records }]);
}

/** Takes files that were chosen into the form, one behind another. */
async function choose(event) {
  const now = form, input = event.target;
  if (!now) return;
  await bring(now, [...input.files].map(file => ({ name: file.name, file })));
  input.value = "";
}

/** Takes files, or what comes to be some, into a form, one behind another. */
async function bring(now, files) {
  byId("told").textContent = "";
  const taken = files.reduce((before, it) => before.then(() => take(now, it)), now.taken);
  setOf(now, { coming: now.coming + files.length, taken });
  showPhotos();
  await now.taken;
}

/** Takes a picture, PDF or sound into a form, which may be closed meanwhile. */
async function take(now, { name, file }) {
  let photo = null, why = phrase("{0} is no picture that this browser draws, no PDF, no sound and no line.", name);
  try {
    const given = await file, head = await given.slice(0, HEAD).arrayBuffer(), type = typeOfFile(head);
    const isFile = isPaper(type);
    photo = { id: freshId(type), bytes: null, name };
    why = isFile && whyTooLong(name, given.size, PHOTO_BYTES) || why;
    const { whole, small } = await (isFile ? fileFrom(given) : withImage(given, it => photoFrom(it, given, head)));
    photo.bytes = await whole.arrayBuffer();
    smallsOf(now).set(photo.id, Promise.resolve(small));
    setOf(now, { photos: [...now.photos, photo], shot: placeOfPhoto(head) ?? now.shot });
  } catch {
    setOf(now, { failed: why });
    if (form === now) byId("told").textContent = now.failed;
  }
  setOf(now, { coming: now.coming - 1 });
  if (form !== now) return;
  keepPhotos(photo);
  showPhotos();
  offerPlaceOfPhoto();
}

/** Each byte of a PDF or of sound, where that isn't too long. */
async function fileFrom(file) {
  if (file.size > PHOTO_BYTES) throw new RangeError("it is too long");
  const whole = bodyOfBytes(await file.arrayBuffer());
  return { whole, small: await smallPicture(whole) };
}

/** What a file is, and its size; of a shape its length and its area. */
const wordsOfFile = ({ type, size, told }) => told ?? `${kindOfFile(type)}, ${wordsOfSize(size)}`;

/**
 * A picture as the package takes it, and made small: each byte of a JPEG that is small enough, else a JPEG that is
 * drawn anew, with the Exif of the first.
 */
async function photoFrom(image, file, head) {
  const isSmall = Math.max(image.width, image.height) <= PHOTO_SIDE && file.size <= PHOTO_BYTES;
  if (!isSmall || !isJpeg(head)) return shrunk(image, head);
  const whole = new Blob([await file.arrayBuffer()], { type: "image/jpeg" });
  return { whole, small: await smallOfImage(image, whole) };
}

/** A picture as JPEG with its Exif, drawn smaller until the package takes them, and made small. */
async function shrunk(image, head) {
  for (let side = PHOTO_SIDE; ; side /= 2) {
    const part = Math.min(1, side / Math.max(image.width, image.height)), [width, height] = sizeOf(image, part);
    const exif = segmentCarried(head, width, height), whole = await jpegWith(await jpegOf(image, part), exif);
    if (whole.size <= PHOTO_BYTES) return { whole, small: await smallOfImage(image, whole) };
  }
}

/**
 * A JPEG with a segment of Exif behind its first marker; as it is where there is none. It is of one part: Firefox draws
 * no picture of several.
 */
async function jpegWith(whole, exif) {
  if (!exif) return whole;
  const bytes = new Uint8Array(await whole.arrayBuffer()), made = new Uint8Array(bytes.length + exif.length);
  made.set(bytes.subarray(0, 2));
  made.set(exif, 2);
  made.set(bytes.subarray(2), 2 + exif.length);
  return new Blob([made], { type: "image/jpeg" });
}

/** The width and the height of a part of a picture's size. */
const sizeOf = (image, part) => [image.width, image.height].map(it => Math.max(1, Math.round(it * part)));

/** A part of a picture's size as JPEG, on white where it is clear. */
async function jpegOf(image, part) {
  const [width, height] = sizeOf(image, part);
  const canvas = Object.assign(document.createElement("canvas"), { width, height }), ground = canvas.getContext("2d");
  ground.fillStyle = "#fff";
  ground.fillRect(0, 0, width, height);
  ground.drawImage(image, 0, 0, width, height);
  const made = await new Promise(good => canvas.toBlob(good, "image/jpeg", 0.85));
  canvas.width = canvas.height = 0;  // else its pixels stay until the browser looks for what nobody has any more
  return made;
}
