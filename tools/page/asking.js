// What is asked of the program that serves this page, and what is said above the map. The page is ROOT media/TABLE/1:
// "/" of 'mmpkg serve', where it shows, and "/KEY/" of 'mmpkg desk', where it works. Item 2 beside it is Leaflet, 3
// Leaflet's style, 4 what was known when the page was made (tools/make_viewer.py). What a package says is put in as
// text only.

const AGAIN = 4000;     // milliseconds until a program that doesn't answer is asked again
const ANSWERS = 30000;  // milliseconds until one that hangs is given up: a request before may take 20 seconds
const READING = 10000;  // milliseconds for which words stand that nothing else takes away
const ROOT = new URL("../..", location.href).pathname;
const WORKS = ROOT !== "/";
// By what came of a question, what is said above the map.
const AWAY = {
  gone: WORKS
    ? phrase("The package doesn't answer. What is saved here is kept in this browser, and is sent when it does. " +
      "If that takes long, open the package again.")
    : phrase("The package doesn't answer: 'mmpkg serve' has ended, or isn't to be reached. Start it again."),
  no: phrase("This address isn't the package's any more: its key has changed. Open the address that 'mmpkg desk' " +
    "printed last; what isn't in the package yet is kept in this browser."),
  strange: phrase("Another program has the port of this package: nothing that it tells counts. End it, and open the " +
    "package again; what isn't in the package yet is kept in this browser."),
};

const messages = {};
let away = null;     // what waits until a program that doesn't answer is asked again
let ended = false;   // the day was ended here
const onReturn = new Map(); // what is done when it answers again, by whose it is

const byId = id => document.getElementById(id);

/** What is said above the map by a key; nothing where nothing is. */
const saidOf = key => messages[key] ?? "";

/** Whether the package didn't answer last. */
const isAway = () => away !== null;

/** Whether the day was ended here, and the package isn't open again. */
const hasEnded = () => ended;

/** Has something done each time that the package answers again. */
const whenBack = (whose, act) => void onReturn.set(whose, act);

function element(name, text, ...children) {
  const made = document.createElement(name);
  made.append(text, ...children);
  return made;
}

/** Says something above the map, in place of what was said by that key; null says nothing more. */
function say(key, text) {
  if ((messages[key] ?? null) === text) return;
  messages[key] = text;
  if (text === null) delete messages[key];
  byId("messages").replaceChildren(...Object.values(messages).map(it => element("li", it)));
}

/** Says something for so long as it takes to read it. */
function sayFor(key, text) {
  say(key, text);
  setTimeout(() => messages[key] === text && say(key, null), READING);
}

/** What an answer tells before its body; one that leads elsewhere is not followed. */
const headOf = response => ({
  status: response.status, type: response.headers.get("Content-Type"), leads: response.type === "opaqueredirect",
});

/**
 * Asks for a body as a "blob" or as "json" that holds something, and answers what came of it: "there" with the body,
 * "no", "gone", or "strange" where another program has the port.
 */
async function asked(address, form, holds = () => true) {
  try {
    const how = { cache: "no-store", redirect: "manual", signal: AbortSignal.timeout(ANSWERS) };
    const response = await fetch(address, how), head = headOf(response);
    if (head.status !== 200) return { is: isNo({ ...head, text: await response.text() }) ? "no" : "strange" };
    const body = await response[form](), isTyped = form === "blob" || isThere(head, "application/json");
    return isTyped && holds(body) ? { is: "there", body } : { is: "strange" };
  } catch (error) {
    return { is: error instanceof SyntaxError ? "strange" : "gone" };
  }
}

/** Asks for a body, null where there is none; that no package answers is said. */
async function ask(address, form, holds) {
  const { is, body = null } = await asked(address, form, holds);
  if (is === "gone" || is === "strange") noAnswer(is);
  return body;
}

/** Says that the package doesn't answer, and asks it until it does. The map may have holes meanwhile. */
function noAnswer(is = "gone") {
  if (ended) return;
  say("gone", AWAY[is]);
  if (!away) away = setTimeout(askAgain, AGAIN);
}

/** Keeps whether the day is ended; then the package is asked whether it is open again. */
function endsDay(isEnded) {
  ended = isEnded;
  if (ended && !away) away = setTimeout(askAgain, AGAIN);
}

/** The package is open again. */
function beginsDay() {
  if (ended) say("ended", null);
  ended = false;
}

async function askAgain() {
  const { is } = await asked(`${ROOT}contents`, "json", isContents), isBack = is === "there";
  away = isBack ? null : setTimeout(askAgain, AGAIN);
  if (!isBack && !ended) say("gone", AWAY[is]);
  if (!isBack) return;
  say("gone", null);
  for (const it of onReturn.values()) it();
}
