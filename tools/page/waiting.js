// What isn't in the package yet, as a list with the buttons that go on with it, and as a state in a few words.

const STANDS_ALL = phrase("all is in the package");
const ARMED = 10000;    // milliseconds for which a button that asks for two presses waits for the second
const SHOWN_ACTS = 50;  // how many more the list has each time that more are asked for

let items = new Map();  // by what they say, the items of the list
let mostActs = SHOWN_ACTS;  // how many acts it has

function tellState(text, kind) {
  byId("state").textContent = text;
  byId("state").className = kind;
}

/** Tells how much waits, and for what. */
function showState() {
  const refused = outbox.waiting.filter(it => it.refused).length, apart = outbox.waiting.filter(it => it.apart).length;
  const open = outbox.waiting.length - refused - apart;
  const counts = toSay([[open, "{0} to send"], [apart, "{0} changed meanwhile"], [refused, "{0} refused"],
    [leftHere().length, "{0} not saved"]]);
  const words = counts.filter(([count]) => count).map(([count, text]) => phrase(text, count)).join(", ");
  const joinings = outbox.joinings.length;
  const joined = joinings && !words ? phrase("all is in the package, {0} joined", joinings) : "";
  if (hasEnded()) tellEnd(words);
  else tellState(words || joined || STANDS_ALL, words || joined ? "waits" : "");
}

/** An item that says what isn't in the package yet, and why. */
const listItem = (what, why, kind = "") => element("li", Object.assign(element("span", what), { className: "what" }),
  Object.assign(element("small", why), { className: kind }));

function buttonIn(item, text, act) {
  const made = Object.assign(element("button", text), { type: "button" });
  if (act) made.addEventListener("click", act);
  item.append(made, " ");
  return made;
}

/** Both sides of a row that another has changed meanwhile. */
function sidesOf({ row, dropped, apart }) {
  if (dropped || !apart.theirs) return [];
  const lines = bothSides(row, apart.theirs, apart.parts, rows.only).map(({ part, mine, theirs }) => {
    const [here, there] = [mine, theirs].map(it => element("td", it || phrase("(empty)")));
    return element("tr", element("th", part), here, there);
  });
  const head = element("tr", element("th", ""), element("th", phrase("mine")), element("th", phrase("theirs")));
  return [element("table", head, ...lines)];
}

/** The buttons that say what becomes of an act whose row another has changed meanwhile. */
function buttonsApart(item, act) {
  const isGone = !act.apart.theirs, [rest] = withTheirs(act, rows.only);
  const mine = phrase(act.dropped ? "Remove all the same" : isGone ? "Make it again" : "Take mine");
  buttonIn(item, mine, () => goOnWith(act, withMine(act, rows.only)));
  const theirs = buttonIn(item, phrase(act.dropped ? "Leave it" : isGone ? "Throw mine away" : "Take theirs"));
  twice(theirs, () => rest ? goOnWith(act, rest) : become(act));
  if (act.row) buttonIn(item, phrase("Change"), () => change(act));
}

const isPassed = act => isOpen(act, KEY) && failuresOf(act).count > 1;

/** What an act of the outbox waits for, in words. */
function whyWaits(act) {
  const { count, why } = failuresOf(act);
  if (isPassed(act)) return phrase("failed {0} times: {1}; waits to be sent once more", count, why);
  return wordsOf(act, outbox.waiting, KEY);
}

/** An act of the outbox, what it waits for, and the buttons that go on with it. */
function waitingItem(act, words) {
  const item = listItem(nameOfAct(act), words, act.refused || act.apart ? "bad" : "");
  if (act.apart) {
    item.append(...sidesOf(act));
    buttonsApart(item, act);
    return item;
  }
  if (act.refused && act.row) buttonIn(item, phrase("Change"), () => change(act));
  const anew = { ...act, refused: undefined, records: act.dropped ? [] : act.records };
  if (!isOpen(act, KEY)) {
    buttonIn(item, phrase(act.refused ? "Send again" : "Send it here"), () => goOnWith(act, anew));
  }
  if (!isOpen(act, KEY) || isPassed(act)) twice(buttonIn(item, phrase("Throw away")), () => become(act));
  return item;
}

/** What stands joined with what another changed, until somebody has seen that. */
function joinedItem(act) {
  const item = listItem(nameOfAct(act), wordsOf(act, [], KEY));
  buttonIn(item, phrase("Seen"), () => become(act));
  return item;
}

function showWaiting() {
  showState();
  byId("file").hidden = outbox.waiting.length === 0;
  byId("nothing").hidden = outbox.waiting.length + leftHere().length > 0;
  if (outbox.waiting.length <= SHOWN_ACTS) mostActs = SHOWN_ACTS;
  const withWhy = outbox.waiting.slice(0, mostActs).map(it => [it, whyWaits(it)]);
  showItems([
    ...leftHere().map(it => [`${it.owner}`, () => leftItem(it)]),
    ...withWhy.map(([it, why]) => [`${it.number} ${it.saved} ${why}`, () => waitingItem(it, why)]),
    ...outbox.joinings.map(it => [`${it.number} ${it.saved}`, () => joinedItem(it)]),
  ]);
}

/** Shows items, of which those that say the same stay: else a tap under way, and what has the focus, would be lost. */
function showItems(wanted) {
  const before = items, had = document.activeElement, rest = outbox.waiting.length - mostActs;
  const [key] = [...before].find(([, it]) => it.contains(had)) ?? [];
  items = new Map(wanted.map(([key, make]) => [key, before.get(key) ?? make()]));
  arrange(byId("outbox"), [...items.values()]);
  if (key && document.activeElement !== had) focusAgain(key, had);
  byId("behind").hidden = rest <= 0;
  byId("behind").textContent = phrase("Show more of what waits ({0} behind these)", rest);
}

/** Gives the focus that an item had to the same button of what it says now, or else to the head of the list. */
function focusAgain(before, button) {
  const numberOf = key => key.split(" ")[0], faceOf = it => it.textContent.split(":")[0];
  const [, item] = [...items].find(([key]) => numberOf(key) === numberOf(before)) ?? [];
  const same = [...item?.querySelectorAll("button") ?? []].find(it => faceOf(it) === faceOf(button));
  (same ?? byId("waits")).focus({ preventScroll: true });
}

/** Has the list have more of what waits. The focus stays in it where the button goes. */
function showMoreWaiting() {
  mostActs += SHOWN_ACTS;
  showWaiting();
  if (byId("behind").hidden) byId("waits").focus({ preventScroll: true });
}

/**
 * Has a button do something only when it is pressed twice, where that is asked for. A press counts for a while, and as
 * long as the button has the focus, where a browser tells when it loses that.
 */
function twice(button, act, asks = () => true) {
  const text = button.textContent, name = button.ariaLabel;
  let armed = 0;
  const says = words => {
    button.textContent = words(text);
    if (name) button.ariaLabel = words(name);
  };
  const back = () => {
    clearTimeout(armed);
    says(it => it);
    delete button.dataset.asked;
  };
  button.addEventListener("blur", back);
  button.addEventListener("click", () => {
    if (button.dataset.asked || !asks()) return void (back(), act());
    armed = setTimeout(back, ARMED);
    button.dataset.asked = "yes";
    says(it => phrase("{0}: press again", it));
  });
}
