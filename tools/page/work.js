// The crew's day: how it begins and ends, and what the buttons beside the list do.

/** Ends the day, behind what waits: the program closes the package, whose file alone holds all then. */
async function endDay() {
  const button = byId("end");
  if (isHeld() || button.ariaBusy === "true") return;
  button.ariaBusy = "true";
  try {
    await endBehindWaiting();
  } finally {
    button.ariaBusy = null;
  }
}

/** Sends what waits, and then asks for the end; where nobody answers a day that was ended is so still. */
async function endBehindWaiting() {
  let isStrange = false;
  if (nextOf(outbox.waiting, KEY)) say("ended", phrase("What waits is sent first, and then the day ends."));
  await send();
  await navigator.locks.request(outbox.store.name, async () => {
    const response = await fetch(`${ROOT}end`, { method: "POST", redirect: "manual" }).catch(() => null);
    const text = await response?.text().catch(() => null);
    const told = response && { ...headOf(response), text };
    endsDay(told ? isEnd(told) : hasEnded());
    isStrange = Boolean(told) && !hasEnded() && !isNo(told);
  });
  say("ended", null);
  const why = isStrange ? phrase(STRANGER) : NO_ANSWER;
  if (!hasEnded()) return tellState(phrase("{0}: the day isn't ended", why), "gone");
  await count();
}

/** Tells that the day is ended, and what isn't in the package. */
function tellEnd(left) {
  const whole = phrase("the day is ended: the package is closed");
  tellState(left ? phrase("the day is ended, without this: {0}", left) : whole, left ? "gone" : "");
  say("ended", left
    ? phrase("The package is closed, and what 'Not in the package yet' lists isn't in it: open it again for that.")
    : phrase("The package is closed, and its file may be copied. This page may be closed too."));
}

/** Goes on where the package answers again. */
function goOn() {
  beginsDay();
  readRows();
  send();
}

/** Tells beside the state where the browser may clear what it keeps. */
function tellKept(isLasting) {
  byId("kept").hidden = isLasting;
}

function listenToList() {
  byId("book").addEventListener("change", () => changeTable(byId("book").value));
  byId("search").addEventListener("input", search);
  byId("order").addEventListener("change", showRows);
  byId("state").addEventListener("click", () => {
    if (byId("panel").hidden) byId("toggle").click();
    byId("waits").scrollIntoView();
    byId("waits").focus({ preventScroll: true });
  });
  byId("more").addEventListener("click", showMoreRows);
  byId("behind").addEventListener("click", showMoreWaiting);
  byId("file").addEventListener("click", keepAsFile);
  twice(byId("end"), endDay);
}

async function startWork(known) {
  byId("toggle").replaceChildren(phrase("Work"), element("span", ` ${phrase("and tables")}`));
  document.querySelector("main").classList.add("works");
  byId("state").hidden = byId("work").hidden = false;
  for (const it of ["book", "into"]) byId(it).replaceChildren(...tables().map(option));
  byId("book").value = (tables().find(it => photosOf(it.table)) ?? tables().find(it => it.table !== FORMS)
    ?? tables()[0])?.table ?? "";
  if (!tables().length) say("tables", phrase("The package has no table for rows yet."));
  byId("fresh").disabled = !tables().length;
  listenToForm();
  listenToFields();
  listenToList();
  listenToLegend();
  listenToOthers();
  await openOutbox(known.package).catch(error => {
    say("store", phrase("This browser keeps nothing that waits ({0}): work in a window that isn't private.",
      error.message));
    throw error;
  });
  if (await hasOther()) {
    say("other", phrase("This browser keeps work for another package too, which isn't in that yet: open it at this " +
      "port to send it."));
  }
  navigator.storage?.persisted?.().then(tellKept);
  navigator.storage?.persist?.().then(tellKept);  // which may ask the user, and isn't waited for
  whenBack("work", goOn);
  await readRows();
  showWaiting();
  await startDrafts();
  findTrack();
  send();
}
