// How what waits is sent: one act at a time, and in one tab at a time.

const MOST_BODY = 16777216, PATIENCE = 120000;
const LATER = 30000;  // milliseconds until what failed again is sent once more
const NO_ANSWER = phrase("the package doesn't answer");

let sending = false, more = false, later = 0;
const failures = new Map();  // by its number of saving, how often an act failed while the package answered, and why

const isSending = () => sending;

/** How often an act failed while the package answered, and why; nothing where it never did. */
const failuresOf = act => failures.get(act.saved) ?? { count: 0, why: "" };

/** Sends records, and answers what came of an answer. */
async function ran(records) {
  const body = await bodyOf(records);
  if (body.size > MOST_BODY) return { status: 413, type: null, leads: false, text: "" };
  const how = { method: "POST", headers: { "Content-Type": "text/csv" }, body, redirect: "manual" };
  const response = await fetch(`${ROOT}records`, { ...how, signal: AbortSignal.timeout(PATIENCE) });
  const head = headOf(response);
  let text = "";
  try {
    const reader = response.body?.pipeThrough(new TextDecoderStream()).getReader();
    for (let it = await reader?.read(); it && !it.done; it = await reader.read()) {
      text += it.value;
      if (isThere(head, "text/plain")) tellProgress(text, records.length);
    }
  } catch { /* what came whole counts */ }
  return { ...head, text };
}

/** Tells how many records of a list of some stand. */
function tellProgress(text, count) {
  const lines = linesOf(text, count);
  if (count > 1 && lines) tellState(phrase("{0} of {1} stand", lines.length, count), "waits");
}

// What an act's way asks (steps.mjs), and the event that comes of it.
const QUESTIONS = {
  async row({ act }) {
    const id = rowIn(act), { is, body } = await asked(`${ROOT}rows/${act.table}/${id}`, "json", it => isRows(it, id));
    const row = body?.find(it => it.id === id), who = body && !row && act.saw ? await whose() : is;
    return { is: "row", row: who === "there" ? row ?? null : undefined, fresh: freshId(), ...isNone(who) };
  },
  async related({ act }) {
    const { is, body = null } = await asked(`${ROOT}related/${act.table}/${rowIn(act)}`, "json", isRelated);
    return { is: "related", related: body, ...isNone(is) };
  },
  async run({ sent }) {
    const isSilent = error => error instanceof TypeError || error.name === "TimeoutError";
    return ran(sent.records).then(answer => ({ is: "answer", answer }), error => {
      if (!isSilent(error)) throw error;
      return { is: "none", why: NO_ANSWER, isSilent: true };
    });
  },
};
// What is to be done on an act's way.
const EFFECTS = {
  keep: ({ act, next }) => become(act, ...next),
  stands({ act }) {
    stands(act);
    tellTabs(act);
  },
  reread: () => void readRows(),
  fails({ why, isSilent }) { throw Object.assign(new Error(why), { isSilent }); },
};

/** Who answers at the port: other programs have empty lists too, and none of them says that a row is gone. */
const whose = async () => (await asked(`${ROOT}contents`, "json", isContents)).is;

/** The event where no package answers a question. */
const isNone = is => is === "gone" ? { is: "none", why: NO_ANSWER, isSilent: true }
  : is === "strange" ? { is: "none", why: phrase(STRANGER), isSilent: false } : {};

/** Sends one act, and keeps what becomes of it. */
async function sendOne(act) {
  for (let way = wayOf(act, rows.only, historyOf(act.table)); way.asks;) {
    way = step(way, await QUESTIONS[way.asks](way));
    for (const it of way.effects) await EFFECTS[it.does](it);
  }
}

/** Keeps that an act has failed, and answers whether the others go on: it did so before, and the package answers. */
async function hasFailed(act, { message }) {
  if (await whose() !== "there") return false;
  const count = failuresOf(act).count + 1;
  failures.set(act.saved, { count, why: message });
  return count > 1;
}

/** Sends an act, and answers why not where the others go on without it. */
async function failureOf(act) {
  try {
    await sendOne(act);
    return null;
  } catch (error) {
    if (!await hasFailed(act, error)) throw error;
    showWaiting();
    return error;
  }
}

/**
 * Sends what waits, in its order, one act at a time and in one tab at a time. What fails again is passed over. All acts
 * are read where none is left of those that were, where one isn't as it was read, and where something is left of it.
 */
async function sendAll() {
  const passed = new Set();
  let all = [], failed = null;
  for (let act; !hasEnded() && (act = nextOf(all, KEY, passed) ?? nextOf(all = await acts(), KEY, passed));) {
    const isSame = (await actOf(act.number))?.saved === act.saved, why = isSame ? await failureOf(act) : null;
    if (why) passed.add(act.saved);
    failed = why ?? failed;
    all = why || await actOf(act.number) ? await acts() : all.filter(it => it !== act);
  }
  if (failed) throw Object.assign(new Error(failed.message), { isPassed: true });
}

async function send() {
  clearTimeout(later);
  more = true;
  if (sending || hasEnded()) return;
  sending = true;
  let failed = null;
  try {
    while (more) {
      more = false;
      await navigator.locks.request(outbox.store.name, sendAll);
    }
  } catch (error) {
    failed = error;
  }
  sending = false;
  await recount();
  tellFailed(failed);
}

/** Tells why what waits isn't sent, where that is so, and sends it again later. */
function tellFailed(error) {
  if (!error) return say("sending", null);
  if (!error.isPassed) tellState(error.message, "gone");
  say("sending", error.isSilent ? null
    : phrase(error.isPassed ? "What waits isn't all sent: {0}." : "What waits isn't sent: {0}.", error.message));
  if (error.isSilent) noAnswer();
  later = setTimeout(send, error.isPassed ? LATER : AGAIN);
}
