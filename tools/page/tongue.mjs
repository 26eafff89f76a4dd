// The page's words in the crew's language. What the page says is an English phrase, with places {0}, {1} .. for what is
// put in; another language has its own phrase by that. tongue.js has a language spoken before anything is said.

import { GERMAN } from "./german.mjs";

/**
 * A language: its phrases by the English ones, and what stands between the groups of a number and before its decimals.
 * @typedef {{ phrases: Record<string, string>, group: string, decimal: string }} Language
 */

/**
 * The languages that the page speaks.
 * @type {Record<string, Language>}
 */
export const LANGUAGES = {
  en: { phrases: {}, group: ",", decimal: "." },
  de: { phrases: GERMAN, group: "\u202f", decimal: "," },
};
const PLACE_IN_PHRASE = /\{(\d)\}/g;

let spoken = LANGUAGES.en;

/**
 * Has the first language spoken that the page knows, from now on, else English; answers which.
 * @param {readonly string[]} wanted as a browser tells them, the first wanted most
 */
export function speak(wanted) {
  const known = wanted.map(it => it.toLowerCase().split("-")[0]).find(it => Object.hasOwn(LANGUAGES, it)) ?? "en";
  spoken = LANGUAGES[known];
  return known;
}

/**
 * A phrase in English, with values in its places, as it stands in a file.
 * @param {string} text
 * @param {...unknown} values
 */
export const english = (text, ...values) =>
  text.replace(PLACE_IN_PHRASE, (place, at) => Number(at) < values.length ? String(values[Number(at)]) : place);

/**
 * A phrase in the crew's language, with values in its places; one that the language doesn't have in English.
 * @param {string} text
 * @param {...unknown} values
 */
export const phrase = (text, ...values) =>
  english(Object.hasOwn(spoken.phrases, text) ? spoken.phrases[text] : text, ...values);

/**
 * The phrase of one thing, or that of none or many. Without other values it has their count in its place.
 * @param {number} count
 * @param {string} one
 * @param {string} many
 * @param {...unknown} values
 */
export const plural = (count, one, many, ...values) =>
  phrase(count === 1 ? one : many, ...values.length ? values : [count]);

/**
 * English phrases that are said later, by phrase(): they stay as they are.
 * @template T
 * @param {T} phrases
 */
export const toSay = phrases => phrases;

/**
 * A number as English spells it in the crew's language; not for places, which are spelled as they are typed.
 * @param {string} number
 */
export const numeral = number => number.replace(/[.,]/g, it => it === "." ? spoken.decimal : spoken.group);

/**
 * A text of the page's source in the crew's language: its white space is a source's.
 * @param {string} text
 */
export function phraseOfSource(text) {
  const words = text.trim(), told = words.replace(/\s+/g, " "), own = phrase(told);
  return own === told ? text : text.replace(words, () => own);
}
