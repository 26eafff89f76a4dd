// The words of the page's sources: which English phrases are said, and which texts look like words and aren't.

import { readFileSync, readdirSync } from "node:fs";
import { URL } from "node:url";

const PAGE = new URL("../../../tools/page/", import.meta.url);
/** The functions to which phrases are given, with how many of their arguments are some, behind those before. */
const SAYERS = { phrase: [0, 1], plural: [1, 3], toSay: [0, 1] };
// A source in pieces: comments, texts, templates without and with places, regular expressions, names, and signs.
const PIECES = [
  ["space", /(?:\s+|\/\/[^\n]*|\/\*[^]*?\*\/)/y],
  ["text", /(?:"(?:[^"\\\n]|\\.)*"|'(?:[^'\\\n]|\\.)*')/y],
  ["template", /`(?:[^`\\$]|\\[^]|\$(?!\{))*(?:`|\$\{)/y],
  ["name", /[\p{L}\p{N}_$]+/uy],
  ["sign", /(?:=>|[=!]==?|\?\?|\?\.|&&|\|\||[^])/y],
];
const REGEX = /\/(?![*\/])(?:[^\/\\[\n]|\\.|\[(?:[^\]\\\n]|\\.)*\])+\/[a-z]*/y;
// Behind a value a slash divides.
const VALUE = /^(?:[)\]}]|[\p{L}\p{N}_$]+|["'`].*)$/us, WORD_BEFORE = /^(?:return|typeof|case|in|of)$/;

/** The sources of the page, by their names. */
export const sources = () => new Map(readdirSync(PAGE).filter(it => /\.m?js$/.test(it)).sort()
  .map(it => [it, readFileSync(new URL(it, PAGE), "utf8")]));

/** The pieces of a source in their order, without spaces and comments; the depth of brackets of each. */
export function piecesOf(source) {
  const found = [], braces = [];
  for (let at = 0; at < source.length;) {
    const before = found.at(-1)?.text ?? "", isTail = source[at] === "}" && braces.at(-1) === "template";
    const isValue = VALUE.test(before) && !WORD_BEFORE.test(before);
    const [kind, text] = isTail ? ["template", tailAt(source, at)] : pieceAt(source, at, !isValue);
    if (isTail) braces.pop();
    if (kind === "template" && text.endsWith("${")) braces.push("template");
    else if (text === "{") braces.push("block");
    else if (text === "}" && !isTail) braces.pop();
    if (kind !== "space") found.push({ kind, text });
    at += text.length;
  }
  return found;
}

function tailAt(source, at) {
  const tail = /\}(?:[^`\\$]|\\[^]|\$(?!\{))*(?:`|\$\{)/y;
  tail.lastIndex = at;
  return tail.exec(source)[0];
}

function pieceAt(source, at, mayBeRegex) {
  for (const [kind, form] of mayBeRegex ? [PIECES[0], ["regex", REGEX], ...PIECES.slice(1)] : PIECES) {
    form.lastIndex = at;
    const found = form.exec(source);
    if (found) return [kind, found[0]];
  }
  throw new Error(`no piece at ${at}`);
}

/** What a text of a source says. */
const valueOf = text => JSON.parse(`"${text.slice(1, -1)
  .replace(/\\x(..)|\\(0)/g, (_, two = "00") => `\\u00${two}`).replace(/\\'/g, "'").replace(/(?<!\\)"/g, '\\"')}"`);

/** The texts of a source, each with the function's argument that it is of, if any; those joined by + are one. */
export function textsOf(source) {
  const pieces = piecesOf(source), found = [], calls = [];
  for (const [at, { kind, text }] of pieces.entries()) {
    const before = pieces[at - 1]?.text, next = pieces[at + 1]?.text;
    if (/^[([{]$/.test(text) || kind === "template" && /^[^}].*\$\{$/s.test(text)) {
      calls.push({ sayer: text === "(" && Object.hasOwn(SAYERS, before) ? before : null, argument: 0 });
    }
    if (/^[)\]}]$/.test(text) || kind === "template" && /^\}.*`$/s.test(text)) calls.pop();
    if (text === "," && calls.length) calls.at(-1).argument += 1;
    if (kind === "template") found.push({ text: text.replace(/^[`}]|`$|\$\{$/g, ""), isPhrase: false });
    if (kind !== "text") continue;
    const isKey = next === ":" && /^[{,]$/.test(before), isCompared = [before, next].some(it => /^[=!]==$/.test(it));
    const inner = calls.at(-1), around = calls.findLast(it => it.sayer === "toSay") ?? inner;
    const [first, end] = SAYERS[inner?.sayer] ?? [0, 0];
    const isOne = around?.sayer === "toSay" || inner?.argument >= first && inner?.argument < end;
    const value = valueOf(text), isBehind = before === "+" && pieces[at - 2].kind === "text";
    if (isBehind) found.at(-1).text += value;
    else found.push({ text: value, isPhrase: isOne && !isKey && !isCompared });
  }
  return found;
}

/** The texts of the page's source that a crew sees: those of its elements, and of attributes that are said. */
export function textsOfPage() {
  const html = readFileSync(new URL("page.html", PAGE), "utf8").replace(/<(script|style)[^>]*>[^]*?<\/\1>/g, "");
  const attributes = [...html.matchAll(/\s(?:title|placeholder|aria-label)="([^"]*)"/g)].map(it => it[1]);
  const texts = html.replace(/<[^>]*>/g, "\n\0").split("\0").map(it => it.trim().replace(/\s+/g, " "));
  return [...new Set([...texts, ...attributes])].filter(it => /\p{L}/u.test(it));
}
