/**
 * All words of the page. `TEXTS` has a table for each language, of which the page takes the first that the browser asks
 * for, and English if it has none of them. In a text a name in backquotes is shown as code, and `{0}`, `{1}` stand for
 * what is filled in. `findings` has the words of each code of a finding.
 */
import { CODES } from "./codes.mjs";
import { ENGLISH } from "./english.mjs";
import { GERMAN } from "./german.mjs";

const findingsIn = (language) =>
    Object.fromEntries(Object.entries(CODES).map(([code, words]) => [code, words[language]]));

export const TEXTS = {
    en: { ...ENGLISH, findings: findingsIn("en") },
    de: { ...GERMAN, findings: findingsIn("de") },
};
