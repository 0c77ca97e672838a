// The documents in inputs: octets with a name and a label. The module finds their form and their octets. Here is what a
// browser does for it: texts as octets of UTF-8, and addresses.
import { ERRORS, FORMS } from "./module.js";

/** The marks that texts begin with, by encoding. Without one UTF-16 may be DER: "00" is also two empty SEQUENCEs. */
const MARKS = [
  ["utf-16le", [0xff, 0xfe]],
  ["utf-16be", [0xfe, 0xff]],
  ["utf-8", [0xef, 0xbb, 0xbf]],
];

/** How many octets a dump may have that leaves out lines. */
const GREATEST_DUMP = 1 << 24;

/** Why an input has no octets. */
export class FormError extends Error {}

/** What is said of an error, by its number. */
const SENTENCES = {
  [ERRORS.looksLike]: "This isn't PEM, hexadecimal digits or base64.",
  [ERRORS.digits]: "The number of digits is odd, or one isn't hexadecimal.",
  [ERRORS.base64]: "This isn't PEM, hexadecimal digits or base64: the base64 is invalid.",
  [ERRORS.noBlock]: "There is no line -----BEGIN ..-----.",
  [ERRORS.noEnd]: "The block has no line -----END ..-----.",
  [ERRORS.labelsDiffer]: "The block ends with another label.",
  [ERRORS.encrypted]: "The block is encrypted (RFC 1421).",
  [ERRORS.outOfMemory]: "There is no memory for it.",
};

/** The documents in the octets of a file. */
export function documentsOfFile(reader, name, octets) {
  const marked = textOfMarked(octets);
  if (marked !== null) return documentsOfText(reader, marked, name);
  const form = reader.formOf(octets);
  if (form === FORMS.octets) return [{ name, label: "", octets }];
  const kind = form === ERRORS.looksLike ? reader.kindOf(octets) : "";
  if (kind !== "" && kind !== "a text file") throw new FormError(`${name} looks like ${kind}.`);
  // PEM may have text of any encoding around its blocks.
  if (form === FORMS.pem) return documentsOf(reader, octets, name);
  return documentsOfText(reader, new TextDecoder().decode(octets), name);
}

/** The text of octets that begin with the mark of an encoding, or null. */
export function textOfMarked(octets) {
  const found = MARKS.find(([, mark]) => mark.every((octet, k) => octets[k] === octet));
  return found ? new TextDecoder(found[0]).decode(octets) : null;
}

/** The documents in a text. */
export function documentsOfText(reader, text, name = "input") {
  const plain = withAllLines(withoutEscapes(text.replace(/^\ufeff/, "")));
  return plain.trim() === "" ? [] : documentsOf(reader, new TextEncoder().encode(plain), name);
}

/** A text of a web address or of a header line: with %0A for a line feed. */
export function withoutEscapes(text) {
  if (!/%[0-9a-f]{2}/i.test(text) || /\s/.test(text.trim())) return text;
  try {
    return decodeURIComponent(text);
  } catch {
    return text;
  }
}

/** A dump with the lines that it leaves out, where it has a line *. They are as the one before. */
export function withAllLines(text) {
  if (!/^\*\s*$/m.test(text)) return text;
  const lines = text.split(/\r?\n/).filter((line) => line.trim() !== "");
  const found = [16, 8, 10].map((base) => allLines(lines, base)).find((all) => all !== null);
  return found ? found.join("\n") : text;
}

/** All lines of a dump of 16 octets a line, if its offsets are right in this base. The last line may have an offset alone. */
function allLines(lines, base) {
  const all = [];
  let isRepeated = false;
  for (const line of lines) {
    if (line.trim() === "*") {
      if (all.length === 0) return null;
      isRepeated = true;
      continue;
    }
    const [, digits, octets] = /^\s*([0-9a-f]+)\b(.*)$/i.exec(line) ?? ["", "", ""];
    const offset = parseInt(digits, base);
    if (isRepeated && !(offset <= GREATEST_DUMP)) return null;
    while (isRepeated && 16 * all.length < offset) all.push(all[all.length - 1]);
    isRepeated = false;
    if (octets.trim() === "" ? line !== lines.at(-1) : offset !== 16 * all.length) return null;
    all.push(line);
  }
  return all;
}

/** The documents in the octets of a text. */
function documentsOf(reader, text, name) {
  const form = reader.formOf(text);
  if (form === FORMS.pem) return reader.blocksOf(text).map((block) => documentOf(name, block));
  if (form === FORMS.octets || form >= ERRORS.looksLike) throw new FormError(SENTENCES[ERRORS.looksLike]);
  const document = documentOf(name, { label: "", ...reader.decode(text, form === FORMS.digits) });
  if (document.error) throw new FormError(document.error);
  return [document];
}

/** A block as a document. One that has no octets has an error in their place. */
function documentOf(name, { label, octets, fault }) {
  return octets ? { name, label, octets } : { name, label, error: SENTENCES[fault] };
}
