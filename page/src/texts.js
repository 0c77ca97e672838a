// What the page says of documents, elements and errors. Nothing here draws.
import { ELEMENT, HEADING, REFUSAL } from "./items.js";
import { BER, DER } from "./module.js";
import { counted, hexOf } from "./octets.js";

const CLASSES = ["universal", "application", "context-specific", "private"];

/** INTEGERs up to this many octets are turned into decimal digits unasked. */
const MOST_DECIMAL = 4096;

/** How many octets of a long INTEGER are shown in hexadecimal. */
const FIRST_OCTETS = 20;

/** The name and the label of a document. */
export function nameOf({ name, label }) {
  return label ? `${name}: ${label}` : name;
}

/**
 * What a document is: the kind of the box, and the sentence. `place` is the offset of the error, or undefined.
 */
export function outcomeOf(documents, number) {
  const document = documents[number];
  const { elements, error } = document;
  const count = documents.length;
  const name = count > 1 ? `${nameOf(document)} (${number + 1} of ${count}): ` : "";
  if (!elements) return { kind: "refused", text: name + error };
  if (elements.isDer) return { kind: "der", text: `${name}This is DER: ${sizeOf(document)}.` };
  if (elements.outcome.isRefused) {
    const text = `${name}Error ${elements.faultOf(BER)}. The elements before it are shown.`;
    return { kind: "refused", text, place: elements.outcome.place };
  }
  const what = elements.isBer ? "This is BER, not DER" : "This is neither DER nor BER";
  const text = `${name}${what}: ${elements.faultOf(DER)}. It has ${sizeOf(document)}.`;
  return { kind: "ber", text, place: elements.derOutcome.place };
}

function sizeOf({ elements, octets }) {
  const { type } = elements.fields;
  const size = `${counted(elements.count, "element")} in ${counted(octets.length, "octet")}`;
  return type ? `${size}, of the type ${type}` : size;
}

/** What the row of an item shows. */
export function partsOf(items, item) {
  const document = items.documentOf(item);
  if (items.kind[item] === HEADING) return headingParts(document);
  if (items.kind[item] === REFUSAL) return refusalParts(document.elements);
  return elementParts(document.elements, items.row[item], items.hasInside(item));
}

function headingParts(document) {
  const { elements, octets, error } = document;
  const value = elements ? counted(octets.length, "octet") : error;
  return { kind: elements ? "heading" : "refusal", type: nameOf(document), value };
}

function refusalParts(elements) {
  return { kind: "refusal", place: elements.outcome.place, type: "Error", value: elements.causeOf(BER) };
}

function elementParts(elements, number, hasInside) {
  const row = elements.row(number);
  return {
    kind: row.tagClass !== 0 ? "tagged" : row.isConstructed ? "constructed" : "primitive",
    place: row.offset,
    sizes: `${row.header}+${row.isDefinite ? row.length : "∞"}`,
    sizesInWords: sizesInWords(row),
    field: elements.fieldOf(number),
    type: elements.nameOf(number),
    mark: row.holds ? `holds ${row.holds}` : row.isConstructed && !hasInside ? "empty" : "",
    value: elements.valueOf(number, false).trim(),
    isIdentifier: isIdentifier(row),
    remark: row.isMarked ? elements.remarkOf(number) : "",
  };
}

function sizesInWords(row) {
  const length = row.isDefinite ? counted(row.length, "octet") : "indefinite length";
  return `header of ${counted(row.header, "octet")}, content of ${length}`;
}

function isIdentifier(row) {
  return row.tagClass === 0 && row.number === 6;
}

/** What a screen reader says of a row. */
export function labelOf({ field, type, mark, value, remark, place }) {
  const at = place === undefined ? "" : `at ${place}`;
  return [field, type, mark, value, remark, at].filter(Boolean).join(", ");
}

/** What is said of a selected item: lines of a name, a text and its kind. `isFull` shows all of a long value. */
export function detailsOf(items, item, isFull) {
  const { kind, row, end } = items;
  if (kind[item] === ELEMENT) return elementLines(items.elementsOf(item), row[item], end[item], isFull);
  if (kind[item] === REFUSAL) return refusalLines(items.elementsOf(item));
  return headingLines(items.documentOf(item));
}

function headingLines({ name, label, octets, error }) {
  const lines = [["Input", name]];
  if (label) lines.push(["Label", label]);
  lines.push(octets ? ["Size", counted(octets.length, "octet")] : ["Error", error, "fault"]);
  return lines;
}

function refusalLines(elements) {
  const path = elements.refusedPathOf(BER);
  const lines = [["Error", elements.causeOf(BER), "fault"], ["Offset", String(elements.outcome.place)]];
  if (path !== "") lines.push(["Path", path, "path"]);
  return lines;
}

function elementLines(elements, number, end, isFull) {
  const row = elements.row(number);
  const form = row.isConstructed ? "constructed" : "primitive";
  const lines = [["Type", `${elements.nameOf(number)} (${CLASSES[row.tagClass]} ${row.number}, ${form})`]];
  const field = elements.fieldOf(number);
  if (field !== "") lines.push(["Field", field]);
  lines.push(["Path", elements.pathOf(number), "path"]);
  lines.push(["Octets", `${row.offset} to ${end - 1}: ${sizesInWords(row)}`]);
  lines.push(["Header", hexOf(elements.octets.subarray(row.offset, row.offset + row.header), " "), "digits"]);
  const value = elements.valueOf(number, isFull).trim();
  if (value !== "") lines.push(["Value", value, isIdentifier(row) ? "identifier" : "value"]);
  lines.push(...otherForms(elements, number, row, isFull));
  if (row.holds) lines.push(["Content", `${row.holds}, shown inside`]);
  if (row.isMarked) lines.push(["Remark", elements.remarkOf(number), "fault"]);
  return lines;
}

/** What a button says that shows all of an item's value; "" if all is shown. */
export function textOfMore(items, item, isFull) {
  if (isFull || items.kind[item] !== ELEMENT) return "";
  const elements = items.elementsOf(item);
  const number = items.row[item];
  const isCut = elements.valueOf(number, false) !== elements.valueOf(number, true);
  return isCut ? `Show all ${counted(elements.row(number).length, "octet")}` : "";
}

/** A number in the other notation, and a time in words. */
function otherForms(elements, number, row, isFull) {
  if (row.tagClass !== 0 || row.isConstructed) return [];
  if (row.number === 2 || row.number === 10) return numberForms(elements, number, row, isFull);
  if (row.number !== 23 && row.number !== 24) return [];
  const words = timeInWords(elements.valueOf(number, true).trim(), Date.now());
  return words ? [["In words", words]] : [];
}

function numberForms(elements, number, row, isFull) {
  const content = elements.contentOf(row);
  const isCut = content.length > 32 && !isFull;
  const hex = isCut ? `${hexOf(content.subarray(0, FIRST_OCTETS))}...` : hexOf(content);
  const octets = ["Hex", `${hex} (${counted(content.length, "octet")})`, "digits"];
  if (content.length > MOST_DECIMAL && !isFull) return [octets];
  const decimal = decimalOf(elements.valueOf(number, true).trim());
  return decimal === null ? [octets] : [["Decimal", decimal, "digits"], octets];
}

/** The decimal digits of a number that the module prints in hexadecimal ones, in two's complement if negative. */
export function decimalOf(value) {
  const found = /^0x([0-9a-f]+)( \(negative.*\))?$/.exec(value);
  if (!found) return null;
  const number = BigInt(`0x${found[1]}`);
  return (found[2] ? number - (1n << BigInt(4 * found[1].length)) : number).toString();
}

/** A time as the module prints it: year, month, day, hour, minute, second, and the zone with its parts. */
const TIME = /^(\d{4})-(\d\d)-(\d\d) (\d\d):(\d\d):(\d\d)(?:\.\d*)? (UTC|local time|([+-])(\d\d):(\d\d))$/;

/** A time as people say it, and how far it is from now, in milliseconds since 1970. */
export function timeInWords(value, now) {
  const found = TIME.exec(value);
  if (!found) return null;
  const [year, month, day, hour, minute, second] = found.slice(1, 7).map(Number);
  const time = new Date(0);
  time.setUTCFullYear(year, month - 1, day);
  const isDate = time.getUTCMonth() === month - 1 && time.getUTCDate() === day;
  if (!isDate) return "no day of the calendar";
  time.setUTCHours(hour, minute, second);
  const words = new Intl.DateTimeFormat("en-GB", { dateStyle: "full", timeStyle: "medium", timeZone: "UTC" });
  const [zone, sign, hours, minutes] = found.slice(7);
  const text = `${words.format(time)} ${zone}`;
  if (zone === "local time") return text;
  const east = sign ? Number(`${sign}1`) * (Number(hours) * 60 + Number(minutes)) : 0;
  return `${text}, ${fromNow(time.getTime() - east * 60000 - now)}`;
}

function fromNow(milliseconds) {
  const relative = new Intl.RelativeTimeFormat("en", { numeric: "auto" });
  const units = [["year", 31556952], ["month", 2629746], ["day", 86400], ["hour", 3600], ["minute", 60]];
  const seconds = milliseconds / 1000;
  for (const [unit, size] of units) {
    if (Math.abs(seconds) >= size) return relative.format(Math.trunc(seconds / size), unit);
  }
  return "now";
}
