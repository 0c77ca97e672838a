// Reads BER and DER (ITU-T X.690) in Node and in browsers. The reader is dumarewhi.wasm, whose calls are proved. This
// file makes objects of what they return. It is tested.
import { BER, DER, Reader } from "./module.js";

const MODULE = new URL("dumarewhi.wasm", import.meta.url);
const CLASSES = ["universal", "application", "context-specific", "private"];
/** The octets that end a content of indefinite length (X.690 8.1.5). */
const END_MARKER = 2;

/** Octets that aren't what they were read as. `offset` is where the element begins that breaks a rule. */
export class DerError extends Error {
  constructor(message, offset) {
    super(message);
    this.name = "DerError";
    this.offset = offset;
  }
}

async function octetsOfModule() {
  if (MODULE.protocol === "file:") return (await import("node:fs/promises")).readFile(MODULE);
  const response = await fetch(MODULE);
  if (!response.ok) throw new Error(`${MODULE}: status ${response.status}`);
  return response.arrayBuffer();
}

const reader = await Reader.load([[32, await octetsOfModule()]]);

/** The elements that octets are by DER, one after another. */
export function parseDer(octets) {
  const elements = read(octets);
  if (!elements.isDer) throw errorOf(elements, DER, elements.derOutcome);
  return treeOf(elements);
}

/** The elements that octets are by BER, one after another. */
export function parseBer(octets) {
  const elements = read(octets);
  if (!elements.isBer) throw errorOf(elements, BER, elements.outcome);
  return treeOf(elements);
}

function read(octets) {
  if (!(octets instanceof Uint8Array)) throw new TypeError("octets have to be a Uint8Array");
  reader.clear();
  return reader.read(octets);
}

/** Why octets aren't elements by these rules: where a walk over them ends, or the first value that breaks its type. */
function errorOf(elements, rules, outcome) {
  if (outcome.isRefused) return new DerError(elements.faultOf(rules), outcome.place);
  for (let number = 0; number < elements.count; number++) {
    const { isMarked, offset } = elements.row(number);
    if (isMarked) return new DerError(`at ${offset}: ${elements.remarkOf(number)}`, offset);
  }
  return new DerError("at 0: these octets aren't elements", 0);
}

/** The outermost elements, each with those inside it. */
function treeOf(elements) {
  const outermost = [];
  const open = [];
  for (let number = 0; number < elements.count; number++) {
    const element = elementOf(elements, number);
    open.length = element.depth;
    const around = open.at(-1)?.children ?? outermost;
    around.push(element);
    open.push(element);
  }
  for (const element of outermost) setContents(elements.octets, element);
  return outermost;
}

function elementOf(elements, number) {
  const row = elements.row(number);
  return {
    offset: row.offset,
    header: row.header,
    length: row.isDefinite ? row.length : null,
    depth: row.depth,
    class: CLASSES[row.tagClass],
    tag: row.number,
    constructed: row.isConstructed,
    type: elements.nameOf(number),
    // After a space, as in a line of `der tree`.
    value: elements.valueOf(number, true).slice(1),
    content: null,
    children: [],
  };
}

/** Sets the content octets of an element and of those inside it. Returns where the element ends. */
function setContents(octets, element) {
  const begin = element.offset + element.header;
  let end = begin;
  for (const child of element.children) end = setContents(octets, child);
  if (element.length !== null) end = begin + element.length;
  element.content = octets.subarray(begin, end);
  return element.length === null ? end + END_MARKER : end;
}
