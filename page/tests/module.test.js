// The module for 32-bit memory of the page that PAGE_HTML names. Without one these tests are skipped.
import assert from "node:assert/strict";
import { readFileSync } from "node:fs";
import test from "node:test";
import { documentsOfFile, documentsOfText } from "../src/forms.js";
import { BER, DER, Elements, ERRORS, FORMS, Reader, rowIn } from "../src/module.js";
import { octetsOf } from "./elements.js";

const DATA = new URL("../../crates/der/data/", import.meta.url);
const RUNS = new URL("../runs/", DATA);
const read = (name) => new Uint8Array(readFileSync(new URL(name, DATA)));
const storedLines = (name) => readFileSync(new URL(`${name}/stdout`, RUNS), "utf8").trimEnd().split("\n");
const given = process.env.PAGE_HTML;

function moduleOf(page) {
  const [, text] = /id="module-32">([^<]*)</.exec(readFileSync(page, "utf8"));
  return Buffer.from(text, "base64");
}

const reader = given ? await Reader.load([[32, moduleOf(given)]]) : null;
const withModule = (name, run) => test(name, { skip: !reader && "PAGE_HTML names no page" }, () => {
  reader.clear();
  run();
});
const elementsIn = (hex) => reader.read(octetsOf(hex));

// The fields of PageRow in crates/dumarewhi_page/src/content/row.rt, in order, as C lays them out
test("a row in memory", () => {
  const view = new DataView(new ArrayBuffer(80));
  [[0, 11], [8, 12], [16, 13], [24, 14], [32, 15], [40, 2 ** 40]].forEach(([at, value]) => {
    view.setBigUint64(8 + at, BigInt(value), true);
  });
  view.setUint32(8 + 48, 0xfffffffe, true);
  const flags = (...values) => {
    values.forEach((value, k) => view.setUint8(8 + 52 + k, value));
    const { tagClass, isConstructed, isDefinite, holds, isMarked } = rowIn(view, 8);
    return [tagClass, isConstructed, isDefinite, holds, isMarked];
  };
  assert.deepEqual(flags(2, 1, 0, 0, 0), [2, true, false, "", false]);
  assert.deepEqual(flags(3, 0, 1, 1, 1), [3, false, true, "DER", true]);
  assert.deepEqual(flags(0, 0, 0, 2, 0)[3], "BER");
  const { offset, header, length, depth, index, around, number } = rowIn(view, 8);
  assert.deepEqual([offset, header, length, depth, index, around, number], [11, 12, 13, 14, 15, 2 ** 40, 0xfffffffe]);
});

test("the content and the field of a row", () => {
  const { contentOf, fieldOf } = Elements.prototype;
  const contentIn = (hex, row) => [...contentOf.call({ octets: octetsOf(hex) }, { header: 2, ...row })];
  assert.deepEqual(contentIn("05 00 02 01 07 05 00", { offset: 2, length: 1 }), [7]);
  assert.deepEqual(contentIn("02 03 07", { offset: 0, length: 3 }), [7]);
  const fields = { type: "T", names: ["", "a", "b"] };
  assert.deepEqual([0, 1, 2, 3].map((number) => fieldOf.call({ fields }, number)), ["", "a", "b", ""]);
});

test("a text that is longer than its buffer is asked for again", () => {
  const written = "a text of 21 octets..";
  const reader = Object.create(Reader.prototype);
  Object.assign(reader, { memory: { buffer: new ArrayBuffer(256) }, end: 64, room: { at: 0, size: 20 } });
  const text = reader.text((at, room) => {
    const part = new TextEncoder().encode(written).subarray(0, Number(room));
    new Uint8Array(reader.memory.buffer).set(part, Number(at));
    return written.length;
  });
  assert.equal(text, written);
});

test("a form in DER that is longer than its buffer is asked for again", () => {
  const needed = 40;
  const rooms = [];
  const reader = Object.create(Reader.prototype);
  const page_canonical = (input, length, out, room, outcome) => {
    rooms.push(Number(room));
    reader.view.setBigUint64(Number(outcome), BigInt(needed), true);
    new Uint8Array(reader.memory.buffer).fill(7, Number(out), Number(out) + Math.min(needed, Number(room)));
    return 0;
  };
  Object.assign(reader, { memory: { buffer: new ArrayBuffer(256) }, end: 64, outcome: 8, calls: { page_canonical } });
  const given = { reader, octets: new Uint8Array(2), input: [0n, 2n] };
  assert.deepEqual([...Elements.prototype.canonical.call(given).octets], Array(needed).fill(7));
  assert.equal(rooms.at(-1), needed);
});

withModule("the rows of elements (X.690 8.1)", () => {
  const elements = elementsIn("30 80 05 00 45 00 85 00 c5 00 9f 81 00 00 04 02 05 00 04 04 30 80 00 00 0c 01 ff 00 00");
  const rows = Array.from({ length: elements.count }, (_, number) => elements.row(number));
  const fieldsOf = (row) => [
    row.offset, row.header, row.length, row.depth, row.index, row.around, row.number, row.tagClass, row.isConstructed,
    row.isDefinite, row.holds, row.isMarked,
  ];
  assert.deepEqual(rows.map(fieldsOf), [
    [0, 2, 0, 0, 0, 0, 16, 0, true, false, "", false],
    [2, 2, 0, 1, 0, 1, 5, 0, false, true, "", false],
    [4, 2, 0, 1, 1, 1, 5, 1, false, true, "", false],
    [6, 2, 0, 1, 2, 1, 5, 2, false, true, "", false],
    [8, 2, 0, 1, 3, 1, 5, 3, false, true, "", false],
    [10, 4, 0, 1, 4, 1, 128, 2, false, true, "", false],
    [14, 2, 2, 1, 5, 1, 4, 0, false, true, "DER", false],
    [16, 2, 0, 2, 0, 7, 5, 0, false, true, "", false],
    [18, 2, 4, 1, 6, 1, 4, 0, false, true, "BER", false],
    [20, 2, 0, 2, 0, 9, 16, 0, true, false, "", false],
    [24, 2, 1, 1, 7, 1, 12, 0, false, true, "", true],
  ]);
});

withModule("the path to an element", () => {
  const elements = elementsIn("30 0c 02 01 05 a3 07 02 01 05 30 02 05 00 05 00");
  const paths = Array.from({ length: elements.count }, (_, number) => elements.pathOf(number));
  assert.deepEqual(paths, [
    "SEQUENCE[0]", "SEQUENCE[0].INTEGER[0]", "SEQUENCE[0].[3]", "SEQUENCE[0].[3].INTEGER[0]",
    "SEQUENCE[0].[3].SEQUENCE[1]", "SEQUENCE[0].[3].SEQUENCE[1].NULL[0]", "NULL[1]",
  ]);
  assert.equal(elements.pathOf(elements.count), "");
});

withModule("an error by DER and by BER: all of it, its cause and its path", () => {
  const elements = elementsIn("30 05 05 00 01 01 05");
  assert.deepEqual([elements.isDer, elements.isBer], [false, true]);
  const cause = "a BOOLEAN is neither 00 nor ff (X.690 11.1)";
  assert.equal(elements.causeOf(DER), cause);
  assert.equal(elements.faultOf(DER), `at 4, SEQUENCE[0].BOOLEAN[1]: ${cause}`);
  assert.equal(elements.refusedPathOf(DER), "SEQUENCE[0].BOOLEAN[1]");
  assert.deepEqual([elements.faultOf(BER), elements.causeOf(BER), elements.refusedPathOf(BER)], ["", "", ""]);
  assert.deepEqual(elements.derOutcome, { rows: 2, place: 4, depth: 1, isRefused: true });
  const cut = elementsIn("30 80 02 01 05");
  assert.deepEqual([cut.outcome.place, cut.outcome.isRefused], [5, true]);
});

withModule("a value by BER that breaks its type", () => {
  const elements = elementsIn("02 02 00 05 0c 01 ff");
  assert.deepEqual([elements.isBer, elements.outcome.isRefused, elements.count], [false, false, 2]);
  assert.deepEqual([elements.row(0).isMarked, elements.row(1).isMarked, elements.faultOf(BER)], [true, true, ""]);
  assert.match(elements.remarkOf(0), /\(X\.690 8\.3\.2\)$/);
  assert.match(elements.remarkOf(1), /8\.23\.10\)$/);
});

withModule("why DER has no form of an input", () => {
  const found = elementsIn("30 80 17 0b 39 39 31 32 33 31 32 33 35 39 5a 00 00").canonical();
  assert.match(found.fault, /^at 2, SEQUENCE\[0\]\.UTCTime\[0\]: .*\(X\.690 11\.7\.2/);
  // The number 30 isn't in the leading octet
  assert.match(elementsIn("30 03 1f 1e 00").canonical().fault, /^at 2, SEQUENCE\[0\]: .*\(X\.690 8\.1\.2\.[24]\)$/);
  const { octets } = elementsIn("30 80 01 01 05 00 00").canonical();
  assert.equal(Buffer.from(octets).toString("hex"), "30030101ff");
});

// openssl x509 -noout -enddate: Feb 22 23:15:41 2027 GMT
withModule("a certificate expires, and when", () => {
  const elements = reader.read(read("certificate.der"));
  const end = Date.UTC(2027, 1, 22, 23, 15, 41) / 1000;
  const lines = (seconds) => elements.wordsAt(seconds).split("\n").filter((line) => line.includes("Expire"));
  assert.deepEqual(lines(end - 2 * 86400), ["  Expires: in 2 days"]);
  assert.deepEqual(lines(end), ["  Expires: in 0 days"]);
  assert.deepEqual(lines(end + 86400), ["  Expired: 1 day ago"]);
  assert.equal(elementsIn("05 00").wordsAt(end), "");
});

withModule("the type of an input, also by BER, and the names of its fields (RFC 5280 4.1)", () => {
  const octets = read("certificate.der");
  const elements = reader.read(octets);
  const { type, names } = elements.fields;
  const tbs = ["tbsCertificate", "version", "", "serialNumber", "signature"];
  assert.deepEqual([type, ...names.slice(1, 6)], ["Certificate", ...tbs]);
  // Inside the OCTET STRING of subjectAltName (4.2.1.6)
  const offsets = Array.from({ length: elements.count }, (_, number) => elements.row(number).offset);
  assert.deepEqual([349, 362].map((offset) => names[offsets.indexOf(offset)]), ["dNSName", "iPAddress"]);
  const inBer = Uint8Array.from([0x30, 0x80, ...octets.subarray(4), 0, 0]);
  assert.deepEqual(reader.read(inBer).fields, { type, names });
  // An "@" in the PrintableString at 55
  assert.deepEqual(reader.read(octets.with(57, 0x40)).fields, { type, names }, "a value that breaks its type");
  assert.deepEqual(elementsIn("05 00").fields, { type: "", names: [] });
});

// Another program prints these lines: der tree --as none
withModule("the line of an element is that of der tree", () => {
  const linesOf = (elements) => Array.from({ length: elements.count }, (_, number) => elements.lineOf(number, false));
  const stored = storedLines("tree_without_names");
  for (const name of ["certificate.der", "message.cms", "texts.der"]) {
    const lines = linesOf(reader.read(read(name)));
    const begin = stored.indexOf(`${name}:`) + 1;
    assert.deepEqual(lines, stored.slice(begin, begin + lines.length), name);
  }
  const strings = readFileSync(new URL("tree_of_strings_that_hold_ber/stdin", RUNS), "utf8");
  assert.deepEqual(linesOf(elementsIn(strings.trim())), storedLines("tree_of_strings_that_hold_ber"));
});

withModule("a long value is cut, or not", () => {
  const elements = elementsIn(`04 82 01 00 ${"ff".repeat(256)}`);
  assert.ok(elements.valueOf(0, false).length < 512);
  assert.equal(elements.valueOf(0, true).trim(), "ff".repeat(256));
  assert.ok(elements.lineOf(0, true).endsWith(elements.valueOf(0, true)));
  assert.ok(elements.lineOf(0, false).endsWith(elements.valueOf(0, false)));
});

withModule("broken blocks of PEM have their labels, and the blocks after them are found", () => {
  const block = (label, text, end = label) => `-----BEGIN ${label}-----\n${text}\n-----END ${end}-----\n`;
  const text = `${block("A", "AgEB")}${block("B", "AgEB", "C")}${block("D", "*")}-----BEGIN E-----\nAg\n${block("F", "BQA=")}`;
  const found = documentsOfText(reader, text, "x");
  assert.deepEqual(found.map(({ label }) => label), ["A", "B", "D", "E", "F"]);
  assert.deepEqual(found.map(({ octets }) => octets && [...octets]), [[2, 1, 1], undefined, undefined, undefined, [5, 0]]);
  assert.deepEqual(found.map(({ error }) => error?.slice(-14)), [
    undefined, "another label.", "64 is invalid.", "--END ..-----.", undefined,
  ]);
  assert.deepEqual(documentsOfText(reader, "-----BEGIN E", "x").map(({ label, error }) => [label, Boolean(error)]), [["", true]]);
});

// "05 00" and a block of PEM, with the marks of The Unicode Standard, 2.13
withModule("files in UTF-8 and UTF-16", () => {
  const texts = ["05 00\n", "-----BEGIN X-----\nBQA=\n-----END X-----\n"];
  for (const text of texts) {
    const little = Buffer.from(`\ufeff${text}`, "utf16le");
    const files = [Buffer.from(text), Buffer.from(`\ufeff${text}`), little, Buffer.from(little).swap16()];
    for (const file of files) {
      assert.deepEqual([...documentsOfFile(reader, "x", new Uint8Array(file))[0].octets], [5, 0], file.toString("hex"));
    }
  }
  assert.equal(reader.formOf(octetsOf("30 00 30 00")), FORMS.octets);
});

withModule("the form of an input", () => {
  const form = (text) => reader.formOf(new TextEncoder().encode(text));
  assert.deepEqual([form("0500"), form("BQA="), form("-----BEGIN X-----\nBQA=\n-----END X-----")], [FORMS.digits, 3, FORMS.pem]);
  assert.equal(form("a note, and no form!"), ERRORS.looksLike);
  assert.equal(reader.kindOf(octetsOf("50 4b 03 04 00 00")), "a zip file");
  assert.equal(reader.kindOf(octetsOf("05 00")), "");
});
