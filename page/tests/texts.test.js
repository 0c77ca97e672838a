import assert from "node:assert/strict";
import test from "node:test";
import { Items } from "../src/items.js";
import { decimalOf, detailsOf, labelOf, nameOf, outcomeOf, partsOf, textOfMore, timeInWords } from "../src/texts.js";
import { INDEFINITE, elementsOf } from "./elements.js";

const documentOf = (elements, others = {}) => ({ name: "a.der", label: "", octets: elements.octets, elements, ...others });
const itemsOf = (given) => new Items([documentOf(elementsOf(given))]);
const primitive = (number, length, others = {}) => ({ offset: 0, header: 2, length, depth: 0, number, ...others });

test("the outcome is DER, BER, neither, or an error, by what the module returns", () => {
  const faultOf = (rules) => `at 0: the error by ${["BER", "DER"][rules]}`;
  const derOutcome = { isRefused: true, place: 3 };
  const of = (others) => outcomeOf([documentOf(elementsOf({ ...INDEFINITE, faultOf, derOutcome, ...others }))], 0);
  assert.deepEqual(of({ isDer: true }), { kind: "der", text: "This is DER: 4 elements in 14 octets." });
  const text = "This is BER, not DER: at 0: the error by DER. It has 4 elements in 14 octets.";
  assert.deepEqual(of({}), { kind: "ber", text, place: 3 });
  assert.equal(of({ isBer: false }).text.slice(0, 29), "This is neither DER nor BER: ");
  const outcome = { isRefused: true, place: 12, depth: 0 };
  const error = "Error at 0: the error by BER. The elements before it are shown.";
  assert.deepEqual(of({ isBer: false, outcome }), { kind: "refused", text: error, place: 12 });
  const named = of({ isDer: true, fields: { type: "Certificate", names: [] } });
  assert.equal(named.text, "This is DER: 4 elements in 14 octets, of the type Certificate.");
});

test("the outcome of one of several documents has its name", () => {
  const elements = elementsOf({ ...INDEFINITE, isDer: true });
  const documents = [{ name: "note.txt", label: "", error: "This isn't PEM." }, documentOf(elements, { label: "X" })];
  assert.deepEqual(outcomeOf(documents, 0), { kind: "refused", text: "note.txt (1 of 2): This isn't PEM." });
  assert.equal(outcomeOf(documents, 1).text, "a.der: X (2 of 2): This is DER: 4 elements in 14 octets.");
  assert.deepEqual(outcomeOf(documents.slice(0, 1), 0), { kind: "refused", text: "This isn't PEM." });
  assert.deepEqual([nameOf({ name: "a", label: "" }), nameOf({ name: "a", label: "B" })], ["a", "a: B"]);
});

test("a row has its offset, its sizes and what they are", () => {
  const sizes = (row) => {
    const parts = partsOf(itemsOf({ hex: "", rows: [row] }), 0);
    return [parts.place, parts.sizes, parts.sizesInWords];
  };
  assert.deepEqual(sizes(primitive(16, 886, { header: 4 })), [0, "4+886", "header of 4 octets, content of 886 octets"]);
  const indefinite = "header of 2 octets, content of indefinite length";
  assert.deepEqual(sizes(primitive(16, null, { offset: 9 })), [9, "2+∞", indefinite]);
  assert.deepEqual(sizes(primitive(4, 1, { header: 1 }))[2], "header of 1 octet, content of 1 octet");
});

test("a row is marked as its element is", () => {
  const partsIn = (row, texts) => partsOf(itemsOf({ hex: "", rows: [row], texts }), 0);
  const mark = (row) => partsIn(row).mark;
  assert.equal(mark(primitive(4, 3, { holds: "DER" })), "holds DER");
  assert.equal(mark(primitive(4, 3, { holds: "BER" })), "holds BER");
  assert.equal(mark(primitive(16, 0)), "empty");
  assert.equal(mark(primitive(4, 0)), "");
  assert.equal(partsOf(itemsOf(INDEFINITE), 0).mark, "", "elements are in it");
  const kinds = [primitive(2, 1), primitive(16, 0), primitive(0, 0, { tagClass: 2 }), primitive(16, 0, { tagClass: 1 })];
  assert.deepEqual(kinds.map((row) => partsIn(row).kind), ["primitive", "constructed", "tagged", "tagged"]);
  const texts = { remark: ["broken"], value: [" 5 "], name: ["INTEGER"], field: ["version"] };
  const { remark, value, type, field } = partsIn(primitive(2, 1), texts);
  assert.deepEqual([remark, value, type, field], ["", "5", "INTEGER", "version"]);
  assert.equal(partsIn(primitive(2, 1, { isMarked: true }), texts).remark, "broken");
  const identifiers = [primitive(6, 1), primitive(6, 1, { tagClass: 2 }), primitive(13, 1)];
  assert.deepEqual(identifiers.map((row) => partsIn(row).isIdentifier), [true, false, false]);
});

test("a row of an error or a document, and what a screen reader says", () => {
  const outcome = { isRefused: true, place: 12, depth: 0 };
  const items = itemsOf({ ...INDEFINITE, outcome, causeOf: (rules) => `why by ${rules}` });
  assert.deepEqual(partsOf(items, 4), { kind: "refusal", place: 12, type: "Error", value: "why by 0" });
  const others = new Items([{ name: "x", label: "A", error: "why" }, documentOf(elementsOf(INDEFINITE))]);
  assert.deepEqual(partsOf(others, 0), { kind: "refusal", type: "x: A", value: "why" });
  assert.deepEqual(partsOf(others, 1), { kind: "heading", type: "a.der", value: "14 octets" });
  const parts = { field: "version", type: "INTEGER", mark: "", value: "5", remark: "odd", place: 0 };
  assert.equal(labelOf(parts), "version, INTEGER, 5, odd, at 0");
  assert.equal(labelOf({ type: "x: A", value: "why" }), "x: A, why");
});

test("the details of an element", () => {
  const texts = { name: ["SEQUENCE"], path: ["SEQUENCE[0]"], field: ["tbs"] };
  assert.deepEqual(detailsOf(itemsOf({ ...INDEFINITE, texts }), 0, false), [
    ["Type", "SEQUENCE (universal 16, constructed)"], ["Field", "tbs"], ["Path", "SEQUENCE[0]", "path"],
    ["Octets", "0 to 13: header of 2 octets, content of indefinite length"], ["Header", "30 80", "digits"],
  ]);
  const row = primitive(4, 2, { tagClass: 2, holds: "BER", isMarked: true });
  const held = { hex: "84 02 05 00", rows: [row], texts: { name: ["[4]"], path: ["[4]"], remark: ["odd"], value: ["x"] } };
  assert.deepEqual(detailsOf(itemsOf(held), 0, false), [
    ["Type", "[4] (context-specific 4, primitive)"], ["Path", "[4]", "path"],
    ["Octets", "0 to 3: header of 2 octets, content of 2 octets"], ["Header", "84 02", "digits"], ["Value", "x", "value"],
    ["Content", "BER, shown inside"], ["Remark", "odd", "fault"],
  ]);
  const cut = itemsOf({ hex: "30", rows: [primitive(16, 0, { header: 1 })] });
  assert.equal(detailsOf(cut, 0, false)[2][1], "0 to 0: header of 1 octet, content of 0 octets");
});

test("the details of a document and of an error", () => {
  const outcome = { isRefused: true, place: 12, depth: 0 };
  const of = (path) => detailsOf(itemsOf({ ...INDEFINITE, outcome, causeOf: () => "why", refusedPathOf: () => path }), 4, false);
  assert.deepEqual(of(""), [["Error", "why", "fault"], ["Offset", "12"]]);
  assert.deepEqual(of("SEQUENCE[0]")[2], ["Path", "SEQUENCE[0]", "path"]);
  const items = new Items([{ name: "x", label: "", error: "why" }, documentOf(elementsOf(INDEFINITE), { label: "A" })]);
  assert.deepEqual(detailsOf(items, 0, false), [["Input", "x"], ["Error", "why", "fault"]]);
  assert.deepEqual(detailsOf(items, 1, false), [["Input", "a.der"], ["Label", "A"], ["Size", "14 octets"]]);
});

/** The details of an INTEGER, whose value the module prints so, and whole if it is asked to. */
function numberLines(content, whole, isFull, number = 2, value = whole) {
  const row = { ...primitive(number, content.length / 2), header: 4 };
  const items = itemsOf({ hex: `02820000${content}`, rows: [row], texts: { value: [value], wholeValue: [whole] } });
  return detailsOf(items, 0, isFull).slice(5);
}

test("a number in hexadecimal and in decimal", () => {
  assert.deepEqual(numberLines("05", "5", false), [["Hex", "05 (1 octet)", "digits"]]);
  for (const number of [2, 10]) {
    const lines = numberLines("0100000000000000000000000000000000", "0x0100000000000000000000000000000000", false, number);
    // python3 -c 'print(2**128)'
    assert.deepEqual(lines[0], ["Decimal", "340282366920938463463374607431768211456", "digits"]);
  }
  assert.deepEqual(numberLines("0100", "0x0100", false, 2, "0x01...")[0], ["Decimal", "256", "digits"]);
  assert.deepEqual(numberLines("05", "5", false, 1), [], "a BOOLEAN");
  assert.equal(numberLines("7f".repeat(32), "5", false)[0][1], `${"7f".repeat(32)} (32 octets)`);
  assert.equal(numberLines("7f".repeat(33), "5", false)[0][1], `${"7f".repeat(20)}... (33 octets)`);
  assert.equal(numberLines("7f".repeat(33), "5", true)[0][1], `${"7f".repeat(33)} (33 octets)`);
  const longest = "7f".repeat(4096);
  assert.equal(numberLines(longest, `0x${longest}`, false)[0][0], "Decimal");
  const long = "7f".repeat(4097);
  assert.deepEqual(numberLines(long, `0x${long}`, false).map(([name]) => name), ["Hex"]);
  assert.deepEqual(numberLines(long, `0x${long}`, true).map(([name]) => name), ["Decimal", "Hex"]);
});

// int.from_bytes(bytes.fromhex(DIGITS), "big", signed=True) in Python
test("the decimal digits of a number in two's complement", () => {
  assert.equal(decimalOf("0x80000000000000000000000000000000 (negative, in two's complement)"), "-170141183460469231731687303715884105728");
  assert.equal(decimalOf("0xff (negative, in two's complement)"), "-1");
  assert.equal(decimalOf("0x0ff"), "255");
  for (const value of ["5", "", "0x", "0x12... (512 octets)"]) assert.equal(decimalOf(value), null, value);
});

test("a button shows all of a value that is cut", () => {
  const of = (value, wholeValue) => itemsOf({ ...INDEFINITE, texts: { value: ["", value], wholeValue: ["", wholeValue] } });
  assert.equal(textOfMore(of("0x81...", "0x8100"), 1, false), "Show all 1 octet");
  assert.equal(textOfMore(of("0x81...", "0x8100"), 1, true), "");
  assert.equal(textOfMore(of("5", "5"), 1, false), "");
  const row = primitive(4, 2000);
  const long = itemsOf({ hex: "", rows: [row], texts: { value: ["a"], wholeValue: ["b"] } });
  assert.equal(textOfMore(long, 0, false), "Show all 2,000 octets");
});

// date -u -d VALUE writes these days of the week.
test("a time in words, and how far it is from now", () => {
  const words = (value, now) => timeInWords(value, Date.parse(now)).replace(/^(\w+),? /, "$1 ");
  const before = "Tuesday 24 November 2026 at 23:15:41 UTC";
  assert.equal(words("2026-11-24 23:15:41 UTC", "2026-11-24T23:15:41Z"), `${before}, now`);
  assert.equal(words("2026-11-24 23:15:41 UTC", "2026-11-24T23:14:41Z"), `${before}, in 1 minute`);
  assert.equal(words("2026-11-24 23:15:41 UTC", "2026-11-24T23:14:42Z"), `${before}, now`);
  assert.equal(words("2026-11-24 23:15:41 UTC", "2026-11-25T23:15:41Z"), `${before}, yesterday`);
  assert.equal(words("2026-11-24 23:15:41 UTC", "2026-11-22T22:15:41Z"), `${before}, in 2 days`);
  assert.equal(words("2026-11-24 23:15:41 UTC", "2026-11-24T20:15:41Z"), `${before}, in 3 hours`);
  assert.equal(words("2026-11-24 23:15:41 UTC", "2029-12-01T00:00:00Z"), `${before}, 3 years ago`);
  assert.equal(words("2026-11-24 23:15:41 UTC", "2027-01-24T23:15:41Z"), `${before}, 2 months ago`);
  assert.equal(words("2026-11-24 23:15:41 UTC", "2027-01-13T23:15:41Z"), `${before}, last month`, "50 days");
  const east = "Wednesday 1 January 2020 at 00:00:00 +02:00";
  assert.equal(words("2020-01-01 00:00:00.5 +02:00", "2019-12-31T22:00:00Z"), `${east}, now`);
  assert.equal(words("2020-01-01 00:00:00 -00:30", "2020-01-01T00:30:00Z").slice(-3), "now");
  assert.equal(words("2020-01-01 00:00:00 local time", "2020-01-01T00:00:00Z"), "Wednesday 1 January 2020 at 00:00:00 local time");
  assert.match(words("0099-12-31 00:00:00 UTC", "2020-01-01T00:00:00Z"), / 31 December 99 at /);
  assert.match(words("2016-12-31 23:59:60 UTC", "2020-01-01T00:00:00Z"), /^Sunday 1 January 2017 at 00:00:00 UTC/);
});

test("a day that no calendar has, and what is no time", () => {
  assert.equal(timeInWords("2023-02-29 00:00:00 UTC", 0), "no day of the calendar");
  assert.equal(timeInWords("2024-04-31 00:00:00 UTC", 0), "no day of the calendar");
  assert.equal(timeInWords("2024-13-05 00:00:00 UTC", 0), "no day of the calendar");
  assert.notEqual(timeInWords("2024-02-29 00:00:00 UTC", 0), "no day of the calendar");
  for (const value of ["", "2024-02-29", "2024-02-29 00:00 UTC", '"text"']) assert.equal(timeInWords(value, 0), null);
});

test("a time among the details", () => {
  const of = (number, tagClass, value) => {
    const texts = { value: [`${value.slice(0, 4)}...`], wholeValue: [value] };
    const items = itemsOf({ hex: "", rows: [primitive(number, 1, { tagClass })], texts });
    return detailsOf(items, 0, false).filter(([name]) => name === "In words").length;
  };
  const time = "2020-01-01 00:00:00 UTC";
  assert.deepEqual([of(23, 0, time), of(24, 0, time), of(24, 2, time), of(12, 0, time), of(23, 0, "12")], [1, 1, 0, 0, 0]);
});
