import assert from "node:assert/strict";
import test from "node:test";
import { documentsOfFile, documentsOfText, FormError, textOfMarked, withAllLines, withoutEscapes } from "../src/forms.js";
import { ERRORS, FORMS } from "../src/module.js";
import { octetsOf } from "./elements.js";

const BASE64_FORM = 3;
const NULL = octetsOf("05 00");

/** A reader that finds this form, and what it was asked. */
function readerOf(form, others = {}) {
  const asked = [];
  const noted = (name, answer) => (octets, ...words) => {
    asked.push([name, new TextDecoder().decode(octets), ...words]);
    return answer;
  };
  const block = { label: "X", octets: NULL };
  const answers = { formOf: form, kindOf: "", blocksOf: [block], decode: { octets: NULL }, ...others };
  return { asked, ...Object.fromEntries(Object.entries(answers).map(([name, answer]) => [name, noted(name, answer)])) };
}

const sentenceOf = (run) => {
  try {
    run();
  } catch (fault) {
    assert.ok(fault instanceof FormError, String(fault));
    return fault.message;
  }
  return null;
};

// "05 00 é".encode(ENCODING) in Python, with the marks of The Unicode Standard, 2.13
const ENCODED = {
  "utf-8": "ef bb bf 30 35 20 30 30 20 c3 a9",
  "utf-16-le": "ff fe 30 00 35 00 20 00 30 00 30 00 20 00 e9 00",
  "utf-16-be": "fe ff 00 30 00 35 00 20 00 30 00 30 00 20 00 e9",
};

test("a text with the mark of its encoding", () => {
  for (const [encoding, hex] of Object.entries(ENCODED)) {
    assert.equal(textOfMarked(octetsOf(hex)), "05 00 é", encoding);
    const reader = readerOf(FORMS.digits);
    documentsOfFile(reader, "a file", octetsOf(hex));
    assert.deepEqual(reader.asked[0], ["formOf", "05 00 é"], encoding);
  }
  assert.equal(textOfMarked(octetsOf("ff fe")), "");
});

test("without a mark a text is UTF-8, and UTF-16 is octets", () => {
  const plain = octetsOf(ENCODED["utf-8"].slice(9));
  assert.equal(textOfMarked(plain), null);
  const reader = readerOf(FORMS.digits);
  documentsOfFile(reader, "a file", plain);
  assert.deepEqual(reader.asked, [["formOf", "05 00 é"], ["formOf", "05 00 é"], ["decode", "05 00 é", true]]);
  for (const hex of ["30 00 30 00", "00 30 00 30", "ff", "fe", "ff ff", "fe fe", "ef bb", ""]) {
    assert.equal(textOfMarked(octetsOf(hex)), null, hex);
  }
});

test("a file is octets, PEM, digits or base64", () => {
  const file = octetsOf("30 35");
  const whole = [{ name: "a file", label: "", octets: file }];
  assert.deepEqual(documentsOfFile(readerOf(FORMS.octets), "a file", file), whole);
  const pem = readerOf(FORMS.pem);
  assert.deepEqual(documentsOfFile(pem, "a file", octetsOf("e9")), [{ name: "a file", label: "X", octets: NULL }]);
  assert.equal(pem.asked.at(-1)[0], "blocksOf");
  for (const [form, isDigits] of [[FORMS.digits, true], [BASE64_FORM, false]]) {
    const reader = readerOf(form);
    assert.deepEqual(documentsOfFile(reader, "a file", file), [{ name: "a file", label: "", octets: NULL }]);
    assert.deepEqual(reader.asked.at(-1), ["decode", "05", isDigits]);
  }
});

test("an input of another kind", () => {
  const of = (kindOf) => readerOf(ERRORS.looksLike, { kindOf });
  assert.equal(sentenceOf(() => documentsOfFile(of("a zip file"), "x", NULL)), "x looks like a zip file.");
  const unknown = "This isn't PEM, hexadecimal digits or base64.";
  assert.equal(sentenceOf(() => documentsOfFile(of("a text file"), "x", NULL)), unknown);
  assert.equal(sentenceOf(() => documentsOfText(readerOf(FORMS.octets), "x")), unknown);
  assert.deepEqual(documentsOfText(readerOf(FORMS.octets), " \r\n"), []);
});

test("each error has a sentence, and a broken block has its label", () => {
  const part = {
    digits: "odd", base64: "base64 is invalid", noBlock: "no line -----BEGIN", noEnd: "no line -----END",
    labelsDiffer: "another label", encrypted: "encrypted", outOfMemory: "memory", looksLike: "isn't PEM",
  };
  assert.deepEqual(Object.keys(part).sort(), Object.keys(ERRORS).sort());
  for (const [name, fault] of Object.entries(ERRORS)) {
    const digits = readerOf(FORMS.digits, { decode: { fault } });
    assert.match(sentenceOf(() => documentsOfText(digits, "5")), new RegExp(part[name]), name);
    const blocks = readerOf(FORMS.pem, { blocksOf: [{ label: "A", fault }, { label: "B", octets: NULL }] });
    const [broken, good] = documentsOfText(blocks, "-", "x");
    assert.match(broken.error, new RegExp(part[name]), name);
    assert.deepEqual([broken.name, broken.label, "octets" in broken], ["x", "A", false]);
    assert.deepEqual(good, { name: "x", label: "B", octets: NULL });
  }
});

test("a text of an address", () => {
  assert.equal(withoutEscapes("a%20b%0A"), "a b\n");
  for (const text of ["a %20b", "%", "%zz", "%ff", "100%"]) assert.equal(withoutEscapes(text), text);
  assert.equal(withoutEscapes(" %41\n"), " A\n");
});

/** A line of od for each line of 16 octets, with offsets of these widths. */
const dumpOf = (first, later, last, end) => [
  `${first} 04 82 00 60 00 00 00 00 00 00 00 00 00 00 00 00`,
  `${later} 00 00 00 00 00 00 00 00 00 00 00 00 00 00 00 00`, "*", `${last} 00 00 00 00 05 00`, end, "",
].join("\n");
const octetsIn = (dump) => dump.trim().split("\n").slice(0, -1).map((line) => line.replace(/^\w+ /, ""));

// od -A x, od and od -A d write these lines of 04 82 00 60, 96 octets 00, and 05 00; with -v they write seven lines.
test("a dump has the lines that it leaves out", () => {
  const zeros = "00 00 00 00 00 00 00 00 00 00 00 00 00 00 00 00";
  const whole = ["04 82 00 60 00 00 00 00 00 00 00 00 00 00 00 00", ...Array(5).fill(zeros), "00 00 00 00 05 00"];
  const dumps = [
    ["000000", "000010", "000060", "000066"], ["0000000", "0000020", "0000140", "0000146"],
    ["0000000", "0000016", "0000096", "0000102"],
  ];
  for (const words of dumps) assert.deepEqual(octetsIn(withAllLines(dumpOf(...words))), whole, words[1]);
  const long = octetsIn(withAllLines(dumpOf("000000", "000010", "100000", "100006")));
  assert.deepEqual([long.length, long.at(-2), long.at(-1)], [0x100000 / 16 + 1, zeros, "00 00 00 00 05 00"]);
  const crlf = dumpOf(...dumps[0]).replaceAll("\n", "\r\n");
  assert.deepEqual(octetsIn(withAllLines(crlf)), whole);
  const spaced = dumpOf("000000", "000010", "000060", "000066 ").replace("*\n", " \n* \n");
  assert.deepEqual(octetsIn(withAllLines(spaced)), whole);
  const reader = readerOf(FORMS.digits);
  documentsOfFile(reader, "a file", new TextEncoder().encode(crlf));
  assert.deepEqual(octetsIn(reader.asked.at(-1)[1]), whole, "in a file");
});

test("a dump whose offsets don't fit stays as it is", () => {
  const wrong = [
    dumpOf("000000", "000010", "000061", "000066"), dumpOf("000000", "000011", "000060", "000066"),
    dumpOf("000000", "000010", "fffffff0", "fffffff6"), dumpOf("000000", "000010", "000060", "000066").replace("*", "**"),
    "*", "0a\n*\n0b 05", dumpOf("000010", "000020", "000070", "000076"),
    dumpOf("000000", "000010", "1000010", "1000016"),
    dumpOf("000000", "000010", "000060", "000080 05").replace("00 05 00", `00 05${" 00".repeat(11)}`),
  ];
  for (const text of wrong) assert.equal(withAllLines(text), text);
});
