// Prints fields of a certificate in DER (RFC 5280 4.1):  node certificate.mjs FILE
import { readFileSync } from "node:fs";
import { parseDer } from "../js/index.js";

const [certificate] = parseDer(readFileSync(process.argv[2]));
const [toBeSigned] = certificate.children;
const [first, ...others] = toBeSigned.children;
const [serial, signature, issuer, validity, subject] = first.type === "[0]" ? others : [first, ...others];
if (serial.type !== "INTEGER") throw new Error("the serial number is no INTEGER");

// Who made the certificate chose its texts: what isn't printable ASCII is printed by its number.
const shown = (text) => text.replace(/[^ -~]/gu, (it) => `\\u{${it.codePointAt(0).toString(16)}}`);
const nameOf = ({ children: sets }) =>
  sets.flatMap((set) => set.children).map(({ children: [type, value] }) => `${type.value}=${value.value}`).join(", ");

console.log(`serial: ${Buffer.from(serial.content).toString("hex")}`);
console.log(`signature: ${signature.children[0].value}`);
console.log(`issuer: ${shown(nameOf(issuer))}`);
console.log(`not before: ${validity.children[0].value}`);
console.log(`not after: ${validity.children[1].value}`);
console.log(`subject: ${shown(nameOf(subject))}`);
