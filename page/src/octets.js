// Octets as texts that people copy, and back.

const HEX = Array.from({ length: 256 }, (_, octet) => octet.toString(16).padStart(2, "0"));

/** Two hexadecimal digits for each octet, with this text between them. */
export function hexOf(octets, between = "") {
  let text = "";
  for (let k = 0; k < octets.length; k++) text += (k > 0 ? between : "") + HEX[octets[k]];
  return text;
}

/** Hexadecimal digits in lines of 16 octets. */
export function hexLinesOf(octets) {
  const lines = [];
  for (let at = 0; at < octets.length; at += 16) lines.push(hexOf(octets.subarray(at, at + 16), " "));
  return lines.join("\n");
}

export function base64Of(octets) {
  let text = "";
  // Whole groups of three octets, so that the parts can be joined.
  for (let at = 0; at < octets.length; at += 24576) {
    text += btoa(String.fromCharCode(...octets.subarray(at, at + 24576)));
  }
  return text;
}

/** Base64 for links: with - and _, and nothing after it (RFC 4648 5). */
export function linkTextOf(octets) {
  return base64Of(octets).replace(/\+/g, "-").replace(/\//g, "_").replace(/=+$/, "");
}

/** A block of PEM (RFC 7468). */
export function pemOf(label, octets) {
  const lines = base64Of(octets).match(/.{1,64}/g) ?? [];
  return [`-----BEGIN ${label}-----`, ...lines, `-----END ${label}-----`, ""].join("\n");
}

/** The octets of base64 without white space, in either alphabet, or null. */
export function octetsOfBase64(text) {
  const plain = text.replace(/-/g, "+").replace(/_/g, "/").replace(/=+$/, "");
  if (plain.length % 4 === 1) return null;
  try {
    return Uint8Array.from(atob(plain), (character) => character.charCodeAt(0));
  } catch {
    return null;
  }
}

/** The octet as a character of ASCII that can be seen, or a point. */
export function characterOf(octet) {
  return octet >= 0x20 && octet < 0x7f ? String.fromCharCode(octet) : "·";
}

/** A number with commas, as 1,234. */
export function counted(number, noun) {
  return `${number.toLocaleString("en")} ${noun}${number === 1 ? "" : "s"}`;
}
