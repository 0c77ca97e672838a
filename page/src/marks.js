// Which octets are marked: those of an element, and where an error is.

/** Where the header, the content and the end-of-contents octets of an element begin, and where it ends. */
export function rangeOf(items, item) {
  const row = items.rowOf(item);
  const content = row.offset + row.header;
  return { begin: row.offset, content, contentEnd: items.contentEnd[item], end: items.end[item] };
}

/** The place of a document's error: by BER, where the reader stops, or by DER alone. */
export function placesOf(elements) {
  if (elements.outcome.isRefused) return { refused: elements.outcome.place };
  return elements.derOutcome?.isRefused ? { warned: elements.derOutcome.place } : {};
}

/** The marks of the octet at an offset of so many octets, as classes. An error may be behind the last octet. */
export function marksAt(offset, length, { selected, pointed, refused, warned }, cursor) {
  const names = [];
  if (offset === refused) names.push("refused");
  else if (offset === warned) names.push("warned");
  else if (offset >= length) return "";
  else if (offset > refused) names.push("unread");
  if (isWithin(selected, offset)) names.push(partAt(selected, offset));
  if (isWithin(pointed, offset)) names.push(`pointed-${partAt(pointed, offset)}`);
  if (offset === cursor) names.push("cursor");
  return names.join(" ");
}

function isWithin(range, offset) {
  return Boolean(range) && offset >= range.begin && offset < range.end;
}

/** The end-of-contents octets are no content (X.690 8.1.1.1), and are marked as the header is. */
function partAt({ content, contentEnd }, offset) {
  return offset >= content && offset < contentEnd ? "content" : "header";
}
