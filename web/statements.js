// Reads packets: from the hexadecimal digits of a record to its statement in words (docs/FORMATS.md, "Record").
"use strict";

const KINDS = { 1: "offer", 2: "order", 3: "deliver", 4: "attest", 5: "ask", 6: "wedge", 7: "report", 8: "frozen", 9: "open", 10: "inherit" };
const DIGEST = 32;
const TAG = 32;

// Walks over bytes; a read past the end throws.
class Fields {
  constructor(bytes) {
    this.bytes = bytes;
    this.view = new DataView(bytes.buffer, bytes.byteOffset, bytes.byteLength);
    this.at = 0;
  }
  u8() {
    return this.view.getUint8(this.at++);
  }
  u16() {
    this.at += 2;
    return this.view.getUint16(this.at - 2);
  }
  i64() {
    this.at += 8;
    return this.view.getBigInt64(this.at - 8);
  }
  skip(count) {
    this.at += count;
  }
}

function bytesOf(hex) {
  const digit = (code) => (code < 58 ? code - 48 : (code | 32) - 87);
  const bytes = new Uint8Array(hex.length >> 1);
  for (let at = 0; at < bytes.length; at++) {
    bytes[at] = (digit(hex.charCodeAt(2 * at)) << 4) | digit(hex.charCodeAt(2 * at + 1));
  }
  return bytes;
}

// The link of a content: sender and number, or none for an input.
function linkOf(fields) {
  const link = fields.u8() === 1 ? { p: fields.u8(), k: fields.u16() } : null;
  fields.skip(DIGEST);
  return link;
}

function payloadOf(fields) {
  const numbers = [];
  for (let left = fields.u16(); left > 0; left--) numbers.push(fields.i64());
  return numbers;
}

function makersOf(fields) {
  const makers = [];
  for (let left = fields.u8(); left > 0; left--) {
    const maker = { maker: fields.u8(), receivers: [] };
    for (let tags = fields.u8(); tags > 0; tags--) {
      maker.receivers.push(fields.u8());
      fields.skip(TAG);
    }
    makers.push(maker);
  }
  return makers;
}

function lengthsOf(fields) {
  const words = [];
  for (let left = fields.u8(); left > 0; left--) {
    const length = fields.u16();
    words.push(length === 0xffff ? "x" : String(length));
  }
  return words;
}

// The parts of a record that come after kind and epoch, as the schedule writes them.
function statementOf(kind, fields) {
  switch (kind) {
    case "attest": {
      const [p, h, k] = [fields.u8(), fields.u8(), fields.u16()];
      fields.skip(DIGEST);
      return { host: h, words: [p, h, k, ...payloadOf(fields)] };
    }
    case "ask":
    case "frozen": {
      const [h, slot] = [fields.u8(), fields.u16()];
      return { host: h, slot, words: [h, slot] };
    }
    case "wedge":
      return { words: [] };
    case "open":
      return { words: lengthsOf(fields) };
    default: {
      const [h, slot] = [fields.u8(), fields.u16()];
      const link = linkOf(fields);
      const numbers = payloadOf(fields);
      const content = link ? ["msg", link.p, link.k, ...numbers] : ["in", ...numbers];
      return { host: h, slot, content: content.join(" "), words: [h, slot, ...content] };
    }
  }
}

// What a packet says: { kind, epoch, host, slot, content, text, makers }; nothing where it is no record.
function readRecord(hex) {
  try {
    const fields = new Fields(bytesOf(hex));
    if (fields.u16() !== 0x4e59 || fields.u8() !== 2) return null;
    const kind = KINDS[fields.u8()];
    const epoch = fields.u16();
    if (!kind) return null;
    const said = statementOf(kind, fields);
    return { kind, epoch, ...said, text: [kind, epoch, ...said.words].join(" "), makers: makersOf(fields) };
  } catch (short) {
    return null;
  }
}
