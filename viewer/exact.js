// A JSON parser that loses no digit of a whole number: one beyond 2^53 becomes a BigInt, any other a number.

// Why a text isn't JSON, or isn't a trace.
export class Fault extends Error {}

// Matches lines that may lose a digit, or may have a number that isn't whole. All other lines go to JSON.parse.
const DELICATE = /\d{16}|\d[.eE]|-0/;
const NUMBER = /-?(?:0|[1-9]\d*)(?![\d.eE])/y;
const WORDS = { n: ["null", null], t: ["true", true], f: ["false", false] };
const MOST_NESTING = 127;

export function readJson(text) {
  if (!DELICATE.test(text)) {
    try {
      return JSON.parse(text);
    } catch {
      // parsed again below, to find where the fault is
    }
  }
  return new Reader(text).whole();
}

// Return whether an odd number of backslashes precedes the position.
function isEscaped(text, at) {
  let from = at;
  while (text[from - 1] === "\\") from--;
  return (at - from) % 2 === 1;
}
class Reader {
  constructor(text) {
    this.text = text;
    this.at = 0;
  }
  fail(what) {
    throw new Fault(`${what} at column ${this.at + 1}`);
  }
  skip() {
    while (" \t\r\n".includes(this.text[this.at] ?? "x")) this.at++;
  }
  next() {
    this.skip();
    return this.text[this.at] ?? this.fail("the line ends");
  }
  match(pattern, what) {
    pattern.lastIndex = this.at;
    const found = pattern.exec(this.text);
    if (!found) this.fail(what);
    this.at = pattern.lastIndex;
    return found[0];
  }
  whole() {
    const value = this.value(0);
    this.skip();
    if (this.at < this.text.length) this.fail("something follows the value");
    return value;
  }
  value(depth) {
    const c = this.next();
    if (c === "{") return this.object(depth + 1);
    if (c === "[") return this.array(depth + 1);
    if (c === '"') return this.string();
    if (WORDS[c]) return this.word(...WORDS[c]);
    if (c === "-" && /^-0(?!\d)/.test(this.text.slice(this.at, this.at + 3))) this.fail("no plain whole number");
    const found = this.match(NUMBER, /[-\d]/.test(c) ? "no plain whole number" : "no value");
    const number = Number(found);
    return Number.isSafeInteger(number) ? number : BigInt(found);
  }
  word(word, value) {
    if (!this.text.startsWith(word, this.at)) this.fail("no value");
    this.at += word.length;
    return value;
  }
  string() {
    const from = this.at, { text } = this;
    let end = text.indexOf('"', from + 1);
    while (end > 0 && isEscaped(text, end)) end = text.indexOf('"', end + 1);
    if (end < 0) this.fail("a text without an end");
    try {
      const found = JSON.parse(text.slice(from, end + 1));
      this.at = end + 1;
      return found;
    } catch {
      return this.fail("a text with a wrong escape");
    }
  }
  // Parse what is between brackets, item by item.
  items(depth, close, item) {
    if (depth > MOST_NESTING) this.fail("nested too deeply");
    this.at++;
    if (this.next() === close) return void this.at++;
    for (;;) {
      item();
      const c = this.next();
      if (c !== close && c !== ",") this.fail("no comma and no end");
      this.at++;
      if (c === close) return;
    }
  }
  array(depth) {
    const out = [];
    this.items(depth, "]", () => out.push(this.value(depth)));
    return out;
  }
  object(depth) {
    const out = Object.create(null);
    this.items(depth, "}", () => {
      if (this.next() !== '"') this.fail("no key");
      const key = this.string();
      if (this.next() !== ":") this.fail("no colon");
      this.at++;
      out[key] = this.value(depth);
    });
    return out;
  }
}
