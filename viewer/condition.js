// Conditions on the state, and expressions with a number, as they are written: what they are about, and what they ask.
import { Fault, readJson } from "./exact.js";
import { elementText, isNumber, itemKey, shortText } from "./terms.js";

const TOKEN = /\s*(?:("(?:[^"\\]|\\.)*")|(-?\d+)|([A-Za-z_][A-Za-z0-9_]*)|(<=|>=|!=|==|[<>=≤≥≠(),*{}[\]]))/y;
const SAME = { "==": "=", is: "=", "≤": "<=", "≥": ">=", "≠": "!=" };
const ORDERS = ["=", "!=", "<", "<=", ">", ">=", "has", "lacks", "changes"];
const NAMED = { undef: null, null: null, true: true, false: false };
const PARTS = ["size", "count"], TESTS = ["has", "lacks", "changes", ...PARTS];
export const TOTALS = ["sum", "min", "max", "count"];
export const KEYWORDS = ["and", "or", "not", "has", "lacks", "size", "count", "changes", "undef", "true", "false", "sum", "min", "max"];
export const ANY = Symbol("any");
const MOST_LETTERS = 1000, MOST_DEPTH = 40;
const EXAMPLES = "write it as stock(\"rice\") < 0, door = \"open\" and not open has 3, open size > 9, sum(account(*)) != 500 or stock(*) changes";

// Parse a condition, or a single operand. A condition is {or}, {and}, {not}, or {left, order, right}. An operand is {value},
// {pattern}, with `part` {size} or {count} of an element, or {total, pattern}. A pattern of null is the chosen location.
export function readCondition(text) {
  if (text.length > MOST_LETTERS) throw new Fault(`a condition has at most ${MOST_LETTERS} letters`);
  const reading = new Tokens(text), found = reading.any();
  if (reading.at < reading.list.length) reading.fail("the condition ends here");
  return found;
}
export const isOperand = it => !("order" in it || "or" in it || "and" in it || "not" in it);
// Return the comparisons of a condition.
export const comparisonsOf = it => it.or ?? it.and ? (it.or ?? it.and).flatMap(comparisonsOf) : it.not ? comparisonsOf(it.not) : "order" in it ? [it] : [];
export const operandsOf = it => isOperand(it) ? [it] : comparisonsOf(it).flatMap(({ left, right }) => right ? [left, right] : [left]);
export const isAny = operand => !operand.total && !!operand.pattern?.includes(ANY);

// The texts of a location's pattern and of an operand.
export const patternText = ([name, ...rest]) => rest.length ? `${name}(${rest.map(it => it === ANY ? "*" : elementText(it)).join(", ")})` : name;
export function operandText({ pattern, part, element, total }, here) {
  const place = pattern ? patternText(pattern) : here?.label ?? "";
  return total ? `${total}(${place})` : part ? `${place} ${part}${part === "count" ? ` ${elementText(element)}` : ""}` : place;
}

class Tokens {
  constructor(text) {
    this.list = [];
    TOKEN.lastIndex = 0;
    for (let at = 0; at < text.trimEnd().length; at = TOKEN.lastIndex) {
      const found = TOKEN.exec(text);
      if (!found) throw new Fault(`${shortText(text.slice(at).trim().slice(0, 12))} can't be read; ${EXAMPLES}`);
      const token = found[0].trim();
      this.list.push({ text: Object.hasOwn(SAME, token) ? SAME[token] : token, isText: !!found[1], isNumber: !!found[2], isWord: !!found[3] });
    }
    this.at = this.depth = 0;
  }
  get next() {
    return this.list[this.at]?.text ?? "";
  }
  after(by) {
    return this.list[this.at + by]?.text ?? "";
  }
  fail(what) {
    throw new Fault(`${what}${this.next ? ` and not ${this.next}` : ""}; ${EXAMPLES}`);
  }
  take(text) {
    if (this.next !== text) return false;
    this.at++;
    return true;
  }
  need(text) {
    if (!this.take(text)) this.fail(`${text} is missing,`);
  }
  within(read) {
    if (++this.depth > MOST_DEPTH) throw new Fault(`a condition is nested at most ${MOST_DEPTH} deep`);
    const found = read();
    this.depth--;
    return found;
  }
  // Parse what is between an opening token, which is already read, and `close`.
  items(close, item) {
    const out = [];
    if (this.take(close)) return out;
    do out.push(item());
    while (this.take(","));
    this.need(close);
    return out;
  }
  any() {
    return this.joinedBy("or", () => this.joinedBy("and", () => this.one()));
  }
  joinedBy(word, read) {
    const out = [read()];
    while (this.take(word)) out.push(read());
    if (out.length > 1 && out.some(isOperand)) throw new Fault(`${word} joins two conditions`);
    return out.length > 1 ? { [word]: out } : out[0];
  }
  one() {
    return this.within(() => {
      if (this.next === "not" && !this.isPlace()) {
        this.at++;
        const of = this.one();
        return isOperand(of) ? this.fail("a condition is missing behind not,") : { not: of };
      }
      if (!this.take("(")) return this.comparison();
      const found = this.any();
      this.need(")");
      return found;
    });
  }
  comparison() {
    const left = this.operand(true), order = ORDERS.includes(this.next) ? this.list[this.at++].text : null;
    if (!order) return left.pattern === null && !left.part ? this.fail("a location or a condition is missing") : left;
    if (order === "changes") return { left, order };
    const right = ["has", "lacks"].includes(order) ? { value: this.element() } : this.operand(false);
    if (!["has", "lacks", "=", "!="].includes(order) && "value" in right && !isNumber(right.value)) throw new Fault(`a number must follow ${order}; ${EXAMPLES}`);
    return isAny(right) ? this.fail("a * belongs on the left side only") : { left, order, right };
  }
  // Return whether a location begins here: a name that is no word of a condition, or one with arguments or followed by such a
  // word.
  isPlace() {
    const it = this.list[this.at], after = this.after(1);
    if (!it?.isWord || Object.hasOwn(NAMED, it.text) || this.isTotal()) return false;
    return !KEYWORDS.includes(it.text) || (!["and", "or", "not"].includes(it.text) && (after === "(" || TESTS.includes(after)));
  }
  isTotal() {
    const of = this.list[this.at + 2];
    return TOTALS.includes(this.next) && this.after(1) === "(" && !!of?.isWord && !Object.hasOwn(NAMED, of.text);
  }
  operand(isLeft) {
    if (this.isTotal()) return this.total();
    if (!this.isPlace() && !isLeft) return this.isValue() ? { value: this.value() } : this.fail("a value or a location is missing");
    if (!this.isPlace() && this.isValue()) return { value: this.value() };
    const pattern = this.isPlace() ? this.location() : null, part = PARTS.includes(this.next) ? this.list[this.at++].text : null;
    return part ? { pattern, part, ...part === "count" ? { element: this.element() } : {} } : { pattern };
  }
  total() {
    const total = this.list[this.at++].text;
    this.need("(");
    const pattern = this.isPlace() ? this.location() : this.fail("a location is missing");
    this.need(")");
    return { total, pattern };
  }
  location() {
    const name = this.list[this.at++].text;
    return [name, ...this.take("(") ? this.items(")", () => this.take("*") ? ANY : this.element()) : []];
  }
  isValue() {
    const it = this.list[this.at];
    return !!it && (it.isText || it.isNumber || Object.hasOwn(NAMED, it.text) || it.text === "[" || it.text === "{");
  }
  element() {
    if (this.take("[")) return { list: this.within(() => this.items("]", () => this.element())) };
    const it = this.list[this.at] ?? this.fail("a value is missing");
    if (!it.isText && !it.isNumber && !Object.hasOwn(NAMED, it.text)) this.fail("a value is missing here");
    this.at++;
    return Object.hasOwn(NAMED, it.text) ? NAMED[it.text] : readJson(it.text);
  }
  value() {
    if (!this.take("{")) return this.element();
    const items = new Map(this.items("}", () => this.element()).map(it => [itemKey(it), it]));
    return { set: [...items.values()] };
  }
}
