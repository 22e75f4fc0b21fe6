// Scan: reads a line of `json` by place, without making an object: its keys come in a fixed order and without blanks,
// so each value stands where what is before it ends. `data.js` uses it.

const QUOTE = 34;
const LONGEST_NUMBER = 20, LONGEST_NAME = 40;

const scan = {
  text: '', at: 0, fine: true,

  begin(text, at) { this.text = text; this.at = at; this.fine = true; },

  has(piece) { return this.text.startsWith(piece, this.at); },

  /** Passes what stands before a value. Its last character alone is compared: to compare all takes too long. */
  pass(piece) {
    this.at += piece.length;
    if (this.text.charCodeAt(this.at - 1) !== piece.charCodeAt(piece.length - 1)) this.fine = false;
  },

  /** The number after a key. It is a text if it is beyond 2^53, and of a device `null` is none. */
  number(key, most) {
    this.pass(key);
    const { text } = this, quotes = Number(text.charCodeAt(this.at) === QUOTE), first = this.at + quotes;
    let value = 0, at = first;
    for (let c = text.charCodeAt(at); c >= 48 && c <= 57 && at - first < LONGEST_NUMBER; c = text.charCodeAt(++at)) {
      value = value * 10 + c - 48;
    }
    this.at = at + quotes;
    if (at > first && value <= most) return value;
    if (most === NONE && this.has('null')) return NONE;
    this.fine = false;
    return 0;
  },

  /** Passes the name of a number: a text, or `null`. */
  name(key) {
    this.pass(key);
    if (this.text.charCodeAt(this.at) !== QUOTE) { this.pass('null'); return; }
    const end = this.text.indexOf('"', this.at + 1);
    if (end < 0 || end - this.at > LONGEST_NAME) this.fine = false; else this.at = end + 1;
  },

  /** The number of hexadecimal digits after a key. */
  digits(key, count) {
    this.pass(key);
    const { text } = this, end = this.at + count;
    let value = 0, at = this.at;
    for (; at < end; at++) {
      const c = text.charCodeAt(at), digit = c < 58 ? c - 48 : c - 87;
      if (!(digit >= 0 && digit < 16)) this.fine = false;
      value = value * 16 + digit;
    }
    this.at = end;
    return value;
  },
};
