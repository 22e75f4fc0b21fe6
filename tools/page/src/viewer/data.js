// Data: the text of the element `log` becomes entries. A line's first character says what it is: `{` an entry as `json`
// has it, `=` the same by `explain`, `@` what `holders` says of it, `~` what `watch` says of it, `>` a line of the
// script, before what it caused, `:` how something ended. Others call `readLog`, then `lineAt`, `explained`,
// `objectOf`, `linesOf`.
//
// The text may be damaged: what is not understood becomes an odd entry or an odd line, with harmless numbers.

/** @type {ReturnType<typeof readLog>} */
let log;

const told = () => ({ places: /** @type {number[]} */ ([]), entries: /** @type {number[]} */ ([]) });

/** @param {string} text */
function readLog(text) {
  let count = text.startsWith('{') ? 1 : 0;
  for (let at = text.indexOf('\n{'); at >= 0; at = text.indexOf('\n{', at + 2)) count++;
  const read = {
    text, count,
    place: new Float64Array(count), explained: new Float64Array(count),
    cycle: new Float64Array(count), kind: new Uint8Array(count),
    code: new Uint8Array(count),                               // tcode, event, outcome; of a stream its channel
    from: new Uint16Array(count),                              // node ID; of a stream the SID; of the others the device
    to: new Uint16Array(count),
    label: new Uint8Array(count), rcode: new Uint8Array(count), offset: new Uint16Array(count),
    dbc: new Uint8Array(count), block: new Uint8Array(count),  // of a stream: DBC, and whether it has a block
    held: told(), watched: told(), between: told(),            // lines of holders, of watch, of the script and odd ones
    closing: /** @type {number[]} */ ([]),
    ends: /** @type {Map<string, { status: number, note: string }>} */ (new Map()),
  };
  let entry = -1;
  for (let at = 0, next = 0; at < text.length; at = next + 1) {
    next = text.indexOf('\n', at);
    const isWhole = next >= 0;
    if (!isWhole) next = text.length;
    if (next === at) continue;
    switch (text[at]) {
      case '{': readEntry(read, ++entry, at); break;
      case '=': if (entry >= 0) read.explained[entry] = at + 1; break;
      case '@': keepLine(read, read.held, entry, at + 1); break;
      case '~': keepLine(read, read.watched, entry, at + 1); break;
      case ':': if (isWhole) keepEnding(read, text.slice(at + 1, Math.min(next, at + LONGEST_LINE))); break;
      default: read.between.places.push(at); read.between.entries.push(entry + 1);
    }
  }
  return read;
}

/** A line of an account begins with its cycle; the others close it. */
function keepLine(read, list, entry, at) {
  if (!/[ \d]/.test(read.text[at])) { read.closing.push(at - 1); return; }
  list.places.push(at);
  list.entries.push(entry);
}

function keepEnding(read, line) {
  const [, word, status, note] = /^(\w+) (\d+) ?(.*)$/.exec(line) || [null, '', '', ''];
  if (word) read.ends.set(word, { status: Number(status), note });
}

const REGISTERS = '","offset":"fffff0000';                    // those of the first 4,096 bytes
const KIND_NAMES = ['', 'reset', 'async', 'iso', 'event', 'outcome', 'shown', 'end']
  .map(name => ',"kind_name":"' + name + '"');

function readEntry(read, e, place) {
  read.place[e] = place;
  read.offset[e] = NONE;
  scan.begin(read.text, place);
  const cycle = scan.number('{"cycle":', 2 ** 64);
  read.cycle[e] = scan.fine ? cycle : e ? read.cycle[e - 1] : 0;
  const kind = scan.number(',"kind":', END);
  scan.pass(KIND_NAMES[kind]);
  if (kind === PACKET) readPacket(read, e);
  else if (kind === STREAM) readStream(read, e);
  else if (kind === EVENT || kind === OUTCOME) {
    read.code[e] = scan.number(',"code":', 255);
    scan.name(',"code_name":');
    read.from[e] = scan.number(',"device":', NONE);
  } else if (kind === SHOWN) read.from[e] = scan.number(',"device":', NONE);
  read.kind[e] = scan.fine ? kind : ODD;
  if (read.kind[e] === ODD) read.from[e] = NONE;
}

function readPacket(read, e) {
  const tcode = read.code[e] = scan.number(',"tcode":', 15);
  scan.name(',"tcode_name":');
  read.to[e] = scan.digits(',"dst_id":"', 4);
  read.label[e] = scan.number('","tlabel":', 63);
  scan.number(',"retry":', 3);
  scan.name(',"retry_name":');
  scan.number(',"priority":', 15);
  read.from[e] = scan.digits(',"src_id":"', 4);
  if (tcode in ANSWER_OF || tcode === CYCLE_START) {
    if (tcode !== CYCLE_START && scan.has(REGISTERS)) read.offset[e] = scan.digits(REGISTERS, 3);
  } else read.rcode[e] = scan.number('","rcode":', 15);
}

function readStream(read, e) {
  read.block[e] = Number(scan.number(',"data_length":', 0xFFFF) > 8);
  scan.number(',"tag":', 3);
  read.code[e] = scan.number(',"channel":', CHANNELS - 1);
  scan.number(',"tcode":', 15);
  scan.name(',"tcode_name":');
  scan.number(',"sy":', 15);
  read.from[e] = scan.number(',"sid":', MOST_NODES);
  for (const key of [',"dbs":', ',"fn":', ',"qpc":', ',"sph":']) scan.number(key, 255);
  read.dbc[e] = scan.number(',"dbc":', 255);
}

/** The text from a place to the end of its line. */
function lineAt(place) {
  const end = log.text.indexOf('\n', place);
  return log.text.slice(place, Math.min(end < 0 ? log.text.length : end, place + LONGEST_LINE));
}

/** The line of an entry by `explain`; its own line if it is odd; nothing if the page was cut between. */
function explained(e) {
  return log.explained[e] ? lineAt(log.explained[e]) : log.kind[e] === ODD ? lineAt(log.place[e]) : '';
}

/** The object of an entry; an empty one if its line is none. */
function objectOf(e) {
  try {
    return Object(JSON.parse(lineAt(log.place[e])));
  } catch (fault) {
    return {};
  }
}

/** The lines that an account has of some entries. */
function linesOf(list, first, last) {
  const lines = [];
  for (let i = lastUpTo(list.entries, first - 1) + 1; i < list.places.length && list.entries[i] <= last; i++) {
    lines.push(lineAt(list.places[i]));
  }
  return lines;
}

/** A line of `holders` or `watch` without its cycle. */
const withoutCycle = line => line.replace(/^ *\d+ */, '');
