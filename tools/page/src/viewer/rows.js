// Rows: entries become rows in order; each entry is in just one (of a run: in its row of cycles).
// Others call `makeRows` once, then `rows` and what is said of a row here: `classOf`, `isPackets`, `momentOf`,
// `sectionAt`.

/** @typedef {{ from: number, to: number, node: number, tone: string, unanswered: boolean, shift: number }} Bar */

/** @type {ReturnType<typeof makeRows>} */
let rows;

/** What rows are made with. `first` and `last` are entries; of a line its place in the list of lines. */
function rowBuilder() {
  const build = {
    kind: [TOP], first: [0], last: [-1], trouble: [0], section: [0],
    why: /** @type {Map<number, string>} */ (new Map()),
    sections: [{ entry: -1, row: 0, met: new Set(), quiet: true }],
    rowOf: new Int32Array(log.count).fill(-1), partner: new Int32Array(log.count).fill(-1),
    bars: /** @type {Bar[]} */ ([]),
    runs: /** @type {any[]} */ ([]),                           // of a row of a run or a flow: what is in it
    sums: { answered: 0, between: 0, reads: 0, made: 0, notMade: 0, refused: 0, unanswered: 0, commands: 0 },
    codes: { [EVENT]: new Map(), [OUTCOME]: new Map() },       // of each code: how often it occurs, and its first entry

    add(kind, first, last = first) {
      build.section.push(build.sections.length - 1);
      build.kind.push(kind);
      build.first.push(first);
      build.last.push(last);
      return build.trouble.push(0) - 1;
    },

    mark(row, level, why = '') {
      build.trouble[row] = Math.max(build.trouble[row], level);
      if (why) build.why.set(row, build.why.has(row) ? build.why.get(row) + '; ' + why : why);
    },

    gapBefore(e) {
      if (e && log.cycle[e] - log.cycle[e - 1] > 1) build.add(GAP, e, e - 1);
    },

    /** The section of now; `met` are the nodes that take part in it. */
    now() { return build.sections[build.sections.length - 1]; },
  };
  return build;
}

function makeRows() {
  const build = rowBuilder(), pairs = pairing(build), streams = streaming(build);
  const stop = /^entry (\d+)/.exec((log.ends.get('holders') || { note: '' }).note);
  const stopEntry = stop ? Number(stop[1]) : -1;
  let line = 0;

  function linesBefore(e) {
    for (; line < log.between.places.length && log.between.entries[line] <= e; line++) {
      streams.endRun();
      const row = build.add(LINE, line);
      if (log.text[log.between.places[line]] !== '>') build.mark(row, RED);
    }
  }

  function packet(e) {
    if (log.code[e] in ANSWER_OF) pairs.request(e); else pairs.answer(e);
    build.now().met.add(log.from[e]).add(log.to[e]);
  }

  function happening(e) {
    const kind = log.kind[e], code = log.code[e], row = build.rowOf[e] = build.add(kind === END ? FINISH : HAPPENS, e);
    if (kind in build.codes) countCode(build.codes[kind], code, e);
    if (kind === EVENT && isBadEvent(code)) build.mark(row, RED);
    if (kind === OUTCOME && code > RESTORED) build.mark(row, code === ENDED_BY_RESET ? AMBER : RED);
    if (kind === ODD) build.mark(row, RED, 'not understood');
  }

  function busReset(e) {
    const row = build.kind.length;
    pairs.busReset(row);
    streams.busReset();
    build.sections.push({ entry: e, row, met: new Set(), quiet: true });
    build.rowOf[e] = build.add(SECTION, e);
  }

  function take(e) {
    const kind = log.kind[e];
    if (kind === STREAM || (kind === PACKET && log.code[e] === CYCLE_START)) {
      streams.take(e);
      build.now().met.add(kind === STREAM ? LOCAL_BUS + log.from[e] : log.from[e]);
      if (kind === STREAM) build.now().quiet = false;
      return;
    }
    streams.endRun();
    build.gapBefore(e);
    if (kind === RESET) busReset(e); else if (kind === PACKET) packet(e); else happening(e);
    if (kind !== RESET && !(kind === EVENT && log.code[e] === SECOND_OVER)) build.now().quiet = false;
  }

  for (let e = 0; e < log.count; e++) {
    linesBefore(e);
    if (log.kind[e] !== RESET) pairs.passTime(log.cycle[e]);
    take(e);
    if (e === stopEntry) {
      streams.endRun();
      build.mark(build.add(STOP, e), AMBER);
    }
  }
  streams.endRun();
  linesBefore(Infinity);
  const end = log.ends.get('log'), whole = end && end.status === 0;
  if (!whole) build.mark(build.add(FINISH, log.count, log.count - 1), RED);
  pairs.end(build.kind.length - 1);
  log.watched.places.forEach((place, i) => {
    const remark = remarkAt(place), row = build.rowOf[log.watched.entries[i]];
    if (remark && row >= 0) build.mark(row, remark === '!' ? RED : AMBER);
  });
  build.sections.push({ entry: log.count, row: build.kind.length, met: new Set(), quiet: true });
  const troubles = [0, 0, 0];                                  // how many rows have none, amber, red
  for (const level of build.trouble) troubles[level]++;
  return { ...build, count: build.kind.length, troubles, starts: build.sections.map(section => section.entry) };
}

function countCode(counts, code, e) {
  if (!counts.has(code)) counts.set(code, { count: 0, e });
  counts.get(code).count++;
}

const isBadEvent = code => code === DIED || code === UNSETTLED || code === LOST;

/** `?` or `!` of a line of `watch`, else nothing. */
function remarkAt(place) {
  const found = log.text[log.text.indexOf(' ', place) + 1];
  return found === '?' || found === '!' ? found : '';
}

const isPackets = row => rows.kind[row] >= EXCHANGE && rows.kind[row] <= ANSWER;
const isRun = row => rows.kind[row] === RUN || rows.kind[row] === FLOW;
/** A flow that shares its entries with others: they are in the row of its run. */
const isPartOfRun = row => rows.kind[row] === FLOW && !rows.runs[row].cycles;
/** Whether a row is one of entries, not of what is between them. */
const hasEntry = row => ![TOP, GAP, LINE].includes(rows.kind[row]) && rows.first[row] < log.count;
const lastResets = () => rows.sections.length - 2;

/** The request of a row of packets, -1 if none stands; of other rows their first entry. */
function requestOf(row) {
  return rows.kind[row] === ANSWER ? rows.partner[rows.first[row]] : rows.first[row];
}

/** Which kind of rows a filter names. */
function classOf(row) {
  if (isPackets(row)) return toneOf(requestOf(row) >= 0 ? requestOf(row) : rows.first[row]);
  if (isRun(row)) return 'stream';
  switch (rows.kind[row]) {
    case HAPPENS: return log.kind[rows.first[row]] === SHOWN ? 'shown' : 'event';
    case GAP: return 'gap';
    case LINE: return 'script';
    default: return '';
  }
}

/** The last entry up to which all has happened when a row is over. */
function momentOf(row) {
  if (rows.kind[row] === LINE) return log.between.entries[rows.first[row]] - 1;
  const last = rows.kind[row] === GAP ? rows.first[row] - 1 : Math.max(rows.first[row], rows.last[row]);
  return Math.min(log.count - 1, last);
}

function cycleOf(row) {
  const e = rows.kind[row] === LINE ? log.between.entries[rows.first[row]] : rows.first[row];
  return log.count ? log.cycle[clamp(e, 0, log.count - 1)] : 0;
}

const sectionAt = entry => clamp(lastUpTo(rows.starts, entry), 0, lastResets());
