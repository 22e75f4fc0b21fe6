// Account: who holds which channel and how many units, after each entry: by `holders` if it can vouch for all that
// `watch` saw, else by `watch`. Others call `makeAccount` once, then `stateAt`, `plugsAt`, `heldText`.

/** @typedef {{ channel: number, who: string, units: number, how: string }} Held */
/** @typedef {{ left: number | null, channels: Held[], plugs?: Map<string, number> }} State */

/** @type {ReturnType<typeof makeAccount>} */
let account;

function makeAccount() {
  const end = endOfHolders(), { swaps, channels } = readHolders(), watched = readWatch(swaps);
  const judgedSome = end.judged ? !end.judged.startsWith('judged nothing') : swaps.size > 0;
  const byHolders = Boolean(!end.stopped && !end.notJudged && !watched.missed && judgedSome);
  const states = keepLatest(i => heldState(lineAt(log.held.places[i])));
  for (const channel of watched.occur) channels.add(channel);
  for (const run of rows.runs) if (run && run.channel !== undefined) channels.add(run.channel);
  return {
    ...end, byHolders, watched, seen: closingLine('resets '),
    lanes: [...channels].filter(isChannel).sort((a, b) => a - b),  // channels that occur
    entries: byHolders ? log.held.entries : log.watched.entries,
    /** @type {(line: number) => State} */
    state: byHolders ? i => i < 0 ? { left: ALL_UNITS, channels: [] } : states(i) : watched.state,
  };
}

function keepLatest(make) {
  const kept = new Map();
  return key => {
    if (kept.size > 2000) kept.clear();
    if (!kept.has(key)) kept.set(key, make(key));
    return kept.get(key);
  };
}

/** @returns {State} what is held when an entry is over */
const stateAt = entry => account.state(lastUpTo(account.entries, entry));

/** Which plugs are connected, and on which channel, as `watch` saw it: `oPCR[0] of node 1`. */
const plugsAt = entry => account.watched.state(lastUpTo(log.watched.entries, entry)).plugs;
const isOutput = plug => plug[0] === 'o';
const nodeOfPlug = plug => Number(/\d+$/.exec(plug)[0]);

const howText = how => how === 'unseen-taken' ? 'taken unseen' : how;

function heldText(state, bus) {
  const list = state.channels.map(held => 'channel ' + held.channel + ' ' + named(held.who, bus)
    + (held.units ? ' ' + plural(held.units, 'unit') : '') + ' ' + howText(held.how));
  const units = state.left === null ? '' : '; ' + state.left + ' of ' + ALL_UNITS + ' units left';
  return (list.join(', ') || 'no channel') + units;
}

/** What a row changes, in words: `5 deck 1`, `0 free`, `2659 left`. */
function changesOf(row, bus) {
  const was = stateAt(rows.first[row] - 1), now = stateAt(rows.last[row]);
  if (was === now) return [];
  const find = (state, channel) => state.channels.find(held => held.channel === channel);
  const same = (a, b) => a && b ? a.who === b.who && a.how === b.how : a === b;
  const text = held => named(held.who, bus)
    + (['connected', 'taken'].includes(held.how) ? '' : ' ' + howText(held.how));
  const parts = [];
  for (const channel of account.lanes) {
    const before = find(was, channel), after = find(now, channel);
    if (!same(before, after)) parts.push(channel + ' ' + (after ? text(after) : 'free'));
  }
  return !parts.length && was.left !== now.left ? [now.left + ' left'] : parts;
}
