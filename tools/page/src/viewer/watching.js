// Watching: what `watch` says, as states. `account.js` uses it.

const CHECK = 64;                                              // so many lines of `watch` are read again at most
const WATCHED_DEED = /^(node\S* \S+) (takes|gives back|connects|disconnects|changes) (.*)$/;

const nothingKnown = () => ({ left: null, channels: new Map(), plugs: new Map() });
const copyOf = state => ({ left: state.left, channels: new Map(state.channels), plugs: new Map(state.plugs) });

/** One pass over `watch`: how many swaps it saw that `holders` did not, which channels occur, states to go on from. */
function readWatch(swaps) {
  const words = i => withoutCycle(lineAt(log.watched.places[i])), marks = [], now = nothingKnown(), occur = new Set();
  let missed = 0;
  for (let i = 0; i < log.watched.places.length; i++) {
    if (i % CHECK === 0) marks.push(copyOf(now));
    const { isSwap, taken } = learn(now, words(i));
    if (isSwap && !swaps.has(log.watched.entries[i])) missed++;
    for (const channel of taken) occur.add(channel);
  }
  const at = keepLatest(i => {
    const state = copyOf(marks[Math.floor(i / CHECK)]);
    for (let j = i - i % CHECK; j <= i; j++) learn(state, words(j));
    return { ...state, channels: [...state.channels.values()].sort((a, b) => a.channel - b.channel) };
  });
  return { missed, occur, state: i => i < 0 ? { ...nothingKnown(), channels: [] } : at(i) };
}

const LEARNT = { isSwap: false, taken: [] };                   // of a line that is no swap and takes no channel

/** What a line of `watch` says changes what is known. Answers whether it is a swap, and the channels that it takes. */
function learn(state, words) {
  const deed = WATCHED_DEED.exec(words);
  if (deed) return { isSwap: true, taken: learnDeed(state, deed[1], deed[2], deed[3]) };
  if (words.startsWith('bus reset')) Object.assign(state, nothingKnown(), { left: ALL_UNITS });
  else if (words.startsWith('? CHANNELS_AVAILABLE')) return { isSwap: false, taken: learnUnseen(state, words) };
  else if (words.startsWith('?')) {
    const units = /^\? BANDWIDTH_AVAILABLE of node \d+ is ([0-9a-f]{8})/.exec(words);
    if (units) state.left = parseInt(units[1], 16);
  }
  return LEARNT;
}

function learnDeed(state, who, verb, what) {
  const [, channel] = /^channel (\d+)/.exec(what) || [];
  if (channel && verb === 'takes') return hold(state, Number(channel), who, 'taken');
  if (channel) state.channels.delete(Number(channel));
  else if (verb === 'takes' || verb === 'gives back') {
    const left = /, (\d+) left$/.exec(what);
    if (left) state.left = Number(left[1]);
  } else return learnPlug(state, verb === 'connects', what);
  return [];
}

/** A plug that is connected, or no longer; what changes otherwise leaves who has its channel. */
function learnPlug(state, connects, what) {
  const found = /^([io])(PCR\[\d+\] of (node \d+)) (?:on|from) channel (\d+)/.exec(what);
  if (!found) return [];
  const [, way, plug, node, number] = found, channel = Number(number);
  if (connects) state.plugs.set(way + plug, channel); else state.plugs.delete(way + plug);
  if (way === 'i' || !(connects || state.channels.has(channel))) return [];
  return hold(state, channel, node, connects ? 'connected' : 'taken');
}

function learnUnseen(state, words) {
  const list = pattern => ((pattern.exec(words) || ['', ''])[1].match(/\d+/g) || []).map(Number);
  for (const channel of list(/channels given back((?: \d+)+)/)) state.channels.delete(channel);
  return list(/channels taken((?: \d+)+)/).flatMap(
    channel => hold(state, channel, 'nobody was seen to take it', 'unseen-taken'));
}

function hold(state, channel, who, how) {
  if (!isChannel(channel)) return [];
  state.channels.set(channel, { channel, who, units: 0, how });
  return [channel];
}
