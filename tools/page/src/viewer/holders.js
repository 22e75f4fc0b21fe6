// Holders: what `holders` says, as states. `account.js` uses it.

const HELD_DEED = /^ *\d+ \S+ \S+ (takes|gives back|reclaims|connects|adds|leaves) /;

/** What `holders` says of the log as a whole: its last line, where it stops, and which locks it has not judged. */
function endOfHolders() {
  const judged = closingLine('judged'), ending = log.ends.get('holders'), note = ending ? ending.note : '';
  const [, notJudged = ''] = /, not judged (\d+ locks?) with labels other than 0/.exec(judged + note) || [];
  return { judged, stopped: note.replace(/, not judged .*/, ''), notJudged };
}

function closingLine(word) {
  const place = log.closing.find(at => log.text.startsWith(word, at + 1));
  return place === undefined ? '' : lineAt(place + 1);
}

/** The entries in which `holders` saw a swap, and the channels that it names. Other deeds name none that is new. */
function readHolders() {
  const swaps = new Set(), channels = new Set();
  log.held.places.forEach((place, i) => {
    const line = lineAt(place), [deed, verb] = HELD_DEED.exec(line) || ['', ''];
    if (deed) swaps.add(log.held.entries[i]);
    if (deed && verb !== 'takes' && verb !== 'reclaims') return;
    for (const [, channel] of line.slice(line.indexOf(' left: ')).matchAll(/ (\d+):/g)) channels.add(Number(channel));
  });
  return { swaps, channels };
}

/** The state after a line of `holders`: `.. 2403 left: 5:deck 1 2512 pending, 0:deck 2`. */
function heldState(line) {
  const [, left, list] = / (\d+) left(?:: (.*))?$/.exec(line) || ['', '0', ''];
  const channels = (list || '').split(', ').filter(Boolean).map(item => {
    const [, channel, who, units, how] = /^(\d+):(\S+ \d+)(?: (\d+))?(?: (\S+))?$/.exec(item)
      || [null, -1, item, 0, ''];
    return { channel: Number(channel), who, units: Number(units || 0), how: how || 'connected' };
  });
  return { left: Number(left), channels: channels.filter(held => isChannel(held.channel)) };
}

const isChannel = channel => channel >= 0 && channel < CHANNELS;
