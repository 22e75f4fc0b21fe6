// Summary: the head of the page: what the log amounts to, and who vouches for the strip. Others call `drawTop` and
// `titleOf`.

function titleOf() {
  if (!log.count) return 'A log without entries';
  const nodes = busOf(lastResets()).nodes, own = nodes.map(node => names[node.device]).filter(Boolean);
  const count = kind => nodes.filter(node => node.kind === kind).length;
  const kinds = [3, 1, 2, 0].filter(count).map(kind => plural(count(kind), DEVICE_KINDS[kind])).join(', ');
  const who = own.length && own.length <= 5 && own.length === nodes.length ? own.join(', ') : kinds;
  return 'FireWire: ' + (who || 'packets before any bus reset')
    + (log.cycle[0] ? ', from cycle ' + commas(log.cycle[0]) : '') + ', ' + plural(lastResets(), 'bus reset');
}

function paragraph(into, ...parts) {
  const made = element('p');
  made.append(...parts);
  into.append(made);
  return made;
}

function drawTop(top) {
  top.append(element('h1', '', document.title));
  putEarlyEnd(top);
  putSums(top, rows.sums);
  const list = kind => counted(kind).join(', ') || 'none';
  paragraph(top, 'Outcomes: ' + list(OUTCOME) + '. Events: ' + list(EVENT) + '.');
  if (account.byHolders) putHolders(top); else putWatch(top);
  putTroubles(top);
}

function putEarlyEnd(top) {
  const end = log.ends.get('log');
  if (!end) paragraph(top, element('span', 'no', SIGNS.no + 'The page was not written to its end'));
  else if (end.status) paragraph(top, element('span', 'no', SIGNS.no + 'The log ends early: ' + end.note));
}

function putSums(top, sums) {
  const last = log.count ? log.cycle[log.count - 1] : 0;
  const bad = (count, words) => count ? element('span', 'no', words) : '';
  paragraph(top, element('b', '', plural(log.count, 'entry')),
    ', ' + plural(lastResets(), 'bus reset') + ', up to cycle ' + commas(last) + ', ' + seconds(last) + '. '
    + plural(sums.answered, 'request') + ' answered, ' + sums.between + ' of them with others between: '
    + plural(sums.reads, 'read') + ', ' + plural(sums.made, 'swap') + ' made and ' + sums.notMade + ' not, '
    + sums.refused + ' refused. ' + (sums.unanswered ? '' : 'All answered. '),
    bad(sums.unanswered, commas(sums.unanswered) + ' not answered. '),
    bad(sums.commands, plural(sums.commands, 'AV/C command') + ' without a response.'));
}

/** How often each code of a kind of entries occurs, by its name. */
function counted(kind) {
  const nameOf = e => (/"code_name":"([^"]*)"/.exec(lineAt(log.place[e])) || ['', '?'])[1];
  return [...rows.codes[kind]].sort(([a], [b]) => a - b).map(([, { count, e }]) => commas(count) + ' ' + nameOf(e));
}

function putHolders(top) {
  const held = log.closing.filter(place => log.text[place] === '@').map(place => lineAt(place + 1))
    .filter(words => !words.startsWith('judged'));
  if (account.judged) {
    paragraph(top, element('span', 'yes', '\u2713 holders followed the log to its end: '), account.judged);
  } else {
    const words = 'The strip at the right is what holders says; the log has no end, so it has not summed up.';
    paragraph(top, element('span', 'quiet', words));
  }
  if (!held.length) return;
  const bus = busOf(lastResets());
  paragraph(top, 'At the end: ',
    ...held.slice(0, CHANNELS + 1).map(words => element('span', '', named(words, bus)))).className = 'end';
}

function putWatch(top) {
  const why = whyNotHolders();
  const words = 'The strip at the right is what watch saw, and vouches for nothing that was not seen: ';
  paragraph(top, element('span', 'hm', words), why + '.');
  if (account.seen) paragraph(top, element('span', 'quiet', 'watch: '), account.seen);
  const state = account.state(account.entries.length - 1);
  paragraph(top, 'At the end, as far as it was seen: ' + heldText(state, busOf(lastResets())) + '.');
}

function whyNotHolders() {
  const { stopped, notJudged, watched } = account;
  const other = notJudged && 'holders looks at label 0 alone, and has not judged ' + notJudged
    + ' with labels other than 0';
  const stops = stopped && 'holders stops at ' + stopped + ', which on a capture need not be a fault of the bus';
  if (stops || other) return [stops, other].filter(Boolean).join('; ');
  if (watched.missed) {
    return 'holders looks at label 0 alone, and did not see ' + plural(watched.missed, 'swap') + ' that watch saw made';
  }
  return 'holders judged nothing: the log has no answer with label 0 of a register that it watches';
}

function putTroubles(top) {
  const counts = rows.troubles;
  if (!counts[RED] && !counts[AMBER]) { paragraph(top, 'No row has trouble.'); return; }
  const show = element('button', '', plural(counts[RED], 'row') + ' with trouble');
  show.dataset.trouble = '1';
  paragraph(top, show, ', ' + plural(counts[AMBER], 'row')
    + ' of swaps that were not made, of jobs that a bus reset ended, or of what changed unseen.');
}
