// Transactions: which request a response answers, and which are never answered; AV/C commands and their responses.
// `rows.js` makes one and tells it each packet. Decided as by `explain`: nodes the other way round, label, kind; 256
// are kept;
// a bus reset drops all. A request that is not answered at once gets a bar that waits.

const toBroadcast = e => log.to[e] === BROADCAST;

/** The colour of a packet, which is its class for a filter, too. */
function toneOf(e) {
  if (READS.includes(log.code[e])) return 'read';
  if (log.code[e] === LOCK || log.code[e] === LOCK_ANSWER) return log.offset[e] === BUS_MANAGER_ID ? 'bid' : 'swap';
  return 'write';
}

/** What came of a response: `no` a refusal, `yes` a swap made, `hm` a swap not made, else nothing. */
function resultOf(answer) {
  if (log.rcode[answer]) return 'no';
  if (log.code[answer] !== LOCK_ANSWER) return '';
  const words = explained(answer);
  return words.includes(', swap made') ? 'yes' : words.includes(', no swap') ? 'hm' : '';
}

const isCommand = e => / FCP_COMMAND AV\/C (CONTROL|STATUS|NOTIFY|SPECIFIC INQUIRY|GENERAL INQUIRY)/.test(explained(e));
const pairOf = (from, to, label) => (from * 65536 + to) * 64 + label;

/** @param {ReturnType<typeof rowBuilder>} build */
function pairing(build) {
  const open = new Map(), barOf = new Map(), { rowOf, partner, bars, sums } = build;
  let commands = [];                                           // AV/C commands without a response

  function waits(request) {
    if (barOf.has(request) || toBroadcast(request)) return;
    barOf.set(request, bars.length);
    bars.push({
      from: rowOf[request], to: Infinity, node: log.from[request] - LOCAL_BUS, tone: toneOf(request), unanswered: false,
      shift: (bars.length % 3 - 1) * 2,                        // so that some beside each other are seen
    });
  }

  function waitsUntil(request, row, unanswered) {
    const bar = bars[barOf.get(request)];
    if (bar) Object.assign(bar, { to: row, unanswered });
    barOf.delete(request);
  }

  function endUnanswered(request, level, why, row) {
    waitsUntil(request, row, true);
    if (toBroadcast(request)) return;
    sums.unanswered++;
    build.mark(rowOf[request], level, why);
  }

  function commandsWithoutResponse(those, why) {
    for (const command of those) {
      sums.commands++;
      build.mark(rowOf[command], RED, why);
    }
    commands = commands.slice(those.length);
  }

  function noteFrame(e) {
    if (log.offset[e] === FCP_COMMAND && !toBroadcast(e) && isCommand(e)) commands.push(e);
    if (log.offset[e] !== FCP_RESPONSE) return;
    const answers = commands.findIndex(command => log.from[command] === log.to[e] && log.to[command] === log.from[e]);
    if (answers >= 0) commands.splice(answers, 1);
  }

  /** Joins an answer to its request: in one row if nothing is between. */
  function rowOfAnswer(e, request, row) {
    const atOnce = request >= 0 && build.kind[row] === REQUEST && build.first[row] === request
      && log.cycle[request] === log.cycle[e];
    if (atOnce) {
      build.kind[row] = EXCHANGE;
      build.last[row] = e;
      return row;
    }
    if (request >= 0) sums.between++;
    return build.add(ANSWER, e);
  }

  return {
    request(e) {
      const key = pairOf(log.from[e], log.to[e], log.label[e]), older = open.get(key),
        row = rowOf[e] = build.add(REQUEST, e);
      if (older !== undefined) {
        open.delete(key);
        endUnanswered(older, RED, 'no answer before it is asked again', row);
      }
      open.set(key, e);
      if (open.size > OPEN_REQUESTS) {
        const [oldestKey, oldest] = open.entries().next().value;
        open.delete(oldestKey);
        endUnanswered(oldest, RED, '256 later requests stand', row);
      }
      noteFrame(e);
    },

    answer(e) {
      const key = pairOf(log.to[e], log.from[e], log.label[e]), stands = open.get(key);
      const fits = stands !== undefined && ANSWER_OF[log.code[stands]] === log.code[e], request = fits ? stands : -1;
      const row = rowOf[e] = rowOfAnswer(e, request, build.kind.length - 1);
      if (request < 0) { build.mark(row, RED, 'no request stands'); return; }
      open.delete(key);
      partner[e] = request;
      partner[request] = e;
      if (rowOf[request] !== row) {
        waits(request);
        waitsUntil(request, row, false);
      }
      sums.answered++;
      const result = resultOf(e);
      if (result === 'no') { sums.refused++; build.mark(row, RED); }
      else if (result === 'hm') { sums.notMade++; build.mark(row, AMBER); }
      else if (result === 'yes') sums.made++;
      else if (log.code[request] === READ || log.code[request] === READ_BLOCK) sums.reads++;
    },

    /** An entry of this cycle comes: commands that have waited too long are marked. */
    passTime(cycle) {
      if (!commands.length) return;
      const due = commands.findIndex(command => cycle - log.cycle[command] <= AVC_TIME);
      const late = due < 0 ? commands : commands.slice(0, due);
      commandsWithoutResponse(late, 'no AV/C response within ' + AVC_TIME + ' cycles');
    },

    busReset(row) {
      commandsWithoutResponse(commands, 'no AV/C response before the bus reset');
      for (const request of open.values()) {
        waits(request);
        endUnanswered(request, RED, 'no answer before the bus reset', row);
      }
      open.clear();
    },

    end(row) {
      for (const request of open.values()) {
        waits(request);
        const bar = bars[barOf.get(request)];
        if (bar) bar.to = row;
        if (toBroadcast(request)) continue;
        sums.unanswered++;
        build.mark(rowOf[request], AMBER, 'no answer before the log ends');
      }
    },
  };
}
