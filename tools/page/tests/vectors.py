"""Tests of all vectors: each entry can be reached, and what is counted is what the words say."""

import re

from tests.browser import Browser, lines_of, page_of, text_of, vectors

REACHED = """const lost = [];
for (let e = 0; e < log.count; e++) {
  goToEntry(e);
  if (e % 7 === 0) showPanel();
  const row = rows.rowOf[e], box = document.getElementById('row' + row);
  if (row < 0 || view.selected !== row || !box || !(rows.first[row] <= e && e <= rows.last[row])
    || !box.getAttribute('aria-label')) { lost.push(e); continue; }
  const at = box.getBoundingClientRect(), sight = $('view').getBoundingClientRect();
  if (at.bottom < sight.top + 1 || at.top > sight.bottom - 1) lost.push(e);
}
return lost"""

# Of a vector: whether the strip is by `holders`, and words of the head of the page.
VOUCHING = {
    "competing_decks": (True, "holders followed the log to its end: judged 39 reads"),
    "cut_in_a_swap": (True, "it has not summed up"),
    "nosy_leak": (False, "has not judged 1 lock with labels other than 0"),
    "nosy_lost_packets": (False, "has not judged 10 locks with labels other than 0"),
    "nosy_play": (False, "need not be a fault of the bus; holders looks at label 0 alone, and has not judged 5 locks with"),
    "trace_perf": (False, "vouches for nothing that was not seen: holders looks at label 0 alone, and has not judged 12 locks"),
    "a_leak_beside_a_read_with_label_0": (False, "has not judged 1 lock with labels other than 0"),
    "a_response_too_many": (False, "holders stops at entry 174: Orphan"),
    "a_wrong_word": (False, "holders stops at entry 14"),
}


# Entries of which the viewer, which reads by place, has other numbers than a reader of JSON.
OTHER_NUMBERS = """const hex = text => parseInt(text, 16);
return [...Array(log.count).keys()].filter(e => {
  const it = objectOf(e), { kind } = it, same = [[log.cycle[e], Number(it.cycle)], [log.kind[e], kind]];
  if (kind === PACKET) same.push([log.code[e], it.tcode], [log.label[e], it.tlabel], [log.rcode[e], it.rcode || 0],
    [log.from[e], hex(it.src_id)], [log.to[e], hex(it.dst_id)]);
  if (kind === PACKET && log.offset[e] !== NONE) same.push([log.offset[e], hex(it.offset.slice(9))]);
  if (kind === STREAM) same.push([log.code[e], it.channel], [log.from[e], it.sid], [log.dbc[e], it.dbc],
    [log.block[e], Number(it.data_length > 8)]);
  if (kind === EVENT || kind === OUTCOME) same.push([log.code[e], it.code], [log.from[e], it.device ?? NONE]);
  if (kind === SHOWN) same.push([log.from[e], it.device]);
  return same.some(([a, b]) => a !== b);
})"""


class Vectors(Browser):
    def test_each_vector(self):
        """Each entry is reached and explained, without a message; numbers and counts are those of the words."""
        ended = 0
        for name in vectors():
            with self.subTest(name):
                self.open(name)
                self.assertEqual(self.js("return log.count"), len(lines_of(name, "{")))
                self.assertEqual(self.js(OTHER_NUMBERS), [])
                self.has_counts_of_the_words(name)
                ended += self.ends_as_holders(name)
                self.assertEqual(self.js(REACHED), [])
                self.assertEqual(self.js("return [...Array(log.count).keys()].filter(e => !explained(e))"), [])
                self.quiet(name)
        self.assertGreater(ended, 10)

    def has_counts_of_the_words(self, name):
        told, sums = lines_of(name, "="), self.js("return rows.sums")
        self.assertEqual(sums["made"], sum(", swap made" in line for line in told))
        self.assertEqual(sums["notMade"], sum(", no swap" in line for line in told))
        orphans = self.js("return [...rows.why.values()].filter(why => why.includes('no request stands')).length")
        self.assertEqual(orphans, sum(line.endswith("no request stands") for line in told))
        self.assertEqual(self.js("return rows.sections.length - 2"), sum(" bus reset epoch " in line for line in told))
        remarks = [line.split(" ", 1)[1][0] for line in lines_of(name, "~") if line[0].isdigit()]
        self.assertEqual(self.js("return log.watched.places.filter(remarkAt).length"), sum(mark in "?!" for mark in remarks))

    def ends_as_holders(self, name):
        """The strip ends as the table of `holders` has it, if that has one and vouches."""
        told = lines_of(name, "@")
        left = [found.group(1) for found in (re.match(r"left (\d+)", line) for line in told) if found]
        if not left or not self.js("return account.byHolders"):
            return False
        state = self.js("return stateAt(log.count - 1)")
        self.assertEqual(state["left"], int(left[0]))
        table = [line.split(":")[0] for line in told if line.startswith("channel ")]
        self.assertEqual([f"channel {held['channel']} {held['how']}" for held in state["channels"]], table)
        named = {int(channel) for line in told for channel in re.findall(r" (\d+):", line.split(" left: ")[-1])}
        self.assertLessEqual(named, set(self.js("return account.lanes")))
        return True

    def test_who_vouches(self):
        for name, (by_holders, words) in VOUCHING.items():
            self.open(name)
            self.assertEqual(self.js("return account.byHolders"), by_holders, name)
            self.assertIn(words, self.top(), name)
            if not by_holders:
                self.assertNotIn("\u2713", self.top(), name)

    def test_no_mark_where_a_lock_was_not_judged(self):
        """Also where watch saw no swap that holders did not: a lock with another label, before which another swap was made."""
        text = text_of("competing_decks").replace(" 6 bus resets\n", " 6 bus resets, not judged 1 lock with labels other than 0: see watch\n")
        self.show(page_of(text.replace(" of 4915 units\n", " of 4915 units by label 0 alone\n")))
        self.assertFalse(self.js("return account.byHolders"))
        self.assertIn("has not judged 1 lock with labels other than 0", self.top())
        self.assertNotIn("\u2713", self.top())

    def test_watch_at_its_end(self):
        self.open("trace_perf")
        state = self.js("return stateAt(log.count - 1)")
        held = [(it["channel"], it["how"]) for it in state["channels"]]
        self.assertEqual((state["left"], held), (2659, [(1, "unseen-taken")]))
        self.open("nosy_leak")
        state = self.js("return stateAt(log.count - 1)")
        self.assertEqual([(it["channel"], it["who"], it["how"]) for it in state["channels"]], [(0, "node 0", "taken")])
