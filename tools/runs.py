#!/usr/bin/env python3
"""Scripts that are drawn at random, each of a profile, and what `watch` and `audit` say of their logs.

    tools/runs.py PROGRAM [COUNT]

draws COUNT scripts (1,000), runs each, and tells those of which `watch` says that a word changed unseen, or has a finding but that a channel is
held, or of which `audit` does not find the log sound or leaves a lock without a judgement. The scripts depend on their numbers alone. The
status is 0 if there is none. tools/check.py makes the same check.
"""

import concurrent.futures
import os
import random
import subprocess
import sys

COUNT = 1000

# Frames for decks: PLAY, PAUSE, STOP, RECORD, the transport's state, and the notice of its change.
FRAMES = ("0020C375", "0020C37D", "0020C460", "0020C275", "0120D07F", "0320D07F")

# Registers that a script may read of each node, and those that are shown.
READ = ("000", "008", "018", "01C", "220", "224", "228", "400", "900", "904", "980", "984")


class Bus:
    """The devices of a script, and the lines so far."""

    def __init__(self, rng, most):
        self.rng, self.lines, self.names = rng, [], []
        for number in range(rng.randint(2, most)):
            name = f"d{number}"
            kind = rng.choice(("deck", "deck", "camcorder", "computer"))
            self.say(f"device {name} {kind} 3 {rng.choice((100, 200, 400))}")
            if number and rng.random() < 0.9:
                self.say(f"cable {self.any()}.{self.port()} {name}.0")
            self.names.append(name)
        self.say(f"wait {rng.choice((8000, 8000, 8000, 7999, 0))}")

    def say(self, line):
        self.lines.append(line)

    def any(self):
        return self.rng.choice(self.names)

    def port(self):
        return self.rng.randint(1, 2)

    def script(self):
        return "".join(f"{line}\n" for line in (*self.lines, "end")).encode()


def connect(bus):
    rng, name = bus.rng, bus.any()
    channel = rng.choice(("any", "any", "any", rng.randint(0, 63), 31))
    bus.say(rng.choice((
        f"connect {name} {bus.any()}.0 {bus.any()}.0 {channel} {rng.randint(0, 15)}",
        f"connect {name} {name}.0 {bus.any()}.0 any 8",
        f"broadcast {name} {name}.0 {rng.randint(0, 15)}",
        f"listen {name} {name}.0",
    )))


def go(bus):
    bus.say(bus.rng.choice((f"step {bus.any()} {bus.rng.randint(1, 14)}", f"settle {bus.rng.choice((1, 3, 20, 64))}", "settle 64")))


def pass_time(bus):
    bus.say(f"wait {bus.rng.choice((1, 100, 799, 800, 4000, 7999, 8000, 8001))}")


def reset(bus):
    bus.say(f"reset {bus.any()}")


def fail(bus):
    bus.say(bus.rng.choice((f"die {bus.any()}", f"die {bus.any()} late", f"start {bus.any()}", f"lose {bus.any()}")))


def stop(bus):
    bus.say(f"break {bus.any()} {bus.rng.choice((0, 0, 0, 1))}")


def stream(bus):
    bus.say(bus.rng.choice((
        f"cycles {bus.rng.randint(1, 40)}", f"command {bus.any()} {bus.any()} {bus.rng.choice(FRAMES)}", f"insert {bus.any()} 7 525", "wait 8000",
    )))


def registers(bus):
    rng, place = bus.rng, bus.rng.choice(READ)
    bus.say(rng.choice((
        f"read {bus.any()} {bus.any()} {place}", f"show {bus.any()} {place}", f"show manager {rng.choice(('220', '224', '228'))}",
        f"swap {bus.any()} {bus.any()} 21C 0000003F {rng.randint(0, 62):08X}", f"candidate {bus.any()}", f"contend {bus.any()} 3",
    )))


# What the lines of each profile do, by weight, and how many devices its bus has at most.
PROFILES = {
    "connections": (4, {connect: 4, go: 6, stop: 2, pass_time: 2}),
    "bus resets": (5, {connect: 4, go: 6, stop: 1, reset: 3, pass_time: 3}),
    "rivals": (8, {connect: 6, go: 8, stop: 2, reset: 1, pass_time: 1}),
    "failures": (5, {connect: 4, go: 6, fail: 3, reset: 1, pass_time: 3}),
    "streams": (4, {connect: 3, go: 5, stream: 6, stop: 1, reset: 1}),
    "registers": (5, {connect: 3, go: 5, registers: 6, reset: 1, pass_time: 1}),
}


def drawn(number):
    """The profile and the script of a number."""
    profile = list(PROFILES)[number % len(PROFILES)]
    most, weights = PROFILES[profile]
    rng = random.Random(number)
    bus = Bus(rng, most)
    if profile == "registers" and rng.random() < 0.2:
        bus.lines.insert(0, "withhold")
    for act in rng.choices(list(weights), list(weights.values()), k=rng.randint(4, 40)):
        act(bus)
    return profile, bus.script()


def call(program, word, data):
    ended = subprocess.run([program, word], input=data, capture_output=True, check=False)
    return ended.returncode, ended.stdout


def carried_out(program, script):
    """The log of a script: of a line that a rule refuses nothing is left, so that the lines after it are carried out."""
    lines = script.splitlines(keepends=True)
    while True:
        ended = subprocess.run([program, "run"], input=b"".join(lines), capture_output=True, check=False)
        if ended.returncode != 3:
            return ended.stdout
        del lines[int(ended.stderr.split(b":")[0].split()[1]) - 1]


def odd(told):
    """The lines of `watch` that no run has: a word that changed unseen, and a finding but that a channel is held."""
    return [line for line in told.splitlines() if b" ? " in line or (b" ! " in line and b" has held channel " not in line)]


def wrong_in(program, number):
    """What is wrong of the run of a number, if anything."""
    profile, script = drawn(number)
    log = carried_out(program, script)
    status, told = call(program, "watch", log)
    faults = odd(told)
    verdict = call(program, "audit", log)
    judged = verdict[0] == 0 and verdict[1].startswith(b"sound ") and b"," not in verdict[1]
    return "" if status == 0 and not faults and judged else f"run {number}, {profile}: {status} {faults[:2]} {verdict}"


def check_runs(program, count=COUNT):
    """What is wrong of so many runs."""
    with concurrent.futures.ThreadPoolExecutor(os.cpu_count()) as pool:
        return [it for it in pool.map(lambda number: wrong_in(program, number), range(count)) if it]


def main(words):
    wrong = check_runs(words[0], int(words[1]) if len(words) > 1 else COUNT)
    print("\n".join([*wrong, f"runs: {len(wrong)} wrong"]))
    return 1 if wrong else 0


if __name__ == "__main__":
    sys.exit(main(sys.argv[1:]))
