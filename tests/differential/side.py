#!/usr/bin/env python3
"""What stands beside the lists of the compared domain. The exported pick is held against `next_task`, and `ms_to_ticks`, as sleep
shows it in the tables, against the published one. Milliseconds from ticks, which the Rust has not (W-204), are the largest number whose
ticks, by the published `ms_to_ticks`, are at most those. Each line of differences.txt is seen: what the Rust does there, and that
`tables` refuses with that number and changes nothing or, for W-201 and W-205, does what the line says.

  side.py REFERENCE TABLES PICK LIST
    REFERENCE   the program of tests/differential/build
    TABLES      the program `tables`
    PICK        src/pick_lines.c linked to libpick.a
    LIST        where to write the list of sleeps, for `reference against`"""
import os
import random
import subprocess
import sys

SLOTS, READY, EMPTY, MOST = 16, 0, 6, 2**32 - 1
RATES = [1, 2, 3, 7, 99, 100, 999, 1000, 1001, 1024, 32768, 10**6, 2**31, MOST]
RNG = random.Random(1)


def fail(why):
    sys.exit(f"side: {why}")


def said(*words, given):
    done = subprocess.run(words, input=given, capture_output=True, text=True)
    if done.returncode != 0:
        fail(f"{' '.join(words)}: status {done.returncode}: {done.stderr}")
    return done.stdout.splitlines()


def any_table():
    states = RNG.choice([[0], [0, 1, 2, 3, 4, 5, 6], [0, 6, 6, 6, 6], [1, 2, 3, 4, 5, 6]])
    width, last = 1 << RNG.randrange(9), RNG.choice([0, 255])
    priorities = [abs(last - RNG.randrange(width)) for _ in range(SLOTS)]
    return [RNG.choice(states) for _ in range(SLOTS)], priorities, RNG.randrange(SLOTS)


def pair(one, other, current):
    """Two slots Ready, or one, alike."""
    return [READY if at in (one, other) else RNG.randrange(1, EMPTY + 1) for at in range(SLOTS)], [7] * SLOTS, current


def picks(reference, program):
    every = range(SLOTS)
    tables = [pair(one, other, current) for one in every for other in every for current in every]
    tables += [any_table() for _ in range(20000)]
    given = "".join(bytes([*states, *priorities, current]).hex() + "\n" for states, priorities, current in tables)
    rust, code = said(reference, "pick", given=given), said(program, given=given)
    if not len(rust) == len(code) == len(tables):
        fail("pick: an answer for each table is wanted")
    met = dict.fromkeys(["none Ready", "one Ready", "several alike", "a better one later", "the order wraps", "current again",
                         "slot 0, Ready", "at 255"], 0)
    for (states, priorities, current), slot, got in zip(tables, rust, code):
        if slot != got:
            fail(f"pick: {states} {priorities} {current}: the Rust picks {slot}, the code {got}")
        slot = int(slot, 16)
        ready = [at for at in every if states[at] == READY]
        met["none Ready"] += not ready
        met["one Ready"] += len(ready) == 1
        met["several alike"] += sum(priorities[at] == priorities[slot] for at in ready) > 1
        met["a better one later"] += ready != [] and priorities[min(ready, key=lambda at: (at - current - 1) % SLOTS)] > priorities[slot]
        met["the order wraps"] += ready != [] and slot < current
        met["current again"] += ready != [] and slot == current
        met["slot 0, Ready"] += slot == 0 and states[0] == READY
        met["at 255"] += ready != [] and priorities[slot] == 255
    if 0 in met.values():
        fail(f"pick: not every case is met: {met}")
    print(f"pick: {len(tables)} tables, and the exported pick is next_task's: " + ", ".join(f"{n} {name}" for name, n in met.items()))


def ticks(reference, program, path):
    some = lambda: RNG.randrange(1, 1 << RNG.randrange(1, 33))
    lines, pairs = [], []
    for hz in RATES + [some() for _ in range(186)]:
        edges = [n * 1000 // hz + more for n in (1, 2, 3, 1000, hz) for more in (-1, 0, 1)]
        times = [0, 1, 2, 999, 1000, 1001, 2**31, MOST - 1, MOST, *(some() for _ in range(20)), *edges]
        times = [ms for ms in times if 0 <= ms <= MOST]
        lines += [f"1f00{hz:08x}", "020000000000"] + [f"0800{ms:08x}" for ms in times]
        pairs += [(hz, ms) for ms in times]
    given = "".join(line + "\n" for line in lines)
    with open(path, "w") as file:
        file.write(given)
    # The wake_tick of slot 0, asleep from tick 0 on.
    shown = [table.split(",", 5)[4] for line, table in zip(lines, said(program, given=given)[1::2]) if line.startswith("08")]
    rust = said(reference, "ticks", given="".join(f"{hz} {ms}\n" for hz, ms in pairs))
    if not len(rust) == len(shown) == len(pairs):
        fail("ticks: a table for each sleep is wanted")
    for (hz, ms), want, got in zip(pairs, rust, shown):
        if want != got:
            fail(f"ticks: {ms} ms at {hz} hz: the Rust has {want}, the code {got}")
    rest = sum(ms * hz % 1000 != 0 for hz, ms in pairs)
    print(f"ms_to_ticks: {len(pairs)} times at {len(set(hz for hz, _ in pairs))} rates are the Rust's, {rest} of them rounded up")


def milliseconds(reference, program):
    some = lambda most: RNG.randrange(1, 1 << RNG.randrange(1, most + 1))
    lines, asked = [], []
    for hz in RATES + [some(32) for _ in range(86)]:
        # Where a millisecond is full, where 23 begins, where 1000 times the ticks passes 2^64; few ticks, and any.
        edges = [-(-ms * hz // 1000) + more for ms in (1, 2, 999, 1000, 1001, MOST - 1, MOST, some(32), some(32)) for more in (-1, 0)]
        some_ticks = [0, 1, 2, (hz << 32) // 1000, 2**64 // 1000, *edges, *(some(64) for _ in range(10))]
        lines.append(f"1f00{hz:08x}")
        asked.append(None)
        for t in some_ticks:
            # These, or the nearest on both sides that are y * 2^k.
            k = max(0, t.bit_length() - 32)
            for y in (t >> k, min((t >> k) + 1, MOST)):
                lines.append(f"18{k:02x}{y:08x}")
                asked.append((hz, y << k))
    given = "".join(line + "\n" for line in lines)
    answers = [(int(text[:2], 16), int(text[2:10], 16)) for text in said(program, given=given)[::2]]
    if len(answers) != len(asked):
        fail("milliseconds: an answer for each line is wanted")
    shown = [(*one, *answer) for one, answer in zip(asked, answers) if one]
    # What the Rust makes of the answer and of one millisecond more. 2^32 milliseconds it cannot be asked for.
    rust = said(reference, "ticks", given="".join(f"{hz} {more}\n" for hz, _, number, ms in shown
                                                  for more in ((MOST, MOST) if number else (ms, min(ms + 1, MOST)))))
    refused = last = 0
    for at, (hz, t, number, ms) in enumerate(shown):
        least, above = int(rust[2 * at]), int(rust[2 * at + 1])
        if number == 0 and ms < MOST:
            fine = least <= t < above
        else:
            fine = number in (0, 23) and least <= t and (number == 23) == (1000 * t // hz > MOST)
            refused, last = refused + (number == 23), last + (number == 0)
        if not fine:
            fail(f"milliseconds: {t} ticks at {hz} hz: number {number}, {ms} ms, which are {least} ticks in the Rust, and one more {above}")
    print(f"milliseconds: {len(shown)} asked at {len(set(hz for hz, *_ in shown))} rates: {len(shown) - refused - last} are the most whose "
          f"ms_to_ticks in the Rust is at most the ticks; that {last} are 2^32 - 1 and {refused} are 23 is by the quotient")


def differences(reference, program):
    with open(os.path.join(os.path.dirname(os.path.abspath(__file__)), "differences.txt")) as file:
        rows = [line.rstrip("\n").split(" | ") for line in file if not line.startswith("#")]
    refused, ruled = 0, {"W-201": 0, "W-205": 0}
    last = lambda printed: [printed[-2], printed[-1].partition(" | ")[0]]
    for number, words, answer, *slots in rows:
        lines, other = words.split(), slots[1:]
        given = "".join(line.replace("_", " ") + "\n" for line in lines)
        got = said(reference, "raw", given=given)
        got = got[-1:] if answer.startswith("panic: ") else last(got)
        if not got[0].startswith(answer) or got[1:] != slots[:1]:
            fail(f"differences: {words}: the Rust prints {got}")
        if number in ruled:
            got = last(said(program, given=given))
            if got != other or got[1] == slots[0]:
                fail(f"differences: {words}: the code prints {got}")
            ruled[number] += 1
        elif "_" not in words:
            got = said(program, given="030000000000\n" * (len(lines) == 1) + given)
            if got[-2][:10] != number + "00000000" or got[-1] != got[-3]:
                fail(f"differences: {words}: the code prints {got[-2:]}")
            refused += 1
    print(f"differences: {len(rows)} seen in the Rust; {refused} of their lists can be given to tables, which refuses each; "
          f"{ruled['W-201']} are W-201's and {ruled['W-205']} W-205's, and tables follows these")


def main():
    if len(sys.argv) != 5:
        sys.exit(__doc__)
    reference, tables, pick, path = sys.argv[1:]
    picks(reference, pick)
    ticks(reference, tables, path)
    milliseconds(reference, tables)
    differences(reference, tables)


main()
