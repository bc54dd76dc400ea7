//! Every list of a given depth over a small alphabet, on the domain.

use std::process::ExitCode;

use kernel::interface::*;

use crate::notation::put_call;
use crate::replay::{HZ, write};

/// A letter of an alphabet.
#[derive(Clone, Copy)]
enum Letter {
    Is(u8, u8, u32),
    /// Switch, with a pointer into current's stretch.
    Switch,
    /// Add, at the lowest free one of the stretches of 1,024 bytes.
    Add(u8),
}

use Letter::{Add, Is, Switch};

const TICK_: Letter = Is(TICK, 0, 0);

/// An alphabet and the calls made before it.
fn set(name: &str) -> Option<(&'static [Letter], &'static [Letter])> {
    const ALIKE: &[Letter] = &[Add(128), Add(128), Is(START, 0, 0)];
    const UNLIKE: &[Letter] = &[Add(9), Add(8), Is(START, 0, 0)];

    Some(match name {
        "mix" => (
            ALIKE,
            &[
                TICK_,
                Switch,
                Is(SLEEP, 0, 1),
                Is(EXIT, 0, 0),
                Is(WAIT, 0, 2),
                Is(REAP_ONE, 0, 0),
                Is(LOCK, 0, 0),
                Is(UNLOCK, 0, 0),
                Is(ACQUIRE, 0, 0),
                Is(RELEASE, 0, 0),
                Is(EVENT_WAIT, 0, 0),
                Is(SIGNAL, 0, 0),
                Is(WAKE, 0, 1),
                Add(128),
            ],
        ),
        "mutex" => (
            ALIKE,
            &[
                Switch,
                Is(LOCK, 0, 0),
                Is(UNLOCK, 0, 0),
                Is(TRY_LOCK, 0, 0),
                Is(LOCK, 1, 0),
                Is(UNLOCK, 1, 0),
                Is(WAKE, 0, 1),
                Is(WAKE, 0, 2),
                Is(EXIT, 0, 0),
                Is(REAP_ONE, 0, 0),
                Is(STATUS, 0, 0),
                Is(SLEEP, 0, 0),
                TICK_,
            ],
        ),
        "queues" => (
            ALIKE,
            &[
                Switch,
                Is(ACQUIRE, 0, 0),
                Is(TRY_ACQUIRE, 0, 0),
                Is(RELEASE, 0, 0),
                Is(EVENT_WAIT, 0, 0),
                Is(SIGNAL, 0, 0),
                Is(WAKE, 0, 1),
                Is(WAKE, 0, 2),
                Is(EXIT, 0, 0),
                Is(REAP_ONE, 0, 0),
                Is(BLOCK, 0, 0),
                Is(STATUS, 0, 0),
            ],
        ),
        "life" => (
            ALIKE,
            &[
                Add(128),
                Switch,
                Is(EXIT, 0, 0),
                Is(WAIT, 0, 1),
                Is(WAIT, 0, 2),
                Is(WAIT, 0, 3),
                Is(REAP, 0, 1),
                Is(REAP, 0, 2),
                Is(REAP_ONE, 0, 0),
                Is(STATUS, 0, 0),
                Is(WAKE, 0, 1),
                Is(WAKE, 0, 2),
            ],
        ),
        "time" => (
            UNLIKE,
            &[
                TICK_,
                Switch,
                Is(SLEEP, 0, 0),
                Is(SLEEP, 0, 1),
                Is(SLEEP, 0, 2),
                Is(STATUS, 0, 0),
                Is(STATUS, 2, 0),
                Is(STATUS, 3, 0),
                Is(STATUS, 4, 0),
                Is(EXIT, 0, 0),
                Is(WAKE, 0, 2),
                Add(8),
            ],
        ),
        "others" => (
            UNLIKE,
            &[
                Switch,
                Add(9),
                Is(EXIT, 0, 0),
                Is(REAP_ONE, 0, 0),
                Is(SLEEP, 0, 143),
                Is(LIST, 16, 0),
                Is(CURRENT_ID, 0, 0),
                Is(RESULT, 0xff, 1),
                Is(RESULT, 1, 2),
                // The first word of the second task, and the sixth of idle.
                Is(WORD, 0, 2304),
                Is(WORD, 1, 2304),
                Is(WORD, 0, 5),
                Is(FRESH, 0, 7),
            ],
        ),
        _ => return None,
    })
}

impl Letter {
    fn call(self) -> Option<Call> {
        let tables = tables();

        Some(match self {
            Is(op, k, y) => Call { op, k, y },
            Switch => {
                let current = tables.slots[tables.current]?;
                let y = current.start + current.size - 64;
                Call { op: SWITCH, k: 0, y }
            }
            Add(k) => {
                let start = (8192..ARENA_BYTES).step_by(1024).find(|&start| {
                    tables.slots.iter().flatten().all(|slot| slot.start != start)
                })?;
                Call { op: ADD, k, y: start << 16 | 1024 }
            }
        })
    }
}

pub fn run(depth: usize, name: &str) -> ExitCode {
    let Some((before, alphabet)) = set(name) else {
        eprintln!("reference: sets are mix, mutex, queues, life, time and others");
        return ExitCode::from(2);
    };
    let mut digits = vec![0; depth];
    let mut out = Vec::new();
    let mut lists = 0u64;

    'lists: loop {
        renew();
        init(HZ);
        let kept = out.len();
        out.extend_from_slice(b"new\n");

        // Where the list leaves the domain, all lists that begin so do.
        let mut fault = depth;
        let letters = before.iter().chain(digits.iter().map(|&digit| &alphabet[digit]));
        for (at, letter) in letters.enumerate() {
            match letter.call().filter(|&asked| in_domain(asked)) {
                Some(asked) => {
                    call(asked);
                    put_call(&mut out, asked);
                }
                None => {
                    fault = at - before.len();
                    break;
                }
            }
        }
        if fault < depth {
            out.truncate(kept);
        } else {
            lists += 1;
        }
        if out.len() >= 1 << 16 {
            write(&mut out);
        }

        let mut place = fault.min(depth - 1);
        digits[place + 1..].fill(0);
        while digits[place] + 1 == alphabet.len() {
            if place == 0 {
                break 'lists;
            }
            digits[place] = 0;
            place -= 1;
        }
        digits[place] += 1;
    }
    write(&mut out);
    eprintln!("{lists} lists of {depth} calls after {}", before.len());

    ExitCode::SUCCESS
}
