//! Two functions that take no kernel, for side.py.

use std::process::ExitCode;

use kernel::interface::{pick_among, ticks_of};

use crate::replay::{lines, write};

/// Lines `hz ms`, in decimal, hz above 0; prints the ticks.
pub fn ticks() -> ExitCode {
    each(|line| {
        let (hz, ms) = line.split_once(' ')?;
        let hz = hz.parse().ok().filter(|&hz: &u32| hz > 0)?;
        Some(ticks_of(hz, ms.parse().ok()?).to_string())
    })
}

/// Lines of 66 lowercase hex digits: sixteen states (6 is an empty slot),
/// sixteen priorities, current; prints the slot.
pub fn pick() -> ExitCode {
    each(|line| {
        let bytes: Vec<u8> = (0..line.len())
            .step_by(2)
            .map(|at| u8::from_str_radix(line.get(at..at + 2)?, 16).ok())
            .collect::<Option<_>>()?;
        let (states, rest) = bytes.split_first_chunk::<16>()?;
        let (priorities, rest) = rest.split_first_chunk::<16>()?;
        let [current @ 0..=15] = *rest else { return None };
        if states.iter().any(|&state| state > 6) {
            return None;
        }
        Some(format!("{:02x}", pick_among(states, priorities, current)))
    })
}

/// A line that cannot be read stops with status 3.
fn each(answer: impl Fn(&str) -> Option<String>) -> ExitCode {
    let mut out = Vec::new();
    let mut unread = false;

    lines(|line| {
        let text = std::str::from_utf8(line).ok().filter(|_| !unread);
        match text.and_then(&answer) {
            Some(text) => {
                out.extend_from_slice(text.as_bytes());
                out.push(b'\n');
            }
            None => unread = true,
        }
        if out.len() >= 1 << 16 {
            write(&mut out);
        }
    });
    if unread {
        out.extend_from_slice(b"outside\n");
    }
    write(&mut out);

    if unread { ExitCode::from(3) } else { ExitCode::SUCCESS }
}
