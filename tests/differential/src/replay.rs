//! Replays lists of calls on the published kernel.

use std::io::{BufRead, BufReader, Read, Write, stdin, stdout};
use std::os::unix::net::UnixStream;
use std::panic;
use std::process::{ExitCode, exit};

use kernel::interface::{
    ACQUIRE_WITHIN, Call, EVENT_WAIT_WITHIN, FRESH, LIST, LOCK, SLOTS, TICKS_TO_MS, call, current,
    empty, fresh_in, in_domain, init, possible, records, refusal, renew, set_current, tables, words,
};

use crate::notation::{parse, put_answer, put_records, put_tables};

pub const HZ: u32 = 1000;
const BUFFER: usize = 1 << 16;

unsafe extern "C" {
    fn fork() -> i32;
    fn waitpid(pid: i32, status: *mut i32, options: i32) -> i32;
}

/// The lines of standard input, without their line feeds.
pub fn lines(mut each: impl FnMut(&[u8])) {
    let mut input = BufReader::with_capacity(BUFFER, stdin());
    let mut line = Vec::new();
    while input.read_until(b'\n', &mut line).expect("standard input") > 0 {
        if line.last() == Some(&b'\n') {
            line.pop();
        }
        each(&line);
        line.clear();
    }
}

pub fn write(out: &mut Vec<u8>) {
    stdout().write_all(out).expect("standard output");
    out.clear();
}

/// Writes what is left and ends the process.
fn end(out: &mut Vec<u8>, code: i32) -> ! {
    write(out);
    stdout().flush().expect("standard output");
    exit(code);
}

/// Says that a line is outside the domain, and stops. What 01 does not refuse
/// is outside for W-201, a lock for W-205; a wait with a limit, which 01 has
/// not, for W-202, and milliseconds from ticks for W-204.
fn leave(out: &mut Vec<u8>, line: &[u8], number: u8) -> ! {
    let limited = |asked: Call| matches!(asked.op, ACQUIRE_WITHIN | EVENT_WAIT_WITHIN);
    let timed = |asked: Call| asked.op == TICKS_TO_MS && asked.k <= 32;
    let blocks = |asked: Call| asked.op == LOCK;
    let why = match number {
        0 if parse(line).is_some_and(blocks) => "document 02's W-205".to_string(),
        0 => "document 02's W-201".to_string(),
        _ if parse(line).is_some_and(limited) => "document 02's W-202".to_string(),
        _ if parse(line).is_some_and(timed) => "document 02's W-204".to_string(),
        _ => format!("document 01's number {number:02x}"),
    };
    eprintln!(
        "reference: {} is outside the compared domain ({why})",
        String::from_utf8_lossy(line)
    );
    out.extend_from_slice(b"outside\n");
    end(out, 3);
}

/// The answer line.
pub fn put_said(out: &mut Vec<u8>, asked: Call, (number, value): (u8, u32)) {
    put_answer(out, number, value, current());
    if asked.op == LIST {
        put_records(out, &records());
    }
}

fn step(out: &mut Vec<u8>, line: &[u8], with_tables: bool, raw: bool) {
    let Some(asked) = parse(line) else {
        leave(out, line, 0xff);
    };
    if !in_domain(asked) && !(raw && possible(asked)) {
        leave(out, line, refusal(asked));
    }

    let answer = call(asked);
    put_said(out, asked, answer);
    if with_tables {
        put_tables(out, &tables());
    }
}

/// A line of `raw` that is no call: `empty SLOT`, `current SLOT`, or `pool BYTES`
/// for a fresh kernel. Prints the line again and the table.
fn step_aside(out: &mut Vec<u8>, line: &[u8]) -> bool {
    let text = String::from_utf8_lossy(line);
    let number = |from: &str| text.strip_prefix(from)?.parse::<usize>().ok();

    if let Some(slot) = number("empty ").filter(|&slot| slot < SLOTS) {
        empty(slot);
    } else if let Some(slot) = number("current ") {
        set_current(slot);
    } else if let Some(bytes) = number("pool ") {
        fresh_in(bytes, HZ);
    } else {
        return false;
    }
    out.extend_from_slice(line);
    out.push(b'\n');
    put_tables(out, &tables());
    true
}

/// The hz of a line that asks for a fresh kernel and gets one.
fn fresh_of(line: &[u8]) -> Option<u32> {
    parse(line).filter(|&asked| asked.op == FRESH && in_domain(asked)).map(|asked| asked.y)
}

/// What of a list one kernel plays, in a process of its own: the statics are
/// those that the program was loaded with. The first line may be a fresh one;
/// it gets the words that the part before has left. This one sends its own on
/// at its end. A raw one may end in a panic.
fn part(lines: &[Vec<u8>], left: &[u8], mut next: UnixStream, raw: bool) -> ! {
    let mut out = Vec::with_capacity(BUFFER);
    if raw {
        panic::set_hook(Box::new(|_| {}));
    }

    let mut lines = lines;
    for (word, left) in words().iter_mut().zip(left.chunks_exact(4)) {
        *word = u32::from_ne_bytes(left.try_into().expect("four bytes"));
    }
    if let Some(hz) = lines.first().and_then(|line| fresh_of(line)) {
        init(hz);
        put_answer(&mut out, 0, 0, current());
        put_tables(&mut out, &tables());
        lines = &lines[1..];
    } else {
        init(HZ);
    }
    for line in lines {
        if line == b"new" {
            out.extend_from_slice(b"new\n");
        } else if let Err(why) = panic::catch_unwind(panic::AssertUnwindSafe(|| {
            if !(raw && step_aside(&mut out, line)) {
                step(&mut out, line, true, raw);
            }
        })) {
            let why = why
                .downcast_ref::<String>()
                .map(String::as_str)
                .or(why.downcast_ref::<&str>().copied())
                .unwrap_or("");
            let why = why.lines().next().unwrap_or("");
            out.extend_from_slice(format!("panic: {why}\n").as_bytes());
            end(&mut out, if raw { 0 } else { 101 });
        }
        if out.len() >= BUFFER {
            write(&mut out);
        }
    }
    let words: Vec<u8> = words().iter().flat_map(|word| word.to_ne_bytes()).collect();
    next.write_all(&words).expect("a socket");
    end(&mut out, 0);
}

/// Each kernel in a process of its own.
pub fn forked(raw: bool) -> ExitCode {
    let mut group: Vec<Vec<u8>> = Vec::new();
    let mut code = 0;

    let mut run = |group: &mut Vec<Vec<u8>>| {
        let mut left = Vec::new();
        let mut rest = &group[..];
        while code == 0 && !rest.is_empty() {
            let later = rest[1..].iter().position(|line| fresh_of(line).is_some());
            let (lines, after) = rest.split_at(later.map_or(rest.len(), |at| at + 1));
            let (mut from, to) = UnixStream::pair().expect("a socket");
            let mut status = 0;
            let child = unsafe { fork() };
            match child {
                0 => part(lines, &left, to, raw),
                1.. => drop(to),
                _ => panic!("fork"),
            }
            left.clear();
            from.read_to_end(&mut left).expect("a socket");
            unsafe { assert_eq!(waitpid(child, &mut status, 0), child) };
            code = if status & 0x7f == 0 { status >> 8 & 0xff } else { 101 };
            // A panic ends the list.
            rest = if left.is_empty() { &[] } else { after };
        }
        group.clear();
    };

    lines(|line| {
        if line == b"new" {
            run(&mut group);
        }
        group.push(line.to_vec());
    });
    run(&mut group);

    ExitCode::from(code as u8)
}

/// All lists in this process, the statics renewed for each kernel.
pub fn in_place(with_tables: bool) -> ExitCode {
    let mut out = Vec::with_capacity(2 * BUFFER);

    init(HZ);
    lines(|line| {
        if line == b"new" {
            renew();
            init(HZ);
            out.extend_from_slice(b"new\n");
        } else {
            step(&mut out, line, with_tables, false);
        }
        if out.len() >= BUFFER {
            write(&mut out);
        }
    });
    write(&mut out);

    ExitCode::SUCCESS
}
