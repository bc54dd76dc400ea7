//! Lines of calls in; lines of answers and tables out.

use kernel::interface::{Call, Queue, Tables};

/// Twelve lowercase hex digits: operation, k, y.
pub fn parse(line: &[u8]) -> Option<Call> {
    if line.len() != 12 {
        return None;
    }

    let mut value = 0u64;
    for &byte in line {
        let digit = match byte {
            b'0'..=b'9' => byte - b'0',
            b'a'..=b'f' => byte - b'a' + 10,
            _ => return None,
        };
        value = value << 4 | digit as u64;
    }

    Some(Call {
        op: (value >> 40) as u8,
        k: (value >> 32) as u8,
        y: value as u32,
    })
}

fn hex(out: &mut Vec<u8>, value: u64) {
    let mut line = [b'\n'; 13];
    for place in 0..12 {
        line[11 - place] = b"0123456789abcdef"[(value >> (4 * place)) as usize & 15];
    }
    out.extend_from_slice(&line);
}

pub fn put_call(out: &mut Vec<u8>, call: Call) {
    hex(out, (call.op as u64) << 40 | (call.k as u64) << 32 | call.y as u64);
}

pub fn put_answer(out: &mut Vec<u8>, number: u8, value: u32, current: u8) {
    hex(out, (number as u64) << 40 | (value as u64) << 8 | current as u64);
}

fn put(out: &mut Vec<u8>, value: u64) {
    let mut digits = [0; 20];
    let mut at = digits.len();
    let mut rest = value;
    loop {
        at -= 1;
        digits[at] = b'0' + (rest % 10) as u8;
        rest /= 10;
        if rest == 0 {
            break;
        }
    }
    out.extend_from_slice(&digits[at..]);
}

fn put_signed(out: &mut Vec<u8>, value: i64) {
    if value < 0 {
        out.push(b'-');
    }
    put(out, value.unsigned_abs());
}

fn put_id(out: &mut Vec<u8>, id: Option<u32>) {
    match id {
        Some(id) => put(out, id as u64),
        None => out.push(b'-'),
    }
}

fn put_list(out: &mut Vec<u8>, values: &[u64]) {
    for (at, &value) in values.iter().enumerate() {
        if at > 0 {
            out.push(b',');
        }
        put(out, value);
    }
}

fn put_queue(out: &mut Vec<u8>, queue: &Queue) {
    out.extend_from_slice(b",[");
    for (at, &id) in queue.ids().iter().enumerate() {
        if at > 0 {
            out.push(b' ');
        }
        put(out, id as u64);
    }
    out.extend_from_slice(b"];");
}

/// The records of a list call, put behind its answer.
pub fn put_records(out: &mut Vec<u8>, records: &[[u64; 5]]) {
    out.pop();
    for (at, record) in records.iter().enumerate() {
        out.push(if at > 0 { b';' } else { b' ' });
        put_list(out, record);
    }
    out.push(b'\n');
}

/// The line of `tables`, up to the events.
pub fn put_tables(out: &mut Vec<u8>, tables: &Tables) {
    let mut later = false;
    for (at, slot) in tables.slots.iter().enumerate() {
        let Some(slot) = slot else { continue };
        if later {
            out.push(b';');
        }
        later = true;

        put_list(
            out,
            &[
                at as u64,
                slot.id as u64,
                slot.state as u64,
                slot.priority as u64,
                slot.wake_tick,
                slot.time_slice as u64,
                slot.remaining_slice as u64,
                slot.owned as u64,
            ],
        );
        out.push(b',');
        put_id(out, slot.waiter);
        out.push(b',');
        put_list(out, &[slot.start as u64, slot.size as u64, slot.sp as u64]);
        out.push(b',');
        put_signed(out, slot.result as i64);
    }

    out.extend_from_slice(b" | ");
    put_list(
        out,
        &[
            tables.tick_count,
            tables.started as u64,
            tables.current as u64,
            tables.task_count as u64,
            tables.next_id as u64,
        ],
    );

    out.extend_from_slice(b" |");
    for mutex in &tables.mutexes {
        out.push(b' ');
        put(out, mutex.locked as u64);
        out.push(b',');
        put_id(out, mutex.owner);
        out.push(b',');
        put_id(out, mutex.handoff_to);
        put_queue(out, &mutex.queue);
    }

    out.extend_from_slice(b" |");
    for (count, queue) in &tables.semaphores {
        out.push(b' ');
        put_signed(out, *count as i64);
        put_queue(out, queue);
    }

    out.extend_from_slice(b" |");
    for (signalled, queue) in &tables.events {
        out.push(b' ');
        put(out, *signalled as u64);
        put_queue(out, queue);
    }
    out.push(b'\n');
}
