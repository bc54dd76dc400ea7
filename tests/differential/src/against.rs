//! Holds a program that prints as `tables` does against the published kernel.

use std::collections::BTreeMap;
use std::io::{Read, Write};
use std::process::{Command, ExitCode, Stdio};
use std::thread;

use kernel::interface::*;

use crate::coverage::operations;
use crate::notation::{parse, put_tables};
use crate::replay::{HZ, lines, put_said};

/// Starts the program, gives it the list, and takes what it prints, and
/// whether it ended well.
fn printed(program: &[&str], list: &[u8]) -> std::io::Result<(Vec<u8>, bool)> {
    let mut child = Command::new(program[0])
        .args(&program[1..])
        .stdin(Stdio::piped())
        .stdout(Stdio::piped())
        .spawn()?;
    let mut input = child.stdin.take().expect("a pipe");
    let mut output = child.stdout.take().expect("a pipe");
    let mut out = Vec::new();

    thread::scope(|scope| {
        // A program that stops early is found by what it printed.
        scope.spawn(move || input.write_all(list));
        output.read_to_end(&mut out)
    })?;
    let ended_well = child.wait()?.success();

    Ok((out, ended_well))
}

/// How a difference begins that is none from the Rust, but from W-206's law.
const LAW: &str = "charges: ";

/// An answer, the value left out where the Rust returns nothing.
fn answer(line: &[u8], op: u8) -> Vec<u8> {
    let mut line = line.to_vec();
    if matches!(op, WAKE | RELEASE | SIGNAL) && line.len() == 12 {
        line[2..10].fill(b'.');
    }
    line
}

/// A line of `tables` cut at its last bar.
fn cut(line: &[u8]) -> (&[u8], &[u8]) {
    match line.windows(3).rposition(|part| part == b" | ") {
        Some(bar) => (&line[..bar], &line[bar + 3..]),
        None => (line, b""),
    }
}

/// A line of `tables` without its last four parts; and these: the charges, the
/// limits, the ranks and the retired sum.
fn table(line: &[u8]) -> (&[u8], [&[u8]; 4]) {
    let (line, retired) = cut(line);
    let (line, ranks) = cut(line);
    let (line, limits) = cut(line);
    let (line, charges) = cut(line);
    (line, [charges, limits, ranks, retired])
}

/// W-206's law: the charges of occupied slots and the retired sum are the ticks
/// accepted after the start, and empty slots have 0. Which slots are occupied
/// is the Rust's.
fn adds_up(tables: &Tables, charges: &[u8], retired: &[u8], ticks: u64) -> bool {
    let number = |text: &[u8]| std::str::from_utf8(text).ok()?.parse::<u64>().ok();
    let charges: Option<Vec<u64>> = charges.split(|&byte| byte == b',').map(number).collect();
    let (Some(charges), Some(retired)) = (charges, number(retired)) else {
        return false;
    };
    let empty = |at: usize| tables.slots[at].is_none();
    charges.len() == SLOTS
        && (0..SLOTS).all(|at| !empty(at) || charges[at] == 0)
        && charges.iter().map(|&charge| charge as u128).sum::<u128>() + retired as u128
            == ticks as u128
}

/// The limits of a list without a limited wait: none, and no mark.
fn no_limits(tables: &Tables) -> Vec<u8> {
    let occupied = (0..SLOTS).filter(|&at| tables.slots[at].is_some());
    let texts: Vec<String> = occupied.map(|at| format!("{at},-,-,-,0")).collect();
    texts.join(";").into_bytes()
}

/// The ranks of a list in which no mutex has a queue: each the own number.
fn own_numbers(tables: &Tables) -> Vec<u8> {
    let own = |slot: Option<Slot>| slot.map_or("-".into(), |slot| slot.priority.to_string());
    tables.slots.map(own).join(",").into_bytes()
}

/// The first call, counted from 0, whose answer or table is not the same, or
/// after which the charges do not add up, with what was wanted and what was
/// printed.
fn difference(list: &[Call], got: &[u8]) -> Option<(usize, String, String)> {
    let mut got_lines = got.split(|&byte| byte == b'\n');
    let text = |bytes: &[u8]| String::from_utf8_lossy(bytes).into_owned();

    renew();
    init(HZ);
    let mut ticks = 0;
    for (at, &asked) in list.iter().enumerate() {
        let started = tables().started;
        let said = call(asked);
        ticks = match asked.op {
            FRESH => 0,
            TICK if started => ticks + 1,
            _ => ticks,
        };
        let (mut want, mut want_table) = (Vec::new(), Vec::new());
        put_said(&mut want, asked, said);
        put_tables(&mut want_table, &tables());
        want.pop();
        want_table.pop();

        let line = got_lines.next().unwrap_or(b"");
        if answer(line, asked.op) != answer(&want, asked.op) {
            return Some((at, text(&want), text(line)));
        }
        let line = got_lines.next().unwrap_or(b"");
        let (got_table, [charges, got_limits, got_ranks, retired]) = table(line);
        if got_table != want_table {
            return Some((at, text(&want_table), text(line)));
        }
        let want_limits = no_limits(&tables());
        if got_limits != want_limits {
            return Some((at, text(&want_limits), text(line)));
        }
        let want_ranks = own_numbers(&tables());
        if got_ranks != want_ranks {
            return Some((at, text(&want_ranks), text(line)));
        }
        if !adds_up(&tables(), charges, retired, ticks) {
            return Some((at, format!("{LAW}{ticks} in all, 0 in empty slots"), text(line)));
        }
    }

    let rest = got_lines.next().unwrap_or(b"");
    if !rest.is_empty() || got_lines.next().is_some() {
        return Some((list.len(), "the end".into(), text(rest)));
    }
    None
}

pub fn run(program: &[&str]) -> ExitCode {
    let mut lists = vec![Vec::new()];
    lines(|line| {
        if line == b"new" {
            lists.push(Vec::new());
        } else {
            lists.last_mut().expect("a list").push(line.to_vec());
        }
    });
    lists.retain(|list| !list.is_empty());

    let mut calls = BTreeMap::<u8, u64>::new();
    for list in &lists {
        // The domain first, on a kernel of its own.
        renew();
        init(HZ);
        let mut asked = Vec::new();
        for line in list {
            match parse(line).filter(|&asked| in_domain(asked)) {
                Some(one) => {
                    call(one);
                    asked.push(one);
                }
                None => {
                    println!("outside: {}", String::from_utf8_lossy(line));
                    return ExitCode::from(3);
                }
            }
        }

        let mut input = list.join(&b'\n');
        input.push(b'\n');
        let (got, ended_well) = match printed(program, &input) {
            Ok(got) => got,
            Err(error) => {
                println!("{}: {error}", program[0]);
                return ExitCode::from(2);
            }
        };
        let found = difference(&asked, &got).or_else(|| {
            let status = |text: &str| text.to_string();
            (!ended_well).then(|| (asked.len(), status("status 0"), status("another")))
        });
        if let Some((at, want, got)) = found {
            println!("differs after the last of these calls:");
            for line in list.iter().take(at + 1) {
                println!("{}", String::from_utf8_lossy(line));
            }
            println!("reference: {want}\nprogram:   {got}");
            return ExitCode::from(if want.starts_with(LAW) { 4 } else { 1 });
        }
        for one in asked {
            *calls.entry(one.op).or_default() += 1;
        }
    }
    println!("{} lists, {} lines: equal", lists.len(), calls.values().sum::<u64>());
    for (op, name) in operations() {
        println!("{op:02x} {name}: {}", calls.get(&op).unwrap_or(&0));
    }

    ExitCode::SUCCESS
}
