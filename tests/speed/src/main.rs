//! Times `tibsulan_play_list` and the published kernel on the same lists, in
//! one process. Prints a table in Markdown.

mod lists;
#[allow(dead_code)]
#[path = "../../differential/src/notation.rs"]
mod notation;
#[allow(dead_code)]
#[path = "../../differential/src/replay.rs"]
mod replay;

use std::hint::black_box;
use std::io::{Read, Write};
use std::process::ExitCode;

use kernel::interface::{RELEASE, SIGNAL, WAKE, call, current, init, renew};

use lists::LISTS;
use notation::{parse, put_answer};
use replay::HZ;

const RUNS: usize = 31;

#[repr(C)]
struct Time {
    seconds: i64,
    nanoseconds: i64,
}

unsafe extern "C" {
    /// A slice is a pointer and a length.
    fn tibsulan_play_list(list: *const u8, list_len: usize, out: *mut u8, out_len: usize) -> usize;

    fn clock_gettime(clock: i32, time: *mut Time) -> i32;
}

/// Processor time of this process, in nanoseconds.
fn now() -> i64 {
    const PROCESS: i32 = 2;
    let mut time = Time { seconds: 0, nanoseconds: 0 };
    assert_eq!(unsafe { clock_gettime(PROCESS, &mut time) }, 0, "clock_gettime");
    time.seconds * 1_000_000_000 + time.nanoseconds
}

/// The list from fresh on the published kernel. Every call was found in the
/// domain when the list was made, so that is not asked again.
fn play_rust(list: &[u8], out: &mut Vec<u8>) {
    out.clear();
    renew();
    init(HZ);
    for line in list.split_inclusive(|&byte| byte == b'\n') {
        let (number, value) = match parse(&line[..line.len() - 1]) {
            Some(asked) => call(asked),
            None => (0xff, 0),
        };
        put_answer(out, number, value, current());
    }
}

/// The same by `tibsulan_play_list`. How many bytes it wrote.
fn play_rattle(list: &[u8], out: &mut [u8]) -> usize {
    unsafe { tibsulan_play_list(list.as_ptr(), list.len(), out.as_mut_ptr(), out.len()) }
}

/// Whether the answers are equal byte for byte. The values of wake, release and
/// signal are passed over, for the Rust returns none.
fn agree(list: &[u8], rattle: &[u8], rust: &[u8]) -> bool {
    let no_value =
        |line: &[u8]| parse(line).is_some_and(|call| matches!(call.op, WAKE | RELEASE | SIGNAL));
    let lines = list.split(|&byte| byte == b'\n');
    rattle.len() == rust.len()
        && lines.zip(rattle.chunks(13).zip(rust.chunks(13))).all(|(line, (a, b))| {
            a == b || (no_value(line) && a[..2] == b[..2] && a[10..] == b[10..])
        })
}

/// Nanoseconds a call: the quartiles.
struct Quartiles([f64; 3]);

impl Quartiles {
    fn of(times: &mut [i64], calls: usize) -> Self {
        times.sort_unstable();
        let last = times.len() - 1;
        Self([1, 2, 3].map(|quarter| times[(quarter * last + 2) / 4] as f64 / calls as f64))
    }

    fn median(&self) -> f64 {
        self.0[1]
    }

    fn text(&self) -> String {
        let [low, median, high] = self.0;
        format!("{median:.1} ({low:.1} to {high:.1})")
    }
}

/// Standard input through `tibsulan_play_list`, for a comparison with `turns`; and that
/// it refuses room that is one byte short, and then alters nothing.
fn answers() -> ExitCode {
    let mut list = Vec::new();
    std::io::stdin().read_to_end(&mut list).expect("standard input");
    let room = 13 * (list.len() + 1);
    let mut out = vec![0x55; room - 1];
    if play_rattle(&list, &mut out) != 0 || out.iter().any(|&byte| byte != 0x55) {
        eprintln!("speed: room that is one byte short is not refused");
        return ExitCode::FAILURE;
    }
    out.push(0x55);
    let len = play_rattle(&list, &mut out);
    std::io::stdout().write_all(&out[..len]).expect("standard output");
    ExitCode::SUCCESS
}

fn main() -> ExitCode {
    if std::env::args().nth(1).as_deref() == Some("answers") {
        return answers();
    }
    println!("| List | Tasks | Calls | tibsulan_play_list, ns a call | the Rust, ns a call | Ratio |");
    println!("|---|---:|---:|---:|---:|---:|");

    for (name, make, sizes) in LISTS {
        for &tasks in sizes {
            let list = make(tasks);
            let calls = list.iter().filter(|&&byte| byte == b'\n').count();
            let mut rust = Vec::with_capacity(13 * (calls + 1));
            let mut rattle = vec![0; 13 * (list.len() + 1)];

            play_rust(&list, &mut rust);
            let len = play_rattle(&list, &mut rattle);
            if len != 13 * calls || !agree(&list, &rattle[..len], &rust) {
                eprintln!("speed: the answers to {name}, {tasks} tasks, differ");
                return ExitCode::FAILURE;
            }

            let (mut ours, mut theirs) = (Vec::new(), Vec::new());
            for run in 0..2 * RUNS {
                let start = now();
                if run % 2 == 0 {
                    play_rattle(black_box(&list), black_box(&mut rattle));
                    ours.push(now() - start);
                } else {
                    play_rust(black_box(&list), black_box(&mut rust));
                    theirs.push(now() - start);
                }
            }
            let ours = Quartiles::of(&mut ours, calls);
            let theirs = Quartiles::of(&mut theirs, calls);
            let ratio = ours.median() / theirs.median();
            println!("| {name} | {tasks} | {calls} | {} | {} | {ratio:.2} |", ours.text(), theirs.text());
        }
    }
    ExitCode::SUCCESS
}
