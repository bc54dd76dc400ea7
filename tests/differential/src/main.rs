//! The reference: the published kernel behind the notation of `tables`.

mod against;
mod coverage;
mod exhaustive;
mod generate;
mod notation;
mod replay;
mod side;

use std::process::ExitCode;

const USAGE: &str = "\
usage: reference replay [reset]          lists in; answers and tables out
       reference answers                 lists in; answers alone out
       reference raw                     as replay, but calls outside the domain are made too
       reference against PROGRAM [ARG..] lists in; holds a program like `tables` against the kernel
       reference generate SEED LINES LENGTH
       reference exhaustive DEPTH SET
       reference coverage                lists in; counts out
       reference ticks                   lines `hz ms` in; ticks out
       reference pick                    lines of states, priorities, current in; slots out";

fn main() -> ExitCode {
    let args: Vec<String> = std::env::args().skip(1).collect();
    let args: Vec<&str> = args.iter().map(String::as_str).collect();
    let number = |text: &str| text.parse::<u64>().ok();

    match args[..] {
        ["replay"] => return replay::forked(false),
        ["raw"] => return replay::forked(true),
        ["replay", "reset"] => return replay::in_place(true),
        ["answers"] => return replay::in_place(false),
        ["against", ref program @ ..] if !program.is_empty() => return against::run(program),
        ["coverage"] => return coverage::of_input(),
        ["ticks"] => return side::ticks(),
        ["pick"] => return side::pick(),
        ["generate", seed, lines, length] => {
            if let (Some(seed), Some(lines), Some(length @ 1..)) =
                (number(seed), number(lines), number(length))
            {
                return generate::run(seed, lines, length);
            }
        }
        ["exhaustive", depth, set] => {
            if let Some(depth @ 1..) = number(depth) {
                return exhaustive::run(depth as usize, set);
            }
        }
        _ => {}
    }

    eprintln!("{USAGE}");
    ExitCode::from(2)
}
