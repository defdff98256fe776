//! Measures the proved calls, and the original's if it is linked. The calls on slices are also compared with a copy of the
//! same bytes. Its arguments are what `runs.py` makes of the options of `bench/run`:
//!
//! - the least number of runs of each call whose time is taken, or 0 if each call is made once while another program counts the
//!   instructions
//! - the number of parts of each call, or 0 for whole calls
//! - the calls: `words`, `iterators`, or calls on slices, such as `transpose 4 300x60`
//!
//! For each call and each contender it prints a line with the name of the call, the number of its items, the contender and
//! the nanoseconds. If instructions are counted, there are no nanoseconds.

mod cases;
mod items;
mod iterators;
mod measure;
mod timed;
mod timing;
mod words;

use cases::Case;
use measure::{Mode, measure};

fn main() -> Result<(), String> {
    let arguments: Vec<String> = std::env::args().skip(1).collect();
    let [runs, parts, calls @ ..] = arguments.as_slice() else {
        return Err("bench/run runs this program".into());
    };
    let mode = match number(runs)? {
        0 => Mode::Count,
        runs => Mode::Time(runs),
    };
    let parts = Some(number(parts)?).filter(|parts| *parts > 0);
    for call in calls {
        match call.as_str() {
            "words" => words::WORDS.iter().for_each(|task| measure(task, &mode)),
            "iterators" => iterators::ITERATED.iter().for_each(|task| measure(task, &mode)),
            _ => measure(&Case::named(call, parts).ok_or(format!("unknown call {call}"))?, &mode),
        }
    }
    Ok(())
}

fn number(text: &str) -> Result<usize, String> {
    text.parse().map_err(|_| format!("{text} is no number"))
}
