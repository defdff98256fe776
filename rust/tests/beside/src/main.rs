//! Compares the package with `p3-util` 0.8.0 on random inputs. `rust/beside` compiles it, and says what it does.

mod answer;
mod choices;
mod items;
mod iterators;
mod lists;
mod map;
mod matrices;
mod words;

use std::process::ExitCode;

use answer::Compared;
use choices::Choices;

/// Makes an input from the choices.
type Kind = fn(&mut Choices) -> Compared;

/// The kinds of inputs, each with how many of 16 inputs it has.
const KINDS: [(usize, Kind); 6] = [
    (4, matrices::reversal),
    (3, matrices::reversal_of_rows),
    (4, matrices::transpose),
    (2, words::word),
    (1, map::map),
    (2, iterators::iterator),
];

fn main() -> ExitCode {
    let words: Vec<String> = std::env::args().skip(1).collect();
    let numbers: Result<Vec<u64>, _> = words.iter().take(2).map(|word| word.parse()).collect();
    let Ok(&[inputs, seed]) = numbers.as_deref() else {
        eprintln!("INPUTS and SEED are numbers: see rust/beside");
        return ExitCode::from(2);
    };
    for input in 0..inputs {
        let compared = compared(&mut Choices::new(seed, input));
        // Before a call that may end the process.
        if words.len() > 2 {
            println!("  input {input} of seed {seed}: {}", compared.call);
        }
        if let Some(difference) = compared.difference() {
            println!("Input {input} of seed {seed} differs:\n{difference}");
            return ExitCode::FAILURE;
        }
    }
    println!("{inputs} inputs of seed {seed}: no difference");
    ExitCode::SUCCESS
}

fn compared(choices: &mut Choices) -> Compared {
    let mut number = choices.below(16);
    for (share, kind) in KINDS {
        match number.checked_sub(share) {
            Some(left) => number = left,
            None => return kind(choices),
        }
    }
    unreachable!("the shares of all kinds add up to 16")
}
