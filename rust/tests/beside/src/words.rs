//! Calls on integers, and the names of types.

use std::fmt::Debug;

use crate::answer::{Answer, Compared, Side};
use crate::choices::Choices;

/// A call on two integers of 64 bits, of which it may use one. Its result is a text.
type Call = fn(usize, usize) -> String;

macro_rules! calls_of {
    ($library:ident) => {
        [
            ("log2_ceil_usize", |x, _| text($library::log2_ceil_usize(x))),
            ("log2_ceil_u64", |x, _| text($library::log2_ceil_u64(x as u64))),
            ("log2_floor_usize", |x, _| text($library::log2_floor_usize(x))),
            ("log2_strict_usize", |x, _| text($library::log2_strict_usize(x))),
            ("log3_strict_usize", |x, _| text($library::log3_strict_usize(x))),
            ("checked_pow2", |x, _| text($library::checked_pow2(x))),
            ("checked_log_size_sum", |x, y| text($library::checked_log_size_sum(x, y))),
            ("reverse_bits", |x, y| text($library::reverse_bits(x, y))),
            ("reverse_bits_len", |x, y| text($library::reverse_bits_len(x, y))),
            ("indices_arr", |_, _| text(($library::indices_arr::<0>(), $library::indices_arr::<9>()))),
            ("pretty_name", |x, _| match x % 4 {
                0 => $library::pretty_name::<Vec<Option<(u8, String)>>>(),
                1 => $library::pretty_name::<&Choices>(),
                2 => $library::pretty_name::<[[Box<str>; 2]; 3]>(),
                _ => $library::pretty_name::<fn(&mut Option<u8>) -> std::rc::Rc<dyn Debug>>(),
            }),
        ]
    };
}

const PACKAGE: [(&str, Call); 11] = calls_of!(p3_util_proved);
const ORIGINAL: [(&str, Call); 11] = calls_of!(p3_util);

fn text(result: impl Debug) -> String {
    format!("{result:?}")
}

pub fn word(choices: &mut Choices) -> Compared {
    let call = choices.below(PACKAGE.len());
    let (name, [x, y]) = (PACKAGE[call].0, [(); 2].map(|()| number(choices)));
    Compared {
        call: format!("{name} of {x}, or of {x} and {y}"),
        answer: Box::new(move |side| {
            let calls = match side {
                Side::Package => PACKAGE,
                Side::Original => ORIGINAL,
            };
            Answer::text(|| (calls[call].1)(x, y))
        }),
        list: (0, 1),
    }
}

/// A small number, a power of two or of three, one next to such a power, or any number.
fn number(choices: &mut Choices) -> usize {
    let power = match choices.below(4) {
        0 => return choices.below(200),
        1 => 1 << choices.below(64),
        2 => 3_usize.pow(choices.below(41) as u32),
        _ => return choices.up_to(usize::MAX),
    };
    match choices.below(4) {
        0 | 1 => power,
        2 => power - 1,
        _ => power + 1,
    }
}
