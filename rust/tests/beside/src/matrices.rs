//! Reversals of items and of rows, and transposes, of lists that fit and of some that do not.

use crate::answer::{Answer, Compared, Side};
use crate::choices::Choices;
use crate::items::{self, By};
use crate::lists::List;

/// The most bytes of a list. Few lists are long.
fn most_bytes(choices: &mut Choices) -> usize {
    match choices.below(1000) {
        0..800 => 1 << 14,
        800..980 => 1 << 18,
        980..998 => 1 << 22,
        _ => 1 << 25,
    }
}

/// A power of two up to `most`, or now and then another number.
fn reversible(choices: &mut Choices, most: usize) -> usize {
    if choices.once_in(16) { choices.up_to(most) } else { 1 << choices.below(most.max(1).ilog2() as usize + 1) }
}

pub fn reversal(choices: &mut Choices) -> Compared {
    let item = items::chosen(choices);
    let most = most_bytes(choices) / item.size;
    let count = reversible(choices, most);
    let list = List::chosen(choices, item, count);
    let by = By::chosen(choices);
    Compared {
        call: format!("reverse_slice_index_bits of {count} items {}, at offset {}{by}", item.name, list.offset()),
        list: list.place(),
        answer: Box::new(move |side| list.after(|bytes| (item.reverse)(by.on(side), bytes))),
    }
}

pub fn reversal_of_rows(choices: &mut Choices) -> Compared {
    let item = items::chosen(choices);
    let most = most_bytes(choices) / item.size;
    let width = choices.up_to(most.min(2000));
    let more = if choices.once_in(16) { choices.below(3) } else { 0 };
    let count = reversible(choices, most / width.max(1)) * width + more;
    let list = List::chosen(choices, item, count);
    let by = By::chosen(choices);
    Compared {
        call: format!(
            "reverse_slice_row_index_bits of {count} items {} in rows of {width}, at offset {}{by}",
            item.name,
            list.offset()
        ),
        list: list.place(),
        // What panics with a text of its own has another one in the package.
        answer: Box::new(move |side| {
            let answer = list.after(|bytes| (item.reverse_rows)(by.on(side), bytes, width));
            match (side, answer) {
                (Side::Original, Answer::Panic(_)) => Answer::Panic(String::new()),
                (_, answer) => answer,
            }
        }),
    }
}

pub fn transpose(choices: &mut Choices) -> Compared {
    let item = items::chosen(choices);
    let most = most_bytes(choices) / item.size;
    let (width, height) = sides(choices, most);
    let [input, output] = [(); 2].map(|()| {
        let count = if choices.once_in(32) { choices.up_to(most) } else { width * height };
        List::chosen(choices, item, count)
    });
    let by = By::chosen(choices);
    let lens = [&input, &output].map(|list| list.bytes().len() / item.size);
    Compared {
        call: format!(
            "transpose of {width} columns and {height} rows of {}, from {} items at offset {} to {} at offset {}{by}",
            item.name,
            lens[0],
            input.offset(),
            lens[1],
            output.offset()
        ),
        list: output.place(),
        answer: Box::new(move |side| {
            output.after(|bytes| (item.transpose)(by.on(side), input.bytes(), bytes, width, height))
        }),
    }
}

/// The sides of a matrix of at most that many items. Some are multiples of the sides of blocks and tiles.
fn sides(choices: &mut Choices, most: usize) -> (usize, usize) {
    let mut side = |most: usize| match choices.below(3) {
        0 => choices.up_to(most),
        1 => (choices.up_to(most / 8) * 8).min(most),
        _ => 1 << choices.below(most.max(1).ilog2() as usize + 1),
    };
    let one = side(most);
    let other = side(most / one.max(1));
    match choices.below(2) {
        0 => (one, other),
        _ => (other, one),
    }
}
