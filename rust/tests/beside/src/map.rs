//! Maps, by calls in a row on one map.

use std::fmt;

use crate::answer::{Answer, Compared, Side, caught};
use crate::choices::Choices;

/// A key that is equal to keys of other spellings. The map keeps the first spelling.
#[derive(Clone, Copy)]
struct Key {
    letter: u8,
    spelling: u8,
}

impl PartialEq for Key {
    fn eq(&self, other: &Self) -> bool {
        self.letter == other.letter
    }
}

impl Eq for Key {}

impl fmt::Debug for Key {
    fn fmt(&self, f: &mut fmt::Formatter<'_>) -> fmt::Result {
        write!(f, "{}.{}", self.letter, self.spelling)
    }
}

#[derive(Clone, Copy, Debug)]
enum Call {
    Insert(Key, u8),
    Get(Key),
    Add(Key, u8),
    GetOrInsertWith(Key, u8),
    Index(Key),
}

/// How the map is made: with room for so many pairs, or from the first few calls that insert.
#[derive(Clone, Copy, Debug)]
enum Made {
    New,
    Default,
    WithCapacity(usize),
    FromPairs(usize),
}

macro_rules! answer_of {
    ($library:ident, $made:expr, $calls:expr) => {{
        use $library::linear_map::LinearMap;

        let mut said = vec![];
        let mut map = match $made {
            Made::New => LinearMap::new(),
            Made::Default => LinearMap::default(),
            Made::WithCapacity(capacity) => LinearMap::with_capacity(capacity),
            Made::FromPairs(pairs) => pairs_of(&$calls[..pairs.min($calls.len())]).collect(),
        };
        for &call in $calls {
            said.push(match call {
                Call::Insert(key, value) => format!("{:?}", map.insert(key, value)),
                Call::Get(key) => format!("{:?}", map.get(&key)),
                Call::Add(key, value) => format!("{:?}", map.get_mut(&key).map(|old| *old = old.wrapping_add(value))),
                Call::GetOrInsertWith(key, value) => {
                    let mut called = 0;
                    let kept = map.get_or_insert_with(key, || {
                        called += 1;
                        value
                    });
                    *kept = kept.wrapping_mul(3);
                    format!("{kept} {called}")
                }
                Call::Index(key) => format!("{:?}", caught(|| map[&key])),
            });
        }
        said.push(format!("{map:?} {:?}", map.iter().collect::<Vec<_>>()));
        said.push(format!("{:?} {:?}", map.keys().collect::<Vec<_>>(), map.values().collect::<Vec<_>>()));
        said.push(format!("{:?} {:?}", (&map).into_iter().len(), map.into_iter().rev().collect::<Vec<_>>()));
        said.join("\n")
    }};
}

/// The pairs of the calls.
fn pairs_of(calls: &[Call]) -> impl Iterator<Item = (Key, u8)> {
    calls.iter().map(|&call| match call {
        Call::Insert(key, value) | Call::Add(key, value) | Call::GetOrInsertWith(key, value) => (key, value),
        Call::Get(key) | Call::Index(key) => (key, 0),
    })
}

pub fn map(choices: &mut Choices) -> Compared {
    let made = match choices.below(4) {
        0 => Made::New,
        1 => Made::Default,
        // The second one takes more bytes than there are.
        2 if choices.below(8) < 7 => Made::WithCapacity(choices.up_to(1000)),
        2 => Made::WithCapacity(usize::MAX - choices.up_to(usize::MAX / 2)),
        _ => Made::FromPairs(choices.below(40)),
    };
    let calls: Vec<Call> = (0..choices.up_to(60)).map(|_| call(choices)).collect();
    Compared {
        call: format!("a map, {made:?}, then {calls:?}"),
        answer: Box::new(move |side| match side {
            Side::Package => Answer::text(|| answer_of!(p3_util_proved, made, &calls)),
            Side::Original => Answer::text(|| answer_of!(p3_util, made, &calls)),
        }),
        list: (0, 1),
    }
}

fn call(choices: &mut Choices) -> Call {
    let call = choices.below(5);
    let key = Key { letter: choices.below(12) as u8, spelling: choices.below(3) as u8 };
    let value = choices.below(256) as u8;
    match call {
        0 => Call::Insert(key, value),
        1 => Call::Get(key),
        2 => Call::Add(key, value),
        3 => Call::GetOrInsertWith(key, value),
        _ => Call::Index(key),
    }
}
