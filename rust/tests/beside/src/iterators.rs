//! Chunks and pairs of iterators.

use crate::answer::{Answer, Compared, Side, caught};
use crate::choices::Choices;

/// The calls of one crate. The number chooses the length of a chunk. Results are texts.
struct Calls {
    /// Calls a closure with each chunk. The closure panics at the chunk of the second number.
    apply_to_chunks: fn(usize, usize, &[u8]) -> String,
    iter_array_chunks_padded: fn(usize, &[u8]) -> String,
    zip_eq: fn(&[u8], &[u8]) -> String,
}

macro_rules! calls_of {
    ($library:ident) => {
        Calls {
            apply_to_chunks: |number, last, bytes| {
                let mut chunks = vec![];
                let note = |chunk: &[u8]| {
                    assert!(chunks.len() < last, "the last chunk");
                    chunks.push(chunk.to_vec());
                };
                let bytes = bytes.iter().copied();
                let ended = caught(|| match number {
                    0 => $library::apply_to_chunks::<1, _, _>(bytes, note),
                    1 => $library::apply_to_chunks::<2, _, _>(bytes, note),
                    2 => $library::apply_to_chunks::<3, _, _>(bytes, note),
                    3 => $library::apply_to_chunks::<8, _, _>(bytes, note),
                    _ => $library::apply_to_chunks::<64, _, _>(bytes, note),
                });
                format!("{chunks:?} {ended:?}")
            },
            iter_array_chunks_padded: |number, bytes| {
                let bytes = bytes.iter().copied();
                match number {
                    0 => taken($library::iter_array_chunks_padded::<_, 1>(bytes, 99)),
                    1 => taken($library::iter_array_chunks_padded::<_, 2>(bytes, 99)),
                    2 => taken($library::iter_array_chunks_padded::<_, 3>(bytes, 99)),
                    3 => taken($library::iter_array_chunks_padded::<_, 8>(bytes, 99)),
                    _ => taken($library::iter_array_chunks_padded::<_, 64>(bytes, 99)),
                }
            },
            zip_eq: |a, b| match $library::zip_eq::zip_eq(a, b, "lengths differ") {
                Ok(mut pairs) => {
                    let lens = (pairs.len(), pairs.next(), pairs.len(), pairs.size_hint());
                    format!("{lens:?} {:?}", pairs.collect::<Vec<_>>())
                }
                Err(text) => text.to_string(),
            },
        }
    };
}

const PACKAGE: Calls = calls_of!(p3_util_proved);
const ORIGINAL: Calls = calls_of!(p3_util);

/// All items of an iterator, and what it says once more after its end.
fn taken<const N: usize>(mut chunks: impl Iterator<Item = [u8; N]>) -> String {
    let all: Vec<_> = chunks.by_ref().collect();
    format!("{all:?} {:?}", chunks.next())
}

pub fn iterator(choices: &mut Choices) -> Compared {
    let (call, number) = (choices.below(3), choices.below(5));
    let (bytes, last) = (choices.bytes(200), choices.below(100));
    let others = match choices.below(3) {
        0 => choices.bytes(200),
        _ => bytes.iter().map(|byte| byte ^ 1).collect(),
    };
    Compared {
        call: match call {
            0 => format!("apply_to_chunks number {number} of {bytes:?}, which panics at chunk {last}"),
            1 => format!("iter_array_chunks_padded number {number} of {bytes:?}"),
            _ => format!("zip_eq of {bytes:?} and {others:?}"),
        },
        answer: Box::new(move |side| {
            let calls = match side {
                Side::Package => PACKAGE,
                Side::Original => ORIGINAL,
            };
            Answer::text(|| match call {
                0 => (calls.apply_to_chunks)(number, last, &bytes),
                1 => (calls.iter_array_chunks_padded)(number, &bytes),
                _ => (calls.zip_eq)(&bytes, &others),
            })
        }),
        list: (0, 1),
    }
}
