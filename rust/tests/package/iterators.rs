//! How often an iterator is called, in which order two iterators are called, and what the calls on iterators drop.

use std::cell::Cell;
use std::fmt::Debug;
use std::iter::FusedIterator;
use std::sync::atomic::{AtomicUsize, Ordering::Relaxed};

use p3_util_proved::linear_map::LinearMap;
use p3_util_proved::zip_eq::zip_eq;
use p3_util_proved::{apply_to_chunks, iter_array_chunks_padded, kernels};

use crate::common::Owner;
use crate::refusal::{panics, refusal};

/// Returns the answers one after another and then `None`, and counts the calls of `next`.
struct Asked<'a> {
    answers: &'a [Option<u8>],
    asks: &'a Cell<usize>,
}

impl Iterator for Asked<'_> {
    type Item = u8;

    fn next(&mut self) -> Option<u8> {
        self.asks.set(self.asks.get() + 1);
        let (first, rest) = self.answers.split_first()?;
        self.answers = rest;
        *first
    }
}

/// The pieces that `apply_to_chunks` calls its closure on, and how often it calls `next` on its iterator.
fn pieces<const BUFLEN: usize>(answers: &[Option<u8>]) -> (Vec<Vec<u8>>, usize) {
    let (mut pieces, asks) = (vec![], Cell::new(0));
    apply_to_chunks::<BUFLEN, _, _>(Asked { answers, asks: &asks }, |piece| pieces.push(piece.to_vec()));
    (pieces, asks.get())
}

/// The padded pieces, and how often their iterator calls `next` on its own. After its end it is called twice more.
fn padded<const N: usize>(answers: &[Option<u8>], fill: u8) -> (Vec<[u8; N]>, usize) {
    let asks = Cell::new(0);
    let mut padded = iter_array_chunks_padded(Asked { answers, asks: &asks }, fill);
    let pieces = padded.by_ref().collect();
    assert_eq!((padded.next(), padded.next()), (None, None));
    drop(padded);
    (pieces, asks.get())
}

/// A body that calls `next` again after a short piece, or calls the closure once more, fails this test.
#[test]
fn asks_no_more_after_the_first_none() {
    let broken = [Some(1), Some(2), None, Some(3)];
    assert_eq!(pieces::<3>(&broken), (vec![vec![1, 2]], 3));
    assert_eq!(pieces::<2>(&broken), (vec![vec![1, 2]], 3));
    assert_eq!(padded::<3>(&broken, 0), (vec![[1, 2, 0]], 3));
    assert_eq!(padded::<2>(&broken, 0), (vec![[1, 2]], 3));
}

/// A piece's items are taken from the iterator when the piece is requested, and none earlier.
#[test]
fn asks_for_one_piece_at_a_time() {
    let (answers, asks) = ([Some(1); 5], Cell::new(0));
    let answers = answers.as_slice();
    let mut padded = iter_array_chunks_padded::<_, 2>(Asked { answers, asks: &asks }, 9);
    assert_eq!(asks.get(), 0);
    for (piece, asked) in [(Some([1, 1]), 2), (Some([1, 1]), 4), (Some([1, 9]), 6), (None, 6)] {
        assert_eq!((padded.next(), asks.get()), (piece, asked));
    }
}

/// Cuts ten bytes. Returns how often the closure and the iterator had been dropped by the last call of the closure, and
/// by the end.
fn dropped_by_pieces<const BUFLEN: usize>() -> [[usize; 2]; 2] {
    let (of_closure, of_iterator) = (AtomicUsize::new(0), AtomicUsize::new(0));
    let (closure, iterator) = (Owner::new(0, &of_closure), Owner::new(0, &of_iterator));
    let last_call = Cell::new([0; 2]);
    let (seen, iterators) = (&last_call, &of_iterator);
    let bytes = (0..10).inspect(move |_| _ = iterator.dropped());
    apply_to_chunks::<BUFLEN, _, _>(bytes, move |_| {
        seen.set([closure.dropped(), iterators.load(Relaxed)]);
    });
    [last_call.get(), [of_closure.load(Relaxed), of_iterator.load(Relaxed)]]
}

/// The closure and the iterator are dropped after the last call, which may be on a short piece. They are also dropped
/// if neither is called. A body that drops them earlier, or forgets the closure, meets its contract, but fails this
/// test.
#[test]
fn closures_on_pieces() {
    assert_eq!(dropped_by_pieces::<3>(), [[0; 2], [1; 2]]);
    assert_eq!(dropped_by_pieces::<5>(), [[0; 2], [1; 2]]);
    assert_eq!(dropped_by_pieces::<0>(), [[0; 2], [1; 2]]);
}

/// The items of a list. It appends its digit to `asked` on each call of `len` and of `next`, and when it is made from a
/// [`Made`].
struct Side<'a> {
    items: &'a [u8],
    digit: u32,
    asked: &'a Cell<u32>,
}

impl Side<'_> {
    fn note(&self) {
        self.asked.set(10 * self.asked.get() + self.digit);
    }
}

impl Iterator for Side<'_> {
    type Item = u8;

    fn next(&mut self) -> Option<u8> {
        self.note();
        let (first, rest) = self.items.split_first()?;
        self.items = rest;
        Some(*first)
    }

    fn size_hint(&self) -> (usize, Option<usize>) {
        (self.items.len(), Some(self.items.len()))
    }
}

impl ExactSizeIterator for Side<'_> {
    fn len(&self) -> usize {
        self.note();
        self.items.len()
    }
}

/// What a [`Side`] is made from.
struct Made<'a>(Side<'a>);

impl<'a> IntoIterator for Made<'a> {
    type Item = u8;

    type IntoIter = Side<'a>;

    fn into_iter(self) -> Side<'a> {
        self.0.note();
        self.0
    }
}

/// The first side is always called before the second: for its iterator, for its length, for each item and at the end. A
/// `zip_eq` that makes or calls its second iterator first meets its contract, but fails this test.
#[test]
fn first_side_first() {
    let asked = Cell::new(0);
    let side = |items, digit| {
        let asked = &asked;
        Made(Side { items, digit, asked })
    };
    let pairs = zip_eq(side(&[5, 6], 1), side(&[7, 8], 2), ()).unwrap();
    assert_eq!(pairs.fold(0, |count, _| count + 1), 2);
    assert_eq!(asked.get(), 1_212_121_212);
}

/// The items of a list, with a stated length that may be false and a size hint that says nothing.
struct Stating<'a>(&'a [u8], usize);

impl Iterator for Stating<'_> {
    type Item = u8;

    fn next(&mut self) -> Option<u8> {
        let (first, rest) = self.0.split_first()?;
        self.0 = rest;
        Some(*first)
    }

    fn size_hint(&self) -> (usize, Option<usize>) {
        (0, None)
    }
}

impl ExactSizeIterator for Stating<'_> {
    fn len(&self) -> usize {
        self.1
    }
}

/// Both bounds of the size hint are the length that the first side states. If a stated length is false, the proved pairs
/// end with the shorter side. There, the package's pairs panic, as the original's do.
#[test]
fn pairs_under_stated_lengths() {
    let cases: [(&[u8], &[u8], &[(u8, u8)]); 4] = [
        (&[1, 2], &[3, 4], &[(1, 3), (2, 4)]),
        (&[1, 2], &[3], &[(1, 3)]),
        (&[1], &[3, 4], &[(1, 3)]),
        (&[], &[3], &[]),
    ];
    for (first, second, wanted) in cases {
        let sides = || (Stating(first, 2), Stating(second, 2));
        let (left, right) = sides();
        let proved = kernels::zip_eq::zip_eq(left, right, ()).unwrap();
        assert_eq!((proved.size_hint(), proved.len()), ((2, Some(2)), 2));
        assert!(proved.eq(wanted.iter().copied()), "{first:?} {second:?}");

        let (left, right) = sides();
        let mut pairs = zip_eq(left, right, ()).unwrap();
        assert_eq!((pairs.size_hint(), pairs.len()), ((2, Some(2)), 2));
        let mut given = vec![];
        let differ = first.len() != second.len();
        assert_eq!(panics(|| pairs.by_ref().for_each(|pair| given.push(pair))), differ, "{first:?} {second:?}");
        assert_eq!(given, wanted);
    }
}

/// The panic names the reason, and the line of the caller of `next`.
#[test]
fn text_of_pairs_under_a_false_length() {
    let mut pairs = zip_eq(Stating(&[1], 1), Stating(&[], 1), ()).unwrap();
    let refused = refusal(|| _ = pairs.next()).unwrap();
    let text = "one of two iterators that stated the same length is shorter";
    assert_eq!((refused.text.as_str(), refused.file.as_str()), (text, file!()));
}

/// A list whose length can be asked for once.
struct AskedOnce(Cell<bool>);

impl Iterator for AskedOnce {
    type Item = u8;

    fn next(&mut self) -> Option<u8> {
        None
    }
}

impl ExactSizeIterator for AskedOnce {
    fn len(&self) -> usize {
        assert!(!self.0.replace(true), "asked before");
        0
    }
}

/// The size hint of pairs asks the first side alone for its length, so it panics if that does. The original asks for a size
/// hint.
#[test]
fn size_hints_of_pairs_panic_as_lengths_do() {
    let asked = |was_asked| AskedOnce(Cell::new(was_asked));
    let pairs = zip_eq(asked(false), asked(false), ()).unwrap();
    assert_eq!(refusal(|| _ = pairs.size_hint()).unwrap().text, "asked before");
    let pairs = zip_eq([0; 0], asked(false), ()).unwrap();
    assert_eq!(pairs.size_hint(), (0, Some(0)));
}

#[test]
fn pairs_show_their_sides() {
    let pairs = zip_eq([1, 2], ["a", "b"], ()).unwrap();
    let shown = r#"ZipEq { first: IntoIter([1, 2]), second: IntoIter(["a", "b"]) }"#;
    assert_eq!(format!("{pairs:?}"), shown);
}

/// What a caller may expect of each iterator of the package.
fn ends_for_good(_: impl FusedIterator + Clone + Debug) {}

#[test]
fn iterators_end_for_good() {
    let map = LinearMap::from_iter([(1, 2)]);
    ends_for_good(map.iter());
    ends_for_good(map.keys());
    ends_for_good(map.values());
    ends_for_good(zip_eq([1], [2], ()).unwrap());
    ends_for_good(kernels::chunks::iter_array_chunks_padded::<u8, 2, _>([1], 0));
}

/// If the lengths differ the call drops both lists. Otherwise it drops the error. A body that forgets them meets its
/// contract, but fails this test.
#[test]
fn zips_drop_what_they_do_not_return() {
    for (first, second) in [(3, 2), (0, 4), (5, 0), (2, 2), (0, 0)] {
        let [of_first, of_second, of_error] = [0; 3].map(AtomicUsize::new);
        let counts = || [&of_first, &of_second, &of_error].map(|drops| drops.load(Relaxed));
        let (left, right) = (Owner::list(first, &of_first), Owner::list(second, &of_second));
        match zip_eq(left, right, Owner::new(7, &of_error)) {
            Ok(_pairs) => assert_eq!((first, counts()), (second, [0, 0, 1])),
            Err(error) => assert_eq!((error.number, counts()), (7, [first, second, 0])),
        }
        assert_eq!(counts(), [first, second, 1]);
    }
}
