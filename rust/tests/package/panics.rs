//! Each call panics exactly if its condition fails, and then nothing has changed.

use p3_util_proved::linear_map::LinearMap;
use p3_util_proved::transpose::transpose;
use p3_util_proved::*;

use crate::refusal::{Refusal, panics, refusal, text_of_transpose};

/// How many digits a `usize` has.
const ALL: usize = usize::BITS as usize;

/// Asserts that a call panics with this full text, which begins with that of a build of the original with debug
/// assertions. The panic names the caller's file.
fn check_text(call: fn(), original: &str, and_more: &str) {
    let refused = refusal(call).unwrap();
    assert_eq!(refused.text, format!("{original}{and_more}"));
    assert_eq!(refused.file, file!(), "{original:?}");
}

#[test]
fn texts_of_the_original() {
    let cases: &[(fn(), &str)] = &[
        (|| _ = log2_strict_usize(0), "Not a power of two"),
        (|| _ = log2_strict_usize(6), "Not a power of two"),
        (|| _ = log3_strict_usize(0), "log3_strict_usize: input must be non-zero"),
        (|| _ = log3_strict_usize(6), "log3_strict_usize: input is not a power of 3"),
        (
            || transpose(&[0u8; 5], &mut [0; 6], 3, 2),
            "assertion `left == right` failed: Input length 5 doesn't match width*height = 6\n  left: 5\n right: 6",
        ),
        (
            || transpose(&[0u8; 6], &mut [0; 5], 3, 2),
            "assertion `left == right` failed: Output length 5 doesn't match width*height = 6\n  left: 5\n right: 6",
        ),
        (
            || transpose(&[0u8; 4], &mut [0; 5], 3, 2),
            "assertion `left == right` failed: Input length 4 doesn't match width*height = 6\n  left: 4\n right: 6",
        ),
        (|| _ = LinearMap::<u8, u8>::new()[&1], "called `Option::unwrap()` on a `None` value"),
        (|| _ = LinearMap::<u8, u16>::with_capacity(usize::MAX / 4), "capacity overflow"),
    ];
    for (call, original) in cases {
        check_text(*call, original, "");
    }
    let reversals: [fn(); 3] = [
        || reverse_slice_index_bits(&mut [0u8; 6]),
        || reverse_slice_index_bits(&mut [(); 6]),
        || reverse_slice_row_index_bits(&mut [0u8; 6], 1),
    ];
    for call in reversals {
        check_text(call, "Not a power of two", ": 6 items");
    }
}

/// The text names the length of the list. Rows of one item are refused as the items are.
#[test]
fn texts_of_all_lengths() {
    for len in 0..70 {
        let fits = len == 0 || usize::is_power_of_two(len);
        let wanted = (!fits).then(|| format!("Not a power of two: {len} items"));
        let (mut list, mut rows) = (vec![0u16; len], vec![0u32; len]);
        let refused = refusal(|| reverse_slice_index_bits(&mut list));
        assert_eq!(refused.map(|it| it.text), wanted);
        let refused = refusal(|| reverse_slice_row_index_bits(&mut rows, 1));
        assert_eq!(refused.map(|it| it.text), wanted);
    }
}

/// The panic texts of the call for longer rows, which the original does not have.
#[test]
fn texts_of_rows() {
    let cases: &[(usize, &str)] = &[
        (2, "length 6 is not 2 times zero or a power of two"),
        (4, "length 6 is not 4 times zero or a power of two"),
        (0, "length 6 is not zero, and a row has no items"),
    ];
    for (row_width, wanted) in cases {
        let refused = refusal(|| reverse_slice_row_index_bits(&mut [0u8; 6], *row_width)).unwrap();
        assert_eq!((refused.text.as_str(), refused.file.as_str()), (*wanted, file!()));
    }
}

/// Conditions that the original tests only with debug assertions, and what its release build returns if they fail.
#[test]
fn digits_by_other_numbers() {
    if cfg!(debug_assertions) {
        check_text(|| _ = reverse_bits(1, 6), "assertion failed: n.is_power_of_two()", "");
        check_text(|| _ = reverse_bits_len(1, ALL + 1), "assertion failed: bit_len <= usize::BITS as usize", "");
    } else {
        let by_len = [(1, ALL + 1), (11, ALL + 6), (1, 1 << (ALL / 2)), (5, usize::MAX)]
            .map(|(x, bit_len)| reverse_bits_len(x, bit_len));
        assert_eq!(by_len, [1, 0x34, 1 << (ALL - 1), 5 << (ALL - 4)]);
        let by_power = [(5, 6), (11, 12), (1, 0), (7, usize::MAX)].map(|(x, n)| reverse_bits(x, n));
        assert_eq!(by_power, [1, 3, 1 << (ALL - 1), 7 << (ALL - 3)]);
    }
}

#[test]
fn rows_of_each_length_and_width() {
    for (len, width) in (0..70).flat_map(|len| (0..9).map(move |width| (len, width))) {
        let mut list: Vec<[u8; 5]> = (0..len).map(|i| [i; 5]).collect();
        let mut without_bytes = vec![(); len as usize];
        let fits = len == 0 || (width > 0 && len % width == 0 && (len / width).is_power_of_two());
        let width = width as usize;
        let panicked = [
            panics(|| reverse_slice_row_index_bits(&mut list, width)),
            panics(|| reverse_slice_row_index_bits(&mut without_bytes, width)),
        ];
        assert_eq!(panicked, [!fits; 2], "{len} items in rows of {width}");
        assert!(fits || list.into_iter().eq((0..len).map(|i| [i; 5])));
    }
}

#[test]
fn rows_that_no_memory_holds() {
    for width in [1 << (ALL - 3), 1 << (ALL - 1), usize::MAX] {
        assert!(panics(|| reverse_slice_row_index_bits(&mut [1u64; 8], width)));
        assert!(panics(|| reverse_slice_row_index_bits(&mut [[1u8; 5]; 8], width)));
        assert!(panics(|| reverse_slice_row_index_bits(&mut [(); 8], width)));
    }
}

/// The panic of a transpose of lists of these lengths names the length that does not fit, as the original's does, and the
/// caller's line. The output keeps its items.
fn check_lengths(lengths: [usize; 2], (width, height): (usize, usize)) {
    let product = width as u128 * height as u128;
    let wanted = |line| {
        let text = text_of_transpose(lengths[0], lengths[1], product)?;
        let file = file!().to_owned();
        Some(Refusal { text, file, line })
    };
    let (input, mut output) = (vec![8u16; lengths[0]], vec![7; lengths[1]]);
    let line = line!() + 1;
    let refused = refusal(|| transpose(&input, &mut output, width, height));
    assert_eq!(refused, wanted(line));
    assert!(refused.is_none() || output.iter().all(|it| *it == 7));
    let (input, mut output) = (vec![(); lengths[0]], vec![(); lengths[1]]);
    let line = line!() + 1;
    let refused = refusal(|| transpose(&input, &mut output, width, height));
    assert_eq!(refused, wanted(line));
}

#[test]
fn matrices_of_all_lengths() {
    for (input, output) in (0..=13).flat_map(|input| (0..=13).map(move |output| (input, output))) {
        for shape in [(3, 4), (4, 3), (12, 1), (1, 12), (1, 1), (0, 5), (5, 0), (usize::MAX, 0)] {
            check_lengths([input, output], shape);
        }
    }
    let near = (29..=31).flat_map(|input| (29..=31).map(move |output| [input, output]));
    for lengths in near.chain([[0, 30], [30, 0], [5000, 5001]]) {
        check_lengths(lengths, (5, 6));
        check_lengths(lengths, (50, 100));
    }
}

/// The products of these sides are 0 or 1 if they wrap. The text has the product without wrapping.
#[test]
fn matrices_whose_product_wraps() {
    let shapes = [(1 << (ALL / 2), 1 << (ALL / 2)), (1 << (ALL - 1), 2), (2, 1 << (ALL - 1)), (usize::MAX, usize::MAX)];
    for shape in shapes {
        for lengths in [[0, 0], [1, 1], [0, 1], [1, 0]] {
            check_lengths(lengths, shape);
        }
    }
}
