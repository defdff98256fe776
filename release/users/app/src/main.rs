//! A user's crate that takes the package under the original's name.

use p3_util::transpose::transpose;
use p3_util::{indices_arr, log2_strict_usize, reverse_bits_len, reverse_slice_index_bits};

const ITEMS: usize = 8;
const LOG_ITEMS: usize = log2_strict_usize(ITEMS);
const REVERSED: [usize; ITEMS] = {
    let mut table = indices_arr::<ITEMS>();
    let mut i = 0;
    while i < ITEMS {
        table[i] = reverse_bits_len(i, LOG_ITEMS);
        i += 1;
    }
    table
};

fn main() {
    let mut list = indices_arr::<ITEMS>();
    reverse_slice_index_bits(&mut list);
    assert_eq!(list, REVERSED);
    let mut output = [0; 6];
    transpose(&[1, 2, 3, 4, 5, 6], &mut output, 3, 2);
    println!("{list:?} {output:?}");
}

#[test]
fn runs() {
    main();
}
