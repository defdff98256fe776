//! A crate that makes each call of the package on items and on integers. `rust/test` looks at the names of the functions
//! of the package that are compiled there. There should be no kernel, for items of these sizes and for rows of any size.
//!
//! The calls are made in two modules, which are compiled apart. A function that is not `inline` is compiled in one of them
//! and called in the other, so it has a name.

#![crate_type = "lib"]

macro_rules! calls {
    ($($module:ident: $($name:ident $bytes:literal)*;)*) => { $(
        pub mod $module {
            use p3_util_proved::{parts, transpose::transpose, *};

            $(
            /// Makes each call on items of this many bytes.
            pub fn $name(list: &mut [[u8; $bytes]], output: &mut [[u8; $bytes]], width: usize) {
                reverse_slice_index_bits(list);
                reverse_slice_row_index_bits(list, width);
                parts::reversal(list, width).for_each(parts::ReversalPart::run);
                parts::row_reversal(list, width, 4).for_each(parts::ReversalPart::run);
                transpose(list, output, width, 4);
                parts::transpose(list, output, width, 4, 2).for_each(parts::TransposePart::run);
            }
            )*

            pub fn rows_of_any_size(three: &mut [[u8; 3]], hundred: &mut [[u8; 100]], long: &mut [[u8; 1024]], width: usize) {
                reverse_slice_row_index_bits(three, width);
                reverse_slice_row_index_bits(hundred, width);
                // Such an item is a row of bytes.
                reverse_slice_index_bits(long);
            }

            pub fn integers(a: usize, b: usize) -> [Option<usize>; 7] {
                let sum = checked_log_size_sum(a, b).map(|(sum, power)| sum ^ power);
                let [ceil, floor, ceil_of_64] = [log2_ceil_usize(a), log2_floor_usize(a), log2_ceil_u64(b as u64) as usize];
                let [reversed, digits] = [reverse_bits(a, b), reverse_bits_len(a, b)];
                let [first, _, third] = indices_arr::<3>();
                branch_hint();
                assert_clone::<u8>();
                assert_send::<u8>();
                assert_sync::<u8>();
                [sum, checked_pow2(b), Some(ceil ^ floor), Some(ceil_of_64), Some(reversed), Some(digits), Some(first ^ third)]
            }

            pub fn powers(n: usize) -> usize {
                log2_strict_usize(n) ^ log3_strict_usize(n)
            }
        }
    )* };
}

calls! {
    first: one 1 two 2 four 4 eight 8 twelve 12 sixteen 16 twenty 20 thirty_two 32
        sixty_four 64;
    second: one 1 two 2 four 4 eight 8 twelve 12 sixteen 16 twenty 20 thirty_two 32
        sixty_four 64;
}
