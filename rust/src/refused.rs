//! What does not compile: types that do not meet the bounds of calls, and parts that would run twice or while their list is in use.
//! These blocks show what compiles, so that only one thing is wrong in each program of the table below.
//!
//! ```
//! use p3_util_proved::{assert_clone, zip_eq::ZipEq};
//! use std::iter::FusedIterator;
//!
//! fn ends_for_good<I: FusedIterator>() {}
//!
//! fn of_both<A: ExactSizeIterator + FusedIterator, B: ExactSizeIterator + FusedIterator>() {
//!     ends_for_good::<ZipEq<A, B>>();
//! }
//!
//! assert_clone::<String>();
//! ```
//!
//! Calls that may run on other threads take only items that may go there. A reversal of rows takes all items without the feature
//! `parallel`:
//!
#![cfg_attr(feature = "parallel", doc = "```compile_fail,E0277")]
#![cfg_attr(not(feature = "parallel"), doc = "```")]
//! p3_util_proved::reverse_slice_row_index_bits(&mut [std::rc::Rc::new(1)], 1);
//! ```
//!
//! Parts and the iterators over parts can be sent to other threads together with their items. They can be shared between threads if
//! their items can, with and without the feature `checked`. A list can be used again after its parts:
//!
//! ```
//! use p3_util_proved::parts::*;
//! use p3_util_proved::{assert_send, assert_sync};
//! use std::cell::Cell;
//!
//! assert_send::<(TransposeParts<'_, u8>, TransposePart<'_, u8>)>();
//! assert_send::<(ReversalParts<'_, Cell<u8>>, ReversalPart<'_, Cell<u8>>)>();
//! assert_sync::<(TransposeParts<'_, u8>, TransposePart<'_, u8>)>();
//! assert_sync::<(ReversalParts<'_, u8>, ReversalPart<'_, u8>)>();
//!
//! let (mut list, mut output) = ([0, 1, 2, 3], [0; 4]);
//! transpose(&list, &mut output, 2, 2, 2).for_each(|part| part.run());
//! reversal(&mut list, 2).for_each(|part| part.run());
//! list[0] = output[1];
//! output[0] = list[1];
//! ```

/// Programs that do not compile, each with its error. One would compile if one bound or one lifetime were missing.
macro_rules! do_not_compile {
    ($($error:ident $program:literal)*) => { $(
        #[doc = concat!("```compile_fail,", stringify!($error), "
            use p3_util_proved::{parts::*, zip_eq::ZipEq, *};
            use std::{cell::Cell, iter::FusedIterator, rc::Rc, sync::Mutex};
            fn ends_for_good<I: FusedIterator>() {}
            let (mut list, mut output) = ([0, 1, 2, 3], [0; 4]);
            ", $program, "\n```")]
        const _: () = ();
    )* };
}

do_not_compile! {
    E0277 "assert_clone::<Mutex<u8>>();"
    E0277 "fn f<A: ExactSizeIterator + FusedIterator, B: ExactSizeIterator>() { ends_for_good::<ZipEq<A, B>>(); }"
    E0277 "fn f<A: ExactSizeIterator, B: ExactSizeIterator + FusedIterator>() { ends_for_good::<ZipEq<A, B>>(); }"
    E0277 "reverse_slice_index_bits(&mut [Cell::new(1)]);"
    E0277 "p3_util_proved::transpose::transpose(&[&Cell::new(1)], &mut [&Cell::new(1)], 1, 1);"

    // Parts with their items on other threads.
    E0277 "assert_send::<TransposeParts<'_, Cell<u8>>>();"
    E0277 "assert_send::<TransposePart<'_, Cell<u8>>>();"
    E0277 "assert_send::<ReversalParts<'_, Rc<u8>>>();"
    E0277 "assert_send::<ReversalPart<'_, Rc<u8>>>();"
    E0277 "assert_sync::<TransposeParts<'_, Cell<u8>>>();"
    E0277 "assert_sync::<TransposePart<'_, Cell<u8>>>();"
    E0277 "assert_sync::<ReversalParts<'_, Cell<u8>>>();"
    E0277 "assert_sync::<ReversalPart<'_, Cell<u8>>>();"

    // Parts that run twice.
    E0277 "assert_clone::<TransposeParts<'_, u8>>();"
    E0277 "assert_clone::<TransposePart<'_, u8>>();"
    E0277 "assert_clone::<ReversalParts<'_, u8>>();"
    E0277 "assert_clone::<ReversalPart<'_, u8>>();"
    E0382 "let part = transpose(&list, &mut output, 2, 2, 2).next().unwrap(); part.run(); part.run();"
    E0382 "let part = reversal(&mut list, 2).next().unwrap(); part.run(); part.run();"

    // As long as a part exists, its list cannot be used, not even read, and so while the iterator over the parts does, which has the
    // same lifetime. The input of a transpose cannot be written.
    E0503 "let part = transpose(&list, &mut output, 2, 2, 2).next().unwrap(); let read = output[0]; part.run();"
    E0506 "let part = transpose(&list, &mut output, 2, 2, 2).next().unwrap(); list[0] = 7; part.run();"
    E0503 "let part = reversal(&mut list, 2).next().unwrap(); let read = list[0]; part.run();"
    E0503 "let part = row_reversal(&mut list, 2, 2).next().unwrap(); let read = list[0]; part.run();"

    // No part outlives its list.
    E0597 "let part = { let mut list = [0, 1, 2, 3]; reversal(&mut list, 2).next().unwrap() }; part.run();"
}
