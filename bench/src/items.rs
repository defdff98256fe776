//! Items of each size, and the calls on them.

use std::hint::black_box;

use crate::cases::{Case, Work};
use crate::measure::{Contender, Runner, Task};

/// The sizes of an item in bytes, each with a type of this size.
macro_rules! sizes {
    ($($size:literal $item:ty,)*) => {
        fn runner_of(case: &Case) -> Runner {
            match case.item_size {
                $($size => runner::<$item>(case),)*
                size => panic!("no items of {size} bytes are measured"),
            }
        }
    };
}

#[cfg(few)]
sizes! { 1 u8, 4 u32, 8 u64, 16 [u64; 2], 32 [u64; 4], }

#[cfg(not(few))]
sizes! {
    1 u8, 2 u16, 3 [u8; 3], 4 u32, 8 u64, 12 [u32; 3], 16 [u64; 2], 20 [u32; 5], 24 [u64; 3], 32 [u64; 4], 40 [u64; 5], 48 [u64; 6],
    64 [u64; 8],
}

pub trait Item: Copy + PartialEq + Send + Sync + 'static {
    fn numbered(i: usize) -> Self;
}

macro_rules! number_items {
    ($($number:ty)*) => {
        $(
            impl Item for $number {
                fn numbered(i: usize) -> Self {
                    ((i as u64 + 1).wrapping_mul(0x9e37_79b9_7f4a_7c15) >> 32) as $number
                }
            }
        )*
    };
}

number_items!(u8 u16 u32 u64);

impl<T: Item, const N: usize> Item for [T; N] {
    fn numbered(i: usize) -> Self {
        std::array::from_fn(|k| T::numbered(i + k))
    }
}

impl Task for Case {
    fn name(&self) -> &str {
        &self.name
    }

    fn units(&self) -> usize {
        self.units()
    }

    /// The contenders, which take turns. The last one is the copy. The original has no call for rows.
    fn contenders(&self) -> Vec<Contender> {
        let rows = matches!(self.work, Work::Rows(..));
        let mut found = vec![Contender::Proved];
        found.extend((cfg!(original) && !rows).then_some(Contender::Original));
        found.extend((cfg!(parallel) || self.parts.is_some()).then_some(Contender::Call));
        found.extend(cfg!(before).then_some(Contender::Before));
        found.push(Contender::Copy);
        found
    }

    fn prepare(&self) -> Runner {
        runner_of(self)
    }
}

fn runner<T: Item>(case: &Case) -> Runner {
    let contenders = case.contenders();
    let from: Vec<T> = (0..case.items()).map(T::numbered).collect();
    let wanted: Vec<T> = (0..from.len()).map(|i| from[case.source(i)]).collect();
    let (to, case) = (from.clone(), case.clone());
    let mut lists = Lists { case, from, to };
    contenders.iter().for_each(|&contender| lists.check(contender, &wanted));
    Box::new(move |contender, times| lists.run(contenders[contender], times))
}

/// The lists of one case. A reversal works in `to`; a transpose goes from `from` to `to`, and so does a copy.
struct Lists<T> {
    case: Case,
    from: Vec<T>,
    to: Vec<T>,
}

/// A method that makes the calls of the package with this name `times` times, in so many parts, one after the other, if there is a
/// number of them.
macro_rules! calls_by {
    ($name:ident, $package:ident) => {
        fn $name(&mut self, times: u32, parts: Option<usize>) {
            match parts {
                Some(parts) => self.repeat(
                    times,
                    |to, ()| $package::parts::reversal(to, parts).for_each(|part| part.run()),
                    |to, width| $package::parts::row_reversal(to, width, parts).for_each(|part| part.run()),
                    |to, (from, width, height)| {
                        $package::parts::transpose(from, to, width, height, parts).for_each(|part| part.run())
                    },
                ),
                None => self.repeat(
                    times,
                    |to, ()| $package::reverse_slice_index_bits(to),
                    $package::reverse_slice_row_index_bits,
                    |to, (from, width, height)| $package::transpose::transpose(from, to, width, height),
                ),
            }
        }
    };
}

impl<T: Item> Lists<T> {
    /// Makes the contender's call `times` times, each time on the result of the call before.
    fn run(&mut self, contender: Contender, times: u32) {
        let parts = self.case.parts;
        // The package's calls are here once. If there were two arms for them, the compiler would merge these, and would not
        // inline short calls any more.
        match contender {
            #[cfg(parallel)]
            Contender::Proved => self.on_threads(times, None),
            #[allow(unreachable_patterns, reason = "the arm above may have the first")]
            Contender::Proved | Contender::Call => {
                self.package(times, parts.filter(|_| contender == Contender::Proved))
            }
            #[cfg(original)]
            Contender::Original => self.original(times),
            #[cfg(before)]
            Contender::Before => self.package_before(times, parts),
            Contender::Copy => repeat(times, &mut self.to, self.from.as_slice(), <[T]>::copy_from_slice),
            #[cfg(not(all(original, before)))]
            _ => unreachable!("the benchmark was built without this contender"),
        }
    }

    calls_by!(package, p3_util_proved);
    #[cfg(before)]
    calls_by!(package_before, p3_util_before);
    #[cfg(parallel)]
    calls_by!(on_threads, p3_util_on_threads);

    #[cfg(original)]
    fn original(&mut self, times: u32) {
        self.repeat(
            times,
            |to, ()| p3_util::reverse_slice_index_bits(to),
            |_, _| unreachable!("the original has no call for rows"),
            |to, (from, width, height)| p3_util::transpose::transpose(from, to, width, height),
        )
    }

    /// Makes the call of the case `times` times. It is one of these three.
    fn repeat<'a>(
        &'a mut self,
        times: u32,
        reverse: impl Fn(&mut [T], ()),
        reverse_rows: impl Fn(&mut [T], usize),
        transpose: impl Fn(&mut [T], (&'a [T], usize, usize)),
    ) {
        let to = self.to.as_mut_slice();
        match self.case.work {
            Work::Reverse(_) => repeat(times, to, (), reverse),
            Work::Rows(..) => repeat(times, to, self.case.row_width(), reverse_rows),
            Work::Transpose(width, height) => repeat(times, to, (self.from.as_slice(), width, height), transpose),
        }
    }

    /// Makes one call from the same start and compares the list with the one that the definition says.
    fn check(&mut self, contender: Contender, wanted: &[T]) {
        self.to.copy_from_slice(&self.from);
        self.run(contender, 1);
        let wanted = if contender == Contender::Copy { self.from.as_slice() } else { wanted };
        assert!(self.to == wanted, "wrong: {}", self.case.name);
    }
}

/// Makes the call `times` times. Each call has a loop of its own, so that little time is spent elsewhere, and the
/// compiler cannot know the call's arguments.
#[inline(never)]
fn repeat<T, R: Copy>(times: u32, to: &mut [T], rest: R, call: impl Fn(&mut [T], R)) {
    for _ in 0..times {
        let (to, rest) = black_box((&mut *to, rest));
        call(to, rest);
    }
    black_box(to);
}
