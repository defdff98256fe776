//! Calls that are not on slices: on integers, maps and iterators.

use std::hint::black_box;

use crate::measure::{Contender, Runner, Task};

/// Makes a call on data that it owns, and returns a number that depends on the results.
pub type Pass = Box<dyn Fn() -> u64>;

/// A call, for each crate that has it.
pub struct Timed {
    pub name: &'static str,
    /// How many items one pass goes over, or how many calls it makes.
    pub items: u64,
    /// Takes a list of that many distinct numbers.
    pub passes: &'static [fn(Vec<u64>) -> Pass],
}

/// A `Timed` with this name. Its pass over `$list` is written once. In it, `$library` is the package or the original.
macro_rules! timed {
    ($name:literal, $items:literal, |$library:ident, $list:ident| $pass:expr) => {
        $crate::timed::Timed {
            name: $name,
            items: $items,
            passes: &[
                |$list| {
                    use p3_util_proved as $library;
                    $pass
                },
                #[cfg(original)]
                |$list| {
                    use p3_util as $library;
                    $pass
                },
            ],
        }
    };
}
pub(crate) use timed;

impl Task for Timed {
    fn name(&self) -> &str {
        self.name
    }

    fn units(&self) -> usize {
        self.items as usize
    }

    fn contenders(&self) -> Vec<Contender> {
        [Contender::Proved, Contender::Original][..self.passes.len()].into()
    }

    fn prepare(&self) -> Runner {
        // The factor is odd, so the numbers are distinct.
        let list: Vec<u64> = (1..=self.items).map(|i| i.wrapping_mul(0x9e37_79b9_7f4a_7c15)).collect();
        let passes: Vec<Pass> = self.passes.iter().map(|pass| pass(list.clone())).collect();
        let result = passes[0]();
        assert!(passes.iter().all(|pass| pass() == result), "{}: not equal", self.name);
        Box::new(move |contender, times| (0..times).for_each(|_| _ = black_box(passes[contender]())))
    }
}
