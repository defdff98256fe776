// rust/erase writes this file from crates/p3_util_fast/src/registers.rt. Make changes there.
//! Squares of items that are transposed in registers, for holders that can read, write and interleave registers.
//!
//! A *register* holds some items, one after another. The rows of a square, one after another, are one list, which is in
//! some registers. A *stage* interleaves the first half of this list with the second half, as a perfect shuffle of
//! cards does. Two stages turn the rows of a square of 4 by 4 into its columns:
//!
//! ```text
//!              first half                  second half
//! the rows     a0 a1 a2 a3  b0 b1 b2 b3    c0 c1 c2 c3  d0 d1 d2 d3
//! stage one    a0 c0 a1 c1  a2 c2 a3 c3    b0 d0 b1 d1  b2 d2 b3 d3
//! stage two    a0 b0 c0 d0  a1 b1 c1 d1    a2 b2 c2 d2  a3 b3 c3 d3
//! ```
//!
//! A square of 2 rows takes one stage, and a square of 8 rows takes three. The same is true of several squares side by
//! side, whose rows have 8 items together. So 8 rows of squares, in four registers of two rows each, are transposed at
//! once. `low` and `high` interleave the halves of two registers. They are one instruction each, which manuals name
//! `unpack` (x86-64) or `zip` (aarch64).
//!
//! A stage here rotates the bits of an item's index by one, while a stage of
//! [`butterfly_4x4`](crate::kernels::transpose::butterfly_4x4) exchanges one bit of the row number with the same bit
//! of the column number: after two stages of either, the two numbers are exchanged.

/// What a function returns for 0 to 7 as its last argument. With a loop, the compiler would move registers back and
/// forth in the loop over the blocks.
macro_rules! eight {
    ($value:ident($($given:expr),*)) => {
        [
            $value($($given,)* 0),
            $value($($given,)* 1),
            $value($($given,)* 2),
            $value($($given,)* 3),
            $value($($given,)* 4),
            $value($($given,)* 5),
            $value($($given,)* 6),
            $value($($given,)* 7),
        ]
    };
}

pub(crate) mod blocks;
pub(crate) mod line_blocks;
pub(crate) mod tiles;

/// Some items, one after another, as many for each register of a type.
pub(crate) trait Register<T>: Copy {
    /// The items of one half of a register.
    type Half: Copy;

    /// The number of items of a half, which is also the number of rows of a square.
    const SIDE: usize;

    /// Interleaves the first halves of two registers.
    fn low(self, other: Self) -> Self;

    /// Interleaves the second halves of two registers.
    fn high(self, other: Self) -> Self;

    /// A register whose first half is this one. Its second half may be anything.
    fn from_half(first: Self::Half) -> Self;

    /// Both halves of a register.
    fn halves(self) -> (Self::Half, Self::Half);
}

/// A list in which a run of items, half a register, can be read at once.
///
/// A holder also says which runs may be read, by `may`. A function that is generic over this trait is proved for
/// whatever it says, so it reads no run but those for which its own `requires` asks.
pub(crate) trait Loads<T, D: Register<T>> {
    /// Reads the run from `place` on.
    fn load(&self, place: usize) -> D::Half;
}

/// A list in which such a run can also be written. No store changes what `may` and `may_stream` say.
pub(crate) trait Runs<T, D: Register<T>>: Loads<T, D> {
    /// Writes the run from `place` on.
    fn store(&mut self, place: usize, run: D::Half);

    /// Does the same as `store`. It is for a run that the kernel does not use again, so a holder may store it past the
    /// caches. No clause says that the run is not used again: that would take longer, and leave the same items.
    fn stream(&mut self, place: usize, run: D::Half) {
        self.store(place, run);
    }
}

/// Four registers.
pub(crate) struct Four<D> {
    pub a: D,
    pub b: D,
    pub c: D,
    pub d: D,
}

/// Interleaves the items of the first two registers with those of the last two.
#[inline(always)]
fn next_stage<T, D: Register<T>>(four: Four<D>) -> Four<D> {
    let Four { a, b, c, d } = four;
    Four { a: a.low(c), b: a.high(c), c: b.low(d), d: b.high(d) }
}

/// Reads two runs and interleaves them.
#[inline(always)]
fn load_two<T, D: Register<T>, S: Loads<T, D>>(list: &S, first: usize, second: usize) -> D {
    D::from_half(list.load(first)).low(D::from_half(list.load(second)))
}

/// Reads 8 runs. Each register has two of them, interleaved: the first stage is made as they are read.
#[inline(always)]
fn load<T, D: Register<T>, S: Loads<T, D>>(list: &S, from: [usize; 8]) -> Four<D> {
    Four {
        a: load_two(list, from[0], from[4]),
        b: load_two(list, from[1], from[5]),
        c: load_two(list, from[2], from[6]),
        d: load_two(list, from[3], from[7]),
    }
}

/// The places at which the registers of a stage are read, in their order. `places` has the first place of each row of
/// the squares, one square after another.
#[inline(always)]
fn in_order(places: [usize; 8], side: usize) -> [usize; 8] {
    if side == 2 {
        return [places[0], places[2], places[4], places[6], places[1], places[3], places[5], places[7]];
    }
    if side == 4 {
        return [places[0], places[4], places[1], places[5], places[2], places[6], places[3], places[7]];
    }
    places
}

/// Reads squares, which are 8 rows together, and transposes them. `places` has the first place of each row, one square
/// after another.
#[inline(always)]
fn load_columns<T, D: Register<T>, S: Loads<T, D>>(list: &S, places: [usize; 8]) -> Four<D> {
    let side = D::SIDE;
    let one = load(list, in_order(places, side));
    if side == 2 {
        return one;
    }
    let two = next_stage(one);
    if side == 4 {
        return two;
    }
    next_stage(two)
}

/// Writes the first half of a register from place `first` on, and the second half from place `second` on.
#[inline(always)]
fn store_two<T, D: Register<T>, M: Runs<T, D>>(list: &mut M, first: usize, second: usize, rows: D) {
    let (a, b) = rows.halves();
    list.store(first, a);
    list.store(second, b);
}

/// Stores four registers, or the first two of them, by runs of `count` places.
#[inline(always)]
fn store<T, D: Register<T>, M: Runs<T, D>>(list: &mut M, count: usize, to: [usize; 8], four: Four<D>) {
    store_two(list, to[0], to[1], four.a);
    store_two(list, to[2], to[3], four.b);
    if count == 8 {
        store_two(list, to[4], to[5], four.c);
        store_two(list, to[6], to[7], four.d);
    }
}

/// For each row `c` of a tile, the place in column `tops[c]`.
#[inline(always)]
fn in_columns(x: [usize; 8], tops: [usize; 8]) -> [usize; 8] {
    [
        x[0] + tops[0],
        x[1] + tops[1],
        x[2] + tops[2],
        x[3] + tops[3],
        x[4] + tops[4],
        x[5] + tops[5],
        x[6] + tops[6],
        x[7] + tops[7],
    ]
}

/// The first place of row `c` of some squares side by side, if the first row of its square is row `tops[c]` of a tile.
#[inline(always)]
fn row_of_squares(x: [usize; 8], side: usize, tops: [usize; 8], c: usize) -> usize {
    x[tops[c] + c % side] + (c - c % side)
}

/// The first place of each row of some squares side by side, if the first row of the square of row `c` is row `tops[c]`
/// of a tile.
#[inline(always)]
fn in_rows(x: [usize; 8], side: usize, tops: [usize; 8]) -> [usize; 8] {
    eight!(row_of_squares(x, side, tops))
}

/// What holds one item.
pub(crate) trait Single<T>: Copy {}

/// Two items, one after the other.
#[derive(Clone, Copy)]
pub(crate) struct Two<H>(H, H);

impl<T, H: Single<T>> Register<T> for Two<H> {
    type Half = H;

    const SIDE: usize = 1;

    #[inline(always)]
    fn low(self, other: Self) -> Self {
        Two(self.0, other.0)
    }

    #[inline(always)]
    fn high(self, other: Self) -> Self {
        Two(self.1, other.1)
    }

    #[inline(always)]
    fn from_half(first: H) -> Self {
        Two(first, first)
    }

    #[inline(always)]
    fn halves(self) -> (H, H) {
        (self.0, self.1)
    }
}

/// A register that may be one of a [`Pair`]. It has so few items that the number for the pair does not wrap.
pub(crate) trait Paired<T>: Register<T> {}

/// Two registers, whose items follow each other.
#[derive(Clone, Copy)]
pub(crate) struct Pair<R>(R, R);

impl<T, R: Paired<T>> Register<T> for Pair<R> {
    type Half = R;

    const SIDE: usize = 2 * R::SIDE;

    #[inline(always)]
    fn low(self, other: Self) -> Self {
        Pair(self.0.low(other.0), self.0.high(other.0))
    }

    #[inline(always)]
    fn high(self, other: Self) -> Self {
        Pair(self.1.low(other.1), self.1.high(other.1))
    }

    #[inline(always)]
    fn from_half(first: R) -> Self {
        Pair(first, first)
    }

    #[inline(always)]
    fn halves(self) -> (R, R) {
        (self.0, self.1)
    }
}
