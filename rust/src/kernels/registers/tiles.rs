// rust/erase writes this file from crates/p3_util_fast/src/registers/tiles.rt. Make changes there.
//! How a holder exchanges two tiles, or transposes one: in registers, or by single exchanges.

use crate::kernels::bulk::{Tiled, exchange_singly};
use crate::kernels::places::Places;
use crate::kernels::registers::{Register, Runs, in_columns, in_rows, load_columns, store};

/// Places of which tiles are exchanged and transposed by runs, too.
pub(crate) trait RunsOfPlaces<T, D: Register<T>>: Runs<T, D> + Places<Item = T> {}

/// Does what `Tiled::exchange_tiles` does: in registers if squares have 2, 4 or 8 rows, and otherwise item by item.
#[inline(always)]
pub(crate) fn exchange_both<T, D: Register<T>, M: RunsOfPlaces<T, D>>(list: &mut M, x: [usize; 8], y: [usize; 8]) {
    match D::SIDE {
        2 => {
            exchange_band(list, x, y, 0);
            exchange_band(list, x, y, 2);
            exchange_band(list, x, y, 4);
            exchange_band(list, x, y, 6);
        }
        4 => {
            exchange_band(list, x, y, 0);
            exchange_band(list, x, y, 4);
        }
        8 => exchange_band(list, x, y, 0),
        _ => exchange_singly(list, x, y),
    }
}

/// Does what `Tiled::turn_tile` does: in registers if squares have 2, 4 or 8 rows, and otherwise item by item.
#[inline(always)]
pub(crate) fn turn<T, D: Register<T>, M: RunsOfPlaces<T, D> + Tiled>(list: &mut M, x: [usize; 8]) {
    match D::SIDE {
        2 => {
            turn_squares(list, x, 0);
            turn_squares(list, x, 2);
            turn_squares(list, x, 4);
            turn_squares(list, x, 6);
        }
        4 => {
            turn_squares(list, x, 0);
            turn_squares(list, x, 4);
        }
        8 => turn_squares(list, x, 0),
        _ => list.turn_tile_singly(x),
    }
}

/// Exchanges `D::SIDE` rows of a tile, from row `row` on, with as many columns of the other.
#[inline(always)]
fn exchange_band<T, D: Register<T>, M: Runs<T, D>>(list: &mut M, x: [usize; 8], y: [usize; 8], row: usize) {
    let in_x = in_rows(x, D::SIDE, [row; 8]);
    let in_y = in_columns(y, [row; 8]);
    let to_y = load_columns(list, in_x);
    let to_x = load_columns(list, in_y);
    store(list, 8, in_y, to_y);
    store(list, 8, in_x, to_x);
}

/// The first column of the square whose mirror image is in row `c` of all squares.
#[inline(always)]
fn opposite(side: usize, sum: usize, c: usize) -> usize {
    (8 + sum - (c - c % side)) % 8
}

/// The first column of the square whose mirror image is in row `c` of all squares, for each `c`.
#[inline(always)]
fn opposites(side: usize, sum: usize) -> [usize; 8] {
    eight!(opposite(side, sum))
}

/// Transposes some squares of a tile, each into the place of its mirror image.
#[inline(always)]
fn turn_squares<T, D: Register<T>, M: Runs<T, D>>(list: &mut M, x: [usize; 8], sum: usize) {
    let side = D::SIDE;
    let tops = opposites(side, sum);
    let columns = load_columns(list, in_columns(x, tops));
    store(list, 8, in_rows(x, side, tops), columns);
}
