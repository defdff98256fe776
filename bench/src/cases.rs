//! The cases that are measured for the calls on slices: a call, an item's size and a shape.

#[derive(Clone, Copy)]
pub enum Work {
    /// A reversal of items, by the logarithm of their number.
    Reverse(u32),
    /// A reversal of rows, by the bytes of a row and the logarithm of their number.
    Rows(usize, u32),
    /// A transpose, by the width and the height.
    Transpose(usize, usize),
}

#[derive(Clone)]
pub struct Case {
    /// The call, the bytes of an item and the shape, such as `rows 4 64x16`.
    pub name: String,
    pub work: Work,
    pub item_size: usize,
    /// The number of parts to ask for, if the call is cut into parts.
    pub parts: Option<usize>,
}

impl Case {
    /// The case with this name.
    pub fn named(name: &str, parts: Option<usize>) -> Option<Self> {
        let [call, item, shape] = name.split(' ').collect::<Vec<_>>().try_into().ok()?;
        let (a, b) = shape.split_once(['x', '^'])?;
        let (a, b): (usize, usize) = (a.parse().ok()?, b.parse().ok()?);
        let work = match call {
            "reverse" => Work::Reverse(b as u32),
            "rows" if b.is_power_of_two() => Work::Rows(a, b.ilog2()),
            "transpose" => Work::Transpose(a, b),
            _ => return None,
        };
        let item_size = item.parse().ok()?;
        Some(Case { name: name.into(), work, item_size, parts })
    }

    /// The number of items of the list.
    pub fn items(&self) -> usize {
        self.units() * self.row_width()
    }

    /// The number of items that move, or of rows.
    pub fn units(&self) -> usize {
        match self.work {
            Work::Reverse(log) | Work::Rows(_, log) => 1 << log,
            Work::Transpose(width, height) => width * height,
        }
    }

    /// The number of items of a row that moves as a whole. Only the call on rows has more than one.
    pub fn row_width(&self) -> usize {
        match self.work {
            Work::Rows(bytes, _) => bytes / self.item_size,
            _ => 1,
        }
    }

    /// The index that the item at index `i` comes from, computed from the definitions alone.
    pub fn source(&self, i: usize) -> usize {
        let (row, item) = (i / self.row_width(), i % self.row_width());
        let from = match self.work {
            Work::Reverse(0) | Work::Rows(_, 0) => row,
            Work::Reverse(log) | Work::Rows(_, log) => row.reverse_bits() >> (usize::BITS - log),
            Work::Transpose(width, height) => row % height * width + row / height,
        };
        from * self.row_width() + item
    }
}
