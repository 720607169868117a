//! The matrix in full rows, the tests of lent rows (5) and movements (6), and the product on one core.

use super::Refusal;

/// The most freedoms of a matrix.
pub const MOST_FREEDOMS: u32 = 4_096;
/// The most stored entries on and below the diagonal.
pub const MOST_ENTRIES: usize = 32_768;
/// The largest stiffness either side of 0, in N/mm.
pub const LARGEST_VALUE: u32 = 1_000_000_000;
/// The largest movement either side of 0, in µm.
pub const LARGEST_MOVEMENT: u32 = 1_000_000;

/// A matrix "held in full rows: row starts (the first is 0), ascending columns, values".
#[derive(Clone, Debug, PartialEq, Eq)]
pub struct Matrix {
    pub n: u32,
    pub starts: Vec<u32>,
    pub columns: Vec<u32>,
    pub values: Vec<i32>,
}

/// Full rows that are known to be a matrix, cut to what is read of the lent lists.
#[derive(Clone, Copy, Debug)]
pub struct Rows<'a> {
    pub n: usize,
    starts: &'a [u32],
    columns: &'a [u32],
    values: &'a [i32],
}

/// One stored entry on or below the diagonal, numbered from 0.
#[derive(Clone, Copy, Debug, PartialEq, Eq)]
pub struct Entry {
    pub row: u32,
    pub column: u32,
    pub value: i32,
}

impl Entry {
    /// The key that sorts entries by column, then row.
    pub fn key(&self) -> u64 {
        u64::from(self.column) << 32 | u64::from(self.row)
    }
}

impl Matrix {
    /// The matrix of entries on and below the diagonal, in any order, none given twice.
    pub fn of_entries(n: u32, mut entries: Vec<Entry>) -> Matrix {
        entries.sort_unstable_by_key(Entry::key);
        Matrix::of_sorted(n, &entries)
    }

    /// The matrix of entries by column, then row; each goes to the end of its row and of its mirror's row.
    pub fn of_sorted(n: u32, entries: &[Entry]) -> Matrix {
        let starts = row_starts(n, entries);
        let stored = starts[n as usize] as usize;
        let mut ends = starts.clone();
        let mut columns = vec![0; stored];
        let mut values = vec![0; stored];
        let mut put = |row: u32, column: u32, value: i32| {
            let end = &mut ends[row as usize];
            columns[*end as usize] = column;
            values[*end as usize] = value;
            *end += 1;
        };
        for entry in entries {
            put(entry.row, entry.column, entry.value);
            if entry.row != entry.column {
                put(entry.column, entry.row, entry.value);
            }
        }
        Matrix {
            n,
            starts,
            columns,
            values,
        }
    }

    /// The matrix's rows, without a test.
    pub fn rows(&self) -> Rows<'_> {
        Rows {
            n: self.n as usize,
            starts: &self.starts,
            columns: &self.columns,
            values: &self.values,
        }
    }

    /// The entries on and below the diagonal, by column, then row.
    pub fn entries(&self) -> Vec<Entry> {
        let rows = self.rows();
        let mut entries = Vec::with_capacity(self.columns.len());
        for column in 0..rows.n {
            for (row, value) in rows.entries(column) {
                if row >= column {
                    let (row, column) = (row as u32, column as u32);
                    entries.push(Entry { row, column, value });
                }
            }
        }
        entries
    }
}

/// The n + 1 row starts of the full rows that entries make.
fn row_starts(n: u32, entries: &[Entry]) -> Vec<u32> {
    let mut starts = vec![0; n as usize + 1];
    for entry in entries {
        starts[entry.row as usize + 1] += 1;
        starts[entry.column as usize + 1] += u32::from(entry.row != entry.column);
    }
    for row in 1..starts.len() {
        starts[row] += starts[row - 1];
    }
    starts
}

impl<'a> Rows<'a> {
    /// The test of lent rows: refusal 5 if they "are no matrix as above".
    pub fn lent(
        n: u32,
        starts: &'a [u32],
        columns: &'a [u32],
        values: &'a [i32],
    ) -> Result<Rows<'a>, Refusal> {
        let rows = Rows::cut(n, starts, columns, values).ok_or(Refusal::at(5, 0))?;
        if rows.are_small() && rows.are_mirrored() {
            return Ok(rows);
        }
        Err(Refusal::at(5, 0))
    }

    /// The lent lists cut to n + 1 row starts and the last row's entries, if they reach that far.
    fn cut(n: u32, starts: &'a [u32], columns: &'a [u32], values: &'a [i32]) -> Option<Rows<'a>> {
        if !(1..=MOST_FREEDOMS).contains(&n) {
            return None;
        }
        let n = n as usize;
        let starts = starts.get(..=n)?;
        let stored = starts[n] as usize;
        let rising = starts.windows(2).all(|pair| pair[0] <= pair[1]);
        if starts[0] != 0 || !rising {
            return None;
        }
        Some(Rows {
            n,
            starts,
            columns: columns.get(..stored)?,
            values: values.get(..stored)?,
        })
    }

    /// Whether no value passes the largest.
    fn are_small(&self) -> bool {
        let largest = self.values.iter().map(|value| value.unsigned_abs()).max();
        largest.unwrap_or(0) <= LARGEST_VALUE
    }

    /// Whether columns ascend, "entry (i, j) is there if (j, i) is, with the same value", and few enough are stored.
    ///
    /// Each row keeps a cursor at its first entry above the diagonal that has not met its mirror. Rows are met in
    /// ascending order, so the cursors also show that columns ascend above the diagonal and stay below n.
    fn are_mirrored(&self) -> bool {
        let mut cursors = vec![0; self.n];
        let mut below = 0;
        for row in 0..self.n {
            let (from, end) = self.span(row);
            let mut at = from;
            let mut least = 0;
            while at < end && (self.columns[at] as usize) < row {
                let column = self.columns[at] as usize;
                let mirror: usize = cursors[column];
                if column < least || mirror == self.starts[column + 1] as usize {
                    return false;
                }
                if self.columns[mirror] as usize != row || self.values[mirror] != self.values[at] {
                    return false;
                }
                cursors[column] = mirror + 1;
                least = column + 1;
                at += 1;
            }
            at += usize::from(at < end && self.columns[at] as usize == row);
            below += at - from;
            cursors[row] = at;
        }
        let met = |row: usize| cursors[row] == self.starts[row + 1] as usize;
        below <= MOST_ENTRIES && (0..self.n).all(met)
    }

    /// Where a row's entries begin and end in the lists.
    pub fn span(&self, row: usize) -> (usize, usize) {
        (self.starts[row] as usize, self.starts[row + 1] as usize)
    }

    /// A row's columns.
    pub fn columns(&self, row: usize) -> &'a [u32] {
        let (from, end) = self.span(row);
        &self.columns[from..end]
    }

    /// A row's columns and values.
    pub fn entries(&self, row: usize) -> impl Iterator<Item = (usize, i32)> + 'a {
        let (from, end) = self.span(row);
        let columns = self.columns[from..end].iter();
        let values = self.values[from..end].iter();
        columns
            .zip(values)
            .map(|(&column, &value)| (column as usize, value))
    }

    /// The number of entries in the full rows.
    pub fn stored(&self) -> usize {
        self.columns.len()
    }

    /// The number of joined pairs: "Two joined freedoms are one joined pair".
    pub fn joined_pairs(&self) -> usize {
        let later = |row: usize| {
            let columns = self.columns(row);
            columns
                .iter()
                .filter(|&&other| other as usize > row)
                .count()
        };
        (0..self.n).map(later).sum()
    }

    /// The full product: "at i the sum over all freedoms j of entry (i, j) × j's movement".
    pub fn product(&self, movements: &[i32]) -> Vec<i64> {
        let force = |row: usize| {
            self.entries(row)
                .map(|(other, value)| i64::from(value) * i64::from(movements[other]))
                .sum()
        };
        (0..self.n).map(force).collect()
    }

    /// The product call's work after 5: refusals 6 and 9, else the forces are written.
    pub fn product_into(&self, movements: &[i32], forces: &mut [i64]) -> Result<(), Refusal> {
        judge_movements(self.n, movements)?;
        super::room(forces.len(), self.n)?;
        forces[..self.n].copy_from_slice(&self.product(movements));
        Ok(())
    }
}

/// The test of movements: "movement list has not n numbers (0), or one is too large (its index)".
pub fn judge_movements(n: usize, movements: &[i32]) -> Result<(), Refusal> {
    if movements.len() != n {
        return Err(Refusal::at(6, 0));
    }
    let large = |movement: &i32| movement.unsigned_abs() > LARGEST_MOVEMENT;
    match movements.iter().position(large) {
        Some(index) => Err(Refusal::at(6, index)),
        None => Ok(()),
    }
}
