//! Byte lists as C hands them over; those that a call reads are grouped by what they stand for.

/// The lists of a matrix.
#[derive(Clone, Copy, Debug)]
pub struct MatrixLists<'a> {
    pub n: u32,
    pub row_starts: &'a [u8],
    pub columns: &'a [u8],
    pub values: &'a [u8],
}

/// The lists of a matrix whose values are lent to be changed, without them.
#[derive(Clone, Copy, Debug)]
pub struct PatternLists<'a> {
    pub n: u32,
    pub row_starts: &'a [u8],
    pub columns: &'a [u8],
}

/// A new value for the entry at row and column.
#[derive(Clone, Copy, Debug)]
pub struct Altered {
    pub row: u32,
    pub column: u32,
    pub value: i32,
}

/// The lists of a plan.
#[derive(Clone, Copy, Debug)]
pub struct PlanLists<'a> {
    pub order: &'a [u8],
    pub groups: &'a [u8],
    pub group_count: u32,
}

/// The lists of a run, its state and sums apart.
#[derive(Clone, Copy, Debug)]
pub struct RunLists<'a> {
    pub matrix: MatrixLists<'a>,
    pub movements: &'a [u8],
    pub plan: PlanLists<'a>,
}

/// The lists of two crews over one matrix and plan, their states and sums apart: crew 0's run, and the movements of
/// crew 1.
#[derive(Clone, Copy, Debug)]
pub struct CrewLists<'a> {
    pub run: RunLists<'a>,
    pub movements1: &'a [u8],
}

impl<'a> CrewLists<'a> {
    /// The lists of a crew's own run.
    pub fn own(&self, crew: usize) -> RunLists<'a> {
        let movements = [self.run.movements, self.movements1][crew];
        RunLists {
            movements,
            ..self.run
        }
    }
}

/// The bytes of a list of numbers, each number's low byte first.
pub fn bytes<T: Copy, const W: usize>(numbers: &[T], word: fn(T) -> [u8; W]) -> Vec<u8> {
    numbers.iter().flat_map(|&number| word(number)).collect()
}

/// The last refusal's number.
pub const REFUSALS: usize = 26;

/// The refusal's number in an answer word, bits 32 to 39; 0 if the call was accepted.
pub fn refusal_number(word: u64) -> usize {
    (word >> 32 & 0xff) as usize
}
