//! Generators of matrices and movements: chains, grids, stars, islands, dense and sparse nets, and cable roofs.

use std::collections::{BTreeMap, BTreeSet};

use super::matrix::{Entry, Matrix, LARGEST_MOVEMENT, LARGEST_VALUE};
use super::prng::Prng;

/// The joins of a net: pairs of different freedoms.
pub type Joins = Vec<(u32, u32)>;

/// The joins of a chain.
pub fn chain_joins(n: u32) -> Joins {
    (1..n).map(|freedom| (freedom - 1, freedom)).collect()
}

/// The joins of a grid, with diagonals in one direction if `braced`.
pub fn grid_joins(width: u32, height: u32, braced: bool) -> Joins {
    let mut joins = Joins::new();
    for y in 0..height {
        for x in 0..width {
            let here = y * width + x;
            if x + 1 < width {
                joins.push((here, here + 1));
            }
            if y + 1 < height {
                joins.push((here, here + width));
            }
            if braced && x + 1 < width && y + 1 < height {
                joins.push((here, here + width + 1));
            }
        }
    }
    joins
}

/// The joins of a star about a freedom.
pub fn star_joins(n: u32, middle: u32) -> Joins {
    let others = (0..n).filter(|&freedom| freedom != middle);
    others.map(|freedom| (middle, freedom)).collect()
}

/// The joins of a net with all freedoms joined.
pub fn dense_joins(n: u32) -> Joins {
    (1..n)
        .flat_map(|row| (0..row).map(move |column| (row, column)))
        .collect()
}

/// Joins drawn at random, `count` times.
pub fn sparse_joins(rng: &mut Prng, n: u32, count: usize) -> Joins {
    let draw = |_| (rng.below(n as usize) as u32, rng.below(n as usize) as u32);
    (0..count)
        .map(draw)
        .filter(|(one, two)| one != two)
        .collect()
}

/// Chains of random lengths side by side; some freedoms are left alone.
pub fn island_joins(rng: &mut Prng, n: u32) -> Joins {
    let mut joins = Joins::new();
    let mut start = 0;
    while start < n {
        let end = n.min(start + 1 + rng.below(7) as u32);
        joins.extend((start + 1..end).map(|freedom| (freedom - 1, freedom)));
        if rng.chance(30) && end - start > 2 {
            joins.push((start, end - 1));
        }
        start = end;
    }
    joins
}

/// A band: freedoms joined to some of the next few.
pub fn band_joins(rng: &mut Prng, n: u32, width: u32) -> Joins {
    let mut joins = Joins::new();
    for row in 0..n {
        for column in row + 1..n.min(row + 1 + width) {
            if rng.chance(70) {
                joins.push((row, column));
            }
        }
    }
    joins
}

/// How entries are dressed with values.
#[derive(Clone, Copy, Debug)]
pub struct Look {
    /// Per cent of joins stored as 0.
    pub zeros: usize,
    /// Per cent of diagonals not stored.
    pub absent: usize,
    /// The largest value either side of 0.
    pub largest: u32,
}

/// The matrix of joins in any order and with repeats, dressed with random values.
pub fn dress(rng: &mut Prng, n: u32, joins: &Joins, look: Look) -> Matrix {
    let order = |&(one, two): &(u32, u32)| (one.max(two), one.min(two));
    let mut places: BTreeSet<(u32, u32)> = joins.iter().map(order).collect();
    for freedom in 0..n {
        if !rng.chance(look.absent) {
            places.insert((freedom, freedom));
        }
    }
    let mut entries = Vec::with_capacity(places.len());
    for (row, column) in places {
        let value = if rng.chance(look.zeros) {
            0
        } else {
            random_value(rng, look.largest)
        };
        entries.push(Entry { row, column, value });
    }
    Matrix::of_entries(n, entries)
}

/// A value at most `largest` either side of 0, often at the very end.
fn random_value(rng: &mut Prng, largest: u32) -> i32 {
    let largest = i64::from(largest);
    let value = match rng.below(10) {
        0 => largest,
        1 => -largest,
        _ => rng.between(-largest, largest),
    };
    value as i32
}

/// A chain with diagonal 2 and neighbours −1.
pub fn chain(n: u32) -> Matrix {
    let diagonal = (0..n).map(|row| (row, row, 2));
    let neighbours = (1..n).map(|row| (row, row - 1, -1));
    of_triples(n, diagonal.chain(neighbours))
}

/// Unjoined freedoms with diagonal 1.
pub fn unjoined(n: u32) -> Matrix {
    of_triples(n, (0..n).map(|row| (row, row, 1)))
}

/// Cliques of so many freedoms each, all values 1.
pub fn cliques(count: u32, size: u32) -> Matrix {
    let row = |row: u32| (row - row % size..=row).map(move |column| (row, column, 1));
    of_triples(count * size, (0..count * size).flat_map(row))
}

/// The first so many entries of a band nine wide: the largest matrices have them.
pub fn filled_band(n: u32, entries: usize) -> Matrix {
    let row = |row: u32| (row.saturating_sub(8)..=row).map(move |column| (row, column, 1));
    of_triples(n, (0..n).flat_map(row).take(entries))
}

/// The matrix of rows, columns and values.
pub fn of_triples(n: u32, triples: impl Iterator<Item = (u32, u32, i32)>) -> Matrix {
    let entry = |(row, column, value)| Entry { row, column, value };
    Matrix::of_entries(n, triples.map(entry).collect())
}

/// A matrix with its freedoms renumbered at random.
pub fn renumber(rng: &mut Prng, matrix: &Matrix) -> Matrix {
    let mut names: Vec<u32> = (0..matrix.n).collect();
    rng.shuffle(&mut names);
    let renamed = matrix.entries().into_iter().map(|entry| {
        let (one, two) = (names[entry.row as usize], names[entry.column as usize]);
        (one.max(two), one.min(two), entry.value)
    });
    of_triples(matrix.n, renamed)
}

/// A random net of 1 to `most` freedoms, of any kind here but the roof.
pub fn random_net(rng: &mut Prng, most: u32) -> Matrix {
    let n = 1 + rng.below(most as usize) as u32;
    let look = Look {
        zeros: rng.one_of(&[0, 0, 10, 100]),
        absent: rng.one_of(&[0, 0, 30, 100]),
        largest: rng.one_of(&[3, 1_000, LARGEST_VALUE]),
    };
    let joins = random_joins(rng, n);
    let matrix = dress(rng, n, &joins, look);
    if rng.chance(50) {
        return renumber(rng, &matrix);
    }
    matrix
}

/// The joins of a random kind of net.
fn random_joins(rng: &mut Prng, n: u32) -> Joins {
    match rng.below(10) {
        0 => chain_joins(n),
        1 | 2 => {
            let width = 1 + rng.below(n as usize) as u32;
            let width = width.min(1 + n / 4);
            grid_joins(width, n / width, rng.chance(50))
        }
        3 => star_joins(n, rng.below(n as usize) as u32),
        4 => island_joins(rng, n),
        5 => dense_joins(n.min(24)),
        6 => Joins::new(),
        7 => {
            let width = 1 + rng.below(4) as u32;
            band_joins(rng, n, width)
        }
        _ => {
            let count = rng.below(2 * n as usize + 1);
            sparse_joins(rng, n, count)
        }
    }
}

/// Random movements for n freedoms, some at the very ends.
pub fn random_movements(rng: &mut Prng, n: u32) -> Vec<i32> {
    let largest = rng.one_of(&[1, 50, LARGEST_MOVEMENT]);
    (0..n).map(|_| random_value(rng, largest)).collect()
}

/// A cable roof: a saddle over an ellipse, with a ring beam, radial cables, hoops and an inner ring.
#[derive(Clone, Copy, Debug)]
pub struct Roof {
    pub spokes: usize,
    pub rings: usize,
    /// Hoop cables on every such ring.
    pub hoop_every: usize,
    /// A column under every such joint of the beam.
    pub column_every: usize,
    /// Separate roofs in one matrix.
    pub roofs: usize,
    /// Per cent of slack cables, whose entries are stored zeros.
    pub slack: usize,
    /// Whether the joints are numbered at random instead of ring by ring.
    pub shuffled: bool,
}

impl Default for Roof {
    /// 1,300 joints: 3,900 freedoms and 25,116 stored entries.
    fn default() -> Roof {
        Roof {
            spokes: 52,
            rings: 25,
            hoop_every: 2,
            column_every: 4,
            roofs: 1,
            slack: 0,
            shuffled: false,
        }
    }
}

/// A joint's place, in whole mm.
type Joint = [i128; 3];
/// A cable's stiffness EA and its tension, both in N.
type Kind = (i128, i128);
/// A 3 × 3 block of stiffness, in N/mm.
type Block = [[i32; 3]; 3];

const RADIAL: Kind = (160_000_000, 220_000);
const HOOP: Kind = (105_000_000, 90_000);
const INNER: Kind = (420_000_000, 500_000);
const BEAM: Kind = (9_000_000_000, 400_000);
const COLUMN: [i32; 3] = [60_000, 60_000, 900_000];

/// The matrix of a roof; joint j has freedoms 3j, 3j + 1 and 3j + 2.
pub fn roof(rng: &mut Prng, roof: Roof) -> Matrix {
    let joints = roof.spokes * roof.rings;
    let mut names: Vec<usize> = (0..joints * roof.roofs).collect();
    if roof.shuffled {
        rng.shuffle(&mut names);
    }
    let mut net = RoofNet::default();
    for names in names.chunks(joints) {
        let places = roof_joints(rng, roof);
        for &name in names {
            net.add(name, name, [[0; 3]; 3], 1);
        }
        for (one, two, kind) in roof_cables(roof) {
            let block = cable_block(rng, roof, places[one], places[two], kind);
            net.add_cable(names[one], names[two], block);
        }
        for held in (0..roof.spokes).step_by(roof.column_every) {
            net.add_column(names[held]);
        }
    }
    net.matrix(3 * (joints * roof.roofs) as u32)
}

/// The joints of one roof, ring by ring from the beam inwards.
fn roof_joints(rng: &mut Prng, roof: Roof) -> Vec<Joint> {
    let (long, short, inner, rise) = (60_000.0, 45_000.0, 0.12, 6_500.0);
    let mut joints = Vec::with_capacity(roof.spokes * roof.rings);
    for ring in 0..roof.rings {
        let part = ring as f64 / (roof.rings - 1).max(1) as f64;
        let size = 1.0 - (1.0 - inner) * part;
        let off = if ring == 0 { 0.0 } else { 40.0 };
        for spoke in 0..roof.spokes {
            let turn = std::f64::consts::TAU * spoke as f64 / roof.spokes as f64;
            let (x, y) = (size * turn.cos(), size * turn.sin());
            let place = [long * x, short * y, rise * (x * x - y * y)];
            joints.push(place.map(|v| (v + (2.0 * rng.unit() - 1.0) * off).round() as i128));
        }
    }
    joints
}

/// The cables of one roof: their two joints and their kind.
fn roof_cables(roof: Roof) -> Vec<(usize, usize, Kind)> {
    let mut cables = Vec::new();
    for ring in 0..roof.rings {
        for spoke in 0..roof.spokes {
            let here = ring * roof.spokes + spoke;
            let beside = ring * roof.spokes + (spoke + 1) % roof.spokes;
            if ring + 1 < roof.rings {
                cables.push((here, here + roof.spokes, RADIAL));
            }
            if ring == 0 {
                cables.push((here, beside, BEAM));
            } else if ring == roof.rings - 1 {
                cables.push((here, beside, INNER));
            } else if ring % roof.hoop_every == 0 {
                cables.push((here, beside, HOOP));
            }
        }
    }
    cables
}

/// The block (EA / l) d dᵀ + (T / l) (I − d dᵀ) of a cable, rounded to whole N/mm; all 0 if it is slack.
fn cable_block(rng: &mut Prng, roof: Roof, one: Joint, two: Joint, kind: Kind) -> Block {
    let (ea, tension) = kind;
    let tension = (tension as f64 * (0.85 + 0.3 * rng.unit())).round() as i128;
    if rng.chance(roof.slack) && kind != BEAM {
        return [[0; 3]; 3];
    }
    let d = [two[0] - one[0], two[1] - one[1], two[2] - one[2]];
    let squared = d[0] * d[0] + d[1] * d[1] + d[2] * d[2];
    let below = (squared * 1_000_000).isqrt() * squared;
    let part = |r: usize, c: usize| {
        let round = if r == c { tension * squared } else { 0 };
        let top = 1_000 * ((ea - tension) * d[r] * d[c] + round);
        let whole = (2 * top.abs() + below) / (2 * below);
        (whole * top.signum()) as i32
    };
    [0, 1, 2].map(|r| [0, 1, 2].map(|c| part(r, c)))
}

/// The entries of a roof on and below the diagonal.
#[derive(Default)]
struct RoofNet(BTreeMap<(u32, u32), i32>);

impl RoofNet {
    /// Adds a block times a sign between two joints, or the lower half of it at one.
    fn add(&mut self, one: usize, two: usize, block: Block, sign: i32) {
        let (high, low) = (one.max(two), one.min(two));
        for (r, row) in block.iter().enumerate() {
            for (c, part) in row.iter().enumerate() {
                if high != low || c <= r {
                    let place = ((3 * high + r) as u32, (3 * low + c) as u32);
                    *self.0.entry(place).or_insert(0) += sign * part;
                }
            }
        }
    }

    /// Adds a cable: its block at both joints, and taken away between them.
    fn add_cable(&mut self, one: usize, two: usize, block: Block) {
        self.add(one, one, block, 1);
        self.add(two, two, block, 1);
        self.add(one, two, block, -1);
    }

    /// Adds the spring of a column under a joint.
    fn add_column(&mut self, joint: usize) {
        for (r, spring) in COLUMN.into_iter().enumerate() {
            let freedom = (3 * joint + r) as u32;
            *self.0.entry((freedom, freedom)).or_insert(0) += spring;
        }
    }

    /// The matrix of the entries.
    fn matrix(self, n: u32) -> Matrix {
        let triple = |((row, column), value)| (row, column, value);
        of_triples(n, self.0.into_iter().map(triple))
    }
}
