//! A problem, checks 1 to 5 and 16, and the mended tables: R2, R4.1 to R4.5, R4.16
//! and R5. What is read here is mended, so that no other module mends.

use crate::refusal::{require, Refusal};

/// R2.1: the greatest order.
pub const MAX_ORDER: i64 = 8;
/// R2.3: entries of L and U.
pub const ENTRY_RANGE: i128 = 1 << 20;
/// R2.4: linear terms.
pub const LINEAR_RANGE: i128 = 1 << 36;
/// R2.5: the limit.
pub const LIMIT_RANGE: i128 = 1 << 54;
/// R2.6: entries of the centre.
pub const CENTRE_RANGE: i128 = 1 << 12;
/// R2.7: entries of a vector.
pub const VECTOR_RANGE: i128 = 1 << 15;
/// R2.8: entries of a factor.
pub const FACTOR_RANGE: i128 = 1 << 26;
/// R4.9: the greatest g(k) that passes.
pub const GRADIENT_RANGE: i128 = 1 << 20;

/// A square table, row by row.
pub type Table = Vec<Vec<i128>>;

/// The interval bounds L (low) and U (high) of a symmetric matrix, mended (R2.10).
#[derive(Clone, Debug, PartialEq, Eq)]
pub struct Bounds {
    /// n
    pub order: usize,
    /// L, mended
    pub low: Table,
    /// U, mended
    pub high: Table,
}

/// The interval bounds with both ends of the linear terms, the limit and the
/// centre.
#[derive(Clone, Debug, PartialEq, Eq)]
pub struct Problem {
    /// L and U
    pub bounds: Bounds,
    /// a_low
    pub linear_low: Vec<i128>,
    /// a_high
    pub linear_high: Vec<i128>,
    /// α
    pub limit: i128,
    /// c
    pub centre: Vec<i128>,
}

impl Bounds {
    /// Checks 3, 4 and 5 of an act that is handed L and U alone, then the mended
    /// tables. The slices have passed check 2.
    pub fn read(order: usize, low: &[i64], high: &[i64]) -> Result<Bounds, Refusal> {
        check_ranges(&[(low, ENTRY_RANGE), (high, ENTRY_RANGE)])?;
        Bounds::after_range_check(order, low, high)
    }

    /// Checks 4 and 5, in this order (R5.1): 4 of the tables as handed in, 5 of the
    /// mended ones.
    fn after_range_check(order: usize, low: &[i64], high: &[i64]) -> Result<Bounds, Refusal> {
        let (low, high) = (square(order, low), square(order, high));
        require(!crossed(&low, &high), Refusal::Crossed)?;
        let (low, high) = mended(&low, &high);
        require(!crossed(&low, &high), Refusal::Lopsided)?;
        Ok(Bounds { order, low, high })
    }

    /// R2.9: w(i).
    pub fn row_width(&self, i: usize) -> i128 {
        (0..self.order)
            .map(|j| self.high[i][j] - self.low[i][j])
            .sum()
    }
}

impl Problem {
    /// Checks 3, 4, 5 and 16 of an act or file that gives a whole problem, then the
    /// problem, its tables mended. The slices have passed check 2 or 14.
    pub fn read(
        order: usize,
        low: &[i64],
        high: &[i64],
        linear_low: &[i64],
        linear_high: &[i64],
        limit: i64,
        centre: &[i64],
    ) -> Result<Problem, Refusal> {
        check_ranges(&[
            (low, ENTRY_RANGE),
            (high, ENTRY_RANGE),
            (linear_low, LINEAR_RANGE),
            (linear_high, LINEAR_RANGE),
            (&[limit], LIMIT_RANGE),
            (centre, CENTRE_RANGE),
        ])?;
        let bounds = Bounds::after_range_check(order, low, high)?;
        check_ends(linear_low, linear_high)?;
        Ok(Problem {
            bounds,
            linear_low: widen(linear_low),
            linear_high: widen(linear_high),
            limit: i128::from(limit),
            centre: widen(centre),
        })
    }
}

/// Check 1: n is an order (R4.1).
pub fn check_order(n: i64) -> Result<usize, Refusal> {
    require((1..=MAX_ORDER).contains(&n), Refusal::Order)?;
    Ok(n as usize)
}

/// Check 2: each pair is a lent buffer's size and the size it has to have (R4.2).
pub fn check_lengths(lengths: &[(usize, usize)]) -> Result<(), Refusal> {
    let all = lengths.iter().all(|(lent, wanted)| lent == wanted);
    require(all, Refusal::Length)
}

/// Check 3: each pair is a list of entries and their range (R4.3, R1.5).
fn check_ranges(lists: &[(&[i64], i128)]) -> Result<(), Refusal> {
    let all = lists
        .iter()
        .all(|(list, range)| widen(list).iter().all(|entry| entry.abs() <= *range));
    require(all, Refusal::Range)
}

/// Check 16: no linear term's low end is above its high end (R4.16).
fn check_ends(linear_low: &[i64], linear_high: &[i64]) -> Result<(), Refusal> {
    let reversed = linear_low.iter().zip(linear_high).any(|(l, h)| l > h);
    require(!reversed, Refusal::Reversed)
}

/// R15.3: the numbers of a table or factor.
pub const fn table_size(order: usize) -> usize {
    order * order
}

/// R15.3: the numbers of the sides.
pub fn sides_size(order: usize) -> usize {
    2 * order
}

/// All places (i, j) of a table.
pub fn pairs(order: usize) -> impl Iterator<Item = (usize, usize)> {
    (0..order).flat_map(move |i| (0..order).map(move |j| (i, j)))
}

/// The same numbers, 128 bits wide.
pub fn widen(numbers: &[i64]) -> Vec<i128> {
    numbers.iter().map(|number| i128::from(*number)).collect()
}

/// The numbers of a table, row by row.
pub fn square(order: usize, numbers: &[i64]) -> Table {
    widen(numbers)
        .chunks(order)
        .map(|row| row.to_vec())
        .collect()
}

/// R2.10: the mended tables. L gets the greater of L(i,j) and L(j,i), and U the
/// smaller of U(i,j) and U(j,i), in both places.
pub fn mended(low: &Table, high: &Table) -> (Table, Table) {
    let mend = |table: &Table, choose: fn(i128, i128) -> i128| -> Table {
        let entry = |i: usize, j: usize| choose(table[i][j], table[j][i]);
        let row = |i: usize| (0..table.len()).map(|j| entry(i, j)).collect();
        (0..table.len()).map(row).collect()
    };
    (mend(low, i128::max), mend(high, i128::min))
}

/// R4.4 of tables as handed in, R4.5 of mended ones: L is above U somewhere.
fn crossed(low: &Table, high: &Table) -> bool {
    pairs(low.len()).any(|(i, j)| low[i][j] > high[i][j])
}

/// Writes numbers over a lent buffer of the same length.
pub fn write_numbers(numbers: &[i128], buffer: &mut [i64]) {
    assert_eq!(numbers.len(), buffer.len());
    for (place, number) in buffer.iter_mut().zip(numbers) {
        *place = i64::try_from(*number).expect("an answer fits 64 bits");
    }
}
