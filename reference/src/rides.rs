//! Rides gathered into running sums, and the sums read: R22 and R23.2 to R23.4.

use crate::floats::{bracket, Bracket};
use crate::problem::{check_lengths, check_order, pairs, table_size, write_numbers, LIMIT_RANGE};
use crate::refusal::{require, Refusal};
use crate::sums::{LentSums, Sums};

/// R22.3: the order of the sums that take a sample.
pub const SAMPLE_ORDER: usize = 4;

/// R23.4: the greatest allowance.
pub const MOST_ALLOWANCE: i64 = 1 << 40;

/// R22.1: the bits of a sample's floats.
#[derive(Clone, Copy, Debug, Default, PartialEq, Eq)]
pub struct Sample {
    /// Rolling, climb, air and start
    pub factors: [u32; SAMPLE_ORDER],
    /// The draw that was measured with them
    pub draw: u32,
}

/// R22.2: the brackets of a sample.
pub(crate) struct Brackets {
    factors: [Bracket; SAMPLE_ORDER],
    draw: Bracket,
}

impl Sample {
    /// All five, in the order of the C struct.
    pub fn numbers(&self) -> [u32; SAMPLE_ORDER + 1] {
        let [rolling, climb, air, start] = self.factors;
        [rolling, climb, air, start, self.draw]
    }

    /// The sample of five, in that order.
    pub fn of(numbers: [u32; SAMPLE_ORDER + 1]) -> Sample {
        let [rolling, climb, air, start, draw] = numbers;
        Sample {
            factors: [rolling, climb, air, start],
            draw,
        }
    }

    /// Check 17: each number has a bracket (R4.17).
    pub(crate) fn check(&self) -> Result<Brackets, Refusal> {
        let brackets = self.numbers().map(bracket);
        let [Some(rolling), Some(climb), Some(air), Some(start), Some(draw)] = brackets else {
            return Err(Refusal::Sample);
        };
        Ok(Brackets {
            factors: [rolling, climb, air, start],
            draw,
        })
    }
}

/// The least and the greatest of the four products of an end of one bracket with
/// an end of another.
fn end_products(x: Bracket, y: Bracket) -> Bracket {
    let mut products = [
        x.low * y.low,
        x.low * y.high,
        x.high * y.low,
        x.high * y.high,
    ];
    products.sort_unstable();
    Bracket {
        low: products[0],
        high: products[3],
    }
}

impl Brackets {
    /// What a sample adds to sums of order 4: R22.3 to R22.5.
    fn gains(&self) -> Sums {
        let Brackets { factors, draw } = self;
        // R22.3
        let entries: Vec<Bracket> = pairs(SAMPLE_ORDER)
            .map(|(i, j)| end_products(factors[i], factors[j]))
            .collect();
        // R22.4: what the linear terms lose
        let terms = factors.map(|factor| end_products(factor, *draw));
        Sums {
            low: entries.iter().map(|product| product.low).collect(),
            high: entries.iter().map(|product| product.high).collect(),
            linear_low: terms.iter().map(|product| -product.high).collect(),
            linear_high: terms.iter().map(|product| -product.low).collect(),
            // R22.5
            running_limit: -(draw.low * draw.low).min(draw.high * draw.high),
        }
    }
}

/// Checks 17, 1, 2, 3, 4, 5 and 16 (R22.6), then the sums, mended, and what the sample
/// adds to them.
pub fn read(sample: &Sample, n: i64, sums: &LentSums) -> Result<(Sums, Sums), Refusal> {
    let brackets = sample.check()?;
    let order = check_order(n)?;
    check_lengths(&[(order, SAMPLE_ORDER)])?;
    check_lengths(&sums.sizes(order))?;
    Ok((sums.read(order)?, brackets.gains()))
}

/// Gathers a sample: the same checks, then 18 (R23.6), and says whether the sums were
/// halved for it. A sample that is taken leaves the sums with it in them; a refusal leaves
/// the sums as they were.
pub fn gather(sample: &Sample, n: i64, lent: LentSums) -> Result<bool, Refusal> {
    let (sums, gains) = read(sample, n, &lent)?;
    let (after, halved) = sums.with(&gains)?;
    after.write(lent);
    Ok(halved)
}

/// Reads the sums with an allowance K: checks 1, 2, 3, 4, 5 and 16, then the limit
/// α = K + running limit (R23.2, R23.4). `limit` is lent as one number.
#[allow(clippy::too_many_arguments)]
pub fn read_sums(
    n: i64,
    low: &[i64],
    high: &[i64],
    linear_low: &[i64],
    linear_high: &[i64],
    running_limit: i64,
    allowance: i64,
    limit: &mut [i64],
) -> Result<(), Refusal> {
    let order = check_order(n)?;
    check_lengths(&[
        (low.len(), table_size(order)),
        (high.len(), table_size(order)),
        (linear_low.len(), order),
        (linear_high.len(), order),
        (limit.len(), 1),
    ])?;
    require((0..=MOST_ALLOWANCE).contains(&allowance), Refusal::Range)?;
    let alpha = i128::from(allowance) + i128::from(running_limit);
    require(alpha.abs() <= LIMIT_RANGE, Refusal::Range)?;
    Sums::read(order, low, high, linear_low, linear_high, running_limit)?;
    write_numbers(&[alpha], limit);
    Ok(())
}
