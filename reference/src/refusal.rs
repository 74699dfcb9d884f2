//! Refusals 1 to 20: R4.1 to R4.20. Refusal k is rule R4.k.

/// Why a call or a file is refused.
#[derive(Clone, Copy, Debug, PartialEq, Eq)]
pub enum Refusal {
    /// 1: n is no order
    Order,
    /// 2: a buffer of another size than belongs to n
    Length,
    /// 3: a number of the problem outside of its range
    Range,
    /// 4: L above U somewhere
    Crossed,
    /// 5: a pair of places that leaves no number: mended L above mended U (R2.10)
    Lopsided,
    /// 6: an offered factor that is not of a factor's form (R2.8)
    Factor,
    /// 7: an offered vector that is zero, or has too large an entry
    Vector,
    /// 8, box: t is 0
    Flat,
    /// 9, box: a g(k) above 2^20
    Far,
    /// 10, file: a field that the file has not all bytes of
    Cut,
    /// 11, file: an unknown tag
    Tag,
    /// 12, file: a tag that occurs twice
    Again,
    /// 13, file: a tag that does not occur
    Absent,
    /// 14, file: a content of another length than it has to have
    Size,
    /// 15, file: 4097 bytes or more
    Long,
    /// 16: a linear term's low end above its high end
    Reversed,
    /// 17: a number of a sample that is not finite, or outside of ±8
    Sample,
    /// 18: a sum that would leave its range though all sums were halved once
    Full,
    /// 19, file: a tag below the one before it
    Falling,
    /// 20, bus: a start while busy
    Busy,
}

/// Each refusal with its number and its word.
pub const REFUSALS: [(Refusal, i64, &str); 20] = [
    (Refusal::Order, 1, "order"),
    (Refusal::Length, 2, "length"),
    (Refusal::Range, 3, "range"),
    (Refusal::Crossed, 4, "crossed"),
    (Refusal::Lopsided, 5, "lopsided"),
    (Refusal::Factor, 6, "factor"),
    (Refusal::Vector, 7, "vector"),
    (Refusal::Flat, 8, "flat"),
    (Refusal::Far, 9, "far"),
    (Refusal::Cut, 10, "cut"),
    (Refusal::Tag, 11, "tag"),
    (Refusal::Again, 12, "again"),
    (Refusal::Absent, 13, "absent"),
    (Refusal::Size, 14, "size"),
    (Refusal::Long, 15, "long"),
    (Refusal::Reversed, 16, "reversed"),
    (Refusal::Sample, 17, "sample"),
    (Refusal::Full, 18, "full"),
    (Refusal::Falling, 19, "falling"),
    (Refusal::Busy, 20, "busy"),
];

impl Refusal {
    /// The number of this refusal.
    pub fn number(self) -> i64 {
        self.line().1
    }

    /// The word of this refusal.
    pub fn word(self) -> &'static str {
        self.line().2
    }

    fn line(self) -> (Refusal, i64, &'static str) {
        let found = REFUSALS.into_iter().find(|line| line.0 == self);
        found.expect("every refusal has its line in the table")
    }
}

/// `Ok` where a condition holds, the refusal otherwise.
pub fn require(condition: bool, refusal: Refusal) -> Result<(), Refusal> {
    if condition {
        Ok(())
    } else {
        Err(refusal)
    }
}
