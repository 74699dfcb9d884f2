//! The worked cases W1 to W88, and cases for the mistakes that docs/RULES.md remarks
//! on. Expected answers are literals.

mod bus;

use std::fmt;

use crate::entries;
use crate::factoring::{factor, Factoring};
use crate::problem::{square, Bounds, Problem};
use crate::program::{box_lines, output, verdict_lines};
use crate::refusal::Refusal;
use crate::residual::rows_over;
use crate::rides::Sample;
use crate::summary::{decode, encode, read_problem, NUMBER_WIDTH};
use crate::sums::Sums;
use crate::vectors::least_value;
use crate::writer::file_of;

/// A case: what is asked, the expected answer and the answer got.
#[derive(Clone, Debug)]
pub struct Case {
    /// The matrix and the question
    pub subject: String,
    /// The expected answer
    pub expected: String,
    /// The answer got
    pub got: String,
}

impl Case {
    fn new(subject: &str, expected: &str, got: String) -> Case {
        Case {
            subject: subject.to_string(),
            expected: expected.to_string(),
            got: got.trim_end().replace('\n', "; "),
        }
    }

    /// Whether the answer got is the expected one.
    pub fn passes(&self) -> bool {
        self.expected == self.got
    }
}

impl fmt::Display for Case {
    fn fmt(&self, f: &mut fmt::Formatter<'_>) -> fmt::Result {
        let mark = if self.passes() { "ok" } else { "FAIL" };
        let (subject, expected, got) = (&self.subject, &self.expected, &self.got);
        write!(f, "{subject} | expected {expected} | got {got} | {mark}")
    }
}

/// Every case: W1 to W20, W21 (case P), W24 to W88, then those for the mistakes, W22
/// and W23 among them.
pub fn listed_cases() -> Vec<Case> {
    [
        judged_matrices(),
        judged_boxes(),
        judged_refusals(),
        vec![case_p()],
        two_ends(),
        falling_tags(),
        written_files(),
        lopsided_tables(),
        lopsided_files(),
        offered_factors(),
        brackets(),
        halved_sums(),
        pools(),
        refused_pools(),
        vec![halved_for_a_sample()],
        bus::cases(),
        wrong_turns(),
    ]
    .concat()
}

/// The factor of [2 1; 1 2], and the judge's lines.
const FACTOR: &str = "[89738 47861; 0 75910]";
const DEFINITE: &str = "definite; row 89738 47861; row 0 75910; over 536914293";

fn judged_matrices() -> Vec<Case> {
    let stretched = "[1 1000; 1000 10000]";
    let steep = "definite; row 61303 140122; row 0 36108; over 536838306";
    vec![
        thin("[1]", "definite; row 61303; over 536909487"),
        wide("[1]", "[2]", "definite; row 61303; over 536909487"),
        thin("[0]", "not; vector 1"),
        wide("[0]", "[5]", "not; vector 1"),
        thin("[2 1; 1 2]", DEFINITE),
        rows_of("[2 1; 1 2]", FACTOR, "537009070 536914293"),
        thin("[1 2; 2 5]", steep),
        thin("[1 2; 2 1]", "not; vector 1 -1"),
        thin("[1 1; 1 1]", "not; vector 1 -1"),
        thin(stretched, "not; vector -1143 1"),
        least(stretched, &[-1143, 1], "-969551"),
        thin("[1 3; 3 10]", "undecided"),
        leading_minors("[1 3; 3 10]", "1 1"),
    ]
}

fn judged_boxes() -> Vec<Case> {
    vec![
        boxed("[4]", 0, -1, "empty"),
        boxed("[4]", 0, 0, "side 0 0"),
        boxed("[1]", 0, 0, "box refused 8"),
        boxed("[4]", 1 << 20, 0, "side -699052 699052"),
        boxed("[4]", (1 << 20) + 1, 0, "box refused 9"),
    ]
}

fn judged_refusals() -> Vec<Case> {
    vec![
        thin("[1048576]", "definite; row 67108859; over 671088615"),
        thin("[1048577]", "refused 3"),
        order(0, "1"),
        order(9, "1"),
        Case::new("empty file", "refused 13", output(&[])),
    ]
}

const CASE_P: &str = "01 0100 01, 02 0400 04000000, 03 0400 04000000, \
    04 0800 F8FFFFFFFFFFFFFF, 05 0800 0000000000000000, \
    06 0800 0200000000000000, 07 0800 F8FFFFFFFFFFFFFF";

fn case_p() -> Case {
    let expected = "definite; row 129007; over 537063135; side -1 5";
    Case::new("case P", expected, output(&bytes(CASE_P)))
}

/// Boxes whose linear terms have unequal ends.
fn two_ends() -> Vec<Case> {
    let lopsided = enclosed("[1 2; 3 4]", (&[1, 0], &[0, 0]), 0, &[0, 0]);
    vec![
        ends((-4, 4), 0, 0, "side -4 4"),
        ends((-8, -4), 0, 2, "side -3 7"),
        ends((-1, 1), -3, 0, "empty"),
        ends((4, 8), 0, -2, "side -7 3"),
        ends((1, 0), 0, 0, "refused 16"),
        Case::new(
            "box, M = [1], a from 1 to 0, α = 0, c = 0",
            "refused 16",
            enclosed("[1]", (&[1], &[0]), 0, &[0]),
        ),
        Case::new("box, lopsided, a reversed", "refused 5", lopsided),
    ]
}

/// Files whose tags fall.
fn falling_tags() -> Vec<Case> {
    let file = |fields: &str, expected: &str| {
        let subject = format!("file {fields}");
        Case::new(&subject, expected, output(&bytes(fields)))
    };
    vec![
        file("01 0000, 02 0000, 01 0000", "refused 12"),
        file("01 0000, 03 0000, 02 0000", "refused 19"),
        file("02 0000, 01 0000, 03", "refused 19"),
    ]
}

/// Case P's problem, written and read over bytes.
fn written_files() -> Vec<Case> {
    let write = |n: i64, m: i64, limit: i64, room: usize| {
        let [m, a, c] = [m, -8, 2].map(|number| number.to_le_bytes());
        let mut file = vec![0xA5; room];
        let answer = entries::write_summary(n, &m, &m, &a, &a, limit, &c, &mut file);
        let kept = file.iter().all(|byte| *byte == 0xA5);
        match (answer == 0 && file == bytes(CASE_P), kept) {
            (true, _) => "the file of case P".to_string(),
            (false, true) => format!("refused {answer}"),
            (false, false) => format!("answer {answer}, and another file"),
        }
    };
    let read = |table: usize| {
        let (mut low, mut high) = (vec![0xA5; table], vec![0xA5; 512]);
        let [mut order, mut limit] = [[0xA5; 8]; 2];
        let [mut least, mut most, mut centre] = [[0xA5; 64]; 3];
        entries::read_summary(
            &bytes(CASE_P),
            &mut order,
            &mut low,
            &mut high,
            &mut least,
            &mut most,
            &mut limit,
            &mut centre,
        )
    };
    let case = |subject: &str, expected: &str, got: String| {
        Case::new(&format!("case P, {subject}"), expected, got)
    };
    let wide = (1 << 54) + 1;
    vec![
        case("written", "the file of case P", write(1, 4, 0, 62)),
        case("written, n = 257", "refused 1", write(257, 4, 0, 62)),
        case(
            "written, M = [2^32 + 4]",
            "refused 3",
            write(1, (1 << 32) + 4, 0, 62),
        ),
        case(
            "written to 61 bytes, α = 2^54 + 1",
            "refused 2",
            write(1, 4, wide, 61),
        ),
        case("read, L to 8 bytes", "2", read(8).to_string()),
    ]
}

/// Upper and lower halves that differ: mended, or refused by 3, 4 or 5.
fn lopsided_tables() -> Vec<Case> {
    let (low, high) = ("[9 -9; 0 9]", "[9 0; 9 9]");
    let zeros: (&[i64], &[i64]) = (&[0, 0], &[0, 0]);
    vec![
        wide("[2 0; 1 2]", "[2 1; 2 2]", DEFINITE),
        wide("[2 0; 1 2]", "[2 0; 2 2]", "refused 5"),
        wide("[2 3; 1 2]", "[2 1; 2 2]", "refused 4"),
        wide("[2 -1048577; 1 2]", "[2 1; 2 2]", "refused 3"),
        shown("[1 -3; 1 1]", "[1 1; 2 1]", &[1, 1], "no"),
        Case::new(
            &format!("box, L {low}, U {high}, a = 0, α = 9, c = 0"),
            "side -2 2; side -2 2",
            enclosed_between(low, high, zeros, 9, &[0, 0]),
        ),
        wide("[1 -9; 2 1]", "[1 2; 5 1]", "not; vector 1 -1"),
        thin("[1 2; 3 4]", "refused 5"),
        wide("[2 0; 3 2]", "[2 1; 2 2]", "refused 4"),
    ]
}

/// A file, and a problem to be written, whose tables have halves that differ.
fn lopsided_files() -> Vec<Case> {
    let file = |low: &str, high: &str| {
        let zeros = "00".repeat(16);
        bytes(&format!(
            "01 0100 02, 02 1000 {low}, 03 1000 {high}, 04 1000 {zeros}, \
            05 0800 0100000000000000, 06 1000 {zeros}, 07 1000 {zeros}"
        ))
    };
    let mended = file(
        "02000000 01000000 01000000 02000000",
        "04000000 02000000 02000000 04000000",
    );
    let apart = file(
        "02000000 00000000 01000000 02000000",
        "04000000 03000000 02000000 04000000",
    );
    let told = |got: &[u8]| match got == mended {
        true => "the file of the mended problem".to_string(),
        false => "another file".to_string(),
    };
    let (low, high) = (numbers("[2 0; 1 2]"), numbers("[4 3; 2 4]"));
    let written = Problem::read(2, &low, &high, &[0, 0], &[0, 0], 1, &[0, 0]);
    let expected = "the file of the mended problem";
    let case = |subject: &str, got: Result<Problem, Refusal>| {
        let got = answer(got.map(|problem| told(&file_of(&problem))));
        Case::new(subject, expected, got)
    };
    vec![
        case("written, halves apart", written),
        case("read, halves apart", read_problem(&apart)),
    ]
}

/// Factors that the factor test is offered, and what their rows have over.
fn offered_factors() -> Vec<Case> {
    let (steep, less) = ("[1 3; 3 10]", "[65536 196607; 0 65536]");
    let exact = "[65536 196608; 0 65536]";
    vec![
        offered("[1]", "[1]", "[65536]", "accepted; over 0"),
        offered("[1]", "[1]", "[65537]", "not accepted; over -131073"),
        offered(steep, steep, exact, "accepted; over 0"),
        offered(steep, steep, less, "not accepted; over -65536"),
        rows_of(steep, less, "-65536 327679"),
        offered(
            "[2 0; 1 2]",
            "[2 1; 2 2]",
            FACTOR,
            "accepted; over 536914293",
        ),
    ]
}

/// Brackets of the stiffness.
fn brackets() -> Vec<Case> {
    let thin = |matrix: &str, expected: &str| bracketed(matrix, matrix, expected);
    vec![
        thin("[1]", "step 0; bound 1; vector 1"),
        thin("[4]", "step 3; bound 4; vector 1"),
        thin("[0]", "bound 0; vector 1"),
        thin("[5 2; 2 5]", "step 2; bound 3; vector 1 -1"),
        thin("[1 2; 2 1]", "bound -1; vector 1 -1"),
        thin("[4 1; 1 3]", "step 2; bound 3; vector 0 1"),
        thin("[0 1; 1 1]", "bound 0; vector 1 0"),
        thin("[1 3; 3 10]", "bound 1; vector 1 0"),
        bracketed("[3 -1; 1 3]", "[4 2; 3 4]", "step 0; bound 1; vector 1 -1"),
    ]
}

/// Sums of order 1, halved.
fn halved_sums() -> Vec<Case> {
    let case = |low: i64, high: i64, (least, most): (i64, i64), limit: i64, expected: &str| {
        let subject = format!(
            "halving L [{low}], U [{high}], a from {least} to {most}, running limit {limit}"
        );
        let sums = Sums::read(1, &[low], &[high], &[least], &[most], limit);
        let got = sums.map(|sums| {
            let half = sums.halved();
            let [low, high] = [half.low[0], half.high[0]];
            let [least, most] = [half.linear_low[0], half.linear_high[0]];
            sums_line(&low, &high, (&least, &most), &half.running_limit)
        });
        Case::new(&subject, expected, answer(got))
    };
    vec![
        case(-3, 3, (-5, 5), 7, "L -2; U 2; a -3 to 3; running limit 4"),
        case(
            -1,
            -1,
            (-1, -1),
            -7,
            "L -1; U 0; a -1 to 0; running limit -3",
        ),
    ]
}

/// Pools of order 1 that are taken, and one of order 2, both tables mended.
fn pools() -> Vec<Case> {
    let apart = pooled(
        2,
        (&[0, 0, -1, 0], &[0, 2, 1, 0], (&[0, 0], &[0, 0]), 0),
        &[2],
        (&[2, 1, 0, 2], &[3, 2, 3, 3], &[0, 0], &[0]),
    );
    let expected = "L 2 1 1 2; U 3 3 3 3; a 0 0 to 0 0; running limit 0";
    vec![
        pool_of(
            0,
            (0, 0),
            0,
            &[(4, -8, 1); 2],
            "L 8; U 8; a -16 to -16; running limit 2",
        ),
        pool_of(
            FULL,
            (-1, 1),
            3,
            &[(1, 0, 1)],
            "L 524289; U 524289; a -1 to 1; running limit 3",
        ),
        pool_of(
            FULL,
            (0, 0),
            0,
            &[(FULL / 2, 0, 0)],
            "L 1048576; U 1048576; a 0 to 0; running limit 0",
        ),
        pool_of(
            FULL,
            (0, 0),
            0,
            &[(FULL / 2, 0, 0), (1, 0, 0)],
            "L 524289; U 524289; a 0 to 0; running limit 0",
        ),
        Case::new("pool, halves apart", expected, apart),
    ]
}

/// Pools that are refused. Their sums stay.
fn refused_pools() -> Vec<Case> {
    let zeros: LentCase = (&[0], &[0], (&[0], &[0]), 0);
    let refused = |subject: &str, orders: &[i64], lists: ListsCase, expected: &str| {
        let got = pooled(1, zeros, orders, lists);
        Case::new(&format!("pool, {subject}"), expected, got)
    };
    let two: ListsCase = (&[0, 0], &[0, 0], &[0, 0], &[0, 0]);
    let many: ListsCase = (&[0; 65], &[0; 65], &[0; 65], &[0; 65]);
    let beyond = FULL + 1;
    vec![
        pool_of(FULL, (0, 0), 0, &[(FULL, 0, 0)], "refused 18"),
        pool_of(FULL, (0, 0), 0, &[(1, 0, 0), (FULL, 0, 0)], "refused 18"),
        refused("orders 1, 9", &[1, 9], two, "refused 1"),
        refused("orders 1, 2", &[1, 2], two, "refused 2"),
        refused("65 orders of 9", &[9; 65], many, "refused 2"),
        refused(
            "L [2], U [1], then [2^20 + 1]",
            &[1, 1],
            (&[2, beyond], &[1, beyond], &[0, 0], &[0, 0]),
            "refused 3",
        ),
    ]
}

/// A sample that sums at the end of a range are halved for.
fn halved_for_a_sample() -> Case {
    let corner = |number: i64| -> Vec<u8> {
        let mut table = [0; 16];
        table[0] = number;
        encode(&table, NUMBER_WIDTH)
    };
    let [mut low, mut high] = [corner(FULL), corner(FULL)];
    let ([mut least, mut most], mut limit) = ([[0; 32]; 2], [0; 8]);
    let one = Sample::of([1.0_f32.to_bits(), 0, 0, 0, 0]);
    let code = entries::gather(
        &one, 4, &mut low, &mut high, &mut least, &mut most, &mut limit,
    );
    let others = [&least[..], &most, &limit].concat();
    let got = match (code, low == high, others.iter().all(|byte| *byte == 0)) {
        (entries::POSITIVE, true, true) if low == corner(524_544) => "L(1,1) = U(1,1) = 524544",
        (entries::POSITIVE, _, _) => "other sums",
        _ => "refused",
    };
    let expected = "L(1,1) = U(1,1) = 524544";
    Case::new("sample, L(1,1) = U(1,1) = 2^20", expected, got.to_string())
}

fn wrong_turns() -> Vec<Case> {
    vec![
        factor_entry("[2 -1; -1 2]", (0, 1), "-47862"),
        wide("[1 0; 0 1]", "[1 2; 2 1]", "not; vector 1 -1"),
        stop("[1 0 1000; 0 1 5; 1000 5 10000]", "column 3, last row 1"),
        thin("[1 0 1000; 0 1 5; 1000 5 10000]", "not; vector -1143 0 1"),
        thin("[1 3; 3 10]", "undecided"),
        // x = 3/2 is on the rim of 4x² ≤ 9.
        boxed("[4]", 0, 9, "side -2 2"),
        // x = −1/2 is on the rim of 4x² + 2x ≤ 0.
        boxed("[4]", 1, 0, "side -2 2"),
    ]
}

fn thin(matrix: &str, expected: &str) -> Case {
    Case::new(matrix, expected, judged(matrix, matrix))
}

fn wide(low: &str, high: &str, expected: &str) -> Case {
    let subject = format!("L {low}, U {high}");
    Case::new(&subject, expected, judged(low, high))
}

/// Whether a vector shows that not every matrix between the bounds is definite.
fn shown(low: &str, high: &str, x: &[i128], expected: &str) -> Case {
    let subject = format!("vector {x:?} for L {low}, U {high}");
    let told = |value: i128| if value <= 0 { "yes" } else { "no" };
    let got = bounds(low, high).map(|bounds| told(least_value(&bounds, x)).to_string());
    Case::new(&subject, expected, answer(got))
}

fn judged(low: &str, high: &str) -> String {
    answer(bounds(low, high).map(|bounds| verdict_lines(&bounds)))
}

/// The factor test's answer, over bytes.
fn offered(low: &str, high: &str, factor: &str, expected: &str) -> Case {
    let subject = format!("factor {factor} for L {low}, U {high}");
    let order = low.split(';').count() as i64;
    let [low, high, factor] =
        [low, high, factor].map(|table| encode(&numbers(table), NUMBER_WIDTH));
    let mut over = [0xA5; 8];
    let got = match entries::test_factor(order, &low, &high, &factor, &mut over) {
        0 => format!("accepted; over {}", i64::from_le_bytes(over)),
        -1 => format!("not accepted; over {}", i64::from_le_bytes(over)),
        refusal => format!("refused {refusal}"),
    };
    Case::new(&subject, expected, got)
}

/// The bracket of the stiffness, over bytes.
fn bracketed(low: &str, high: &str, expected: &str) -> Case {
    let subject = format!("bracket of L {low}, U {high}");
    let order = low.split(';').count();
    let [low, high] = [low, high].map(|table| encode(&numbers(table), NUMBER_WIDTH));
    let [mut step, mut bound] = [[0xA5; NUMBER_WIDTH]; 2];
    let mut vector = vec![0xA5; NUMBER_WIDTH * order];
    let n = order as i64;
    let code = entries::stiffness(n, &low, &high, &mut step, &mut bound, &mut vector);
    let line = |word: &str, bytes: &[u8]| {
        let written = decode(bytes, NUMBER_WIDTH).into_iter();
        let words: String = written.map(|number| format!(" {number}")).collect();
        format!("{word}{words}")
    };
    let lines = format!("{}; {}", line("bound", &bound), line("vector", &vector));
    let got = match (code, step == [0xA5; NUMBER_WIDTH]) {
        (entries::POSITIVE, false) => format!("{}; {lines}", line("step", &step)),
        (entries::NEGATIVE, true) => lines,
        _ => format!("answer {code}"),
    };
    Case::new(&subject, expected, got)
}

/// The end of the range of entries.
const FULL: i64 = 1 << 20;

/// L, U, the two ends and the running limit of sums that are lent.
type LentCase<'a> = (&'a [i64], &'a [i64], (&'a [i64], &'a [i64]), i64);
/// The lists of L, of U, of linear terms with equal ends, and of limits.
type ListsCase<'a> = (&'a [i64], &'a [i64], &'a [i64], &'a [i64]);

/// Thin problems [m], a, α of order 1, pooled into thin sums.
fn pool_of(
    sum: i64,
    (least, most): (i64, i64),
    limit: i64,
    problems: &[(i64, i64, i64)],
    expected: &str,
) -> Case {
    let subject = format!(
        "pool {problems:?} into L = U = [{sum}], a from {least} to {most}, running limit {limit}"
    );
    let orders = vec![1; problems.len()];
    let list =
        |part: fn(&(i64, i64, i64)) -> i64| -> Vec<i64> { problems.iter().map(part).collect() };
    let (tables, terms, limits) = (list(|p| p.0), list(|p| p.1), list(|p| p.2));
    let sums = (&[sum][..], &[sum][..], (&[least][..], &[most][..]), limit);
    let got = pooled(1, sums, &orders, (&tables, &tables, &terms, &limits));
    Case::new(&subject, expected, got)
}

/// What pooling leaves, over bytes, or its refusal, where every sum stays.
fn pooled(n: i64, sums: LentCase, orders: &[i64], lists: ListsCase) -> String {
    let bytes = |list: &[i64]| encode(list, NUMBER_WIDTH);
    let (low, high, (least, most), limit) = sums;
    let mut lent = [low, high, least, most, &[limit]].map(bytes);
    let before = lent.clone();
    let (lows, highs, terms, limits) = lists;
    let lists = [orders, lows, highs, terms, terms, limits].map(bytes);
    let [low, high, least, most, limit] = &mut lent;
    let [orders, lows, highs, leasts, mosts, limits] = &lists;
    let code = entries::pool(
        n, low, high, least, most, limit, orders, lows, highs, leasts, mosts, limits,
    );
    let list = |bytes: &[u8]| {
        let numbers = decode(bytes, NUMBER_WIDTH).into_iter();
        let words: Vec<String> = numbers.map(|number| number.to_string()).collect();
        words.join(" ")
    };
    match (code, before == lent) {
        (entries::POSITIVE, _) => {
            let [low, high, least, most, limit] = lent.map(|bytes| list(&bytes));
            sums_line(&low, &high, (&least, &most), &limit)
        }
        (refusal, true) => format!("refused {refusal}"),
        (refusal, false) => format!("refused {refusal}, with other sums"),
    }
}

/// A line of sums: numbers, or lists of them.
fn sums_line<T: fmt::Display>(low: &T, high: &T, ends: (&T, &T), running_limit: &T) -> String {
    let (least, most) = ends;
    format!("L {low}; U {high}; a {least} to {most}; running limit {running_limit}")
}

/// What each row of a thin matrix has over with an offered factor.
fn rows_of(matrix: &str, offered: &str, expected: &str) -> Case {
    let factor = square(offered.split(';').count(), &numbers(offered));
    let got = bounds(matrix, matrix).map(|bounds| {
        let rows = rows_over(&bounds, &factor).into_iter();
        rows.map(|over| format!("{over} ")).collect()
    });
    let subject = format!("rows of factor {offered} for {matrix}");
    Case::new(&subject, expected, answer(got))
}

fn least(matrix: &str, x: &[i128], expected: &str) -> Case {
    let subject = format!("least value of {x:?} for {matrix}");
    let got = bounds(matrix, matrix).map(|bounds| least_value(&bounds, x).to_string());
    Case::new(&subject, expected, answer(got))
}

/// The leading minors of a matrix of order 2; all positive means definite.
fn leading_minors(matrix: &str, expected: &str) -> Case {
    let m = numbers(matrix);
    let got = format!("{} {}", m[0], m[0] * m[3] - m[1] * m[2]);
    Case::new(&format!("leading minors of {matrix}"), expected, got)
}

fn factor_entry(matrix: &str, (i, j): (usize, usize), expected: &str) -> Case {
    let got = bounds(matrix, matrix).map(|bounds| match factor(&bounds) {
        Factoring::Ends(factor) => factor[i][j].to_string(),
        Factoring::Stops { .. } => "factoring stops".to_string(),
    });
    let subject = format!("r({},{}) of {matrix}", i + 1, j + 1);
    Case::new(&subject, expected, answer(got))
}

fn stop(matrix: &str, expected: &str) -> Case {
    let got = bounds(matrix, matrix).map(|bounds| match factor(&bounds) {
        Factoring::Ends(_) => "factoring ends".to_string(),
        Factoring::Stops {
            column, last_row, ..
        } => format!("column {column}, last row {last_row}"),
    });
    Case::new(&format!("stop of {matrix}"), expected, answer(got))
}

/// A box of order 1 with equal ends and centre 0.
fn boxed(matrix: &str, linear: i64, limit: i64, expected: &str) -> Case {
    let subject = format!("box, M = {matrix}, a = {linear}, α = {limit}, c = 0");
    let got = enclosed(matrix, (&[linear], &[linear]), limit, &[0]);
    Case::new(&subject, expected, got)
}

/// The box of [4] with linear terms between two ends.
fn ends((least, most): (i64, i64), limit: i64, centre: i64, expected: &str) -> Case {
    let subject = format!("box, M = [4], a from {least} to {most}, α = {limit}, c = {centre}");
    let got = enclosed("[4]", (&[least], &[most]), limit, &[centre]);
    Case::new(&subject, expected, got)
}

/// The lines of a thin box, or its refusal by 3, 4, 5 or 16.
fn enclosed(matrix: &str, linear: (&[i64], &[i64]), limit: i64, centre: &[i64]) -> String {
    enclosed_between(matrix, matrix, linear, limit, centre)
}

/// The same of two tables.
fn enclosed_between(
    low: &str,
    high: &str,
    linear: (&[i64], &[i64]),
    limit: i64,
    centre: &[i64],
) -> String {
    let (low, high) = (numbers(low), numbers(high));
    let problem = Problem::read(centre.len(), &low, &high, linear.0, linear.1, limit, centre);
    answer(problem.map(|p| box_lines(&p)))
}

fn order(n: i64, expected: &str) -> Case {
    let got = entries::judge(n, &[], &[], &mut [], &mut [], &mut []);
    Case::new(&format!("n = {n}"), expected, got.to_string())
}

fn answer(got: Result<String, Refusal>) -> String {
    got.unwrap_or_else(|refusal| format!("refused {}", refusal.number()))
}

/// Interval bounds written as in docs/RULES.md, such as `[2 1; 1 2]`.
pub fn bounds(low: &str, high: &str) -> Result<Bounds, Refusal> {
    let order = low.split(';').count();
    Bounds::read(order, &numbers(low), &numbers(high))
}

/// The numbers of a matrix written as in docs/RULES.md, row by row.
pub fn numbers(matrix: &str) -> Vec<i64> {
    matrix
        .split(['[', ']', ';', ' '])
        .filter(|word| !word.is_empty())
        .map(|word| word.parse().expect("a whole number"))
        .collect()
}

/// The bytes of hexadecimal text; spaces and commas are passed over.
pub fn bytes(text: &str) -> Vec<u8> {
    let digits: Vec<u32> = text
        .chars()
        .filter_map(|digit| digit.to_digit(16))
        .collect();
    let byte = |pair: &[u32]| (16 * pair[0] + pair[1]) as u8;
    digits.chunks(2).map(byte).collect()
}
