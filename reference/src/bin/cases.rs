//! Runs the worked cases of docs/RULES.md and prints one line for each.

use std::process::ExitCode;

use hankboulder_reference::cases::listed_cases;

fn main() -> ExitCode {
    let cases = listed_cases();
    for case in &cases {
        println!("{case}");
    }
    let failed = cases.iter().filter(|case| !case.passes()).count();
    println!("{} passed, {failed} failed", cases.len() - failed);
    if failed == 0 {
        ExitCode::SUCCESS
    } else {
        ExitCode::FAILURE
    }
}
