//! The check at every boundary, and number 6 by its definition.
#![forbid(unsafe_code)]

use second::cases;
use second::vectors::check_answer;

#[test]
fn every_case_has_its_stated_answer() {
    let wrong: Vec<String> = cases::all()
        .into_iter()
        .map(|case| (check_answer(&case.file), case))
        .filter(|(answer, case)| *answer != case.answer)
        .map(|(answer, case)| format!("{}: {answer}, not {}", case.name, case.answer))
        .collect();
    assert!(wrong.is_empty(), "{wrong:#?}");
}
