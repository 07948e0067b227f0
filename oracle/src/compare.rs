//! Two sides' answers, case by case.

/// The answers of each case, every one from its `case` line on; what stands before the first counts as one too.
fn by_case(answers: &str) -> Vec<&str> {
    let later = answers.match_indices("\ncase ").map(|(at, _)| at + 1);
    let starts: Vec<usize> = [0].into_iter().chain(later).collect();
    let ends = starts.iter().skip(1).copied().chain([answers.len()]);
    starts.iter().zip(ends).map(|(start, end)| &answers[*start..end]).collect()
}

/// A case on which the sides differ: its number, and what each answers.
pub struct Difference<'a> {
    pub case: usize,
    pub expected: &'a str,
    pub got: &'a str,
}

/// The cases on which the sides differ, a missing answer being an empty one.
pub fn differences<'a>(expected: &'a str, got: &'a str) -> Vec<Difference<'a>> {
    let (expected, got) = (by_case(expected), by_case(got));
    let mut found = Vec::new();
    for case in 0..expected.len().max(got.len()) {
        let expected = expected.get(case).copied().unwrap_or("");
        let got = got.get(case).copied().unwrap_or("");
        if expected != got {
            found.push(Difference { case, expected, got });
        }
    }
    found
}
