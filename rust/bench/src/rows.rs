//! The rows of the table.

mod csv;
mod draft;
mod frames;
mod posts;
mod scripts;
mod steps;

use crate::work::Work;

/// A row: its name, and how to make what it measures.
pub struct Row {
    pub name: String,
    make: Box<dyn Fn() -> Job>,
}

/// What a row measures: the cost of `with` less that of `without`, shared out
/// among the operations that only `with` has.
pub struct Job {
    pub with: Work,
    pub without: Work,
    pub operations: u64,
    /// How many calls are counted by instructions.
    pub calls: u64,
}

impl Row {
    fn new(name: String, make: impl Fn() -> Job + 'static) -> Row {
        Row {
            name,
            make: Box::new(make),
        }
    }

    pub fn job(&self) -> Job {
        (self.make)()
    }
}

/// All rows, in the order of the table.
pub fn all() -> Vec<Row> {
    let mut rows = frames::rows();
    rows.extend(posts::rows());
    rows.extend(steps::rows());
    rows.extend(scripts::rows());
    rows.extend(csv::rows());
    rows
}

/// The rows whose name has one of the parts; all of them if no part is given.
pub fn with_names(parts: &[String]) -> Vec<Row> {
    let mut rows = all();
    rows.retain(|row| parts.is_empty() || parts.iter().any(|part| row.name.contains(part)));
    rows
}

#[cfg(test)]
mod tests {
    use super::{all, with_names, Work};
    use crate::side::SIDES;
    use drift_reference::script::{Bad, SCRIPT_LIMIT};
    use drift_reference::yard::AIR_LENGTH;
    use std::collections::BTreeSet;

    #[test]
    fn names_differ() {
        let names: BTreeSet<String> = all().into_iter().map(|row| row.name).collect();
        assert_eq!(names.len(), all().len());
    }

    #[test]
    fn rows_are_found_by_parts_of_their_names() {
        assert_eq!(with_names(&[]).len(), all().len());
        assert_eq!(with_names(&["no such row".into()]).len(), 0);
        let found = with_names(&["frame check".into(), "roll call".into()]);
        assert!(!found.is_empty());
        for row in found {
            assert!(row.name.contains("frame check") || row.name.contains("roll call"));
        }
    }

    /// Every script is within the limit, and good but for the one that is named bad.
    #[test]
    fn scripts_are_good_and_fit() {
        for row in all() {
            let job = row.job();
            for work in [job.with, job.without] {
                let Work::Script(script) = work else { continue };
                assert!(script.len() <= SCRIPT_LIMIT, "{}", row.name);
                let mut air = vec![0; AIR_LENGTH];
                let ran = drift_reference::script::run_to_yard(&script, &mut air);
                let lines = script.iter().filter(|&&byte| byte == b'\n').count();
                let bad = ran
                    .err()
                    .map(|Bad { line, number }| (line as usize, number));
                let expected = row.name.contains("bad last line").then_some((lines, 4));
                assert_eq!(bad, expected, "{}", row.name);
            }
        }
    }

    #[test]
    fn both_sides_agree_on_every_row() {
        for row in all() {
            let job = row.job();
            assert!(job.with.agrees(&SIDES), "{}", row.name);
            assert!(job.without.agrees(&SIDES), "{}", row.name);
        }
    }
}
