//! The command line.

use std::ffi::OsString;

pub const USAGE: &str = "\
usage: drift-compare [SEED [FRAMES [POSTS [SCRIPTS [LISTS [CSV [GRANTS]]]]]]]
       drift-compare PART SEED COUNT [FIRST]
PART is frames, posts, scripts, lists, csv, grants, second-lists or second-grants.
SEED, COUNT, FIRST and the other counts are numbers from 0 to 18446744073709551615;
COUNT may be forever. FIRST is the number of the first script, list or delivery log.";

const DEFAULT_SEED: u64 = 1;

/// A part of the comparison.
#[derive(Clone, Copy, Debug, PartialEq, Eq)]
pub enum Part {
    Frames,
    Posts,
    Scripts,
    Lists,
    /// Delivery logs.
    Csv,
    /// Which beacons the posts of a yard are granted.
    Grants,
    /// Lists and grants by the second implementation, in the place of the library.
    SecondLists,
    SecondGrants,
}

/// The parts by name, with their counts if none is given; 0 if they are only run
/// by name.
const PARTS: [(&str, Part, u64); 8] = [
    ("frames", Part::Frames, 200_000),
    ("posts", Part::Posts, 600_000),
    ("scripts", Part::Scripts, 10_000),
    ("lists", Part::Lists, 1_000),
    ("csv", Part::Csv, 30_000),
    ("grants", Part::Grants, 1_000),
    ("second-lists", Part::SecondLists, 0),
    ("second-grants", Part::SecondGrants, 0),
];

/// A part to be run, with the number of random inputs and of the first one.
#[derive(Clone, Copy, Debug, PartialEq, Eq)]
pub struct Task {
    pub part: Part,
    pub seed: u64,
    pub count: u64,
    pub first: u64,
}

/// What to run, or nothing if the words are not as the usage says.
pub fn tasks(words: &[OsString]) -> Option<Vec<Task>> {
    let words: Option<Vec<&str>> = words.iter().map(|word| word.to_str()).collect();
    let words = words?;
    let named = PARTS.iter().find(|(name, ..)| words.first() == Some(name));
    match named {
        Some(&(_, part, _)) => one_task(part, &words[1..]).map(|task| vec![task]),
        None => all_tasks(&words),
    }
}

fn one_task(part: Part, words: &[&str]) -> Option<Task> {
    let (seed, count, first) = match *words {
        [seed, count] => (seed, count, "0"),
        [seed, count, first] if !matches!(part, Part::Frames | Part::Posts) => (seed, count, first),
        _ => return None,
    };
    Some(Task {
        part,
        seed: seed.parse().ok()?,
        count: match count {
            "forever" => u64::MAX,
            _ => count.parse().ok()?,
        },
        first: first.parse().ok()?,
    })
}

fn all_tasks(words: &[&str]) -> Option<Vec<Task>> {
    let numbers: Option<Vec<u64>> = words.iter().map(|word| word.parse().ok()).collect();
    let numbers = numbers?;
    let parts = PARTS.iter().filter(|&&(.., count)| count > 0);
    let tasks = parts.enumerate().map(|(index, &(_, part, count))| Task {
        part,
        seed: numbers.first().copied().unwrap_or(DEFAULT_SEED),
        count: numbers.get(1 + index).copied().unwrap_or(count),
        first: 0,
    });
    let tasks: Vec<Task> = tasks.collect();
    (numbers.len() <= 1 + tasks.len()).then_some(tasks)
}

#[cfg(test)]
mod tests {
    use super::{tasks, OsString, Part, Task};

    fn parsed(line: &str) -> Option<Vec<Task>> {
        let words: Vec<OsString> = line.split_whitespace().map(OsString::from).collect();
        tasks(&words)
    }

    /// The numbers of the parts of a whole comparison.
    fn counts(line: &str) -> Option<Vec<u64>> {
        let tasks = parsed(line)?;
        let seed = tasks[0].seed;
        assert!(tasks
            .iter()
            .all(|task| task.seed == seed && task.first == 0));
        Some([vec![seed], tasks.iter().map(|task| task.count).collect()].concat())
    }

    #[test]
    fn counts_of_all_parts_are_read_or_refused() {
        let defaults = [1, 200_000, 600_000, 10_000, 1_000, 30_000, 1_000];
        for given in 0..=7 {
            let line = (11..11 + given).map(|number| format!("{number} "));
            let mut expected = defaults.to_vec();
            expected[..given].copy_from_slice(&[11, 12, 13, 14, 15, 16, 17][..given]);
            assert_eq!(counts(&line.collect::<String>()), Some(expected));
        }
        let bad = [
            "x",
            "7 x",
            "-1",
            "7 9 x",
            "1 2 3 4 5 6 7 8",
            "18446744073709551616",
            "1 forever",
        ];
        for bad in bad {
            assert_eq!(parsed(bad), None, "{bad}");
        }
    }

    #[test]
    fn one_part_is_read_or_refused() {
        let task = Task {
            part: Part::Scripts,
            seed: 7,
            count: 9,
            first: 0,
        };
        assert_eq!(parsed("scripts 7 9"), Some(vec![task]));
        assert_eq!(
            parsed("scripts 7 9 3"),
            Some(vec![Task { first: 3, ..task }])
        );
        let forever = Task {
            part: Part::SecondLists,
            count: u64::MAX,
            ..task
        };
        assert_eq!(parsed("second-lists 7 forever"), Some(vec![forever]));
        let bad = [
            "scripts",
            "scripts 7",
            "scripts 7 x",
            "scripts 7 9 3 3",
            "posts 7 9 3",
            "post 7 9",
        ];
        for bad in bad {
            assert_eq!(parsed(bad), None, "{bad}");
        }
    }
}
