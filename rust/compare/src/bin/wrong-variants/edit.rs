//! An edit that makes the second implementation wrong, as a file tells it.

/// The lines that stand before, between and after old and new lines.
const MARKS: [&str; 3] = ["<<<", "===", ">>>"];

/// What the comparison must notice, and with which of its parts.
#[derive(Debug, PartialEq, Eq)]
pub struct Edit {
    /// What is wrong then.
    pub what: String,
    /// The parts that must notice it.
    pub parts: Vec<String>,
    pub changes: Vec<Change>,
}

/// The old lines stand once in a file; the new ones come in their place.
#[derive(Debug, PartialEq, Eq)]
pub struct Change {
    /// The file, seen from the folder of the second implementation.
    pub file: String,
    pub old: String,
    pub new: String,
}

impl Edit {
    /// Line 1 tells what is wrong, line 2 the parts that must notice it; then come
    /// changes: `file PATH`, `<<<`, old lines, `===`, new lines, `>>>`.
    pub fn read(text: &str) -> Result<Edit, String> {
        let mut lines = text.lines();
        let what = lines.next().filter(|line| !line.is_empty());
        let what = what.ok_or("line 1 does not tell what is wrong")?;
        let parts = lines
            .next()
            .and_then(|line| line.strip_prefix("noticed by "));
        let parts = parts.ok_or("line 2 is not `noticed by ..`")?;
        let mut changes = Vec::new();
        while let Some(line) = lines.next() {
            let file = line.strip_prefix("file ");
            let file = file.ok_or(format!("`{line}` is not `file ..`"))?;
            if lines.next() != Some("<<<") {
                return Err(format!("no `<<<` after `{line}`"));
            }
            changes.push(Change {
                file: file.to_string(),
                old: lines_until("===", &mut lines)?,
                new: lines_until(">>>", &mut lines)?,
            });
        }
        if changes.is_empty() {
            return Err("there is no change".into());
        }
        Ok(Edit {
            what: what.to_string(),
            parts: parts.split(' ').map(str::to_string).collect(),
            changes,
        })
    }
}

/// The lines up to a mark, each with its line feed.
fn lines_until<'a>(
    mark: &str,
    lines: &mut impl Iterator<Item = &'a str>,
) -> Result<String, String> {
    let mut text = String::new();
    for line in lines {
        if line == mark {
            return Ok(text);
        }
        if MARKS.contains(&line) {
            return Err(format!("`{line}` before `{mark}`"));
        }
        text += line;
        text.push('\n');
    }
    Err(format!("no `{mark}`"))
}

impl Change {
    /// The text of the file with the change made.
    pub fn apply(&self, text: &str) -> Result<String, String> {
        let file = &self.file;
        match text.matches(&self.old).count() {
            _ if self.old == self.new => Err(format!("nothing changes in {file}")),
            1 => Ok(text.replace(&self.old, &self.new)),
            0 => Err(format!("the old lines are not in {file}")),
            times => Err(format!("the old lines are in {file} {times} times")),
        }
    }
}

#[cfg(test)]
mod tests {
    use super::{Change, Edit};

    const TEXT: &str = "It is wrong.\nnoticed by posts scripts\nfile src/a.rs\n<<<\none\n  two\n\
                        ===\nthree\n>>>\nfile src/b.rs\n<<<\nfour\n===\n>>>\n";

    fn change(file: &str, old: &str, new: &str) -> Change {
        Change {
            file: file.into(),
            old: old.into(),
            new: new.into(),
        }
    }

    #[test]
    fn an_edit_is_read() {
        let edit = Edit {
            what: "It is wrong.".into(),
            parts: vec!["posts".into(), "scripts".into()],
            changes: vec![
                change("src/a.rs", "one\n  two\n", "three\n"),
                change("src/b.rs", "four\n", ""),
            ],
        };
        assert_eq!(Edit::read(TEXT), Ok(edit));
    }

    #[test]
    fn a_bad_edit_is_refused() {
        let lines: Vec<&str> = TEXT.lines().collect();
        for left_out in [1, 3, 6, 8, 9] {
            let mut lines = lines.clone();
            lines.remove(left_out);
            assert!(
                Edit::read(&lines.join("\n")).is_err(),
                "without line {left_out}"
            );
        }
        for bad in ["", "It is wrong.\n", "It is wrong.\nnoticed by posts\n"] {
            assert!(Edit::read(bad).is_err(), "{bad}");
        }
    }

    #[test]
    fn a_change_needs_its_old_lines_once() {
        let change = change("src/a.rs", "one\n", "two\n");
        assert_eq!(change.apply("zero\none\n"), Ok("zero\ntwo\n".into()));
        for bad in ["zero\n", "one\none\n", "one"] {
            assert!(change.apply(bad).is_err(), "{bad}");
        }
        let same = self::change("src/a.rs", "one\n", "one\n");
        assert!(same.apply("one\n").is_err());
    }
}
