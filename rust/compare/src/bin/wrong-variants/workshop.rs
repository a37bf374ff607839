//! A copy of the packages that are needed, in which the second implementation is made wrong,
//! built and compared.

use super::edit::Edit;
use std::env;
use std::fs;
use std::io::{self, BufRead, BufReader};
use std::path::{Path, PathBuf};
use std::process::{Command, Stdio};

/// The seed of the default run.
const SEED: &str = "1";

/// The parts with the number of their inputs; these notice each edit early.
const PARTS: [(&str, &str); 6] = [
    ("frames", "2000"),
    ("posts", "20000"),
    ("scripts", "400"),
    ("second-lists", "60"),
    ("csv", "400"),
    ("second-grants", "60"),
];

/// The manifest of the copy. Little time for each build counts most there.
const MANIFEST: &str = "\
[workspace]
resolver = \"2\"
members = [\"library\", \"reference\", \"records\", \"compare\"]

[profile.wrong-variants]
inherits = \"dev\"
opt-level = 1
debug = false
incremental = true
";

pub struct Workshop {
    /// The packages as they are.
    original: PathBuf,
    copy: PathBuf,
    library: PathBuf,
}

/// How a part of the comparison went.
#[derive(Debug, PartialEq, Eq)]
pub enum Told {
    /// It noticed something, in its own words.
    Noticed(String),
    Agrees,
}

impl Workshop {
    /// Copies the packages into a folder of this number for what is built.
    pub fn new(number: usize) -> io::Result<Workshop> {
        let compare = Path::new(env!("CARGO_MANIFEST_DIR"));
        let original = compare.join("..").canonicalize()?;
        let copy = original.join(format!("target/wrong-variants/{number}"));
        for package in ["library", "reference", "records", "compare"] {
            let old = copy.join(package);
            if old.exists() {
                fs::remove_dir_all(&old)?;
            }
            copy_folder(&original.join(package).join("src"), &old.join("src"))?;
        }
        for file in [
            "library/Cargo.toml",
            "library/build.rs",
            "reference/Cargo.toml",
            "records/Cargo.toml",
            "compare/Cargo.toml",
        ] {
            fs::write(copy.join(file), fs::read(original.join(file))?)?;
        }
        fs::write(copy.join("Cargo.toml"), MANIFEST)?;
        let folder = env::var_os("DRIFT_STATICLIB").map(PathBuf::from);
        let folder = folder.unwrap_or("../../target/staticlib".into());
        Ok(Workshop {
            library: compare.join(folder).canonicalize()?,
            original,
            copy,
        })
    }

    /// Makes the edit's changes in the copy; the other files are as they were.
    pub fn apply(&self, edit: &Edit) -> Result<(), String> {
        for change in &edit.changes {
            let file = self.copy.join("reference").join(&change.file);
            let text =
                fs::read_to_string(&file).map_err(|error| format!("{}: {error}", change.file))?;
            let text = change.apply(&text)?;
            fs::write(&file, text).map_err(|error| error.to_string())?;
        }
        Ok(())
    }

    /// Puts the files of an edit back.
    pub fn restore(&self, edit: &Edit) -> io::Result<()> {
        for change in &edit.changes {
            let file = Path::new("reference").join(&change.file);
            fs::write(self.copy.join(&file), fs::read(self.original.join(&file))?)?;
        }
        Ok(())
    }

    /// Builds the comparison in the copy; what the compiler says, if it fails.
    pub fn build(&self) -> Result<(), String> {
        let cargo = env::var_os("CARGO").unwrap_or("cargo".into());
        let output = Command::new(cargo)
            .args(["build", "--offline", "--quiet"])
            .args(["--profile", "wrong-variants", "--package", "drift-compare"])
            .args(["--bin", "drift-compare"])
            .current_dir(&self.copy)
            .env("CARGO_TARGET_DIR", self.copy.join("target"))
            .env("DRIFT_STATICLIB", &self.library)
            // What an edit leaves unused is no fault of it.
            .env("RUSTFLAGS", "-A warnings")
            .env_remove("CARGO_ENCODED_RUSTFLAGS")
            .output();
        match output {
            Err(error) => Err(format!("cargo does not start: {error}")),
            Ok(output) if output.status.success() => Ok(()),
            Ok(output) => Err(String::from_utf8_lossy(&output.stderr).into_owned()),
        }
    }

    /// Runs a part of the comparison until it tells how it went.
    pub fn compare(&self, part: &str) -> Result<Told, String> {
        let known = PARTS.iter().find(|(name, _)| *name == part);
        let (_, count) = known.ok_or(format!("there is no part `{part}`"))?;
        let mut child = Command::new(self.copy.join("target/wrong-variants/drift-compare"))
            .args([part, SEED, count])
            .stdout(Stdio::piped())
            .spawn()
            .map_err(|error| format!("{part}: it does not start: {error}"))?;
        let output = child.stdout.take().expect("the output is a pipe");
        let mut lines = BufReader::new(output).lines().map_while(Result::ok);
        let told = lines.find_map(|line| told(&line));
        // The rest, the search for the smallest input, is not needed.
        let _ = child.kill();
        let status = child.wait().map_err(|error| format!("{part}: {error}"))?;
        told.ok_or(format!("{part}: it ended with {status} and told nothing"))
    }

    pub fn parts() -> impl Iterator<Item = &'static str> {
        PARTS.into_iter().map(|(part, _)| part)
    }
}

/// What a line of the comparison tells, if it tells how a part went.
fn told(line: &str) -> Option<Told> {
    let words = line.split(" (seed").next()?;
    if words.contains(" differs after ") || words.contains(" fails after ") {
        return Some(Told::Noticed(words.to_string()));
    }
    let is_good = words.ends_with(" agree") || words.contains(" holds for ");
    is_good.then_some(Told::Agrees)
}

fn copy_folder(from: &Path, to: &Path) -> io::Result<()> {
    fs::create_dir_all(to)?;
    for item in fs::read_dir(from)? {
        let item = item?;
        let target = to.join(item.file_name());
        match item.file_type()?.is_dir() {
            true => copy_folder(&item.path(), &target)?,
            false => fs::write(target, fs::read(item.path())?)?,
        }
    }
    Ok(())
}

#[cfg(test)]
mod tests {
    use super::{told, Told};

    #[test]
    fn lines_of_the_comparison_are_understood() {
        let noticed = |words: &str| Some(Told::Noticed(words.into()));
        let lines = [
            (
                "posts: drift_post_hear differs after 3 requests (seed 1)",
                noticed("posts: drift_post_hear differs after 3 requests"),
            ),
            (
                "lists: demand 3 fails after 0 lists (seed 1) for the second implementation",
                noticed("lists: demand 3 fails after 0 lists"),
            ),
            (
                "frames: static library and second implementation agree (seed 1)",
                Some(Told::Agrees),
            ),
            (
                "lists: demand 3 holds for the static library (seed 1)",
                Some(Told::Agrees),
            ),
            ("answer 0  17", None),
        ];
        for (line, expected) in lines {
            assert_eq!(told(line), expected);
        }
    }
}
