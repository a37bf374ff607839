//! Tries the comparison itself: makes a copy of the second implementation, or of
//! what the comparison expects of it, wrong by one edit after another
//! (`wrong/NAME.edit`) and demands that the comparison with the proved crates
//! notices each. `wrong-variants [NAME ..]`

#![forbid(unsafe_code)]

mod edit;
mod workshop;

use edit::Edit;
use std::fs;
use std::path::{Path, PathBuf};
use std::process::ExitCode;
use std::thread;
use workshop::{Told, Workshop};

fn main() -> ExitCode {
    let names: Vec<String> = std::env::args().skip(1).collect();
    match run(&names) {
        Ok(0) => ExitCode::SUCCESS,
        Ok(failed) => {
            println!("wrong variants: {failed} failed");
            ExitCode::FAILURE
        }
        Err(why) => {
            eprintln!("wrong variants: {why}");
            ExitCode::FAILURE
        }
    }
}

/// How many edits are tried at a time, each in a copy of its own.
const AT_A_TIME: usize = 2;

/// Tries the named edits, or all; gives the number of those that failed.
fn run(names: &[String]) -> Result<usize, String> {
    let files = edit_files(names)?;
    let shares: Vec<Vec<&PathBuf>> = (0..AT_A_TIME)
        .map(|first| files.iter().skip(first).step_by(AT_A_TIME).collect())
        .collect();
    let failed: Vec<Result<usize, String>> = thread::scope(|scope| {
        let tasks: Vec<_> = shares
            .iter()
            .enumerate()
            .map(|(number, share)| scope.spawn(move || try_share(number, share)))
            .collect();
        tasks
            .into_iter()
            .map(|task| task.join().unwrap_or(Err("it panicked".into())))
            .collect()
    });
    let failed: usize = failed.into_iter().sum::<Result<usize, String>>()?;
    println!(
        "wrong variants: {} of {} noticed",
        files.len() - failed,
        files.len()
    );
    Ok(failed)
}

/// Tries some of the edits in one copy; gives the number of those that failed.
fn try_share(number: usize, files: &[&PathBuf]) -> Result<usize, String> {
    let workshop = Workshop::new(number).map_err(|error| error.to_string())?;
    workshop
        .build()
        .map_err(|why| format!("unchanged: {why}"))?;
    if number == 0 {
        unchanged_agrees(&workshop)?;
    }
    let mut failed = 0;
    for file in files {
        let name = file.file_stem().unwrap_or_default().to_string_lossy();
        match try_edit(&workshop, file) {
            Ok(noticed) => println!("{name}: {noticed}"),
            Err(why) => {
                println!("{name}: FAILED: {why}");
                failed += 1;
            }
        }
    }
    Ok(failed)
}

/// Without an edit nothing is noticed.
fn unchanged_agrees(workshop: &Workshop) -> Result<(), String> {
    for part in Workshop::parts() {
        if let Told::Noticed(words) = workshop.compare(part)? {
            return Err(format!("unchanged, and yet {words}"));
        }
    }
    println!("unchanged: nothing is noticed");
    Ok(())
}

/// The files of the named edits in the order of their names, or of all.
fn edit_files(names: &[String]) -> Result<Vec<PathBuf>, String> {
    let folder = Path::new(env!("CARGO_MANIFEST_DIR")).join("wrong");
    let told = |error: std::io::Error| format!("{}: {error}", folder.display());
    let mut files = Vec::new();
    for item in fs::read_dir(&folder).map_err(told)? {
        let path = item.map_err(told)?.path();
        let name = path.file_stem().unwrap_or_default().to_string_lossy();
        let is_named = names.is_empty() || names.iter().any(|wanted| *wanted == name);
        if is_named && path.extension().is_some_and(|end| end == "edit") {
            files.push(path);
        }
    }
    files.sort();
    match files.len() < names.len().max(1) {
        true => Err("there is no such edit".into()),
        false => Ok(files),
    }
}

/// What noticed the edit, or why it failed. The copy is as before afterwards.
fn try_edit(workshop: &Workshop, file: &Path) -> Result<String, String> {
    let text = fs::read_to_string(file).map_err(|error| error.to_string())?;
    let edit = Edit::read(&text)?;
    let tried = apply_and_compare(workshop, &edit);
    workshop.restore(&edit).map_err(|error| error.to_string())?;
    tried
}

fn apply_and_compare(workshop: &Workshop, edit: &Edit) -> Result<String, String> {
    workshop.apply(edit)?;
    workshop
        .build()
        .map_err(|why| format!("it does not compile: {why}"))?;
    let mut noticed = Vec::new();
    for part in &edit.parts {
        match workshop.compare(part)? {
            Told::Noticed(words) => noticed.push(words),
            Told::Agrees => return Err(format!("{part}: not noticed: {}", edit.what)),
        }
    }
    Ok(noticed.join("; "))
}

#[cfg(test)]
mod tests {
    use super::{edit_files, Edit, Workshop};
    use std::fs;
    use std::path::Path;

    /// Whether they compile and are noticed only a run tells.
    #[test]
    fn every_edit_applies() {
        let reference = Path::new(env!("CARGO_MANIFEST_DIR")).join("../reference");
        let files = edit_files(&[]).expect("edits");
        assert!(files.len() >= 16);
        for file in files {
            let text = fs::read_to_string(&file).expect("an edit");
            let edit = Edit::read(&text).expect("a good edit");
            let is_known = |part: &String| Workshop::parts().any(|known| known == part);
            assert!(edit.parts.iter().all(is_known), "{}", file.display());
            for change in &edit.changes {
                let text = fs::read_to_string(reference.join(&change.file)).expect("a file");
                change.apply(&text).expect(&edit.what);
            }
        }
        assert!(edit_files(&["none-such".to_string()]).is_err());
    }
}
