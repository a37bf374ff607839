//! Makes a script smaller as long as it still shows what is sought.

use super::draft::Draft;
use super::step::{read_script, Step, YardLine};
use crate::damage::lines;
use std::ops::Range;
use std::time::{Duration, Instant};

/// The most tries for a script.
pub const MOST_TRIES: usize = 6_000;

/// After this time nothing more is tried.
const MOST_TIME: Duration = Duration::from_secs(20);

/// Gives the smallest script found for which `shows` holds, as it does for the
/// one given, with so many tries at most. The last script for which it held is
/// the one that is given back.
pub fn shrink(tries: usize, script: &[u8], shows: impl FnMut(&[u8]) -> bool) -> Vec<u8> {
    let mut shrinker = Shrinker {
        script: script.to_vec(),
        shows,
        tries_left: tries,
        start: Instant::now(),
    };
    loop {
        let before = shrinker.script.clone();
        shrinker.remove_chunks(lines, without_lines);
        shrinker.remove_posts();
        shrinker.lower_numbers();
        if frames_after_lines(&shrinker.script).is_none() {
            shrinker.remove_chunks(bytes, without_bytes);
        }
        if shrinker.script == before {
            return before;
        }
    }
}

struct Shrinker<Shows> {
    script: Vec<u8>,
    shows: Shows,
    tries_left: usize,
    start: Instant,
}

impl<Shows: FnMut(&[u8]) -> bool> Shrinker<Shows> {
    /// Keeps the script if it shows what is sought; none is tried after the work
    /// that is allowed.
    fn is_kept(&mut self, script: Vec<u8>) -> bool {
        if self.tries_left == 0 || self.start.elapsed() > MOST_TIME || script == self.script {
            return false;
        }
        self.tries_left -= 1;
        let is_kept = (self.shows)(&script);
        if is_kept {
            self.script = script;
        }
        is_kept
    }

    /// Leaves out halves of the parts, then quarters and so on, down to single ones.
    fn remove_chunks(
        &mut self,
        parts: fn(&[u8]) -> Vec<Range<usize>>,
        without: fn(&[u8], Range<usize>) -> Vec<Vec<u8>>,
    ) {
        let mut size = parts(&self.script).len().div_ceil(2);
        while size > 0 {
            let mut start = 0;
            while start < parts(&self.script).len() {
                let end = (start + size).min(parts(&self.script).len());
                let smaller = without(&self.script, start..end);
                if !smaller.into_iter().any(|script| self.is_kept(script)) {
                    start = end;
                }
            }
            size /= 2;
        }
    }

    /// Leaves out posts and roles of the yard line.
    fn remove_posts(&mut self) {
        for lane in 0..8 {
            let left = !(1 << lane);
            self.change_yard(|yard| yard.only(left));
            self.change_yard(|yard| YardLine {
                sources: yard.sources & left,
                ..yard
            });
            self.change_yard(|yard| YardLine {
                dests: yard.dests & left,
                ..yard
            });
        }
    }

    /// Tries another yard line, if there is one.
    fn change_yard(&mut self, change: impl Fn(YardLine) -> YardLine) {
        let Some(first) = lines(&self.script).first().cloned() else {
            return;
        };
        if let Some(yard) = YardLine::read(&self.script[..first.end - 1]) {
            let mut script = format!("{}\n", change(yard)).into_bytes();
            script.extend_from_slice(&self.script[first.end..]);
            self.is_kept(script);
        }
    }

    /// Makes words and frame numbers 0, half as large or one less.
    fn lower_numbers(&mut self) {
        let mut number = 0;
        while let Some(line) = lines(&self.script).get(number).cloned() {
            let lower = lower_steps(&self.script[line.clone()]);
            let changed = lower.into_iter().any(|step| {
                let mut script = self.script.clone();
                script.splice(line.clone(), format!("{step}\n").into_bytes());
                self.is_kept(script)
            });
            if !changed {
                number += 1;
            }
        }
    }
}

/// The step of a line with its last number lowered, the lowest first.
fn lower_steps(line: &[u8]) -> Vec<Step> {
    let line = line.strip_suffix(b"\n").unwrap_or(line);
    let numbers = |number: u32| {
        let mut lower = vec![0, number / 2, number.saturating_sub(1)];
        lower.retain(|&other| other < number);
        lower
    };
    match Step::read(line) {
        Some(Step::Order { lane, word }) => {
            let words = numbers(word).into_iter();
            words.map(|word| Step::Order { lane, word }).collect()
        }
        Some(Step::Hear { lane, frame }) => {
            let frames = numbers(frame).into_iter();
            frames.map(|frame| Step::Hear { lane, frame }).collect()
        }
        _ => Vec::new(),
    }
}

fn bytes(script: &[u8]) -> Vec<Range<usize>> {
    (0..script.len()).map(|at| at..at + 1).collect()
}

fn without_bytes(script: &[u8], removed: Range<usize>) -> Vec<Vec<u8>> {
    vec![[&script[..removed.start], &script[removed.end..]].concat()]
}

/// The script without some lines: with later frame numbers moved, then as it is.
fn without_lines(script: &[u8], removed: Range<usize>) -> Vec<Vec<u8>> {
    let lines = lines(script);
    let stretch = lines[removed.start].start..lines[removed.end - 1].end;
    let mut smaller: Vec<Vec<u8>> = renumbered(script, &lines, &removed).into_iter().collect();
    smaller.extend(without_bytes(script, stretch));
    smaller
}

/// Without some lines and the hearings of what they broadcast; hearings of later
/// frames get the numbers that those have then. Nothing if a line is no step.
fn renumbered(script: &[u8], lines: &[Range<usize>], removed: &Range<usize>) -> Option<Vec<u8>> {
    let frames = frames_after_lines(script)?;
    let first = *frames.get(removed.start.checked_sub(1)?)?;
    let end = *frames.get(removed.end - 1)?;
    let mut smaller = script[..lines[removed.start].start].to_vec();
    for line in &lines[removed.end..] {
        let text = &script[line.clone()];
        match Step::read(&text[..text.len() - 1])? {
            Step::Hear { frame, .. } if (first..end).contains(&frame) => {}
            Step::Hear { lane, frame } if frame >= end => {
                let frame = frame - (end - first);
                let moved = format!("{}\n", Step::Hear { lane, frame });
                smaller.extend_from_slice(moved.as_bytes());
            }
            _ => smaller.extend_from_slice(text),
        }
    }
    Some(smaller)
}

/// How many frames are on the air after each line, as the second implementation
/// runs them; nothing if a line is no step or the first is no yard.
fn frames_after_lines(script: &[u8]) -> Option<Vec<u32>> {
    let (yard, steps) = read_script(script)?;
    let mut draft = Draft::new(yard);
    let mut frames = vec![0];
    for step in steps {
        draft.push(step);
        frames.push(draft.frames());
    }
    Some(frames)
}
