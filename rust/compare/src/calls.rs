//! A call of a function that is lent a row of bytes and a row of numbers, run by
//! the static library or by another.

use crate::library::Library;
use crate::second::Second;
use crate::stretch::Stretch;
use std::fmt::Debug;

/// A function of the static library that is lent bytes and numbers.
pub trait Function: Copy + Debug + PartialEq {
    /// Its name in the static library.
    fn name(self) -> &'static str;

    /// Calls it; gives its answer. One that takes no numbers leaves them aside.
    fn call(self, library: &dyn Library, bytes: &mut [u8], numbers: &mut [u16]) -> u32;
}

/// A function with all that is lent to it.
#[derive(Clone, Debug, PartialEq, Eq)]
pub struct Call<F> {
    pub function: F,
    pub bytes: Stretch<u8>,
    pub numbers: Stretch<u16>,
}

/// What a call answered, and how it left what was lent.
#[derive(Debug, PartialEq, Eq)]
pub struct Ran<F> {
    pub answer: u32,
    pub after: Call<F>,
}

/// A call that the two sides did not run alike.
#[derive(Debug)]
pub struct Difference<F> {
    /// How many calls came before it.
    pub number: u64,
    pub given: Call<F>,
    pub reference: Ran<F>,
    pub library: Ran<F>,
}

impl<F: Function> Call<F> {
    fn run(&self, library: &dyn Library) -> Ran<F> {
        let mut after = self.clone();
        let (bytes, numbers) = (after.bytes.lent(), after.numbers.lent());
        let answer = self.function.call(library, bytes, numbers);
        Ran { answer, after }
    }

    /// Runs the call by both; gives the answer, or the difference.
    pub fn compare(&self, library: &dyn Library, number: u64) -> Result<u32, Box<Difference<F>>> {
        let reference = self.run(&Second);
        let library = self.run(library);
        if library == reference {
            return Ok(reference.answer);
        }
        Err(Box::new(Difference {
            number,
            given: self.clone(),
            reference,
            library,
        }))
    }
}

impl<F: Function> Difference<F> {
    /// The name of the function that was called.
    pub fn function(&self) -> &'static str {
        self.given.function.name()
    }

    /// Both sides with their names.
    pub fn sides(&self) -> [(&'static str, &Ran<F>); 2] {
        [
            ("second implementation", &self.reference),
            ("static library", &self.library),
        ]
    }
}
