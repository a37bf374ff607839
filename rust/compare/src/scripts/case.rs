//! A script with all that is lent beside it, run by both sides.

use crate::answer::Answered;
use crate::library::Library;
use crate::random::Random;
use crate::second::Second;
use crate::state::STATE_CELLS;
use crate::stretch::Stretch;
use drift_reference::script::OUTPUT_LENGTH;
use drift_reference::yard::AIR_LENGTH;

/// Stands around the script: reading past its end would find a line feed there.
const AROUND_SCRIPT: u8 = b'\n';

/// A script, the lengths of what is lent, and the seed of the numbers in that.
#[derive(Clone, Debug, PartialEq, Eq)]
pub struct Case {
    pub script: Vec<u8>,
    pub air_length: usize,
    pub output_length: usize,
    pub state_cells: usize,
    pub seed: u64,
}

#[derive(Clone, Copy, Debug, PartialEq, Eq)]
pub enum Function {
    Run,
    State,
}

/// What a function answered, and how it left what was lent.
#[derive(Debug, PartialEq, Eq)]
pub struct Ran {
    /// The number of bytes printed, or the answer of the state.
    pub answer: u64,
    pub script: Stretch<u8>,
    pub air: Stretch<u8>,
    pub written: Written,
}

/// What a function writes beside the air.
#[derive(Debug, PartialEq, Eq)]
pub enum Written {
    Output(Stretch<u8>),
    State(Stretch<u16>),
}

/// A case that the two sides did not run alike.
#[derive(Debug)]
pub struct Difference {
    pub case: Case,
    pub function: Function,
    pub reference: Ran,
    pub library: Ran,
}

/// What the second implementation made of a case.
#[derive(Debug)]
pub struct Outcome {
    pub printout: Vec<u8>,
    pub answered: Answered,
    /// Nothing if script or state are refused.
    pub state: Option<Vec<u16>>,
}

impl Case {
    /// The script with right lengths.
    pub fn new(script: Vec<u8>, seed: u64) -> Case {
        Case {
            script,
            air_length: AIR_LENGTH,
            output_length: OUTPUT_LENGTH,
            state_cells: STATE_CELLS,
            seed,
        }
    }

    pub fn lines(&self) -> usize {
        let lines = self.script.split_inclusive(|&byte| byte == b'\n');
        lines.count()
    }

    /// Runs the case by both sides; gives the right outcome, or the difference.
    pub fn compare(&self, library: &dyn Library) -> Result<Outcome, Box<Difference>> {
        let run = self.compare_function(library, Function::Run)?;
        let left = self.compare_function(library, Function::State)?;
        let answered = Answered::read(left.answer).expect("a right answer");
        Ok(Outcome {
            printout: run.printout().to_vec(),
            answered,
            state: left.state().filter(|_| answered.has_run()).map(Vec::from),
        })
    }

    fn compare_function(
        &self,
        library: &dyn Library,
        function: Function,
    ) -> Result<Ran, Box<Difference>> {
        let mut reference = self.lend(function);
        reference.run(&Second);
        let mut answered = self.lend(function);
        answered.run(library);
        if answered == reference {
            return Ok(reference);
        }
        Err(Box::new(Difference {
            case: self.clone(),
            function,
            reference,
            library: answered,
        }))
    }

    /// What is lent to a function; the same case lends the same numbers each time.
    fn lend(&self, function: Function) -> Ran {
        let mut random = Random::new(self.seed);
        Ran {
            answer: 0,
            script: Stretch::new(self.script.iter().copied(), AROUND_SCRIPT),
            air: Stretch::any_bytes(&mut random, self.air_length),
            written: match function {
                Function::Run => {
                    Written::Output(Stretch::any_bytes(&mut random, self.output_length))
                }
                Function::State => {
                    Written::State(Stretch::any_cells(&mut random, self.state_cells))
                }
            },
        }
    }
}

impl Ran {
    fn run(&mut self, library: &dyn Library) {
        let (script, air) = (self.script.lent(), self.air.lent());
        self.answer = match &mut self.written {
            Written::Output(output) => library.run_script(script, air, output.lent()) as u64,
            Written::State(state) => library.script_state(script, air, state.lent()),
        };
    }

    /// The answered number of bytes at the beginning of the output, if there are
    /// so many.
    pub fn printout(&self) -> &[u8] {
        let Written::Output(output) = &self.written else {
            return &[];
        };
        let output = output.numbers();
        output.get(..self.answer as usize).unwrap_or(output)
    }

    fn state(&self) -> Option<&[u16]> {
        match &self.written {
            Written::Output(_) => None,
            Written::State(state) => Some(state.numbers()),
        }
    }
}

impl Difference {
    /// What differs, in a word.
    pub fn what(&self) -> &'static str {
        let (reference, library) = (&self.reference, &self.library);
        let is_written_alike = reference.written == library.written;
        let is_answered_alike = reference.answer == library.answer;
        match self.function {
            Function::Run if !is_written_alike || !is_answered_alike => "printout",
            Function::State if !is_written_alike => "state",
            Function::State if !is_answered_alike => "answer",
            _ if reference.air != library.air => "air",
            _ => "script",
        }
    }
}
