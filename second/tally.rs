//! Counts the questions and the differences, and prints the inputs of the first few that differ.

use std::fmt::Debug;

pub struct Tally {
    pub name: &'static str,
    pub questions: u64,
    pub refused: u64,
    pub differences: u64,
}

const SHOWN: u64 = 5;

impl Tally {
    pub fn new(name: &'static str) -> Tally {
        Tally { name, questions: 0, refused: 0, differences: 0 }
    }

    /// One question, with the refusal number that is due; `input` is made and printed only where the replies differ.
    pub fn same<T: PartialEq + Debug>(&mut self, refusal: u64, library: &T, here: &T, input: impl FnOnce() -> String) {
        self.questions += 1;
        self.refused += (refusal != 0) as u64;
        if library != here {
            self.differences += 1;
            if self.differences <= SHOWN {
                println!("DIFFERENCE in {}", self.name);
                println!("  input:   {}", input());
                println!("  library: {:?}", library);
                println!("  here:    {:?}", here);
            }
        }
    }

    /// Prints the counts, and replies whether all were the same.
    pub fn report(&self) -> bool {
        println!(
            "{}: {} questions, {} differences ({} questions refused)",
            self.name, self.questions, self.differences, self.refused
        );
        self.differences == 0
    }
}
