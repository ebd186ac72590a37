//! A family of inputs on which the two implementations are compared, and the smallest input on which they differ.

use std::fmt::Write;

pub struct Family {
    name: String,
    compared: usize,
    smallest: Option<Mismatch>,
}

struct Mismatch {
    input: Vec<u8>,
    proved: Vec<u8>,
    reference: Vec<u8>,
}

/// As much of some bytes as tells what they are: printable ones as they are, the others escaped.
fn shown(bytes: &[u8]) -> String {
    const MOST: usize = 400;
    let mut text = String::new();
    for byte in bytes.iter().take(MOST) {
        let _ = write!(text, "{}", byte.escape_ascii());
    }
    if bytes.len() > MOST {
        let _ = write!(text, ".. ({} bytes)", bytes.len());
    }
    text
}

impl Family {
    pub fn new(name: &str) -> Self {
        Self { name: name.to_string(), compared: 0, smallest: None }
    }

    /// Compares what the two give for one input.
    pub fn compare(&mut self, input: &[u8], proved: Vec<u8>, reference: Vec<u8>) {
        self.compared += 1;
        let smaller = self.smallest.as_ref().is_none_or(|found| input.len() < found.input.len());
        if proved != reference && smaller {
            self.smallest = Some(Mismatch { input: input.to_vec(), proved, reference });
        }
    }

    /// Says how the comparison went, and whether all were equal.
    pub fn report(self) -> bool {
        match self.smallest {
            None => {
                println!("ok: {}, {} compared", self.name, self.compared);
                true
            }
            Some(found) => {
                println!("FAILED: {}, {} compared; the smallest input that differs:", self.name, self.compared);
                println!("  input     {}", shown(&found.input));
                println!("  proved    {}", shown(&found.proved));
                println!("  reference {}", shown(&found.reference));
                false
            }
        }
    }
}
