//! How many answers were compared, and which were met.
use std::collections::BTreeMap;
use std::fmt::{Debug, Display};

#[derive(Default)]
pub struct Counts {
    pub answers: u64,
    met: BTreeMap<(&'static str, String), u64>,
}

impl Counts {
    /// One answer of the port, and what it has to be
    pub fn same<T: PartialEq + Debug>(&mut self, what: &str, port: &T, rust: &T) -> Result<(), String> {
        self.answers += 1;
        if port == rust {
            Ok(())
        } else {
            Err(format!("{what}: port {port:?}, Rust {rust:?}"))
        }
    }

    /// An answer to a call: accepted, or why not
    pub fn met<T, E: Display>(&mut self, call: &'static str, answer: &Result<T, E>) {
        let how = answer.as_ref().err().map_or("answered".into(), |why| why.to_string());
        *self.met.entry((call, how)).or_default() += 1;
    }

    pub fn show(&self) {
        for ((call, how), times) in &self.met {
            println!("  {call}: {how} {times}");
        }
    }
}
