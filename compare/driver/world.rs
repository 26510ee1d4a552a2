//! What a run keeps from line to line.
use crate::ast::{Expr, PolicySet, SlotId, Template};
use crate::book::NameBook;
use crate::stop::Answer;
use crate::stop::Stop::Outside;
use std::collections::BTreeMap;

const MOST_TEMPLATES: usize = 64;
const MOST_POLICIES: usize = 256;

#[derive(Default)]
pub struct Clauses {
    /// Content (the sealed text, or the nodes as they are printed) and expression.
    pub list: Vec<(String, Expr)>,
    /// Whether the book is one of trees; none before the first clause.
    pub trees: Option<bool>,
    /// Whether a line has named a set, behind which no clause comes.
    pub closed: bool,
}

pub struct World {
    pub sets: [PolicySet; 2],
    pub clauses: Clauses,
    pub book: NameBook,
    /// What the checks after a call found.
    pub faults: Vec<String>,
    stats: BTreeMap<String, u64>,
    options: Options,
}

#[derive(Clone, Copy)]
pub struct Options {
    /// Whether 8 and 22 name the slot that the Rust names.
    pub rust_slot: bool,
    /// Whether the calls that 25, 26 and 27 refuse are left to the Rust alone.
    pub rust_alone: bool,
}

pub fn bit(slot: &SlotId) -> u8 {
    if slot.is_principal() {
        1
    } else {
        2
    }
}

pub fn bits<'a>(slots: impl Iterator<Item = &'a SlotId>) -> u8 {
    slots.fold(0, |bits, slot| bits | bit(slot))
}

pub fn template_bits(t: &Template) -> u8 {
    t.slots().fold(0, |bits, slot| bits | bit(&slot.id))
}

impl World {
    pub fn new(options: Options) -> Self {
        World {
            sets: [PolicySet::new(), PolicySet::new()],
            clauses: Clauses::default(),
            book: NameBook::default(),
            faults: vec![],
            stats: BTreeMap::new(),
            options,
        }
    }

    pub fn count(&mut self, what: String) {
        *self.stats.entry(what).or_insert(0) += 1
    }

    pub fn print_stats(&self) {
        for (what, n) in &self.stats {
            eprintln!("{n} {what}")
        }
    }

    pub fn fault(&mut self, what: String) {
        self.faults.push(what)
    }

    /// The slot that 8 and 22 name: the principal's, where there are two. The Rust names one of them, of which it is
    /// checked that it is there.
    pub fn named_slot(&mut self, rust: &SlotId, all: u8) -> u8 {
        if all & bit(rust) == 0 {
            self.fault(format!("the Rust names slot {}, of {all}", bit(rust)));
        }
        match (self.options.rust_slot, all & 1) {
            (true, _) => bit(rust),
            (false, 0) => all,
            (false, _) => 1,
        }
    }

    /// Refuses what the Rust has accepted: 25, 26, 27.
    pub fn refuse(&self, n: u8, values: String) -> Answer<()> {
        if self.options.rust_alone {
            return Ok(());
        }
        Err(Outside(n, values))
    }

    /// Refuses a set that has grown past the limits: 27.
    pub fn refuse_beyond_limits(&self, after: &PolicySet) -> Answer<()> {
        let (templates, policies, _) = after.peek();
        if templates.len() > MOST_TEMPLATES {
            self.refuse(27, "templates".to_string())?;
        }
        if policies.len() > MOST_POLICIES {
            self.refuse(27, "policies".to_string())?;
        }
        Ok(())
    }

    /// The answer to a line. The Rust's texts are UTF-8.
    pub fn answer(&mut self, words: &[&[u8]]) -> Answer<Vec<String>> {
        let words: Result<Vec<&str>, _> =
            words.iter().map(|word| std::str::from_utf8(word)).collect();
        self.call(&words.map_err(|_| Outside(0, "utf8".to_string()))?)
    }
}
