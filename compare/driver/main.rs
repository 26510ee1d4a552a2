//! Reads a script of calls from standard input, makes the calls on the Rust `PolicySet`, prints an answer to each, and at
//! the end both sets. The script and the answers are those of docs/FORMATS.md, but for the answers that begin with
//! `outside`; README.md says when they come, and what here is the Rust's own and what stands in for the rest of the crate.
extern crate linked_hash_map;
extern crate standins as educe;
extern crate standins as itertools;
extern crate standins as linked_hash_set;
extern crate standins as miette;
extern crate standins as nonempty;
extern crate standins as serde;
extern crate standins as smol_str;
extern crate standins as thiserror;

/// The Rust's `ast`: three of its files as they are, and the reduced forms of what they use.
pub mod ast {
    pub mod annotation {
        include!(concat!(env!("COMPARE_SOURCES"), "/annotation.rs"));
    }
    pub mod policy {
        include!(concat!(env!("COMPARE_SOURCES"), "/policy.rs"));
    }
    pub mod policy_set {
        include!(concat!(env!("COMPARE_SOURCES"), "/policy_set.rs"));

        /// The templates, the policies and the reverse sets.
        pub type Maps<'a> = (
            &'a LinkedHashMap<PolicyID, Arc<Template>>,
            &'a LinkedHashMap<PolicyID, Policy>,
            &'a LinkedHashMap<PolicyID, LinkedHashSet<PolicyID>>,
        );

        impl PolicySet {
            /// Lends the three maps, for the dump and the checks.
            pub fn peek(&self) -> Maps<'_> {
                (&self.templates, &self.links, &self.template_to_links_map)
            }
        }
    }
    pub mod reduced {
        include!("../standins/reduced.rs");
    }
    pub use policy::*;
    pub use policy_set::*;
    pub use reduced::*;
    pub use smol_str::SmolStr;
}

pub mod parser {
    include!("../standins/parser.rs");
}

mod book;
mod calls;
mod checks;
mod clauses;
mod merge;
mod names;
mod print;
mod reader;
mod records;
mod stop;
mod texts;
mod world;

use std::io::{BufWriter, Read, Write};
use std::panic::{catch_unwind, AssertUnwindSafe};
use stop::{Answer, Stop};
use world::{Options, World};

const OPTIONS: [&str; 4] = ["--lines", "--stats", "--rust-slot", "--rust-alone"];
const CHECK_FAILED: i32 = 3;
const PANICKED: i32 = 4;

/// The kind of a call, for the statistics.
fn kind(words: &[&[u8]]) -> String {
    let words: Vec<_> = words
        .iter()
        .map(|word| String::from_utf8_lossy(word))
        .collect();
    match words.as_slice() {
        [head, _, kind, ..] if head == "add" => format!("add {kind}"),
        [head, _, _, how, ..] if head == "merge" => format!("merge {how}"),
        [head, ..] => head.to_string(),
        [] => String::new(),
    }
}

/// The lines that are printed for an answer.
fn printed(answer: Answer<Vec<String>>) -> (String, Vec<String>) {
    let line =
        |word: &str, n: u8, values: &str| format!("{word} {n} {values}").trim_end().to_string();
    match answer {
        Ok(lines) => ("accepted".to_string(), lines),
        Err(Stop::Refused(n, values)) => {
            (format!("refused {n}"), vec![line("refused", n, &values)])
        }
        Err(Stop::Outside(n, values)) => {
            (format!("outside {n}"), vec![line("outside", n, &values)])
        }
        Err(Stop::NoCall(what)) => ("error".to_string(), vec![format!("error {what}")]),
    }
}

fn message(panic: Box<dyn std::any::Any + Send>) -> String {
    let text = match panic.downcast::<String>() {
        Ok(text) => *text,
        Err(panic) => panic.downcast_ref::<&str>().unwrap_or(&"").to_string(),
    };
    text.replace('\n', " ")
}

/// Answers one line; the exit status where the run is to end with another than 0.
fn answer_line(words: &[&[u8]], world: &mut World, out: &mut impl Write) -> std::io::Result<i32> {
    let answer = match catch_unwind(AssertUnwindSafe(|| world.answer(words))) {
        Ok(answer) => answer,
        Err(panic) => {
            writeln!(out, "panic {}", message(panic))?;
            return Ok(PANICKED);
        }
    };
    let (end, lines) = printed(answer);
    let kind = if end == "error" {
        "no call".to_string()
    } else {
        kind(words)
    };
    world.count(format!("{kind}: {end}"));
    for line in lines {
        writeln!(out, "{line}")?;
    }
    world.check_both();
    let faults = std::mem::take(&mut world.faults);
    for fault in &faults {
        writeln!(out, "finding {fault}")?;
    }
    Ok(if faults.is_empty() { 0 } else { CHECK_FAILED })
}

/// Makes the calls of a script, with the place of each line before its answer if so asked; the exit status.
fn run(
    input: &[u8],
    world: &mut World,
    places: bool,
    out: &mut impl Write,
) -> std::io::Result<i32> {
    let mut status = 0;
    for (place, line) in input.split(|byte| *byte == b'\n').enumerate() {
        let words = texts::words(line);
        if words.first().is_none_or(|head| head.starts_with(b"#")) {
            continue;
        }
        if places {
            writeln!(out, "line {place}")?;
        }
        status = answer_line(&words, world, out)?.max(status);
        if status == PANICKED {
            return Ok(status);
        }
    }
    for line in [world.dump(0), world.dump(1)].concat() {
        writeln!(out, "{line}")?;
    }
    Ok(status)
}

fn main() -> std::io::Result<()> {
    let options: Vec<String> = std::env::args().skip(1).collect();
    if options
        .iter()
        .any(|option| !OPTIONS.contains(&option.as_str()))
    {
        eprintln!("usage: driver [--lines] [--stats] [--rust-slot] [--rust-alone] <SCRIPT");
        std::process::exit(2)
    }
    let has = |option: &str| options.iter().any(|o| o == option);
    let mut input = vec![];
    std::io::stdin().read_to_end(&mut input)?;
    let mut world = World::new(Options {
        rust_slot: has("--rust-slot"),
        rust_alone: has("--rust-alone"),
    });
    let mut out = BufWriter::new(std::io::stdout());
    let status = run(&input, &mut world, has("--lines"), &mut out)?;
    out.flush()?;
    if has("--stats") {
        world.print_stats();
    }
    std::process::exit(status)
}
