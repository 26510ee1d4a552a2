//! Times the Rust `PolicySet` of cedar-policy-core 4.14.0 on the units of work that the program of crates/bench times
//! for ours. Prints `UNIT TIME PER_CALL` in nanoseconds for each: the median time of a unit, and of one call where a
//! unit holds several.
extern crate linked_hash_map;
extern crate standins as educe;
extern crate standins as itertools;
extern crate standins as linked_hash_set;
extern crate standins as miette;
extern crate standins as nonempty;
extern crate standins as serde;
extern crate standins as smol_str;
extern crate standins as thiserror;

/// The Rust's `ast`: three of its files as they are, and the reduced forms of what they use. Not all is called.
#[allow(dead_code)]
pub mod ast {
    pub mod annotation {
        include!(concat!(env!("BENCH_SOURCES"), "/annotation.rs"));
    }
    pub mod policy {
        include!(concat!(env!("BENCH_SOURCES"), "/policy.rs"));
    }
    pub mod policy_set {
        include!(concat!(env!("BENCH_SOURCES"), "/policy_set.rs"));
    }
    pub mod reduced {
        include!("../../compare/standins/reduced.rs");
    }
    pub use policy::*;
    pub use policy_set::*;
    pub use reduced::*;
    pub use smol_str::SmolStr;
}

#[allow(dead_code)]
pub mod parser {
    include!("../../compare/standins/parser.rs");
}

mod full_set;
mod rng;
mod timing;
mod units;

fn main() {
    if cfg!(debug_assertions) {
        eprintln!("warning: debug assertions are on")
    }
    units::lookups();
    units::link_unlink();
    units::condition();
    units::merges();
    units::get();
}
