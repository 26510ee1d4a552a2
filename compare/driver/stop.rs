/// Why a line has no answer of its own.
#[derive(Debug)]
pub enum Stop {
    /// The Rust refuses the call: number and values as docs/RULES.md lists them.
    Refused(u8, String),
    /// The call is not made, since the Rust has no such limit or test: number and values as docs/RULES.md lists them.
    /// Number 0: the Rust cannot hold the input, or may read it otherwise; no refusal fits it.
    Outside(u8, String),
    /// The line is no call.
    NoCall(&'static str),
}

pub type Answer<T> = Result<T, Stop>;
