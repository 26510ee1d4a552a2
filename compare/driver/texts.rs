//! Words of a line, percent-encoding, numbers, and the rules on texts that docs/RULES.md gives.
use crate::ast::{EntityType, EntityUID, SlotId};
use crate::stop::Stop::NoCall;
use crate::stop::{Answer, Stop};

/// The words of a line: spaces, tabs and carriage returns separate them.
pub fn words(line: &[u8]) -> Vec<&[u8]> {
    line.split(|byte| matches!(byte, b' ' | b'\t' | b'\r'))
        .filter(|word| !word.is_empty())
        .collect()
}

fn encode_with(text: &[u8], kept: &[u8]) -> String {
    if text.is_empty() {
        return "%".to_string();
    }
    text.iter()
        .map(|byte| {
            if byte.is_ascii_alphanumeric() || kept.contains(byte) {
                (*byte as char).to_string()
            } else {
                format!("%{byte:02X}")
            }
        })
        .collect()
}

pub fn encode(text: impl AsRef<[u8]>) -> String {
    encode_with(text.as_ref(), b"_.")
}

pub fn encode_id(id: impl AsRef<str>) -> String {
    encode(id.as_ref())
}

pub fn encode_type(ty: &EntityType) -> String {
    encode_with(ty.to_string().as_bytes(), b"_.:")
}

pub fn encode_entity(e: &EntityUID) -> String {
    format!("{}/{}", encode_type(e.entity_type()), encode_id(e.eid()))
}

fn hex_digit(byte: u8) -> Option<u8> {
    (byte as char).to_digit(16).map(|digit| digit as u8)
}

/// The text that a word spells.
pub fn decode(word: &str) -> Answer<Vec<u8>> {
    const WRONG: &str = "bad percent code";
    match word {
        "" => return Err(NoCall(WRONG)),
        "%" => return Ok(vec![]),
        _ => (),
    }
    let (mut text, mut rest) = (vec![], word.as_bytes());
    while let [first, tail @ ..] = rest {
        if *first != b'%' {
            text.push(*first);
            rest = tail;
            continue;
        }
        let [high, low, tail @ ..] = tail else {
            return Err(NoCall(WRONG));
        };
        let (high, low) = hex_digit(*high).zip(hex_digit(*low)).ok_or(NoCall(WRONG))?;
        text.push(16 * high + low);
        rest = tail;
    }
    Ok(text)
}

/// The number that decimal digits write, if it is not above the bound.
pub fn number(word: &str, most: usize) -> Answer<usize> {
    const WRONG: Stop = NoCall("bad number");
    if !word.bytes().all(|byte| byte.is_ascii_digit()) {
        return Err(WRONG);
    }
    match word.parse() {
        Ok(number) if number <= most => Ok(number),
        _ => Err(WRONG),
    }
}

/// A name's or a clause's number.
pub fn short_number(word: &str) -> Answer<usize> {
    number(word, u16::MAX as usize)
}

/// How many places a buffer has; without a word, or with a number that is too large to be held, enough.
pub fn room(word: Option<&str>) -> Answer<usize> {
    let Some(word) = word else {
        return Ok(usize::MAX);
    };
    if word.is_empty() || !word.bytes().all(|byte| byte.is_ascii_digit()) {
        return Err(NoCall("bad room"));
    }
    Ok(word.parse().unwrap_or(usize::MAX))
}

/// The type-name rule: identifiers joined by `::`.
pub fn keeps_type_rule(text: &[u8]) -> bool {
    // A byte that is no text of UTF-8 is in no identifier, and what stands for it is in none either.
    String::from_utf8_lossy(text).split("::").all(|identifier| {
        let mut bytes = identifier.bytes();
        bytes
            .next()
            .is_some_and(|byte| byte.is_ascii_alphabetic() || byte == b'_')
            && bytes.all(|byte| byte.is_ascii_alphanumeric() || byte == b'_')
    })
}

const NO_IDENTIFIERS: [&str; 10] = [
    "true", "false", "if", "then", "else", "in", "is", "like", "has", "__cedar",
];

/// Whether a text that keeps the rule holds an identifier that the Rust's parser of names refuses.
pub fn crate_refuses(ty: &str) -> bool {
    ty.split("::")
        .any(|identifier| NO_IDENTIFIERS.contains(&identifier))
}

#[derive(Clone, Copy)]
enum Scan {
    Plain,
    InString,
    AfterBackslash,
}

/// The slot that begins here: its spelling, and no letter, digit or underscore behind it.
fn slot_at(text: &[u8]) -> Option<SlotId> {
    [
        ("?principal", SlotId::principal()),
        ("?resource", SlotId::resource()),
    ]
    .into_iter()
    .find(|(spelling, _)| {
        text.strip_prefix(spelling.as_bytes()).is_some_and(|rest| {
            !rest
                .first()
                .is_some_and(|byte| byte.is_ascii_alphanumeric() || *byte == b'_')
        })
    })
    .map(|(_, slot)| slot)
}

/// The slots of a sealed text, by the rules of docs/RULES.md, "Sealed books".
pub fn sealed_slots(text: &[u8]) -> Vec<SlotId> {
    let (mut state, mut slots) = (Scan::Plain, vec![]);
    for i in 0..text.len() {
        state = match (state, text[i]) {
            (Scan::Plain, b'"') => Scan::InString,
            (Scan::Plain, _) => {
                slots.extend(slot_at(&text[i..]));
                Scan::Plain
            }
            (Scan::InString, b'"') => Scan::Plain,
            (Scan::InString, b'\\') => Scan::AfterBackslash,
            (Scan::InString | Scan::AfterBackslash, _) => Scan::InString,
        }
    }
    slots
}
