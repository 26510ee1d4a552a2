//! A name book with the limits of docs/RULES.md. The Rust has none: ids are strings there.
use crate::stop::Answer;
use crate::stop::Stop::Outside;
use std::collections::HashMap;

const LONGEST: usize = 64;
const PLACES: usize = 1024;
const ROOM: usize = 65535;

#[derive(Default)]
pub struct NameBook {
    texts: Vec<Vec<u8>>,
    numbers: HashMap<Vec<u8>, usize>,
    bytes: usize,
}

impl NameBook {
    /// The number of a text, which enters the book.
    pub fn name(&mut self, text: &[u8]) -> Answer<usize> {
        if text.len() > LONGEST {
            return Err(Outside(3, text.len().to_string()));
        }
        if let Some(number) = self.numbers.get(text) {
            return Ok(*number);
        }
        if !self.has_room(1, text.len()) {
            return Err(Outside(4, String::new()));
        }
        self.bytes += text.len();
        self.numbers.insert(text.to_vec(), self.texts.len());
        self.texts.push(text.to_vec());
        Ok(self.texts.len() - 1)
    }

    pub fn text(&self, number: usize) -> Answer<&[u8]> {
        let text = self
            .texts
            .get(number)
            .ok_or(Outside(1, number.to_string()))?;
        Ok(text.as_slice())
    }

    fn has_room(&self, places: usize, bytes: usize) -> bool {
        self.texts.len() + places <= PLACES && self.bytes + bytes <= ROOM
    }

    /// Enters the new ids of a merge, all or none.
    pub fn enter_all(&mut self, texts: &[&str]) -> Answer<()> {
        let mut new: Vec<&[u8]> = texts.iter().map(|text| text.as_bytes()).collect();
        new.retain(|text| !self.numbers.contains_key(*text));
        if !self.has_room(new.len(), new.iter().map(|text| text.len()).sum()) {
            return Err(Outside(4, String::new()));
        }
        new.iter().try_for_each(|text| self.name(text).map(|_| ()))
    }
}
