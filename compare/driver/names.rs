//! Lines on names. The Rust has no name book: `name` and `text` are answered by the book here and `type` by the rule of
//! docs/RULES.md; `action` asks the reduced entity type.
use crate::ast::{EntityType, Name};
use crate::stop::Answer;
use crate::stop::Stop::{NoCall, Outside};
use crate::texts::{decode, encode, keeps_type_rule, short_number};
use crate::world::World;

fn yes_or_no(yes: bool) -> String {
    (if yes { "yes" } else { "no" }).to_string()
}

impl World {
    pub fn call_on_names(&mut self, words: &[&str]) -> Answer<String> {
        match words {
            ["name", text] => Ok(format!("name {}", self.book.name(&decode(text)?)?)),
            ["text", number] => Ok(format!(
                "text {}",
                encode(self.book.text(short_number(number)?)?)
            )),
            ["type", text] => Ok(yes_or_no(keeps_type_rule(&decode(text)?))),
            ["action", text] => {
                let text = self.text(text)?;
                Ok(yes_or_no(
                    EntityType::EntityType(Name::of_text(&text)).is_action(),
                ))
            }
            _ => Err(NoCall("wrong count of words")),
        }
    }

    /// A text that the Rust is to hold: it enters the name book.
    pub fn text(&mut self, word: &str) -> Answer<String> {
        let text = decode(word)?;
        self.book.name(&text)?;
        String::from_utf8(text).map_err(|_| Outside(0, "utf8".to_string()))
    }
}
