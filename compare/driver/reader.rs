//! Words that stand for sets, entities, scopes, values and the parts of a template.
use crate::ast::*;
use crate::stop::Answer;
use crate::stop::Stop::{NoCall, Outside};
use crate::texts::{crate_refuses, keeps_type_rule, short_number};
use crate::world::World;
use std::collections::HashMap;
use std::sync::Arc;

/// The parts of a template as a line has them, before anything is tested.
pub struct Body {
    pub effect: Effect,
    pub principal: PrincipalOrResourceConstraint,
    pub action: ActionConstraint,
    pub resource: PrincipalOrResourceConstraint,
    pub clause: Option<usize>,
    /// The types that stand in it, in order.
    pub types: Vec<String>,
}

/// What stands before and after the first colon that has none beside it.
fn around_lone_colon(word: &str) -> Option<(&str, &str)> {
    word.match_indices(':')
        .map(|(i, _)| (&word[..i], &word[i + 1..]))
        .find(|(before, after)| !before.ends_with(':') && !after.starts_with(':'))
}

fn effect(word: &str) -> Answer<Effect> {
    match word {
        "permit" => Ok(Effect::Permit),
        "forbid" => Ok(Effect::Forbid),
        _ => Err(NoCall("an effect is permit or forbid")),
    }
}

impl World {
    /// The set that a word names; no clause comes after it.
    pub fn set(&mut self, word: &str) -> Answer<usize> {
        let set = match word {
            "A" => 0,
            "B" => 1,
            _ => return Err(NoCall("a set is A or B")),
        };
        self.clauses.closed = true;
        Ok(set)
    }

    pub fn id(&mut self, word: &str) -> Answer<PolicyID> {
        Ok(PolicyID::from_string(self.text(word)?))
    }

    pub fn entity_type(&mut self, word: &str, types: &mut Vec<String>) -> Answer<EntityType> {
        let text = self.text(word)?;
        let name = Name::of_text(&text);
        types.push(text);
        Ok(EntityType::EntityType(name))
    }

    pub fn entity(&mut self, word: &str, types: &mut Vec<String>) -> Answer<EntityUID> {
        let (ty, eid) = word
            .split_once('/')
            .ok_or(NoCall("an entity is TYPE/EID"))?;
        let ty = self.entity_type(ty, types)?;
        let eid = self.text(eid)?;
        Ok(EntityUID::from_components(ty, Eid::Eid(eid)))
    }

    fn reference(&mut self, word: &str, types: &mut Vec<String>) -> Answer<EntityReference> {
        match word {
            "?" => Ok(EntityReference::Slot(None)),
            _ => Ok(EntityReference::EUID(Arc::new(self.entity(word, types)?))),
        }
    }

    fn scope(
        &mut self,
        word: &str,
        types: &mut Vec<String>,
    ) -> Answer<PrincipalOrResourceConstraint> {
        use PrincipalOrResourceConstraint as Scope;
        const WRONG: &str = "no such scope";
        if word == "any" {
            return Ok(Scope::Any);
        }
        let (kind, rest) = word.split_once(':').ok_or(NoCall(WRONG))?;
        match kind {
            "eq" => Ok(Scope::Eq(self.reference(rest, types)?)),
            "in" => Ok(Scope::In(self.reference(rest, types)?)),
            "is" => Ok(Scope::Is(Arc::new(self.entity_type(rest, types)?))),
            "isin" => {
                let (ty, target) = around_lone_colon(rest).ok_or(NoCall(WRONG))?;
                let ty = Arc::new(self.entity_type(ty, types)?);
                Ok(Scope::IsIn(ty, self.reference(target, types)?))
            }
            _ => Err(NoCall(WRONG)),
        }
    }

    fn action(&mut self, word: &str, types: &mut Vec<String>) -> Answer<ActionConstraint> {
        if word == "any" {
            return Ok(ActionConstraint::any());
        }
        if let Some(entity) = word.strip_prefix("eq:") {
            return Ok(ActionConstraint::is_eq(self.entity(entity, types)?));
        }
        let list = word
            .strip_prefix("in:[")
            .and_then(|list| list.strip_suffix(']'))
            .ok_or(NoCall("no such action scope"))?;
        if list.is_empty() {
            return Ok(ActionConstraint::is_in(vec![]));
        }
        let entities: Answer<Vec<EntityUID>> = list
            .split(',')
            .map(|part| self.entity(part, types))
            .collect();
        Ok(ActionConstraint::is_in(entities?))
    }

    /// EFFECT P A R CLAUSE
    pub fn body(&mut self, words: &[&str]) -> Answer<Body> {
        let [effect_word, principal, action, resource, clause] = words else {
            return Err(NoCall("EFFECT P A R CLAUSE wanted"));
        };
        let mut types = vec![];
        Ok(Body {
            effect: effect(effect_word)?,
            principal: self.scope(principal, &mut types)?,
            action: self.action(action, &mut types)?,
            resource: self.scope(resource, &mut types)?,
            clause: if *clause == "-" {
                None
            } else {
                Some(short_number(clause)?)
            },
            types,
        })
    }

    /// PV RV. The Rust has no entity of a type that breaks the type-name rule.
    pub fn values(
        &mut self,
        principal: &str,
        resource: &str,
    ) -> Answer<HashMap<SlotId, EntityUID>> {
        let (mut values, mut types) = (HashMap::new(), vec![]);
        for (slot, word) in [
            (SlotId::principal(), principal),
            (SlotId::resource(), resource),
        ] {
            if word != "-" {
                values.insert(slot, self.entity(word, &mut types)?);
            }
        }
        if types
            .iter()
            .any(|ty| !keeps_type_rule(ty.as_bytes()) || crate_refuses(ty))
        {
            return Err(Outside(0, "value type".to_string()));
        }
        Ok(values)
    }
}
