//! Records and sets as docs/FORMATS.md writes them.
use crate::ast::*;
use crate::texts::{encode_entity, encode_id, encode_type};
use crate::world::{template_bits, World};

pub fn scope_word(scope: &PrincipalOrResourceConstraint) -> String {
    use PrincipalOrResourceConstraint as Scope;
    let reference = |target: &EntityReference| match target {
        EntityReference::EUID(e) => encode_entity(e),
        EntityReference::Slot(_) => "?".to_string(),
    };
    match scope {
        Scope::Any => "any".to_string(),
        Scope::In(target) => format!("in:{}", reference(target)),
        Scope::Eq(target) => format!("eq:{}", reference(target)),
        Scope::Is(ty) => format!("is:{}", encode_type(ty)),
        Scope::IsIn(ty, target) => format!("isin:{}:{}", encode_type(ty), reference(target)),
    }
}

fn action_word(action: &ActionConstraint) -> String {
    match action {
        ActionConstraint::Any => "any".to_string(),
        ActionConstraint::Eq(e) => format!("eq:{}", encode_entity(e)),
        ActionConstraint::In(list) => {
            let list: Vec<String> = list.iter().map(|e| encode_entity(e)).collect();
            format!("in:[{}]", list.join(","))
        }
    }
}

/// PV RV
pub fn values_words(p: &Policy) -> String {
    let value = |slot| {
        p.env()
            .get(&slot)
            .map(encode_entity)
            .unwrap_or("-".to_string())
    };
    format!(
        "{} {}",
        value(SlotId::principal()),
        value(SlotId::resource())
    )
}

/// ID TEMPLATEID KIND PV RV
fn policy_words(p: &Policy) -> String {
    let kind = if p.is_static() { "static" } else { "link" };
    format!(
        "{} {} {kind} {}",
        encode_id(p.id()),
        encode_id(p.template().id()),
        values_words(p)
    )
}

/// ID,TEMPLATEID
pub fn pair_word(p: &Policy) -> String {
    format!("{},{}", encode_id(p.id()), encode_id(p.template().id()))
}

/// A count and as many words.
pub fn listing(words: Vec<String>) -> String {
    [vec![words.len().to_string()], words].concat().join(" ")
}

impl World {
    /// The number of a clause: that of the first clause with an equal content, since the Rust has no numbers.
    pub fn clause_word(&self, clause: Option<&Expr>) -> String {
        let Some(clause) = clause else {
            return "-".to_string();
        };
        match self
            .clauses
            .list
            .iter()
            .position(|(_, other)| other == clause)
        {
            Some(n) => n.to_string(),
            None => "lost".to_string(),
        }
    }

    /// EFFECT P A R CLAUSE SLOTS
    fn fields_words(&self, t: &Template) -> String {
        format!(
            "{} {} {} {} {} {}",
            t.effect(),
            scope_word(t.principal_constraint().as_inner()),
            action_word(t.action_constraint()),
            scope_word(t.resource_constraint().as_inner()),
            self.clause_word(t.non_scope_constraints()),
            template_bits(t)
        )
    }

    pub fn template_words(&self, t: &Template) -> String {
        format!("{} {}", encode_id(t.id()), self.fields_words(t))
    }

    /// A policy that is handed back, with its template's fields.
    pub fn handed_words(&self, p: &Policy) -> String {
        format!("{} {}", policy_words(p), self.fields_words(p.template()))
    }

    /// All that a set holds.
    pub fn dump(&self, set: usize) -> Vec<String> {
        let (templates, policies, _) = self.sets[set].peek();
        let first = format!(
            "dump {} {} {}",
            ["A", "B"][set],
            templates.len(),
            policies.len()
        );
        let mut lines = vec![first];
        lines.extend(
            templates
                .values()
                .map(|t| format!("template {}", self.template_words(t))),
        );
        lines.extend(
            policies
                .values()
                .map(|p| format!("policy {}", policy_words(p))),
        );
        lines.extend(templates.keys().map(|id| {
            let members = match self.sets[set].get_linked_policies(id) {
                Ok(members) => listing(members.map(encode_id).collect()),
                Err(_) => "missing".to_string(),
            };
            format!("reverse {} {members}", encode_id(id))
        }));
        lines
    }
}
