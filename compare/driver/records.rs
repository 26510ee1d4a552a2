//! Templates and static policies, made by the Rust's constructors.
use crate::ast::annotation::Annotations;
use crate::ast::*;
use crate::reader::Body;
use crate::stop::Answer;
use crate::stop::Stop::{Outside, Refused};
use crate::texts::{crate_refuses, encode, keeps_type_rule};
use crate::world::{template_bits, World};

/// The longest action list.
const MOST_ACTIONS: usize = 8;

impl World {
    /// What making a template tests (6, 2, 5), and that the Rust has such type names; the clause.
    fn tested_clause(&self, body: &Body) -> Answer<Option<Expr>> {
        if let ActionConstraint::In(list) = &body.action {
            if list.len() > MOST_ACTIONS {
                return Err(Outside(6, list.len().to_string()));
            }
        }
        let clause = match body.clause {
            None => None,
            Some(n) => Some(
                self.clauses
                    .list
                    .get(n)
                    .ok_or(Outside(2, n.to_string()))?
                    .1
                    .clone(),
            ),
        };
        if let Some(ty) = body.types.iter().find(|ty| !keeps_type_rule(ty.as_bytes())) {
            return Err(Outside(5, encode(ty)));
        }
        if body.types.iter().any(|ty| crate_refuses(ty)) {
            return Err(Outside(0, "identifier".to_string()));
        }
        Ok(clause)
    }

    pub fn template(&self, id: PolicyID, body: &Body) -> Answer<Template> {
        let clause = self.tested_clause(body)?;
        Ok(Template::new(
            id,
            None,
            Annotations::default(),
            body.effect,
            PrincipalConstraint::new(body.principal.clone()),
            body.action.clone(),
            ResourceConstraint::new(body.resource.clone()),
            clause,
        ))
    }

    pub fn static_policy(&mut self, id: PolicyID, body: &Body) -> Answer<StaticPolicy> {
        let clause = self.tested_clause(body)?;
        let all = template_bits(&self.template(id.clone(), body)?);
        StaticPolicy::new(
            id,
            None,
            Annotations::default(),
            body.effect,
            PrincipalConstraint::new(body.principal.clone()),
            body.action.clone(),
            ResourceConstraint::new(body.resource.clone()),
            clause,
        )
        .map_err(|UnexpectedSlotError::FoundSlot(slot)| {
            Refused(8, self.named_slot(&slot.id, all).to_string())
        })
    }
}
