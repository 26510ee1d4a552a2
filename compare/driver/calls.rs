//! Lines on sets, and which line asks for which call.
use crate::ast::*;
use crate::print::{listing, pair_word, scope_word, values_words};
use crate::stop::Stop::{NoCall, Refused};
use crate::stop::{Answer, Stop};
use crate::texts::encode_id;
use crate::world::{bits, World};
use std::sync::Arc;

/// What a binding is refused with.
fn linking(e: LinkingError) -> (u8, String) {
    match e {
        LinkingError::NoSuchTemplate { id } => (11, encode_id(id)),
        LinkingError::ArityError {
            unbound_values,
            extra_values,
        } => (
            12,
            format!(
                "{} {}",
                bits(unbound_values.iter()),
                bits(extra_values.iter())
            ),
        ),
        LinkingError::PolicyIdConflict { id } => (13, encode_id(id)),
    }
}

fn refused_linking(e: LinkingError) -> Stop {
    let (n, values) = linking(e);
    Refused(n, values)
}

/// Whether `add` of a link would make one id name two things: 26, its three cases in order.
fn crossed<'a>(set: &PolicySet, id: &'a PolicyID, template: &'a PolicyID) -> Option<&'a PolicyID> {
    let (templates, policies, _) = set.peek();
    if id == template {
        Some(id)
    } else if !templates.contains_key(template) && policies.contains_key(template) {
        Some(template)
    } else if templates.contains_key(id) {
        Some(id)
    } else {
        None
    }
}

impl World {
    /// The answer to the words of a line.
    pub fn call(&mut self, words: &[&str]) -> Answer<Vec<String>> {
        let answer = match words {
            ["dump", set] => {
                let set = self.set(set)?;
                return Ok(self.dump(set));
            }
            ["name" | "text" | "type" | "action", ..] => self.call_on_names(words),
            ["clause", text] => self.clause(text),
            ["tree", nodes @ ..] => self.tree(nodes),
            ["condition", rest @ ..] => self.condition(rest),
            ["binding", e, p, a, r, c, pv, rv] => self.binding(&[e, p, a, r, c], pv, rv),
            _ => self.call_on_set(words),
        };
        Ok(vec![answer?])
    }

    fn call_on_set(&mut self, words: &[&str]) -> Answer<String> {
        match words {
            ["template", set, id, body @ ..] => self.add_template(set, id, body),
            ["static", set, id, body @ ..] => self.add_static(set, id, body),
            ["add", set, "static", id, body @ ..] => self.add_policy(set, id, body),
            ["add", set, "link", id, pv, rv, template, body @ ..] => {
                self.add_link(set, id, pv, rv, template, body)
            }
            ["link", set, template, id, pv, rv] => self.link(set, template, id, pv, rv),
            ["unlink", set, id] => self.unlink(set, id),
            ["remove_static", set, id] => self.remove_static(set, id),
            ["remove_template", set, id] => self.remove_template(set, id),
            ["merge", into, from, how] => self.merge(into, from, how, None),
            ["merge", into, from, how, room] => self.merge(into, from, how, Some(room)),
            ["links", set, id] => self.links(set, id),
            ["filled", set, id] => self.filled(set, id),
            [head, set] => self.whole_set(head, set),
            _ => Err(NoCall("no such call")),
        }
    }

    /// What an accepted call leaves, if the limits allow it.
    fn keep(&mut self, set: usize, after: PolicySet) -> Answer<()> {
        self.refuse_beyond_limits(&after)?;
        self.sets[set] = after;
        Ok(())
    }

    fn binding(&mut self, body: &[&str], pv: &str, rv: &str) -> Answer<String> {
        let body = self.body(body)?;
        let values = self.values(pv, rv)?;
        let t = self.template(PolicyID::from_string("x"), &body)?;
        Template::check_binding(&t, &values).map_err(refused_linking)?;
        Ok("ok".to_string())
    }

    /// `template SET ID BODY`: 10, 25, 27
    fn add_template(&mut self, set: &str, id: &str, body: &[&str]) -> Answer<String> {
        let (set, id, body) = (self.set(set)?, self.id(id)?, self.body(body)?);
        let t = self.template(id.clone(), &body)?;
        let slotless = t.is_static();
        let mut after = self.sets[set].clone();
        if let Err(PolicySetError::Occupied { id }) = after.add_template(t) {
            return Err(self.refused(set, after, 10, encode_id(id)));
        }
        if slotless {
            self.refuse(25, encode_id(id))?;
        }
        self.keep(set, after)?;
        Ok("ok".to_string())
    }

    /// `static SET ID BODY`: 10, 27
    fn add_static(&mut self, set: &str, id: &str, body: &[&str]) -> Answer<String> {
        let (set, id, body) = (self.set(set)?, self.id(id)?, self.body(body)?);
        let p = self.static_policy(id, &body)?;
        let mut after = self.sets[set].clone();
        if let Err(PolicySetError::Occupied { id }) = after.add_static(p) {
            return Err(self.refused(set, after, 10, encode_id(id)));
        }
        self.keep(set, after)?;
        Ok("ok".to_string())
    }

    /// `add SET static ID BODY`
    fn add_policy(&mut self, set: &str, id: &str, body: &[&str]) -> Answer<String> {
        let (set, id, body) = (self.set(set)?, self.id(id)?, self.body(body)?);
        let p = self.static_policy(id, &body)?;
        self.add(set, p.into())
    }

    /// `add SET link ID PV RV TEMPLATEID BODY`
    fn add_link(
        &mut self,
        set: &str,
        id: &str,
        pv: &str,
        rv: &str,
        template: &str,
        body: &[&str],
    ) -> Answer<String> {
        let (set, id) = (self.set(set)?, self.id(id)?);
        let values = self.values(pv, rv)?;
        let (template, body) = (self.id(template)?, self.body(body)?);
        let t = self.template(template, &body)?;
        let p = Template::link(Arc::new(t), id, values).map_err(refused_linking)?;
        self.add(set, p)
    }

    /// `add`: the Rust's 10; for a link 25 and 26; 27
    fn add(&mut self, set: usize, p: Policy) -> Answer<String> {
        let (id, template) = (p.id().clone(), p.template().id().clone());
        let (link, slotless) = (!p.is_static(), p.template().is_static());
        let mut after = self.sets[set].clone();
        if let Err(PolicySetError::Occupied { id }) = after.add(p) {
            return Err(self.refused(set, after, 10, encode_id(id)));
        }
        if link && slotless {
            self.refuse(25, encode_id(&template))?;
        }
        if let Some(id) = crossed(&self.sets[set], &id, &template).filter(|_| link) {
            self.refuse(26, encode_id(id))?;
        }
        self.keep(set, after)?;
        Ok("ok".to_string())
    }

    /// `link SET TEMPLATEID ID PV RV`: 11, 12, 13, 25, 27
    fn link(&mut self, set: &str, template: &str, id: &str, pv: &str, rv: &str) -> Answer<String> {
        let (set, template, id) = (self.set(set)?, self.id(template)?, self.id(id)?);
        let values = self.values(pv, rv)?;
        let mut after = self.sets[set].clone();
        let p = match after.link(template.clone(), id, values).cloned() {
            Ok(p) => p,
            Err(e) => {
                let (n, values) = linking(e);
                return Err(self.refused(set, after, n, values));
            }
        };
        if p.template().is_static() {
            self.refuse(25, encode_id(template))?;
        }
        self.keep(set, after)?;
        Ok(format!(
            "ok link {} {} {}",
            encode_id(p.id()),
            encode_id(p.template().id()),
            values_words(&p)
        ))
    }

    /// `unlink SET ID`: 14, 15
    fn unlink(&mut self, set: &str, id: &str) -> Answer<String> {
        use PolicySetUnlinkError as E;
        let (set, id) = (self.set(set)?, self.id(id)?);
        let mut after = self.sets[set].clone();
        let (n, id) = match after.unlink(&id) {
            Ok(p) => {
                self.sets[set] = after;
                return Ok(format!("ok policy {}", self.handed_words(&p)));
            }
            Err(E::NotLinkError(id)) => (14, id),
            Err(E::UnlinkingError(id)) => (15, id),
        };
        Err(self.refused(set, after, n, encode_id(id)))
    }

    /// `remove_static SET ID`: 16, 17
    fn remove_static(&mut self, set: &str, id: &str) -> Answer<String> {
        use PolicySetPolicyRemovalError as E;
        let (set, id) = (self.set(set)?, self.id(id)?);
        let mut after = self.sets[set].clone();
        let (n, id) = match after.remove_static(&id) {
            Ok(p) => {
                self.sets[set] = after;
                return Ok(format!("ok policy {}", self.handed_words(&p)));
            }
            Err(E::RemovePolicyNoLinkError(id)) => (16, id),
            Err(E::RemovePolicyNoTemplateError(id)) => (17, id),
        };
        Err(self.refused(set, after, n, encode_id(id)))
    }

    /// `remove_template SET ID`: 18, 19, 20
    fn remove_template(&mut self, set: &str, id: &str) -> Answer<String> {
        use PolicySetTemplateRemovalError as E;
        let (set, id) = (self.set(set)?, self.id(id)?);
        let mut after = self.sets[set].clone();
        let (n, id) = match after.remove_template(&id) {
            Ok(t) => {
                self.sets[set] = after;
                return Ok(format!("ok template {}", self.template_words(&t)));
            }
            Err(E::NotTemplateError(id)) => (18, id),
            Err(E::RemovePolicyNoTemplateError(id)) => (19, id),
            Err(E::RemoveTemplateWithLinksError(id)) => (20, id),
        };
        Err(self.refused(set, after, n, encode_id(id)))
    }

    /// `links SET ID`: 21
    fn links(&mut self, set: &str, id: &str) -> Answer<String> {
        let (set, id) = (self.set(set)?, self.id(id)?);
        match self.sets[set].get_linked_policies(&id) {
            Ok(members) => Ok(format!("ok {}", listing(members.map(encode_id).collect()))),
            Err(PolicySetGetLinksError::MissingTemplate(id)) => Err(Refused(21, encode_id(id))),
        }
    }

    /// `filled SET ID`: `principal_constraint` and `resource_constraint` of a policy fill its slots.
    fn filled(&mut self, set: &str, id: &str) -> Answer<String> {
        let (set, id) = (self.set(set)?, self.id(id)?);
        let Some(p) = self.sets[set].get(&id) else {
            return Ok("none".to_string());
        };
        let (principal, resource) = (p.principal_constraint(), p.resource_constraint());
        Ok(format!(
            "ok {} {}",
            scope_word(principal.as_inner()),
            scope_word(resource.as_inner())
        ))
    }

    /// A listing or the validation of a set.
    fn whole_set(&mut self, head: &str, set: &str) -> Answer<String> {
        if !["policies", "static_policies", "templates", "validate"].contains(&head) {
            return Err(NoCall("no such call"));
        }
        let i = self.set(set)?;
        let words = match head {
            "policies" => self.sets[i].policies().map(pair_word).collect(),
            "static_policies" => self.sets[i].static_policies().map(pair_word).collect(),
            "templates" => self.sets[i]
                .templates()
                .map(|t| encode_id(t.id()))
                .collect(),
            _ => return self.validate(i),
        };
        Ok(format!("ok {}", listing(words)))
    }

    /// `validate SET`: 22, 23
    fn validate(&mut self, set: usize) -> Answer<String> {
        use PolicySetValidationError as E;
        match self.sets[set].clone().try_validate() {
            Ok(_) => Ok("ok".to_string()),
            Err(E::InvalidTemplate { id, error }) => Err(self.invalid(set, id, error)),
            Err(E::LinkToSlotlessTemplate { link_id, .. }) => {
                self.fault(format!(
                    "validate: {link_id} is a link of a template without slots"
                ));
                Err(NoCall("no refusal fits"))
            }
        }
    }

    fn invalid(&mut self, set: usize, id: PolicyID, e: TemplateValidationError) -> Stop {
        let Some(t) = self.sets[set].get_template(&id).cloned() else {
            self.fault(format!("validate names {id}, which is no template"));
            return NoCall("no refusal fits");
        };
        match e {
            TemplateValidationError::SlotsInConditionClause(e) => {
                let clause = t.non_scope_constraints();
                let all = clause.map_or(0, |clause| {
                    bits(
                        clause
                            .slots()
                            .map(|slot| slot.id)
                            .collect::<Vec<_>>()
                            .iter(),
                    )
                });
                Refused(
                    22,
                    format!("{} {}", encode_id(id), self.named_slot(&e.slot.id, all)),
                )
            }
            TemplateValidationError::InvalidActionType(e) => {
                let euids: Vec<&EntityUID> = e.euids.iter().map(|e| e.as_ref()).collect();
                Refused(
                    23,
                    format!("{} {}", encode_id(id), self.action_mask(&t, &euids)),
                )
            }
            e => {
                self.fault(format!("validate {id}: {e:?}"));
                NoCall("no refusal fits")
            }
        }
    }

    /// The places in a template's actions at which the Rust's list of faulty entities stands.
    fn action_mask(&mut self, t: &Template, faulty: &[&EntityUID]) -> u32 {
        let actions: Vec<&EntityUID> = match t.action_constraint() {
            ActionConstraint::Any => vec![],
            ActionConstraint::Eq(e) => vec![e.as_ref()],
            ActionConstraint::In(list) => list.iter().map(|e| e.as_ref()).collect(),
        };
        let places = actions
            .iter()
            .enumerate()
            .filter(|(_, e)| faulty.contains(e));
        let mask = places.fold(0u32, |mask, (place, _)| mask | 1 << place);
        if mask.count_ones() as usize != faulty.len() {
            self.fault(format!("23: the Rust's list and mask {mask} differ"))
        }
        mask
    }
}
