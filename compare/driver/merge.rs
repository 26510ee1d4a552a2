//! Merges, and what an accepted one is to keep (docs/RULES.md, "Merging").
use crate::ast::*;
use crate::print::listing;
use crate::stop::Answer;
use crate::stop::Stop::{NoCall, Outside};
use crate::texts;
use crate::texts::encode_id;
use crate::world::World;
use linked_hash_map::LinkedHashMap;
use std::collections::HashSet;

type Renaming = LinkedHashMap<PolicyID, PolicyID>;

/// An accepted merge: the sets before it, the live set after it, and the pairs.
struct Merged<'a> {
    live: &'a PolicySet,
    incoming: &'a PolicySet,
    after: &'a PolicySet,
    pairs: &'a Renaming,
}

impl World {
    /// `merge INTO FROM rename|refuse [ROOM]`
    pub fn merge(
        &mut self,
        into: &str,
        from: &str,
        how: &str,
        room: Option<&str>,
    ) -> Answer<String> {
        let (into, from) = (self.set(into)?, self.set(from)?);
        if into == from {
            return Err(NoCall("a set is merged into the other"));
        }
        let rename = match how {
            "rename" => true,
            "refuse" => false,
            _ => return Err(NoCall("rename or refuse")),
        };
        let room = texts::room(room)?;
        let pairs = self.merged(into, from, rename, room)?;
        let pair = |(old, new)| format!("{}>{}", encode_id(old), encode_id(new));
        Ok(format!("ok {}", listing(pairs.iter().map(pair).collect())))
    }

    /// Merges one set into the other: 10, 24, 27, 4; the pairs.
    fn merged(&mut self, into: usize, from: usize, rename: bool, room: usize) -> Answer<Renaming> {
        let incoming = self.sets[from].clone();
        let mut after = self.sets[into].clone();
        let pairs = match after.merge_policyset(&incoming, rename) {
            Ok(pairs) => pairs,
            Err(PolicySetError::Occupied { id }) => {
                return Err(self.refused(into, after, 10, encode_id(id)))
            }
        };
        if pairs.len() > room {
            return Err(Outside(24, pairs.len().to_string()));
        }
        self.refuse_beyond_limits(&after)?;
        let texts: Vec<&str> = pairs.values().map(|id| id.as_ref()).collect();
        self.book.enter_all(&texts)?;
        let live = std::mem::replace(&mut self.sets[into], after.clone());
        let (live, incoming, after) = (&live, &incoming, &after);
        self.check_merge(Merged {
            live,
            incoming,
            after,
            pairs: &pairs,
        });
        Ok(pairs)
    }

    fn check_merge(&mut self, merged: Merged) {
        merged.check_new_ids(&mut self.faults);
        merged.check_reasons(&mut self.faults);
        merged.check_apart(&mut self.faults);
        merged.check_incoming(&mut self.faults);
        merged.check_live(&mut self.faults);
        self.count(format!(
            "  pairs of an accepted merge: {}",
            merged.pairs.len()
        ));
        for moved in merged.moved() {
            self.count(format!(
                "  an accepted merge moved {moved} of the live set last"
            ));
        }
    }
}

fn binds(set: &PolicySet, id: &PolicyID) -> bool {
    let (templates, policies, _) = set.peek();
    templates.contains_key(id) || policies.contains_key(id)
}

/// Whether ids are no longer at the front in their old order.
fn moved(before: Vec<&PolicyID>, after: Vec<&PolicyID>) -> bool {
    !after.starts_with(&before)
}

impl Merged<'_> {
    fn final_id(&self, id: &PolicyID) -> PolicyID {
        self.pairs.get(id).unwrap_or(id).clone()
    }

    /// New ids are bound in neither set, and distinct.
    fn check_new_ids(&self, faults: &mut Vec<String>) {
        let mut seen = HashSet::new();
        for new in self.pairs.values() {
            if binds(self.live, new) || binds(self.incoming, new) {
                faults.push(format!("merge: new id {new} was bound"));
            }
            if !seen.insert(new.clone()) {
                faults.push(format!("merge: new id {new} twice"));
            }
        }
    }

    /// Each pair has one of the four reasons.
    fn check_reasons(&self, faults: &mut Vec<String>) {
        let (live_templates, live_policies, _) = self.live.peek();
        let (templates, policies, _) = self.incoming.peek();
        for old in self.pairs.keys() {
            let template = templates.get(old);
            let policy = policies.get(old);
            let unequal_template =
                template.is_some_and(|t| live_templates.get(old).is_some_and(|live| live != t));
            let unequal_policy =
                policy.is_some_and(|p| live_policies.get(old).is_some_and(|live| live != p));
            let live_is_policy =
                template.is_some_and(|t| !t.is_static()) && live_policies.contains_key(old);
            let live_is_template =
                policy.is_some_and(|p| !p.is_static()) && live_templates.contains_key(old);
            if !(unequal_template || unequal_policy || live_is_policy || live_is_template) {
                faults.push(format!("merge: {old} renamed for no reason"));
            }
        }
    }

    /// Different incoming ids end on different ids.
    fn check_apart(&self, faults: &mut Vec<String>) {
        let (templates, policies, _) = self.incoming.peek();
        let ids: HashSet<&PolicyID> = templates.keys().chain(policies.keys()).collect();
        let mut seen = HashSet::new();
        for id in ids {
            if !seen.insert(self.final_id(id)) {
                faults.push(format!(
                    "merge: two incoming ids end on {}",
                    self.final_id(id)
                ));
            }
        }
    }

    fn carries(&self, p: &Policy, after: &Policy) -> bool {
        after.id() == &self.final_id(p.id())
            && after.template().id() == &self.final_id(p.template().id())
            && after.env() == p.env()
            && after.effect() == p.effect()
            && after.is_static() == p.is_static()
            && after.principal_constraint() == p.principal_constraint()
            && after.action_constraint() == p.action_constraint()
            && after.resource_constraint() == p.resource_constraint()
            && after.non_scope_constraints() == p.non_scope_constraints()
    }

    /// Each incoming row is there under its final id.
    fn check_incoming(&self, faults: &mut Vec<String>) {
        let (templates, policies, _) = self.incoming.peek();
        let (after_templates, after_policies, _) = self.after.peek();
        for (id, p) in policies {
            if !after_policies
                .get(&self.final_id(id))
                .is_some_and(|after| self.carries(p, after))
            {
                faults.push(format!("merge: incoming policy {id} lost or changed"));
            }
        }
        for (id, t) in templates {
            let id = self.final_id(id);
            if !after_templates
                .get(&id)
                .is_some_and(|after| **after == t.new_id(id.clone()))
            {
                faults.push(format!("merge: incoming template {id} lost or changed"));
            }
        }
    }

    /// Each live row is there, itself or its equal.
    fn check_live(&self, faults: &mut Vec<String>) {
        let (templates, policies, _) = self.live.peek();
        let (after_templates, after_policies, _) = self.after.peek();
        for (id, p) in policies {
            if after_policies.get(id) != Some(p) {
                faults.push(format!("merge: live policy {id} lost or changed"));
            }
        }
        for (id, t) in templates {
            if after_templates.get(id) != Some(t) {
                faults.push(format!("merge: live template {id} lost or changed"));
            }
        }
    }

    /// What an accepted merge moves last because the incoming set has it too.
    fn moved(&self) -> Vec<&'static str> {
        let (templates, policies, reverse) = self.live.peek();
        let (after_templates, after_policies, _) = self.after.peek();
        let members =
            reverse
                .iter()
                .any(|(id, members)| match self.after.get_linked_policies(id) {
                    Ok(after) => moved(members.iter().collect(), after.collect()),
                    Err(_) => true,
                });
        [
            (
                "templates",
                moved(templates.keys().collect(), after_templates.keys().collect()),
            ),
            (
                "policies",
                moved(policies.keys().collect(), after_policies.keys().collect()),
            ),
            ("members of a reverse set", members),
        ]
        .into_iter()
        .filter(|(_, moved)| *moved)
        .map(|(what, _)| what)
        .collect()
    }
}
