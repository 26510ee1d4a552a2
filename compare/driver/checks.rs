//! What holds of both sets after every call: what policy_set.rs says of its maps, and what docs/RULES.md says beyond.
use crate::ast::*;
use crate::stop::Stop;
use crate::texts::encode_id;
use crate::world::{bits, template_bits, World};
use std::collections::HashSet;

fn check_templates(set: &PolicySet, faults: &mut Vec<String>) {
    let (templates, policies, reverse) = set.peek();
    for (id, t) in templates {
        if t.id() != id {
            faults.push(format!("template {id} stands under another id"));
        }
        if t.is_static() != policies.contains_key(id) {
            faults.push(format!("template {id}: its slots and the maps disagree"));
        }
        let wanted: HashSet<&PolicyID> = policies
            .iter()
            .filter(|(_, p)| p.template().id() == id)
            .map(|(id, _)| id)
            .collect();
        match reverse
            .get(id)
            .map(|members| members.iter().collect::<HashSet<_>>())
        {
            None => faults.push(format!("template {id} has no reverse set")),
            Some(found) if found != wanted => {
                faults.push(format!("the reverse set of {id} is wrong"))
            }
            Some(_) => (),
        }
    }
    for id in reverse.keys().filter(|id| !templates.contains_key(id)) {
        faults.push(format!("reverse set of {id} without a template"));
    }
}

fn check_policies(set: &PolicySet, faults: &mut Vec<String>) {
    let (templates, policies, _) = set.peek();
    for (id, p) in policies {
        if p.id() != id {
            faults.push(format!("policy {id} stands under another id"));
        }
        if templates.get(p.template().id()).map(|t| t.as_ref()) != Some(p.template()) {
            faults.push(format!("policy {id}: its template is not the set's"));
        }
        if p.is_static() != templates.contains_key(id) {
            faults.push(format!("policy {id}: its kind and the maps disagree"));
        }
        if p.is_static() != p.template().is_static() {
            faults.push(format!("policy {id}: a link of a template without slots"));
        }
        if bits(p.env().keys()) != template_bits(p.template()) {
            faults.push(format!("policy {id}: its values are not its slots"));
        }
    }
}

impl World {
    /// Checks both sets.
    pub fn check_both(&mut self) {
        for (set, word) in [(0, "A"), (1, "B")] {
            let mut faults = vec![];
            check_templates(&self.sets[set], &mut faults);
            check_policies(&self.sets[set], &mut faults);
            self.faults.extend(
                faults
                    .into_iter()
                    .map(|fault| format!("set {word}: {fault}")),
            );
            self.count_orders(set);
        }
    }

    /// Counts the calls after which keys or members are in another order than the table from which they come.
    fn count_orders(&mut self, set: usize) {
        let (templates, policies, reverse) = self.sets[set].peek();
        let keys = reverse.keys().ne(templates.keys());
        let members = reverse.values().any(|members| {
            let found: Vec<&PolicyID> = members.iter().collect();
            let wanted: Vec<&PolicyID> = policies.keys().filter(|id| found.contains(id)).collect();
            found != wanted
        });
        if keys {
            self.count("  reverse sets not in the templates' order".to_string())
        }
        if members {
            self.count("  members not in the policies' order".to_string())
        }
    }

    /// Whether all is as before, but for the one link that is now last.
    fn moved_last(&self, set: usize, after: &PolicySet, id: &str) -> bool {
        let (templates, policies, reverse) = self.sets[set].peek();
        let (after_templates, after_policies, after_reverse) = after.peek();
        templates == after_templates
            && reverse == after_reverse
            && policies.len() == after_policies.len()
            && policies
                .iter()
                .all(|(id, p)| after_policies.get(id) == Some(p))
            && after_policies.keys().last().map(encode_id).as_deref() == Some(id)
    }

    /// A refusal of the Rust, which leaves the set as it was; 17 moves the link last.
    pub fn refused(&mut self, set: usize, after: PolicySet, n: u8, values: String) -> Stop {
        if after != self.sets[set] {
            if n == 17 && self.moved_last(set, &after, &values) {
                self.count("  17 moved the link last".to_string());
            } else {
                self.fault(format!("refusal {n} {values} changed the set"));
            }
        }
        self.sets[set] = after;
        Stop::Refused(n, values)
    }
}
