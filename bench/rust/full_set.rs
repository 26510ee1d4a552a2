//! Full sets, those of crates/bench.
use crate::ast::annotation::Annotations;
use crate::ast::*;
use crate::rng::Rng;
use std::collections::HashMap;
use std::sync::Arc;

pub const CLAUSE: &str = "context.hour >= 9 && context.hour < 17 && resource.owner == principal.manager";

/// As long as the other, and another in its last byte.
pub const OTHER_CLAUSE: &str = "context.hour >= 9 && context.hour < 17 && resource.owner == principal.manages";

pub fn entity_type(ty: &str) -> Arc<EntityType> {
    Arc::new(EntityType::EntityType(Name::of_text(ty)))
}

pub fn template(
    id: PolicyID,
    p: PrincipalConstraint,
    a: Vec<EntityUID>,
    r: ResourceConstraint,
    clause: &str,
) -> Template {
    let clause = Expr::sealed(clause.to_string(), vec![]);
    let a = ActionConstraint::is_in(a);
    Template::new(id, None, Annotations::default(), Effect::Permit, p, a, r, Some(clause))
}

/// Half of the templates have slots, by turns one and two, and half are static policies; the other policies are links of
/// the former, in turn. Equal arguments make equal sets that share no memory, and another clause the same ids for unequal
/// contents.
pub fn full_set(templates: usize, policies: usize, clause: &str) -> PolicySet {
    let mut rng = Rng(7);
    let users: Vec<EntityUID> = (0..32).map(|_| rng.entity("Org::User")).collect();
    let files: Vec<EntityUID> = (0..32).map(|_| rng.entity("Org::File")).collect();
    let actions: Vec<EntityUID> = (0..8).map(|_| rng.entity("Org::Action")).collect();
    let mut set = PolicySet::new();
    let mut slotted = vec![];
    for i in 0..templates {
        let (user, file) = (Arc::new(users[i % 32].clone()), Arc::new(files[i % 32].clone()));
        let in_file = ResourceConstraint::is_entity_type_in(entity_type("Org::File"), file);
        let acts = vec![actions[i % 8].clone(), actions[(i + 1) % 8].clone()];
        let id = rng.id();
        if i >= templates / 2 {
            let t = template(id, PrincipalConstraint::is_eq(user), acts, in_file, clause);
            set.add_static(t.try_into().unwrap()).unwrap()
        } else {
            let r = if i % 2 == 0 { in_file } else { ResourceConstraint::is_in_slot() };
            slotted.push(id.clone());
            set.add_template(template(id, PrincipalConstraint::is_in_slot(), acts, r, clause)).unwrap()
        }
    }
    for i in 0..policies - templates / 2 {
        let k = i % slotted.len();
        let mut values = HashMap::from([(SlotId::principal(), users[rng.below(32)].clone())]);
        if k % 2 == 1 {
            values.insert(SlotId::resource(), files[rng.below(32)].clone());
        }
        set.link(slotted[k].clone(), rng.id(), values).unwrap();
    }
    assert_eq!(counts(&set), (templates, policies));
    set
}

pub fn counts(set: &PolicySet) -> (usize, usize) {
    (set.all_templates().count(), set.policies().count())
}
