//! What is timed.
use crate::ast::*;
use crate::full_set::{counts, entity_type, full_set, template, CLAUSE, OTHER_CLAUSE};
use crate::rng::Rng;
use crate::timing::{measure, timed};
use std::collections::HashMap;
use std::hint::black_box;
use std::sync::Arc;
use std::time::{Duration, Instant};

/// 1,024 texts in a hash map, asked in another order, and the same by a scan of texts that stand end to end.
pub fn lookups() {
    let mut rng = Rng(3);
    let names: Vec<String> = (0..1024).map(|_| rng.text(8, 24)).collect();
    let mut asked = names.clone();
    rng.shuffle(&mut asked);

    let map: HashMap<String, u16> = names.iter().cloned().zip(0..).collect();
    assert_eq!(map.len(), 1024);
    measure("lookup1024", 1024, |n| {
        timed(n, || {
            for text in &asked {
                black_box(map.get(black_box(text.as_str())));
            }
        })
    });

    let bytes = names.concat().into_bytes();
    let mut places: Vec<(u16, u16)> = vec![];
    let mut start = 0;
    for text in &names {
        places.push((start, text.len() as u16));
        start += text.len() as u16
    }
    for text in &asked {
        assert_eq!(scan(&bytes, &places, text.as_bytes()), map.get(text).copied());
    }
    measure("lookup1024_scan", 1024, |n| {
        timed(n, || {
            for text in &asked {
                black_box(scan(&bytes, &places, black_box(text.as_bytes())));
            }
        })
    });
}

#[inline(never)]
fn scan(bytes: &[u8], places: &[(u16, u16)], text: &[u8]) -> Option<u16> {
    for (number, &(start, len)) in places.iter().enumerate() {
        if len as usize == text.len() && same(&bytes[start as usize..][..len as usize], text) {
            return Some(number as u16);
        }
    }
    None
}

/// Byte by byte: `==` on slices would call memcmp.
fn same(a: &[u8], b: &[u8]) -> bool {
    a.iter().zip(b).all(|(x, y)| x == y)
}

/// The last place of a full set is linked, and unlinked again. `link` takes its arguments for good, so each call has to
/// make them; that alone is timed too.
pub fn link_unlink() {
    let mut rng = Rng(5);
    let mut set = full_set(64, 255, CLAUSE);
    let one_slot: Vec<PolicyID> =
        set.templates().filter(|t| t.slots().count() == 1).map(|t| t.id().clone()).collect();
    assert_eq!(one_slot.len(), 16);
    let new: Vec<(PolicyID, EntityUID)> = (0..16).map(|_| (rng.id(), rng.entity("Org::User"))).collect();
    let arguments = |k: usize| {
        let values = HashMap::from([(SlotId::principal(), new[k].1.clone())]);
        (one_slot[k].clone(), new[k].0.clone(), values)
    };
    let mut k = 0;
    measure("link_unlink_full", 1, |n| {
        timed(n, || {
            k = (k + 1) % 16;
            let (template, id, values) = arguments(k);
            black_box(set.link(template, id, values).unwrap());
            black_box(set.unlink(&new[k].0).unwrap());
        })
    });
    measure("link_arguments", 1, |n| {
        timed(n, || {
            k = (k + 1) % 16;
            black_box(arguments(k));
        })
    });
    assert_eq!(counts(&set), (64, 255));
}

/// The condition of a template with eight actions; freeing it is timed too.
pub fn condition() {
    let mut rng = Rng(9);
    let file = Arc::new(rng.entity("Org::File"));
    let t = template(
        rng.id(),
        PrincipalConstraint::is_entity_type_in_slot(entity_type("Org::User")),
        (0..8).map(|_| rng.entity("Org::Action")).collect(),
        ResourceConstraint::is_entity_type_in(entity_type("Org::File"), file),
        CLAUSE,
    );
    measure("condition", 1, |n| {
        timed(n, || {
            black_box(black_box(&t).condition());
        })
    });
}

/// Copying the live set, and freeing what a merge leaves, are not timed.
fn merge(unit: &str, live: &PolicySet, other: &PolicySet, rename: bool, after: (usize, usize), renamed: usize) {
    measure(unit, 1, |n| {
        let mut sum = Duration::ZERO;
        for i in 0..n {
            let mut copy = live.clone();
            let start = Instant::now();
            let pairs = copy.merge_policyset(black_box(other), rename).unwrap();
            sum += start.elapsed();
            if i == 0 {
                assert_eq!((counts(&copy), pairs.len()), (after, renamed))
            }
            black_box((copy, pairs));
        }
        sum
    })
}

/// A merge of equal sets, whose contents are compared since they share no memory; a merge where every incoming id is
/// renamed: those of 32 templates and of 112 links.
pub fn merges() {
    let full = full_set(64, 256, CLAUSE);
    merge("merge_equal_unshared", &full, &full_set(64, 256, CLAUSE), false, (64, 256), 0);
    let (live, other) = (full_set(32, 128, CLAUSE), full_set(32, 128, OTHER_CLAUSE));
    merge("merge_rename", &live, &other, true, (64, 256), 144);
}

/// A policy of a full set by its id, each in its turn.
pub fn get() {
    let set = full_set(64, 256, CLAUSE);
    let mut ids: Vec<PolicyID> = set.policies().map(|p| p.id().clone()).collect();
    Rng(11).shuffle(&mut ids);
    let mut k = 0;
    measure("get", 1, |n| {
        timed(n, || {
            k = (k + 1) % 256;
            black_box(set.get(black_box(&ids[k])).unwrap());
        })
    });
}
