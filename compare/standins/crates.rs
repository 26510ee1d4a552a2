//! One crate that stands in, under several names, for linked_hash_set, smol_str, miette, thiserror, itertools, educe,
//! nonempty and serde.
extern crate linked_hash_map;
extern crate standin_macros;
use linked_hash_map::LinkedHashMap;
use std::hash::Hash;

// thiserror, educe, serde: derives only
pub use standin_macros::{Deserialize, Diagnostic, Educe, Error, Serialize};

// smol_str
pub type SmolStr = String;
#[macro_export]
macro_rules! format_smolstr {
    ($($t:tt)*) => { format!($($t)*) };
}

// miette
pub trait Diagnostic {
    fn labels(&self) -> Option<Box<dyn Iterator<Item = LabeledSpan> + '_>> {
        None
    }
    fn source_code(&self) -> Option<&dyn SourceCode> {
        None
    }
}
pub trait SourceCode {}
#[derive(Clone, Copy, Debug, PartialEq, Eq, Hash, PartialOrd, Ord)]
pub struct SourceSpan;
pub struct LabeledSpan;
impl LabeledSpan {
    pub fn underline(_: SourceSpan) -> Self {
        LabeledSpan
    }
}

// itertools
pub trait Itertools: Iterator {
    fn join(&mut self, sep: &str) -> String
    where
        Self::Item: std::fmt::Display,
    {
        let v: Vec<String> = self.map(|x| x.to_string()).collect();
        v.join(sep)
    }
    fn contains(&mut self, q: &Self::Item) -> bool
    where
        Self: Sized,
        Self::Item: PartialEq,
    {
        self.any(|x| x == *q)
    }
}
impl<I: Iterator + ?Sized> Itertools for I {}

// nonempty
#[derive(Clone, Debug, PartialEq, Eq)]
pub struct NonEmpty<T> {
    pub head: T,
    pub tail: Vec<T>,
}
impl<T> NonEmpty<T> {
    pub fn collect<I: IntoIterator<Item = T>>(it: I) -> Option<Self> {
        let mut it = it.into_iter();
        let head = it.next()?;
        Some(NonEmpty {
            head,
            tail: it.collect(),
        })
    }
    pub fn len(&self) -> usize {
        1 + self.tail.len()
    }
    pub fn iter(&self) -> impl Iterator<Item = &T> {
        std::iter::once(&self.head).chain(self.tail.iter())
    }
}
#[macro_export]
macro_rules! nonempty {
    ($x:expr) => {
        $crate::NonEmpty {
            head: $x,
            tail: vec![],
        }
    };
}

// linked_hash_set: a set over the map; inserting a present member puts it last, as inserting a present key in the map does
#[derive(Clone, Debug, PartialEq, Eq)]
pub struct LinkedHashSet<T: Eq + Hash>(LinkedHashMap<T, ()>);
impl<T: Eq + Hash> Default for LinkedHashSet<T> {
    fn default() -> Self {
        Self::new()
    }
}
impl<T: Eq + Hash> LinkedHashSet<T> {
    pub fn new() -> Self {
        Self(LinkedHashMap::new())
    }
    pub fn insert(&mut self, x: T) -> bool {
        self.0.insert(x, ()).is_none()
    }
    pub fn remove(&mut self, x: &T) -> bool {
        self.0.remove(x).is_some()
    }
    pub fn contains(&self, x: &T) -> bool {
        self.0.contains_key(x)
    }
    pub fn is_empty(&self) -> bool {
        self.0.is_empty()
    }
    pub fn len(&self) -> usize {
        self.0.len()
    }
    pub fn iter(&self) -> SetIter<'_, T> {
        SetIter(self.0.iter())
    }
}
pub struct SetIter<'a, T>(linked_hash_map::Iter<'a, T, ()>);
impl<'a, T: Eq + Hash> Iterator for SetIter<'a, T> {
    type Item = &'a T;
    fn next(&mut self) -> Option<&'a T> {
        self.0.next().map(|x| x.0)
    }
}
impl<'a, T: Eq + Hash> IntoIterator for &'a LinkedHashSet<T> {
    type Item = &'a T;
    type IntoIter = SetIter<'a, T>;
    fn into_iter(self) -> SetIter<'a, T> {
        self.iter()
    }
}
impl<T: Eq + Hash> FromIterator<T> for LinkedHashSet<T> {
    fn from_iter<I: IntoIterator<Item = T>>(it: I) -> Self {
        let mut s = Self::new();
        for x in it {
            s.insert(x);
        }
        s
    }
}
