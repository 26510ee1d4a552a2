//! Stands in for linked_hash_map 0.5 where build.sh is not given the real source: a list of pairs. Inserting puts a new or
//! present key last with its new value; removing a key, and the entry of a present key, keep the order of the rest;
//! equality looks at the order.
#[derive(Clone, Debug, PartialEq, Eq)]
pub struct LinkedHashMap<K, V>(Vec<(K, V)>);

pub enum Entry<'a, K: 'a, V: 'a> {
    Occupied(OccupiedEntry<'a, K, V>),
    Vacant(VacantEntry<'a, K, V>),
}
pub struct OccupiedEntry<'a, K: 'a, V: 'a>(&'a mut LinkedHashMap<K, V>, usize);
pub struct VacantEntry<'a, K: 'a, V: 'a>(&'a mut LinkedHashMap<K, V>, K);

impl<K, V> Default for LinkedHashMap<K, V> {
    fn default() -> Self {
        Self(vec![])
    }
}
impl<K: Eq, V> LinkedHashMap<K, V> {
    pub fn new() -> Self {
        Self(vec![])
    }
    fn place(&self, k: &K) -> Option<usize> {
        self.0.iter().position(|(x, _)| x == k)
    }
    pub fn len(&self) -> usize {
        self.0.len()
    }
    pub fn is_empty(&self) -> bool {
        self.0.is_empty()
    }
    pub fn contains_key(&self, k: &K) -> bool {
        self.place(k).is_some()
    }
    pub fn get(&self, k: &K) -> Option<&V> {
        self.place(k).map(|i| &self.0[i].1)
    }
    pub fn insert(&mut self, k: K, v: V) -> Option<V> {
        let old = self.remove(&k);
        self.0.push((k, v));
        old
    }
    pub fn remove(&mut self, k: &K) -> Option<V> {
        self.place(k).map(|i| self.0.remove(i).1)
    }
    pub fn entry(&mut self, k: K) -> Entry<'_, K, V> {
        match self.place(&k) {
            Some(i) => Entry::Occupied(OccupiedEntry(self, i)),
            None => Entry::Vacant(VacantEntry(self, k)),
        }
    }
    pub fn iter(&self) -> Iter<'_, K, V> {
        Iter(self.0.iter())
    }
    pub fn keys(&self) -> impl Iterator<Item = &K> {
        self.0.iter().map(|x| &x.0)
    }
    pub fn values(&self) -> impl Iterator<Item = &V> {
        self.0.iter().map(|x| &x.1)
    }
}
pub struct Iter<'a, K, V>(std::slice::Iter<'a, (K, V)>);
impl<'a, K, V> Iterator for Iter<'a, K, V> {
    type Item = (&'a K, &'a V);
    fn next(&mut self) -> Option<Self::Item> {
        self.0.next().map(|x| (&x.0, &x.1))
    }
}
impl<'a, K: Eq, V> IntoIterator for &'a LinkedHashMap<K, V> {
    type Item = (&'a K, &'a V);
    type IntoIter = Iter<'a, K, V>;
    fn into_iter(self) -> Iter<'a, K, V> {
        self.iter()
    }
}
impl<K, V> IntoIterator for LinkedHashMap<K, V> {
    type Item = (K, V);
    type IntoIter = std::vec::IntoIter<(K, V)>;
    fn into_iter(self) -> Self::IntoIter {
        self.0.into_iter()
    }
}
impl<K: Eq, V> FromIterator<(K, V)> for LinkedHashMap<K, V> {
    fn from_iter<I: IntoIterator<Item = (K, V)>>(it: I) -> Self {
        let mut m = Self::new();
        for (k, v) in it {
            m.insert(k, v);
        }
        m
    }
}
impl<'a, K: Eq, V> Entry<'a, K, V> {
    pub fn or_default(self) -> &'a mut V
    where
        V: Default,
    {
        match self {
            Entry::Occupied(e) => e.into_mut(),
            Entry::Vacant(e) => e.insert(V::default()),
        }
    }
}
impl<'a, K, V> OccupiedEntry<'a, K, V> {
    pub fn key(&self) -> &K {
        &self.0 .0[self.1].0
    }
    pub fn get(&self) -> &V {
        &self.0 .0[self.1].1
    }
    pub fn into_mut(self) -> &'a mut V {
        &mut self.0 .0[self.1].1
    }
}
impl<'a, K, V> VacantEntry<'a, K, V> {
    pub fn insert(self, v: V) -> &'a mut V {
        self.0 .0.push((self.1, v));
        &mut self.0 .0.last_mut().unwrap().1
    }
}
