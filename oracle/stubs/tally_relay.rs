//! Stands where the relay's bounded table stood: a map that never evicts.

pub mod bounded {
    use std::collections::BTreeMap;

    #[derive(Clone)]
    pub struct Bounded<K, V>(BTreeMap<K, V>);

    impl<K: Ord, V> Bounded<K, V> {
        pub fn new(_: usize) -> Self {
            Self(BTreeMap::new())
        }

        pub fn get(&self, key: &K) -> Option<&V> {
            self.0.get(key)
        }

        pub fn get_mut(&mut self, key: &K) -> Option<&mut V> {
            self.0.get_mut(key)
        }

        pub fn insert_active(&mut self, key: K, value: V) {
            self.0.insert(key, value);
        }

        pub fn touch(&mut self, _: &K) {}

        pub fn remove(&mut self, key: &K) -> Option<V> {
            self.0.remove(key)
        }

        pub fn iter(&self) -> impl Iterator<Item = (&K, &V)> {
            self.0.iter()
        }

        pub fn values(&self) -> impl Iterator<Item = &V> {
            self.0.values()
        }

        pub fn len(&self) -> usize {
            self.0.len()
        }
    }
}
