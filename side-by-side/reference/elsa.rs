//! Stands in for the crate of this name: a map that only grows, so that what it lends stays in place. The keys are the numbers of modules.

pub mod sync {
    use std::marker::PhantomData;
    use std::ops::Deref;
    use std::sync::OnceLock;

    /// A square of this side has a place for each number that a module can have.
    const SIDE: usize = 512;

    /// Rows of places. Each is made once, behind a shared reference, and so is what stands in it.
    pub struct FrozenMap<K, V> {
        rows: Places<Places<V>>,
        keys: PhantomData<K>,
    }

    type Places<T> = Box<[OnceLock<T>]>;

    fn places<T>() -> Places<T> {
        (0..SIDE).map(|_| OnceLock::new()).collect()
    }

    impl<V: Deref> FrozenMap<usize, V> {
        pub fn new() -> Self {
            FrozenMap { rows: places(), keys: PhantomData }
        }

        pub fn get(&self, key: &usize) -> Option<&V::Target> {
            let row = self.rows[key / SIDE].get()?;
            row[key % SIDE].get().map(|value| &**value)
        }

        pub fn insert(&self, key: usize, value: V) -> &V::Target {
            let row = self.rows[key / SIDE].get_or_init(places);
            &**row[key % SIDE].get_or_init(|| value)
        }
    }
}
