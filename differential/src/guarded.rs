//! A buffer between guards: elements before and behind it that no call may touch.

const GUARDS: usize = 64;

pub struct Guarded<T> {
    all: Vec<T>,
    guard: T,
}

impl<T: Clone + PartialEq> Guarded<T> {
    pub fn of(inside: &[T], guard: T) -> Guarded<T> {
        // Room for all at once: every call of every test goes through here.
        let mut all = Vec::with_capacity(GUARDS + inside.len() + GUARDS);
        all.resize(GUARDS, guard.clone());
        all.extend_from_slice(inside);
        all.resize(GUARDS + inside.len() + GUARDS, guard.clone());
        Guarded { all, guard }
    }

    pub fn inside(&mut self) -> *mut [T] {
        let end = self.all.len() - GUARDS;
        &mut self.all[GUARDS..end]
    }

    /// The first element, for what is lent as one.
    pub fn first(&mut self) -> *mut T {
        self.inside().cast()
    }

    /// The buffer, if all guards are as they were.
    pub fn back(mut self, name: &str) -> Vec<T> {
        let end = self.all.len() - GUARDS;
        let intact = |guards: &[T]| guards.iter().all(|guard| *guard == self.guard);
        assert!(intact(&self.all[..GUARDS]), "{name}: written before its start");
        assert!(intact(&self.all[end..]), "{name}: written beyond its end");
        self.all.truncate(end);
        self.all.drain(..GUARDS);
        self.all
    }
}
