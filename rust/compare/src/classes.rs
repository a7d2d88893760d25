//! Counts of what a run reached, by the names of a list.

use std::collections::BTreeMap;

pub struct Classes(BTreeMap<&'static str, u64>);

impl Classes {
    /// Every class at 0, so that those never reached are seen.
    pub fn new(names: &[&'static str]) -> Classes {
        Classes(names.iter().map(|&name| (name, 0)).collect())
    }

    pub fn count(&mut self, class: &'static str) {
        match self.0.get_mut(class) {
            Some(count) => *count += 1,
            None => panic!("the class {class:?} is not in the list"),
        }
    }

    pub fn count_if(&mut self, reached: bool, class: &'static str) {
        if reached {
            self.count(class);
        }
    }

    /// Every class with its count.
    pub fn lines(&self) -> Vec<(String, u64)> {
        self.0.iter().map(|(&name, &count)| (name.to_string(), count)).collect()
    }
}
