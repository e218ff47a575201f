//! How many of each kind were tried. Kinds stand in named groups; a group
//! names the kinds that a run has to meet, and a kind that is not met fails it.

use std::collections::BTreeMap;
use std::fmt::Write;

/// A group of kinds. `each` shows every kind in the table; else the table has
/// one line for the whole group.
pub struct Group {
    pub name: &'static str,
    pub required: Vec<String>,
    pub each: bool,
}

impl Group {
    pub fn each<T: ToString>(name: &'static str, kinds: impl IntoIterator<Item = T>) -> Group {
        let required = kinds.into_iter().map(|kind| kind.to_string()).collect();
        Group { name, required, each: true }
    }

    pub fn summed<T: ToString>(name: &'static str, kinds: impl IntoIterator<Item = T>) -> Group {
        Group { each: false, ..Group::each(name, kinds) }
    }
}

pub struct Tally {
    groups: Vec<Group>,
    counts: BTreeMap<&'static str, BTreeMap<String, u64>>,
}

impl Tally {
    pub fn new(groups: Vec<Group>) -> Tally {
        let counts = groups.iter().map(|group| (group.name, BTreeMap::new())).collect();
        Tally { groups, counts }
    }

    /// Counts one of a kind. The group has to be one of the tally's.
    pub fn add(&mut self, group: &'static str, kind: impl ToString) {
        let counts = self.counts.get_mut(group);
        let counts = counts.unwrap_or_else(|| panic!("no group '{group}'"));
        *counts.entry(kind.to_string()).or_insert(0) += 1;
    }

    pub fn count(&self, group: &'static str, kind: &str) -> u64 {
        self.counts[group].get(kind).copied().unwrap_or(0)
    }

    pub fn total(&self, group: &'static str) -> u64 {
        self.counts[group].values().sum()
    }

    /// The required kinds that were not met.
    pub fn missing(&self) -> Vec<String> {
        let mut missing = Vec::new();
        for group in &self.groups {
            for kind in &group.required {
                if self.count(group.name, kind) == 0 {
                    missing.push(format!("{}: {kind}", group.name));
                }
            }
        }
        missing
    }

    /// A table of all groups, one line for each kind or for a whole group.
    pub fn table(&self) -> String {
        let mut table = String::new();
        for group in &self.groups {
            if group.each {
                self.lines_of_each(group, &mut table);
            } else {
                self.line_of_group(group, &mut table);
            }
        }
        table
    }

    fn lines_of_each(&self, group: &Group, table: &mut String) {
        let _ = writeln!(table, "  {}", group.name);
        for kind in &group.required {
            let _ = writeln!(table, "  {:>9}  {kind}", self.count(group.name, kind));
        }
        for (kind, count) in &self.counts[group.name] {
            if !group.required.contains(kind) {
                let _ = writeln!(table, "  {count:>9}  {kind}");
            }
        }
    }

    fn line_of_group(&self, group: &Group, table: &mut String) {
        let counts = group.required.iter().map(|kind| self.count(group.name, kind));
        let met = counts.clone().filter(|count| *count > 0).count();
        let fewest = counts.clone().min().unwrap_or(0);
        let _ = writeln!(
            table,
            "  {}\n  {:>9}  in all: {met} of {} kinds met, each at least {fewest} times",
            group.name,
            counts.sum::<u64>(),
            group.required.len(),
        );
    }
}

#[cfg(test)]
mod tests {
    use super::*;
    use crate::{calls_kinds, hit_replies, roster_kinds, sift_kinds};

    /// A name that stood twice would be counted once.
    #[test]
    fn every_kind_is_named_once() {
        for groups in [
            sift_kinds::groups(&[]),
            calls_kinds::groups(&[]),
            roster_kinds::groups(&[]),
            hit_replies::groups(),
        ] {
            for (index, group) in groups.iter().enumerate() {
                assert!(groups[..index].iter().all(|other| other.name != group.name));
                let mut kinds = group.required.clone();
                kinds.sort_unstable();
                kinds.dedup();
                assert_eq!(kinds.len(), group.required.len(), "{}", group.name);
            }
        }
    }

    #[test]
    fn a_kind_without_a_count_is_missing() {
        let mut tally = Tally::new(vec![Group::summed("windows", 0..3)]);
        tally.add("windows", 0);
        tally.add("windows", 2);
        assert_eq!(tally.missing(), ["windows: 1"]);
        assert_eq!(tally.total("windows"), 2);
    }
}
