//! How often things were met. The counts of two runs add up.
use std::{collections::BTreeMap, ops::AddAssign};

pub struct Counter<K>(BTreeMap<K, u64>);
impl<K> Default for Counter<K> {
    fn default() -> Self {
        Self(BTreeMap::new())
    }
}
impl<K: Ord> Counter<K> {
    pub fn add(&mut self, key: K) {
        *self.0.entry(key).or_default() += 1;
    }
    pub fn of(&self, key: &K) -> u64 {
        self.0.get(key).copied().unwrap_or(0)
    }
    /// Only what was met.
    pub fn met(&self) -> impl Iterator<Item = (&K, u64)> {
        self.0.iter().map(|(key, count)| (key, *count))
    }
}
impl<K: Ord> AddAssign for Counter<K> {
    fn add_assign(&mut self, other: Self) {
        for (key, count) in other.0 {
            *self.0.entry(key).or_default() += count;
        }
    }
}

/// What must be met, of an operation or of another group, and how often it was.
#[derive(Clone)]
pub struct Row {
    pub group: &'static str,
    pub name: String,
    pub count: u64,
}
impl Row {
    pub fn new(group: &'static str, name: impl ToString, count: u64) -> Self {
        Self {
            group,
            name: name.to_string(),
            count,
        }
    }
}
/// The rows of each group, which stand next to each other.
pub fn groups(rows: &[Row]) -> impl Iterator<Item = (&'static str, &[Row])> {
    let groups = rows.chunk_by(|left, right| left.group == right.group);
    groups.map(|rows| (rows[0].group, rows))
}
pub fn listed(rows: &[Row], between: &str) -> String {
    let rows = rows.iter();
    let rows: Vec<String> = rows
        .map(|row| format!("{}: {}", row.name, row.count))
        .collect();
    rows.join(between)
}
/// A line for each group.
pub fn print(rows: &[Row]) {
    for (group, rows) in groups(rows) {
        println!("{group:22}  {}", listed(rows, "  "));
    }
}
pub fn missing(rows: &[Row]) -> Vec<String> {
    let rows = rows.iter().filter(|row| row.count == 0);
    rows.map(|row| format!("{} {}", row.group, row.name))
        .collect()
}
