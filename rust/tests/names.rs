//! The names and numbers of c/odr.h and of this package are the same: every constant, and every function. The fields' places are
//! those of docs/FORMAT.md.

use std::collections::{BTreeMap, BTreeSet};

const HEADER: &str = include_str!("../../c/odr.h");
const PACKAGE: &str = include_str!("../src/lib.rs");
const FORMAT: &str = include_str!("../../docs/FORMAT.md");

/// The fields of both editions by name: 42 of both, four of 1985 alone and six of 1992.
const FIELDS: usize = 42 + 4 + 6;

/// Each `NAME = 1` of a text, behind `before`; a type may follow the name.
fn numbers(text: &str, before: &str) -> BTreeMap<String, u64> {
    let number = |line: &str| {
        let (name, rest) = line.trim_start().strip_prefix(before)?.split_once(" = ")?;
        let name = name.split(':').next()?.to_string();
        let digits: String = rest.chars().filter(|&c| c != '_').take_while(char::is_ascii_digit).collect();
        Some((name, digits.parse().ok()?))
    };
    text.lines().filter_map(number).collect()
}

/// Each function that a text declares: the name between ` odr_` and a bracket; comments and their examples stand otherwise.
fn functions(text: &str) -> BTreeSet<String> {
    let declares = |line: &&str| line.starts_with("    fn ") || line.starts_with(|c: char| c.is_ascii_alphabetic());
    let name = |line: &str| line.split_once(" odr_")?.1.split_once('(').map(|(name, _)| name.to_string());
    text.lines().filter(declares).filter_map(name).collect()
}

#[test]
fn numbers_are_the_same() {
    let c = numbers(HEADER, "ODR_");
    assert_eq!(c, numbers(PACKAGE, "pub const "));
    assert_eq!(c.len(), 9 + 27 + FIELDS + (3 + 2)); // those of blocks last
}

#[test]
fn functions_are_the_same() {
    let c = functions(HEADER);
    assert_eq!(c, functions(PACKAGE));
    assert_eq!(c.len(), 20 + 4); // those of blocks last
}

/// A row of a table of fields: the place first, and the name fifth.
fn place(line: &str) -> Option<(String, u64)> {
    let columns: Vec<&str> = line.split('|').map(str::trim).collect();
    let name = columns.get(5)?.strip_prefix('`')?.strip_suffix('`')?.to_uppercase();
    Some((name, columns[1].parse().ok()?))
}

#[test]
fn places_are_those_of_the_format() {
    let places: BTreeMap<String, u64> = FORMAT.lines().filter_map(place).collect();
    let fields = PACKAGE.split_once("pub mod field {").map_or("", |(_, rest)| rest);
    assert_eq!(places, numbers(fields, "pub const "));
    assert_eq!(places.len(), FIELDS);
    let all: BTreeSet<u64> = places.into_values().collect();
    assert!(all.into_iter().eq(0..odr::HEADER_VALUES as u64));
}
