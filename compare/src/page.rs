//! A table that a command makes, held against docs/DIFFERENCES.md, and how its numbers are written.

use std::fs;

const PAGE: &str = "docs/DIFFERENCES.md";

/// Whether the page has the table that the command prints.
pub fn has(command: &str, table: &str) -> bool {
    let (good, told) = match fs::read_to_string(PAGE) {
        Ok(page) if page.contains(table) => (true, String::from("the same when made again")),
        Ok(_) => (false, format!("DIFFERS from what `compare/run {command}` prints, where it begins with {}", table.lines().next().unwrap_or_default())),
        Err(error) => (false, error.to_string()),
    };
    println!("{command}: the table in {PAGE}: {told}");
    good
}

/// In groups of three digits.
pub fn grouped(n: u64) -> String {
    match n {
        0..1_000 => n.to_string(),
        _ => format!("{},{:03}", grouped(n / 1_000), n % 1_000),
    }
}
