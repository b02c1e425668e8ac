//! The version is one, in the crate, in the C header and in the command; and what Climboat follows is what its pages name.
mod run;

use climboat::{FOLLOWS, VERSION};

/// The text that include/climboat.h defines under this name.
fn defined(name: &str) -> String {
    let start = format!("#define {name} \"");
    let mut found = include_str!("../../../include/climboat.h")
        .lines()
        .filter_map(|line| line.strip_prefix(&start));
    let text = found
        .next()
        .unwrap_or_else(|| panic!("climboat.h does not define {name}"));
    text.strip_suffix('"').unwrap().to_string()
}

#[test]
fn the_header_has_the_crates_version() {
    assert_eq!(defined("CLIMBOAT_VERSION"), VERSION);
    assert_eq!(defined("CLIMBOAT_FOLLOWS"), FOLLOWS);
}

#[test]
fn the_command_says_both() {
    let run::Run { status, out, err } = run::run("--version");
    assert_eq!(
        (status, out, err.as_str()),
        (0, format!("climboat {VERSION}\nfollows {FOLLOWS}\n"), "")
    );
}

#[test]
fn what_it_follows_is_what_the_notice_names() {
    let (ported, release) = FOLLOWS.split_once(" and ").unwrap();
    let notice = include_str!("../../../NOTICE");
    assert!(notice.contains(&format!("the Rust crate {ported} ")));
    assert!(include_str!("../../../README.md").contains(release));
}
