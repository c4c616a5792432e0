//! The README's table names every call of the header, and the version is one. (That the picture names every crate is the gate's first step.)

const README: &str = include_str!("../../README.md");
const HEADER: &str = include_str!("../../include/desklink.h");

/// The words of a text, by letters, digits and underscores.
fn words(text: &str) -> Vec<&str> {
    text.split(|c: char| !c.is_alphanumeric() && c != '_').filter(|word| !word.is_empty()).collect()
}

#[test]
fn every_call_is_in_the_table() {
    let calls = words(HEADER).into_iter().filter_map(|word| word.strip_prefix("desklink_")?.strip_suffix("_unguarded"));
    let plain = HEADER.lines().filter_map(|line| Some(line.strip_prefix("int32_t desklink_")?.split_once('(')?.0));
    let said = words(README);
    let names: Vec<&str> = calls.chain(plain.filter(|name| !name.ends_with("_unguarded"))).collect();
    assert!(names.len() > 20, "the header's calls were not found: {names:?}");
    for name in names {
        assert!(said.contains(&name), "the README's table has no {name}");
    }
}

#[test]
fn the_version_is_one() {
    const VERSION: &str = env!("CARGO_PKG_VERSION");
    assert!(HEADER.contains(&format!("#define DESKLINK_VERSION \"{VERSION}\"\n")), "the header has another version than {VERSION}");
    assert!(include_str!("../../CHANGELOG.md").contains(&format!("\n## {VERSION}\n")), "CHANGELOG.md says nothing of {VERSION}");
}
