//! Every function of the C header is called by a test that holds its answer against the original or against an account of its own.

const HEADER: &str = include_str!("../../include/desklink.h");

/// The tests that compare, by file.
const COMPARISONS: [(&str, &str); 6] = [
    ("compare.rs", include_str!("compare.rs")),
    ("groups.rs", include_str!("groups.rs")),
    ("clean.rs", include_str!("clean.rs")),
    ("figures.rs", include_str!("figures.rs")),
    ("refusals.rs", include_str!("refusals.rs")),
    ("packing.rs", include_str!("packing.rs")),
];

/// The names of the header's functions, without the prefix and without the unguarded ones that others wrap.
fn functions() -> Vec<&'static str> {
    let name = |line: &'static str| {
        let declared = line.strip_prefix("DESKLINK_GUARDED ").unwrap_or(line);
        declared.strip_prefix("int32_t desklink_")?.split_once('(').map(|(name, _)| name)
    };
    let mut names: Vec<&str> = HEADER.lines().filter_map(name).collect();
    names.retain(|name| !name.ends_with("_unguarded"));
    names
}

#[test]
fn every_call_is_compared() {
    let names = functions();
    assert!(names.len() >= 17, "the header's functions were not found: {names:?}");
    for name in names {
        let calls = ["slices::", "desklink::", "port."].map(|path| format!("{path}{name}"));
        let in_a_comparison = COMPARISONS.iter().any(|(_, text)| calls.iter().any(|call| names_call(text, call)));
        assert!(in_a_comparison, "no comparison calls desklink_{name}");
    }
}

/// Each refusal of the header, `DESKLINK_NO_FRAMES = -15`, is the one of that name here; the table of the Python module has a line for each.
#[test]
fn refusals_have_one_number() {
    const PYTHON: &str = include_str!("../../python/desklink.py");
    let list = HEADER.split_once("enum desklink_refusal {").unwrap().1.split_once("};").unwrap().0;
    let entries: Vec<(&str, u8)> = list
        .lines()
        .filter_map(|line| line.trim().strip_prefix("DESKLINK_")?.split_once(" = -"))
        .map(|(name, rest)| (name, rest.chars().take_while(char::is_ascii_digit).collect::<String>().parse().unwrap()))
        .collect();
    assert_eq!(entries.iter().map(|e| e.1).collect::<Vec<_>>(), (1..=20).collect::<Vec<_>>());
    for (name, number) in entries {
        let here = desklink::Refusal::from_number(number).expect("every number of the header is a refusal here");
        assert_eq!(format!("{here:?}").to_lowercase(), name.replace('_', "").to_lowercase());
        assert!(PYTHON.contains(&format!("\n    {number}: \"")), "the Python module has no words for {number}");
    }
    assert_eq!(desklink::Refusal::from_number(21), None);
}

/// Whether the text has the call as a whole name.
fn names_call(text: &str, call: &str) -> bool {
    text.match_indices(call).any(|(at, _)| !text[at + call.len()..].starts_with(|c: char| c.is_alphanumeric() || c == '_'))
}
