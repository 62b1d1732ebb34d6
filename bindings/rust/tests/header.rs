//! That the header for C and this crate say the same: numbers, texts, limits, version.

use std::collections::HashMap;
use yaghrudil::{table_words, Refusal, UnknownNumber};

const HEADER: &str = include_str!("../../yaghrudil.h");

/// What each `#define` of the header stands for, without a comment.
fn defines() -> HashMap<&'static str, &'static str> {
    let lines = HEADER.lines().filter_map(|l| l.strip_prefix("#define "));
    lines
        .filter_map(|line| line.split_once(' '))
        .map(|(name, rest)| (name, rest.split("/*").next().unwrap_or("").trim()))
        .collect()
}

/// The number of a name.
fn number(name: &str) -> u64 {
    let text = defines()[format!("YAGHRUDIL_{name}").as_str()];
    let digits = text.trim_start_matches("INT64_C(").trim_end_matches(')');
    digits.parse().expect(name)
}

/// The texts of `yaghrudil_text`, by the names of their numbers.
fn texts() -> Vec<(&'static str, &'static str)> {
    let cases = HEADER
        .lines()
        .filter_map(|line| line.trim().strip_prefix("case YAGHRUDIL_"));
    cases
        .map(|case| {
            let (name, rest) = case.split_once(": return \"").expect(case);
            (name, rest.trim_end_matches("\";"))
        })
        .collect()
}

#[test]
fn refusals_have_one_number_and_one_text() {
    let texts = texts();
    assert_eq!(texts.len(), 14, "success and each refusal");
    for (place, (name, text)) in texts.into_iter().enumerate() {
        assert_eq!(number(name), place as u64);
        match Refusal::try_from(place as u64) {
            Ok(refusal) => {
                assert_eq!(u64::from(refusal), place as u64);
                assert_eq!(refusal.to_string(), text);
                let same = format!("{refusal:?}").to_uppercase();
                assert_eq!(same, name.replace('_', ""));
            }
            Err(unknown) => assert_eq!((unknown, name), (UnknownNumber(0), "SUCCESS")),
        }
    }
    for none in [14, u64::MAX] {
        assert_eq!(Refusal::from_number(none), None);
        assert_eq!(Refusal::try_from(none), Err(UnknownNumber(none)));
    }
}

#[test]
fn limits_are_the_same() {
    assert_eq!(number("MEMBERS_MAX"), yaghrudil::MEMBERS_MAX as u64);
    assert_eq!(number("FEE_MAX"), yaghrudil::FEE_MAX as u64);
    assert_eq!(number("SLOTS_MAX"), yaghrudil::SLOTS_MAX as u64);
    assert_eq!(number("TXID_BYTES"), size_of::<yaghrudil::Txid>() as u64);
    assert_eq!(number("POOL_FEE_MAX"), yaghrudil::POOL_FEE_MAX);
    assert_eq!(number("POOL_FEE_MAX"), yaghrudil::DELTA_MAX as u64);
    assert_eq!(number("WEIGHT_MAX"), yaghrudil::WEIGHT_MAX);
    assert_eq!(number("COUNT_LIMIT_MAX"), yaghrudil::COUNT_LIMIT_MAX);
    assert_eq!(number("SIZE_LIMIT_MAX"), yaghrudil::SIZE_LIMIT_MAX);
    assert_eq!(number("BLOCK_SIGOPS_MAX"), yaghrudil::BLOCK_SIGOPS_MAX);
    let words = defines()["YAGHRUDIL_TABLE_WORDS(slots)"];
    assert_eq!(words, "(4 + 39 * (size_t)(slots))");
    assert_eq!((table_words(0), table_words(1)), (4, 4 + 39));
    assert_eq!(table_words(usize::MAX), usize::MAX);
}

#[test]
fn versions_are_the_same() {
    assert_eq!(
        defines()["YAGHRUDIL_VERSION"],
        format!("{:?}", yaghrudil::VERSION)
    );
    let parts = ["MAJOR", "MINOR", "PATCH"].map(|part| number(&format!("VERSION_{part}")));
    assert_eq!(
        parts.map(|part| part.to_string()).join("."),
        yaghrudil::VERSION
    );
}
