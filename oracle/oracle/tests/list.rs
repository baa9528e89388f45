//! The fixed list is what its seed gives, and its README says what it covers.

use oraclelib::{TEXT_CAP, blocks::blocks, list, program};

const ANSWERS: &[u8] = include_bytes!("../../../crates/replay/data/answers.bin");
const README: &str = include_str!("../../list/README.md");

#[test]
fn is_made_again_byte_for_byte() {
    // No assert_eq: it would print the list.
    assert!(list::bytes(&list::cases(list::SEED)) == ANSWERS);
}

#[test]
fn holds_inputs_and_what_they_print() {
    let blocks: Vec<&[u8]> = blocks(ANSWERS).collect();
    for (n, case) in blocks.chunks(2).enumerate() {
        let &[input, output] = case else {
            panic!("case {n} has no output");
        };
        assert!(
            input.len() <= 10_100 && output.len() <= TEXT_CAP,
            "case {n}"
        );
        assert!(program(input, TEXT_CAP) == output, "case {n}");
    }
}

#[test]
fn is_described_in_its_readme() {
    let coverage = list::coverage(&list::cases(list::SEED));
    assert!(
        README.contains(&coverage),
        "list/README.md lacks\n{coverage}"
    );
    assert!(README.contains(&format!(
        "-- list {} ../crates/replay/data/answers.bin",
        list::SEED
    )));
    assert!(README.contains(&format!("{} bytes", ANSWERS.len())));
}
