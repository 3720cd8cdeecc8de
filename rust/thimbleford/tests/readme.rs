//! The README's table of numbers is the crate's. Its example is a doctest, by
//! src/lib.rs.

use thimbleford::Refusal;

const README: &str = include_str!("../../../README.md");

#[test]
fn the_readme_has_the_table_of_numbers() {
    let mut expected = vec!["| No. | Name | Sentence |".to_owned(), "|-|-|-|".to_owned()];
    expected
        .push("| 0 | accepted | The rules are sound, or the order is allowed and what is left was lowered. |".to_owned());
    expected.extend(Refusal::ALL.iter().map(|refusal| {
        let (number, name) = (refusal.number(), refusal.name());
        format!("| {number} | {name} | {} |", refusal.sentence())
    }));
    let (_, section) = README.split_once("\n## Answers\n").expect("the section");
    let (section, _) = section.split_once("\n## ").expect("a section follows");
    let table: Vec<_> = section
        .lines()
        .filter(|line| line.starts_with('|'))
        .collect();
    assert_eq!(table, expected, "the table is\n{}", expected.join("\n"));
}
