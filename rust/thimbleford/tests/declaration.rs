//! src/boundary.rs declares the C functions as the Rattle source does. The linker
//! looks at names alone: with a parameter swapped or of another width the crate
//! would build and judge other numbers.

const RATTLE: &str = include_str!("../../../crates/thimbleford_c/src/lib.rt");
const BOUNDARY: &str = include_str!("../src/boundary.rs");

/// A function as C sees it: its name, each parameter's name and type, and the
/// type of its answer.
#[derive(Debug, PartialEq)]
struct Signature {
    name: String,
    parameters: Vec<(String, String)>,
    answer: String,
}

/// The signatures of the source behind each mark.
fn signatures(source: &str, mark: &str) -> Vec<Signature> {
    source.split(mark).skip(1).map(signature).collect()
}

fn signature(text: &str) -> Signature {
    let (name, rest) = text.split_once('(').expect("parameters follow the name");
    let (list, rest) = rest.split_once(')').expect("the parameters end");
    let parameters = list.split(',').filter_map(|part| part.split_once(':'));
    let (_, answer) = rest.split_once("-> ").expect("an answer follows");
    Signature {
        name: name.to_owned(),
        parameters: parameters
            .map(|(name, kind)| (name.trim().to_owned(), kind.trim().to_owned()))
            .collect(),
        answer: answer.chars().take_while(|c| c.is_alphanumeric()).collect(),
    }
}

/// The functions of the Rattle source, a slice as an address and a length.
fn offered(rattle: &str) -> Vec<Signature> {
    let mut offered = signatures(rattle, "pub extern \"C\" fn ");
    for signature in &mut offered {
        let parameters = signature.parameters.iter().flat_map(|(name, kind)| {
            let address = match &kind[..] {
                "&[u8]" => "*const u8",
                "&mut [u8]" => "*mut u8",
                number => return vec![(name.clone(), number.to_owned())],
            };
            let length = (format!("{name}_len"), "usize".to_owned());
            vec![(name.clone(), address.to_owned()), length]
        });
        signature.parameters = parameters.collect();
    }
    offered
}

/// The functions that the boundary declares.
fn declared(boundary: &str) -> Vec<Signature> {
    let (_, block) = boundary.split_once("extern \"C\" {").expect("a block");
    let (block, _) = block.split_once("\n}").expect("the block ends");
    signatures(block, "fn ")
}

#[test]
fn the_boundary_is_declared_as_the_rattle_source_has_it() {
    let declared = declared(BOUNDARY);
    assert_eq!(declared, offered(RATTLE));
    let shape: Vec<_> = declared
        .iter()
        .map(|s| (&s.name[..], s.parameters.len(), &s.answer[..]))
        .collect();
    // The judged call has five slices and four numbers.
    assert_eq!(
        shape,
        [
            ("thimbleford_version", 0, "u32"),
            ("thimbleford_create", 2, "u32"),
            ("thimbleford_judge", 2 * 5 + 4, "u32"),
        ]
    );
}

#[test]
fn the_linked_archive_has_the_boundary_of_this_crate() {
    assert_eq!(
        thimbleford::archive_version(),
        thimbleford::BOUNDARY_VERSION
    );
}

/// The text with two words in each other's place.
fn swapped(text: &str, one: &str, other: &str) -> String {
    text.replace(one, "\0")
        .replace(other, one)
        .replace('\0', other)
}

#[test]
fn a_planted_difference_is_seen() {
    let rattle = [
        swapped(RATTLE, "lamports_before", "lamports_after"),
        swapped(RATTLE, "instructions: &[u8]", "vault: &[u8]"),
        RATTLE.replace("slot: u64", "slot: u32"),
        RATTLE.replace("region: &mut [u8]", "region: &[u8]"),
        RATTLE.replace("gross: u64", "gross: u64,\n    clock: u64"),
        RATTLE.replace("-> u32", "-> u64"),
    ];
    for planted in &rattle {
        assert_ne!(planted, RATTLE);
        assert_ne!(declared(BOUNDARY), offered(planted), "{planted}");
    }
    let boundary = [
        swapped(BOUNDARY, "before", "after"),
        swapped(BOUNDARY, "slot: u64", "gross: u64"),
        BOUNDARY.replace("vault_len: usize", "vault_len: u32"),
        BOUNDARY.replace("        after_len: usize,\n", ""),
        BOUNDARY.replace("region: *mut u8", "region: *const u8"),
        BOUNDARY.replace("thimbleford_create", "thimbleford_creation"),
    ];
    for planted in &boundary {
        assert_ne!(planted, BOUNDARY);
        assert_ne!(declared(planted), offered(RATTLE), "{planted}");
    }
}
