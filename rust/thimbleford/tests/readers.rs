//! The readers of tables and instructions on bytes that are malformed in each
//! way, at each place.

use thimbleford::{
    instructions::{self, CompactInstruction, InstructionsFault},
    table::{self, Record, TableFault},
    Key, Refusal,
};

#[test]
fn each_fault_of_a_table_is_named() {
    let record = |data| Record {
        key: Key([1; 32]),
        owner: Key([2; 32]),
        data,
    };
    let records = [record(&[3; 5][..]), record(&[]), record(&[4; 2])];
    let bytes = table::build(&records).unwrap();
    assert_eq!(table::read(&bytes).unwrap(), records);

    // Where each record begins, where its data does, and where it ends.
    let places = [(2, 70, 75), (75, 143, 143), (143, 211, 213)];
    for len in 0..bytes.len() {
        let record = places.iter().position(|(_, _, end)| len < *end).unwrap();
        let fault = match len {
            0 | 1 => TableFault::ShortCount,
            _ if len < places[record].1 => TableFault::ShortRecord { record },
            _ => TableFault::DataPastEnd { record },
        };
        let error = table::read(&bytes[..len]).unwrap_err();
        assert_eq!((error.fault, error.refusal()), (fault, Refusal::BadTable));
    }
    let said = |bytes: &[u8]| table::read(bytes).unwrap_err().to_string();
    assert_eq!(said(&[9]), "the table ends within its count");
    assert_eq!(said(&bytes[..80]), "record 1 ends before its data");
    assert_eq!(said(&bytes[..72]), "record 0 ends within its data");
    assert_eq!(
        said(&[&bytes[..], &[0, 0]].concat()),
        "2 bytes follow the last record"
    );
    assert_eq!(said(&[65, 0]), "65 records, and at most 64 may be there");
}

#[test]
fn each_fault_of_instructions_is_named() {
    let list = [
        CompactInstruction {
            program_id_index: 3,
            accounts: &[1, 2],
            data: &[9; 4],
        },
        CompactInstruction {
            program_id_index: 0,
            accounts: &[],
            data: &[],
        },
    ];
    let bytes = instructions::build(&list, 4).unwrap();
    let behind = [&bytes[..], &[7, 7]].concat();
    for bytes in [&bytes, &behind] {
        let read = instructions::read(bytes).unwrap();
        assert_eq!((&read.list[..], read.consumed), (&list[..], 1 + 10 + 4));
    }
    for len in 0..bytes.len() {
        let fault = match len {
            0 => InstructionsFault::NoCount,
            1..11 => InstructionsFault::CutShort { instruction: 0 },
            _ => InstructionsFault::CutShort { instruction: 1 },
        };
        let error = instructions::read(&bytes[..len]).unwrap_err();
        let refusal = Refusal::InvalidInstructionData;
        assert_eq!((error.fault, error.refusal()), (fault, refusal));
    }
    let said = |bytes: &[u8]| instructions::read(bytes).unwrap_err().to_string();
    assert_eq!(said(&[]), "there is no byte, and the count has one");
    assert_eq!(said(&[1]), "instruction 0 passes the end of the bytes");
    let many = instructions::read(&[17]).unwrap_err();
    assert_eq!(
        many.to_string(),
        "17 instructions, and at most 16 may be there"
    );
    // Building as many is refused with another number: the limit is one of writing there.
    assert_eq!(many.refusal(), Refusal::InvalidInstructionData);
    let built = instructions::build(&[list[1]; 17], 1).unwrap_err();
    assert_eq!(
        (built.fault, built.refusal()),
        (many.fault, Refusal::NotEncodable)
    );
}
