//! Through the wrapper: block E, every number but 20, which never comes back, with its records, and what a refusal says.

use ngozilade::{bind, check, read, run_block, run_datapath, Counts, Reading, Refusal};

const E: &[u8; 64] = include_bytes!("../../../blocks/E");

fn bound() -> Vec<u8> {
    let mut out = vec![0; 56];
    assert_eq!(bind(E, 0, &mut out), Ok(56));
    out
}

fn changed(mut bytes: Vec<u8>, record: usize, byte: usize, to: u8) -> Vec<u8> {
    bytes[8 * record + byte] = to;
    bytes
}

fn refusal(number: u8, first: u8, second: u8) -> Refusal {
    Refusal {
        number,
        first,
        second,
    }
}

/// A refused call of `bind`; nothing was written.
fn not_bound(block: &[u8], method: u8, room: usize) -> Refusal {
    let mut out = vec![170; room];
    let refused = bind(block, method, &mut out).unwrap_err();
    assert_eq!(out, vec![170; room]);
    refused
}

/// A refused call of `run_block`; nothing was written.
fn block_not_run(block: &[u8], words: usize, room: usize) -> Refusal {
    let mut outgoing = vec![7; room];
    let refused = run_block(block, &vec![1; words], &mut outgoing).unwrap_err();
    assert_eq!(outgoing, vec![7; room]);
    refused
}

/// A refused call of `run_datapath`; nothing was written.
fn datapath_not_run(
    block: &[u8],
    binding: &[u8],
    words: usize,
    room: usize,
    file: usize,
) -> Refusal {
    let (mut outgoing, mut registers) = (vec![7; room], vec![9; file]);
    let words = vec![1; words];
    let refused = run_datapath(block, binding, &words, &mut outgoing, &mut registers).unwrap_err();
    assert_eq!((outgoing, registers), (vec![7; room], vec![9; file]));
    refused
}

#[test]
fn e_is_read_bound_checked_and_run() {
    let reading = Reading {
        values: 7,
        last_step: 3,
    };
    assert_eq!(read(E), Ok(reading));
    let counts = Counts {
        registers: 3,
        units: 2,
        buses: 6,
    };
    assert_eq!(check(E, &bound()), Ok(counts));
    for (words, answer) in [([5, 7], 65), ([65535, 2], 65534)] {
        let mut outgoing = [0];
        assert_eq!(run_block(E, &words, &mut outgoing), Ok(1));
        assert_eq!(outgoing, [answer]);
        let mut outgoing = [0];
        let mut registers = [9; 80];
        let ran = run_datapath(E, &bound(), &words, &mut outgoing, &mut registers);
        assert_eq!(ran, Ok(1));
        assert_eq!((outgoing, registers[79]), ([answer], 9));
    }
}

#[test]
fn empty_slices() {
    assert!(read(&[]).is_ok());
    assert!(check(&[], &[]).is_ok());
    assert_eq!(bind(&[], 1, &mut []), Ok(0));
    assert_eq!(run_block(&[], &[], &mut []), Ok(0));
    assert_eq!(datapath_not_run(&[], &[], 0, 0, 0), refusal(23, 0, 0));
}

/// 1 to 8, from all five functions.
#[test]
fn blocks_that_cannot_be_read() {
    let e = |record, byte, to| changed(E.to_vec(), record, byte, to);
    for (number, record, block) in [
        (1, 0, E[..63].to_vec()),
        (2, 0, E[..8].repeat(81)),
        (3, 4, e(4, 0, 0)), // no kind 0
        (4, 6, e(6, 1, 1)), // step 1 after step 2
        (4, 6, e(6, 0, 1)), // incoming after an operation
        (5, 2, e(2, 2, 9)), // no operation 9
        (6, 3, e(3, 5, 1)), // a move has no right source
        (7, 1, e(1, 3, 1)), // name 1 comes in twice
        (8, 5, e(5, 4, 5)), // name 5 is not written before step 2
        (8, 7, e(7, 3, 9)), // name 9 is not written at all
    ] {
        let expected = refusal(number, record, record);
        assert_eq!(read(&block), Err(expected));
        assert_eq!(check(&block, &bound()), Err(expected));
        assert_eq!(not_bound(&block, 0, 56), expected);
        assert_eq!(block_not_run(&block, 2, 1), expected);
        assert_eq!(datapath_not_run(&block, &bound(), 2, 1, 80), expected);
    }
}

/// 11 to 14, from both functions that take a binding.
#[test]
fn bindings_that_are_not_well_formed() {
    for (number, place, binding) in [
        (11, 0, bound()[..55].to_vec()),
        (12, 0, bound()[..48].to_vec()),
        (13, 5, changed(bound(), 5, 0, 6)),
        (14, 3, changed(bound(), 3, 1, 80)), // no register 80
        (14, 3, changed(bound(), 3, 2, 0)),  // a move has no unit
        (14, 6, changed(bound(), 6, 7, 1)),  // byte 7 is zero
    ] {
        let expected = refusal(number, place, place);
        assert_eq!(check(E, &binding), Err(expected));
        assert_eq!(datapath_not_run(E, &binding, 2, 1, 80), expected);
    }
}

/// 16 to 19, C6 to C9; a datapath runs all the same.
#[test]
fn bindings_that_break_rules() {
    for (number, later, earlier, binding) in [
        (16, 3, 2, changed(bound(), 3, 1, 1)),
        (17, 5, 4, changed(bound(), 4, 2, 1)),
        (18, 2, 2, changed(bound(), 2, 4, 0)),
        (19, 4, 2, changed(bound(), 4, 3, 6)),
    ] {
        assert_eq!(check(E, &binding), Err(refusal(number, later, earlier)));
        let ran = run_datapath(E, &binding, &[5, 7], &mut [0], &mut [0; 80]);
        assert_eq!(ran, Ok(1));
    }
}

/// 9, 10, and 21 to 23.
#[test]
fn what_does_not_fit_the_block() {
    assert_eq!(not_bound(E, 2, 56), refusal(9, 0, 0));
    assert_eq!(not_bound(E, 1, 55), refusal(10, 0, 0));
    for (number, words, room) in [(21, 1, 1), (21, 3, 1), (22, 2, 0), (22, 2, 2)] {
        let expected = refusal(number, 0, 0);
        assert_eq!(block_not_run(E, words, room), expected);
        assert_eq!(datapath_not_run(E, &bound(), words, room, 80), expected);
    }
    for file in [79, 81] {
        assert_eq!(datapath_not_run(E, &bound(), 2, 1, file), refusal(23, 0, 0));
    }
}

#[test]
fn a_refusal_says_what_is_wrong() {
    assert_eq!(
        refusal(16, 3, 2).to_string(),
        "16: two values in one register occupy a common boundary (records 3 and 2)"
    );
    assert_eq!(
        refusal(6, 4, 4).to_string(),
        "6: an unused byte is not zero (record 4)"
    );
    assert_eq!(refusal(9, 0, 0).to_string(), "9: the method is not 0 or 1");
}
