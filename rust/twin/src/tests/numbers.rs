//! Every number that comes back, and which comes first.

use super::*;

#[test]
fn numbers_of_the_reader() {
    assert_eq!(read(&E[..63]), refused(1, 0));
    assert_eq!(read(&changed(0, 0, 0)), refused(3, 0));
    assert_eq!(read(&changed(7, 0, 4)), refused(3, 7));
    assert_eq!(read(&changed(1, 0, 3)), refused(8, 1));
    assert_eq!(reads(&[constant(1, 1, 1), incoming(2)]), refused(4, 1));
    assert_eq!(
        reads(&[constant(3, 1, 1), constant(2, 2, 1)]),
        refused(4, 1)
    );
    assert_eq!(
        reads(&[constant(3, 1, 1), constant(0, 2, 1)]),
        refused(4, 1)
    );
    assert_eq!(reads(&[constant(0, 2, 1)]), refused(5, 0));
    assert_eq!(read(&changed(2, 2, 0)), refused(5, 2));
    assert_eq!(read(&changed(2, 2, 9)), refused(5, 2));
    assert_eq!(reads(&[incoming(1), incoming(1)]), refused(7, 1));
    assert_eq!(
        reads(&[incoming(1), outgoing(1), outgoing(1)]),
        refused(7, 2)
    );
    assert_eq!(
        reads(&[constant(1, 1, 1), constant(1, 1, 2)]),
        refused(7, 1)
    );
    assert_eq!(reads(&[constant(1, 1, 1), constant(2, 1, 2)]), done(2, 2));
    assert_eq!(reads(&[outgoing(1)]), refused(8, 0));
    assert_eq!(reads(&[incoming(1), add(1, 2, 1, 3)]), refused(8, 1));
    assert_eq!(reads(&[incoming(1), add(1, 2, 3, 1)]), refused(8, 1));
}

#[test]
fn unused_bytes() {
    for byte in [1, 2, 4, 5, 6, 7] {
        assert_eq!(read(&changed(0, byte, 1)), refused(6, 0));
        assert_eq!(read(&changed(7, byte, 1)), refused(6, 7));
    }
    for byte in [6, 7] {
        assert_eq!(read(&changed(2, byte, 1)), refused(6, 2));
    }
    for byte in [5, 6, 7] {
        assert_eq!(read(&changed(3, byte, 1)), refused(6, 3));
    }
    for byte in [4, 5] {
        let mut record = constant(1, 1, 0xffff);
        assert_eq!(read(&record), done(1, 1));
        record[byte] = 64;
        assert_eq!(read(&record), refused(6, 0));
    }
}

#[test]
fn lowest_number_first_in_a_record() {
    let mut record = [4, 65, 9, 64, 64, 64, 1, 1];
    let block = |record: [u8; 8]| reads(&[incoming(1), constant(2, 1, 1), record]).number;
    assert_eq!(block(record), 3);
    record[0] = 1;
    assert_eq!(block(record), 4);
    record[0] = 2;
    assert_eq!(block(record), 5);
    record[1] = 1;
    assert_eq!(block(record), 4);
    record = [2, 2, 1, 1, 9, 1, 0, 0];
    assert_eq!(block(record), 6);
    record[5] = 0;
    assert_eq!(block(record), 7);
    record[3] = 2;
    assert_eq!(block(record), 8);
    record[4] = 1;
    assert_eq!(block(record), 0);
}

#[test]
fn numbers_of_a_binding() {
    assert_eq!(check(&E[..63], &[]), verdict(1, 0, 0));
    assert_eq!(check(&changed(4, 6, 1), &[1]), verdict(6, 4, 4));
    assert_eq!(check(&E, &E_BINDING[..55]), verdict(11, 0, 0));
    assert_eq!(check(&E, &E_BINDING[..48]), verdict(12, 0, 0));
    let longer = [&E_BINDING[..], &E_BINDING[48..]].concat();
    assert_eq!(check(&E, &longer), verdict(12, 0, 0));
    assert_eq!(check(&E, &rebound(5, 0, 6)), verdict(13, 5, 5));
    for (value, byte, to) in [
        (0, 2, 0),
        (0, 3, 0),
        (0, 4, 0),
        (0, 5, 0),
        (0, 1, 255),
        (2, 2, 255),
        (2, 4, 255),
        (2, 5, 255),
        (3, 2, 0),
        (3, 3, 255),
        (3, 4, 0),
        (3, 5, 0),
        (6, 6, 1),
        (6, 7, 1),
    ] {
        let place = value as u8;
        let binding = rebound(value, byte, to);
        assert_eq!(check(&E, &binding), verdict(14, place, place));
    }
    let mut both = rebound(2, 0, 3);
    both[8 * 2 + 7] = 1;
    assert_eq!(check(&E, &both), verdict(13, 2, 2));
}

#[test]
fn numbers_of_the_allocator() {
    let answer = |block: &[u8], method, room| {
        let mut out = vec![3; room];
        let answer = bind(block, method, &mut out);
        assert_eq!(out, vec![3; room]);
        (answer.number, answer.first, answer.second, answer.written)
    };
    assert_eq!(answer(&E[..63], 2, 0), (9, 0, 0, 0));
    assert_eq!(answer(&E[..63], 1, 0), (1, 0, 0, 0));
    assert_eq!(answer(&changed(2, 4, 9), 1, 0), (8, 2, 2, 0));
    assert_eq!(answer(&E, 1, 55), (10, 0, 0, 0));
}

#[test]
fn numbers_of_the_runners() {
    let numbers = |block: &[u8], binding: &[u8], words, room, file| {
        let words = vec![1; words];
        let (mut out, mut registers) = (vec![2; room], vec![3; file]);
        let path = run_datapath(block, binding, &words, &mut out, &mut registers);
        if path.number != 0 {
            assert_eq!((&out, &registers), (&vec![2; room], &vec![3; file]));
            out.fill(2);
        }
        let plain = run_block(block, &words, &mut out);
        if plain.number != 0 {
            assert_eq!(out, vec![2; room]);
        }
        (plain.number, path.number)
    };
    assert_eq!(numbers(&E[1..], &[1], 0, 0, 0), (1, 1));
    assert_eq!(numbers(&E, &[1], 1, 2, 81), (21, 11));
    assert_eq!(numbers(&E, &[], 3, 2, 81), (21, 12));
    assert_eq!(numbers(&E, &rebound(1, 0, 0), 3, 2, 81), (21, 13));
    assert_eq!(numbers(&E, &rebound(1, 1, 80), 3, 2, 81), (21, 14));
    assert_eq!(numbers(&E, &E_BINDING, 3, 2, 81), (21, 21));
    assert_eq!(numbers(&E, &E_BINDING, 2, 2, 81), (22, 22));
    assert_eq!(numbers(&E, &E_BINDING, 2, 0, 81), (22, 22));
    assert_eq!(numbers(&E, &E_BINDING, 2, 1, 81), (0, 23));
    assert_eq!(numbers(&E, &E_BINDING, 2, 1, 79), (0, 23));
    assert_eq!(numbers(&E, &E_BINDING, 2, 1, 80), (0, 0));
}
