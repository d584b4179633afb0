//! What the runners compute.

use super::*;

/// The register file that a datapath leaves, from 100, 101, and so on.
fn left_by(block: &[u8], binding: &[u8], words: &[u16], room: usize) -> Vec<u16> {
    let mut registers: Vec<u16> = (100..180).collect();
    let mut out = vec![0; room];
    let ran = run_datapath(block, binding, words, &mut out, &mut registers);
    assert_eq!((ran.number, usize::from(ran.written)), (0, room));
    registers
}

#[test]
fn what_is_shared_gives_zero() {
    let entry = [incoming(1), incoming(2)].concat();
    let binding = [
        0, 4, 255, 255, 255, 255, 0, 0, //
        1, 4, 255, 255, 255, 255, 0, 0,
    ];
    let file = left_by(&entry, &binding, &[5, 6], 0);
    assert_eq!(file[3..6], [103, 0, 105]);

    // Value 2's right bus 0: both its ports read 0, so that it is 0, value 4 is 0 - 7, 5 is 0 and 6 is 4's word.
    let file = left_by(&E, &rebound(2, 4, 0), &[5, 7], 1);
    assert_eq!(file[..3], [65529, 0, 5]);

    // Value 4 on unit 1 with value 5: the unit gives 0 to both.
    let file = left_by(&E, &rebound(4, 2, 1), &[5, 7], 1);
    assert_eq!(file[..3], [0, 0, 5]);

    // Value 5 in value 4's register: it takes 0, and value 6 adds 0 and 0.
    let file = left_by(&E, &rebound(5, 1, 0), &[5, 7], 1);
    assert_eq!(file[..3], [0, 12, 5]);
}

#[test]
fn every_operation() {
    for (operation, words, answer) in [
        (3, [65533, 5], 2),
        (4, [2, 5], 65533),
        (5, [65535, 4], 65532),
        (6, [65535, 4], 4),
        (7, [65535, 4], 65535),
        (8, [65535, 4], 65531),
    ] {
        let block = [
            incoming(1),
            incoming(2),
            [2, 9, operation, 3, 1, 2, 0, 0],
            outgoing(3),
        ]
        .concat();
        let mut out = [0];
        run_block(&block, &words, &mut out);
        assert_eq!(out, [answer], "operation {}", operation);
    }
}
