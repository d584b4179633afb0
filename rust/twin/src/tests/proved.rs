//! Block E and the proved table, C1 to C11; C2 stands with the blocks, C5 with the cliques.

use super::*;

const E_LISTING: &str = "\
00 00 inp V01 R01 --- ---- ---- ----
01 00 inp V02 R00 --- ---- ---- ----
02 01 add V03 R01 U00 B000 B001 B002
03 01 mov V04 R02 --- B003 ---- ----
04 02 sub V01 R00 U00 B000 B001 B004
05 02 mul V05 R01 U01 B002 B003 B005
06 03 add V06 R00 U00 B002 B003 B004
R 03 U 02 B 006
";

fn bound(block: &[u8], method: u8) -> Vec<u8> {
    let mut out = vec![0; 640];
    let answer = bind(block, method, &mut out);
    assert_eq!(answer.number, 0);
    out.truncate(answer.written.into());
    out
}

#[test]
fn e_is_listed() {
    assert_eq!(read(&E), done(7, 3));
    assert_eq!(listing(&E), E_LISTING);
}

#[test]
fn connections_are_counted() {
    assert_eq!(connections(&[], &[]), Some(0));
    assert_eq!(connections(&E, &E_BINDING), Some(10));
    assert_eq!(connections(&E, &[]), None);
}

#[test]
fn c1_empty_block() {
    assert_eq!(read(&[]), Reading::default());
    assert_eq!(check(&[], &[]), Verdict::default());
    for method in [0, 1] {
        assert_eq!(bind(&[], method, &mut []), Allocated::default());
    }
    assert_eq!(run_block(&[], &[], &mut []), Ran::default());
    let mut registers = [7; 80];
    assert_eq!(
        run_datapath(&[], &[], &[], &mut [], &mut registers),
        Ran::default()
    );
    assert_eq!(registers, [7; 80]);
    assert_eq!(listing(&[]), "R 00 U 00 B 000\n");
}

#[test]
fn c3_binding_of_e() {
    assert_eq!(bound(&E, 0), E_BINDING);
    let counts = Verdict {
        registers: 3,
        units: 2,
        buses: 6,
        ..Verdict::default()
    };
    assert_eq!(check(&E, &E_BINDING), counts);
}

#[test]
fn c4_runs_of_e() {
    for (words, answer) in [([5, 7], 65), ([65535, 2], 65534)] {
        let mut outgoing = [0];
        let ran = Ran {
            written: 1,
            ..Ran::default()
        };
        assert_eq!(run_block(&E, &words, &mut outgoing), ran);
        assert_eq!(outgoing, [answer]);
        for method in [0, 1] {
            let mut outgoing = [0];
            let mut registers = [9; 80];
            let binding = bound(&E, method);
            assert_eq!(
                run_datapath(&E, &binding, &words, &mut outgoing, &mut registers),
                ran
            );
            assert_eq!(outgoing, [answer]);
            assert_eq!(registers[79], 9);
        }
    }
}

#[test]
fn c6_to_c9_broken_rules() {
    assert_eq!(check(&E, &rebound(3, 1, 1)), verdict(16, 3, 2));
    assert_eq!(check(&E, &rebound(4, 2, 1)), verdict(17, 5, 4));
    assert_eq!(check(&E, &rebound(2, 4, 0)), verdict(18, 2, 2));
    assert_eq!(check(&E, &rebound(4, 3, 6)), verdict(19, 4, 2));
}

#[test]
fn c10_a_value_of_the_same_step_is_not_read() {
    assert_eq!(
        reads(&[incoming(1), moved(1, 2, 1), moved(1, 3, 2)]),
        refused(8, 2)
    );
}

#[test]
fn c11_a_dead_write_keeps_its_boundary() {
    let block = [incoming(1), constant(1, 2, 9), moved(1, 3, 1), outgoing(3)].concat();
    let binding = bound(&block, 0);
    assert_eq!(check(&block, &binding).registers, 2);
    let register = |value: usize| binding[8 * value + 1];
    assert_ne!(register(1), register(2));
}
