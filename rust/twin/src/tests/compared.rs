//! The edges that are run and compared only.

use super::*;

#[test]
fn eighty_records_and_eighty_one() {
    let mut block: Vec<[u8; 8]> = (0..64).map(incoming).collect();
    block.extend((1..=16).map(|step| moved(step, 0, 1)));
    assert_eq!(reads(&block), done(80, 16));
    block.push(outgoing(0));
    assert_eq!(reads(&block), refused(2, 0));
    assert_eq!(listing(&block.concat()), "refused 02 00\n");
    let mut longer = block.concat();
    longer.push(0);
    assert_eq!(read(&longer).number, 1);
    assert_eq!(listing(&longer), "refused 02 00\n");
    longer.truncate(645);
    assert_eq!(listing(&longer), "refused 01 00\n");
}

#[test]
fn step_64_and_65() {
    assert_eq!(reads(&[constant(64, 1, 1)]), done(1, 64));
    assert_eq!(reads(&[constant(65, 1, 1)]), refused(5, 0));
}

#[test]
fn name_63_and_64() {
    assert_eq!(reads(&[incoming(63), outgoing(63)]), done(1, 0));
    assert_eq!(reads(&[incoming(64)]), refused(5, 0));
    assert_eq!(reads(&[incoming(1), outgoing(64)]), refused(5, 1));
    assert_eq!(
        reads(&[incoming(63), add(1, 63, 63, 63), outgoing(63)]),
        done(2, 1)
    );
    for block in [add(1, 64, 63, 63), add(1, 63, 64, 63), add(1, 63, 63, 64)] {
        assert_eq!(reads(&[incoming(63), block]), refused(5, 1));
    }
}

#[test]
fn register_79_and_80_bus_239_and_240() {
    assert_eq!(check(&E, &rebound(6, 1, 79)).registers, 4);
    assert_eq!(check(&E, &rebound(3, 1, 79)).registers, 3);
    assert_eq!(check(&E, &rebound(3, 1, 80)), verdict(14, 3, 3));
    assert_eq!(check(&E, &rebound(5, 5, 239)).buses, 6);
    assert_eq!(check(&E, &rebound(5, 5, 240)), verdict(14, 5, 5));
    assert_eq!(check(&E, &rebound(5, 2, 79)).units, 2);
    assert_eq!(check(&E, &rebound(5, 2, 80)), verdict(14, 5, 5));
}

#[test]
fn output_of_exactly_eight_bytes_a_value_and_one_less() {
    let mut out = [170; 60];
    assert_eq!(bind(&E, 0, &mut out[..56]).written, 56);
    assert_eq!(out[..56], E_BINDING);
    let mut out = [170; 60];
    assert_eq!(bind(&E, 0, &mut out).written, 56);
    assert_eq!(out[56..], [170; 4]);
    let mut out = [170; 60];
    let answer = Allocated {
        number: 10,
        ..Allocated::default()
    };
    assert_eq!(bind(&E, 0, &mut out[..55]), answer);
    assert_eq!(out, [170; 60]);
}

#[test]
fn last_reading_in_step_3_beside_a_birth_at_3_and_at_2() {
    let block = |birth| {
        let mut operations = [moved(3, 2, 1), constant(birth, 3, 5)];
        operations.sort_by_key(|record| record[1]);
        [vec![incoming(1)], operations.to_vec()].concat().concat()
    };
    let shared = |late: usize| {
        let mut binding = vec![0, 0, 255, 255, 255, 255, 0, 0];
        for value in 1..=2 {
            let register = if value == late { 0 } else { 1 };
            binding.extend([value as u8, register, 255, value as u8, 255, 255, 0, 0]);
        }
        binding
    };
    assert_eq!(check(&block(3), &shared(2)).number, 0);
    assert_eq!(check(&block(2), &shared(1)), verdict(16, 1, 0));
}
