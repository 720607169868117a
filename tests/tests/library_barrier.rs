//! `mzk_barrier_write`, `_read`, `_line` and `_releases` beside the other implementation, and what document 02 says of
//! the count.

use std::sync::atomic::{AtomicUsize, Ordering::Relaxed};

use mazhoketh_tests::guarded::Twin;
use mazhoketh_tests::oracle::barrier::{self, Write, UNIT_BYTES};
use mazhoketh_tests::{both, cases};

/// A unit after writes from all zeros.
fn after(writes: &[Write]) -> Twin {
    let mut unit = Twin::new(vec![0; UNIT_BYTES]);
    for &write in writes {
        both::barrier_write(&mut unit, write);
    }
    unit
}

/// The six registers.
fn registers(unit: &Twin) -> Vec<u64> {
    let read = |address| both::barrier_read(unit, address);
    (0..6).map(read).collect()
}

#[test]
fn random_units() {
    let seen = cases::each(211, 0..60_000, cases::barrier::unit);
    seen.require([0, 9, 25], 1_000);
}

/// "After any writes from an all-zero unit, that count is the number, by that modulus, of complete gatherings in the
/// history".
#[test]
fn count_of_gatherings() {
    let released = AtomicUsize::new(0);
    cases::each(212, 0..20_000, |rng, _| {
        let many = rng.below(60);
        let writes: Vec<Write> = (0..many)
            .map(|_| cases::barrier::random_write(rng))
            .collect();
        let history: Vec<Write> = writes
            .iter()
            .copied()
            .filter(|write| write.0 <= 5)
            .collect();
        let count = barrier::gatherings(&history);
        assert_eq!(both::barrier_releases(&after(&writes)), count as u64);
        released.fetch_add(count, Relaxed);
    });
    let released = released.into_inner();
    assert!(released > 20_000, "{released} gatherings");
}

/// The request, sentence by sentence.
#[test]
fn sentences() {
    let members = [(0, 0b101), (1, 0x80)];
    let first = after(&[&members[..], &[(2, 0b111)]].concat());
    assert_eq!(registers(&first), [0b101, 0x80, 0b101, 0, 0, 0]);
    let joined = after(&[&members[..], &[(2, 0b111), (0, 0b101)]].concat());
    assert_eq!(registers(&joined), [0b101, 0x80, 0, 0, 0, 0]);
    let all = [&members[..], &[(2, 0b111), (3, 0xff)]].concat();
    let unit = after(&all);
    assert_eq!(registers(&unit), [0b101, 0x80, 0, 0, 1, 0]);
    assert_eq!(both::barrier_releases(&unit), 1);
    assert_eq!(both::barrier_line(&unit), 0);
    let enabled = after(&[&all[..], &[(5, 0xff), (4, 0xfe)]].concat());
    assert_eq!(registers(&enabled), [0b101, 0x80, 0, 0, 1, 1]);
    assert_eq!(both::barrier_line(&enabled), 1);
    let cleared = after(&[&all[..], &[(5, 1), (4, 3)]].concat());
    assert_eq!(registers(&cleared), [0b101, 0x80, 0, 0, 0, 1]);
    assert_eq!(both::barrier_line(&cleared), 0);
}

/// Nobody is a member: nobody is waited for. A member write never releases, also where all who are left have arrived.
#[test]
fn no_release() {
    for writes in [
        &[(2, 0xff), (3, 0xff)][..],
        &[(0, 3), (2, 1), (0, 1)],
        &[(0, 3), (2, 1), (0, 0), (2, 0)],
        &[(0, 1), (2, 0), (3, 0), (4, 1), (5, 1)],
    ] {
        assert_eq!(both::barrier_releases(&after(writes)), 0);
        assert_eq!(barrier::gatherings(writes), 0);
    }
}

/// The count begins anew after 4,294,967,295.
#[test]
fn last_release() {
    let mut unit = Twin::new(vec![1, 0, 0, 0, 0, 0, 0xff, 0xff, 0xff, 0xff]);
    assert_eq!(both::barrier_releases(&unit), u64::from(u32::MAX));
    assert_eq!(both::barrier_write(&mut unit, (2, 1)), 0);
    assert_eq!(both::barrier_releases(&unit), 0);
}

/// An address above 5 is refused before a short unit, for reads too; the line and the count ask for the length alone.
#[test]
fn refusals() {
    for bytes in [0, 9, 10, 11] {
        let mut unit = Twin::new(vec![0; bytes]);
        let short = if bytes < 10 { 9 << 32 | 10 } else { 0 };
        assert_eq!(both::barrier_write(&mut unit, (6, 1)), 25 << 32);
        assert_eq!(both::barrier_read(&unit, 6), 25 << 32);
        assert_eq!(both::barrier_write(&mut unit, (5, 1)), short);
        assert_eq!(both::barrier_read(&unit, 0), short);
        assert_eq!(both::barrier_line(&unit), short);
        assert_eq!(both::barrier_releases(&unit), short);
    }
}

/// Every byte of a unit, damaged in every way: each call answers.
#[test]
fn every_byte() {
    for at in 0..UNIT_BYTES {
        for value in 0..=255 {
            for write in [(0, 5), (1, 0), (2, 7), (3, 1), (4, 1), (5, 2)] {
                let mut bytes = vec![0b111, 1, 0b011, 0, 1, 1, 0, 0, 0, 0];
                bytes[at] = value;
                let mut unit = Twin::new(bytes);
                registers(&unit);
                both::barrier_line(&unit);
                both::barrier_releases(&unit);
                assert_eq!(both::barrier_write(&mut unit, write), 0);
            }
        }
    }
}
