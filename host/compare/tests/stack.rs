//! The peak stack of calls whose stack is known.

use compare::stack::peak;
use std::hint::black_box;

#[inline(never)]
fn takes<const BYTES: usize>(_: &mut [u8]) {
    black_box(&mut [1u8; BYTES]);
}

#[test]
fn known_calls() {
    assert_eq!(peak(|_| ()), 0);
    for (taken, bytes) in [(peak(takes::<1000>), 1000), (peak(takes::<50_000>), 50_000)] {
        assert!((bytes..bytes + 200).contains(&taken), "{taken} for {bytes}");
    }
}
