//! Reading through the safe crate: the bench card and the sizes at their limits.

use shiulbart::{read, Accepted};

/// Number, place, length and depth: as the exported call gives them.
fn told(bytes: &[u8]) -> (u32, u32, usize, u32) {
    match read(bytes) {
        Ok(Accepted { length, depth }) => (0, 0, length, depth),
        Err(refusal) => (refusal.number(), refusal.place(), 0, 0),
    }
}

/// A Symbol of one text of so many letters, 128 to 16,383.
fn symbol(letters: usize) -> Vec<u8> {
    let size = letters + 3;
    let mut bytes = vec![0x44, size as u8, (size >> 8) as u8, 1];
    bytes.extend([letters as u8 & 127 | 128, (letters >> 7) as u8]);
    bytes.resize(bytes.len() + letters, b'a');
    bytes
}

/// So many Arrays round a shape.
fn arrays(count: usize, inner: &[u8]) -> Vec<u8> {
    let mut bytes = inner.to_vec();
    for _ in 0..count {
        let size = bytes.len();
        bytes.splice(0..0, [0x40, size as u8, (size >> 8) as u8]);
    }
    bytes
}

#[test]
fn m1_int() {
    assert_eq!(told(&[0x20]), (0, 0, 1, 1));
}

#[test]
fn m2_packed_map() {
    assert_eq!(told(&[0x76]), (0, 0, 1, 2));
}

#[test]
fn m3_long_array_of_int() {
    assert_eq!(told(&[0x40, 0x01, 0x00, 0x20]), (6, 0, 0, 0));
}

#[test]
fn m4_record() {
    let record = [0x42, 0x07, 0x00, 0x02, 0x01, 0x61, 0x20, 0x01, 0x62, 0x62];
    assert_eq!(told(&record), (0, 0, 10, 3));
}

#[test]
fn m5_variable_32() {
    assert_eq!(told(&[0x45, 0x02, 0x00, 0x20, 0x00]), (0, 0, 5, 1));
}

#[test]
fn m6_long_variable_31() {
    assert_eq!(told(&[0x45, 0x02, 0x00, 0x1F, 0x00]), (6, 0, 0, 0));
}

#[test]
fn m7_empty() {
    assert_eq!(told(&[]), (1, 0, 0, 0));
}

#[test]
fn m8_two_shapes() {
    assert_eq!(told(&[0x20, 0x20]), (3, 1, 0, 0));
}

#[test]
fn m9_function_without_parameters() {
    assert_eq!(told(&[0x43, 0x02, 0x00, 0x00, 0x20]), (0, 0, 5, 2));
}

#[test]
fn m10_long_count() {
    assert_eq!(told(&[0x44, 0x03, 0x00, 0x81, 0x00, 0x00]), (4, 3, 0, 0));
}

#[test]
fn m11_first_byte_not_assigned() {
    assert_eq!(told(&[0xA0]), (2, 0, 0, 0));
}

#[test]
fn empty_slices_of_every_origin() {
    let bytes = [0x20, 0x20];
    assert_eq!(told(&[]), (1, 0, 0, 0));
    assert_eq!(told(&Vec::new()), (1, 0, 0, 0));
    assert_eq!(told(&bytes[2..]), (1, 0, 0, 0));
    assert_eq!(told(Default::default()), (1, 0, 0, 0));
}

#[test]
fn a_part_of_a_slice_is_read_alone() {
    let bytes = [0xA0, 0x20, 0xA0];
    assert_eq!(told(&bytes[1..2]), (0, 0, 1, 1));
}

#[test]
fn a_text_that_does_not_fit() {
    assert_eq!(told(&[0x44, 0x02, 0x00, 0x01, 0x05]), (1, 4, 0, 0));
}

#[test]
fn a_text_that_is_not_utf8() {
    assert_eq!(told(&[0x44, 0x03, 0x00, 0x01, 0x01, 0xFF]), (5, 5, 0, 0));
}

#[test]
fn fifteen_arrays_are_accepted_and_sixteen_too_deep() {
    assert_eq!(told(&arrays(14, &[0x60])), (0, 0, 43, 16));
    assert_eq!(told(&arrays(15, &[0x60])), (7, 45, 0, 0));
    assert_eq!(told(&arrays(16, &[0x00])), (7, 48, 0, 0));
}

#[test]
fn up_to_2048_bytes() {
    let longest = symbol(2042);
    assert_eq!(longest.len(), 2048);
    assert_eq!(told(&longest), (0, 0, 2048, 1));
}

#[test]
fn over_2048_bytes() {
    let too_long = symbol(2043);
    assert_eq!(too_long.len(), 2049);
    assert_eq!(told(&too_long), (8, 2048, 0, 0));
    assert_eq!(told(&[0xA0; 2049]), (8, 2048, 0, 0));
    assert_eq!(told(&[0; 5000]), (8, 2048, 0, 0));
}

#[test]
fn many_threads_at_once() {
    let longest = symbol(2042);
    std::thread::scope(|scope| {
        for _ in 0..4 {
            scope.spawn(|| {
                for _ in 0..1000 {
                    assert_eq!(told(&longest), (0, 0, 2048, 1));
                    assert_eq!(told(&longest[..2047]), (1, 0, 0, 0));
                }
            });
        }
    });
}
