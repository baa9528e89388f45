//! What is possible after a front of an entry's body, against every completion where few bytes are missing.

use oraclelib::{
    fronts::possible,
    generate::{self, Rng},
    records::{ENTRY, Entry},
};

/// Bodies of all kinds: names, reserved words too, damaged names, any bytes.
fn bodies(rng: &mut Rng, count: usize) -> Vec<Vec<u8>> {
    let mut body = |n: usize| match n % 4 {
        0 => generate::entry(rng).body(),
        1 => generate::reserved(rng).body(),
        2 => generate::bad_entry(rng).body(),
        _ => (0..ENTRY).map(|_| rng.byte()).collect(),
    };
    (0..count).map(&mut body).collect()
}

fn is_name(body: &[u8]) -> bool {
    Entry::from_body(body).is_name()
}

#[test]
fn whole_bodies_are_possible_where_they_have_no_cause() {
    for body in bodies(&mut Rng::new(1), 4_000) {
        assert_eq!(possible(&body), is_name(&body), "{body:?}");
        assert!(!possible(&[&body[..], &[0]].concat()));
    }
}

#[test]
fn every_completion_of_one_or_two_bytes_is_tried() {
    for mut body in bodies(&mut Rng::new(2), 60) {
        for missing in [1, 2] {
            let (front, _) = body.split_at(ENTRY - missing);
            let front = front.to_vec();
            let completions = 0..256_usize.pow(missing as u32);
            let some = completions.into_iter().any(|n| {
                body[ENTRY - missing..].copy_from_slice(&n.to_le_bytes()[..missing]);
                is_name(&body)
            });
            assert_eq!(possible(&front), some, "{front:?}");
        }
    }
}

/// A front is possible exactly where it is with some byte more.
#[test]
fn fronts_are_possible_where_one_byte_more_leaves_them_so() {
    for body in bodies(&mut Rng::new(3), 200) {
        for length in 0..ENTRY {
            let front = &body[..length];
            let longer = |byte| [front, &[byte]].concat();
            let some = (0..=255).any(|byte| possible(&longer(byte)));
            assert_eq!(possible(front), some, "{front:?}");
        }
    }
}
