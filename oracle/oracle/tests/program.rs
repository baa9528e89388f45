//! The program's lines: refusals with their numbers and offsets, and what is printed before them.

use oraclelib::{
    INPUT_CAP, TEXT_CAP, emit,
    generate::{self, Rng},
    program,
    records::{Entry, Kind, Refusal, Triple, Variant, record},
    words, worked,
};

fn printed(input: &[u8]) -> String {
    String::from_utf8(program(input, TEXT_CAP)).unwrap()
}

fn emitted(triple: &Triple) -> String {
    let o = emit(triple);
    let (mask, rows, lookups, warnings) = (o.mask, o.rows, o.lookups, o.warnings);
    format!("emit {mask} {rows} {lookups} {warnings}\n{}", o.text)
}

fn key_body(alter: impl Fn(&mut [u8])) -> Vec<u8> {
    let mut body = worked::z2().key.body();
    alter(&mut body);
    body
}

fn refused(kind: u8, body: &[u8]) -> String {
    printed(&[&[kind], body].concat())
}

#[test]
fn no_input_ends_without_texts() {
    assert_eq!(printed(&[]), "end 0\n");
}

#[test]
fn cut_bodies_are_refused_with_1() {
    for (kind, size) in [(1, 58), (2, 19), (3, 33), (5, 6), (6, 74)] {
        for left in 0..size {
            assert_eq!(refused(kind, &vec![0; left]), "refused 1 at 0\n");
            assert_eq!(refused(kind, &vec![0xff; left]), "refused 1 at 0\n");
        }
    }
    assert_eq!(refused(2, &[0; 19]), "end 0\n");
}

#[test]
fn other_kinds_are_refused_with_2() {
    for kind in (0..=255).filter(|kind| !(1..=6).contains(kind)) {
        assert_eq!(refused(kind, &[]), "refused 2 at 0\n");
        assert_eq!(refused(kind, &[0xff; 60]), "refused 2 at 0\n");
    }
}

#[test]
fn stage_flags_are_refused_with_3_before_4() {
    for place in (6..56).step_by(7) {
        for bit in 0..8 {
            let body = key_body(|b| b[place] = 1 << bit);
            let worse = key_body(|b| (b[place], b[56]) = (1 << bit, 2));
            let (alone, both) = if bit < 2 {
                ("end 0\n", "refused 4 at 0\n")
            } else {
                ("refused 3 at 0\n", "refused 3 at 0\n")
            };
            assert_eq!(refused(1, &body), alone);
            assert_eq!(refused(1, &worse), both);
        }
    }
}

#[test]
fn specular_above_1_is_refused_with_4() {
    for specular in 0..=255 {
        let expected = if specular < 2 {
            "end 0\n"
        } else {
            "refused 4 at 0\n"
        };
        assert_eq!(refused(1, &key_body(|b| b[56] = specular)), expected);
    }
}

#[test]
fn variant_flags_are_refused_with_5() {
    for flags in 0..=255 {
        let variant = Variant {
            flags,
            ..Variant::default()
        };
        let expected = if flags < 0x40 {
            "end 0\n"
        } else {
            "refused 5 at 0\n"
        };
        assert_eq!(refused(2, &variant.body()), expected);
    }
}

#[test]
fn entries_are_refused_with_6() {
    let good = Entry::new(b"_aZ09_").body();
    assert_eq!(refused(3, &good), "end 0\n");
    for length in (0..=255).filter(|&length| length != 6) {
        let mut body = good.clone();
        body[0] = length;
        assert_eq!(refused(3, &body), "refused 6 at 0\n", "length {length}");
    }
    for byte in 0..=255_u8 {
        let letter = byte.is_ascii_alphabetic() || byte == b'_';
        let permitted = [letter, letter || byte.is_ascii_digit(), byte == 0];
        for (place, permitted) in [1, 6, 7].into_iter().zip(permitted) {
            let mut body = good.clone();
            body[place] = byte;
            let expected = if permitted {
                "end 0\n"
            } else {
                "refused 6 at 0\n"
            };
            assert_eq!(refused(3, &body), expected, "byte {byte} at {place}");
        }
    }
    assert_eq!(refused(3, &Entry::new(&[b'm'; 32]).body()), "end 0\n");
}

#[test]
fn words_are_refused_with_13_after_6() {
    let words = words::all();
    let different: std::collections::BTreeSet<&String> = words.iter().collect();
    assert_eq!(different.len(), 83);
    for word in &words {
        let body = Entry::new(word.as_bytes()).body();
        assert_eq!(refused(3, &body), "refused 13 at 0\n", "{word}");
        let mut worse = body.clone();
        worse[32] = 1;
        assert_eq!(refused(3, &worse), "refused 6 at 0\n", "{word}");
    }
    for word in [
        "T0", "t8", "t", "t00", "samp", "Main", "mai", "main0", "float5", "m",
    ] {
        let body = Entry::new(word.as_bytes()).body();
        assert_eq!(refused(3, &body), "end 0\n", "{word}");
    }
}

#[test]
fn emit_is_refused_with_7_until_all_are_held() {
    let records: Vec<Vec<u8>> = {
        let z2 = worked::z2();
        vec![
            record(Kind::Key, &z2.key.body()),
            record(Kind::Variant, &z2.variant.body()),
            record(Kind::Entry, &z2.entry.body()),
        ]
    };
    for given in 0..8 {
        let chosen = records.iter().enumerate();
        let chosen = chosen.filter(|(n, _)| given >> n & 1 != 0);
        let mut input: Vec<u8> = chosen.flat_map(|(_, r)| r.clone()).collect();
        let at = input.len();
        input.push(4);
        let expected = if given == 7 {
            format!("{}end 1\n", emitted(&worked::z2()))
        } else {
            format!("refused 7 at {at}\n")
        };
        assert_eq!(printed(&input), expected);
    }
}

#[test]
fn texts_longer_than_the_buffer_are_refused_with_8() {
    let (short, long) = (worked::z1(), worked::z2());
    let input = [short.records(), vec![4], long.records(), vec![4]].concat();
    let length = emit(&long).text.len();
    let run = |text_cap| String::from_utf8(program(&input, text_cap)).unwrap();
    let whole = format!("{}{}end 2\n", emitted(&short), emitted(&long));
    assert_eq!(run(length), whole);
    let front = emitted(&short);
    assert_eq!(run(length - 1), format!("{front}refused 8 at 227\n"));
    assert_eq!(run(0), "refused 8 at 113\n");
}

#[test]
fn input_above_the_buffer_is_refused_with_9() {
    let variant = record(Kind::Variant, &Variant::default().body());
    let mut input = variant.repeat(INPUT_CAP / variant.len());
    let rest = INPUT_CAP - input.len();
    assert_eq!(rest, 8);
    let end = input.len();
    input.extend(vec![4; rest]);
    assert_eq!(printed(&input), format!("refused 7 at {end}\n"));
    input.push(4);
    assert_eq!(printed(&input), "refused 9 at 32768\n");
    assert_eq!(printed(&[0; 40_000]), "refused 9 at 32768\n");
}

#[test]
fn what_is_held_stays_until_it_is_replaced() {
    let first = worked::z2();
    let mut second = first;
    second.entry = Entry::new(b"other");
    let mut third = second;
    third.variant.alpha_func = 5;
    let mut fourth = third;
    fourth.key = worked::z4().key;
    let input = [
        first.records(),
        vec![4, 4],
        record(Kind::Entry, &second.entry.body()),
        vec![4],
        record(Kind::Variant, &third.variant.body()),
        vec![4],
        record(Kind::Key, &fourth.key.body()),
        vec![4, 0],
    ]
    .concat();
    let texts = [first, first, second, third, fourth].map(|t| emitted(&t));
    let at = input.len() - 1;
    assert_eq!(
        printed(&input),
        format!("{}refused 2 at {at}\n", texts.concat())
    );
}

/// The generated streams give what they were made to give.
#[test]
fn streams_give_what_they_were_made_for() {
    let mut rng = Rng::new(4);
    let last_line = |output: &[u8]| {
        let text = std::str::from_utf8(output).unwrap();
        text.lines().next_back().unwrap().to_owned()
    };
    for _ in 0..200 {
        let stream = generate::accepted(&mut rng);
        assert_eq!(stream.refused, None);
        let output = program(&stream.input, stream.text_cap);
        assert!(last_line(&output).starts_with("end "));
        for refusal in Refusal::ALL {
            let stream = generate::refused(&mut rng, refusal);
            let (given, at) = stream.refused.expect("a refusal");
            assert_eq!(given, refusal);
            let output = program(&stream.input, stream.text_cap);
            let expected = format!("refused {} at {at}", refusal.number());
            assert_eq!(last_line(&output), expected);
        }
    }
}

#[test]
fn a_full_input_buffer_is_accepted() {
    let stream = generate::full(&mut Rng::new(6));
    assert_eq!(stream.input.len(), INPUT_CAP);
    let output = printed(&stream.input);
    let emits = output.lines().filter(|l| l.starts_with("emit ")).count();
    assert!(emits > 0 && output.ends_with(&format!("\nend {emits}\n")));
}

#[test]
fn streams_without_an_aim_reach_every_ending() {
    let mut rng = Rng::new(5);
    let mut endings = std::collections::BTreeSet::new();
    for _ in 0..3_000 {
        let output = program(&generate::any(&mut rng), TEXT_CAP);
        let text = std::str::from_utf8(&output).unwrap();
        let last = text.lines().next_back().unwrap();
        endings.insert(last.split(" at ").next().unwrap().to_owned());
    }
    for number in [1, 2, 3, 4, 5, 6, 7, 9, 10, 11, 12, 13] {
        assert!(endings.contains(&format!("refused {number}")), "{number}");
    }
    assert!(endings.contains("end 0") && endings.contains("end 2"));
}
