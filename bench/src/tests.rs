//! The C interface from the outside: what it answers to wrong lengths and words, and what it writes.
use crate::inputs::Random;
use crate::{events, inputs, plain, proved, strided, STORE};

const REQUEST: [u8; 8] = [0xFE, 0x00, 0x0E, 0x01, 0x01, 0x94, 0xE4, 0xFF];

#[test]
fn setup_changes_nothing() {
    let mut session = [7; 5];
    assert_eq!(proved::start(&mut session), 1);
    assert_eq!(proved::start(&mut session[..3]), 1);
    assert_eq!(session, [7; 5]);
    let mut store = vec![9; STORE + 1];
    for (words, store_bytes, answer_words) in [
        (vec![0, 0, 0], STORE, 3),
        (vec![0, 0, 0, 0, 0], STORE, 3),
        (vec![0, 0, 0, 0], STORE - 1, 3),
        (vec![0, 0, 0, 0], STORE + 1, 3),
        (vec![0, 0, 0, 0], STORE, 2),
        (vec![0, 0, 0, 0], STORE, 4),
        (vec![6, 0, 0, 0], STORE, 3),
        (vec![0, 1, 0, 0], STORE, 3),
        (vec![1, 1, 0, 0], STORE, 3),
        (vec![2, 1025, 0, 0], STORE, 3),
        (vec![2, u64::MAX, 0, 0], STORE, 3),
        (vec![0, 0, 2, 0], STORE, 3),
        (vec![0, 0, 0, 1], STORE, 3),
        (vec![0, 0, 1, 16385], STORE, 3),
        (vec![u64::MAX; 4], STORE, 3),
    ] {
        let mut session = words.clone();
        let mut answer = vec![5; answer_words];
        assert_eq!(proved::feed(&mut session, &mut store[..store_bytes], &REQUEST, &mut answer), 1, "{words:?}");
        assert_eq!(session, words);
        assert!(answer.iter().all(|&word| word == 5));
        assert!(store.iter().all(|&byte| byte == 9));
    }
}

#[test]
fn feeds() {
    let mut session = [7; 4];
    assert_eq!(proved::start(&mut session), 0);
    assert_eq!(session, [0; 4]);
    let mut store = vec![9; STORE];
    let mut answer = [5; 3];
    assert_eq!(proved::feed(&mut session, &mut store, &[], &mut answer), 0);
    assert_eq!(answer, [0, 0, 0]);
    assert_eq!(proved::feed(&mut session, &mut store, &REQUEST[..3], &mut answer), 0);
    assert_eq!((session, answer), ([2, 2, 0, 0], [0, 3, 0]));
    assert_eq!(proved::feed(&mut session, &mut store, &REQUEST[3..], &mut answer), 4);
    assert_eq!((session, answer), ([0; 4], [0, 5, 0]));
    let mut out = [0; 64];
    let length = proved::write_message(&[0xAB, 0xFF], &mut out).unwrap();
    assert_eq!(proved::feed(&mut session, &mut store, &out[..length], &mut answer), 3);
    assert_eq!((answer, &store[..2]), ([0, length as u64, 2], &[0xAB, 0xFF][..]));
}

#[test]
fn writes() {
    let mut out = [9; 12];
    assert_eq!(proved::write_frame(&[0xFF, 0x00, 0xF9, 0x01], &mut out[..9]), Err(46));
    assert_eq!(out, [9; 12]);
    assert_eq!(proved::write_frame(&[0xFF, 0x00, 0xF9, 0x01], &mut out), Ok(10));
    assert_eq!(out, [0xFE, 0xFD, 0xDF, 0x00, 0xFD, 0xD9, 0x01, 0x95, 0x83, 0xFF, 9, 9]);
    assert_eq!(proved::write_frame(&[0; 1023], &mut [0; 4096]), Err(46));
    assert_eq!(proved::write_request(&mut out), Ok(8));
    assert_eq!(out[..8], REQUEST);
    assert_eq!(proved::write_response(&mut out), Ok(9));
    assert_eq!(out[..9], [0xFE, 0x00, 0x0E, 0x02, 0x01, 0xFD, 0xDC, 0xCE, 0xFF]);
    assert_eq!(proved::write_message(&[0; 16385], &mut vec![0; 65536]), Err(46));
}

#[test]
fn both_give_the_same_events() {
    for stream in [inputs::full(200_000), inputs::escapes(200_000), inputs::noise(200_000)] {
        let whole = events::<plain::Session>(&stream, usize::MAX);
        for chunk in [1, 7, 1400, 65536] {
            assert_eq!(events::<plain::Session>(&stream, chunk), whole);
            assert_eq!(events::<strided::Session>(&stream, chunk), whole);
            assert_eq!(events::<proved::Session>(&stream, chunk), whole);
        }
    }
}

/// Good streams with some bytes changed, so that every fault comes.
#[test]
fn damaged_streams() {
    let mut random = Random(4);
    let good = inputs::full(30_000);
    for _ in 0..300 {
        let mut stream = good.clone();
        for _ in 0..random.next() % 40 {
            let at = random.next() as usize % stream.len();
            stream[at] = match random.next() % 3 {
                0 => random.next() as u8,
                1 => 0xF8 | random.next() as u8,
                _ => 0xFD,
            };
        }
        let chunk = 1 + random.next() as usize % 3000;
        let expected = events::<plain::Session>(&stream, chunk);
        assert_eq!(events::<strided::Session>(&stream, chunk), expected);
        assert_eq!(events::<proved::Session>(&stream, chunk), expected);
    }
}
