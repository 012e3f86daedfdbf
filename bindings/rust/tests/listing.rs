//! Document 01's listing through the C interface, and frames and memory that it must not take.
use gerunjap::{call, Answer, Store};

const TABLE: [u16; 26] = [
    1, 2, 1, 10, 2, 2, 1, 1, 65535, 0, 2, 20, 4, 1, 1, 1, 0, 0, 0, 10, 20, 2, 0, 2, 0, 2,
];

fn done(reference: u32, kind: u16, count: u16) -> Answer {
    Answer { code: 0, reference, kind, count }
}

fn refused(code: u8) -> Answer {
    Answer { code, reference: 0, kind: 0, count: 0 }
}

#[test]
fn listing() {
    let mut file = [0u8; 512];
    let mut store = Store::new(&TABLE, &mut file);
    assert_eq!(store.format(), done(0, 0, 0));
    assert_eq!(store.store(10, b"R1"), done(65, 10, 0));
    assert_eq!(store.store(20, &[0, 7, 0xAA, 1]), done(66, 20, 0));
    assert_eq!(store.store(20, &[0, 3, 0xBB, 2]), done(67, 20, 0));
    assert_eq!(store.store(20, &[0, 7, 0xCC, 3]), refused(10));
    assert_eq!(store.next(0), done(66, 20, 0));
    let mut output = [9u8; 6];
    assert_eq!(store.read(&mut output), done(66, 20, 0));
    assert_eq!(output, [0, 7, 0xAA, 1, 9, 9]);
    assert_eq!(store.master(0), done(65, 10, 0));
    assert_eq!(store.delete(), done(65, 10, 3));
    assert_eq!(store.next(0), refused(6));
}

#[test]
fn a_damaged_file_is_refused_and_kept() {
    let mut file = [0u8; 512];
    let mut store = Store::new(&TABLE, &mut file);
    store.format();
    store.store(10, b"R1");
    let sound = store.bytes().to_vec();
    for at in 0..512 {
        let mut bad = sound.clone();
        bad[at] ^= 1;
        let before = bad.clone();
        let answer = call(&TABLE, &mut bad, &mut [0; 33], &[2, 0, 0, 65], &mut []).unwrap();
        // A data byte outside the key may be any; every other byte is fixed.
        assert!(answer == refused(3) || (21..23).contains(&at), "byte {at}: {answer:?}");
        assert_eq!(bad, before);
    }
}

#[test]
fn ill_made_frames() {
    let mut file = [0u8; 512];
    for frame in [&[][..], &[1, 0], &[2, 0, 0], &[4], &[7, 0, 0, 0, 0, 0], &[9, 0], &[0, 0]] {
        assert_eq!(call(&TABLE, &mut file, &mut [0; 33], frame, &mut []), None);
    }
    assert_eq!(file, [0u8; 512]);
}
