//! A short session: racks by name, boards under racks by slot, captures under boards as they come.
use gerunjap::{Answer, Refusal, Store};

const RACK: u16 = 10;
const BOARD: u16 = 20;
const CAPTURE: u16 = 30;
const RACK_BOARDS: u8 = 0;
const BOARD_CAPTURES: u8 = 1;

#[rustfmt::skip]
const TABLE: [u16; 41] = [
    4, 3, 2,                               // pages, types, chains
    RACK, 4, 2, 1, 4, 65535, 0, 4,         // calculated by its name
    BOARD, 6, 1, 1, 4, 0, 0, 0,            // stored near its rack: slot, label
    CAPTURE, 8, 1, 1, 4, 1, 0, 0,          // stored near its board
    RACK, BOARD, 2, 1, 2, 0, 2,            // rising by slot, no slot twice
    BOARD, CAPTURE, 1, 1, 0, 0, 0,         // last
];

fn tell(what: &str, answer: Answer) {
    match answer.done() {
        Ok(done) => println!("{what:<22}code {}, type {}, count {}", done.reference, done.kind, done.count),
        Err(refusal) => println!("{what:<22}{refusal}"),
    }
}

fn main() -> Result<(), Refusal> {
    let mut file = [0u8; 4 * 512];
    let mut store = Store::new(&TABLE, &mut file);
    tell("format", store.format());
    let rack = store.store(RACK, b"R001");
    tell("store rack R001", rack);
    tell("store board, slot 7", store.store(BOARD, b"\0\x07ARMx"));
    tell("store board, slot 3", store.store(BOARD, b"\0\x03FPGA"));
    tell("store capture", store.store(CAPTURE, b"boot.log"));
    tell("store board, slot 7", store.store(BOARD, b"\0\x07twin"));

    let rack = rack.done()?.reference;
    store.direct(rack).done()?;
    while store.next(RACK_BOARDS).done()?.reference != rack {
        let mut data = [0u8; 6];
        store.read(&mut data).done()?;
        println!("  slot {} {}", u16::from_be_bytes([data[0], data[1]]), String::from_utf8_lossy(&data[2..]));
    }

    let other = store.store(RACK, b"R002");
    tell("store rack R002", other);
    tell("key R001", store.key(RACK, b"R001"));
    tell("find slot 7", store.find(RACK_BOARDS, &[0, 7]));
    tell("modify its label", store.modify(b"\0\x07ARMy"));
    tell("prior", store.prior(RACK_BOARDS));
    tell("each from 130", store.each(130, 319));
    tell("relink to R002", store.relink(RACK_BOARDS, other.done()?.reference));
    tell("master", store.master(RACK_BOARDS));
    tell("current board", store.current(BOARD));
    tell("key R001", store.key(RACK, b"R001"));
    tell("delete", store.delete());
    tell("next board", store.next(RACK_BOARDS));
    tell("next capture", store.next(BOARD_CAPTURES));
    Ok(())
}
