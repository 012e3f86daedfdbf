"""A short session: racks by name, boards under racks by slot, captures under boards as they come."""

from gerunjap import PAGE, Refused, Store

RACK, BOARD, CAPTURE = 10, 20, 30
RACK_BOARDS, BOARD_CAPTURES = 0, 1
TABLE = [
    4, 3, 2,                            # pages, types, chains
    RACK, 4, 2, 1, 4, 65535, 0, 4,      # calculated by its name
    BOARD, 6, 1, 1, 4, 0, 0, 0,         # stored near its rack: slot, label
    CAPTURE, 8, 1, 1, 4, 1, 0, 0,       # stored near its board
    RACK, BOARD, 2, 1, 2, 0, 2,         # rising by slot, no slot twice
    BOARD, CAPTURE, 1, 1, 0, 0, 0,      # last
]


def tell(what, call, *arguments):
    """Plays a call and prints its answer or refusal; the code."""
    try:
        code, type_, count = call(*arguments)
        print(f"{what:<22}code {code}, type {type_}, count {count}")
        return code
    except Refused as refused:
        print(f"{what:<22}{refused}")
        return None


def main():
    """The session."""
    store = Store(TABLE, bytearray(TABLE[0] * PAGE))
    tell("format", store.format)
    rack = tell("store rack R001", store.store, RACK, b"R001")
    tell("store board, slot 7", store.store, BOARD, b"\0\x07ARMx")
    tell("store board, slot 3", store.store, BOARD, b"\0\x03FPGA")
    tell("store capture", store.store, CAPTURE, b"boot.log")
    tell("store board, slot 7", store.store, BOARD, b"\0\x07twin")

    store.direct(rack)
    while store.next(RACK_BOARDS).reference != rack:
        data = store.read()
        print(f"  slot {int.from_bytes(data[:2], 'big')} {data[2:].decode()}")

    other = tell("store rack R002", store.store, RACK, b"R002")
    tell("key R001", store.key, RACK, b"R001")
    tell("find slot 7", store.find, RACK_BOARDS, b"\0\x07")
    tell("modify its label", store.modify, b"\0\x07ARMy")
    tell("prior", store.prior, RACK_BOARDS)
    tell("each from 130", store.each, 130, 319)
    tell("relink to R002", store.relink, RACK_BOARDS, other)
    tell("master", store.master, RACK_BOARDS)
    tell("current board", store.current, BOARD)
    tell("key R001", store.key, RACK, b"R001")
    tell("delete", store.delete)
    tell("next board", store.next, RACK_BOARDS)
    tell("next capture", store.next, BOARD_CAPTURES)


if __name__ == "__main__":
    main()
