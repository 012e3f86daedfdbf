"""Data by field: `name=value` words to bytes, and bytes to text."""

from idslib.rules import Trouble


def data_of(t, pairs, before=None):
    """A type's data: the fields given, laid over `before` or blanks; `data=HEX` gives all of it, of any length."""
    if "data" in pairs:
        if len(pairs) > 1:
            raise Trouble("data=HEX gives all of the data; other fields cannot stand beside it")
        return from_hex(pairs["data"])
    data = bytearray(before if before is not None else blank(t))
    for name, value in pairs.items():
        f = field_named(t, name)
        data[f.offset:f.offset + f.length] = field_bytes(f, value)
    return bytes(data)


def blank(t):
    """Data that nothing was said about: spaces in text, else zeros."""
    data = bytearray(t.length)
    for f in t.fields:
        if f.form == "text":
            data[f.offset:f.offset + f.length] = b" " * f.length
    return bytes(data)


def key_of(t, owner, pairs):
    """The key bytes of a type or chain: from the fields that make it up, or `key=HEX`."""
    if "key" in pairs and len(pairs) == 1:
        return from_hex(pairs["key"])
    low, high = owner.key_offset, owner.key_offset + owner.key_length
    lacking = set(range(low, high))
    for name in pairs:
        f = field_named(t, name)
        if f.offset + f.length <= low or high <= f.offset:
            raise Trouble(f"field {name} is no part of the key, which is bytes {low} to {high - 1} of {t.name}")
        lacking -= set(range(f.offset, f.offset + f.length))
    if lacking:
        raise Trouble(f"the key is bytes {low} to {high - 1} of {t.name}, and the fields given do not make up all of it; say key=HEX")
    return data_of(t, pairs)[low:high]


def field_named(t, name):
    """The field of this name."""
    for f in t.fields:
        if f.name == name:
            return f
    names = ", ".join(f.name for f in t.fields) or "none; say data=HEX"
    raise Trouble(f"{t.name} has no field {name}; its fields are {names}")


def from_hex(text):
    """Bytes of hexadecimal text, with or without 0x."""
    try:
        return bytes.fromhex(text[2:] if text.lower().startswith("0x") else text)
    except ValueError:
        raise Trouble(f"'{text}' is not hexadecimal of whole bytes") from None


def field_bytes(f, value):
    """A value as the field's bytes; 0x.. is hexadecimal in any field."""
    if f.form == "hex" or value.lower().startswith("0x"):
        data = from_hex(value)
        if len(data) != f.length:
            raise Trouble(f"field {f.name} has {f.length} bytes, and '{value}' is {len(data)}")
        return data
    if f.form == "number":
        if not value.isdigit() or int(value) >= 256 ** f.length:
            raise Trouble(f"field {f.name} holds a whole number below {256 ** f.length}, and '{value}' is none")
        return int(value).to_bytes(f.length, "big")
    if not value.isascii():
        raise Trouble(f"field {f.name}: '{value}' has letters that are not ASCII; say 0x..")
    data = value.encode("ascii")
    if len(data) > f.length:
        raise Trouble(f"field {f.name} has room for {f.length} letters, and '{value}' has {len(data)}")
    return data.ljust(f.length)


def field_text(f, data):
    """A field's bytes as text."""
    part = data[f.offset:f.offset + f.length]
    if f.form == "number":
        return str(int.from_bytes(part, "big"))
    if f.form == "text" and all(32 <= byte < 127 for byte in part):
        shown = part.decode("ascii").rstrip(" ")
        return f'"{shown}"' if " " in shown or shown == "" else shown
    return part.hex().upper() if f.form == "hex" else "0x" + part.hex().upper()


def shown(t, data):
    """A record's data by field; in hexadecimal where fields do not tell it all."""
    parts = [f"{f.name}={field_text(f, data)}" for f in t.fields]
    covered = {at for f in t.fields for at in range(f.offset, f.offset + f.length)}
    if any(byte for at, byte in enumerate(data) if at not in covered) or (data and not t.fields):
        parts.append(f"data={data.hex().upper()}")
    return " ".join(parts) or "no data"
