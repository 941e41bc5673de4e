"""Values, their BSON spelling and their order, written out plainly (BSON 1.1; the manual, Comparison and Sort Order)."""
import struct


class Int(int):
    """An int32."""


class Long(int):
    """An int64."""


class Date(int):
    """Milliseconds since 1970."""


class Stamp(int):
    """A timestamp."""


class Id(bytes):
    """An ObjectId."""


class Bin(tuple):
    """A subtype and bytes."""


class Mark:
    """MinKey, MaxKey, or what is missing."""

    def __init__(self, name):
        self.name = name

    def __repr__(self):
        return self.name


LEAST, GREATEST, MISSING = Mark("MinKey"), Mark("MaxKey"), Mark("missing")


def is_whole(value):
    return type(value) in (Int, Long)


def is_nothing(value):
    return value is None or value is MISSING


def kind(value):
    """The name that `$type` gives."""
    if value is None:
        return "null"
    if isinstance(value, Mark):
        return {"MinKey": "minKey", "MaxKey": "maxKey", "missing": "missing"}[value.name]
    names = {Int: "int", Long: "long", str: "string", dict: "object", list: "array", Bin: "binData", Id: "objectId",
             bool: "bool", Date: "date", Stamp: "timestamp"}
    return names[type(value)]


TYPE_BYTES = {"minKey": 0xFF, "null": 0x0A, "int": 0x10, "long": 0x12, "string": 0x02, "object": 0x03, "array": 0x04,
              "binData": 0x05, "objectId": 0x07, "bool": 0x08, "date": 0x09, "timestamp": 0x11, "maxKey": 0x7F}


def body(value):
    if type(value) is Int:
        return struct.pack("<i", value)
    if type(value) in (Long, Date):
        return struct.pack("<q", value)
    if type(value) is Stamp:
        return struct.pack("<Q", value)
    if type(value) is str:
        text = value.encode()
        return struct.pack("<i", len(text) + 1) + text + b"\0"
    if type(value) is dict:
        return encode(value)
    if type(value) is list:
        return encode({str(i): item for i, item in enumerate(value)})
    if type(value) is Bin:
        return struct.pack("<iB", len(value[1]), value[0]) + value[1]
    if type(value) is Id:
        return bytes(value)
    if type(value) is bool:
        return b"\1" if value else b"\0"
    return b""


def encode(doc):
    """The spelling of a document."""
    parts = [bytes([TYPE_BYTES[kind(v)]]) + n.encode() + b"\0" + body(v) for n, v in doc.items()]
    inner = b"".join(parts)
    return struct.pack("<i", len(inner) + 5) + inner + b"\0"


def depth(value):
    if type(value) is dict:
        return 1 + max((depth(v) for v in value.values()), default=0)
    if type(value) is list:
        return 1 + max((depth(v) for v in value), default=0)
    return 0


CLASSES = {"minKey": 1, "null": 2, "int": 3, "long": 3, "string": 4, "object": 5, "array": 6, "binData": 7,
           "objectId": 8, "bool": 9, "date": 10, "timestamp": 11, "maxKey": 12, "missing": 1.5}


def sign(a, b):
    return (a > b) - (a < b)


def compare(a, b):
    """Below 0, 0 or above 0; what is missing stands between MinKey and null."""
    classes = sign(CLASSES[kind(a)], CLASSES[kind(b)])
    if classes:
        return classes
    if is_whole(a) or type(a) in (bool, Date, Stamp):
        return sign(int(a), int(b))
    if type(a) is str:
        return sign(a.encode(), b.encode())
    if type(a) is Id:
        return sign(bytes(a), bytes(b))
    if type(a) is Bin:
        return sign((len(a[1]), a[0], a[1]), (len(b[1]), b[0], b[1]))
    if type(a) is dict:
        for (n, v), (m, w) in zip(a.items(), b.items()):
            found = sign(CLASSES[kind(v)], CLASSES[kind(w)]) or sign(n.encode(), m.encode()) or compare(v, w)
            if found:
                return found
        return sign(len(a), len(b))
    if type(a) is list:
        for v, w in zip(a, b):
            found = compare(v, w)
            if found:
                return found
        return sign(len(a), len(b))
    return 0


def same(a, b):
    return compare(a, b) == 0


# ---- paths


def reach(value, path):
    if not path:
        return value
    if type(value) is dict:
        return reach(value[path[0]], path[1:]) if path[0] in value else MISSING
    if type(value) is list:
        found = [reach(v, path) for v in value if type(v) is dict]
        return [v for v in found if v is not MISSING]
    return MISSING


def plain(value, path):
    for step in path:
        if type(value) is not dict or step not in value:
            return MISSING
        value = value[step]
    return value


def ends(value, path):
    if not path:
        return [value]
    if type(value) is dict:
        return ends(value[path[0]], path[1:]) if path[0] in value else [MISSING]
    if type(value) is list:
        found = []
        for i, item in enumerate(value):
            if type(item) is dict:
                found += ends(item, path)
            if path[0] == str(i):
                found += ends(item, path[1:])
        return found
    return [MISSING]


def candidates(value, path):
    found = []
    for end in ends(value, path):
        found.append(end)
        if type(end) is list:
            found += end
    return found


def set_at(doc, path, value):
    """The document with the value at the path; what is missing removes the field and makes nothing."""
    doc = dict(doc)
    step, rest = path[0], path[1:]
    if not rest:
        if value is MISSING:
            doc.pop(step, None)
        else:
            doc[step] = value
        return doc
    if step in doc or value is not MISSING:
        doc[step] = set_in(doc.get(step), rest, value)
    return doc


def set_in(held, path, value):
    if type(held) is dict:
        return set_at(held, path, value)
    if type(held) is list:
        return [set_at(v, path, value) if type(v) is dict else v if value is MISSING else set_at({}, path, value)
                for v in held]
    return held if value is MISSING else set_at({}, path, value)


def unset(value, path):
    if type(value) is not dict or path[0] not in value:
        return value
    value = dict(value)
    if len(path) == 1:
        del value[path[0]]
        return value
    held = value[path[0]]
    if type(held) is dict:
        value[path[0]] = unset(held, path[1:])
    elif type(held) is list:
        value[path[0]] = [unset(v, path[1:]) if type(v) is dict else v for v in held]
    return value


def keep(doc, paths):
    kept = {}
    for name, value in doc.items():
        rests = [p[1:] for p in paths if p[0] == name]
        if not rests:
            continue
        if [] in rests:
            kept[name] = value
        elif type(value) is dict:
            kept[name] = keep(value, rests)
        elif type(value) is list:
            kept[name] = [keep(v, rests) for v in value if type(v) is dict]
    return kept
