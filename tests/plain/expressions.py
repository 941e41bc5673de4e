"""Expressions: how they are written, what they give, how deep their values can be (the manual, Aggregation
Expressions). Trees are tuples of a word and parts."""
import datetime
import re

from values import (Bin, Date, GREATEST, Id, Int, LEAST, Long, MISSING, compare, depth, is_nothing, is_whole, kind,
                    reach, same)


class Form(Exception):
    """There is no reading."""


class Code(Exception):
    """An evaluation error."""


NUMBERS = {name: i + 1 for i, name in enumerate(
    "WrongType Overflow ZeroDivisor NotArray BadCount NoBranch DateRange NotDocument BadName BadConversion RangeTooLong "
    "NestTooDeep ResultTooLong ResultTooDeep MissingId Matched NotMatched".split())}

ANY = {"add", "multiply", "and", "or", "concatArrays", "setUnion", "setIntersection", "mergeObjects", "concat"}
COUNTS = {"subtract": (2, 2), "mod": (2, 2), "abs": (1, 1), "cmp": (2, 2), "eq": (2, 2), "ne": (2, 2), "gt": (2, 2),
          "gte": (2, 2), "lt": (2, 2), "lte": (2, 2), "not": (1, 1), "ifNull": (2, None), "size": (1, 1), "in": (2, 2),
          "arrayElemAt": (2, 2), "first": (1, 1), "last": (1, 1), "slice": (2, 3), "reverseArray": (1, 1),
          "range": (2, 3), "isArray": (1, 1), "isNumber": (1, 1), "type": (1, 1), "setDifference": (2, 2),
          "setIsSubset": (2, 2), "setEquals": (2, None), "arrayToObject": (1, 1), "objectToArray": (1, 1),
          "strLenBytes": (1, 1), "strLenCP": (1, 1), "substrCP": (3, 3), "split": (2, 2), "toInt": (1, 1),
          "toLong": (1, 1), "toString": (1, 1)}
COUNTS.update({name: (0, None) for name in sorted(ANY)})
PARTS = ["year", "month", "dayOfMonth", "dayOfYear", "dayOfWeek", "isoDayOfWeek", "isoWeek", "isoWeekYear", "hour",
         "minute", "second", "millisecond"]
UNITS = ["year", "quarter", "month", "week", "day", "hour", "minute", "second", "millisecond"]


def read_path(text):
    steps = text.split(".")
    if len(steps) > 100 or any(not s or s[0] == "$" or "\0" in s for s in steps):
        raise Form
    return steps


def fields(value, required, optional=()):
    """The fields of a document that has just these names."""
    if type(value) is not dict or not set(required) <= set(value) <= set(required) | set(optional):
        raise Form
    return value


def read(value, names=()):
    if type(value) is str:
        return read_text(value, names)
    if type(value) is list:
        return ("list", [read(v, names) for v in value])
    if type(value) is dict:
        return read_doc(value, names)
    return ("literal", value)


def read_text(text, names):
    if text.startswith("$$"):
        path = read_path(text[2:])
        name, rest = path[0], path[1:]
        if name in ("ROOT", "CURRENT"):
            return ("root", rest)
        if name == "REMOVE":
            if rest:
                raise Form
            return ("remove",)
        if name not in names:
            raise Form
        return ("var", name, rest)
    if text.startswith("$"):
        return ("field", read_path(text[1:]))
    return ("literal", text)


def read_doc(value, names):
    first = next(iter(value), "")
    if first.startswith("$"):
        if len(value) != 1:
            raise Form
        return read_operator(first[1:], value[first], names)
    if any(n.startswith("$") or "." in n for n in value):
        raise Form
    return ("make", [(n, read(v, names)) for n, v in value.items()])


def read_operator(name, value, names):
    if name == "literal":
        return ("literal", value)
    if name in COUNTS:
        least, most = COUNTS[name]
        if type(value) is list:
            operands = [read(v, names) for v in value]
        elif most == 1:
            operands = [read(value, names)]
        else:
            raise Form
        if len(operands) < least or most is not None and len(operands) > most:
            raise Form
        return ("op", name, operands)
    if name == "cond":
        if type(value) is list:
            if len(value) != 3:
                raise Form
            parts = value
        else:
            of = fields(value, ["if", "then", "else"])
            parts = [of["if"], of["then"], of["else"]]
        return ("cond", [read(p, names) for p in parts])
    if name == "switch":
        of = fields(value, ["branches"], ["default"])
        if type(of["branches"]) is not list or not of["branches"]:
            raise Form
        branches = []
        for branch in of["branches"]:
            fields(branch, ["case", "then"])
            branches.append((read(branch["case"], names), read(branch["then"], names)))
        return ("switch", branches, read(of["default"], names) if "default" in of else None)
    if name == "let":
        of = fields(value, ["vars", "in"])
        if type(of["vars"]) is not dict or not all(is_variable(n) for n in of["vars"]):
            raise Form
        bound = [(n, read(v, names)) for n, v in of["vars"].items()]
        return ("let", bound, read(of["in"], set(names) | set(of["vars"])))
    if name in ("map", "filter"):
        inner = "in" if name == "map" else "cond"
        of = fields(value, ["input", inner], ["as"])
        item = of.get("as", "this")
        if type(item) is not str or not is_variable(item):
            raise Form
        return (name, read(of["input"], names), item, read(of[inner], set(names) | {item}))
    if name == "reduce":
        of = fields(value, ["input", "initialValue", "in"])
        return ("reduce", read(of["input"], names), read(of["initialValue"], names),
                read(of["in"], set(names) | {"value", "this"}))
    if name in PARTS:
        if type(value) is list:
            if len(value) != 1:
                raise Form
            value = value[0]
        elif type(value) is dict and set(value) == {"date"}:
            value = value["date"]
        return ("part", name, read(value, names))
    if name in ("dateAdd", "dateSubtract"):
        of = fields(value, ["startDate", "unit", "amount"])
        return ("moved", name, read(of["startDate"], names), unit(of["unit"]), read(of["amount"], names))
    if name == "dateDiff":
        of = fields(value, ["startDate", "endDate", "unit"])
        return ("between", read(of["startDate"], names), read(of["endDate"], names), unit(of["unit"]))
    if name == "dateTrunc":
        of = fields(value, ["date", "unit"])
        return ("cut", read(of["date"], names), unit(of["unit"]))
    raise Form


def is_variable(name):
    return re.fullmatch("[a-z][A-Za-z0-9_]*", name, re.ASCII) is not None


def unit(value):
    if value not in UNITS or type(value) is not str:
        raise Form
    return value


# ---- values


def counts(value):
    return not (is_nothing(value) or value is False or is_whole(value) and value == 0)


def evaluate(tree, root, names=None):
    names = names or {}
    word = tree[0]
    if word == "literal":
        return tree[1]
    if word in ("field", "root"):
        return reach(root, tree[1])
    if word == "remove":
        return MISSING
    if word == "var":
        value = names.get(tree[1], MISSING)
        return value if value is MISSING else reach(value, tree[2])
    if word == "make":
        made = [(n, evaluate(e, root, names)) for n, e in tree[1]]
        return {n: v for n, v in made if v is not MISSING}
    if word == "list":
        return [or_null(evaluate(e, root, names)) for e in tree[1]]
    if word == "op":
        return operator(tree[1], tree[2], root, names)
    if word == "cond":
        test, yes, no = tree[1]
        return evaluate(yes if counts(evaluate(test, root, names)) else no, root, names)
    if word == "switch":
        for case, value in tree[1]:
            if counts(evaluate(case, root, names)):
                return evaluate(value, root, names)
        if tree[2] is None:
            raise Code("NoBranch")
        return evaluate(tree[2], root, names)
    if word == "let":
        bound = {n: evaluate(e, root, names) for n, e in tree[1]}
        return evaluate(tree[2], root, {**names, **bound})
    if word in ("map", "filter"):
        value = evaluate(tree[1], root, names)
        if is_nothing(value):
            return None
        if type(value) is not list:
            raise Code("NotArray")
        if word == "map":
            return [or_null(evaluate(tree[3], root, {**names, tree[2]: v})) for v in value]
        return [v for v in value if counts(evaluate(tree[3], root, {**names, tree[2]: v}))]
    if word == "reduce":
        value = evaluate(tree[1], root, names)
        so_far = evaluate(tree[2], root, names)
        if is_nothing(value):
            return None
        if type(value) is not list:
            raise Code("NotArray")
        shallow(so_far)
        for item in value:
            so_far = or_null(evaluate(tree[3], root, {**names, "value": so_far, "this": item}))
            shallow(so_far)
        return or_null(so_far)
    if word == "part":
        return date_row([evaluate(tree[2], root, names)], "d", lambda d: Int(date_part(tree[1], d)))
    if word == "moved":
        start, amount = evaluate(tree[2], root, names), evaluate(tree[4], root, names)
        back = -1 if tree[1] == "dateSubtract" else 1
        return date_row([start, amount], "dn", lambda d, n: Date(moved(d, tree[3], back * int(n))))
    if word == "between":
        pair = [evaluate(tree[1], root, names), evaluate(tree[2], root, names)]
        return date_row(pair, "dd", lambda d, e: Long(index(e, tree[3]) - index(d, tree[3])))
    return date_row([evaluate(tree[1], root, names)], "d", lambda d: Date(cut(d, tree[2])))


def or_null(value):
    return None if value is MISSING else value


def shallow(value):
    if value is not MISSING and depth(value) > 200:
        raise Code("NestTooDeep")


def operator(name, operands, root, names):
    if name in ("and", "or"):
        for e in operands:
            if counts(evaluate(e, root, names)) == (name == "or"):
                return name == "or"
        return name == "and"
    if name == "ifNull":
        value = None
        for e in operands:
            value = evaluate(e, root, names)
            if not is_nothing(value):
                break
        return value
    return ROWS[name](*[evaluate(e, root, names) for e in operands])


def kinds(values, tests):
    """The first operand that is neither nothing nor of its kind gives its code; True where one is nothing."""
    for value, (test, code) in zip(values, tests):
        if not is_nothing(value) and not test(value):
            raise Code(code)
    return any(is_nothing(v) for v in values)


def is_list(value):
    return type(value) is list


def is_text(value):
    return type(value) is str


def is_doc(value):
    return type(value) is dict


def sized(number, narrow):
    if not -2**63 <= number < 2**63:
        raise Code("Overflow")
    return Int(number) if narrow and -2**31 <= number < 2**31 else Long(number)


def add(*values):
    dates = 0
    for v in values:
        if is_nothing(v) or is_whole(v):
            continue
        dates += type(v) is Date
        if type(v) is not Date or dates > 1:
            raise Code("WrongType")
    if any(is_nothing(v) for v in values):
        return None
    total = sum(int(v) for v in values)
    if dates:
        return Date(sized(total, False))
    return sized(total, all(type(v) is Int for v in values))


def subtract(a, b):
    kinds([a, b], [(lambda v: is_whole(v) or type(v) is Date, "WrongType")] * 2)
    if is_whole(a) and type(b) is Date:
        raise Code("WrongType")
    if is_nothing(a) or is_nothing(b):
        return None
    result = sized(int(a) - int(b), type(a) is Int and type(b) is Int)
    if type(a) is Date and type(b) is not Date:
        return Date(result)
    return Long(result) if type(a) is Date else result


def multiply(*values):
    if kinds(values, [(is_whole, "WrongType")] * len(values)):
        return None
    product = 1
    for v in values:
        product *= int(v)
        sized(product, False)
    return sized(product, all(type(v) is Int for v in values))


def mod(a, b):
    if kinds([a, b], [(is_whole, "WrongType")] * 2):
        return None
    if b == 0:
        raise Code("ZeroDivisor")
    rest = abs(int(a)) % abs(int(b))
    return sized(-rest if a < 0 else rest, type(a) is Int and type(b) is Int)


def absolute(a):
    if kinds([a], [(is_whole, "WrongType")]):
        return None
    return sized(abs(int(a)), type(a) is Int)


def array_of(value):
    if not is_list(value):
        raise Code("NotArray")
    return value


def length(n):
    return Int(min(n, 2**31 - 1))


def element_at(array, place):
    if kinds([array, place], [(is_list, "NotArray"), (is_whole, "WrongType")]):
        return None
    place = int(place) + (len(array) if place < 0 else 0)
    return array[place] if 0 <= place < len(array) else MISSING


def end_of(place):
    def row(array):
        if kinds([array], [(is_list, "NotArray")]):
            return None
        return array[place] if array else MISSING
    return row


def many_arrays(make):
    def row(*arrays):
        if kinds(arrays, [(is_list, "NotArray")] * len(arrays)):
            return None
        return make(*arrays)
    return row


def piece(array, *numbers):
    if kinds([array, *numbers], [(is_list, "NotArray")] + [(is_whole, "WrongType")] * 2):
        return None
    if len(numbers) == 1:
        n = int(numbers[0])
        return array[:n] if n >= 0 else array[max(len(array) + n, 0):]
    place, n = int(numbers[0]), int(numbers[1])
    if n <= 0:
        raise Code("BadCount")
    place = max(len(array) + place, 0) if place < 0 else place
    return array[place:place + n]


def number_range(*numbers):
    for n in numbers:
        if not is_whole(n) or not -2**31 <= n < 2**31:
            raise Code("WrongType")
    start, end, step = [int(n) for n in numbers] + ([1] if len(numbers) == 2 else [])
    if step == 0:
        raise Code("BadCount")
    items = range(start, end, step)
    if len(items) > 1048576:
        raise Code("RangeTooLong")
    return [Int(n) for n in items]


def firsts(values):
    found = []
    for v in values:
        if not has(found, v):
            found.append(v)
    return found


def has(values, value):
    return any(same(v, value) for v in values)


def intersection(*arrays):
    return [v for v in firsts(arrays[0]) if all(has(a, v) for a in arrays[1:])] if arrays else []


def array_to_object(array):
    if kinds([array], [(is_list, "NotArray")]):
        return None
    made = {}
    for item in array:
        if type(item) is dict and set(item) == {"k", "v"} and is_text(item["k"]):
            name, value = item["k"], item["v"]
        elif type(item) is list and len(item) == 2 and is_text(item[0]):
            name, value = item
        else:
            raise Code("WrongType")
        if "\0" in name:
            raise Code("BadName")
        made[name] = value
    return made


def object_to_array(doc):
    if kinds([doc], [(is_doc, "NotDocument")]):
        return None
    return [{"k": n, "v": v} for n, v in doc.items()]


def merge_objects(*docs):
    kinds(docs, [(is_doc, "NotDocument")] * len(docs))
    merged = {}
    for doc in docs:
        merged.update({} if is_nothing(doc) else doc)
    return merged


def concat(*texts):
    if kinds(texts, [(is_text, "WrongType")] * len(texts)):
        return None
    return "".join(texts)


def text_length(measure):
    def row(text):
        if not is_text(text):
            raise Code("WrongType")
        return length(len(measure(text)))
    return row


def substring(text, start, count):
    if not is_nothing(text) and not is_text(text) or not is_whole(start) or not is_whole(count):
        raise Code("WrongType")
    if is_nothing(text):
        return ""
    if start < 0 or count < 0:
        raise Code("BadCount")
    return text[int(start):int(start) + int(count)]


def split(text, separator):
    if kinds([text, separator], [(is_text, "WrongType")] * 2):
        return None
    if not separator:
        raise Code("BadCount")
    return text.split(separator)


def to_number(low, high, make, dates):
    def row(value):
        if is_nothing(value):
            return None
        if is_whole(value) or type(value) is bool or dates and type(value) is Date:
            number = int(value)
        elif is_text(value) and re.fullmatch("-?[0-9]{1,19}", value, re.ASCII):
            number = int(value)
        else:
            raise Code("BadConversion")
        if not low <= number <= high:
            raise Code("BadConversion")
        return make(number)
    return row


def to_string(value):
    if is_nothing(value):
        return None
    if type(value) is bool:
        return "true" if value else "false"
    if is_whole(value):
        return str(int(value))
    if is_text(value):
        return value
    raise Code("BadConversion")


ROWS = {
    "add": add, "subtract": subtract, "multiply": multiply, "mod": mod, "abs": absolute,
    "cmp": lambda a, b: Int(compare(a, b)), "eq": lambda a, b: compare(a, b) == 0, "ne": lambda a, b: compare(a, b) != 0,
    "gt": lambda a, b: compare(a, b) > 0, "gte": lambda a, b: compare(a, b) >= 0, "lt": lambda a, b: compare(a, b) < 0,
    "lte": lambda a, b: compare(a, b) <= 0, "not": lambda a: not counts(a), "size": lambda a: length(len(array_of(a))),
    "in": lambda v, a: v is not MISSING and has(array_of(a), v) if is_list(a) else array_of(a), "arrayElemAt": element_at,
    "first": end_of(0), "last": end_of(-1), "concatArrays": many_arrays(lambda *arrays: [v for a in arrays for v in a]),
    "slice": piece, "reverseArray": many_arrays(lambda a: a[::-1]), "range": number_range, "isArray": is_list,
    "isNumber": is_whole, "type": kind, "setUnion": many_arrays(lambda *arrays: firsts([v for a in arrays for v in a])),
    "setIntersection": many_arrays(intersection),
    "setDifference": many_arrays(lambda a, b: [v for v in firsts(a) if not has(b, v)]),
    "setIsSubset": lambda a, b: all(has(array_of(b), v) for v in array_of(a)) if is_list(a) and is_list(b) else array_of(MISSING),
    "setEquals": lambda *arrays: all([has(b, v) for a in map(array_of, arrays) for b in map(array_of, arrays) for v in a]),
    "arrayToObject": array_to_object, "objectToArray": object_to_array, "mergeObjects": merge_objects, "concat": concat,
    "strLenBytes": text_length(str.encode), "strLenCP": text_length(str), "substrCP": substring, "split": split,
    "toInt": to_number(-2**31, 2**31 - 1, Int, False), "toLong": to_number(-2**63, 2**63 - 1, Long, True),
    "toString": to_string,
}

# ---- dates

FIRST, LAST = -62135596800000, 253402300799999
DAY = 86400000


def date_row(values, what, make):
    tests = {"d": (lambda v: type(v) is Date, "WrongType"), "n": (is_whole, "WrongType")}
    if kinds(values, [tests[w] for w in what]):
        return None
    for value, w in zip(values, what):
        if w == "d":
            in_years(value)
    return make(*values)


def in_years(ms):
    if not FIRST <= ms <= LAST:
        raise Code("DateRange")
    return ms


def day_of(ms):
    return datetime.date(1970, 1, 1) + datetime.timedelta(days=int(ms) // DAY)


def ms_of(day):
    return (day - datetime.date(1970, 1, 1)).days * DAY


def date_part(part, ms):
    day, rest = day_of(ms), int(ms) % DAY
    return {"year": lambda: day.year, "month": lambda: day.month, "dayOfMonth": lambda: day.day,
            "dayOfYear": lambda: day.timetuple().tm_yday, "dayOfWeek": lambda: day.isoweekday() % 7 + 1,
            "isoDayOfWeek": day.isoweekday, "isoWeek": lambda: day.isocalendar()[1],
            "isoWeekYear": lambda: iso_year(day), "hour": lambda: rest // 3600000,
            "minute": lambda: rest // 60000 % 60, "second": lambda: rest // 1000 % 60,
            "millisecond": lambda: rest % 1000}[part]()


def iso_year(day):
    return day.isocalendar()[0]


WIDTHS = {"week": 7 * DAY, "day": DAY, "hour": 3600000, "minute": 60000, "second": 1000, "millisecond": 1}
MONTHS = {"year": 12, "quarter": 3, "month": 1}


def moved(ms, unit, amount):
    if unit in WIDTHS:
        return in_years(int(ms) + amount * WIDTHS[unit])
    day = day_of(ms)
    month = day.year * 12 + day.month - 1 + amount * MONTHS[unit]
    year, month = month // 12, month % 12 + 1
    if not 1 <= year <= 9999:
        raise Code("DateRange")
    last = [31, 29 if year % 4 == 0 and (year % 100 or year % 400 == 0) else 28, 31, 30, 31, 30, 31, 31, 30, 31, 30, 31][month - 1]
    return ms_of(datetime.date(year, month, min(day.day, last))) + int(ms) % DAY


def index(ms, unit):
    """The number of the period of this unit in which the date lies."""
    day = day_of(ms)
    if unit == "week":
        return (int(ms) // DAY + 4) // 7
    if unit in WIDTHS:
        return int(ms) // WIDTHS[unit]
    return {"year": day.year, "quarter": 4 * day.year + (day.month - 1) // 3, "month": 12 * day.year + day.month}[unit]


def cut(ms, unit):
    if unit == "week":
        return in_years((7 * index(ms, "week") - 4) * DAY)
    if unit in WIDTHS:
        return int(ms) // WIDTHS[unit] * WIDTHS[unit]
    day = day_of(ms)
    months = {"year": 12, "quarter": 3, "month": 1}[unit]
    return ms_of(datetime.date(day.year, (day.month - 1) // months * months + 1, 1))


# ---- how deep

CAP = 2**64 - 1
PART_OF = {"arrayElemAt", "first", "last", "slice", "reverseArray"}
MADE = {"concatArrays", "range", "setUnion", "setIntersection", "setDifference", "arrayToObject", "objectToArray",
        "mergeObjects", "split"}


def bound(tree, b, names=None):
    names = names or {}
    word = tree[0]
    if word == "literal":
        return depth(tree[1])
    if word == "field" or word == "root" and tree[1]:
        return max(b - 1, 0)
    if word == "root":
        return b
    if word == "var":
        return names.get(tree[1], 0)
    if word == "make":
        return min(CAP, 1 + max((bound(e, b, names) for _, e in tree[1]), default=0))
    if word == "list":
        return min(CAP, 1 + max((bound(e, b, names) for e in tree[1]), default=0))
    if word == "cond":
        return max(bound(e, b, names) for e in tree[1][1:])
    if word == "switch":
        values = [e for _, e in tree[1]] + ([tree[2]] if tree[2] else [])
        return max(bound(e, b, names) for e in values)
    if word == "let":
        return bound(tree[2], b, {**names, **{n: bound(e, b, names) for n, e in tree[1]}})
    if word == "map":
        return 1 + bound(tree[3], b, {**names, tree[2]: bound(tree[1], b, names)})
    if word == "filter":
        return bound(tree[1], b, names)
    if word == "reduce":
        return 200
    if word == "op":
        bounds = [bound(e, b, names) for e in tree[2]]
        if tree[1] == "ifNull":
            return max(bounds)
        if tree[1] in PART_OF:
            return bounds[0]
        if tree[1] in MADE:
            return max(1 + max(bounds, default=0), 2)
    return 0
