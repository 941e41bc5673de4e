"""Queries and the stages that work document by document (the manual, Query and Projection Operators, Aggregation
Stages): how they are written and what they give."""
import expressions
from expressions import Code, Form, NUMBERS, fields, read_path
from values import (Date, GREATEST, Int, LEAST, Long, MISSING, TYPE_BYTES, candidates, compare, depth, encode, ends,
                    is_whole, keep, kind, plain, same, set_at, unset, CLASSES)

# ---- queries

LOGIC = {"$and", "$or", "$nor"}
TESTS = {"$eq", "$ne", "$nin", "$gt", "$gte", "$lt", "$lte", "$in", "$exists", "$type", "$size", "$all", "$elemMatch",
         "$not"}


def first_name(value):
    return next(iter(value), "") if type(value) is dict else ""


def read_query(doc, with_expr=True):
    if type(doc) is not dict:
        raise Form
    parts = []
    for name, value in doc.items():
        if name in LOGIC:
            if type(value) is not list or not value:
                raise Form
            parts.append((name, [read_query(q, with_expr) for q in value]))
        elif name == "$expr":
            if not with_expr:
                raise Form
            parts.append(("$expr", expressions.read(value)))
        else:
            path = read_path(name)
            if first_name(value).startswith("$"):
                parts += [("test", path, test) for test in read_tests(value)]
            else:
                parts.append(("test", path, ("$eq", value)))
    return parts[0] if len(parts) == 1 else ("$and", parts)


def read_tests(doc):
    if type(doc) is not dict or not doc:
        raise Form
    return [read_test(name, value) for name, value in doc.items()]


def read_test(name, value):
    if name not in TESTS:
        raise Form
    if name in ("$gt", "$gte", "$lt", "$lte") and (value is LEAST or value is GREATEST):
        raise Form
    if name in ("$in", "$nin", "$all") and type(value) is not list:
        raise Form
    if name == "$exists" and type(value) is not bool:
        raise Form
    if name == "$size" and (not is_whole(value) or value < 0):
        raise Form
    if name == "$type":
        if type(value) is str and value in TYPE_BYTES:
            return (name, value)
        if is_whole(value):
            for alias, byte in TYPE_BYTES.items():
                if value == (-1 if byte == 0xFF else byte):
                    return (name, alias)
        raise Form
    if name == "$not":
        return (name, read_tests(value))
    if name == "$elemMatch":
        if type(value) is not dict:
            raise Form
        if first_name(value).startswith("$") and first_name(value) not in LOGIC and first_name(value) != "$expr":
            return ("$elemTests", read_tests(value))
        return (name, read_query(value, False))
    return (name, value)


def holds(query, doc):
    word = query[0]
    if word == "$and":
        return all(holds(q, doc) for q in query[1])
    if word in ("$or", "$nor"):
        return any(holds(q, doc) for q in query[1]) == (word == "$or")
    if word == "$expr":
        return expressions.counts(expressions.evaluate(query[1], doc))
    return passes(query[2], ends(doc, query[1]), candidates(doc, query[1]))


def equals(found, value):
    return any(same(None if c is MISSING else c, value) for c in found)


def passes(test, ended, found):
    name, value = test
    if name == "$eq":
        return equals(found, value)
    if name == "$ne":
        return not equals(found, value)
    if name in ("$in", "$nin"):
        return any(equals(found, v) for v in value) == (name == "$in")
    if name in ("$gt", "$gte", "$lt", "$lte"):
        orders = [compare(None if c is MISSING else c, value) for c in found
                  if CLASSES[kind(None if c is MISSING else c)] == CLASSES[kind(value)]]
        return any(o in {"$gt": (1,), "$gte": (0, 1), "$lt": (-1,), "$lte": (-1, 0)}[name] for o in orders)
    if name == "$exists":
        return any(c is not MISSING for c in found) == value
    if name == "$type":
        return any(c is not MISSING and kind(c) == value for c in found)
    if name == "$size":
        return any(type(e) is list and len(e) == value for e in ended)
    if name == "$all":
        return bool(value) and all(equals(found, v) for v in value)
    if name == "$not":
        return not all(passes(t, ended, found) for t in value)
    items = [v for e in ended if type(e) is list for v in e]
    if name == "$elemMatch":
        return any(type(v) is dict and holds(value, v) for v in items)
    return any(all(passes(t, [v], [v]) for t in value) for v in items)


# ---- how stages are written


def made_name(name):
    if not name or "\0" in name or name[0] == "$":
        raise Form
    return name


def apart(paths):
    for i, p in enumerate(paths):
        for q in paths[i + 1:]:
            if p[:len(q)] == q[:len(p)]:
                raise Form


def listed(doc, leaf):
    """The paths of a document in which nested documents stand for longer ones, each with what `leaf` makes of it."""
    if type(doc) is not dict:
        raise Form
    found = []

    def walk(front, part):
        for name, value in part.items():
            path = front + read_path(name)
            if len(path) > 100:
                raise Form
            if type(value) is dict and not first_name(value).startswith("$"):
                if not value:
                    raise Form
                walk(path, value)
            else:
                found.append((path, leaf(value)))
    walk([], doc)
    apart([p for p, _ in found])
    return found


def read_project(value):
    if type(value) is not dict or not value:
        raise Form

    def leaf(v):
        if is_whole(v) or type(v) is bool:
            return bool(v)
        return expressions.read(v)
    found = listed(value, leaf)
    kept = [p for p, v in found if v is True]
    dropped = [p for p, v in found if v is False]
    made = [(p, v) for p, v in found if type(v) is tuple]
    is_id = ["_id"]
    others_dropped = [p for p in dropped if p != is_id]
    others_kept = [p for p in kept if p != is_id]
    if others_dropped or dropped and not (others_kept or made or kept):
        if others_kept or made:
            raise Form
        return ("exclude", dropped)
    with_id = is_id not in dropped and not any(p[0] == "_id" and len(p) > 1 for p, _ in found) \
        and not any(p == is_id for p, _ in made)
    return ("include", ([is_id] if with_id else []) + others_kept, made)


def read_stage(stage):
    if type(stage) is not dict or len(stage) != 1:
        raise Form
    (name, value), = stage.items()
    if name == "$match":
        return ("match", read_query(value))
    if name == "$project":
        return read_project(value)
    if name in ("$addFields", "$set"):
        return ("set", listed(value, expressions.read))
    if name == "$unset":
        texts = [value] if type(value) is str else value
        if type(texts) is not list or not texts or any(type(t) is not str for t in texts):
            raise Form
        paths = [read_path(t) for t in texts]
        apart(paths)
        return ("exclude", paths)
    if name == "$replaceRoot":
        return ("root", expressions.read(fields(value, ["newRoot"])["newRoot"]))
    if name == "$replaceWith":
        return ("root", expressions.read(value))
    if name == "$unwind":
        of = {"path": value} if type(value) is str else fields(
            value, ["path"], ["includeArrayIndex", "preserveNullAndEmptyArrays"])
        stays = of.get("preserveNullAndEmptyArrays", False)
        if type(of["path"]) is not str or not of["path"].startswith("$") or type(stays) is not bool:
            raise Form
        path, place = read_path(of["path"][1:]), None
        if "includeArrayIndex" in of:
            if type(of["includeArrayIndex"]) is not str:
                raise Form
            place = read_path(of["includeArrayIndex"])
            apart([path, place])
        return ("unwind", path, place, stays)
    if name in ("$limit", "$skip"):
        if not is_whole(value) or value < (name == "$limit"):
            raise Form
        return (name[1:], int(value))
    if name == "$count":
        if type(value) is not str or "." in made_name(value):
            raise Form
        return ("count", value)
    raise Form


# ---- what stages give


def evaluate_all(pairs, doc):
    values, codes = [], []
    for path, tree in pairs:
        try:
            values.append((path, expressions.evaluate(tree, doc)))
        except Code as code:
            codes.append(code.args[0])
    if codes:
        raise Code(min(codes, key=NUMBERS.get))
    return values


def give(stage, doc):
    word = stage[0]
    if word == "match":
        return [doc] if holds(stage[1], doc) else []
    if word == "set":
        for path, value in evaluate_all(stage[1], doc):
            doc = set_at(doc, path, value)
        return [doc]
    if word == "include":
        values = evaluate_all(stage[2], doc)
        doc = keep(doc, stage[1])
        for path, value in values:
            doc = set_at(doc, path, value)
        return [{"_id": doc["_id"], **doc}] if "_id" in doc else [doc]
    if word == "exclude":
        for path in stage[1]:
            doc = unset(doc, path)
        return [doc]
    if word == "root":
        value = expressions.evaluate(stage[1], doc)
        if type(value) is not dict:
            raise Code("NotDocument")
        return [value]
    _, path, place, stays = stage
    value = plain(doc, path)

    def placed(d, n):
        return set_at(d, place, n) if place else d
    if type(value) is list and value:
        return [placed(set_at(doc, path, v), Long(i)) for i, v in enumerate(value)]
    if value is MISSING or value is None or value == []:
        if not stays:
            return []
        return [placed(unset(doc, path) if value == [] else doc, None)]
    return [placed(doc, None)]


def run(stages, docs):
    """The list of the stages one after another, or the number and the code of the first that fails."""
    for number, stage in enumerate(stages, 1):
        if stage[0] == "limit":
            docs = docs[:stage[1]]
        elif stage[0] == "skip":
            docs = docs[stage[1]:]
        elif stage[0] == "count":
            docs = [{stage[1]: Int(len(docs))}] if docs else []
        else:
            given, codes = [], []
            for doc in docs:
                try:
                    given += give(stage, doc)
                except Code as code:
                    codes.append(code.args[0])
            if codes:
                return number, min(codes, key=NUMBERS.get)
            docs = given
    return docs


def bound_behind(stage, b):
    word = stage[0]
    if word == "set":
        return max([b] + [2 * len(p) - 1 + expressions.bound(e, b) for p, e in stage[1]])
    if word == "include":
        return max([b] + [2 * len(p) - 1 + expressions.bound(e, b) for p, e in stage[2]])
    if word == "root":
        return expressions.bound(stage[1], b)
    if word == "unwind" and stage[2]:
        return max(b, 2 * len(stage[2]) - 1)
    return 1 if word == "count" else b


def answer(pipeline, docs):
    """The status, the bytes and the line of the notes."""
    stages = []
    for number, stage in enumerate(pipeline, 1):
        try:
            stages.append(read_stage(stage))
        except Form:
            return 3, b"", f"error: command stage {number}: Form\n"
    if len(stages) > 100:
        return 3, b"", "error: command stage 0: Stages\n"
    b = 100
    for number, stage in enumerate(stages, 1):
        b = bound_behind(stage, b)
        if b > 1000:
            return 3, b"", f"error: command stage {number}: StaticDepth\n"
    given = run(stages, docs)
    if type(given) is tuple:
        return 8, b"", failure(*given)
    spelled = [encode(d) for d in given]
    if any(len(s) > 16777216 for s in spelled):
        return 8, b"", failure(len(stages) + 1, "ResultTooLong")
    if any(depth(d) > 100 for d in given):
        return 8, b"", failure(len(stages) + 1, "ResultTooDeep")
    return 0, b"".join(spelled), ""


def failure(stage, code):
    return f"error: evaluation stage {stage} code {NUMBERS[code]} {code}\n"
