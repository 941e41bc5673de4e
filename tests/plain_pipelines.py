#!/usr/bin/env python3
"""The program against a plain, slow one: random pipelines over random documents on two shards, a part of them faulty.

The plain program in tests/plain follows the same rules and shares nothing with the crates. Status, output
and line have to be the same. Run it after `rt run` in crates/mongopipe (or `rt ci`); it is skipped where the program
is missing.

    tests/plain_pipelines.py [COUNT] [SEED]
"""
import os
import random
import subprocess
import sys
import tempfile

HERE = os.path.dirname(os.path.abspath(__file__))
sys.path.insert(0, os.path.join(HERE, "plain"))

import expressions  # noqa: E402
import pipelines  # noqa: E402
from values import Bin, Date, GREATEST, Id, Int, LEAST, Long, Stamp, compare, encode  # noqa: E402

PROGRAM = os.path.join(HERE, "..", "crates", "mongopipe", "out", "mongopipe")
NAMES = ["a", "b", "c", "_id", "k"]
PATHS = ["a", "b", "c", "a.b", "a.a", "b.c", "a.b.c", "a.0", "b.1", "_id", "_id.a", "k", "c.b"]


class Maker:
    """Makes random documents and pipelines."""

    def __init__(self, seed):
        self.random = random.Random(seed)

    def pick(self, *choices):
        return self.random.choice(choices)

    def often(self, part):
        return self.random.random() < part

    def scalar(self):
        r = self.random
        return self.pick(
            None, None, Int(r.randint(-3, 3)), Int(r.randint(-3, 3)), Int(r.randint(-3, 3)), Long(r.randint(-3, 3)),
            Long(self.pick(2**63 - 1, -2**63, 2**31)), Int(self.pick(2**31 - 1, -2**31)), "", "x", "xy", "a.b", "€b", "12",
            "-7", "99999999999", True, False, Date(self.pick(0, 1709164800000, -1, 253402300799999, 253402300800000,
                                                             -62135596800000, r.randint(-10**14, 10**14))),
            Stamp(5), Id(b"123456789012"), Bin((0, b"xy")), LEAST, GREATEST)

    def value(self, deep=3):
        if deep == 0 or self.often(0.5):
            return self.scalar()
        if self.often(0.5):
            return [self.value(deep - 1) for _ in range(self.random.randint(0, 3))]
        return {self.pick("a", "b", "c"): self.value(deep - 1) for _ in range(self.random.randint(0, 3))}

    def document(self, number):
        doc = {"_id": Int(number), "k": Int(self.random.randint(0, 9))}
        for name in self.random.sample(["a", "b", "c"], self.random.randint(0, 3)):
            doc[name] = self.value()
        if self.often(0.3):
            doc = dict(self.random.sample(list(doc.items()), len(doc)))
        return doc

    # ---- expressions

    def operand(self, deep, names):
        if deep == 0 or self.often(0.35):
            choice = self.random.randint(0, 9)
            if choice < 5:
                return "$" + self.pick(*PATHS)
            if choice == 5:
                return self.pick("$$ROOT", "$$CURRENT.a", "$$REMOVE", "$$ROOT.b.c")
            if choice == 6 and names:
                return "$$" + self.pick(*names) + self.pick("", "", ".a")
            if choice == 7:
                return {"$literal": self.value(2)}
            value = self.scalar()
            return "x" if type(value) is str and value.startswith("$") else value
        return self.operator(deep - 1, names)

    def operator(self, deep, names):
        def e(more=()):
            return self.operand(deep, tuple(names) + tuple(more))
        choice = self.random.randint(0, 19)
        if choice == 0:
            return {self.pick("p", "a", "q"): e(), "r": e()}
        if choice == 1:
            return [e() for _ in range(self.random.randint(0, 3))]
        if choice == 2:
            return {"$cond": self.pick([e(), e(), e()], {"then": e(), "if": e(), "else": e()})}
        if choice == 3:
            switch = {"branches": [{"case": e(), "then": e()} for _ in range(self.random.randint(1, 2))]}
            if self.often(0.6):
                switch["default"] = e()
            return {"$switch": switch}
        if choice == 4:
            return {"$let": {"vars": {"v": e(), "w": e()}, "in": e(["v", "w"])}}
        if choice == 5:
            return {"$map": {"input": e(), "in": e(["this"])}}
        if choice == 6:
            return {"$filter": {"input": e(), "as": "it", "cond": e(["it"])}}
        if choice == 7:
            return {"$reduce": {"input": e(), "initialValue": e(), "in": e(["value", "this"])}}
        if choice == 8:
            unit = self.pick(*expressions.UNITS)
            return self.pick({"$dateAdd": {"startDate": e(), "unit": unit, "amount": e()}},
                             {"$dateSubtract": {"startDate": e(), "unit": unit, "amount": Int(self.random.randint(-30, 30))}},
                             {"$dateDiff": {"startDate": e(), "endDate": e(), "unit": unit}},
                             {"$dateTrunc": {"date": e(), "unit": unit}})
        if choice == 9:
            return {"$" + self.pick(*expressions.PARTS): self.pick(e(), {"date": e()})}
        name = self.pick(*expressions.COUNTS)
        least, most = expressions.COUNTS[name]
        count = self.random.randint(least, most if most is not None else least + 2)
        if most == 1 and self.often(0.5):
            bare = e()
            return {"$" + name: [bare] if type(bare) is list else bare}
        return {"$" + name: [e() for _ in range(count)]}

    # ---- queries

    def query(self, deep=2, with_expr=True):
        query = {}
        for _ in range(self.pick(0, 1, 1, 1, 2)):
            choice = self.random.randint(0, 9)
            if choice == 0 and deep:
                query[self.pick("$and", "$or", "$nor")] = [self.query(deep - 1, with_expr) for _ in range(self.random.randint(1, 3))]
            elif choice == 1 and with_expr:
                query["$expr"] = self.operand(2, ())
            elif choice < 5:
                value = self.value(1)
                query[self.pick(*PATHS)] = value
            else:
                query[self.pick(*PATHS)] = self.tests(deep)
        return query

    def tests(self, deep):
        return {name: value for name, value in [self.test(deep) for _ in range(self.pick(1, 1, 2))]}

    def test(self, deep):
        name = self.pick("$eq", "$ne", "$gt", "$gte", "$lt", "$lte", "$in", "$nin", "$exists", "$type", "$size", "$all",
                         "$elemMatch", "$not")
        value = self.value(2)
        if name in ("$in", "$nin", "$all"):
            value = [self.value(1) for _ in range(self.random.randint(0, 3))]
        if name == "$exists":
            value = self.often(0.5)
        if name == "$size":
            value = Int(self.random.randint(0, 3))
        if name == "$type":
            value = self.pick("int", "string", "array", "null", "object", "date", Int(16), Long(-1), Int(4))
        if name == "$elemMatch":
            value = self.query(deep - 1, False) if deep and self.often(0.5) else self.tests(0) if deep else {"a": Int(1)}
        if name == "$not":
            value = self.tests(deep - 1) if deep else {"$eq": Int(1)}
        return name, value

    # ---- stages

    def paths(self):
        found = []
        for path in self.random.sample(PATHS + ["d", "e.f", "d.e"], 3):
            if not any((path + ".").startswith(p + ".") or (p + ".").startswith(path + ".") for p in found):
                found.append(path)
        return found

    def stage(self):
        choice = self.random.randint(0, 13)
        if choice < 3:
            return {"$match": self.query()}
        if choice < 5:
            project = {}
            keeps = self.often(0.6)
            for path in self.paths():
                project[path] = self.operand(3, ()) if keeps and self.often(0.5) else Int(1) if keeps else self.pick(Int(0), False)
            if self.often(0.3) and not any(p.startswith("_id") for p in project):
                project["_id"] = Int(0)
            return {"$project": project}
        if choice < 7:
            return {self.pick("$addFields", "$set"): {p: self.operand(3, ()) for p in self.paths()}}
        if choice == 7:
            return {"$unset": self.pick(self.pick(*PATHS), self.paths())}
        if choice == 8:
            root = self.pick("$$ROOT", "$a", {"x": "$a", "y": self.operand(2, ())}, {"$mergeObjects": ["$$ROOT", {"z": self.operand(2, ())}]})
            return self.pick({"$replaceRoot": {"newRoot": root}}, {"$replaceWith": root})
        if choice < 11:
            unwind = {"path": "$" + self.pick("a", "b", "c", "a.b", "b.c")}
            if self.often(0.5):
                unwind["includeArrayIndex"] = self.pick("i", "d.i", "k", "c.i")
            if self.often(0.5):
                unwind["preserveNullAndEmptyArrays"] = self.often(0.7)
            return {"$unwind": unwind["path"] if len(unwind) == 1 else unwind}
        if choice == 11:
            return {"$limit": self.pick(Int(1), Int(2), Long(3), Int(5))}
        if choice == 12:
            return {"$skip": self.pick(Int(0), Int(1), Long(2))}
        return {"$count": "n"} if self.often(0.4) else {"$match": self.query()}

    def fault(self, stage):
        """The stage with something changed that mostly makes it faulty."""
        (name, value), = stage.items()
        change = self.random.randint(0, 4)
        if change == 0:
            return {name: self.value(2)}
        if change == 1:
            return {name: value, "$limit": Int(1)}
        if change == 2:
            return {name + "x": value}
        if change == 3 and type(value) is dict:
            return {name: {**value, self.pick("$x", "a.b", "", "a..b", "path", "newRoot"): self.value(1)}}
        return {name: {self.pick("a", "b"): {self.pick("$add", "$gt", "$slice", "$let", "$elemMatch", "$nosuch"): self.value(2)}}}

    def pipeline(self):
        stages = [self.stage() for _ in range(self.pick(0, 1, 1, 2, 2, 3, 4, 5))]
        if stages and self.often(0.15):
            place = self.random.randrange(len(stages))
            stages[place] = self.fault(stages[place])
        return stages


def cluster(split):
    low, high = {"k": LEAST}, {"k": GREATEST}
    return {"cluster": Int(1), "collections": [{
        "name": "c", "key": {"k": Int(1)},
        "shards": [{"name": "a", "file": "a.bson"}, {"name": "b", "file": "b.bson"}],
        "chunks": [{"min": low, "max": {"k": Int(split)}, "shard": "b"}, {"min": {"k": Int(split)}, "max": high, "shard": "a"}]}]}


def put(folder, name, bytes_):
    with open(os.path.join(folder, name), "wb") as file:
        file.write(bytes_)


def main():
    if not os.path.exists(PROGRAM):
        print(f"skipped: no {os.path.relpath(PROGRAM)}; `rt run` in crates/mongopipe makes it")
        return 0
    count = int(sys.argv[1]) if len(sys.argv) > 1 else 2000
    seed = int(sys.argv[2]) if len(sys.argv) > 2 else 1
    statuses, wrong = {}, 0
    with tempfile.TemporaryDirectory() as folder:
        for number in range(seed, seed + count):
            make = Maker(number)
            docs = [make.document(i) for i in range(make.random.randint(0, 6))]
            split = make.random.randint(1, 9)
            stages = make.pipeline()
            owned = {"a": [], "b": []}
            held = {"a": b"", "b": b""}
            for doc in docs:
                owner = "b" if compare(doc["k"], Int(split)) < 0 else "a"
                owned[owner].append(doc)
                for shard in (owner, "ab".replace(owner, "")) if make.often(0.2) else (owner,):
                    held[shard] += encode(doc)
            put(folder, "c.bson", encode(cluster(split)))
            put(folder, "q.bson", encode({"aggregate": "c", "pipeline": stages}))
            put(folder, "a.bson", held["a"])
            put(folder, "b.bson", held["b"])
            run = subprocess.run([os.path.abspath(PROGRAM), "run", "c.bson", "q.bson"], cwd=folder, capture_output=True, check=False)
            wanted = pipelines.answer(stages, owned["a"] + owned["b"])
            got = (run.returncode, run.stdout, run.stderr.decode())
            statuses[wanted[0]] = statuses.get(wanted[0], 0) + 1
            if got != wanted:
                wrong += 1
                print(f"case {number}: {stages}\n  over {owned['a'] + owned['b']}\n  wanted {wanted}\n  got    {got}")
    print(f"{count} pipelines, by status {dict(sorted(statuses.items()))}, {wrong} wrong")
    return 1 if wrong else 0


if __name__ == "__main__":
    sys.exit(main())
