"""Runs the proved program on plans, ids and command lines that it has to refuse, on plans at its limits, and on a plan cut after
each of its bytes. What has to come out is written here, by docs/PLANS.md. Prints a line for each case.
"""
import os
import pty
import re
import subprocess

LIMIT = 1_048_576


def key(fields):
    return f"[[key]]\n{fields}\n"


def node(fields):
    return f"[[node]]\n{fields}\n"


A = key('label = "a"')
ROOT = node('id = "[a:b]"')
CHILD = node('id = "[a:b]/[c:d]"')
REPETITION = node('id = "[a:b]/[test-template-invocation:#1]"')


def root(fields):
    """A plan of one key and one node that has these fields beside its id."""
    return A + node(f'id = "[a:b]"\n{fields}')


def test(steps):
    """A plan whose root is a test of these steps, as TOML writes them."""
    return root(f"test = [{steps}]")


def nodes_of(ids):
    return "".join(node(f'id = "{id}"') for id in ids)


def deep(count):
    return ["/".join(["[a:b]"] * depth) for depth in range(1, count + 1)]


# Each field, with the place of a fault in it, and the values that it may have. All other values are of another type.
FIELDS = [
    ("keep_faults", "", ["true"]),
    ("keys", "", ["1", "0x1"]),
    ("key", "", ["[]"]),
    ("node", "", ["[]"]),
    ("label", " key 0", ['"x"', '"[a:b]"']),
    ("name", " key 0", ['"x"', '"[a:b]"']),
    ("namespace", " key 0", ["[]", '["x"]']),
    ("id", " node 0", ['"x"', '"[a:b]"']),
    ("test", " node 0", ["[]", '["x"]']),
    ("repeat", " node 0", ["1", "0x1"]),
    ("mode", " node 0", ['"x"', '"[a:b]"']),
    ("isolated", " node 0", ["true"]),
    ("locks", " node 0", ["[]", '["x"]']),
    ("before_all", " node 0", ["[]", "[[]]", '[["x"]]']),
    ("after_all", " node 0", ["[]", "[[]]", '[["x"]]']),
    ("before_each", " node 0", ["[]", "[[]]", '[["x"]]']),
    ("after_each", " node 0", ["[]", "[[]]", '[["x"]]']),
]

# A value of each type, and arrays that mix them.
VALUES = [
    '"x"', '"[a:b]"', "1", "0x1", "1.5", "inf", "nan", "true", "1979-05-27", "07:32:00", "1979-05-27T07:32:00Z", "{}",
    '{ x = "y" }', "[]", '["x"]', "[1]", "[true]", '["x", 1]', "[{}]", "[[]]", '[["x"]]', "[[1]]", '[["x"], "x"]',
    '[[["x"]]]', '[["x", []]]',
]  # fmt: skip

# What `key` and `node` may be beside an empty array: [{}] is an array of tables, and the fault is in that table.
TABLES = "[{}]"


def field_of_another_type(field, place, value):
    if place == "":
        return f"{field} = {value}\n"
    if place == " key 0":
        return key(f"{field} = {value}" + ("" if field == "label" else '\nlabel = "a"'))
    return node(f"{field} = {value}" + ("" if field == "id" else '\nid = "[a:b]"'))


def fields_of_another_type():
    for field, place, own in FIELDS:
        for value in VALUES:
            if value not in own and not (place == "" and value == TABLES):
                text = field_of_another_type(field, place, value)
                yield f"{field} = {value}", text, f"plan: P4{place}"


def test_below(steps):
    """A plan of the keys `a` and `up` and of three nodes, whose last, three contexts deep, is a test of these steps."""
    return A + key('label = "up"') + ROOT + CHILD + node(f'id = "[a:b]/[c:d]/[e:f]"\ntest = [{steps}]')


# Texts that are no step of such a test.
NO_STEPS = [
    "", " ", "put", "put a", "put a x y", "put  a x", "put a  x", " put a x", "put a x ", "Put a x", "put? a x",
    "none", "none a x", "remove a ", "compute a", "compute!! a x", "computefail a", "fail", "fail ", "fail x y",
    "fail x up 1", "abort x up 1", "abort up 1", "put a x up", "put a up 1", "put a x up 0", "put a x up 01",
    "put a x up +1", "put a x up 16", "put a x up x", "put a x down 1", "put a x  up 1", "put a x up  1", "put a x up 1 ",
    "put a x up 3", "put a x up 15", "none a up", "none a up 3", "none a up 1 1", "remove a up 0",
]  # fmt: skip


# The line of the fault, and the plan.
PLANS = [
    # Bytes that are no UTF-8, and texts that are no TOML.
    ("plan: P1", b"# \xc0\x80\n"),
    ("plan: P1", b"# \xed\xa0\x80\n"),
    ("plan: P1", b"# \xf4\x90\x80\x80\n"),
    ("plan: P1", b"# \xe2\x82"),
    ("plan: P1", b"[[node\n\xff"),
    ("plan: P1", b"\xff\xfe[\0[\0"),
    ("plan: P1", b"\xff" * LIMIT),
    ("plan too long", b"\xff" * (LIMIT + 1)),
    ("plan: P2", "\0"),
    ("plan: P2", "x"),
    ("plan: P2", "= 1"),
    ("plan: P2", "x = "),
    ("plan: P2", "x = 1 y = 2"),
    ("plan: P2", "x = 01"),
    ("plan: P2", "x = 1979-02-30"),
    ("plan: P2", "x = 07:60:00"),
    ("plan: P2", "x = 9223372036854775808"),
    ("plan: P2", 'x = "\\q"'),
    ("plan: P2", 'x = "\\ud800"'),
    ("plan: P2", 'x = "a\nb"'),
    ("plan: P2", 'x = "\x7f"'),
    ("plan: P2", 'x = """a'),
    ("plan: P2", "x = [1"),
    ("plan: P2", "x = {a = 1"),
    ("plan: P2", "x = {a = 1, a = 2}"),
    ("plan: P2", "x.y = 1\nx = 2"),
    ("plan: P2", "# a\rb\n"),
    ("plan: P2", "[key]\n[[key]]\n"),
    ("plan: P2", "key = []\n[[key]]\n"),
    ("plan: P2", 'key = [{ label = "a" }]\n[[key]]\nlabel = "b"\n'),
    ("plan: P2", key('label = "a"\nlabel = "a"')),
    ("plan: P2", "keep_faults = true\nkeep_faults = true\n" + ROOT),
    ("plan: P2", "keep_faults = True\n" + ROOT),
    ("plan: P2", node('id = "[a:b]"\n"id" = "[a:b]"')),
    ("plan: P2", "\n\ufeff" + ROOT),
    ("plan: P2", "x = " + "[" * 1_000_000),
    ("plan: P2", "x = " + "{a=" * 300_000),
    ("plan: P2", "x" + ".a" * 500_000 + " = 1"),
    ("plan: P2", "[x" + ".a" * 500_000 + "]"),
    ("plan: P2", "[[node"),
    # Fields that are none, whatever they hold.
    ("plan: P3", "x = 1"),
    ("plan: P3", "x = 1.5"),
    ("plan: P3", "when = 1979-05-27"),
    ("plan: P3", "Key = []"),
    ("plan: P3", '"" = 1'),
    ("plan: P3", "Keys = 64"),
    ("plan: P3", "[[nodes]]"),
    ("plan: P3", "nodes.key = 1"),
    ("plan: P3", "keep_fault = true\n" + ROOT),
    ("plan: P3", "keep-faults = true\n" + ROOT),
    ("plan: P3 key 0", key('label = "a"\nkeep_faults = true')),
    ("plan: P3 node 0", ROOT + "keep_faults = true\n"),
    ("plan: P3", '"key " = []'),
    ("plan: P3 key 0", key('label = "a"\nvalue = 1.5')),
    ("plan: P3 key 0", key("label = 1\nparts = []")),
    ("plan: P3 node 0", node('id = "[a:b]"\nparallel = true')),
    ("plan: P3 node 0", node('id = "[a:b]"\nbefore = []')),
    ("plan: P3 node 0", root("before_every = []\nmode = 1")),
    ("plan: P3 key 0", key('label = "a"\n"Label" = "a"')),
    ("plan: P3 key 0", key('label = "a"\nparts.x = 1')),
    ("plan: P3 key 1", A + key('label = "b"\nid = "[a:b]"')),
    ("plan: P3 node 0", node('id = "[a:b]"\nlabel = "a"')),
    ("plan: P3 node 0", node('id = "[a:b]"\nsince = 07:32:00')),
    ("plan: P3 node 0", node('id = "[a:b]"\ntest.x = 1\ntests = []')),
    ("plan: P3 node 1", ROOT + node('id = "[a:b]/[c:d]"\n[node.x]')),
    # Dotted keys and tables that make a table of what is an array or a text, and fields that are left out.
    ("plan: P4", "keep_faults = 1\n" + ROOT),
    ("plan: P4", 'keep_faults = "true"\n' + ROOT),
    ("plan: P4", "keep_faults = [{}]\n" + ROOT),
    ("plan: P4", "keep_faults.x = true\n" + ROOT),
    ("plan: P4", "[keep_faults]\nx = true\n" + ROOT),
    ("plan: P4", "[keys]"),
    ("plan: P4", '[[keys]]\nlabel = "a"\n'),
    ("plan: P4", "keys = 0\n" + ROOT),
    ("plan: P4", "keys = -1\n" + ROOT),
    ("plan: P4", "keys = 1025\n" + ROOT),
    ("plan: P4", "keys = 9223372036854775807\n" + ROOT),
    ("plan: P4", 'key.label = "a"'),
    ("plan: P4", 'node.id = "[a:b]"'),
    ("plan: P4", '[key]\nlabel = "a"'),
    ("plan: P4", '[node]\nid = "[a:b]"'),
    ("plan: P4", "[[node.id]]"),
    ("plan: P4 key 0", "[[key]]"),
    ("plan: P4 key 0", key('name = "a"')),
    ("plan: P4 key 0", key('label = ""\nname = []')),
    ("plan: P4 node 0", "[[node]]"),
    ("plan: P4 node 0", A + key('label = "b"\nname = "a"') + "[[node]]"),
    ("plan: P4 node 0", root('after_all = ["put a x"]')),
    ("plan: P4 node 0", root("before_each = [[], [1]]")),
    ("plan: P4", '[key.a]\nlabel = "a"'),
    ("plan: P4", 'node = [{ id = "[a:b]" }, 1]'),
    ("plan: P4 key 0", key('label.x = "a"')),
    ("plan: P4 key 0", key('label = "a"\n[key.namespace]')),
    ("plan: P4 key 0", key('label = "a"\n[[key.namespace]]')),
    ("plan: P4 key 1", A + key('name = "b"')),
    ("plan: P4 node 0", node('id.x = "[a:b]"')),
    ("plan: P4 node 0", node('id = "[a:b]"\n[node.test]')),
    ("plan: P4 node 0", node("test = []")),
    ("plan: P4 node 1", ROOT + node("mode = 1\ntest = []")),
    ("plan: P4 node 0", root("repeat = 2")),
    ("plan: P4 node 0", root("test = []\nrepeat = 0")),
    ("plan: P4 node 0", root("test = []\nrepeat = -1")),
    ("plan: P4 node 0", root("test = []\nrepeat = 65536")),
    ("plan: P4 node 0", root("test = []\nrepeat = 9223372036854775807")),
    ("plan: P4 node 0", root("repeat = 0\nbefore_all = []") + node("x = 1")),
    # Labels and namespaces.
    ("plan: P5 key 0", key('label = ""')),
    ("plan: P5 key 0", key('label = "a b"')),
    ("plan: P5 key 0", key('label = "a"\nnamespace = []')),
    ("plan: P5 key 1", A + key('label = "a"\nname = "b"')),
    ("plan: P6 node 0", node('id = "[engine:a+b]"')),
    ("plan: P5 key 0", key('label = " "')),
    ("plan: P5 key 0", key('label = "a "')),
    ("plan: P5 key 0", key('label = " a"')),
    ("plan: P5 key 0", key('label = "a b"\nnamespace = []')),
    ("plan: P5 key 2", A + key('label = "b"') + key('label = "\\u0061"')),
    ("plan: P5 key 1", A + key('label = "b"\nname = "a"\nnamespace = []')),
    # Trees.
    ("plan: P7", ""),
    ("plan: P7", A),
    ("plan: P7", node('id = "[a:b]/[c:d]"')),
    ("plan: P7", ROOT + node('id = "[a:c]"')),
    ("plan: P7", ROOT + ROOT),
    ("plan: P7", ROOT + CHILD + CHILD),
    ("plan: P7", ROOT + node('id = "[a:b]/[c:d]/[e:f]"')),
    ("plan: P7", ROOT + node('id = "[a:b]/[c:d]/[e:f]"') + CHILD),
    ("plan: P7", node('id = "[a:b]"\ntest = ["no step"]') + node('id = "[a:c]"')),
    ("plan: P7", node('id = "[a:b]/[c:d]"') + ROOT),
    ("plan: P7", ROOT + CHILD + ROOT),
    ("plan: P7", ROOT + CHILD + node('id = "[a:c]"')),
    ("plan: P7", ROOT + node('id = "[a:b]/[c:%3A]"') + node('id = "[a:b]/[c:%3A]"')),
    ("plan: P7", ROOT + node('id = "[a:c]/[c:d]"')),
    ("plan: P7", ROOT + CHILD + node('id = "[a:b]/[d:c]/[e:f]"')),
    # Repeated tests: ids of 17 segments, more than 256 nodes, ids that a repetition has, and nodes below one. The number of a
    # fault is that of the table.
    ("plan: P6 node 15", nodes_of(deep(16)) + "test = []\nrepeat = 1\n"),
    ("plan: P7", root("test = []\nrepeat = 256")),
    ("plan: P7", root("test = []\nrepeat = 65535") + REPETITION),
    ("plan: P7", "".join(node(f'id = "[a:b]/[c:{number}]"\ntest = []\nrepeat = 65535') for number in range(10_000))),
    ("plan: P7", root("test = []\nrepeat = 1") + REPETITION),
    ("plan: P7", ROOT + node('id = "[a:b]/[test-template-invocation:#1]/[c:d]"')),
    ("plan: P10 node 0", root("test = []\nrepeat = 1") + node('id = "[a:b]/[test-template-invocation:#1]/[c:d]"')),
    ("plan: P9 node 0", root('test = []\nmode = "fast"\nrepeat = 3')),
    ("plan: P8 node 0", root('test = ["none a up 2"]\nrepeat = 3')),
    ("plan: P8 node 0", root('test = []\nrepeat = 3\nbefore_all = [["none a up 1"]]')),
    ("plan: P8 node 0", root('test = []\nrepeat = 3\nbefore_each = [["none a up 2"]]')),
    ("plan: P8 node 1", root("test = []\nrepeat = 100") + node('id = "[a:b]/[c:d]"\ntest = ["no step"]')),
    # Tests that have what a test may not.
    ("plan: P10 node 0", node('id = "[a:b]"\ntest = []') + CHILD),
    ("plan: P10 node 0", node('id = "[a:b]"\ntest = ["no step"]') + CHILD),
    ("plan: P10 node 0", root("test = []\nbefore_all = []")),
    ("plan: P10 node 0", root('test = []\nafter_all = [["fail x"]]')),
    # Steps that are spelled otherwise, beside NO_STEPS, and those of callbacks.
    ("plan: P8 node 0", test('"put a"')),
    ("plan: P8 node 0", test('"none a up 1"')),
    ("plan: P8 node 0", root('after_each = [["fail x"], ["fail"]]')),
    ("plan: P8 node 0", root('before_all = [["none a up 1"]]')),
    ("plan: P8 node 0", root('after_all = [["none a up 1"]]')),
    ("plan: P8 node 0", root('test = []\nbefore_each = [["none a up 1"]]')),
    (
        "plan: P8 node 1",
        ROOT + node('id = "[a:b]/[c:1]"\ntest = ["no step"]') + node('id = "[a:b]/[c:2]"\ntest = []') + node('id = "[a:b]/[c:2]/[d:e]"'),
    ),
    ("plan: P8 node 0", test('"put a x up 1"')),
    ("plan: P8 node 0", test('"want a x up 1"')),
    ("plan: P8 node 0", test('"put\\ta x"')),
    ("plan: P8 node 0", test('"put a\\nx"')),
    ("plan: P8 node 0", test('"put\u00a0a x"')),
    ("plan: P8 node 0", test('"\ufeffput a x"')),
    ("plan: P8 node 0", test('"put a x y z"')),
    ("plan: P8 node 0", test('"put a x up 1 1"')),
    ("plan: P8 node 0", test('"put a x up 99999999999999999999"')),
    ("plan: P8 node 0", test('"put a x up \u0661"')),
    ("plan: P8 node 0", test('"fail! x"')),
    ("plan: P8 node 0", test('"want! a x"')),
    ("plan: P8 node 0", test('"computefail! a x"')),
    ("plan: P8 node 0", test('"put a x", "want a x", "none"')),
    ("plan: P8 node 0", root('before_all = [["none a"], ["none"]]')),
    # Modes and locks.
    ("plan: P9 node 0", root('mode = "Concurrent"')),
    ("plan: P9 node 0", root('mode = ""')),
    ("plan: P9 node 0", root('locks = [""]')),
    ("plan: P9 node 0", root('locks = ["READ"]')),
    ("plan: P9 node 0", root('locks = ["READ "]')),
    ("plan: P9 node 0", root('locks = [" READ"]')),
    ("plan: P9 node 0", root('locks = ["READ  db"]')),
    ("plan: P9 node 0", root('locks = ["READ db x"]')),
    ("plan: P9 node 0", root('locks = ["WRITE db"]')),
    ("plan: P9 node 0", root('locks = ["read db"]')),
    ("plan: P9 node 0", root('mode = "fast"')),
    ("plan: P9 node 0", root('mode = "concurrent "')),
    ("plan: P9 node 0", root('locks = ["READ a", "READ\\tb"]')),
    ("plan: P9 node 0", root('locks = ["READ_WRITE"]')),
    ("plan: P9 node 1", ROOT + node('id = "[a:b]/[c:d]"\nlocks = ["READ READ WRITE"]')),
    # Which fault is told of two.
    ("plan: P4 node 0", root('mode = "no mode"\nbefore_all = [1]')),
    ("plan: P10 node 0", root('test = []\nbefore_all = []\nmode = "no mode"')),
    ("plan: P10 node 0", root('test = []\nafter_all = []\nbefore_each = [["no step"]]')),
    ("plan: P9 node 0", root('mode = "no mode"\nbefore_all = [["no step"]]')),
    ("plan: P9 node 0", root('locks = ["no"]\nafter_each = [["no step"]]')),
    ("plan: P9 node 0", root('test = ["put a"]\nlocks = ["READ"]')),
    ("plan: P3", "key = 1\nx = 1"),
    ("plan: P3", "keep_faults = 1\nkeep_fault = 1"),
    ("plan: P4", "keep_faults = 1\n" + key("x = 1")),
    ("plan: P4", "keys = 0\n" + key("x = 1")),
    ("plan: P7", "keep_faults = true\n"),
    ("plan: P4", "key = 1\n" + node('id = "[a"')),
    ("plan: P4", "node = 1\n" + key("x = 1")),
    ("plan: P5 key 0", key('label = ""') + key("x = 1")),
    ("plan: P3 key 1", A + key("x = 1") + node("x = 1")),
    ("plan: P6 node 0", node('id = "[a"') + node("x = 1")),
    ("plan: P3 node 1", ROOT + node("id = 1\nx = 1")),
    ("plan: P6 node 1", ROOT + node('id = "[a"\nmode = "fast"')),
    ("plan: P4 node 1", node('id = "[c:d]/[e:f]"') + node('id = "[a"\nmode = 1')),
    ("plan: P10 node 1", ROOT + node('id = "[a:b]/[c:d]"\ntest = ["x"]\nbefore_all = []\nlocks = ["x"]')),
    ("plan: P9 node 0", root('test = ["x"]\nlocks = ["x"]')),
    ("plan: P8 node 1", ROOT + node('id = "[a:b]/[c:d]"\ntest = ["x"]') + node('id = "[a:b]/[e:f]"\nmode = "fast"')),
]

# Texts that are no id, each with its fault: where a segment begins, in a type, in a value, after a segment.
IDS = [
    ("", "I1"), (" [a:b]", "I2 at 0"), ("a:b", "I2 at 0"), ("[a:b]/", "I2 at 6"), ("[a:b]//[c:d]", "I2 at 6"),
    ("[a:b]/c", "I2 at 6"), ("[", "I3 at 1"), ("[]", "I3 at 1"), ("[ab", "I3 at 3"), ("[ab]", "I3 at 3"),
    ("[größe]", "I3 at 8"), ("[a+:b]", "I6 at 2"), ("[[a:b]", "I6 at 1"), ("[a/b:c]", "I6 at 2"), ("[:b]", "I7 at 1"),
    ("[a:", "I4 at 3"), ("[a:b", "I4 at 4"), ("[a:b/", "I6 at 4"), ("[a:b+c]", "I6 at 4"), ("[a:b[c]", "I6 at 4"),
    ("[a:b:c]", "I6 at 4"), ("[a:]", "I7 at 3"), ("[a%:b]", "I5 at 2"), ("[a%2:b]", "I5 at 2"), ("[%41:b]", "I5 at 1"),
    ("[a:%2b]", "I5 at 3"), ("[a:%", "I5 at 3"), ("[a:b%5]", "I5 at 4"), ("[a:%2F%2f]", "I5 at 6"), ("[a:b] ", "I6 at 5"),
    ("[a:b][c:d]", "I6 at 5"), ("[a:b]:", "I6 at 5"), ("/".join(["[a:b]"] * 17), "I8"), ("[a:b]/" * 16, "I8"),
    ("/".join(["[a:b]"] * 15 + ["[a+:b]"]), "I6 at 92"), ("[a:b]]", "I6 at 5"),
]  # fmt: skip


# Texts that are ids, with the lines of each.
READ_IDS = [
    ("[engine:x]/[class:a%2Fb]", "engine x\nclass a/b\n[engine:x]/[class:a%2Fb]\n"),
    ("[%25%2B%5B:%5D%3A%2F]/[größe:日本 %25%25]", "%+[ ]:/\ngröße 日本 %%\n[%25%2B%5B:%5D%3A%2F]/[größe:日本 %25%25]\n"),
    ("/".join(["[a:b]"] * 16), "a b\n" * 16 + "/".join(["[a:b]"] * 16) + "\n"),
]

# Parts of ids, with the id that they make or the fault of the first that is none.
PARTS = [
    (["engine=x", "class=a/b"], "[engine:x]/[class:a%2Fb]\n"),
    (["engine=x", "case=case[1]"], "[engine:x]/[case:case%5B1%5D]\n"),
    (["%+[=]:/", "größe=日本 %%"], "[%25%2B%5B:%5D%3A%2F]/[größe:日本 %25%25]\n"),
    (["a=b=c"], "[a:b=c]\n"),
    (["a=b"] * 16, "/".join(["[a:b]"] * 16) + "\n"),
    (["a=b"] * 17, "id: more than 16 parts"),
    (["a=b"] * 16 + [""], "id: more than 16 parts"),
    (["a"], "id: part 0 has no value"),
    (["a="], "id: part 0 has no value"),
    ([""], "id: part 0 has no type"),
    (["=b"], "id: part 0 has no type"),
    (["="], "id: part 0 has no type"),
    (["a=b", "c"], "id: part 1 has no value"),
    (["a=b", "=d"], "id: part 1 has no type"),
    (["a=", "=b"], "id: part 0 has no value"),
    (["a=b", "c=", "=d"] + ["e=f"] * 16, "id: part 1 has no value"),
]


def totals(tests, successful):
    ran = f"tests {tests} successful {successful} aborted 0 failed 0 skipped 0\n"
    return ran + "computed 0 found 0 closed 0 close faults 0\n"


def nodes_report(ids, tests=0):
    """The report of these nodes, all successful and none of which closes anything, of which so many are tests."""
    return "".join(f"{id} successful closed 0\n" for id in ids) + totals(tests, tests)


def many_keys(count):
    return "".join(key(f'label = "k{number}"') for number in range(count))


def flat(count):
    """The ids of a root and its children, so many in all."""
    return ["[a:b]"] + [f"[a:b]/[c:{number}]" for number in range(1, count)]


def locks(count):
    return node('id = "[a:b]"\nlocks = [' + ", ".join(f'"READ n{number}"' for number in range(count)) + "]")


def locks_and_one_of_all(count):
    """A node with so many names of locks, one of which stands beside each of the others."""
    return node('id = "[a:b]"\nlocks = [' + ", ".join(f'"READ n{number}", "READ all"' for number in range(1, count)) + "]")


# A key that is the seventh of `many_keys` again, and one whose namespace alone tells it from that.
SEVENTH_AGAIN = key('label = "again"\nname = "k7"')
SEVENTH_IN_A_NAMESPACE = key('label = "other"\nname = "k7"\nnamespace = ["k7"]')


def puts(count, *steps):
    """The chain with a test of so many puts of one key, and of these steps after them."""
    return A + nodes_of(CHAIN_IDS) + "test = [" + ",".join(['"put a x"'] * count + [f'"{step}"' for step in steps]) + "]\n"


CHAIN_IDS = ["[engine:x]", "[engine:x]/[class:A]", "[engine:x]/[class:A]/[method:m()]"]


def failed_last(ids, fault):
    """The report of these nodes, the last of which is a test that failed with this fault."""
    report = nodes_report(ids, 1).replace(f"{ids[-1]} successful closed 0\n", f"{ids[-1]} failed closed 0: {fault}\n")
    return report.replace("successful 1 aborted 0 failed 0", "successful 0 aborted 0 failed 1")


def numbers_full(step):
    """The report of the chain whose test ends with this step, for which there is no number."""
    return failed_last(CHAIN_IDS, f"{step}: numbers full")


def undeclared(count, *steps):
    """A plan of one test, without a key, that looks up so many different keys, and then makes these steps."""
    looks = [f'"none k{number}"' for number in range(count)]
    return ROOT + "test = [" + ", ".join(looks + [f'"{step}"' for step in steps]) + "]\n"


def directory_full(step):
    """The report of one test that ends with this step, for whose key there is no place."""
    return failed_last(["[a:b]"], f"{step}: directory full")


FAULT_AFTER_PUTS = puts(65_535, "remove a", "computefail a t")


# Limits: the plan at the limit with its report, and one past it with its line.
LIMITS = [
    ("64 keys, one with two labels", many_keys(64) + SEVENTH_AGAIN + ROOT, nodes_report(["[a:b]"])),
    ("65 keys, one by its namespace", many_keys(64) + SEVENTH_IN_A_NAMESPACE + ROOT, "plan: P11"),
    ("64 keys, and a step of another", many_keys(64) + ROOT + 'test = ["none other"]\n', nodes_report(["[a:b]"], 1)),
    (
        "256 nodes, of which 255 are repetitions",
        node('id = "[a:b]"\ntest = ["none a up 1"]\nrepeat = 255'),
        nodes_report(["[a:b]"] + [f"[a:b]/[test-template-invocation:#{number}]" for number in range(1, 256)], 255),
    ),
    (
        "a repetition of 16 segments",
        nodes_of(deep(15)) + 'test = ["none a up 15"]\nrepeat = 1\n',
        nodes_report(deep(15) + [deep(15)[-1] + "/[test-template-invocation:#1]"], 1),
    ),
    ("65 keys, and no step", many_keys(65) + ROOT + 'test = ["no step"]', "plan: P8 node 0"),
    ("64 undeclared keys", undeclared(64), nodes_report(["[a:b]"], 1)),
    ("64 undeclared keys and a declared one", A + undeclared(64, "none a"), directory_full("none a")),
    ("65 undeclared keys", undeclared(64, "none z"), directory_full("none z")),
    ("65 undeclared keys, a remove of the last", undeclared(64, "remove z"), directory_full("remove z")),
    ("65 undeclared keys, a want of the last", undeclared(64, "want z x"), directory_full("want z")),
    ("65 undeclared keys, a put of the last", undeclared(64, "put z x"), directory_full("put z")),
    ("65 undeclared keys, a compute of the last", undeclared(64, "compute! z x"), directory_full("compute! z")),
    ("65 undeclared keys, a fault for the last", undeclared(64, "computefail z x"), directory_full("computefail z")),
    ("keys = 1, 32 undeclared keys", "keys = 1\n" + undeclared(32), nodes_report(["[a:b]"], 1)),
    ("keys = 1, 33 undeclared keys", "keys = 1\n" + undeclared(32, "none z"), directory_full("none z")),
    ("keys = 65, 96 undeclared keys", "keys = 65\n" + undeclared(96), nodes_report(["[a:b]"], 1)),
    ("keys = 65, 97 undeclared keys", "keys = 65\n" + undeclared(96, "none z"), directory_full("none z")),
    ("1,024 undeclared keys", "keys = 1024\n" + undeclared(1024), nodes_report(["[a:b]"], 1)),
    ("1,025 undeclared keys", "keys = 1024\n" + undeclared(1024, "none z"), directory_full("none z")),
    ("keys = 1024, 1,024 declared keys", "keys = 1024\n" + many_keys(1024) + ROOT, nodes_report(["[a:b]"])),
    ("keys = 1024, 1,025 declared keys", "keys = 1024\n" + many_keys(1025) + ROOT, "plan: P11"),
    ("keys = 1, 33 declared keys", "keys = 1\n" + many_keys(33) + ROOT, "plan: P11"),
    ("64 undeclared keys, the first one again", undeclared(64, "none k0"), nodes_report(["[a:b]"], 1)),
    ("256 nodes and no key", nodes_of(flat(256)), nodes_report(flat(256))),
    ("63 names of locks, one of them often", locks_and_one_of_all(63), nodes_report(["[a:b]"])),
    ("64 names of locks, one of them often", locks_and_one_of_all(64), "plan: P11"),
    ("1,048,576 spaces", " " * LIMIT, "plan: P7"),
    ("1,048,577 spaces", " " * (LIMIT + 1), "plan too long"),
    ("65,535 numbers", puts(65_535), nodes_report(CHAIN_IDS, 1)),
    ("65,536 puts", puts(65_536), numbers_full("put a")),
    ("65,535 numbers and a fault that is kept", "keep_faults = true\n" + FAULT_AFTER_PUTS, numbers_full("computefail a")),
    ("65,535 numbers and a fault that is not kept", FAULT_AFTER_PUTS, nodes_report(CHAIN_IDS, 1)),
    ("64 keys", many_keys(64) + ROOT, nodes_report(["[a:b]"])),
    ("65 keys", many_keys(65) + ROOT, "plan: P11"),
    ("96 keys where 65 are asked for", "keys = 65\n" + many_keys(96) + ROOT, nodes_report(["[a:b]"])),
    ("97 keys where 65 are asked for", "keys = 65\n" + many_keys(97) + ROOT, "plan: P11"),
    ("33 keys where 1 is asked for", "keys = 1\n" + many_keys(33) + ROOT, "plan: P11"),
    ("1,024 keys", "keys = 1024\n" + many_keys(1024) + ROOT, nodes_report(["[a:b]"])),
    ("1,025 keys", "keys = 1024\n" + many_keys(1025) + ROOT, "plan: P11"),
    ("1,024 undeclared keys", "keys = 1024\n" + undeclared(1024), nodes_report(["[a:b]"], 1)),
    ("1,025 undeclared keys", "keys = 1024\n" + undeclared(1024, "none z"), directory_full("none z")),
    ("33 undeclared keys where 1 is asked for", "keys = 1\n" + undeclared(32, "put z x"), directory_full("put z")),
    ("256 nodes and 64 keys", many_keys(64) + nodes_of(flat(256)), nodes_report(flat(256))),
    ("256 nodes and 1,024 keys", "keys = 1024\n" + many_keys(1024) + nodes_of(flat(256)), nodes_report(flat(256))),
    ("257 nodes and no key", nodes_of(flat(257)), "plan: P7"),
    ("63 names of locks", locks(63), nodes_report(["[a:b]"])),
    ("64 names of locks", locks(64), "plan: P11"),
    ("16 segments", nodes_of(deep(16)), nodes_report(deep(16))),
    ("17 segments", nodes_of(deep(17)), "plan: P6 node 16"),
    ("up 15", A + nodes_of(deep(16)) + 'test = ["none a up 15"]\n', nodes_report(deep(16), 1)),
    ("up 16", A + nodes_of(deep(16)) + 'test = ["none a up 16"]\n', "plan: P8 node 15"),
    ("five words", A + ROOT + node('id = "[a:b]/[c:d]"\ntest = ["put a x up 1"]'), nodes_report(flat(1) + ["[a:b]/[c:d]"], 1)),
    ("1,048,576 bytes", ROOT + "#" * (LIMIT - len(ROOT)), nodes_report(["[a:b]"])),
    ("1,048,577 bytes", ROOT + "#" * (LIMIT + 1 - len(ROOT)), "plan too long"),
]

# Plans whose steps name keys that are not declared, which are keys of the global namespace.
UNDECLARED = [
    ("a put and a want", nodes_of(CHAIN_IDS) + 'test = ["put q x", "want q x"]\n', nodes_report(CHAIN_IDS, 1)),
    ("a key in quotes is another", test('"put \'a\' x", "none a"'), nodes_report(["[a:b]"], 1)),
    ("a key in capitals is another", test('"put A x", "none a"'), nodes_report(["[a:b]"], 1)),
    ("a key in a callback that never runs", root('before_each = [["put b x"]]'), nodes_report(["[a:b]"])),
    ("a look-up in a plan without keys", node('id = "[a:b]"\ntest = ["none a"]'), nodes_report(["[a:b]"], 1)),
    ("the name of a label", key('label = "a"\nname = "b"') + ROOT + 'test = ["put a x", "want b x"]\n', nodes_report(["[a:b]"], 1)),
    (
        "a label before a name",
        key('label = "a"\nname = "b"') + key('label = "b"\nname = "c"') + ROOT + 'test = ["put b x", "want c x", "none a"]\n',
        nodes_report(["[a:b]"], 1),
    ),
    ("a label that names another", key('label = "a"\nname = "b"') + ROOT + 'test = ["put b x", "want a x", "want b x"]\n', nodes_report(["[a:b]"], 1)),
    ("the name of a label in a namespace", key('label = "a"\nname = "b"\nnamespace = ["n"]') + ROOT + 'test = ["put a x", "none b"]\n', nodes_report(["[a:b]"], 1)),
]

# A callback of a class with a step that goes up so far, the ids that stand below the class `[a:b]/[c:1]` or beside it, with which of them are tests, and
# whether the step stays below the root wherever it runs.
UPS = [
    # Round a test that stands two below the class, as deep as the path of the test, and not of the class.
    ("before_each", 3, ["/[c:d]", "/[c:d]/[e:f] test"], True),
    ("before_each", 4, ["/[c:d]", "/[c:d]/[e:f] test"], False),
    ("after_each", 3, ["/[c:d]", "/[c:d]/[e:f] test"], True),
    ("after_each", 4, ["/[c:d]", "/[c:d]/[e:f] test"], False),
    # The shallowest of two tests decides, wherever it stands.
    ("before_each", 3, ["/[c:d]", "/[c:d]/[e:f] test", "/[c:e] test"], False),
    ("after_each", 2, ["/[c:e] test", "/[c:d]", "/[c:d]/[e:f] test"], True),
    # A test beside the class has no part in it, be its id longer by letters alone.
    ("before_each", 3, ["/[c:d]", "/[c:d]/[e:f] test", "1 test"], True),
    # Without a test they never run.
    ("before_each", 15, ["/[c:d]", "/[c:d]/[e:f]"], True),
    ("before_each", 16, ["/[c:d]", "/[c:d]/[e:f]"], False),
    # Before and after all they run on the class itself.
    ("before_all", 1, ["/[c:d] test"], True),
    ("after_all", 2, ["/[c:d] test"], False),
]


def plan_going_up(callback, levels, ends):
    """A plan whose class has this callback, and the nodes whose ids end so."""
    plan = A + ROOT + node(f'id = "[a:b]/[c:1]"\n{callback} = [["none a up {levels}"]]')
    for end in ends:
        name, test, _ = end.partition(" test")
        id = "[a:b]/[c:11]" if name == "1" else f"[a:b]/[c:1]{name}"
        plan += node(f'id = "{id}"' + ("\ntest = []" if test else ""))
    return plan


# A chain of three contexts, in pieces: what a plan answers that ends within the piece, and behind it.
CHAIN = [
    ("[[key]]", "plan: P2", "plan: P4 key 0"),
    ("\n", None, "plan: P4 key 0"),
    ('label = "a"', "plan: P2", "plan: P7"),
    ("\n", None, "plan: P7"),
    ("\n", None, "plan: P7"),
    ("[[node]]", "plan: P2", "plan: P4 node 0"),
    ("\n", None, "plan: P4 node 0"),
    ('id = "[engine:x]"', "plan: P2", nodes_report(CHAIN_IDS[:1])),
    ("\n", None, nodes_report(CHAIN_IDS[:1])),
    ("\n", None, nodes_report(CHAIN_IDS[:1])),
    ("[[node]]", "plan: P2", "plan: P4 node 1"),
    ("\n", None, "plan: P4 node 1"),
    ('id = "[engine:x]/[class:A]"', "plan: P2", nodes_report(CHAIN_IDS[:2])),
    ("\n", None, nodes_report(CHAIN_IDS[:2])),
    ("\n", None, nodes_report(CHAIN_IDS[:2])),
    ("[[node]]", "plan: P2", "plan: P4 node 2"),
    ("\n", None, "plan: P4 node 2"),
    ('id = "[engine:x]/[class:A]/[method:m()]"', "plan: P2", nodes_report(CHAIN_IDS)),
    ("\n", None, nodes_report(CHAIN_IDS)),
    ('test = ["put a x", "want a x"]', "plan: P2", nodes_report(CHAIN_IDS, 1)),
    ("\n", None, nodes_report(CHAIN_IDS, 1)),
]

CHAIN_TEXT = "".join(piece for piece, _, _ in CHAIN)

# The same plan, spelled otherwise.
SPELLINGS = [
    ("lines that end with CR LF", CHAIN_TEXT.replace("\n", "\r\n")),
    ("a byte order mark", "\ufeff" + CHAIN_TEXT),
    ("comments and no last line feed", "# a\n" + CHAIN_TEXT.rstrip("\n") + " # b"),
    ("quoted fields", CHAIN_TEXT.replace("id =", '"id" =').replace("label", "'label'").replace("[[node]]", '[["node"]]')),
    ("escaped fields", CHAIN_TEXT.replace("id =", '"\\u0069d" =').replace("[[key]]", '[[ "ke\\u0079" ]]')),
    ("literal texts", CHAIN_TEXT.replace('"', "'")),
    ("texts of several lines", CHAIN_TEXT.replace('"', '"""')),
    ("nodes before keys", CHAIN_TEXT[len(A) + 1 :] + A),
    (
        "arrays of inline tables",
        'node = [{ id = "[engine:x]" }, { id = "[engine:x]/[class:A]" }, '
        '{ test = ["put a x", "want a x"], id = "[engine:x]/[class:A]/[method:m()]" }]\nkey = [{ label = "a" }]\n',
    ),
]


def cut_plans():
    """The chain cut after each of its bytes, with what has to come out."""
    yield "plan: P7", ""
    end = 0
    for piece, within, behind in CHAIN:
        for _ in piece[1:]:
            end += 1
            yield within, CHAIN_TEXT[:end]
        end += 1
        yield behind, CHAIN_TEXT[:end]


# The lines behind which stands what they mean, such a sentence, and that of a run whose keys have no place.
EXPLAINED = re.compile(r"plan: P\d|plan too long|id: I\d")

SENTENCE = re.compile(rb"(the plan|the id|(node|key) \d+)(: | ).+\n")

FULL_KEYS = re.compile(rb"the plan: its steps name (more than 1024|\d+) different keys, .+\n")


class Cases:
    """Runs cases and counts them."""

    def __init__(self, program):
        self.program = program
        self.passed = 0
        self.failed = 0

    def ran(self, words, plan, seconds=120):
        """What the program does with the plan in so many seconds."""
        bytes_of = plan if isinstance(plan, bytes) else plan.encode()
        return subprocess.run([self.program, *words], input=bytes_of, capture_output=True, timeout=seconds)

    def run(self, name, words, plan, wanted, told="", seconds=120):
        """A case: what is wanted is a report, and what is told beside it, or else the line of a refusal."""
        ran = self.ran(words, plan, seconds)
        is_line = not wanted.endswith("\n")
        status = 2 if is_line else 1 if " failed closed " in wanted else 0
        report, errors = ("", f"{wanted}\n") if is_line else (wanted, told)
        right = (ran.returncode, ran.stdout) == (status, report.encode()) and ran.stderr.startswith(errors.encode())
        # Behind this stands what it means, in one line.
        why = ran.stderr[len(errors.encode()) :]
        if is_line and EXPLAINED.match(wanted):
            right = right and SENTENCE.fullmatch(why)
        elif ": directory full\n" in wanted:
            right = right and FULL_KEYS.fullmatch(why)
        else:
            right = right and why == b""
        if right:
            print(f"case {name}: {wanted if is_line else 'its report'}")
            self.passed += 1
        else:
            print(f"case {name}: NOT as it has to be ({wanted}): status {ran.returncode}")
            print((ran.stdout + ran.stderr)[:500].decode(errors="replace"))
            self.failed += 1


def at_a_terminal(cases):
    """A case: without a word, and with a terminal for standard input, the program prints its help and ends."""
    master, terminal = pty.openpty()
    ran = subprocess.run([cases.program], stdin=terminal, capture_output=True, timeout=120)
    os.close(terminal)
    os.close(master)
    asked = subprocess.run([cases.program, "--help"], capture_output=True, timeout=120)
    if (ran.returncode, ran.stdout, ran.stderr) == (2, b"", asked.stdout):
        print("case no word at a terminal: the help")
        cases.passed += 1
    else:
        print(f"case no word at a terminal: NOT the help, with status 2: status {ran.returncode}")
        print((ran.stdout + ran.stderr)[:500].decode(errors="replace"))
        cases.failed += 1


def short(plan):
    """What a case's line shows of its plan."""
    text = repr(plan[:1000] if isinstance(plan, bytes) else plan[:1000].replace("\n", " "))
    return text if len(text) < 80 else f"{text[:30]} .. {text[-40:]}"


def main(program, _words):
    cases = Cases(program)
    for name, plan, line in fields_of_another_type():
        cases.run(name, ["run"], plan, line)
    for line, plan in PLANS:
        cases.run(short(plan), ["run"], plan, line)
    for step in NO_STEPS:
        cases.run(f"step {step!r}", ["run"], test_below(f'"want a x", "{step}"'), "plan: P8 node 2")
    for callback, levels, ends, stays in UPS:
        tests = sum(end.endswith(" test") for end in ends)
        below = sum(end.endswith(" test") and not end.startswith("1") for end in ends)
        keys = int(callback.endswith("_all") or below > 0)  # the callback runs
        wanted = f"ok, {len(ends) + 2} nodes, {tests} tests, {keys} of 64 keys\n" if stays else "plan: P8 node 1"
        cases.run(f"{callback} up {levels} with {ends}", ["check"], plan_going_up(callback, levels, ends), wanted)
    cases.run("a word that is no text", ["run", b"\xff"], "", "error: a word of the command line is not UTF-8")
    for text, lines in READ_IDS:
        cases.run(f"id {text!r}", ["id", "--", text], "", lines)
    for text, fault in IDS:
        cases.run(f"id {text!r}", ["id", "--", text], "", f"id: {fault}")
        cases.run(f"node {text!r}", ["run"], node(f'id = "{text}"'), "plan: P6 node 0")
    for parts, wanted in PARTS:
        cases.run(f"parts {parts}", ["id", "--make", "--", *parts], "", wanted)
    cases.run("two ids", ["id", "[a:b]", "[c:d]"], "", "error: one id is read; --make makes one of several parts")
    both = "error: the argument '--tree' cannot be used with '--races'"
    cases.run("check --tree --races", ["check", "--tree", "--races"], CHAIN_TEXT, both)
    cases.run("check --races - --tree", ["check", "--races", "-", "--tree"], CHAIN_TEXT, both)
    for other in ["--races", "--tree", "--all"]:
        both = f"error: the argument '--lint' cannot be used with '{other}'"
        cases.run(f"check --lint {other}", ["check", "--lint", other], CHAIN_TEXT, both)
        cases.run(f"check {other} - --lint", ["check", other, "-", "--lint"], CHAIN_TEXT, both)
    cases.run("run -", ["run", "-"], CHAIN_TEXT, nodes_report(CHAIN_IDS, 1))
    cases.run("check -", ["check", "-"], CHAIN_TEXT, "ok, 3 nodes, 1 tests, 1 of 64 keys\n")
    cases.run("no word", [], CHAIN_TEXT, nodes_report(CHAIN_IDS, 1))
    at_a_terminal(cases)
    for name, plan, wanted in LIMITS:
        cases.run(name, ["run"], plan, wanted)
        cases.run(f"{name}, as a plain run", ["run", "--store", "plain"], plan, wanted)
    for name, plan, wanted in UNDECLARED:
        cases.run(name, ["run"], plan, wanted)
        cases.run(f"{name}, as a plain run", ["run", "--store", "plain"], plan, wanted)
    for name, plan in SPELLINGS:
        cases.run(name, ["run"], plan, nodes_report(CHAIN_IDS, 1))
    for wanted, plan in cut_plans():
        cases.run(f"cut after {len(plan)} bytes", ["run"], plan, wanted)
    return cases.passed, cases.failed
