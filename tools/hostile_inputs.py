"""Inputs within the limits that are as deep or as long as they can be (for tools/hostile), or that grow (for tools/figures)."""
import collections

# Files by name; and lines of the program's words, each with the status that is due.
Made = collections.namedtuple("Made", "files lines")
HEAD = 'module m {\n  yang-version 1.1;\n  namespace "urn:m";\n  prefix m;\n'


def module(*lines):
    return HEAD + "".join(f"  {line}\n" for line in lines) + "}\n"


def every_command(text, document, edits, status=0):
    """The lines of all commands over a module, a document and edits."""
    files = {"m.yang": text, "deep.json": document, "deep.txt": edits}
    edit = "deep.json deep.txt m.yang"
    return Made(files, [
        ("compile --explain m.yang", 0),
        ("tree m m.yang", 0),
        ("validate --explain deep.json m.yang", status),
        ("validate --format json deep.json m.yang", status),
        (f"edit {edit}", status),
        (f"edit --explain --strict --output deep.out.json {edit}", status),
        (f"edit --config --format json {edit}", status),
    ])  # fmt: skip


def blocks(count):
    """Unions in unions, so many blocks deep, the module and its leaf counted."""
    inner = "type union { " * (count - 2) + "type string;" + " }" * (count - 2)
    return every_command(module(f"leaf l {{ {inner} }}"), '{"m:l":"x"}', 'replace /m:l "y"\n')


def levels(count):
    """Lists in lists, so many levels, the last of which is a leaf."""
    text = "".join(f"list l{n} {{ key k; leaf k {{ type string; }} " for n in range(count - 1)) + " }" * (count - 1)
    value = '{"k":"a"}'
    for n in range(count - 2, 0, -1):
        value = f'{{"k":"a","l{n}":[{value},{{"k":"a"}}]}}'
    path = "/m:l0[k='a']" + "".join(f"/l{n}[1]" for n in range(1, count - 1))
    return every_command(module(text), f'{{"m:l0":[{value}]}}', f"replace {path}/k \"b\"\nmove {path} 2\nremove {path}\n", 1)


def refused(document, value):
    """A document and a value that are refused."""
    files = {"m.yang": module("leaf l { type string; }"), "deep.json": document, "none.json": "{}", "deep.txt": f"create /m:l {value}\n"}
    lines = [(f"validate {words} deep.json m.yang", 2) for words in ("", "--explain", "--strict --format json")]
    return Made(files, lines + [(f"edit {words} none.json deep.txt m.yang", 1) for words in ("", "--explain", "--strict --dump")])


def brackets(count):
    """Arrays in arrays in a document and a value."""
    nest = "[" * count + "]" * count
    return refused(nest, nest)


def objects(count):
    """Objects in objects."""
    nest = '{"m:l":' * count + "1" + "}" * count
    return refused(nest, nest)


def items(count):
    """Documents of one node less than so many, and of one more: an edit fills the first, a second one is refused."""
    text = module("container c { config false; leaf-list i { type string; } }")
    document = lambda nodes: '{"m:c":{"i":[' + ",".join(['"x"'] * (nodes - 1)) + "]}}"
    more = 'create /m:c/i "x"\n'
    files = {"m.yang": text, "deep.json": document(count - 1), "more.json": document(count + 1), "one.txt": more, "two.txt": 2 * more}
    return Made(files, [("edit deep.json one.txt m.yang", 0), ("edit deep.json two.txt m.yang", 1), ("validate more.json m.yang", 2)])


def open_brackets(count):
    """A document of opening brackets alone."""
    return refused("[" * count, "[" * 1000)


def typedefs(count):
    """A chain of typedefs."""
    chain = [f"typedef t{n} {{ type t{n - 1}; }}" for n in range(1, count)]
    text = module("typedef t0 { type uint8; }", *chain, f"leaf l {{ type t{count - 1}; }}")
    return every_command(text, '{"m:l":300}', "replace /m:l 301\n", 1)


def restricted(count):
    """A chain of typedefs, each of which restricts the one before it."""
    chain = [f"typedef t{n} {{ type t{n - 1} {{ range 0..100; }} }}" for n in range(1, count)]
    text = module("typedef t0 { type int32 { range 0..100; } }", *chain, f"leaf l {{ type t{count - 1}; }}")
    return every_command(text, '{"m:l":300}', "replace /m:l 301\n", 1)


def unions(count):
    """A chain of unions, each of which has the one before it as a member."""
    chain = [f"typedef t{n} {{ type union {{ type t{n - 1}; type int8; }} }}" for n in range(1, count)]
    text = module("typedef t0 { type uint8; }", *chain, f"leaf l {{ type t{count - 1}; }}")
    return every_command(text, '{"m:l":300}', "replace /m:l 301\n", 1)


def groupings(count):
    """A chain of groupings, each of which uses the one before it."""
    chain = [f"grouping g{n} {{ uses g{n - 1}; }}" for n in range(1, count)]
    text = module("grouping g0 { leaf l { type uint8; } }", *chain, f"uses g{count - 1};")
    return every_command(text, '{"m:l":300}', "replace /m:l 301\n", 1)


def leafrefs(count):
    """A chain of leafrefs, each of which has the one before it as its target."""
    chain = [f"leaf l{n} {{ type leafref {{ path /m:l{n - 1}; }} }}" for n in range(1, count)]
    document = '{"m:l0":1,' + ",".join(f'"m:l{n}":{1 if n + 1 < count else 2}' for n in range(1, count)) + "}"
    return every_command(module("leaf l0 { type uint8; }", *chain), document, f"remove /m:l0\nreplace /m:l{count - 1} 300\n", 1)


def augments(count):
    """Augments of one container."""
    added = [f"augment /m:c {{ leaf l{n} {{ type uint8; }} }}" for n in range(count)]
    return every_command(module("container c;", *added), f'{{"m:c":{{"l{count - 1}":300}}}}', f"replace /m:c/l{count - 1} 301\n", 1)


def identities(count):
    """A chain of identities."""
    chain = [f"identity i{n} {{ base i{n - 1}; }}" for n in range(1, count)]
    text = module("identity i0;", *chain, "leaf l { type identityref { base i0; } }")
    return every_command(text, f'{{"m:l":"i{count}"}}', 'replace /m:l "i0"\n', 1)


def imports(count):
    """Modules, each of which imports the next."""
    files = {}
    for n in range(count):
        more = f"import m{n + 1} {{ prefix n; }}" if n + 1 < count else ""
        files[f"m{n}.yang"] = f'module m{n} {{ yang-version 1.1; namespace "urn:{n}"; prefix m; {more} leaf l {{ type uint8; }} }}\n'
    return Made(files, [(f"compile {' '.join(files)}", 0), (f"tree --all {' '.join(files)}", 0)])


def one_line(count):
    """Leafs with descriptions in double quotes, all in one line."""
    leafs = " ".join(f'leaf l{n} {{ type string; description "abc"; }}' for n in range(count))
    return compiled(module(leafs))


def joined(count):
    """Pieces of a string in one line."""
    return compiled(module("description " + " + ".join(['"a"'] * count) + ";"))


def doubled_unions(count):
    """Typedefs of unions, each of which has the one before it twice."""
    chain = [f"typedef t{n} {{ type union {{ type t{n - 1}; type t{n - 1}; }} }}" for n in range(1, count)]
    return compiled(module("typedef t0 { type string; }", *chain, f"leaf l {{ type t{count - 1}; }}"))


def refines(count):
    """Refines of one uses."""
    leafs = " ".join(f"leaf l{n} {{ type string; }}" for n in range(count))
    changes = " ".join(f"refine l{n} {{ default x; }}" for n in range(count))
    return compiled(module(f"grouping g {{ {leafs} }}", f"uses g {{ {changes} }}"))


def enums(count):
    """Names of an enumeration."""
    return compiled(module("leaf l { type enumeration {", *(f"enum e{n};" for n in range(count)), "} }"))


def uniques(count):
    """Uniques of a list, each of a leaf of its own."""
    rows = (f"leaf l{n} {{ type string; }} unique l{n};" for n in range(count))
    return compiled(module("list l { key k; leaf k { type string; }", *rows, "}"))


def compiled(text):
    return Made({"m.yang": text}, [("compile m.yang", 0)])


LIST = "container c { list e { key k; leaf k { type string; } } leaf-list i { type string; } }"


def keyed(keys, words, status, edits=None):
    """Entries with some keys, under some words."""
    entries = ",".join(f'{{"k":"{key}"}}' for key in keys)
    return asked(f'{{"m:c":{{"e":[{entries}]}}}}', words, status, edits)


def asked(document, words, status, edits=None):
    """A document of a list and a leaf-list, under some words."""
    files = {"m.yang": module(LIST), "d.json": document}
    if edits is None:
        return Made(files, [(f"validate {words} d.json m.yang", status)])
    return Made({**files, "s.txt": edits}, [(f"edit {words} d.json s.txt m.yang", status)])


def doubled_keys(count):
    """Keys that two entries have each, plainly."""
    return keyed((n // 2 for n in range(2 * count)), "", 1)


def doubled_keys_explained(count):
    """The same with --explain."""
    return keyed((n // 2 for n in range(2 * count)), "--explain", 1)


def doubled_keys_as_json(count):
    """The same with --format json."""
    return keyed((n // 2 for n in range(2 * count)), "--format json", 1)


def one_key_explained(count):
    """Entries that all have one key, with --explain."""
    return keyed(["x"] * count, "--explain", 1)


def doubled_items_explained(count):
    """Items that are there twice, with --explain."""
    return asked('{"m:c":{"i":[' + ",".join(f'"{n // 2}"' for n in range(2 * count)) + "]}}", "--explain", 1)


def distinct_items(count):
    """Items of a leaf-list, each another."""
    return asked('{"m:c":{"i":[' + ",".join(f'"{n}"' for n in range(count)) + "]}}", "", 0)


def distinct_keys(count):
    """Entries of a list, each of another key."""
    return keyed(range(count), "", 0)


def opened(count):
    """Entries, one of which an edit takes away by its key."""
    return keyed(range(count), "", 0, f"remove /m:c/e[k='{count // 2}']\n")


def top_entries(count):
    """Entries at the top, one of which an edit takes away."""
    files = {"m.yang": module("list e { key k; leaf k { type string; } }"), "s.txt": f"remove /m:e[k='{count // 2}']\n"}
    entries = ",".join(f'{{"k":"{n}"}}' for n in range(count))
    return Made({**files, "d.json": f'{{"m:e":[{entries}]}}'}, [("edit d.json s.txt m.yang", 0)])


def wide_edits(count):
    """Edits of one container of so many leafs, one of each leaf."""
    text = module("container c {", *(f"leaf l{n} {{ type string; }}" for n in range(count)), "}")
    edits = "".join(f'create /m:c/l{n * 7919 % count} "x"\n' for n in range(count))
    return Made({"m.yang": text, "d.json": '{"m:c":{}}', "s.txt": edits}, [("edit d.json s.txt m.yang", 0)])


def refused_edits(count):
    """Lines of a script, each of which is refused."""
    return keyed(["a"], "", 1, "remove /m:c/e[k='b']\n" * count)


def missing_entries(count):
    """Lines of a script, each of which names an entry that isn't there, by a key that is near to none of as many entries."""
    return keyed([f"e{n}" for n in range(count)], "", 1, "".join(f"remove /m:c/e[k='x{n}']\n" for n in range(count)))


def created_entries(count):
    """Entries that a script creates, one by one."""
    return keyed(["a"], "", 0, "".join(f'create /m:c/e {{"k":"{n}"}}\n' for n in range(count)))


def moved_entries(count):
    """Moves of entries, each from the end of the list to its front."""
    return keyed(range(count), "", 0, f"move /m:c/e[{count}] 1\n" * count)


def first_line(make):
    """The same with the first of its lines alone."""
    return lambda count: make(count)._replace(lines=make(count).lines[:1])


GROWING = {
    "one-line": (one_line, 20000, 40000), "joined": (joined, 100000, 200000), "doubled-unions": (doubled_unions, 7, 14),
    "restricted": (first_line(restricted), 20000, 40000), "typedefs": (first_line(typedefs), 30000, 60000),
    "unions": (first_line(unions), 10000, 20000), "groupings": (first_line(groupings), 30000, 60000),
    "leafrefs": (first_line(leafrefs), 30000, 60000), "augments": (first_line(augments), 30000, 60000),
    "identities": (first_line(identities), 30000, 60000), "refines": (refines, 10000, 20000), "enums": (enums, 30000, 60000),
    "uniques": (uniques, 5000, 10000), "open-brackets": (first_line(open_brackets), 1000000, 2000000),
    "doubled-keys": (doubled_keys, 2500, 5000), "doubled-keys-explained": (doubled_keys_explained, 2500, 5000),
    "doubled-keys-as-json": (doubled_keys_as_json, 2500, 5000), "one-key-explained": (one_key_explained, 2500, 5000),
    "doubled-items-explained": (doubled_items_explained, 2500, 5000), "distinct-items": (distinct_items, 499999, 999999),
    "distinct-keys": (distinct_keys, 249999, 499999), "opened": (opened, 50000, 100000), "top-entries": (top_entries, 50000, 100000),
    "wide-edits": (wide_edits, 20000, 40000), "refused-edits": (refused_edits, 50000, 100000),
    "missing-entries": (missing_entries, 50000, 100000),
    "created-entries": (created_entries, 50000, 100000), "moved-entries": (moved_entries, 10000, 20000),
}  # fmt: skip

DEEP = {make.__name__: make for make in (
    blocks, levels, brackets, objects, items, open_brackets, typedefs, restricted, unions, groupings, leafrefs, augments, identities, imports
)}  # fmt: skip
DEEPEST = [
    ("blocks", 64), ("levels", 60), ("brackets", 127), ("brackets", 128), ("objects", 127), ("items", 1000000), ("open_brackets", 1000000),
    ("typedefs", 60000), ("restricted", 60000), ("unions", 60000), ("groupings", 60000), ("leafrefs", 60000), ("augments", 60000),
    ("identities", 60000), ("imports", 1000),
]  # fmt: skip
