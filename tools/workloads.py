#!/usr/bin/env python3
"""Writes workloads that other validators can read too.

    tools/workloads.py FOLDER [--most SIZE] [NAME..]

Each is a folder FOLDER/NAME-SIZE with modules, perhaps a document and a script, and meta.json, as tools/figures --folder takes it:
what is printed is known from how it was made. Nothing is drawn by chance.
"""
import argparse
import json
import os

SIZES = [1_000, 10_000, 100_000]
# a schema has at most 65,535 nodes
SCHEMAS = [1_000, 10_000, 60_000]
TYPES = [
    ("string", '"text {}"'),
    ('uint8 { range "0..100"; }', "{}"),
    ("share", "{}"),
    ("int32", "{}"),
    ("boolean", "true"),
    ("decimal64 { fraction-digits 2; }", '"{}.25"'),
    ("enumeration { enum up; enum down; }", '"down"'),
    ("union { type uint8; type string; }", '"u{}"'),
    ("uint64", '"{}"'),
]


def stated(type_text):
    return f"type {type_text}" if type_text.endswith("}") else f"type {type_text};"


def module(name, lines):
    head = [f"module {name} {{", "  yang-version 1.1;", f'  namespace "urn:workload:{name}";', f"  prefix {name};"]
    return "\n".join(head + [f"  {line}" for line in lines] + ["}"]) + "\n"


def document(value):
    return json.dumps(value, separators=(",", ":")) + "\n"


def wide_lines(size):
    """Containers of 99 leafs of nine types in turn."""
    lines = ['typedef share { type uint8 { range "0..100"; } default 7; }']
    for c in range(size // 100):
        leafs = [f"leaf l{n} {{ {stated(TYPES[(n * 7 + c) % len(TYPES)][0])} }}" for n in range(99)]
        lines.append(f"container c{c} {{ {' '.join(leafs)} }}")
    return lines


def compile_wide(size):
    return {"wide.yang": module("wide", wide_lines(size))}, {"tree": "wide", "nodes": size}


def compile_flat(size):
    """One container of leafs of texts."""
    leafs = [f"leaf l{n} {{ type string; }}" for n in range(size - 1)]
    return {"flat.yang": module("flat", ["container c {"] + leafs + ["}"])}, {"tree": "flat", "nodes": size}


def compile_deep(size):
    """Groupings of which each uses the one before twice, with a refine of a default, and leafs beside them."""
    lines = ["grouping g0 { leaf a { type int32; default 3; } leaf b { type string; } }"]
    nodes, depth = 2, 0
    while 2 * (nodes + 1) + 1 <= size:
        depth += 1
        path = "a" if depth == 1 else "v"
        lines.append(f"grouping g{depth} {{ container x {{ uses g{depth - 1} {{ refine {path} {{ default {depth}; }} }} }} "
                     f"container y {{ uses g{depth - 1}; }} leaf v {{ type int32; }} }}")
        nodes = 2 * (nodes + 1) + 1
    lines += [f"uses g{depth};"] + [f"leaf pad{n} {{ type uint16; }}" for n in range(size - nodes)]
    return {"deep.yang": module("deep", lines)}, {"tree": "deep", "nodes": size}


def compile_augment(size):
    """Chains of ten augments, the last of each chain first; each adds a container of nine leafs."""
    lines, nodes = ["container top;"], 1
    for chain in range((size - 1) // 100):
        for link in reversed(range(10)):
            path = "/augment:top" + "".join(f"/augment:n{chain}l{k}" for k in range(link))
            leafs = " ".join(f"leaf f{n} {{ type uint16; }}" for n in range(9))
            lines.append(f"augment {path} {{ container n{chain}l{link} {{ {leafs} }} }}")
        nodes += 100
    lines += [f"leaf pad{n} {{ type string; }}" for n in range(size - nodes)]
    return {"augment.yang": module("augment", lines)}, {"tree": "augment", "nodes": size}


def right(name, lines, value, nodes):
    """A document without a fault."""
    return {f"{name}.yang": module(name, lines), "data.json": document(value)}, {"tree": name, "nodes": nodes, "data": "data.json"}


def validate_wide(size):
    """Each leaf of many has a value."""
    value = {}
    for c in range(size // 100):
        texts = [(f"l{n}", TYPES[(n * 7 + c) % len(TYPES)][1].format((n * 13 + c) % 100)) for n in range(99)]
        value[f"wide:c{c}"] = {name: json.loads(text) for name, text in texts}
    return right("wide", wide_lines(size), value, size)


def validate_leaflist(size):
    """Half of the items are numbers, the others texts; all differ."""
    lines = ["container c { leaf-list number { type uint32; } leaf-list text { type string { length 1..20; } } }"]
    half = size // 2
    value = {"items:c": {"number": [n * 65537 % 999983 for n in range(half)], "text": [f"item-{n}" for n in range(size - half)]}}
    return right("items", lines, value, 3)


HOSTS = """container db {
  list group { key name; leaf name { type string { length 1..16; } } leaf quota { type uint8 { range 0..100; } default 50; } }
  list host { key id; unique "addr port"; leaf id { type uint32; } leaf name { type string { length 1..24; } mandatory true; }
    leaf addr { type string; } leaf port { type uint16 { range "1..1024 | 8080..8089"; } default 80; }
    leaf group { type leafref { path /hosts:db/hosts:group/hosts:name; } }
    choice mode { mandatory true; leaf auto { type empty; } leaf speed { type decimal64 { fraction-digits 2; } } } } }""".split("\n")


def hosts(size):
    groups = max(10, size // 100)
    entries = []
    for n in range(size):
        entry = {"id": n, "name": f"host-{n}", "addr": f"10.{n >> 16 & 255}.{n >> 8 & 255}.{n & 255}", "group": f"g{n * 31 % groups}"}
        entry.update({"port": 1 + n * 37 % 1024, "auto": [None]} if n % 2 else {"speed": f"{1 + n % 9999}.25"})
        entries.append(entry)
    return {"hosts:db": {"group": [{"name": f"g{n}"} for n in range(groups)], "host": entries}}


def validate_list(size):
    """Entries with a key, a unique, a leafref, ranges, a choice, defaults."""
    return right("hosts", HOSTS, hosts(size), 15)


def validate_refs(size):
    """As many leafrefs as targets, twice."""
    lines = ["container db {", "list item { key id; leaf id { type uint32; } leaf tag { type string; } }",
             "list use { key n; leaf n { type uint32; } leaf of { type leafref { path /refs:db/refs:item/refs:id; } }",
             "  leaf by { type leafref { path /refs:db/refs:item/refs:tag; } } }", "}"]
    value = {"refs:db": {"item": [{"id": n, "tag": f"t{n}"} for n in range(size)],
                         "use": [{"n": n, "of": n * 7919 % size, "by": f"t{n * 104729 % size}"} for n in range(size)]}}
    return right("refs", lines, value, 8)


def validate_nest(size):
    """Lists in lists in lists, ten by ten."""
    lines = ["list a { key k; leaf k { type uint16; }", '  list b { key "k1 k2"; leaf k1 { type uint16; } leaf k2 { type string; }',
             "    container on { leaf w { type int64; } } list c { key k; leaf k { type uint16; } leaf v { type string; } } } }"]
    value = [{"k": i, "b": [{"k1": j, "k2": f"x{j % 3}", "on": {"w": str(i * j)}, "c": [{"k": k, "v": f"v{i + j + k}"} for k in range(10)]}
                            for j in range(10)]} for i in range(size // 100)]
    return right("nest", lines, {"nest:a": value}, 11)


OCTET = "([0-9]|[1-9][0-9]|1[0-9][0-9]|2[0-4][0-9]|25[0-5])"
IPV4 = rf"({OCTET}\.){{3}}{OCTET}"
LAST = r"(25[0-5]|2[0-4][0-9]|[01]?[0-9]?[0-9])"
IPV6 = [rf"((:|[0-9a-fA-F]{{0,4}}):)([0-9a-fA-F]{{0,4}}:){{0,5}}((([0-9a-fA-F]{{0,4}}:)?(:|[0-9a-fA-F]{{0,4}}))|(({LAST}\.){{3}}{LAST}))",
        r"(([^:]+:){6}(([^:]+:[^:]+)|(.*\..*)))|((([^:]+:)*[^:]+)?::(([^:]+:)*[^:]+)?)"]
# of published modules: addresses, hosts, dates, identifiers of objects, devices and languages (RFC 6991)
PATTERNS = [
    IPV4,
    *IPV6,
    rf"{IPV4}/(([0-9])|([1-2][0-9])|(3[0-2]))",
    rf"{IPV4}(%[\p{{N}}\p{{L}}]+)?",
    r"((([a-zA-Z0-9_]([a-zA-Z0-9\-_]){0,61})?[a-zA-Z0-9]\.)*([a-zA-Z0-9_]([a-zA-Z0-9\-_]){0,61})?[a-zA-Z0-9]\.?)|\.",
    r"\d{4}-\d{2}-\d{2}T\d{2}:\d{2}:\d{2}(\.\d+)?(Z|[\+\-]\d{2}:\d{2})",
    r"(([0-1](\.[1-3]?[0-9]))|(2\.(0|([1-9]\d*))))(\.(0|([1-9]\d*)))*",
    r"[0-9a-fA-F]{2}(:[0-9a-fA-F]{2}){5}",
    r"[0-9a-fA-F]{8}-[0-9a-fA-F]{4}-[0-9a-fA-F]{4}-[0-9a-fA-F]{4}-[0-9a-fA-F]{12}",
    r"[a-zA-Z]{1,8}(-[a-zA-Z0-9]{1,8})*",
    r"\d*(\.\d*){1,127}",
]


def matched(name, *patterns):
    return f"typedef {name} {{ type string {{ " + " ".join(f"pattern '{text}';" for text in patterns) + " } }"


def compile_patterns(size):
    """Leafs each of which has a pattern of its own, of twelve in turn."""
    leafs = [f"leaf l{n} {{ type string {{ pattern '{PATTERNS[n % len(PATTERNS)]}'; }} }}" for n in range(size)]
    return {"patterns.yang": module("patterns", leafs)}, {"tree": "patterns", "nodes": size, "profile": "rfc"}


def address(n):
    return f"10.{n >> 16 & 255}.{n >> 8 & 255}.{n & 255}" if n % 2 else f"2001:db8:{n >> 16:x}::{n & 65535:x}"


def validate_addresses(size):
    """Items of a union of both kinds of addresses, by turns; all differ."""
    lines = [matched("ipv4", IPV4), matched("ipv6", *IPV6), "typedef address { type union { type ipv4; type ipv6; } }", "leaf-list a { type address; }"]
    files, meta = right("addresses", lines, {"addresses:a": [address(n) for n in range(size)]}, 1)
    return files, {**meta, "profile": "rfc"}


def validate_shared(size):
    """Each leaf of one type with a pattern has a value."""
    lines = [matched("ipv4", IPV4)] + [f"leaf l{n} {{ type ipv4; }}" for n in range(size)]
    files, meta = right("shared", lines, {f"shared:l{n}": address(2 * n + 1) for n in range(size)}, size)
    return files, {**meta, "profile": "rfc"}


def edits(size, lines):
    files, meta = validate_list(size)
    files.update({"script.txt": "\n".join(lines), "empty.txt": ""})
    return files, {**meta, "script": "script.txt", "empty": "empty.txt", "edits": len(lines)}


COUNT = 4_000


def some(n, size):
    return (n * 7919 + 13) % size


def edit_leaf(size):
    """A leaf to which nothing refers gets another value."""
    return edits(size, [f"replace /hosts:db/host[id='{some(n, size)}']/name \"renamed-{n}\"" for n in range(COUNT)])


def edit_reference(size):
    """A leafref gets another target, by turns one that isn't there."""
    lines = []
    for n in range(COUNT // 2):
        path = f"/hosts:db/host[id='{some(n, size)}']/group"
        lines += [f'replace {path} "lost"', f'replace {path} "g{n % max(10, size // 100)}"']
    return edits(size, lines)


def edit_unique(size):
    """The tuple of a unique becomes another's, and another again."""
    lines = []
    for n in range(COUNT // 2):
        host = some(n, size - 2) & ~1
        path = f"/hosts:db/host[id='{host}']/addr"
        lines += [f'replace {path} "10.{h >> 16 & 255}.{h >> 8 & 255}.{h & 255}"' for h in (host + 2, host)]
    return edits(size, lines)


def edit_entry(size):
    """An entry comes at the end, and goes again."""
    lines = []
    for n in range(COUNT // 2):
        lines.append(f'create /hosts:db/host {{"id":{10**7 + n},"name":"new","addr":"new-{n}","group":"g1","auto":[null]}}')
        lines.append(f"remove /hosts:db/host[id='{10**7 + n}']")
    return edits(size, lines)


def edit_moved(size):
    """The last entry becomes the first."""
    return edits(size, [f"move /hosts:db/host[{size}] 1" for _ in range(COUNT // 10)])


WORKLOADS = {
    "compile-wide": (compile_wide, SCHEMAS),
    "compile-flat": (compile_flat, SCHEMAS),
    "compile-deep": (compile_deep, SCHEMAS),
    "compile-augment": (compile_augment, SCHEMAS),
    "compile-patterns": (compile_patterns, [1_000, 10_000]),
    "validate-wide": (validate_wide, SCHEMAS),
    "validate-leaflist": (validate_leaflist, SIZES + [990_000]),
    "validate-list": (validate_list, SIZES),
    "validate-refs": (validate_refs, SIZES),
    "validate-nest": (validate_nest, SIZES),
    "validate-addresses": (validate_addresses, SIZES + [990_000]),
    "validate-shared": (validate_shared, SCHEMAS),
    "edit-leaf": (edit_leaf, SIZES),
    "edit-reference": (edit_reference, SIZES),
    "edit-unique": (edit_unique, SIZES),
    "edit-entry": (edit_entry, SIZES),
    "edit-moved": (edit_moved, SIZES),
}


def write(folder, name, size):
    files, meta = WORKLOADS[name][0](size)
    meta.update({"workload": name, "size": size, "label": f"{size:,}", "kind": name.split("-")[0], "faults": 0})
    meta["modules"] = [file for file in files if file.endswith(".yang")]
    os.makedirs(f"{folder}/{name}-{size}", exist_ok=True)
    for file, text in {**files, "meta.json": json.dumps(meta, indent=1)}.items():
        with open(f"{folder}/{name}-{size}/{file}", "w", encoding="utf-8") as opened:
            opened.write(text)


def main():
    parser = argparse.ArgumentParser(description=__doc__, formatter_class=argparse.RawDescriptionHelpFormatter)
    parser.add_argument("folder")
    parser.add_argument("--most", type=int, default=10**9)
    parser.add_argument("names", nargs="*", metavar="NAME", help=", ".join(WORKLOADS))
    options = parser.parse_args()
    for name, (_, sizes) in WORKLOADS.items():
        for size in sizes:
            if size <= options.most and (not options.names or name in options.names):
                write(options.folder, name, size)


main()
