#!/usr/bin/env python3
"""Writes docs/format/rows.md, the rows of all tables, from the lists that the interpreter and linkshow are made of.

    tools/rows.py            writes the page
    tools/rows.py --check    ends with status 1 if the page differs from the lists, or if a comment of the grammar
                             names another attribute than the list

The lists are in src/message_lists.rt and src/kinds.rt of link_tables. Their order is that of src/table_rows.rt and of the
macro data_tables, and the names of kinds are in src/kinds.rt too. A row's variant is the variant of its type's enum whose docstring begins with the
row's name, or to which `field` gives the row's constant. Raw attributes and bodies are those of the independent implementation,
tools/oracle/raw.tsv, which the vectors compare with linkshow's. It needs only Python.
"""
import glob
import os
import re
import sys

TOP = os.path.join(os.path.dirname(os.path.abspath(__file__)), "..")
PAGE = os.path.join(TOP, "docs", "format", "rows.md")
HEAD = """# The rows of all tables

`tools/rows.py` writes this page from the source: the lists of `link_tables`, and the variants of each type's `enum`. A kind that a table doesn't list is a raw attribute, `Other(DefaultNla)`: any payload is accepted, and all 16 bits of the kind are kept. A table has its type, the prefix of its names and their header, then its kinds with name and variant; after a colon the type, and the [shape](shapes.md) if the type doesn't determine it. Numbers are little-endian unless it says big-endian. [attributes.md](attributes.md) has what a list, ports and a peer are; *written nested* is a kind that is written with the nested bit. A record is a struct of its name, whose docstring has its bytes.
"""
# Payloads without a shape
PAYLOADS = {
    "Peer": "a peer",
    "LinkInfo": "[link info](../rattle/link_info.md), not empty",
}
LIST_KINDS = {"Any": "a list", "OfKindOne": "a list of kind 1", "Ports": "ports", "NonEmpty": "a list with an attribute"}
# The types that determine the shape
SHAPES = {
    "u8": "exact 1",
    "u16": "exact 2",
    "u32": "exact 4",
    "i32": "exact 4",
    "u64": "exact 8",
    "[u8; 6]": "exact 6",
    "Ipv4Addr": "exact 4",
    "Ipv6Addr": "exact 16",
    "IpAddr": "either 4 16",
    "String": "text",
    "Vec<u8>": "raw",
}
# The types of tables whose lists have another name
TYPES = {
    "ip4_tunnel": "InfoIpTunnel",
    "ip6_tunnel": "InfoIpTunnel",
    "ipvlan": "IpVlanData",
    "link_bridge": "LinkAttribute",
    "link_inet6": "LinkAttribute",
    "link_other": "LinkAttribute",
    "link_unspec": "LinkAttribute",
    "macvlan_address": "InfoMacVlan",
    "props": "Prop",
    "protocol_down_reason": "LinkProtocolDownReason",
    "specific": "AfSpecUnspec",
    "veth": "PairData",
    "vf": "VfInfo",
    "vf_infos": "LinkVfInfo",
    "vf_ports": "LinkVfPort",
    "vf_vlans": "VfVlan",
    "vrf": "InfoVrf",
    "vxcan": "PairData",
}
# The public names of types that have other names in the source
PUBLIC_NAMES = {"IpVlanData": "InfoIpVlan`, `InfoIpVtap", "InfoMacVlan": "InfoMacVlan`, `InfoMacVtap", "InfoVrf": "InfoVrf`, `InfoVrfPort"}
PAIRS = {"veth": "InfoVeth", "vxcan": "InfoVxcan"}
# The families of the tables whose variants depend on them
FAMILY = {"link_unspec": "Unspec", "link_bridge": "Bridge", "link_inet6": "Inet6"}
# Tables that share most rows with another one, under which the page lists these
SIMILAR_TABLE = {"ip6_tunnel": "ip4_tunnel", "macvlan_address": "macvlan", "link_bridge": "link_unspec", "link_inet6": "link_unspec", "link_other": "link_unspec"}


def shape_or_list(shape, tables):
    """The shape of a payload as the specs write it, or the kind and the table of a list."""
    if shape in PAYLOADS:
        return PAYLOADS[shape]
    name, parameters = re.fullmatch(r"(\w+)(?:\((.*)\))?", shape).groups()
    parameters = parameters.split(", ") if parameters else []
    if name == "List":
        table = parameters[1].lower()
        return LIST_KINDS[parameters[0]] + (f" of `{table}`" if table in tables else " of raw attributes")
    return f"`{' '.join([re.sub('(?<!^)(?=[A-Z])', '_', name).lower(), *parameters])}`"


def enums():
    """Each enum of attributes, by its name: the variants of each constant, as pairs of a variant and its type or None."""
    variants_by_enum = {}
    for path in sorted(glob.glob(os.path.join(TOP, "crates", "link_*", "src", "*.rt"))):
        text = open(path, encoding="utf-8").read()
        for name, body in re.findall(r"pub enum (\w+)[^{\n]*\{\n(.*?)\n\}", text, re.S):
            variants = variants_by_enum.setdefault(name, {})
            for doc, variant, value_type in re.findall(r"((?:    /// [^\n]*\n)+)    (\w+)(?:\(([^\n]*)\))?,\n", body + "\n"):
                names = re.match(r"(?:`[A-Z0-9_]+`(?:, | or | and )?)+", doc.replace("    /// ", ""))
                constants = re.findall(r"`(\w+)`", names[0]) if names else re.findall(rf"Self::{variant}\(\w+\) => \((\w+)", text)
                for constant in constants:
                    variants.setdefault(constant, []).append((variant, value_type or None))
    return variants_by_enum


def type_of(name, variants_by_enum):
    if name in TYPES:
        return TYPES[name]
    camel = "".join(word.capitalize() for word in name.split("_"))
    candidates = [camel, "Info" + camel, "Link" + camel, "AfSpec" + camel]
    known = {each.lower(): each for each in variants_by_enum}
    return next(known[each.lower()] for each in candidates if each.lower() in known)


def variants_of(table, constant, type_variants):
    """The variants that a kind is read as under a table, so without those that are only written."""
    variants = [each for each in type_variants.get(constant, []) if not each[0].endswith("Request")]
    by_family = [each for each in variants if each[0].endswith(FAMILY.get(table, "Unknown"))]
    if table.startswith("link_") and len(variants) > 1:
        return by_family or [each for each in variants if each[0].endswith("Unknown")]
    if table.startswith("ip") and table.endswith("_tunnel") and len(variants) > 1:
        return [each for each in variants if (each[0] == "Ipv6Flags") == (table == "ip6_tunnel")]
    return variants


def payload_of(row, variants, tables):
    """The text of a row's type and payload."""
    shape, style, is_nested = row[2], row[3] or "", row[4]
    content = shape_or_list(shape, tables)
    types = dict.fromkeys(value_type for _, value_type in variants)
    out = " or ".join(f"`{value_type}`" if value_type else "none" for value_type in types)
    if out == "none":
        out = content
    elif not types or not all(f"`{SHAPES.get(value_type)}`" == content for value_type in types):
        out = ", ".join(part for part in (out, content) if part)
    if re.match("BigEndian|PortRange", style) or (row[1] == "IFLA_IPTUN_FLAGS" and shape == "Exact(2)"):
        out += ", big-endian"
    if style.startswith("FlagsAndMask"):
        out += ": flags, then their mask"
    return out + (", written nested" if is_nested else "")


def source(name):
    return open(os.path.join(TOP, "crates", "link_tables", "src", name), encoding="utf-8").read()


def lists_of(name):
    """Each list of a file, by its name: its comment and the text of its macro."""
    text = source(name)
    macros = re.findall(
        r"((?:/// [^\n]*\n)+)#\[macro_export\]\nmacro_rules! (\w+) \{\n    \(\$write:ident.*?\) => \{\n(.*?)\n    \};\n\}", text, re.S
    )
    # a list passes its rows in braces; `data_tables` calls the lists
    return {name: (comment.replace("/// ", "").replace("\n", " ").strip(), body) for comment, name, body in macros if "! {" in body}


def body_of(name, lists):
    """The text of a list's rows. If the list is another one with arguments, they replace its parameters."""
    body = lists[name][1]
    other = re.search(r"\$crate::(\w+)! \{\s*\$write,(.*)\}\s*$", body, re.S)
    if not other:
        return re.search(r"\$write! \{(.*)\}", body, re.S)[1]
    arguments = re.findall(r"\{ (.*?) \}", other[2]) or [other[2].strip()]
    text = body_of(other[1], lists)
    parameters = re.findall(r"\$\(\$\w+\)\*|\$(?!write)\w+", text)
    for argument, parameter in zip(arguments, parameters):
        text = text.replace(parameter, argument, 1)
    return text


def rows_of(name, lists):
    """(kind, attribute name, shape, format or None, whether it is written nested) of each row of a list."""
    for row in body_of(name, lists).split(";"):
        match = re.fullmatch(r'(\d+)(,| ->| =>) b"(\w+)"(?:, (.*))?', " ".join(row.split()))
        if not match or not match[4]:
            continue
        kind, separator, attribute, shape = match.groups()
        style = None
        if separator == ",":
            shape, style = re.fullmatch(r"(\w+(?:\([^)]*\))?), (.*)", shape).groups()
        yield kind, attribute, shape, style, separator == " =>"


def tables_of(lists):
    """The names of these lists, in the order of their tables."""
    return [name for name in re.findall(r"&\$?crate::(\w+)!", source("table_rows.rt") + source("kinds.rt")) if name in lists]


def kinds_of():
    """The names of kinds of links and of ports, by the name of their table."""
    names_by_table = {}
    for port, names in re.findall(r"pub const (PORT_)?KINDS: .*?= \[(.*?)\n\];", source("kinds.rt"), re.S):
        for name, table in re.findall(r'NameRow\(\d+, \*b"([a-z0-9_]+).*?List\(\w+, (\w+)\)', names):
            names_by_table.setdefault(table.lower(), []).append(f"`{name}`" + (" (port)" if port else ""))
    return names_by_table


def prefix_of(comment, rows):
    """The prefix of all attribute names of a table: that of the table's comment, or the first word of the first name."""
    prefix = re.search(r"([A-Z0-9_]+_)\*", comment)
    if prefix and all(row[1].startswith(prefix[1]) for row in rows):
        return prefix[1]
    return rows[0][1].split("_")[0] + "_"


def lines_of(name, title, comment, rows, tables, variants_by_enum):
    """The lines of a table: its title, then a line for all rows of one type and payload."""
    type_name = type_of(name, variants_by_enum)
    type_variants, prefix = variants_by_enum.get(type_name, {}), prefix_of(comment, rows)
    groups = {}
    for row in rows:
        variants = variants_of(name, row[1], type_variants)
        assert variants or not type_variants, f"no variant of {type_name} names {row[1]}"
        groups.setdefault(payload_of(row, variants, tables), []).append((row, variants))
    header = re.search(r"\(([\w/]+\.h)", comment)
    public_name = PAIRS.get(name) or PUBLIC_NAMES.get(type_name, type_name)
    yield f"- {title}: `{public_name}`, {prefix}" + (f" ({header[1]})" if header else "")
    for payload, group in groups.items():
        names = ", ".join(" ".join([row[0], row[1][len(prefix) :]] + [f"`{variant}`" for variant, _ in variants]) for row, variants in group)
        yield f"  - {names}: {payload}"


# The definitions of the grammar whose rows make up a list, if no definition has the list's name
PARTS = {
    "gre": ("gre_before_encap", "gre", "gre_encap"),
    "gre6": ("gre_before_encap", "gre6", "gre_encap"),
    "ip4_tunnel": ("ip_tunnel",),
    "ip6_tunnel": ("ip_tunnel",),
    "link_bridge": ("before_protinfo", "with_protocol", "after_protinfo"),
    "link_inet6": ("before_protinfo", "with_protocol", "after_protinfo"),
    "link_other": ("before_protinfo", "after_protinfo"),
    "link_unspec": ("before_protinfo", "after_protinfo"),
    "macvlan": ("macvlan_before_addresses", "macvlan", "macvlan_after_addresses"),
    "macvlan_address": ("macvlan_before_addresses", "macvlan_after_addresses"),
    "veth": ("pair",),
    "vxcan": ("pair",),
}


def grammar_of(crate):
    """The kind and the comment of each row of each definition in a crate's specs, by the definition's name."""
    rows = {}
    for path in glob.glob(os.path.join(TOP, "crates", crate, "specs", "*.antt")):
        name = None
        for line in open(path, encoding="utf-8"):
            name = (re.match(r"abbrev pub (\w+) :", line) or [None, name])[1]
            row = re.match(r"    (\d+) [↪↠⇉] .* ⸴(?:\s+-- (.*))?$", line)
            if row:
                rows.setdefault(name, set()).add((row[1], row[2]))
    return rows


def differences(file, grammar_crate):
    """The attribute names that only the lists of a file have, or only the comments of the grammar's rows."""
    lists, grammar = lists_of(file), grammar_of(grammar_crate)
    for name in tables_of(lists):
        list_names = {(kind, attribute) for kind, attribute, *_ in rows_of(name, lists)}
        grammar_names = {
            (kind, attribute)
            for part in PARTS.get(name, (name,))
            for kind, attributes in grammar.get(part, ())
            for attribute in (attributes or "no name").split(", ")
        }
        # the data of veth and vxcan are one table, whose row has both names
        grammar_names = {row for row in grammar_names if row in list_names or name not in ("veth", "vxcan")}
        for kind, attribute in sorted(list_names ^ grammar_names):
            source_name = "the list" if (kind, attribute) in list_names else "a comment"
            yield f"{grammar_crate}: {name}, kind {kind}: {attribute} is only in {source_name}"


def page():
    out, variants_by_enum, kinds = [HEAD], enums(), kinds_of()
    for title, file in (("Link messages", "message_lists.rt"), ("Data of links and of ports", "kinds.rt")):
        lists = lists_of(file)
        tables = tables_of(lists)
        out.append(f"## {title}\n")
        for name in tables:
            rows = list(rows_of(name, lists))
            similar = SIMILAR_TABLE.get(name)
            similar_rows = list(rows_of(similar, lists)) if similar else []
            new_rows = [row for row in rows if row not in similar_rows]
            table_title = ", ".join(kinds.get(name, [f"`{name}`"]))
            out += lines_of(name, table_title, lists[name][0], new_rows, tables, variants_by_enum) if new_rows else [f"- `{name}`"]
            if similar_rows:
                missing = [row[0] for row in similar_rows if row[0] not in [each[0] for each in rows]]
                exception = f", without {', '.join(missing)}" if missing else ""
                similar_title = ", ".join(kinds.get(similar, [f"`{similar}`"]))
                out.append(f"  - all others as {similar_title}{exception}")
        out.append("")
    return "\n".join(out)


RAW_HEAD = """What `linkshow` shows of attributes that normalising keeps as they are, by the table of their list, and in the bodies of messages of other types than links. Rows have the kind, the name and the [format](../../tools/oracle/lines.md#raw-attributes); `*` stands for any other kind, and `[]` for an attribute that is shown by its number, since it has no name.
"""


def raw_tables():
    """The rows of tools/oracle/raw.tsv by their first column: bodies, places of lists, choices, and raw attributes."""
    rows = {"body": [], "list": [], "choice": [], "raw": []}
    for line in open(os.path.join(TOP, "tools", "oracle", "raw.tsv"), encoding="utf-8"):
        first, *columns = line.rstrip("\n").split("\t")
        if first in rows:
            rows[first].append(columns)
    return rows


def common_prefix(names):
    """The longest prefix that ends with an underscore and that all of several names have."""
    prefix = os.path.commonprefix(names)
    return prefix[: prefix.rfind("_") + 1] if len(names) > 1 else ""


def raw_lines(table, rows):
    """The lines of a table of raw attributes: its name and the prefix of all names, then a line for all rows of one format."""
    prefix = common_prefix([name for _, name, _ in rows])
    groups = {}
    for kind, name, style in rows:
        groups.setdefault(style, []).append(f"{kind} {name[len(prefix):]}")
    yield f"- `{table}`" + (f", {prefix}" if prefix else "")
    for style, names in groups.items():
        yield f"  - {', '.join(names)}: `{style}`"


def body_lines(rows):
    """A line for the types of messages whose bodies have one header and one table."""
    for types, request, first_byte, header, table in rows:
        limits = {"0": ", not in requests", "1": ", in requests"}.get(request, "")
        limits += "" if first_byte == "*" else f", first byte {first_byte}"
        yield f"- {types}{limits}: `{header}`" + ("" if table == "-" else f", `{table}`")


def choice_lines(rows):
    """A line for each set of choices, then one for all payloads that choose one format."""
    sets = {}
    for choice, payload, style in rows:
        sets.setdefault(choice, {}).setdefault(style, []).append(payload)
    for choice, styles in sets.items():
        yield f"- `{choice}`"
        yield from (f"  - {', '.join(payloads)}: `{style}`" for style, payloads in styles.items())


def raw_section():
    rows = raw_tables()
    tables = {}
    for table, *row in rows["raw"]:
        tables.setdefault(table, []).append(row)
    yield "## Raw attributes\n"
    yield RAW_HEAD
    for table, table_rows in tables.items():
        yield from raw_lines(table, table_rows)
    yield "\n### Lists of raw attributes in links\n"
    yield "`data` is IFLA_INFO_DATA under a kind in force, `port` IFLA_INFO_SLAVE_DATA under a port kind, `family` an attribute of links of an address family.\n"
    yield from (f"- {place}: `{table}`" for place, table in rows["list"])
    yield "\n### What another attribute chooses\n"
    yield "`chosen options 1` is the format that the set `options` has for the payload of the list's first attribute of the kind 1: a name, or a number of 2 bytes.\n"
    yield from choice_lines(rows["choice"])
    yield "\n### Bodies of other messages\n"
    yield "Types of messages (rtnetlink.h), the record at the start of the body (`peer`: as a link's), and the table of the list after it.\n"
    yield from body_lines(rows["body"])
    yield ""


def main():
    text = "\n".join([page(), *raw_section()])
    if sys.argv[1:] == ["--check"]:
        faults = [*differences("message_lists.rt", "link_message_grammar"), *differences("kinds.rt", "link_info_grammar")]
        if open(PAGE, encoding="utf-8").read() != text:
            faults.append("docs/format/rows.md differs from the lists: tools/rows.py writes it")
        print("\n".join(faults), end="\n" if faults else "")
        sys.exit(1 if faults else 0)
    with open(PAGE, "w", encoding="utf-8") as file:
        file.write(text)


if __name__ == "__main__":
    main()
