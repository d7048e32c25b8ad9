#!/usr/bin/env python3
"""Writes results on link bodies as lemmas, which the checker computes from the
definitions.

    tools/oracle/as_facts.py CLONE [SEED [COUNT]]

CLONE is a throw-away copy of the repository. COUNT bodies (200) are chosen from the
stored captures and mutated by a generator from SEED (1). Lemmas on them, proved by
`refl`, go into crates/link_message_grammar/proofs/Made0.antt, .. of CLONE, and
proofs/Lib.antt gets their names. `rt check` in that crate's folder computes them: a
lemma that fails names a body on which definition and implementation differ. Run it
whenever a table or a definition changes, and commit none of its files.
"""
import os
import random
import sys

sys.path.insert(0, os.path.dirname(os.path.abspath(__file__)))
import check                # noqa: E402
import linkoracle as o      # noqa: E402
import vectors              # noqa: E402

GRAMMAR = os.path.join("crates", "link_message_grammar", "proofs")
BODIES_IN_A_FILE = 70
LONGEST = 200
HEAD = """-- Made bodies: the definitions yield the results of tools/oracle.
use Rattle.std.proofs.Common.{◌≡◌, ℕ, true, false, List, [], ◌∷◌, length, refl}
use Rattle.std.specs.Str.{is_utf8, chars}
use lib.Utf8.{encode}
use Rattle.netlink_packet_core_grammar.specs.Attributes.{attribute_text, list_text, first_attribute, attributes_within}
use Rattle.attribute_tables_grammar.specs.Lists.{all_accepted, some_empty_ports, canonical_forms, all_fit, attributes_inside, all_same}
use Rattle.link_message_grammar.specs.NestedTables.{resized}
use Rattle.link_message_grammar.specs.Body.{body_rule, has_layer_type_name, link_body, link_peer, attributes_rule}

-- all definitions that are unfolded
everything : ℕ
unfolding is_utf8 chars encode attribute_text list_text first_attribute attributes_within all_accepted some_empty_ports \
canonical_forms all_fit attributes_inside all_same has_layer_type_name attributes_rule body_rule link_peer resized
everything = 0
"""


def bodies(capture):
    """The bodies of link messages that aren't too long, up to what is no frame."""
    at = 0
    while at + 16 <= len(capture):
        length = o.u32(capture, at)
        if length < 16 or at + length > len(capture):
            return
        if o.u16(capture, at + 4) in o.LINK_TYPES and length - 16 <= LONGEST:
            yield capture[at + 16:at + length]
        at += o.round_up(length)


def choose_bodies(seed, count):
    """Bodies, about half of them mutated and about a third refused."""
    rng = random.Random(seed)
    candidates = sorted({b for case in vectors.cases("norm") for b in bodies(bytes.fromhex(case.split(" ")[1]))})
    candidates += [check.mutate(rng, b) for b in candidates if b]
    rng.shuffle(candidates)
    accepted = [b for b in candidates if o.body_check(b) is not None]
    refused = [b for b in candidates if o.body_check(b) is None]
    return accepted[:count - count // 3] + refused[:count // 3]


def list_term(b):
    return "(" + "".join("%d ∷ " % byte for byte in b) + "[])"


def boolean_term(value):
    return "true" if value else "false"


def facts(body):
    """(name, statement) of each fact on a body, which statements call `body`."""
    sizes = o.body_check(body)
    yield "accepted", "link_body.accepted body ≡ %s" % boolean_term(sizes is not None)
    if sizes is None:
        return
    size, count, fits, has_empty_ports = sizes
    yield "count", "link_body.attributes body ≡ %d" % count
    yield "fits", "link_body.fits body ≡ %s" % boolean_term(fits)
    yield "empty", "link_body.empty_ports body ≡ %s" % boolean_term(has_empty_ports)
    yield "size", "length (link_body.canonical body) ≡ %d" % size
    if fits and not has_empty_ports:
        text = list_term(o.body_text(o.read_link_body(o.rules_for(), body)))
        yield "text", "link_body.canonical body ≡ %s" % text
        yield "same", "link_body.same body %s ≡ true" % text


def main(args):
    if not 1 <= len(args) <= 3:
        sys.stderr.write("usage: as_facts.py CLONE [SEED [COUNT]]\n")
        return 3
    folder = os.path.join(args[0], GRAMMAR)
    seed, count = ([int(arg) for arg in args[1:]] + [1, 200][len(args) - 1:])[:2]
    lemmas, cases = 0, choose_bodies(seed, count)
    for number, start in enumerate(range(0, len(cases), BODIES_IN_A_FILE)):
        out = [HEAD]
        for k, body in enumerate(cases[start:start + BODIES_IN_A_FILE], start):
            name = "made%d" % k
            out.append("abbrev %s : List ℕ\n%s = %s\n" % (name, name, list_term(body)))
            for fact, statement in facts(body):
                lemmas += 1
                lemma = "%s-%s" % (name, fact)
                out.append("%s : %s\nunfolding everything\n%s = refl\n" % (lemma, statement.replace(" body", " " + name), lemma))
        with open(os.path.join(folder, "Made%d.antt" % number), "w", encoding="utf-8") as file:
            file.write("\n".join(out))
        with open(os.path.join(folder, "Lib.antt"), "a", encoding="utf-8") as file:
            file.write("pub mod Made%d\n" % number)
    print("%d bodies, %d facts" % (len(cases), lemmas))
    return 0


if __name__ == "__main__":
    sys.exit(main(sys.argv[1:]))
