#!/usr/bin/env python3
"""Writes everything that follows from the layout of the octets of a record and of a table of pending messages, from the one table of
structs below: the constants that the code slices by, what the octets mean and the octets of a value with their laws
(crates/record_octets, crates/table_octets), the places that the C header asserts and the mark of the layout's number (include/pruvelaccio_layout.h,
host/pruvelaccio/src/layout.rs), and docs/LAYOUT.md. No place is written by hand anywhere.

    layout/generate.py           writes the files
    layout/generate.py --check   fails where a file is not what the table gives

Either fails, and writes nothing, where the table of structs has changed and LAYOUT has not been raised.

The layout is that of the #[repr(C)] structs of crates/text, crates/optional, crates/header, crates/order and crates/table: a number is four
octets, the low one first; a flag is one octet, set unless it is 0; the characters of a text are one octet each. A flag in front of a number
has three octets behind it that nothing uses, and the requests of a row have one.
"""
import hashlib
import os
import sys

ROOT = os.path.join(os.path.dirname(os.path.abspath(__file__)), "..")

# The number of the layout. The library exports a symbol with this number, every program that is built against the C header or the Rust crate
# asks for it, and what is saved begins with it: so octets of one layout are never taken for octets of another. A change of the structs below
# raises it by one, and the digest of the new table of structs goes behind the others; a digest that stands here never changes.
LAYOUT = 1
DIGESTS = {
    1: "02ccf88a077665bee8d5a201bf55f1a229fb4a98022a76206aec1126142f9b16",
}

# kind: octets, meaning, octets of a value, words
LEAVES = {
    "word": (4, "word_in", "word_octets", "number"),
    "flag": (1, "flag_in", "flag_octets", "flag"),
    "mark": (4, "flag_in", "mark_octets", "flag, then 3 unused"),
    "chars": (64, None, None, "64 characters"),
    "unused": (1, None, None, "unused"),
}

# struct, the crate that declares it, and its fields in order: the name of a kind, of a struct, or a struct with how many of them
RECORD = [
    ("OptionalNumber", "optional", [("present", "mark"), ("value", "word")]),
    ("Text", "text", [("chars", "chars"), ("len", "word")]),
    ("OptionalText", "header", [("present", "mark"), ("text", "Text")]),
    ("Address", "header", [("urn", "OptionalNumber"), ("name", "OptionalText")]),
    ("OptionalAddress", "header", [("present", "mark"), ("address", "Address")]),
    ("Addresses", "header", [("list", ("Address", 16)), ("count", "word")]),
    ("OptionalAddresses", "header", [("present", "mark"), ("addresses", "Addresses")]),
    ("Front", "header", [("version", "word"), ("compression", "OptionalNumber"), ("originator", "OptionalAddress"),
                         ("recipients", "OptionalAddresses"), ("information", "OptionalAddresses")]),
    ("Date", "header", [("year", "word"), ("month", "word"), ("day", "word")]),
    ("Time", "header", [("hour", "word"), ("minute", "word"), ("second", "word")]),
    ("Dtg", "header", [("date", "Date"), ("time", "Time")]),
    ("OptionalDtg", "header", [("present", "mark"), ("dtg", "Dtg")]),
    ("Stamp", "header", [("dtg", "Dtg"), ("extension", "OptionalNumber")]),
    ("OptionalStamp", "header", [("present", "mark"), ("stamp", "Stamp")]),
    ("Identity", "header", [("fad", "word"), ("number", "word"), ("subtype", "OptionalNumber")]),
    ("OptionalIdentity", "header", [("present", "mark"), ("identity", "Identity")]),
    ("Format", "header", [("umf", "word"), ("version", "OptionalNumber"), ("identity", "OptionalIdentity"), ("file", "OptionalText")]),
    ("Codes", "header", [("operation", "word"), ("retransmit", "word"), ("precedence", "word"), ("classification", "word")]),
    ("Handling", "header", [("size", "OptionalNumber"), ("codes", "Codes"), ("marking", "OptionalText")]),
    ("Requests", "header", [("machine", "flag"), ("acknowledge", "flag"), ("reply", "flag")]),
    ("OptionalRequests", "header", [("present", "flag"), ("requests", "Requests")]),
    ("Times", "header", [("origin", "OptionalStamp"), ("perish", "OptionalDtg"), ("requests", "OptionalRequests")]),
    ("Compliance", "header", [("code", "word"), ("cantco", "OptionalNumber"), ("cantpro", "OptionalNumber")]),
    ("Response", "header", [("stamp", "Stamp"), ("compliance", "Compliance"), ("amplification", "OptionalText")]),
    ("OptionalResponse", "header", [("present", "mark"), ("response", "Response")]),
    ("Reference", "header", [("address", "Address"), ("stamp", "Stamp")]),
    ("References", "header", [("list", ("Reference", 4)), ("count", "word")]),
    ("OptionalReferences", "header", [("present", "mark"), ("references", "References")]),
    ("Block", "header", [("format", "Format"), ("handling", "Handling"), ("times", "Times"),
                         ("response", "OptionalResponse"), ("references", "OptionalReferences")]),
    ("Blocks", "header", [("list", ("Block", 16)), ("count", "word")]),
    ("Header", "header", [("front", "Front"), ("sized", "mark"), ("blocks", "Blocks")]),
]
TABLE = [
    ("Key", "order", [("address", "Address"), ("stamp", "Stamp")]),
    ("Recipient", "table", [("address", "Address"), ("machine", "word"), ("acknowledge", "word"), ("reply", "word")]),
    ("Row", "table", [("key", "Key"), ("asked", "Requests"), (None, "unused"), ("recipients", ("Recipient", 16)), ("count", "word")]),
    ("Table", "table", [("rows", ("Row", 32)), ("count", "word")]),
]
STRUCTS = RECORD + TABLE
FIELDS = {name: fields for name, _, fields in STRUCTS}
CRATE = {name: crate for name, crate, _ in STRUCTS}


def snake(name):
    return "".join("_" + c.lower() if c.isupper() else c for c in name).lstrip("_")


def size(kind):
    if isinstance(kind, tuple):
        return kind[1] * size(kind[0])
    if kind in LEAVES:
        return LEAVES[kind][0]
    return sum(size(k) for _, k in FIELDS[kind])


def places(name):
    """each field with its kind, its offset and its size"""
    at, found = 0, []
    for field, kind in FIELDS[name]:
        found.append((field, kind, at, size(kind)))
        at += size(kind)
    return found


# ---------------------------------------------------------------- the number of the layout

def digest():
    """of all that says where an octet of a struct stands and what it is; which crate declares a struct says nothing of that"""
    text = ""
    for name, _, _ in STRUCTS:
        text += "%s %d\n" % (name, size(name))
        for field, kind, at, n in places(name):
            text += "%s %s %d %d\n" % (field, kind_words(kind), at, n)
    return hashlib.sha256(text.encode("utf-8")).hexdigest()


def unraised():
    """why the number does not belong to the structs, in words; nothing where it does"""
    if DIGESTS.get(LAYOUT) == digest() and LAYOUT == max(DIGESTS):
        return None
    return "layout/generate.py: the table of structs is not that of layout %d: raise LAYOUT, and put this line behind the other digests:\n    %d: \"%s\"," % (
        LAYOUT, max(DIGESTS) + 1, digest())


# ---------------------------------------------------------------- crates/record_octets: constants

def constants(structs, what, sizes):
    out = """// The layout of the octets of %s: for each struct a module `in_..` with the place of each of its fields, counted from the struct's own first
// octet, and END, its size; of a list also ENTRY, the size of an entry. A field ends where the next one starts. Written by layout/generate.py; what the octets mean is in specs/.
#![tactic(auto)]
""" % what
    for constant, name, words in sizes:
        out += "\n// The octets of %s.\npub const %s: usize = %d;\n" % (words, constant, size(name))
    for name, _, _ in structs:
        found = [(field.upper() if field else "UNUSED", at) for field, _, at, _ in places(name)]
        found += [("ENTRY", size(kind[0])) for _, kind, _, _ in places(name) if isinstance(kind, tuple)]
        found.append(("END", size(name)))
        out += "\npub mod in_%s {\n%s}\n" % (snake(name), "\n".join("    pub const %s: usize = %d;\n" % c for c in found))
    return out


# ---------------------------------------------------------------- crates/record_octets: meaning

def cells(structs):
    return "use Rattle.cells.specs.Cells.{part, %sword_in, word_octets, flag_in, flag_octets, mark_octets, many, many_octets}\n" % ("zeros, " if structs is TABLE else "")


def declared(structs):
    return "".join("use Rattle.%s.specs.declared.%s.{%s}\n" % (crate, name, name) for name, crate, _ in structs)


def borrowed(structs):
    """the structs of a record that others are made of"""
    own = {name for name, _, _ in structs}
    used = []
    for _, _, fields in structs:
        for _, kind in fields:
            name = kind[0] if isinstance(kind, tuple) else kind
            if name not in LEAVES and name not in own and name not in used:
                used.append(name)
    return used


def used_from(structs, path, names):
    """what is used of the crate of a record's octets"""
    found = [each for name in borrowed(structs) for each in names(name)]
    return "use Rattle.record_octets.%s.{%s}\n" % (path, ", ".join(found)) if found else ""


def held(term):
    """a term as an argument"""
    return "(%s)" % term if " " in term else term


def field_name(field):
    return field or "unused"


def means(kind):
    return LEAVES[kind][1] if kind in LEAVES else snake(kind) + "_in"


def gives(kind):
    return LEAVES[kind][2] if kind in LEAVES else snake(kind) + "_octets"


def in_and_octets(name):
    return ["%s_in" % snake(name), "%s_octets" % snake(name)]


def meaning(kind, at, n):
    if kind == "chars":
        return "part %d %d s" % (at, n)
    if isinstance(kind, tuple):
        return "many %s %d %d (part %d %d s)" % (means(kind[0]), size(kind[0]), kind[1], at, n)
    return "%s (part %d %d s)" % (means(kind), at, n)


def image(kind, field):
    if kind == "unused":
        return "zeros 1"
    if kind == "chars":
        return "x.%s" % field
    if isinstance(kind, tuple):
        return "many_octets %s x.%s" % (gives(kind[0]), field)
    return "%s x.%s" % (gives(kind), field)


def held_fields(name):
    """the fields that the struct has, without the octets that nothing uses"""
    return [(field, kind, at, n) for field, kind, at, n in places(name) if field]


def octets_spec(structs, what):
    out = """-- What the octets of %s hold, and the octets of %s, struct by struct: each is about the octets that are the struct's own. Any octets are
-- some %s. Written by layout/generate.py.
use Rattle.std.specs.Prelude.{ℕ, List, ◌++◌}
""" % (what, what, what.split()[1]) + cells(structs) + declared(structs) + used_from(structs, "specs.Record", in_and_octets)
    for name, _, fields in structs:
        out += "\nabbrev pub size_of_%s : ℕ\nsize_of_%s = %d\n" % (snake(name), snake(name), size(name))
        out += "\nunfoldable pub %s_in : List ℕ → %s\n" % (snake(name), name)
        out += "%s_in s = record { %s }\n" % (snake(name), "; ".join("%s = %s" % (f, meaning(k, at, n)) for f, k, at, n in held_fields(name)))
        out += "\nunfoldable pub %s_octets : %s → List ℕ\n" % (snake(name), name)
        out += "%s_octets x = %s\n" % (snake(name), " ++ ".join(image(k, f) for f, k in fields))
        if structs is TABLE:
            for field, _, at, _ in held_fields(name):
                out += "\nabbrev pub at_%s_%s : ℕ\nat_%s_%s = %d\n" % (snake(name), field, snake(name), field, at)
        for field, kind, _, _ in places(name):
            if isinstance(kind, tuple):
                out += "\nabbrev pub size_of_%s_%s : ℕ\nsize_of_%s_%s = %d\n" % (snake(name), field, snake(name), field, size(kind))
                if [f for f, _ in fields] == ["list", "count"]:
                    out += "\n-- of the octets of the list, and a count\nabbrev pub %s_of : List ℕ → ℕ → %s\n" % (snake(name), name)
                    out += "%s_of s n = record { list = many %s %d %d s; count = n }\n" % (snake(name), means(kind[0]), size(kind[0]), kind[1])
    return out


# ---------------------------------------------------------------- crates/record_octets: what the declared types say

def limited(kind):
    """whether the type says anything of a value of this kind"""
    if isinstance(kind, tuple) or kind in ("word", "chars"):
        return True
    return kind not in LEAVES and any(limited(k) for _, k in FIELDS[kind])


def limits(structs):
    return [name for name, _, _ in structs if limited(name)]


def typed_name(name):
    return ["Typed" + name] if limited(name) else []


def typed_spec(structs, whose):
    out = """-- What the declared types say of %s values, struct by struct: numbers are below 2^32, arrays have their cells. Every value that code holds is so
-- (proofs/Declared.antt). Written by layout/generate.py.
use Rattle.std.specs.Prelude.{ℕ, ◌<◌, ◌≡◌, List, length}
use Rattle.cells.specs.Cells.{Each}
""" % whose + "".join("use Rattle.%s.specs.declared.%s.{%s}\n" % (CRATE[n], n, n) for n in limits(structs)) + used_from(structs, "specs.Typed", typed_name)
    for name in limits(structs):
        out += "\npub record Typed%s (x : %s) : Type 0 where\n" % (name, name)
        for field, kind in FIELDS[name]:
            if kind == "word":
                out += "  pub %s : x.%s < 4294967296\n" % (field, field)
            elif kind == "chars":
                out += "  pub %s : length x.%s ≡ 64\n" % (field, field)
            elif isinstance(kind, tuple):
                out += "  pub %s : (length x.%s ≡ %d) × Each Typed%s x.%s\n" % (field, field, kind[1], kind[0], field)
            elif limited(kind):
                out += "  pub %s : Typed%s x.%s\n" % (field, kind, field)
    return out


# ---------------------------------------------------------------- crates/record_octets: laws

def laws_of(kind, field):
    """the law of a field's length, and the law that its octets hold it"""
    if kind == "unused":
        return "refl", None
    if kind == "word":
        return "word-long x.%s" % field, "word-back x.%s h.%s" % (field, field)
    if kind in ("flag", "mark"):
        return "%s-long x.%s" % (kind, field), "%s-back x.%s" % (kind, field)
    if kind == "chars":
        return "h.%s" % field, None
    if isinstance(kind, tuple):
        n = kind[0]
        rest = "%s_in %s_octets Typed%s %d %s-long %s-back x.%s %d h.%s.0 h.%s.1" % (snake(n), snake(n), n, size(n), snake(n), snake(n), field, kind[1], field, field)
        return "many-long " + rest, "many-back " + rest
    rest = " x.%s" % field + (" h.%s" % field if limited(kind) else "")
    return snake(kind) + "-long" + rest, snake(kind) + "-back" + rest


def back_proofs(structs, crate, module):
    out = """-- A struct's octets are as many as it has, and they hold the struct. Assumes nothing. Written by layout/generate.py.
use Prim.Native.Nat.{ℕ, ◌+◌}
use mathlib.Core.Path.{◌≡◌, refl, sym, ap, ◌∙◌}
use mathlib.Core.List.{List, [], ◌++◌}
use native.Mathlib.Omega.{arith}
use lib.ListN.{length}
""" + cells(structs) + """use Rattle.cells.proofs.Parts.{join, part-last, part-front, word-long, word-back, flag-long, flag-back, mark-long, mark-back, many-long, many-back}
""" + declared(structs)
    out += used_from(structs, "specs.Record", in_and_octets) + used_from(structs, "proofs.Back", lambda n: [snake(n) + "-long", snake(n) + "-back"])
    out += "use Rattle.%s.specs.%s.{%s}\n" % (crate, module, ", ".join("%s_in, %s_octets" % (snake(n), snake(n)) for n, _, _ in structs))
    out += "use Rattle.%s.specs.Typed.{%s}\n" % (crate, ", ".join("Typed" + n for n in limits(structs)))
    for name, _, fields in structs:
        given = "(x : %s)" % name + (" → Typed%s x" % name if limited(name) else "")
        named = "x h" if limited(name) else "x"
        found = places(name)
        images = [image(k, f) for f, k in fields]
        front = ["[]"] + [" ++ ".join(images[:j + 1]) for j in range(len(images))]
        lets = ""
        for j, (field, kind, at, n) in enumerate(found):
            lets += "    let l%d : length %s ≡ %d = %s in\n" % (j, held(images[j]), n, laws_of(kind, field)[0])
        lets += "    let p1 : length %s ≡ %d = l0 in\n" % (held(front[1]), found[0][3])
        for j in range(1, len(found)):
            _, _, at, n = found[j]
            lets += "    let p%d : length %s ≡ %d = join %s %s %d %d p%d l%d in\n" % (j + 1, held(front[j + 1]), at + n, held(front[j]), held(images[j]), at, n, j, j)
        out += "\npub %s-long : %s → length (%s_octets x) ≡ %d\nunfolding %s_octets\n%s-long %s =\n%s    p%d\n" % (
            snake(name), given, snake(name), size(name), snake(name), snake(name), named, lets, len(found))
        out += "\npub %s-back : %s → %s_in (%s_octets x) ≡ x\nunfolding %s_in %s_octets\n%s-back %s =\n%s" % (
            snake(name), given, snake(name), snake(name), snake(name), snake(name), snake(name), named, lets)
        last = len(found)
        parts = []
        for j, (field, kind, at, n) in enumerate(found):
            if not field:
                continue
            steps = ["part-front %s %s %d %d %d p%d (omega arith)" % (held(front[q]), held(images[q]), found[q][2], at, n, q) for q in range(last - 1, j, -1)]
            steps.append("part-last %s %s %d %d %s l%d" % (held(front[j]), held(images[j]), at, n, "p%d" % j if j else "refl", j))
            out += "    let e%d : part %d %d %s ≡ %s = %s in\n" % (j, at, n, held(front[last]), images[j], " ∙ ".join(steps))
            back = laws_of(kind, field)[1]
            if kind == "chars":
                parts.append("%s = e%d i" % (field, j))
            elif isinstance(kind, tuple):
                parts.append("%s = (ap (many %s %d %d) e%d ∙ %s) i" % (field, means(kind[0]), size(kind[0]), kind[1], j, back))
            else:
                parts.append("%s = (ap %s e%d ∙ %s) i" % (field, means(kind), j, back))
        out += "    λ i. record { %s }\n" % "; ".join(parts)
    return out


def declared_proofs(structs, crate):
    out = """-- Every value of a declared type is as its type says: what the type says of the machine's value says how large numbers are, and how many cells arrays
-- have. Assumes nothing. Written by layout/generate.py.
use mathlib.Core.List.{List, [], ◌∷◌}
use mir.Val.{Val}
use denote.Array.{each}
use denote.Laws.{Is}
use denote.Shadow.{shadow}
use denote.Struct.Declared as declared
use Rattle.cells.specs.Cells.{Each}
"""
    for name in limits(structs):
        out += "use Rattle.%s.specs.declared.%s.{%s}\nuse Rattle.%s.specs.contracts.%s as «%s»\n" % (CRATE[name], name, name, CRATE[name], name, snake(name))
    out += used_from(structs, "proofs.Declared", lambda n: [snake(n) + "-typed"] if limited(n) else [])
    out += "use Rattle.%s.specs.Typed.{%s}\n" % (crate, ", ".join("Typed" + n for n in limits(structs)))
    entries = {kind[0] for fields in FIELDS.values() for _, kind in fields if isinstance(kind, tuple)}
    for name in limits(structs):
        parts = []
        for j, (field, kind, _, _) in enumerate(held_fields(name)):
            at = "p.1.1" + ".1" * j + ".0"
            if kind == "word":
                parts.append("%s = %s.1" % (field, at))
            elif kind == "chars":
                parts.append("%s = %s.1.0.1" % (field, at))
            elif isinstance(kind, tuple):
                parts.append("%s = (%s.1.0.1, %s-each x.%s %s.0 %s.1.1)" % (field, at, snake(kind[0]), field, at, at))
            elif limited(kind):
                parts.append("%s = %s-typed x.%s _ %s" % (field, snake(kind), field, at))
        out += "\npub %s-typed : (x : %s) (vs : List Val) → Is (declared.row «%s».the_type) x vs → Typed%s x\n%s-typed x vs p = record { %s }\n" % (
            snake(name), name, snake(name), name, snake(name), "; ".join(parts))
        if name in entries:
            the = "«%s».the_row" % snake(name)
            out += "\n%s-each : (l : List %s) (us : List Val) → shadow (each (%s).Denot (%s).own_val l us) → Each Typed%s l\n" % (snake(name), name, the, the, name)
            out += "%s-each [] us s = tt\n%s-each (x ∷ l) [] s = absurd s\n%s-each (x ∷ l) (u ∷ us) s = (%s-typed x _ s.0, %s-each l us s.1)\n" % ((snake(name),) * 5)
    return out


# ---------------------------------------------------------------- include/pruvelaccio_layout.h

def c_asserts():
    out = """/*
 * The layout of the octets of a record and of a table: its number, and its places, asserted of the structs
 * of pruvelaccio.h, which includes this file behind them: the place of each field, counted from its struct's
 * first octet, its octets, and the octets of each struct. The library reads and changes what it is lent by
 * these numbers; a compiler that lays a struct out otherwise stops here. Written by layout/generate.py.
 */
#ifndef PRUVELACCIO_LAYOUT_H
#define PRUVELACCIO_LAYOUT_H

/* The number of this layout. Saved octets begin with it. */
#define PRUVELACCIO_LAYOUT %(n)d

/*
 * The library's mark of the same number. Every file that includes this header asks for it, so that a program
 * and a library of different layouts do not link.
 */
uint32_t pruvelaccio_layout_%(n)d(void);
static uint32_t (*const pruvelaccio_layout_mark)(void) PRUVELACCIO_KEPT = pruvelaccio_layout_%(n)d;

/* The octets of what is lent to the library. */
#define PRUVELACCIO_RECORD_OCTETS %(record)d
#define PRUVELACCIO_TABLE_OCTETS %(table)d
#define PRUVELACCIO_KEY_OCTETS %(key)d

#define PRUVELACCIO_STRUCT(type, octets) \\
    PRUVELACCIO_ASSERT(sizeof(pruvelaccio_##type) == octets, "octets of " #type)
#define PRUVELACCIO_FIELD(type, field, place, octets)                                               \\
    PRUVELACCIO_ASSERT(offsetof(pruvelaccio_##type, field) == place, "place of " #type "." #field); \\
    PRUVELACCIO_ASSERT(sizeof(((pruvelaccio_##type *)0)->field) == octets, "octets of " #type "." #field)
""" % {"n": LAYOUT, "record": size("Header"), "table": size("Table"), "key": size("Key")}
    for name, _, _ in STRUCTS:
        out += "\nPRUVELACCIO_STRUCT(%s, %d);\n" % (snake(name), size(name))
        for field, kind, at, octets in held_fields(name):
            # the three octets behind a mark are padding in C
            out += "PRUVELACCIO_FIELD(%s, %s, %d, %d);\n" % (snake(name), field, at, 1 if kind == "mark" else octets)
    out += "\n#undef PRUVELACCIO_STRUCT\n#undef PRUVELACCIO_FIELD\n\n#endif\n"
    return out


# ---------------------------------------------------------------- host/pruvelaccio/src/layout.rs

def grouped(number):
    return format(number, "_")


def rust_mark():
    out = """//! The number of the layout, the octets of the structs that go over to the library, and the mark that ties a program to a library of the same
//! layout. Written by layout/generate.py.

/// The number of the layout. Saved octets begin with it.
pub const LAYOUT: u32 = %d;
""" % LAYOUT
    for constant, name, words in [("RECORD", "Header", "a record"), ("TABLE", "Table", "a table"), ("KEY", "Key", "a key")]:
        out += "\n/// The octets of %s.\npub const %s: usize = %s;\n" % (words, constant, grouped(size(name)))
    out += """
extern "C" {
    /// The library's mark of the same number: a library of another layout has another name there, and does not link.
    pub fn pruvelaccio_layout_%(n)d() -> u32;
}

#[used]
static MARK: unsafe extern "C" fn() -> u32 = pruvelaccio_layout_%(n)d;
""" % {"n": LAYOUT}
    return out


# ---------------------------------------------------------------- docs/LAYOUT.md

def kind_words(kind):
    if isinstance(kind, tuple):
        return "%d times %s, %d octets each" % (kind[1], kind[0], size(kind[0]))
    return LEAVES[kind][3] if kind in LEAVES else kind


def layout_doc():
    out = """# The layout of a record and of a table

Written by `layout/generate.py` from its table of structs; `layout/generate.py --check`, which the gate runs, fails where this page, the
constants of `crates/record_octets` and `crates/table_octets`, their definitions and laws, or the places that
`include/pruvelaccio_layout.h` asserts are not what that table gives.

This is layout %d. The library exports its number, a program of another layout does not link with it, and what is saved begins with it.

A record is %s octets. Any octets are some record: `header_in` of `crates/record_octets/specs/Record.antt` says which one. A number is four
octets, the low one first. A flag is one octet, set unless it is 0. A character is one octet. What a record holds where nothing is
present, and behind a count, is unused and carries no meaning; neither do the octets between a flag and the number behind it. A record
that `read` fills has 0 in all of them (`header_octets`).

A table of pending messages is %s octets, and a key %s. Any octets are some table: `table_in` of `crates/table_octets/specs/Table.antt` says
which one, and `key_in` which key. What lies behind a count carries no meaning.

The places below count from the struct's own first octet. The structs are those of `crates/table`, `crates/order`, `crates/header`,
`crates/text` and `crates/optional`, of `include/pruvelaccio.h` and of the Rust crate.
""" % ((LAYOUT,) + tuple(format(size(name), ",") for name in ("Header", "Table", "Key")))
    for name, _, _ in reversed(STRUCTS):
        out += "\n## %s: %s octets\n\n| field | place | octets | kind |\n|---|---|---|---|\n" % (name, format(size(name), ","))
        for field, kind, at, n in places(name):
            out += "| %s | %s | %s | %s |\n" % ("`%s`" % field if field else "", format(at, ","), format(n, ","), kind_words(kind))
    return out


FILES = {
    "crates/record_octets/src/lib.rt": lambda: constants(RECORD, "a record", [("RECORD", "Header", "a record")]),
    "crates/record_octets/specs/Lib.antt": lambda: "pub mod Record\npub mod Typed\n",
    "crates/record_octets/specs/Record.antt": lambda: octets_spec(RECORD, "a record"),
    "crates/record_octets/specs/Typed.antt": lambda: typed_spec(RECORD, "a record's"),
    "crates/record_octets/proofs/Lib.antt": lambda: "pub mod Back\npub mod Declared\n",
    "crates/record_octets/proofs/Back.antt": lambda: back_proofs(RECORD, "record_octets", "Record"),
    "crates/record_octets/proofs/Declared.antt": lambda: declared_proofs(RECORD, "record_octets"),
    "crates/table_octets/src/lib.rt": lambda: constants(TABLE, "a table", [("TABLE", "Table", "a table"), ("KEY", "Key", "a key")]),
    "crates/table_octets/specs/Table.antt": lambda: octets_spec(TABLE, "a table"),
    "crates/table_octets/specs/Typed.antt": lambda: typed_spec(TABLE, "a table's"),
    "crates/table_octets/proofs/Back.antt": lambda: back_proofs(TABLE, "table_octets", "Table"),
    "crates/table_octets/proofs/Declared.antt": lambda: declared_proofs(TABLE, "table_octets"),
    "include/pruvelaccio_layout.h": c_asserts,
    "host/pruvelaccio/src/layout.rs": rust_mark,
    "docs/LAYOUT.md": layout_doc,
}


def main():
    if unraised():
        print(unraised())
        return 1
    wrong = []
    for path, text in FILES.items():
        full = os.path.join(ROOT, path)
        made = text()
        if "--check" in sys.argv[1:]:
            if not os.path.exists(full) or open(full, encoding="utf-8").read() != made:
                wrong.append(path)
        else:
            os.makedirs(os.path.dirname(full), exist_ok=True)
            with open(full, "w", encoding="utf-8") as f:
                f.write(made)
    for path in wrong:
        print("%s is not what layout/generate.py writes" % path)
    return 1 if wrong else 0


if __name__ == "__main__":
    sys.exit(main())
