"""The listed texts of descriptions, the fields that go together, and the bits of sets, each written once."""

# Attributes of output and input sections.
ALLOCATED, WRITABLE, EXECUTABLE, THREAD_LOCAL, ZERO_FILL = 1, 2, 4, 8, 16
ALL_ATTRIBUTES = 31
INPUT_ATTRIBUTES = WRITABLE | EXECUTABLE

# Flags of symbols: those that are handed in, those that references give, and the sets of them.
HANDED_IN = ("ABSOLUTE", "DYNAMIC", "IFUNC", "DOWNGRADE_LOCAL", "GROUP_SIGNATURE", "INTERPOSABLE")
RESOLVED = (
    *("DIRECT", "GOT", "PLT", "GOT_TLS_OFFSET", "GOT_TLS_MODULE", "GOT_TLS_DESCRIPTOR"),
    *("SYMBOL_SIZE", "EXPORT_DYNAMIC"),
)
FLAGS = {name: 1 << bit for bit, name in enumerate((*HANDED_IN, *RESOLVED))}
# A set of flags that are handed in is below this.
HANDED_IN_FLAGS = 1 << len(HANDED_IN)
# The flag of a symbol that is named where a thunk may stand in.
NEAR_ALONE = 1 << len(FLAGS)

OUTPUTS = ("static", "dynamic", "shared", "partial")
DISCARDS = ("default", "all", "none")
EMITS = ("auto", "always", "never")
SEGMENT_KINDS = ("load", "tls", "stack", "other")
SLOTS = ("discard", "unloaded", "must", "debug", "mustdebug", "merge")
OUTSIDE_FILES = ("dynamic", "notloaded")
OWN_FILES = ("prelude", "synthetic", "script")
FILE_KINDS = ("prelude", "object", "dynamic", "notloaded", "synthetic", "script")

# Fields of the plan.
PLAN_TRUTHS = ("custom_base", "custom_phdrs", "phdrs_headers")
TABLE_PARTS = (
    *("got", "plt", "symtab_local", "symtab_global", "strtab", "dynsym", "dynstr"),
    *("file_header", "program_headers", "section_headers", "shstrtab"),
)
NAMED_PARTS = (*TABLE_PARTS, "comment", "primary")

# Lists whose first item tells what follows it: for each such text the shapes of what follows.
EVENTS = {
    **dict.fromkeys(("seg", "endseg", "sec"), ("index",)),
    "loc": ("expression",),
    "locrel": ("expression", "index"),
    "addr": ("expression",),
}
LOCATION_EVENTS = ("loc", "locrel")
OPERATORS = ("add", "sub", "mul", "div", "align", "max", "min")
EXPRESSIONS = {
    "num": ("number",),
    "dot": (),
    "headers": (),
    **dict.fromkeys(("sym", "addr", "sizeof", "origin", "length"), ("index",)),
    **dict.fromkeys(OPERATORS, ("expression", "expression")),
}
LOCATIONS = {"none": (), **dict.fromkeys(("start", "end", "counter"), ("index",))}
PLACEMENTS = {
    **dict.fromkeys(("sec", "common"), ("index", "number")),
    "abs": ("number",),
    **dict.fromkeys(("undef", "dyn", "undefined", "force", "tlsend", "loadbase"), ()),
    **dict.fromkeys(("start", "end", "groupend"), ("index",)),
    "redirect": ("expression", "location", "truth"),
}
PLACEMENTS_OF = {
    "object": ("sec", "common", "abs", "undef"),
    **dict.fromkeys(OUTSIDE_FILES, ("dyn", "undef")),
    **dict.fromkeys(
        OWN_FILES,
        ("undefined", "force", "start", "end", "groupend", "tlsend", "loadbase", "redirect"),
    ),
}

# Kinds of relocations, by what they want of their symbol.
WANTED = {
    ("PLT", "GOT"): ("PltRelative", "PltRelGotBase"),
    ("GOT",): ("Got", "GotRelGotBase", "GotRelative", "GotRelativeLoongArch64"),
    ("GOT_TLS_OFFSET",): ("GotTpOff", "GotTpOffLoongArch64", "GotTpOffGot", "GotTpOffGotBase"),
    ("GOT_TLS_MODULE",): ("TlsGd", "TlsGdGot", "TlsGdGotBase"),
    ("GOT_TLS_DESCRIPTOR",): (
        *("TlsDesc", "TlsDescLoongArch64", "TlsDescGot", "TlsDescGotBase", "TlsDescCall"),
    ),
    ("SHARED_TLS_MODULE",): ("TlsLd", "TlsLdGot", "TlsLdGotBase"),
    ("DIRECT",): (
        *("Absolute", "AbsoluteSet", "AbsoluteSetWord6", "AbsoluteAddition"),
        *("AbsoluteAdditionWord6", "AbsoluteSubtraction", "AbsoluteSubtractionWord6"),
        *("AbsoluteLowPart", "Relative", "RelativeRiscVLow12", "RelativeLoongArchHigh"),
        *("DtpOff", "TpOff", "SymRelGotBase", "PairSubtractionULEB128RiscV"),
        *("PairSubtractionULEB128LoongArch", "MachoSubtraction"),
    ),
    ("SYMBOL_SIZE",): ("SymbolSize",),
    (): ("None", "Alignment", "MachoAddition"),
}


def relocations_that(are_wanted):
    """The kinds of relocations, in their order, of which that holds of what they want."""
    return tuple(kind for wanted, kinds in WANTED.items() if are_wanted(wanted) for kind in kinds)


def want_entries(wanted):
    """Whether a part of the GOT or the PLT is among what is wanted."""
    return any(flag.startswith(("PLT", "GOT")) for flag in wanted)


def joined_flags(names):
    """The flags of a symbol with these names; what has another name is no flag of a symbol."""
    return sum(FLAGS.get(name, 0) for name in names)


def tables_of(wanted):
    """The tables of which entries are among what is wanted; thread-local entries are those of the GOT."""
    return {flag.split("_")[0] for flag in wanted if flag.startswith(("PLT", "GOT"))}


RELOCATIONS = relocations_that(lambda wanted: True)
TABLE_RELOCATIONS = relocations_that(want_entries)
PLAIN_RELOCATIONS = relocations_that(lambda wanted: not want_entries(wanted))
# For each kind the tables that it wants entries of, and the flags that it gives to its symbol, if any.
TABLES_OF = {kind: tables_of(wanted) for wanted, kinds in WANTED.items() for kind in kinds}
FLAGS_OF = {kind: joined_flags(wanted) for wanted, kinds in WANTED.items() for kind in kinds}
HAS_RESOLUTION = joined_flags(RESOLVED)
