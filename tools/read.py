"""What strsolve reads, by name. docs/PROFILE.md says it in words."""

# The words that are no names where they stand without bars: in terms, and as commands.
TERM_WORDS = set("forall exists match as !".split())
COMMANDS = set(
    """assert check-sat check-sat-assuming declare-const declare-datatype declare-datatypes declare-fun declare-sort
    define-fun define-fun-rec define-funs-rec define-sort echo exit get-assertions get-assignment get-info get-model
    get-option get-proof get-unsat-assumptions get-unsat-core get-value pop push reset reset-assertions set-info
    set-logic set-option""".split()
)
RESERVED = TERM_WORDS | COMMANDS | set("_ let par BINARY DECIMAL HEXADECIMAL NUMERAL STRING".split())
LOGICS = ["ALL", "QF_S", "QF_SLIA"]
OPTIONS = [":print-success", ":produce-models", ":produce-unsat-assumptions", ":global-declarations"]
INFOS = [":name", ":version", ":authors", ":error-behavior", ":reason-unknown"]
# What each symbol that is read takes and makes. S is any sort, the same in each place; `..` is more of the last one.
SYMBOLS = {
    "true": ("", "Bool"), "false": ("", "Bool"), "not": ("Bool", "Bool"), "and": ("Bool ..", "Bool"),
    "or": ("Bool ..", "Bool"), "=>": ("Bool Bool ..", "Bool"), "xor": ("Bool Bool ..", "Bool"),
    "ite": ("Bool S S", "Bool"), "=": ("S S ..", "Bool"), "distinct": ("S S ..", "Bool"), "str.++": ("String ..", "String"),
    "str.in_re": ("String RegLan", "Bool"), "str.prefixof": ("String String", "Bool"),
    "str.suffixof": ("String String", "Bool"), "str.contains": ("String String", "Bool"), "str.to_re": ("String", "RegLan"), "re.range": ("String String", "RegLan"),
    "re.none": ("", "RegLan"), "re.all": ("", "RegLan"), "re.allchar": ("", "RegLan"), "re.++": ("RegLan ..", "RegLan"),
    "re.union": ("RegLan ..", "RegLan"), "re.inter": ("RegLan ..", "RegLan"), "re.diff": ("RegLan RegLan ..", "RegLan"),
    "re.*": ("RegLan", "RegLan"), "re.+": ("RegLan", "RegLan"), "re.opt": ("RegLan", "RegLan"),
    "re.comp": ("RegLan", "RegLan"), "re.^": ("RegLan", "RegLan"), "re.loop": ("RegLan", "RegLan"),
}
# So many indices as these symbols take, with an example.
INDEXED = {"re.^": (1, "((_ re.^ 3) R)"), "re.loop": (2, "((_ re.loop 1 3) R)")}
# The sorts of the theories' symbols that are left out; the last three are old names of symbols that are read.
LEFT_OUT = {
    **dict.fromkeys("<= < >= > str.< str.<= str.is_digit".split(), "Bool"),
    **dict.fromkeys("+ - * div mod abs str.len str.indexof str.to_code str.to_int".split(), "Int"),
    **dict.fromkeys("str.at str.substr str.replace str.replace_all str.replace_re".split(), "String"),
    **dict.fromkeys("str.replace_re_all str.from_code str.from_int".split(), "String"),
    "str.in.re": "Bool", "str.to.re": "RegLan", "re.nostr": "RegLan",
}
