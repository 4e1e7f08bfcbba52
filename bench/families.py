"""Writes a script of a family of memberships, of a size.

`coprime`: one constant in `(re.* w)` for words of one letter whose lengths are 2, 3, 5, .., and in `(re.+ (str.to_re "a"))`:
the intersection has as many derivatives as the product of the lengths, which is the size: 30, 210, 2310, 30030, 510510.
`dictionaries`: one constant in two unions of so many words that have no word in common.
`ranges`: one constant in so many `(re.+ (re.range ..))` that overlap.
`union`: one constant in `re.+` of a union of so many words.
`ends`: one constant in all fronts `w ALL` and all ends `ALL w` of the word of so many letters a to z in turn.
`runs`: the same of a word of so many times one letter.

Of all symbols, where LETTER is `[a-z]`:
`powers`: one constant in `[ab]{n}` and in `[ab]{n+1}`.
`loops`: one constant in `a{0,n}`, in `a{n,2n}`, and not in `a{n}`.
`trie`: one constant in a union of so many words, and not in the tree of their first characters.
`letters-short`, `letters`: one constant with each of so many letters, shorter than that, or 8 to so many more than 8 long.
`policies`: so many patterns that allow and so many that deny, written in two ways, and what is in one of them alone.
`unicode`: one constant in so many repeated unions of 40 ranges, and in none of the complements of others.
`same-place`: one constant with an a, and with a b, so many characters before its end.
`filters`: one constant that holds texts of some of five kinds, mail addresses, addresses of pages, IPv4, dates and UUIDs,
and none of the others: the first ten sizes are the twos, the next ten the threes.
`equalities`: so many constants, each equal to a literal of its own.

Of Boolean structure:
`access`: so many statements that allow and so many that deny, each some actions on some resources, and whether a new
policy, of which two statements are other, allows what the old one does not.
`clauses-sat`, `clauses`: clauses of three memberships or negated ones, over so many constants with four regular expressions
each: few clauses, and so many that no values are left.
`clauses-many`: ten times so many clauses of three memberships or negated ones, of which so many are there, that some words
make true.
`alternatives`: one constant in one of so many regular expressions, and in one of so many others, of which each two clash.

Of concatenations:
`blocks`: so many constants in `(ab)*`, the one longer than i blocks, each two neighbours joined in `(ab)*` too; a check, one
on a level where the first begins with b, and one behind it.
`links`: a chain of so many concatenations of two neighbours, in `(ab)+`.
`links-clash`: the same in `(ab)*`, where the first constant is of whole blocks and the last one is not.
`end-letter`: two constants joined in `[ab]*a[ab]{n}`, of which the first is in `b+`.
`fields`: so many fields without commas, joined between commas, in a line of one field more, which is written out.
`fields-diff`, `fields-fit`: the same where the fields are of `(re.diff re.allchar ..)` and the line is a power, of one field
more, and of as many.
`rings`: so many constants of one letter, each with the next, and the last with the first, in `ab` or `ba`: an odd ring.
`fan`: one constant of less than so many a, and behind it in so many concatenations another one of b, which together are
not i times a and then b, for each i.
`literals`: five constants of one letter at least, joined, equal to a literal of so many letters.
`literals-clash`: two constants, joined, equal to so many a, of which the second ends with b.
`trades`: what is put together of 5 to 8 parts, with a filter on each part and one on the whole: the odd ones are refused,
the even ones get through: a URL, a mail address, a line of a log, an SQL query, an HTTP header.
`injections`: user input between quotes in a query, with the filter that stops it, and one that lets it out of its quotes.

Of prefixes, suffixes and factors:
`blocklist`: one constant of letters around a hyphen, with one of so many forbidden fragments but for its first letter, and
with none of the fragments.
`blocklist-clash`: the same, and one of the fragments stands in it, with letters behind it.
`routes`: so many routes, each a prefix, of which the first one that fits is taken: one constant that the last takes.
`routes-shadowed`: the same where an earlier route is a prefix of the last one.
`factor`: one constant of 20 letters at least that is a factor of a text of so many letters, and not of another that differs
in its middle.

Of definitions and `let`:
`shared`: a truth value of two constants that is made of the one before twice, so often: a tree of two to the size leaves.
`chain`: so many definitions, each the one before and that the constant is not one more word.
`uses`: so many uses of one definition with two parameters.
`bindings`: one `let` of so many names, and what holds of all.
`parameters`: so many definitions, each with 100 parameters, and a use of each.

And scripts of so many checks, each behind a new assertion:
`checked-classes`: one constant in one more range of characters each time.
`checked-constants`: one more constant each time, in a range of characters.
`checked-addresses`: one more constant each time, in a regular expression of mail addresses.
`checked-denied`: the same as `checked-constants`, behind one denied membership of another constant.
`checked-structure`: the same as `checked-constants`, behind two memberships of another constant in an `or`.
`checked-clauses`: one more clause of three memberships each time, over 20 constants.

And scripts of levels:
`rounds`: 100 constants in rules that stay, and so many rounds of a level with one more rule and a check.
`levels`: so many levels, each with one more letter that one constant begins with and a check, and back with a check at
each.
`denied-levels`: so many levels, each with one more word that one of five constants is not, and a check.
`pairs`: so many levels that are opened and left at once.

And of checks under assumptions:
`assumed`: so many assumptions, each of one more word that one constant is not, but for two that clash.
`assumed-rounds`: 100 constants in rules that are assumed, and so many rounds of a check with one more assumption, of 100
others that stand in front of one more rule each.
`assumed-shrunk`: so many assumptions, of which two clash, and what a client asks that leaves out one after the other, as
long as the others clash: so many checks.
"""
import itertools
import random
import sys

LENGTHS = [2, 3, 5, 7, 11, 13, 17]


def word(letters, number, length):
    text = ""
    for _ in range(length):
        text = letters[number % len(letters)] + text
        number //= len(letters)
    return text


def in_re(regex):
    return f"(assert (str.in_re x {regex}))\n"


def to_re(text):
    return f'(str.to_re "{text}")'


def union(words):
    return "(re.union " + " ".join(to_re(w) for w in words) + ")"


def coprime(size):
    states, text = 1, in_re('(re.+ (str.to_re "a"))')
    for length in LENGTHS:
        if states < size:
            states *= length
            text += in_re(f"(re.* {to_re('a' * length)})")
    return text


def dictionaries(size):
    letters = "abcdefghijklmnopqrstuvwxyz"
    order = random.Random(size).sample(range(26 ** 4), 2 * size)
    first = [word(letters, 2 * number, 6) for number in order[:size]]
    second = [word(letters, 2 * number + 1, 6) for number in order[size:]]
    return in_re(union(first)) + in_re(union(second))


def ranges(size):
    text = ""
    for number in range(size):
        low, high = chr(ord("a") + number % 12), chr(ord("o") + number % 12)
        text += in_re(f'(re.+ (re.range "{low}" "{high}"))')
    return text


def of_union(size):
    order = random.Random(size).sample(range(26 ** 4), size)
    words = [word("abcdefghijklmnopqrstuvwxyz", number, 4) for number in order]
    return in_re(f"(re.+ {union(words)})")


def one_more(name, regex):
    return f"(declare-const {name} String)\n(assert (str.in_re {name} {regex}))\n(check-sat)\n"


def checked_classes(size):
    text = ""
    for number in range(size):
        low, high = chr(ord("a") + number % 12), chr(ord("o") + number % 12)
        text += in_re(f'(re.range "{low}" "{high}")') + "(check-sat)\n"
    return text


def checked_constants(size):
    return "".join(one_more(f"y{number}", '(re.range "a" "m")') for number in range(size))


def checked_denied(size):
    return f"(declare-const z String)\n(assert (not {in_text('z', 're.none')}))\n" + checked_constants(size)


def checked_structure(size):
    either = f"(or {in_text('z', to_re('a'))} {in_text('z', to_re('b'))})"
    return f"(declare-const z String)\n(assert {either})\n" + checked_constants(size)


def checked_addresses(size):
    letters = '(re.+ (re.union (re.range "a" "z") (re.range "0" "9")))'
    address = f'(re.++ {letters} (str.to_re "@") {letters} (str.to_re ".") (re.range "a" "z") (re.+ (re.range "a" "z")))'
    return "".join(one_more(f"y{number}", address) for number in range(size))


LETTERS = '(re.+ (re.union (re.range "a" "z") (re.range "0" "9") (str.to_re "-")))'


def ruled(name, number):
    end = word("abcdefghijklmnopqrstuvwxyz", number, 3)
    return f'(str.in_re {name} (re.++ {LETTERS} (str.to_re "{end}") (re.* (re.range "a" "z"))))'


def rule(name, number):
    return f"(assert {ruled(name, number)})\n"


def rounds(size):
    text = "".join(f"(declare-const y{number} String)\n" + rule(f"y{number}", number) for number in range(100))
    for number in range(size):
        text += f"(push 1)\n{rule(f'y{number % 100}', 7 * number)}(check-sat)\n(pop 1)\n"
    return text


def levels(size):
    text = "".join("abcdefghijklmnopqrstuvwxyz"[i % 26] for i in range(size))
    down = "".join(f"(push 1)\n{in_re(f'(re.++ {to_re(text[:i + 1])} {LETTERS})')}(check-sat)\n" for i in range(size))
    return down + "(check-sat)\n(pop 1)\n" * size


def denied_levels(size):
    text = "".join(f"(declare-const y{number} String)\n" for number in range(5))
    for number in range(size):
        text += f"(push 1)\n(assert (not {in_text(f'y{number % 5}', to_re(f'k{number}'))}))\n(check-sat)\n"
    return text


def pairs(size):
    return "(push 1)\n(pop 1)\n" * size


def switches(names):
    return "".join(f"(declare-const {name} Bool)\n" for name in names)


def assuming(names):
    return f"(check-sat-assuming ({' '.join(names)}))\n"


def two_that_clash(size):
    """The switches of so many rules on one constant, of which those at the third of the size and at twice it clash."""
    names = [f"p{number}" for number in range(size)]
    letters = {size // 3: "a", 2 * size // 3: "b"}
    text = switches(names)
    for number, name in enumerate(names):
        front = f"(re.++ {to_re(letters.get(number, ''))} re.all)"
        rule = in_text("x", front) if number in letters else f'(not (= x "{letters_of(number)}"))'
        text += f"(assert (=> {name} {rule}))\n"
    return names, text


def assumed(size):
    names, text = two_that_clash(size)
    return text + assuming(names)


def assumed_rounds(size):
    text = "".join(f"(declare-const y{number} String)\n" for number in range(100))
    rules, more = [f"p{number}" for number in range(100)], [f"q{number}" for number in range(100)]
    text += switches(rules + more)
    for number in range(100):
        text += f"(assert (=> {rules[number]} {ruled(f'y{number}', number)}))\n"
        text += f"(assert (=> {more[number]} {ruled(f'y{number}', 7 * number)}))\n"
    return text + "".join(assuming(rules + [more[number % 100]]) for number in range(size))


def assumed_shrunk(size):
    names, text = two_that_clash(size)
    left, needed = list(names), {names[size // 3], names[2 * size // 3]}
    for name in names:
        fewer = [it for it in left if it != name]
        text += assuming(fewer)
        if name not in needed:
            left = fewer
    return text


def fronts_and_ends(text):
    every = '(re.* (re.range " " "~"))'
    fronts = "".join(in_re(f"(re.++ {to_re(text[:i])} {every})") for i in range(1, len(text)))
    return fronts + "".join(in_re(f"(re.++ {every} {to_re(text[i:])})") for i in range(1, len(text)))


def ends(size):
    return fronts_and_ends("".join("abcdefghijklmnopqrstuvwxyz"[i % 26] for i in range(size)))


def runs(size):
    return fronts_and_ends("a" * size)


ALL, ONE = "re.all", "re.allchar"


def comp(regex):
    return f"(re.comp {regex})"


def power(regex, count):
    return f"((_ re.^ {count}) {regex})"


def loop(regex, least, most):
    return f"((_ re.loop {least} {most}) {regex})"


def concat(*parts):
    return "(re.++ " + " ".join(parts) + ")"


def either(*parts):
    return "(re.union " + " ".join(parts) + ")"


def span(low, high):
    return f'(re.range "{low}" "{high}")'


def powers(size):
    letter = span("a", "b")
    return in_re(power(letter, size)) + in_re(power(letter, size + 1))


def loops(size):
    a = to_re("a")
    return in_re(loop(a, 0, size)) + in_re(loop(a, size, 2 * size)) + in_re(comp(power(a, size)))


def tree(words):
    """The words, by their first characters."""
    parts = []
    for letter in sorted({w[0] for w in words if w}):
        behind = [w[1:] for w in words if w and w[0] == letter]
        parts.append(to_re(letter) if behind == [""] else concat(to_re(letter), tree(behind)))
    if "" in words:
        parts.append(to_re(""))
    return parts[0] if len(parts) == 1 else either(*parts)


def trie(size):
    order = random.Random(size).sample(range(26 ** 4), size)
    words = sorted(word("abcdefghijklmnopqrstuvwxyz", number, 5) for number in order)
    return in_re(union(words)) + in_re(comp(tree(words)))


def has(count):
    return "".join(in_re(concat(ALL, to_re("abcdefghijklmnopqrstuvwxyz"[i]), ALL)) for i in range(count))


def letters_short(size):
    return has(size) + in_re(loop(ONE, 0, size - 1))


def letters_long(size):
    return has(size) + in_re(loop(ONE, 8, 8 + size))


def patterns(size, start):
    """So many patterns of an action and a resource, `service:verb*` and `path/*/name`, in two ways."""
    verbs = ["get", "put", "list", "delete", "create", "update"]
    plain, other = [], []
    for number in range(start, start + size):
        service, verb = word("abcdef", number, 3), verbs[number % len(verbs)]
        path, name = word("ghijkl", number, 3), word("mnop", number, 2)
        some = f'(re.* {span("a", "z")})'
        plain.append(concat(to_re(f"{service}:{verb}"), some, to_re(f" {path}/"), some, to_re(f"/{name}")))
        letters = f'(re.union (str.to_re "") (re.+ {span("a", "z")}))'
        front = concat(to_re(service), to_re(":"), to_re(verb), letters)
        other.append(concat(front, concat(to_re(" "), to_re(path + "/")), letters, to_re("/" + name)))
    return either(*plain, "re.none"), either(*reversed(other), "re.none")


def policies(size):
    allow, other_allow = patterns(size, 0)
    deny, other_deny = patterns(size, size // 2)
    first = f"(re.diff {allow} {deny})"
    second = f"(re.inter {comp(other_deny)} {other_allow})"
    return in_re(either(f"(re.diff {first} {second})", f"(re.diff {second} {first})"))


def characters(seed):
    order = sorted(random.Random(seed).sample(range(0x80, 0x2ffff), 80))
    ranges = [span(f"\\u{{{order[2 * i]:x}}}", f"\\u{{{order[2 * i + 1]:x}}}") for i in range(40)]
    return either(*ranges)


def unicode(size):
    text = "".join(in_re(f"(re.+ {characters(number)})") for number in range(size))
    return text + "".join(in_re(comp(f"(re.++ {characters(1000 + number)} {characters(number)})")) for number in range(size))


def same_place(size):
    return "".join(in_re(concat(ALL, to_re(letter), power(ONE, size))) for letter in "ab")


def equalities(size):
    """Constants, each equal to a literal of its own."""
    return "".join(f'(declare-const y{i} String)(assert (= y{i} "word{i}"))\n' for i in range(size))


def filters(size):
    low, digit, hexa = span("a", "z"), span("0", "9"), either(span("0", "9"), span("a", "f"))
    name = f"(re.+ {either(low, digit, to_re('-'))})"
    host = concat(name, f"(re.+ {concat(to_re('.'), name)})")
    mail = concat(name, f"(re.* {concat(to_re('.'), name)})", to_re("@"), host)
    address = concat(either(to_re("http"), to_re("https")), to_re("://"), host, f"(re.* {concat(to_re('/'), name)})")
    octet = either(loop(digit, 1, 2), concat(to_re("1"), power(digit, 2)), concat(to_re("2"), span("0", "4"), digit),
                   concat(to_re("25"), span("0", "5")))
    network = concat(octet, power(concat(to_re("."), octet), 3))
    date = concat(power(digit, 4), to_re("-"), either(concat(to_re("0"), span("1", "9")), concat(to_re("1"), span("0", "2"))),
                  to_re("-"), either(concat(span("0", "2"), digit), concat(to_re("3"), span("0", "1"))))
    number = concat(power(hexa, 8), power(concat(to_re("-"), power(hexa, 4)), 3), to_re("-"), power(hexa, 12))
    every = [mail, address, network, date, number]
    chosen = list(itertools.chain(itertools.combinations(range(5), 2), itertools.combinations(range(5), 3)))[size - 1]
    text = "".join(in_re(concat(ALL, every[i], ALL)) for i in chosen)
    text += "".join(in_re(comp(concat(ALL, every[i], ALL))) for i in range(5) if i not in chosen)
    return text + in_re(comp(either(*[every[i] for i in chosen]))) + in_re(loop(ONE, 0, 100))


def in_text(name, regex):
    return f"(str.in_re {name} {regex})"


def statement(number):
    """The actions and resources of a statement: `service:verb*` and `path/*/name`, both or one of them negated."""
    verbs = ["get", "put", "list", "delete", "create", "update"]
    some = f'(re.* {span("a", "z")})'
    service, verb = word("abcdef", number // 2, 3), verbs[number % len(verbs)]
    path, name = word("ghijkl", number // 3, 3), word("mnop", number, 2)
    action = in_text("action", concat(to_re(f"{service}:{verb}"), some))
    resource = in_text("resource", concat(to_re(f"{path}/"), some, to_re(f"/{name}")))
    if number % 5 == 4:
        resource = f"(not {in_text('resource', concat(to_re(f'{path}/'), ALL))})"
    return f"(and {action} {resource})"


def any_of(parts):
    return parts[0] if len(parts) == 1 else "(or " + " ".join(parts) + ")"


def access(size):
    allow, deny = [statement(number) for number in range(size)], [statement(size // 2 + 3 * number) for number in range(size)]
    new_allow = list(reversed(allow[1:])) + [statement(7 * size)]
    new_deny = deny[1:] + deny[:1]
    old, new = f"(and {any_of(allow)} (not {any_of(deny)}))", f"(and {any_of(new_allow)} (not {any_of(new_deny)}))"
    text = "(declare-const action String)\n(declare-const resource String)\n"
    return text + f"(assert (and {new} (not {old})))\n(check-sat)\n(assert (not {statement(7 * size)}))\n"


def literals_of(constants):
    """For each constant four regular expressions over two letters, which overlap and are not of all words."""
    letter = span("a", "b")
    found = []
    for i in range(constants):
        few = f"(re.* {letter})"
        found += [in_text(f"y{i}", concat(few, to_re("a"), power(letter, 1 + i % 3))), in_text(f"y{i}", concat(to_re("ab"), few)),
                  in_text(f"y{i}", f"(re.* {power(letter, 2)})"), in_text(f"y{i}", concat(few, to_re("bab"), few))]
    return found


def clause(dice, atoms):
    return "(or " + " ".join(it if dice.randrange(2) else f"(not {it})" for it in dice.sample(atoms, 3)) + ")"


def three_each(size, ratio):
    dice = random.Random(size)
    atoms = literals_of(size)
    text = "".join(f"(declare-const y{i} String)\n" for i in range(size))
    return text + "".join(f"(assert {clause(dice, atoms)})\n" for _ in range(int(ratio * len(atoms))))


def clauses_sat(size):
    return three_each(size, 3)


def clauses(size):
    return three_each(size, 6)


def clauses_many(size):
    dice, constants = random.Random(size), size // 4
    atoms, text = literals_of(constants), "".join(f"(declare-const y{i} String)\n" for i in range(constants))
    # what is true of the word ab
    truths = [it for i in range(constants) for it in (i % 3 == 0, True, True, False)]
    for _ in range(10 * size):
        places = dice.sample(range(len(atoms)), 3)
        # two literals of each clause are true of it
        signs = [truths[places[0]], truths[places[1]], dice.randrange(2) == 1]
        literals = [atoms[p] if sign else f"(not {atoms[p]})" for p, sign in zip(places, signs)]
        dice.shuffle(literals)
        text += f"(assert (or {' '.join(literals)}))\n"
    return text


def alternatives(size):
    """The words of the one side hold a letter as often as its number says, those of the other one more often than all."""
    one = [in_text("x", power(span("a", "z"), number + 1)) for number in range(size)]
    other = [in_text("x", concat(power(span("a", "z"), size + number + 1), f'(re.* {to_re("ab")})')) for number in range(size)]
    return f"(assert {any_of(one)})\n(assert {any_of(other)})\n"


def checked_clauses(size):
    dice = random.Random(size)
    atoms = literals_of(20)
    text = "".join(f"(declare-const y{i} String)\n" for i in range(20))
    return text + "".join(f"(assert {clause(dice, atoms)})\n(check-sat)\n" for _ in range(size))


def letters_of(number):
    """A word of letters of its own for a number."""
    return word("abcdefghijklmnopqrstuvwxyz", number, 5)


def shared(size):
    text = "(declare-const p Bool)\n(declare-const q Bool)\n(define-fun b0 () Bool (xor p q))\n"
    for number in range(size):
        text += f"(define-fun b{number + 1} () Bool (and b{number} (or b{number} q)))\n"
    return text + f"(assert b{size})\n"


def chain(size):
    text = "(define-fun b0 () Bool (str.in_re x (re.+ re.allchar)))\n"
    for number in range(size):
        text += f'(define-fun b{number + 1} () Bool (and b{number} (not (= x "{letters_of(number)}"))))\n'
    return text + f"(assert b{size})\n"


def uses(size):
    text = "(define-fun apart ((s String) (w String)) Bool (not (= s w)))\n"
    return text + "".join(f'(assert (apart x "{letters_of(number)}"))\n' for number in range(size))


def bindings(size):
    bound = " ".join(f'(b{number} (not (= x "{letters_of(number)}")))' for number in range(size))
    return f"(assert (let ({bound}) (and {' '.join(f'b{number}' for number in range(size))})))\n"


def parameters(size):
    listed = " ".join(f"(s{place} String)" for place in range(100))
    given = " ".join(f'"{letters_of(place)}"' for place in range(99))
    text = ""
    for number in range(size):
        text += f'(define-fun f{number} ({listed}) Bool (not (= s99 "{letters_of(number)}")))\n'
        text += f"(assert (f{number} {given} x))\n"
    return text


def declared(names):
    return "".join(f"(declare-const {name} String)\n" for name in names)


def asserted(term):
    return f"(assert {term})\n"


def cat(*parts):
    return "(str.++ " + " ".join(parts) + ")"


def numbered(size):
    return [f"y{i}" for i in range(size)]


BLOCKS, WHOLE_BLOCKS = '(re.* (str.to_re "ab"))', '(re.+ (str.to_re "ab"))'


def blocks(size):
    names = numbered(size)
    text = declared(names) + "".join(asserted(in_text(name, BLOCKS)) for name in names)
    text += "".join(asserted(f"(not {in_text(name, loop(to_re('ab'), 0, i))})") for i, name in enumerate(names))
    text += "".join(asserted(in_text(cat(one, two), BLOCKS)) for one, two in zip(names, names[1:]))
    first = asserted(in_text("y0", '(re.+ (str.to_re "ba"))'))
    return text + f"(check-sat)\n(push 1)\n{first}(check-sat)\n(pop 1)\n"


def links_in(size, regex):
    names = numbered(size + 1)
    return declared(names) + "".join(asserted(in_text(cat(one, two), regex)) for one, two in zip(names, names[1:]))


def links(size):
    return links_in(size, WHOLE_BLOCKS)


def links_clash(size):
    text = links_in(size, BLOCKS) + asserted(in_text("y0", WHOLE_BLOCKS))
    return text + asserted(in_text(f"y{size}", concat(to_re("a"), '(re.* (str.to_re "ba"))')))


def end_letter(size):
    letter = span("a", "b")
    text = declared(["y0", "y1"]) + asserted(in_text("y0", '(re.+ (str.to_re "b"))'))
    return text + asserted(in_text(cat("y0", "y1"), concat(f"(re.* {letter})", to_re("a"), power(letter, size))))


def fields_in(size, field, line):
    names = numbered(size)
    text = declared(names) + "".join(asserted(in_text(name, field)) for name in names)
    return text + asserted(in_text(cat(*' "," '.join(names).split()), line))


OTHERS = either(span("\\u{0}", "+"), span("-", "\\u{2ffff}"))
FIELD = f"(re.* {OTHERS})"
LEFT_OUT = '(re.* (re.diff re.allchar (str.to_re ",")))'


def fields(size):
    return fields_in(size, FIELD, f" {to_re(',')} ".join([FIELD] * (size + 1)).join(["(re.++ ", ")"]))


def fields_diff(size):
    return fields_in(size, LEFT_OUT, concat(power(concat(LEFT_OUT, to_re(",")), size), LEFT_OUT))


def fields_fit(size):
    return fields_in(size, LEFT_OUT, concat(power(concat(LEFT_OUT, to_re(",")), size - 1), LEFT_OUT))


def rings(size):
    names = numbered(size)
    text = declared(names) + "".join(asserted(in_text(name, span("a", "b"))) for name in names)
    pairs = zip(names, [*names[1:], names[0]])
    return text + "".join(asserted(in_text(cat(*it), union(["ab", "ba"]))) for it in pairs)


def fan(size):
    names, behind = numbered(size), '(re.+ (str.to_re "b"))'
    text = declared(names) + in_re(loop(to_re("a"), 0, size - 1))
    text += "".join(asserted(in_text(name, behind)) for name in names)
    fronts = [power(to_re("a"), i) for i in range(size)]
    both = [in_text(cat("x", name), concat(front, behind)) for name, front in zip(names, fronts)]
    return text + "".join(asserted(f"(not {it})") for it in both)


def literals(size):
    names = numbered(5)
    text = declared(names) + "".join(asserted(in_text(name, '(re.+ (re.range "a" "e"))')) for name in names)
    return text + asserted(f'(= {cat(*names)} "{"".join("abcde"[i % 5] for i in range(size))}")')


def literals_clash(size):
    text = declared(["y0", "y1"]) + asserted(in_text("y1", concat('(re.* (str.to_re "a"))', to_re("b"))))
    return text + asserted(f'(= {cat("y0", "y1")} "{"a" * size}")')


def holding(text):
    return concat(ALL, to_re(text), ALL)


def without(text):
    return comp(holding(text))


def trades(size):
    """Parts, each a name with its filter or a text, and two filters of the whole, of which the first refuses all."""
    low, digit = span("a", "z"), span("0", "9")
    name = f"(re.+ {low})"
    some = f"(re.* {low})"
    label = f"(re.+ {either(low, digit, to_re('-'))})"
    host = concat(label, f"(re.* {concat(to_re('.'), label)})")
    plain = f"(re.* {either(low, digit, to_re(' '))})"
    trade = [
        # scheme, host, port, path, query, fragment
        ([("scheme", either(to_re("http"), to_re("https"))), "://", ("host", host), ":", ("port", loop(digit, 1, 5)),
          ("path", f"(re.* {concat(to_re('/'), name)})"), "?", ("query", f"(re.* {either(low, to_re('='), to_re('&'))})"),
          "#", ("fragment", some)], holding("/../"), holding("&admin=")),
        # name, tag, host, top level, comment
        ([("user", name), "+", ("tag", some), "@", ("host", label), ".", ("top", loop(low, 2, 6)), " (",
          ("comment", plain), ")"], concat(ALL, to_re("@"), ALL, to_re("@"), ALL), holding("root+")),
        # year, month, day, level, user, address, action, message
        ([("year", power(digit, 4)), "-", ("month", power(digit, 2)), "-", ("day", power(digit, 2)), " ",
          ("level", either(to_re("info"), to_re("warn"), to_re("error"))), " user=", ("user", name), " from=",
          ("address", concat(loop(digit, 1, 3), power(concat(to_re("."), loop(digit, 1, 3)), 3))), " action=",
          ("action", name), " ", ("message", plain)], holding("\\u{a}"), holding("user=admin from=")),
        # columns, table, column, value, order
        (["SELECT ", ("columns", concat(name, f"(re.* {concat(to_re(', '), name)})")), " FROM ", ("table", name), " WHERE ",
          ("column", name), " = '", ("value", without("'")), "' ORDER BY ", ("order", name), " LIMIT ",
          ("limit", loop(digit, 1, 4))], concat(ALL, to_re("'"), ALL, to_re("'"), ALL, to_re("'"), ALL), holding("--' ORDER")),
        # field, media type, subtype, parameter, value, quality
        ([("field", label), ": ", ("type", name), "/", ("subtype", label), "; ", ("parameter", name), "=", ("value", label),
          "; q=", ("quality", concat(to_re("0."), digit))], holding("\\u{d}\\u{a}"), holding("text/html; charset=utf-8")),
    ][(size - 1) // 2]
    parts = trade[0]
    names = [it for it in parts if isinstance(it, tuple)]
    text = declared(it for it, _ in names) + "".join(asserted(in_text(*it)) for it in names)
    whole = cat(*(it[0] if isinstance(it, tuple) else f'"{it}"' for it in parts))
    return text + asserted(in_text(whole, trade[2 - size % 2]))


def injections(size):
    """The filter of the first one lets no quote through, the other one no quote with a blank behind it."""
    text = asserted(in_text("x", without("'" if size == 1 else "' ")))
    query = """(str.++ "SELECT * FROM users WHERE name = '" x "'")"""
    outside = concat(without("'"), to_re("'"), without("'"), to_re("'"), ALL, to_re("OR"), ALL)
    return text + asserted(in_text(query, outside))


def fragments(size):
    order = random.Random(size).sample(range(26 ** 3), size)
    return [word("abcdefghijklmnopqrstuvwxyz", number, 4 + number % 5) for number in order]


def blocklist(size):
    words = fragments(size)
    text = "".join(asserted(f'(not (str.contains x "{it}"))') for it in words)
    letters = f"(re.+ {span('a', 'z')})"
    return text + asserted(f'(str.contains x "{words[0][1:]}")') + in_re(concat(letters, to_re("-"), letters))


def blocklist_clash(size):
    return blocklist(size) + asserted(in_text("x", concat(ALL, to_re(fragments(size)[-1]), f"(re.+ {span('a', 'z')})")))


def routes_in(size, last):
    routes = [f"/{word('abcdef', i % 36, 2)}/{word('ghijkl', i, 4)}" for i in range(size)] + [last]
    denied = "".join(asserted(f'(not (str.prefixof "{it}" x))') for it in routes[:-1])
    return denied + asserted(f'(str.prefixof "{last}" x)')


def routes(size):
    return routes_in(size, "/aa/static/")


def routes_shadowed(size):
    return routes_in(size, f"/{word('abcdef', size // 2 % 36, 2)}/{word('ghijkl', size // 2, 4)}/static/")


def factor(size):
    letters = random.Random(size)
    text = "".join(letters.choice("abcd") for _ in range(size))
    other = text[: size // 2] + "e" + text[size // 2 + 1 :]
    return asserted(f'(str.contains "{text}" x)') + asserted(f'(not (str.contains "{other}" x))') + in_re(concat(power(ONE, 20), ALL))


FAMILIES = {
    "blocklist": blocklist,
    "blocklist-clash": blocklist_clash,
    "routes": routes,
    "routes-shadowed": routes_shadowed,
    "factor": factor,
    "blocks": blocks,
    "links": links,
    "links-clash": links_clash,
    "end-letter": end_letter,
    "fields": fields,
    "fields-diff": fields_diff,
    "fields-fit": fields_fit,
    "rings": rings,
    "fan": fan,
    "literals": literals,
    "literals-clash": literals_clash,
    "trades": trades,
    "injections": injections,
    "shared": shared,
    "chain": chain,
    "uses": uses,
    "bindings": bindings,
    "parameters": parameters,
    "access": access,
    "clauses-sat": clauses_sat,
    "clauses": clauses,
    "clauses-many": clauses_many,
    "alternatives": alternatives,
    "checked-clauses": checked_clauses,
    "powers": powers,
    "loops": loops,
    "trie": trie,
    "letters-short": letters_short,
    "letters": letters_long,
    "policies": policies,
    "unicode": unicode,
    "same-place": same_place,
    "filters": filters,
    "equalities": equalities,
    "coprime": coprime,
    "dictionaries": dictionaries,
    "ranges": ranges,
    "union": of_union,
    "ends": ends,
    "runs": runs,
    "checked-classes": checked_classes,
    "checked-constants": checked_constants,
    "checked-denied": checked_denied,
    "checked-structure": checked_structure,
    "checked-addresses": checked_addresses,
    "rounds": rounds,
    "levels": levels,
    "denied-levels": denied_levels,
    "pairs": pairs,
    "assumed": assumed,
    "assumed-rounds": assumed_rounds,
    "assumed-shrunk": assumed_shrunk,
}

if __name__ == "__main__":
    family, size = sys.argv[1], int(sys.argv[2])
    sys.stdout.write("(set-option :print-success false)\n(set-logic QF_S)\n(declare-const x String)\n")
    sys.stdout.write(FAMILIES[family](size))
    sys.stdout.write("(check-sat)\n")
