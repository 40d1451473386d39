"""A plain and slow second program for the language of `nyq`.

It is written from the rules alone, which `docs/LANGUAGE.md` and `docs/DEFINITIONS.md` tell in plain words, and shares no
code with the crates. It computes what `nyq` must print, which file it must leave, and with which exit code, also for the
forms that `nyq` doesn't play yet. Each section below has one part of the rules. Numbers are whole millionths and times
whole ticks throughout, as plain integers.
"""

import bisect
import heapq
import struct
import sys
import threading

sys.setrecursionlimit(200000)

# ---------------------------------------------------------------------------------------------------------------------
# Numbers, samples, times
# ---------------------------------------------------------------------------------------------------------------------

MILLION = 10 ** 6
FIX_LIMIT = 2 ** 53
SAMPLE_LIMIT = 2147483647
SECOND = 705600000
HORIZON = 3600 * SECOND
RATES = (2205, 4410, 8000, 11025, 16000, 22050, 32000, 44100, 48000)


def clamp(x, low, high):
    return low if x < low else high if x > high else x


def sat(x):
    return clamp(x, -FIX_LIMIT, FIX_LIMIT)


def sat_sample(x):
    return clamp(x, -SAMPLE_LIMIT, SAMPLE_LIMIT)


def fix_mul(a, b):
    return sat(a * b // MILLION)


def fix_div(a, b):
    return sat(a * MILLION // b)


def sample_mul(a, b):
    return sat_sample(a * b // MILLION)


class NumFault(Exception):
    """A text that is no number: NotDecimal, TooManyPlaces or TooLarge."""


def read_decimal(text):
    whole, point, places = text.partition(b".")
    digits = b"0123456789"
    if any(c not in digits for c in whole + places) or not (whole or places) or (point and not places):
        raise NumFault("NotDecimal")
    if len(places) > 6:
        raise NumFault("TooManyPlaces")
    value = int(whole or b"0") * MILLION + int(places.ljust(6, b"0"))
    if value > FIX_LIMIT:
        raise NumFault("TooLarge")
    return value


def write_decimal(v):
    whole, rest = divmod(abs(v), MILLION)
    places = ("." + str(rest).rjust(6, "0").rstrip("0")) if rest else ""
    return ("-" if v < 0 else "") + str(whole) + places


def grid(rate):
    """Ticks from one sample to the next."""
    return SECOND // rate


def clampt(x):
    return clamp(x, 0, HORIZON)


def ticks_of(v):
    return clampt(v * 7056 // 10)


def index(t, rate):
    g = grid(rate)
    return (t + g // 2) // g


def last_index(rate):
    return index(HORIZON, rate)


# ---------------------------------------------------------------------------------------------------------------------
# Tokens
# ---------------------------------------------------------------------------------------------------------------------

RESERVED = ("define", "function", "variable", "begin", "with", "end", "return", "play")
SIGNS = ("!=", "<=", ">=", "(", ")", ",", "+", "-", "*", "/", "@", "~", "=", "<", ">", "&", "|", "!")
GAPS = b" \t\r\n"
DIGITS = b"0123456789"
LETTERS = b"abcdefghijklmnopqrstuvwxyzABCDEFGHIJKLMNOPQRSTUVWXYZ"
NAME_BYTES = LETTERS + DIGITS + b"_-"
NUMBER_BYTES = LETTERS + DIGITS + b"_."


class LexFault(Exception):
    def __init__(self, at, why):
        self.at, self.why = at, why


class Token:
    """kind is `name`, `number`, `end of text`, or the word or sign itself."""

    def __init__(self, kind, value, at):
        self.kind, self.value, self.at = kind, value, at


def run_of(text, at, allowed):
    """Where the longest run of allowed bytes from `at` ends."""
    while at < len(text) and text[at] in allowed:
        at += 1
    return at


def lex(text):
    tokens = []
    at = 0
    while at < len(text):
        byte = text[at]
        if byte in GAPS:
            at += 1
        elif byte == ord(";"):
            while at < len(text) and text[at] != ord("\n"):
                at += 1
        elif byte in LETTERS or byte == ord("_"):
            to = run_of(text, at, NAME_BYTES)
            name = text[at:to].decode("ascii").lower()
            tokens.append(Token(name if name in RESERVED else "name", name, at))
            at = to
        elif byte in DIGITS or (byte == ord(".") and at + 1 < len(text) and text[at + 1] in DIGITS):
            to = run_of(text, at, NUMBER_BYTES)
            try:
                tokens.append(Token("number", read_decimal(text[at:to]), at))
            except NumFault as fault:
                raise LexFault(at, str(fault))
            at = to
        elif byte == ord("#"):
            to = run_of(text, at + 1, NAME_BYTES)
            if text[at + 1:to].lower() != b"if":
                raise LexFault(at, "BadHash")
            tokens.append(Token("#if", None, at))
            at = to
        else:
            sign = next((s for s in SIGNS if text.startswith(s.encode(), at)), None)
            if sign is None:
                raise LexFault(at, "BadByte")
            tokens.append(Token(sign, None, at))
            at += len(sign)
    return tokens


# ---------------------------------------------------------------------------------------------------------------------
# Trees and the grammar
# ---------------------------------------------------------------------------------------------------------------------

HIGHEST = 200


class Expr:
    """form is number, name, call, if, block, binary or prefix; `name` the called or named name or the operator;
    `parts` the expressions; `value` a number; `binds` a block's list of (place, name, expression)."""

    def __init__(self, form, at, name=None, parts=(), value=None, binds=()):
        self.form, self.at, self.name, self.parts, self.value, self.binds = form, at, name, list(parts), value, list(binds)


class Decl:
    """A function has a list of (place, name) as its parameters; a variable has none, and its value as its body."""

    def __init__(self, at, name, params, body):
        self.at, self.name, self.params, self.body = at, name, params, body

    def is_function(self):
        return self.params is not None


class Tree:
    def __init__(self, decls, play, play_at, end):
        self.decls, self.play, self.play_at, self.end = decls, play, play_at, end


class ParseFault(Exception):
    def __init__(self, at):
        self.at = at


class Parser:
    """Descends by the grammar. `room` is the height that an expression may have where it stands; a token after which no
    expression could stay within it is refused, so the place of a fault is that of the first token with which no accepted
    text can go on."""

    def __init__(self, text, tokens):
        self.tokens = tokens + [Token("end of text", None, len(text))]
        self.next = 0

    def peek(self):
        return self.tokens[self.next]

    def fail(self):
        raise ParseFault(self.peek().at)

    def take(self, kind):
        if self.peek().kind != kind:
            self.fail()
        self.next += 1
        return self.tokens[self.next - 1]

    def program(self):
        decls = []
        while self.peek().kind == "define":
            decls.append(self.declaration())
        end = self.tokens[-1].at
        play, play_at = None, end
        if self.peek().kind == "play":
            play_at = self.take("play").at
            play, _ = self.expr(HIGHEST)
        self.take("end of text")
        return Tree(decls, play, play_at, end)

    def declaration(self):
        self.take("define")
        if self.peek().kind == "function":
            self.take("function")
            name = self.take("name")
            self.take("(")
            params = []
            if self.peek().kind == "name":
                params = self.list_of(lambda: self.take("name"))
            self.take(")")
            if self.peek().kind == "begin":
                body, _ = self.block(HIGHEST)
            else:
                self.take("return")
                body, _ = self.expr(HIGHEST)
            return Decl(name.at, name.value, [(p.at, p.value) for p in params], body)
        self.take("variable")
        name = self.take("name")
        self.take("=")
        value, _ = self.expr(HIGHEST)
        return Decl(name.at, name.value, None, value)

    def list_of(self, member):
        members = [member()]
        while self.peek().kind == ",":
            self.take(",")
            members.append(member())
        return members

    def expr(self, room):
        return self.chain(room, ("|",), self.conjunction)

    def conjunction(self, room):
        return self.chain(room, ("&",), self.comparison)

    def chain(self, room, signs, side):
        left, height = side(room)
        while self.peek().kind in signs:
            left, height = self.operation(left, height, room, side)
        return left, height

    def operation(self, left, height, room, side):
        """Goes on behind the left side: the operator, and its right side."""
        height = self.grown(height, room)
        sign = self.take(self.peek().kind)
        right, right_height = side(room - 1)
        return Expr("binary", sign.at, sign.kind, [left, right]), max(height, right_height + 1)

    def grown(self, height, room):
        if height + 1 > room:
            self.fail()
        return height + 1

    def comparison(self, room):
        left, height = self.sum(room)
        if self.peek().kind in ("=", "!=", "<", ">", "<=", ">="):
            return self.operation(left, height, room, self.sum)
        return left, height

    def sum(self, room):
        return self.chain(room, ("+", "-"), self.term)

    def term(self, room):
        left, height = self.placed(room)
        while self.peek().kind in ("*", "/"):
            if self.peek().kind == "*":
                left, height = self.operation(left, height, room, self.placed)
            else:
                height = self.grown(height, room)
                sign = self.take("/")
                divisor = self.take("number")
                number = Expr("number", divisor.at, value=divisor.value)
                left = Expr("binary", sign.at, "/", [left, number])
        return left, height

    def placed(self, room):
        return self.chain(room, ("@", "~"), self.prefix)

    def prefix(self, room):
        if self.peek().kind in ("-", "!"):
            self.grown(1, room)
            sign = self.take(self.peek().kind)
            operand, height = self.prefix(room - 1)
            return Expr("prefix", sign.at, sign.kind, [operand]), height + 1
        return self.primary(room)

    def primary(self, room):
        token = self.peek()
        if token.kind == "number":
            self.take("number")
            return Expr("number", token.at, value=token.value), 1
        if token.kind == "name":
            self.take("name")
            if self.peek().kind != "(":
                return Expr("name", token.at, token.value), 1
            return self.call(token, room)
        if token.kind == "#if":
            self.grown(1, room)
            self.take("#if")
            self.take("(")
            parts = [self.expr(room - 1)]
            for _ in range(2):
                self.take(",")
                parts.append(self.expr(room - 1))
            self.take(")")
            return Expr("if", token.at, parts=[e for e, _ in parts]), 1 + max(h for _, h in parts)
        if token.kind == "begin":
            return self.block(room)
        if token.kind == "(":
            self.grown(1, room)
            self.take("(")
            inner, height = self.expr(room - 1)
            self.take(")")
            return inner, height + 1
        return self.fail()

    def call(self, name, room):
        self.grown(1, room)
        self.take("(")
        parts = []
        if self.peek().kind != ")":
            parts = self.list_of(lambda: self.expr(room - 1))
        self.take(")")
        return Expr("call", name.at, name.value, [e for e, _ in parts]), 1 + max([h for _, h in parts] + [1])

    def block(self, room):
        self.grown(1, room)
        at = self.take("begin").at
        binds = []
        if self.peek().kind == "with":
            self.take("with")
            binds = self.list_of(lambda: self.bind(room - 1))
        self.take("return")
        body, height = self.expr(room - 1)
        self.take("end")
        heights = [h for _, _, _, h in binds] + [height]
        return Expr("block", at, parts=[body], binds=[(a, n, e) for a, n, e, _ in binds]), 1 + max(heights)

    def bind(self, room):
        name = self.take("name")
        self.take("=")
        value, height = self.expr(room)
        return name.at, name.value, value, height


def parse(text, tokens):
    return Parser(text, tokens).program()


# ---------------------------------------------------------------------------------------------------------------------
# Canonical text
# ---------------------------------------------------------------------------------------------------------------------

# For each operator its own level, and the least level of its left and right side.
LEVELS = {"|": (1, 1, 2), "&": (2, 2, 3), "+": (4, 4, 5), "-": (4, 4, 5), "*": (5, 5, 6), "/": (5, 5, 8),
          "@": (6, 6, 7), "~": (6, 6, 7)}
for _sign in ("=", "!=", "<", ">", "<=", ">="):
    LEVELS[_sign] = (3, 4, 4)


def level(e):
    return LEVELS[e.name][0] if e.form == "binary" else 7 if e.form == "prefix" else 8


def joined(groups):
    """Lists of words with commas between them, as one list."""
    words = []
    for n, group in enumerate(groups):
        words += ([","] if n else []) + group
    return words


def words_of(e, least=0):
    if level(e) < least:
        return ["("] + words_of(e) + [")"]
    if e.form == "number":
        return [write_decimal(e.value)]
    if e.form == "name":
        return [e.name]
    if e.form in ("call", "if"):
        head = e.name if e.form == "call" else "#if"
        return [head, "("] + joined([words_of(part) for part in e.parts]) + [")"]
    if e.form == "block":
        binds = joined([[name, "="] + words_of(value) for _, name, value in e.binds])
        return ["begin"] + (["with"] + binds if binds else []) + ["return"] + words_of(e.parts[0]) + ["end"]
    if e.form == "prefix":
        return [e.name] + words_of(e.parts[0], 7)
    _, left, right = LEVELS[e.name]
    return words_of(e.parts[0], left) + [e.name] + words_of(e.parts[1], right)


def canonical(tree):
    lines = []
    for decl in tree.decls:
        if decl.is_function():
            params = joined([[name] for _, name in decl.params])
            lines.append(["define", "function", decl.name, "("] + params + [")", "return"] + words_of(decl.body))
        else:
            lines.append(["define", "variable", decl.name, "="] + words_of(decl.body))
    if tree.play is not None:
        lines.append(["play"] + words_of(tree.play))
    return "".join(" ".join(line) + "\n" for line in lines).encode("ascii")


# ---------------------------------------------------------------------------------------------------------------------
# Acceptance
# ---------------------------------------------------------------------------------------------------------------------

FAULTS = ("UnknownName", "Redefined", "NotYetDefined", "Arity", "Kind", "BadCount", "BadMap", "BadRate", "ZeroDivisor",
          "NoPlay", "TooManyChannels", "TooDeep", "TooHeavy")
ANY = "any number but none"
ODD = "an odd number"
# The number of arguments of each built-in, and the kinds of its operands, N for a number and S for a sound.
BUILT_INS = {
    "s-max": (2, None), "s-min": (2, None),
    "const": (2, "NN"), "osc": (2, "NN"), "hzosc": (2, "NN"), "lfo": (2, "NN"), "noise": (2, "NN"),
    "s-rest": (1, "N"), "ramp": (1, "N"), "pwl": (ODD, None), "s-abs": (1, "S"), "cue": (1, "S"),
    "scale": (2, "NS"), "onepole": (2, "SN"), "biquad": (6, "SNNNNN"), "comb": (3, "SNN"),
    "sim": (ANY, None), "seq": (ANY, None), "vector": (ANY, None), "simrep": (3, None), "seqrep": (3, None),
    "at": (2, "NS"), "stretch": (2, "NS"), "loud": (2, "NS"), "sustain": (2, "NS"), "transpose": (2, "NS"),
    "warp": (2, None), "sound-srate-abs": (2, None), "control-srate-abs": (2, None),
}
REPEATS = ("simrep", "seqrep")
RATE_CALLS = ("sound-srate-abs", "control-srate-abs")
RELATIONS = ("=", "!=", "<", ">", "<=", ">=")
NUMBER, SOUND, TEST = "number", "sound", "test"
MOST_CHANNELS, MOST_DEPTH, MOST_WEIGHT = 8, 256, 1000000


class CheckFault(Exception):
    def __init__(self, at, why):
        self.at, self.why = at, why


def is_map(e):
    return e.form == "call" and e.name == "map"


def is_literal(e):
    return e.form == "number"


def count_of(e):
    """A repeat's count, or None."""
    if is_literal(e) and e.value % MILLION == 0 and 1 <= e.value // MILLION <= 100000:
        return e.value // MILLION
    return None


def rate_of(e):
    """A rate, or None."""
    if is_literal(e) and e.value % MILLION == 0 and e.value // MILLION in RATES:
        return e.value // MILLION
    return None


def points_of(e):
    """The points of a map in ticks without (0, 0), or None."""
    if not is_map(e) or not e.parts or len(e.parts) % 2 or not all(is_literal(part) for part in e.parts):
        return None
    values = [part.value for part in e.parts]
    if values[-2] > 3600 * MILLION or values[-1] > 3600 * MILLION:
        return None
    points = [(ticks_of(x), ticks_of(y)) for x, y in zip(values[::2], values[1::2])]
    for (x, y), (x2, y2) in zip([(0, 0)] + points, points):
        if x2 <= x or y2 <= y:
            return None
    return points


class Acceptance:
    """Collects all faults of a tree as pairs of the kind's number and the place. `counts`, `depth` and `weight` are
    taken where no earlier fault is there."""

    def __init__(self, tree):
        self.tree = tree
        self.faults = set()
        self.functions = {}    # a name and the number of its first declaration
        self.variables = {}
        self.body_kinds = {}   # of a function, for the kinds of its arguments
        self.now = None        # the number of the declaration that is walked

    def fault(self, why, at):
        self.faults.add((FAULTS.index(why), at))

    def first(self):
        return min(self.faults) if self.faults else None

    def judge(self):
        """Raises the first fault, or gives nothing."""
        tree = self.tree
        for number, decl in enumerate(tree.decls):
            names = self.functions if decl.is_function() else self.variables
            if decl.name in names or (decl.is_function() and decl.name in BUILT_INS):
                self.fault("Redefined", decl.at)
            names.setdefault(decl.name, number)
        for self.now, decl in enumerate(tree.decls):
            params = decl.params or []
            self.repeated(params)
            self.walk(decl.body, {name for _, name in params})
        self.now = len(tree.decls)
        if tree.play is None:
            self.fault("NoPlay", tree.end)
        else:
            self.walk(tree.play, set())
        if not any(kind < FAULTS.index("Kind") for kind, _ in self.faults):
            self.take_kinds()
        if not self.faults:
            self.measure()
        if self.faults:
            kind, at = self.first()
            raise CheckFault(at, FAULTS[kind])

    # What the text alone tells, wherever it stands

    def repeated(self, names):
        seen = set()
        for at, name in names:
            if name in seen:
                self.fault("Redefined", at)
            seen.add(name)

    def walk(self, e, local):
        if e.form == "name":
            if e.name not in local:
                self.use(e, self.variables)
        elif e.form == "block":
            self.repeated([(at, name) for at, name, _ in e.binds])
            local = set(local)
            for _, name, value in e.binds:
                self.walk(value, local)
                local.add(name)
            self.walk(e.parts[0], local)
        elif e.form == "call":
            self.walk_call(e, local)
        else:
            if e.form == "binary" and e.name == "/" and e.parts[1].value == 0:
                self.fault("ZeroDivisor", e.at)
            for part in e.parts:
                self.walk(part, local)

    def use(self, e, declared):
        if e.name not in declared:
            self.fault("UnknownName", e.at)
        elif declared[e.name] >= self.now:
            self.fault("NotYetDefined", e.at)

    def walk_call(self, e, local):
        if e.name in BUILT_INS:
            right = self.right_number(e)
        else:
            self.use(e, self.functions)
            number = self.functions.get(e.name)
            right = number is None or len(e.parts) == len(self.tree.decls[number].params)
        if not right:
            self.fault("Arity", e.at)
        for n, part in enumerate(e.parts):
            if n == 0 and e.name == "warp" and is_map(part):
                for literal in part.parts:
                    self.walk(literal, local)
            elif n == 0 and e.name in REPEATS and part.form == "name":
                pass
            elif n == 2 and e.name in REPEATS and e.parts[0].form == "name":
                self.walk(part, local | {e.parts[0].name})
            else:
                self.walk(part, local)
        if right:
            self.literals(e)

    def right_number(self, e):
        wanted = BUILT_INS[e.name][0]
        if wanted is ANY:
            return len(e.parts) >= 1
        if wanted is ODD:
            return len(e.parts) % 2 == 1
        return len(e.parts) == wanted

    def literals(self, e):
        if e.name in REPEATS:
            if e.parts[0].form != "name":
                self.fault("Kind", e.parts[0].at)
            if count_of(e.parts[1]) is None:
                self.fault("BadCount", e.parts[1].at)
        if e.name == "warp" and points_of(e.parts[0]) is None:
            self.fault("BadMap", e.parts[0].at)
        if e.name in RATE_CALLS and rate_of(e.parts[0]) is None:
            self.fault("BadRate", e.parts[0].at)
        if e.name == "vector" and len(e.parts) > MOST_CHANNELS:
            self.fault("TooManyChannels", e.at)

    # Kinds, through calls

    def take_kinds(self):
        for decl in self.tree.decls:
            if not decl.is_function() and self.kind(decl.body, {}) not in (None, NUMBER):
                self.fault("Kind", decl.body.at)
        if self.tree.play is not None and self.kind(self.tree.play, {}) in (NUMBER, TEST):
            self.fault("Kind", self.tree.play.at)

    def kind(self, e, local):
        """The kind of an expression: number, sound, test, how many channels, or None for none. `local` has the kinds of
        local names."""
        if e.form == "number":
            return NUMBER
        if e.form == "name":
            return local[e.name] if e.name in local else NUMBER
        if e.form == "if":
            return self.kind_of_if(e, local)
        if e.form == "block":
            return self.kind_of_block(e, local)
        if e.form == "call" and e.name not in BUILT_INS:
            return self.kind_of_call(e, local)
        return self.kind_by_row(e, local)

    def refuse(self, e):
        self.fault("Kind", e.at)
        return None

    def kind_of_if(self, e, local):
        test, one, other = [self.kind(part, local) for part in e.parts]
        if None in (test, one, other):
            return None
        return one if test == TEST and one == other and one != TEST else self.refuse(e)

    def kind_of_block(self, e, local):
        local = dict(local)
        binds = []
        for _, name, value in e.binds:
            kind = self.kind(value, local)
            binds.append(kind)
            local[name] = kind if kind in (NUMBER, SOUND) else None
        body = self.kind(e.parts[0], local)
        if any(kind not in (None, NUMBER, SOUND) for kind in binds):
            return self.refuse(e)
        if None in binds:
            return None
        return self.refuse(e) if body == TEST else body

    def kind_of_call(self, e, local):
        kinds = tuple(self.kind(part, local) for part in e.parts)
        if None in kinds:
            return None
        if any(kind not in (NUMBER, SOUND) for kind in kinds):
            return self.refuse(e)
        decl = self.tree.decls[self.functions[e.name]]
        key = (e.name, kinds)
        if key not in self.body_kinds:
            self.body_kinds[key] = self.kind(decl.body, dict(zip([name for _, name in decl.params], kinds)))
        body = self.body_kinds[key]
        return self.refuse(e) if body == TEST else body

    def kind_by_row(self, e, local):
        """Operators and built-ins: each operand against what the row takes."""
        if e.name in REPEATS:
            inside = dict(local)
            if e.parts[0].form == "name":
                inside[e.parts[0].name] = NUMBER
            operands = [(self.kind(e.parts[2], inside), (SOUND,))]
            if e.parts[0].form != "name":
                return None
            result = SOUND
        elif e.name == "warp" or e.name in RATE_CALLS:
            operands, result = [(self.kind(e.parts[1], local), (SOUND,))], SOUND
        elif e.name == "/":
            operands, result = [(self.kind(e.parts[0], local), (NUMBER,))], NUMBER
        else:
            kinds = [self.kind(part, local) for part in e.parts]
            takes, result = self.row(e, kinds)
            operands = list(zip(kinds, takes))
        if any(kind is None for kind, _ in operands):
            return None
        return result if all(kind in takes for kind, takes in operands) else self.refuse(e)

    def row(self, e, kinds):
        """What the row of a name or sign takes for each operand, and its kind."""
        both = (NUMBER, SOUND)
        if e.form == "prefix":
            return ([both], kinds[0]) if e.name == "-" else ([(TEST,)], TEST)
        if e.name in ("+", "-", "*", "s-max", "s-min"):
            return [both, both], SOUND if SOUND in kinds else NUMBER
        if e.name in RELATIONS:
            return [(NUMBER,), (NUMBER,)], TEST
        if e.name in ("&", "|"):
            return [(TEST,), (TEST,)], TEST
        if e.name in ("@", "~"):
            return [(SOUND,), (NUMBER,)], SOUND
        if e.name == "pwl":
            return [(NUMBER,)] * len(kinds), SOUND
        if e.name in ("sim", "seq"):
            return [(SOUND,)] * len(kinds), SOUND
        if e.name == "vector":
            return [(SOUND,)] * len(kinds), ("channels", len(kinds))
        return [{"N": (NUMBER,), "S": (SOUND,)}[letter] for letter in BUILT_INS[e.name][1]], SOUND

    # Depth and weight, through calls

    def measure(self):
        self.body_measures = {}
        depths, weights = [], []
        for decl in self.tree.decls:
            if decl.is_function():
                params = {name: 0 for _, name in decl.params}
                self.body_measures[decl.name] = self.depth(decl.body, params), self.weight(decl.body)
            else:
                depths.append(self.depth(decl.body, {}))
                weights.append(self.weight(decl.body))
        depths.append(self.depth(self.tree.play, {}))
        weights.append(self.weight(self.tree.play))
        if max(depths) > MOST_DEPTH:
            self.fault("TooDeep", self.tree.play_at)
        if sum(weights) > MOST_WEIGHT:
            self.fault("TooHeavy", self.tree.play_at)

    def depth(self, e, given):
        """`given` has the depth of each local name; other names are global variables, with 0."""
        if e.form == "number":
            return 1
        if e.form == "name":
            return max(1, given.get(e.name, 0))
        if e.form == "block":
            given = dict(given)
            parts = []
            for _, name, value in e.binds:
                parts.append(self.depth(value, given))
                given[name] = parts[-1]
            return 1 + max(parts + [self.depth(e.parts[0], given)])
        if e.form == "call" and e.name in REPEATS:
            return 1 + self.depth(e.parts[2], {**given, e.parts[0].name: 0})
        if e.form == "call" and e.name == "warp":
            return 1 + self.depth(e.parts[1], given)
        parts = [self.depth(part, given) for part in e.parts]
        if e.form == "call" and e.name not in BUILT_INS:
            return 1 + max(parts + [0]) + self.body_measures[e.name][0]
        return 1 + max(parts)

    def weight(self, e):
        if e.form in ("number", "name"):
            return 1
        if e.form == "block":
            return 1 + sum(self.weight(value) for _, _, value in e.binds) + self.weight(e.parts[0])
        if e.form == "call" and e.name in REPEATS:
            return 1 + count_of(e.parts[1]) * self.weight(e.parts[2])
        if e.form == "call" and e.name == "warp":
            return 1 + len(e.parts[0].parts) + self.weight(e.parts[1])
        total = 1 + sum(self.weight(part) for part in e.parts)
        if e.form == "call" and e.name not in BUILT_INS:
            total += self.body_measures[e.name][1]
        return total


# ---------------------------------------------------------------------------------------------------------------------
# The warp and the environment
# ---------------------------------------------------------------------------------------------------------------------

def scaled(s, x):
    return clampt(s * x // MILLION)


def map_value(points, t):
    """A map's value at a time; `points` begin with (0, 0)."""
    for (x, y), (x2, y2) in zip(points, points[1:]):
        if x <= t < x2:
            return y + (t - x) * (y2 - y) // (x2 - x)
    x, y = points[-1]
    return clampt(y + t - x)


class Env:
    """d in ticks, s, loudness, sustain and transposition in millionths, the two rates, and the steps of the warp, the
    outermost first."""

    def __init__(self, rate):
        self.d, self.s, self.steps = 0, MILLION, []
        self.loudness, self.sustain, self.transposition = MILLION, MILLION, 0
        self.sound_rate, self.control_rate = rate, 2205

    def copy(self):
        env = Env(self.sound_rate)
        env.__dict__.update(self.__dict__)
        return env

    def changed(self, **changes):
        env = self.copy()
        env.__dict__.update(changes)
        return env

    def through_steps(self, x):
        for d, s, points in reversed(self.steps):
            x = clampt(d + scaled(s, map_value(points, x)))
        return x

    def w(self, v):
        """The global time of a local time."""
        return self.through_steps(clampt(self.d + scaled(self.s, ticks_of(v))))

    def least_inverse(self, t):
        """The least x whose time through the steps is at least t, or the horizon; the steps never fall."""
        if not self.steps:
            return clampt(t)
        if self.through_steps(HORIZON) < t:
            return HORIZON
        low, high = 0, HORIZON
        while low < high:
            middle = (low + high) // 2
            if self.through_steps(middle) >= t:
                high = middle
            else:
                low = middle + 1
        return low

    def at(self, t):
        return self.changed(d=clampt(self.d + scaled(self.s, ticks_of(t))))

    def stretch(self, k):
        return self.changed(s=fix_mul(self.s, max(k, 0)))

    def warp(self, points):
        return self.changed(steps=self.steps + [(self.d, self.s, [(0, 0)] + points)], d=0, s=MILLION)

    def at_stop(self, t):
        return self.changed(d=self.least_inverse(t))


# ---------------------------------------------------------------------------------------------------------------------
# Units and sounds
# ---------------------------------------------------------------------------------------------------------------------

KINDS = ("const", "ramp", "osc", "hzosc", "lfo", "noise", "pwl", "data", "abs", "add", "sub", "mul", "max", "min",
         "resample", "filter", "mix", "channel")


class Samples:
    """The samples of a unit from its start, made one by one by a generator as far as somebody looks at them."""

    def __init__(self, made):
        self.made, self.have = made, []

    def get(self, n):
        while len(self.have) <= n:
            self.have.append(next(self.made))
        return self.have[n]


class Sound:
    """What an expression means: a rate, a start and a visible length, a logical stop in ticks, and samples. `unit` is
    what makes them, or None where there are none."""

    def __init__(self, rate, start, length, stop, samples, unit):
        self.rate, self.start, self.length, self.samples, self.unit = rate, start, length, samples, unit
        self.stop = max(stop, start * grid(rate))
        if length == 0:
            self.unit = None

    def end(self):
        return self.start + self.length

    def value(self, m):
        n = m - self.start
        return self.samples.get(n) if 0 <= n < self.length else 0

    def moved(self, start, stop):
        """The same samples from another start, cut at the horizon."""
        length = min(self.length, last_index(self.rate) - start)
        return Sound(self.rate, start, length, stop, self.samples, self.unit)

    def placed(self, p):
        return self.moved(max(self.start, p), self.stop)


class Input:
    """What a unit reads: another unit from `start` on, `visible` samples of it. `offset` and `captured` are for parts of
    a sequence: how far behind the mix's start the part falls due, and the units that it holds until then."""

    def __init__(self, sound, offset=0, captured=()):
        self.unit = sound.unit
        self.rate, self.start, self.visible = sound.rate, sound.start, sound.length
        self.offset, self.captured = offset, list(captured)


class Unit:
    def __init__(self, number, kind, rate, start, length, inputs):
        self.number, self.kind, self.rate, self.start, self.length, self.inputs = number, kind, rate, start, length, inputs
        self.filled = 0
        self.passed = 0                             # how many inputs, from the first on, have nothing left to read
        self.offsets = [given.offset for given in inputs]
        assert self.offsets == sorted(self.offsets)
        self.last_capture = {captured: n for n, given in enumerate(inputs) for captured in given.captured}

    def come(self, block):
        """How many inputs are revealed, for offsets never fall. All others wait."""
        return bisect.bisect_left(self.offsets, (self.filled + 1) * block)

    def need(self, given, blocks, block):
        """How many samples of an input are taken after so many blocks."""
        if blocks == 0:
            return 0
        reach = self.start + min(blocks * block, self.length)
        if self.kind == "resample":
            q = (reach - 1) * grid(self.rate) // grid(given.rate)
            taken = q + 2 - given.start
        else:
            taken = reach - given.start
        return clamp(taken, 0, given.visible)


def wave_entry(entries, k):
    half = entries // 2
    if k >= half:
        return -wave_entry(entries, k - half)
    rising = k * (half - k)
    return MILLION * 16 * rising // (5 * half * half - 4 * rising)


KEY_HZ = (2616256, 2771826, 2936648, 3111270, 3296276, 3492282, 3699944, 3919954, 4153047, 4400000, 4661638, 4938833)


def hz_of_key(key):
    """In millionths of a Hz; `key` is a whole number of half tones from 0 to 127."""
    octave, place = divmod(key - 60, 12)
    hz = KEY_HZ[place]
    return 100 * (hz * 2 ** octave if octave >= 0 else hz // 2 ** -octave)


def operate(op, a, b):
    if op == "add":
        return sat_sample(a + b)
    if op == "sub":
        return sat_sample(a - b)
    if op == "mul":
        return sample_mul(a, b)
    return max(a, b) if op == "max" else min(a, b)


def wave_samples(entries, hz, rate, loud):
    inc = max(hz, 0) * 2 ** 32 // (MILLION * rate) % 2 ** 32
    table = [sat_sample(wave_entry(entries, k)) for k in range(entries)]
    if loud is not None:
        table = [sample_mul(x, loud) for x in table]
    n = 0
    while True:
        yield table[n * inc % 2 ** 32 // (2 ** 32 // entries)]
        n += 1


def noise_samples(seed, loud):
    x = seed // MILLION % 2 ** 32
    while True:
        x = (1664525 * x + 1013904223) % 2 ** 32
        yield sample_mul(x // 256 * 2000000 // 2 ** 24 - 1000000, loud)


def constant(v):
    while True:
        yield v


def ramp_samples(length):
    for n in range(length):
        yield sat_sample(MILLION * n // length)


def envelope_samples(knots):
    """`knots` are pairs of an absolute index and a level."""
    for m in range(knots[0][0], knots[-1][0]):
        i = max(k for k, (t, _) in enumerate(knots) if t <= m)
        (t, level_), (t2, level2) = knots[i], knots[i + 1]
        yield sat_sample(level_ + (level2 - level_) * (m - t) // (t2 - t))


def pair_samples(op, a, b, start, end):
    for m in range(start, end):
        yield operate(op, a(m), b(m))


def absolute_samples(x):
    for n in range(x.length):
        yield abs(x.samples.get(n))


def resampled(x, rate, start, end):
    g_from, g_to = grid(x.rate), grid(rate)
    for m in range(start, end):
        q, f = divmod(m * g_to, g_from)
        here = x.value(q)
        yield here + (x.value(q + 1) - here) * f // g_from


def one_pole(x, a):
    y = 0
    for n in range(x.length):
        y = sat_sample(y + a * (x.samples.get(n) - y) // MILLION)
        yield y


def biquad(x, b0, b1, b2, a1, a2):
    x1 = x2 = y1 = y2 = 0
    for n in range(x.length):
        x0 = x.samples.get(n)
        y = sat_sample((b0 * x0 + b1 * x1 + b2 * x2 + a1 * y1 + a2 * y2) // MILLION)
        x1, x2, y1, y2 = x0, x1, y, y1
        yield y


def comb(x, delay, gain):
    given = []
    for n in range(x.length):
        before = given[n - delay] if n >= delay else 0
        given.append(sat_sample(x.samples.get(n) + gain * before // MILLION))
        yield given[n]


def mixed(parts, start, end):
    """At an index the parts that are heard there are added, in their order; all others are 0 there."""
    coming = sorted(range(len(parts)), key=lambda k: parts[k].start, reverse=True)
    heard, edge = [], start
    for m in range(start, end):
        if m == edge:
            while coming and parts[coming[-1]].start <= m:
                heard.append(coming.pop())
            heard = sorted(k for k in heard if parts[k].end() > m)
            edge = min([parts[k].end() for k in heard] + [parts[k].start for k in coming[-1:]] + [end])
            now = [parts[k] for k in heard]
        total = 0
        for part in now:
            total = sat_sample(total + part.value(m))
        yield total


# ---------------------------------------------------------------------------------------------------------------------
# Meaning: an expression as a number, a test or a sound
# ---------------------------------------------------------------------------------------------------------------------

UNTOLD = object()      # a sound inside a number or a test, which no number depends on
OPERATIONS = {"+": "add", "-": "sub", "*": "mul", "s-max": "max", "s-min": "min"}


class Meaning:
    """`binds` gives for each local name a number or a sound."""

    def __init__(self, tree, acceptance):
        self.tree, self.acceptance = tree, acceptance
        self.units = []
        self.globals = {}

    # Kinds of an expression under binds

    def kinds_of(self, binds):
        return {name: NUMBER if isinstance(value, int) else SOUND for name, value in binds.items()}

    def kind(self, e, binds):
        return self.acceptance.kind(e, self.kinds_of(binds))

    def params(self, e):
        decl = self.tree.decls[self.acceptance.functions[e.name]]
        return [name for _, name in decl.params], decl.body

    # Numbers and tests

    def number(self, e, binds):
        if e.form == "number":
            return e.value
        if e.form == "name":
            return binds[e.name] if e.name in binds else self.global_value(e.name)
        if e.form == "if":
            return self.number(e.parts[1] if self.test(e.parts[0], binds) else e.parts[2], binds)
        if e.form == "block":
            binds = dict(binds)
            for _, name, value in e.binds:
                binds[name] = self.number_or_untold(value, binds)
            return self.number(e.parts[0], binds)
        if e.form == "call" and e.name not in BUILT_INS:
            names, body = self.params(e)
            return self.number(body, dict(zip(names, [self.number_or_untold(part, binds) for part in e.parts])))
        if e.form == "prefix":
            return sat(-self.number(e.parts[0], binds))
        a, b = [self.number(part, binds) for part in e.parts]
        if e.name in ("+", "-"):
            return sat(a + b if e.name == "+" else a - b)
        if e.name == "*":
            return fix_mul(a, b)
        if e.name == "/":
            return fix_div(a, b)
        return max(a, b) if e.name == "s-max" else min(a, b)

    def number_or_untold(self, e, binds):
        return self.number(e, binds) if self.kind(e, binds) == NUMBER else UNTOLD

    def global_value(self, name):
        if name not in self.globals:
            self.globals[name] = self.number(self.tree.decls[self.acceptance.variables[name]].body, {})
        return self.globals[name]

    def test(self, e, binds):
        if e.form == "prefix":
            return not self.test(e.parts[0], binds)
        if e.name == "&":
            return self.test(e.parts[0], binds) and self.test(e.parts[1], binds)
        if e.name == "|":
            return self.test(e.parts[0], binds) or self.test(e.parts[1], binds)
        a, b = [self.number(part, binds) for part in e.parts]
        return {"=": a == b, "!=": a != b, "<": a < b, ">": a > b, "<=": a <= b, ">=": a >= b}[e.name]

    # Sounds

    def made(self, kind, rate, start, length, stop, samples, inputs=()):
        """A sound with a unit of its own, where it has any samples."""
        unit = None
        if length > 0:
            unit = Unit(len(self.units), kind, rate, start, length, list(inputs))
            self.units.append(unit)
        return Sound(rate, start, length, stop, Samples(samples), unit)

    def value(self, e, env, binds):
        return self.number(e, binds) if self.kind(e, binds) == NUMBER else self.sound(e, env, binds)

    def block_binds(self, e, env, binds):
        binds = dict(binds)
        for _, name, value in e.binds:
            binds[name] = self.value(value, env, binds)
        return binds

    def call_binds(self, e, env, binds):
        names, body = self.params(e)
        return body, dict(zip(names, [self.value(part, env, binds) for part in e.parts]))

    def sound(self, e, env, binds):
        if e.form == "name":
            return binds[e.name]
        if e.form == "if":
            return self.sound(e.parts[1] if self.test(e.parts[0], binds) else e.parts[2], env, binds)
        if e.form == "block":
            return self.sound(e.parts[0], env, self.block_binds(e, env, binds))
        if e.form == "prefix":
            return self.negated(self.sound(e.parts[0], env, binds), env)
        if e.form == "call" and e.name not in BUILT_INS:
            body, inside = self.call_binds(e, env, binds)
            return self.sound(body, env, inside)
        if e.form == "binary" and e.name in ("@", "~"):
            return self.transformed({"@": "at", "~": "stretch"}[e.name], e.parts[1], e.parts[0], env, binds)
        if e.name in OPERATIONS:
            return self.operation(OPERATIONS[e.name], e.parts, env, binds)
        if e.name == "scale":
            return self.operation("mul", e.parts, env, binds)
        if e.name in ("at", "stretch", "loud", "sustain", "transpose"):
            return self.transformed(e.name, e.parts[0], e.parts[1], env, binds)
        if e.name == "warp":
            return self.sound(e.parts[1], env.warp(points_of(e.parts[0])), binds)
        if e.name == "sound-srate-abs":
            return self.sound(e.parts[1], env.changed(sound_rate=rate_of(e.parts[0])), binds)
        if e.name == "control-srate-abs":
            return self.sound(e.parts[1], env.changed(control_rate=rate_of(e.parts[0])), binds)
        if e.name in ("s-abs", "onepole", "biquad", "comb"):
            return self.of_one(e, env, binds)
        if e.name == "cue":
            return self.cue(self.sound(e.parts[0], env, binds), env)
        if e.name in ("sim", "simrep"):
            return self.sim(self.parts_of(e, binds), env)
        if e.name in ("seq", "seqrep"):
            return self.seq(self.parts_of(e, binds), env)
        return self.leaf(e.name, [self.number(part, binds) for part in e.parts], env)

    def transformed(self, change, number, e, env, binds):
        k = self.number(number, binds)
        if change == "at":
            env = env.at(k)
        elif change == "stretch":
            env = env.stretch(k)
        elif change == "loud":
            env = env.changed(loudness=fix_mul(env.loudness, k))
        elif change == "sustain":
            env = env.changed(sustain=fix_mul(env.sustain, k))
        else:
            env = env.changed(transposition=sat(env.transposition + k))
        return self.sound(e, env, binds)

    def leaf(self, name, numbers, env):
        if name == "pwl":
            return self.envelope(numbers, env)
        d = numbers[-1]
        rate = env.control_rate if name in ("ramp", "lfo") else env.sound_rate
        start = index(env.w(0), rate)
        stop = env.w(d)
        if name == "s-rest":
            return self.made(name, rate, start, 0, stop, iter(()))
        held = d if name == "ramp" else fix_mul(d, env.sustain)
        length = index(env.w(held), rate) - start
        loud = sat_sample(env.loudness)
        if name == "const":
            samples = constant(sat_sample(numbers[0]))
        elif name == "ramp":
            samples = ramp_samples(length)
        elif name == "osc":
            key = clamp(sat(numbers[0] + env.transposition) // MILLION, 0, 127)
            samples = wave_samples(1024, hz_of_key(key), rate, loud)
        elif name == "hzosc":
            samples = wave_samples(4096, numbers[0], rate, loud)
        elif name == "lfo":
            samples = wave_samples(256, numbers[0], rate, None)
        else:
            samples = noise_samples(numbers[0], loud)
        return self.made(name, rate, start, length, stop, samples)

    def envelope(self, numbers, env):
        times, levels = [0], [0]
        for t in numbers[::2]:
            times.append(max(t, times[-1]))
        levels += [sat_sample(v) for v in numbers[1::2]] + [0]
        rate = env.control_rate
        knots = [(index(env.w(t), rate), v) for t, v in zip(times, levels)]
        start, end = knots[0][0], knots[-1][0]
        return self.made("pwl", rate, start, end - start, env.w(times[-1]), envelope_samples(knots))

    def brought(self, x, rate):
        """The sound at another rate."""
        if x.rate == rate:
            return x
        g_from, g_to = grid(x.rate), grid(rate)
        start, end = -(-x.start * g_from // g_to), -(-x.end() * g_from // g_to)
        if x.length == 0:
            end = start
        return self.made("resample", rate, start, end - start, x.stop, resampled(x, rate, start, end), [Input(x)])

    def operation(self, op, parts, env, binds):
        sides = [self.value(part, env, binds) for part in parts]
        sides = [side if isinstance(side, int) else self.brought(side, env.sound_rate) for side in sides]
        return self.pair(op, sides[0], sides[1], env.sound_rate)

    def negated(self, x, env):
        return self.pair("sub", 0, self.brought(x, env.sound_rate), env.sound_rate)

    def pair(self, op, a, b, rate):
        sounds = [x for x in (a, b) if not isinstance(x, int)]
        start = min(x.start for x in sounds)
        if op == "mul":
            end, stop = min(x.end() for x in sounds), min(x.stop for x in sounds)
        else:
            end, stop = max(x.end() for x in sounds), max(x.stop for x in sounds)
        end = max(start, end)

        def values(x):
            if not isinstance(x, int):
                return x.value
            number = sat_sample(x)
            return lambda m: number
        samples = pair_samples(op, values(a), values(b), start, end)
        return self.made(op, rate, start, end - start, stop, samples, [Input(x) for x in sounds])

    def of_one(self, e, env, binds):
        x = self.sound(e.parts[0], env, binds)
        numbers = [self.number(part, binds) for part in e.parts[1:]]
        if e.name == "s-abs":
            kind, samples = "abs", absolute_samples(x)
        elif e.name == "onepole":
            kind, samples = "filter", one_pole(x, *numbers)
        elif e.name == "biquad":
            kind, samples = "filter", biquad(x, *numbers)
        else:
            delay = clamp(index(ticks_of(numbers[0]), x.rate), 1, 65536)
            kind, samples = "filter", comb(x, delay, numbers[1])
        return self.made(kind, x.rate, x.start, x.length, x.stop, samples, [Input(x)])

    def cue(self, x, env):
        k = index(env.w(0), x.rate)
        start = min(x.start + k, last_index(x.rate))
        x = x.moved(start, min(x.stop + k * grid(x.rate), HORIZON))
        return x if env.loudness == MILLION else self.pair("mul", env.loudness, x, x.rate)

    # Mixes

    def parts_of(self, e, binds):
        """Pairs of an expression and its binds."""
        if e.name in REPEATS:
            name = e.parts[0].name
            return [(e.parts[2], {**binds, name: i * MILLION}) for i in range(count_of(e.parts[1]))]
        return [(part, binds) for part in e.parts]

    def sim(self, parts, env):
        sounds = [self.sound(e, env, binds) for e, binds in parts]
        return self.mix([self.brought(x, env.sound_rate) for x in sounds], env.sound_rate)

    def seq(self, parts, env):
        rate = env.sound_rate
        sounds, places = [], []
        for e, binds in parts:
            if not sounds:
                x = self.brought(self.sound(e, env, binds), rate)
                places.append(x.start)
            else:
                stop = sounds[-1].stop
                places.append(index(stop, rate))
                x = self.brought(self.sound(e, env.at_stop(stop), binds), rate).placed(places[-1])
            sounds.append(x)
        captured = [[]] + [self.captured(e, binds) for e, binds in parts[1:]]
        return self.mix(sounds, rate, places, captured)

    def mix(self, sounds, rate, places=None, captured=None):
        start = min(x.start for x in sounds)
        end = max([x.end() for x in sounds] + [index(x.stop, rate) for x in sounds])
        stop = max(x.stop for x in sounds)
        inputs = [Input(x) for x in sounds]
        for n in range(1, len(sounds)):
            if places is not None:
                inputs[n].offset, inputs[n].captured = places[n] - start, captured[n]
        return self.made("mix", rate, start, end - start, stop, mixed(sounds, start, end), inputs)

    def captured(self, e, binds):
        """The units of the sounds that the free names of a waiting part stand for."""
        sounds = [binds[name] for name in self.free_names(e) if not isinstance(binds.get(name, 0), int)]
        return [x.unit for x in sounds if x.unit is not None]

    def free_names(self, e):
        if e.form == "name":
            return {e.name}
        if e.form == "block":
            free, bound = set(), set()
            for _, name, value in e.binds:
                free |= self.free_names(value) - bound
                bound.add(name)
            return free | (self.free_names(e.parts[0]) - bound)
        if e.form == "call" and e.name in REPEATS:
            return self.free_names(e.parts[2]) - {e.parts[0].name}
        if e.form == "call" and e.name == "warp":
            return self.free_names(e.parts[1])
        return set().union(*[self.free_names(part) for part in e.parts])

    # Channels

    def channels(self, rate):
        sounds = self.played(self.tree.play, Env(rate), {})
        channels = []
        for x in [self.brought(x, rate) for x in sounds]:
            end = max(x.end(), index(x.stop, rate))
            channels.append(self.made("channel", rate, 0, x.end(), end, mixed([x], 0, x.end()), [Input(x)]))
        return channels

    def played(self, e, env, binds):
        if e.form == "if" and isinstance(self.kind(e, binds), tuple):
            return self.played(e.parts[1] if self.test(e.parts[0], binds) else e.parts[2], env, binds)
        if e.form == "block":
            return self.played(e.parts[0], env, self.block_binds(e, env, binds))
        if e.form == "call" and e.name == "vector":
            return [self.sound(part, env, binds) for part in e.parts]
        if e.form == "call" and e.name not in BUILT_INS:
            body, inside = self.call_binds(e, env, binds)
            return self.played(body, env, inside)
        return [self.sound(e, env, binds)]


# ---------------------------------------------------------------------------------------------------------------------
# Blocks: who reads what, which blocks are live, and the fills of a pull
# ---------------------------------------------------------------------------------------------------------------------

class PoolFull(Exception):
    pass


class Engine:
    """All units of a program, with how many blocks each has filled. Who still reads a unit is looked up anew each time."""

    def __init__(self, tree, acceptance, rate, block, pool):
        meaning = Meaning(tree, acceptance)
        self.channels = meaning.channels(rate)
        self.units, self.block, self.pool = meaning.units, block, pool
        self.outside = [c.unit for c in self.channels if c.unit is not None]
        self.pulled = [0] * len(self.channels)      # samples that the pulls of each channel took
        self.pulls = self.fills = self.peak = 0
        self.few = sum(self.blocks(x) for x in self.units) < pool
        self.watch = True                           # whether live blocks are counted before each fill

    def blocks(self, unit):
        return -(-unit.length // self.block)

    def open(self, unit):
        return unit.filled < self.blocks(unit)

    def computed(self, unit):
        return min(unit.filled * self.block, unit.length)

    def least_positions(self):
        """For each unit that is held, the least position of its readers. What reads a unit comes after it."""
        least, next_units = {}, []                  # the numbers of the units to look at, the greatest first, below 0

        def reads(unit, position):
            if unit.number not in least:
                heapq.heappush(next_units, -unit.number)
            least[unit.number] = min(position, least.get(unit.number, position))
        for unit in self.outside:
            if self.open(unit):
                reads(unit, self.computed(unit))
        while next_units:
            unit = self.units[-heapq.heappop(next_units)]
            if not self.open(unit):
                continue
            come = unit.come(self.block)
            for given in unit.inputs[unit.passed:come]:
                if not self.exhausted(unit, given):
                    reads(given.unit, unit.need(given, unit.filled, self.block))
            for captured, last in unit.last_capture.items():
                if last >= come:
                    reads(captured, 0)
        return least

    def exhausted(self, unit, given):
        return given.unit is None or unit.need(given, unit.filled, self.block) == given.visible

    def live_by_kind(self):
        counts = [0] * len(KINDS)
        for number, position in self.least_positions().items():
            unit = self.units[number]
            counts[KINDS.index(unit.kind)] += max(0, unit.filled - position // self.block)
        return counts

    def live(self):
        return sum(self.live_by_kind())

    def fill(self, unit):
        for given in unit.inputs[unit.passed:unit.come(self.block)]:
            need = unit.need(given, unit.filled + 1, self.block)
            while given.unit is not None and self.computed(given.unit) < need:
                self.fill(given.unit)
        if self.watch or not self.few:
            live = self.live()
            if live == self.pool:
                raise PoolFull()
            self.peak = max(self.peak, live + 1)
        unit.filled += 1
        self.fills += 1
        while unit.passed < unit.come(self.block) and self.exhausted(unit, unit.inputs[unit.passed]):
            unit.passed += 1

    def ended(self, c):
        return self.pulled[c] == self.channels[c].length

    def pull(self, c):
        """The next samples of a channel."""
        channel = self.channels[c]
        self.fill(channel.unit)
        before, self.pulled[c] = self.pulled[c], self.computed(channel.unit)
        self.pulls += 1
        return [channel.samples.get(n) for n in range(before, self.pulled[c])]

    def frames(self):
        return max(c.length for c in self.channels)


# ---------------------------------------------------------------------------------------------------------------------
# The file
# ---------------------------------------------------------------------------------------------------------------------

def wav_header(channels, rate, frames):
    align = channels * 2
    size = frames * align
    return (b"RIFF" + struct.pack("<I", 36 + size) + b"WAVEfmt "
            + struct.pack("<IHHIIHH", 16, 1, channels, rate, rate * align, align, 16) + b"data" + struct.pack("<I", size))


def pcm16(x):
    return struct.pack("<h", clamp(x * 32767 // MILLION, -32768, 32767))


def frame_bytes(rows):
    """The bytes of frames, from a list of samples for each channel."""
    longest = max(len(row) for row in rows)
    filled = [row + [0] * (longest - len(row)) for row in rows]
    return b"".join(pcm16(x) for frame in zip(*filled) for x in frame)


# ---------------------------------------------------------------------------------------------------------------------
# A host in memory
# ---------------------------------------------------------------------------------------------------------------------

class Failed(Exception):
    pass


class Host:
    """Files by name; a call moves at most `step` bytes. `fails` has pairs of a call's name and its number from 1."""

    def __init__(self, files, step=1000000, fails=()):
        self.files, self.step, self.fails = files, step, set(fails)
        self.calls = {"open": 0, "read": 0, "create": 0, "write": 0, "print": 0}
        self.created, self.printed = None, b""

    def count(self, call):
        self.calls[call] += 1
        if (call, self.calls[call]) in self.fails:
            raise Failed()

    def open(self, name):
        self.count("open")
        if name not in self.files:
            raise Failed()
        self.left = self.files[name]

    def read(self, most):
        self.count("read")
        n = min(most, self.step)
        piece, self.left = self.left[:n], self.left[n:]
        return piece

    def create(self, name):
        self.count("create")
        self.created = name, b""

    def write_all(self, data):
        while data:
            self.count("write")
            name, have = self.created
            self.created = name, have + data[:self.step]
            data = data[self.step:]

    def print_all(self, data):
        while data:
            self.count("print")
            self.printed += data[:self.step]
            data = data[self.step:]


# ---------------------------------------------------------------------------------------------------------------------
# The commands
# ---------------------------------------------------------------------------------------------------------------------

OK, USAGE, OPEN_FAULT, READ_FAULT, WRITE_FAULT, REFUSED, POOL_FULL = 0, 2, 3, 4, 5, 6, 8
LONGEST_TEXT = 1048576
GATHERED = 65536
DEFAULTS = {"--pool": 16384, "--block": 1024, "--rate": 44100}
ALLOWED = {"--pool": range(1, 65537), "--block": range(16, 4097), "--rate": RATES}


class End(Exception):
    """The end of a run: its status, and the line that it prints."""

    def __init__(self, status, line):
        self.status, self.line = status, line


def read_number(word):
    if not 1 <= len(word) <= 10 or any(c not in "0123456789" for c in word):
        raise End(USAGE, "fault: usage")
    return int(word)


def usage():
    raise End(USAGE, "fault: usage")


class Command:
    """The words of a command that is built. `later` takes the words of `live` and `gen` as well.

    After the command come its names, each once and in their order, and anywhere among them its options: `--pool 9` or
    `--pool=9`. A word that begins with `-`, other than `-` itself, is an option, and no value of one. From `--` on all
    words are names. An empty word is no name."""

    NAMES = {"render": 2, "check": 1, "live": 1, "gen": 2}
    VALUED = {"render": ["--pool", "--block", "--rate"], "live": ["--pool", "--block", "--rate", "--order"]}
    FLAGS = {"live": ["--kinds"]}

    def __init__(self, words, later=False):
        if not words or words[0] not in (("render", "check", "live", "gen") if later else ("render", "check")):
            usage()
        self.name, self.places, self.given = words[0], [], {}
        rest = words[1:]
        while rest and rest[0] != "--":
            rest = self.word(rest)
        self.places += rest[1:]
        if len(self.places) != self.NAMES[self.name] or "" in self.places:
            usage()
        self.order, self.kinds = self.given.pop("--order", None), "--kinds" in self.given
        if self.order is not None and not (1 <= len(self.order) <= 64 and all(c in "0123456789" for c in self.order)):
            usage()
        self.options = {option: read_number(word) for option, word in self.given.items() if option in ALLOWED}
        if any(number not in ALLOWED[option] for option, number in self.options.items()):
            usage()
        if self.name == "gen":
            self.places = [read_number(word) for word in self.places]
            if self.places[0] > 4294967295 or not 2 <= self.places[1] <= 20000:
                usage()

    def word(self, rest):
        """Reads a name or an option, and gives the words after it."""
        if rest[0] == "-" or not rest[0].startswith("-"):
            self.places.append(rest[0])
            return rest[1:]
        option, equals, value = rest[0].partition("=")
        valued = option in self.VALUED.get(self.name, [])
        if option in self.given or not valued and (equals or option not in self.FLAGS.get(self.name, [])):
            usage()
        if valued and not equals:
            if len(rest) < 2 or rest[1] != "-" and rest[1].startswith("-"):
                usage()
            value, rest = rest[1], rest[1:]
        self.given[option] = value
        return rest[1:]

    def get(self, option):
        return self.options.get(option, DEFAULTS[option])


def read_text(host, name):
    try:
        host.open(name)
    except Failed:
        raise End(OPEN_FAULT, "fault: open " + name)
    text = b""
    try:
        while len(text) <= LONGEST_TEXT:
            piece = host.read(LONGEST_TEXT + 1 - len(text))
            if not piece:
                return text
            text += piece
    except Failed:
        raise End(READ_FAULT, "fault: read " + name)
    raise End(REFUSED, "refused: too long")


def accepted(text):
    """The tree of a text and its acceptance, or the end of the run."""
    try:
        tree = parse(text, lex(text))
        acceptance = Acceptance(tree)
        acceptance.judge()
        return tree, acceptance
    except LexFault as fault:
        raise End(REFUSED, "refused: lex %d %s" % (fault.at, fault.why))
    except ParseFault as fault:
        raise End(REFUSED, "refused: parse %d" % fault.at)
    except CheckFault as fault:
        raise End(REFUSED, "refused: check %d %s" % (fault.at, fault.why))


def write_rounds(engine, host):
    """Writes the frames of all rounds, and tells whether the pool was full before the last. Rounds are gathered, and written
    by one call where no room for one more is left, at the end, and where the pool is full."""
    everyone = range(len(engine.channels))
    gathered, longest, full = b"", 2 * len(engine.channels) * engine.block, False
    while not full and not all(engine.ended(c) for c in everyone):
        try:
            rows = [[] if engine.ended(c) else engine.pull(c) for c in everyone]
        except PoolFull:
            full = True
        else:
            if len(gathered) + longest > GATHERED:
                host.write_all(gathered)
                gathered = b""
            gathered += frame_bytes(rows)
    host.write_all(gathered)
    return full


def render(engine, rate, host, out):
    try:
        host.create(out)
    except Failed:
        raise End(OPEN_FAULT, "fault: create " + out)
    try:
        host.write_all(wav_header(len(engine.channels), rate, engine.frames()))
        full = write_rounds(engine, host)
    except Failed:
        raise End(WRITE_FAULT, "")
    if full:
        raise End(POOL_FULL, "pool full after %d pulls" % engine.pulls)


def live(engine, order, kinds, host):
    digits = [int(c) for c in order] if order else list(range(len(engine.channels)))
    if not set(digits) == set(range(len(engine.channels))):
        raise End(USAGE, "fault: usage")
    try:
        while not all(engine.ended(c) for c in digits):
            for c in digits:
                if not engine.ended(c):
                    engine.pull(c)
                    print_line(host, pull_line(engine, c, kinds))
    except PoolFull:
        raise End(POOL_FULL, "pool full after %d pulls" % engine.pulls)
    print_line(host, "peak %d" % engine.peak)


def pull_line(engine, c, kinds):
    counts = engine.live_by_kind()
    line = "pull %d channel %d live %d fills %d" % (engine.pulls, c, sum(counts), engine.fills)
    if kinds:
        line += "".join(" %s %d" % (name, count) for name, count in zip(KINDS, counts) if count)
    return line


def generated(seed, notes):
    """The text of a number."""
    x = seed
    sides = [], []

    def draw():
        nonlocal x
        x = (1664525 * x + 1013904223) % 2 ** 32
        return x // 65536
    for k in range(notes):
        key = 48 + draw() % 25
        milli = 100 + 25 * (draw() % 7)
        sides[k % 2].append("n(%d, %s)" % (key, write_decimal(milli * 1000)))
    return ("define function n(k, d) return osc(k, d) * pwl(0.01, 0.3, d - 0.02, 0.2, d)\n"
            "define function e(x) return sim(cue(x), scale(0.4, cue(x) @ 0.25))\n"
            "play vector(e(seq(%s)), e(seq(%s)))\n" % (", ".join(sides[0]), ", ".join(sides[1]))).encode("ascii")


def generate(seed, notes, host):
    tree, acceptance = accepted(generated(seed, notes))
    engine = Engine(tree, acceptance, 44100, 1024, 16384)
    total = 0
    try:
        while not all(engine.ended(c) for c in (0, 1)):
            for c in (0, 1):
                if not engine.ended(c):
                    total += sum(engine.pull(c))
    except PoolFull:
        raise End(POOL_FULL, "pool full after %d pulls" % engine.pulls)
    for line in ("notes %d" % notes, "frames %d" % engine.frames(), "peak %d" % engine.peak,
                 "fills %d" % engine.fills, "sum %d" % (total % 2 ** 32)):
        print_line(host, line)


def print_line(host, line):
    try:
        host.print_all(line.encode() + b"\n")
    except Failed:
        raise End(WRITE_FAULT, "")


def do(words, host, later):
    command = Command(words, later)
    if command.name == "gen":
        return generate(command.places[0], command.places[1], host)
    tree, acceptance = accepted(read_text(host, command.places[0]))
    if command.name == "check":
        try:
            return host.print_all(canonical(tree))
        except Failed:
            raise End(WRITE_FAULT, "")
    rate = command.get("--rate")
    engine = Engine(tree, acceptance, rate, command.get("--block"), command.get("--pool"))
    if command.name == "live":
        return live(engine, command.order, command.kinds, host)
    engine.watch = False
    return render(engine, rate, host, command.places[1])


def run(words, host, later=False):
    """The exit code of a command. `later` takes also the commands that `nyq` doesn't have yet."""
    try:
        do(words, host, later)
        return OK
    except End as end:
        if end.status != WRITE_FAULT:
            try:
                host.print_all(end.line.encode() + b"\n")
                return end.status
            except Failed:
                pass
        try:
            host.print_all(b"fault: write\n")
        except Failed:
            pass
        return WRITE_FAULT


def with_room(task):
    """Runs a task with a stack that is deep enough for the highest texts."""
    result = []
    threading.stack_size(512 * 1024 * 1024)
    thread = threading.Thread(target=lambda: result.append(task()))
    thread.start()
    thread.join()
    return result[0]


class Files(dict):
    """The files of the folder, each read when it is asked for."""

    def __missing__(self, name):
        with open(name, "rb") as file:
            return file.read()

    def __contains__(self, name):
        try:
            self[name]
            return True
        except OSError:
            return False


def main():
    later = "--later" in sys.argv
    host = Host(Files())
    code = with_room(lambda: run([word for word in sys.argv[1:] if word != "--later"], host, later))
    sys.stdout.buffer.write(host.printed)
    if host.created is not None:
        with open(host.created[0], "wb") as file:
            file.write(host.created[1])
    sys.stdout.flush()
    sys.exit(code)


if __name__ == "__main__":
    main()
