#!/usr/bin/env python3
"""Writes the vectors of arithmetic: what each function of the crates integers, floats and conversions gives for chosen operands.

Usage: arithmetic.py FILE           write the vectors to FILE
       arithmetic.py --check FILE   exit with 1 unless FILE is exactly what would be written

A line is one vector, 64 bytes with its line feed:

    columns  0- 1  the opcode in JVMS, in hexadecimal; C4, that of WIDE, for iinc_wide
             3-11  the function's name
            13-28  the first operand
            30-45  the second operand, blank where there is none
            47-62  the result

Operands and results are bits in upper-case hexadecimal, right-aligned: 8 digits of an int, a float or a shift's count, 16 of a long
or a double, 2 and 4 of IINC's constant, and 1 of a test (1 true, 0 false). The lines of a function stand together, by opcode.

The results are computed here, exactly, on whole numbers and fractions: JVMS 2.8, 2.11.3, 2.11.4 and 6.5, and IEEE 754 with rounding
to the nearest value, and to the even one of two that are as near. No floating-point arithmetic of Python or of the machine is used.
A NaN that an operation or a conversion gives is 7FC00000 or 7FF8000000000000.
"""
import sys
from fractions import Fraction


# Whole numbers: bits, and the number that they mean in two's complement.

def low(width, n):
    """The low bits of a whole number."""
    return n % (1 << width)


def signed(width, bits):
    """The number that the bits mean."""
    return bits - (1 << width) if bits >> (width - 1) else bits


def quotient(a, b):
    """The quotient, rounded toward zero."""
    size = abs(a) // abs(b)
    return size if (a < 0) == (b < 0) else -size


def remainder(a, b):
    """What the quotient leaves, with the sign of the dividend."""
    return a - b * quotient(a, b)


def order(a, b):
    """-1, 0 or 1 as a is less than, equal to or greater than b."""
    return (a > b) - (a < b)


# Floating point: a format, and its operations on bits.

class Format:
    """A binary format of IEEE 754, by its width and the number of its significant digits."""

    def __init__(self, width, digits):
        self.width = width
        self.digits = digits
        self.field = digits - 1                          # bits of the fraction
        self.least = 2 - (1 << (width - digits - 1))     # exponent of the smallest normal number
        self.sign = 1 << (width - 1)
        self.one_up = 1 << self.field                    # one more in the exponent, and the smallest normal number
        self.infinity = self.sign - self.one_up
        self.nan = self.infinity + (1 << (self.field - 1))
        self.largest = self.infinity - 1

    def is_nan(self, bits):
        return bits % self.sign > self.infinity

    def is_infinite(self, bits):
        return bits % self.sign == self.infinity

    def size(self, bits):
        """The magnitude. Infinity's is that of the next exponent, which is larger than every finite one."""
        exponent, fraction = divmod(bits % self.sign, self.one_up)
        if exponent == 0:
            return fraction * power(self.least - self.field)
        return (self.one_up + fraction) * power(self.least + exponent - 1 - self.field)

    def value(self, bits):
        return -self.size(bits) if bits >= self.sign else self.size(bits)

    def nearest(self, is_negative, size):
        """The bits of the nearest value, of two that are as near the one with an even last digit."""
        exponent = max(exponent_of(size), self.least) if size else self.least
        whole, rest = divmod(size / power(exponent - self.field), 1)
        if 2 * rest > 1 or 2 * rest == 1 and whole % 2 == 1:
            whole += 1
        # A carry out of the digits, or from the subnormal numbers to the normal ones, goes into the exponent.
        bits = min((exponent - self.least) * self.one_up + whole, self.infinity)
        return bits + self.sign if is_negative else bits

    def exactly(self, value):
        """The bits of a value of the format."""
        bits = self.nearest(value < 0, abs(Fraction(value)))
        assert self.value(bits) == value and not self.is_infinite(bits)
        return bits


def power(exponent):
    return Fraction(2) ** exponent


def exponent_of(size):
    """The e with 2^e <= size < 2^(e+1)."""
    guess = size.numerator.bit_length() - size.denominator.bit_length()
    return guess if power(guess) <= size else guess - 1


SINGLE = Format(32, 24)
DOUBLE = Format(64, 53)


def negated(f, a):
    """The sign bit flipped, of a NaN too."""
    return a ^ f.sign


def added(f, a, b):
    if f.is_nan(a) or f.is_nan(b):
        return f.nan
    if f.is_infinite(a):
        return f.nan if b == negated(f, a) else a
    if f.is_infinite(b):
        return b
    total = f.value(a) + f.value(b)
    if total == 0:
        return f.sign if a == b == f.sign else 0
    return f.nearest(total < 0, abs(total))


def subtracted(f, a, b):
    return added(f, a, negated(f, b))


def multiplied(f, a, b):
    is_negative = a // f.sign != b // f.sign
    if f.is_nan(a) or f.is_nan(b):
        return f.nan
    if f.is_infinite(a) or f.is_infinite(b):
        if f.size(a) == 0 or f.size(b) == 0:
            return f.nan
        return f.infinity + is_negative * f.sign
    return f.nearest(is_negative, f.size(a) * f.size(b))


def divided(f, a, b):
    is_negative = a // f.sign != b // f.sign
    if f.is_nan(a) or f.is_nan(b):
        return f.nan
    if f.is_infinite(a) and f.is_infinite(b) or f.size(a) == 0 and f.size(b) == 0:
        return f.nan
    if f.is_infinite(a) or f.size(b) == 0:
        return f.infinity + is_negative * f.sign
    if f.is_infinite(b):
        return is_negative * f.sign
    return f.nearest(is_negative, f.size(a) / f.size(b))


def left_over(f, a, b):
    """What the quotient rounded toward zero leaves, with the sign of the dividend. It is exact."""
    if f.is_nan(a) or f.is_nan(b) or f.is_infinite(a) or f.size(b) == 0:
        return f.nan
    if f.is_infinite(b):
        return a
    rest = f.size(a) % f.size(b)
    bits = f.nearest(a >= f.sign, rest)
    assert f.size(bits) == rest
    return bits


def compared(f, a, b, unordered):
    if f.is_nan(a) or f.is_nan(b):
        return unordered
    return order(f.value(a), f.value(b))


def cut(f, width, a):
    """The whole number without the fraction, or the nearest one of that width; 0 of a NaN."""
    if f.is_nan(a):
        return 0
    size = f.size(a).numerator // f.size(a).denominator
    most = 1 << (width - 1)
    return max(-size, -most) if a >= f.sign else min(size, most - 1)


def converted(f, g, a):
    """From one format to another."""
    if f.is_nan(a):
        return g.nan
    sign = g.sign if a >= f.sign else 0
    return sign + (g.infinity if f.is_infinite(a) else g.nearest(False, f.size(a)))


# The functions: opcode, name, widths of the operands and of the result, and what gives the result's bits.

def of_ints(width, function):
    """A function of signed numbers as one of bits, of which it keeps the low ones."""
    return lambda *bits: low(width, function(*(signed(width, x) for x in bits)))


def int_functions(letter, width, first):
    """The functions of an int or a long. A long's opcodes are one higher, and the count of a shift is an int."""
    both = ((width, width), width)
    shift = ((width, 32), width)
    for code, name, function in (
            (0x60, 'add', lambda a, b: a + b), (0x64, 'sub', lambda a, b: a - b), (0x68, 'mul', lambda a, b: a * b),
            (0x6C, 'div', quotient), (0x70, 'rem', remainder), (0x7E, 'and', lambda a, b: a & b),
            (0x80, 'or', lambda a, b: a | b), (0x82, 'xor', lambda a, b: a ^ b)):
        yield (code + first, letter + name, *both, of_ints(width, function))
    yield 0x74 + first, letter + 'neg', (width,), width, of_ints(width, lambda a: -a)
    yield 0x78 + first, letter + 'shl', *shift, lambda a, n: low(width, a * 2 ** (n % width))
    yield 0x7A + first, letter + 'shr', *shift, lambda a, n: low(width, signed(width, a) // 2 ** (n % width))
    yield 0x7C + first, letter + 'ushr', *shift, lambda a, n: a // 2 ** (n % width)


def float_functions(letter, f, first, comparison):
    """The functions of a float or a double."""
    both = ((f.width, f.width), f.width)
    for code, name, function in ((0x60, 'add', added), (0x64, 'sub', subtracted), (0x68, 'mul', multiplied),
                                 (0x6C, 'div', divided), (0x70, 'rem', left_over)):
        yield code + first, letter + name, *both, lambda a, b, function=function: function(f, a, b)
    yield 0x74 + first, letter + 'neg', (f.width,), f.width, lambda a: negated(f, a)
    for code, name, unordered in ((comparison, 'cmpl', -1), (comparison + 1, 'cmpg', 1)):
        yield code, letter + name, both[0], 32, lambda a, b, unordered=unordered: low(32, compared(f, a, b, unordered))


def conversions():
    yield 0x85, 'i2l', (32,), 64, lambda a: low(64, signed(32, a))
    yield 0x88, 'l2i', (64,), 32, lambda a: low(32, a)
    yield 0x91, 'i2b', (32,), 32, lambda a: low(32, signed(8, low(8, a)))
    yield 0x92, 'i2c', (32,), 32, lambda a: low(16, a)
    yield 0x93, 'i2s', (32,), 32, lambda a: low(32, signed(16, low(16, a)))
    for code, name, width, f in ((0x86, 'i2f', 32, SINGLE), (0x87, 'i2d', 32, DOUBLE), (0x89, 'l2f', 64, SINGLE),
                                 (0x8A, 'l2d', 64, DOUBLE)):
        yield code, name, (width,), f.width, lambda a, width=width, f=f: f.nearest(
            signed(width, a) < 0, Fraction(abs(signed(width, a))))
    for code, name, f, width in ((0x8B, 'f2i', SINGLE, 32), (0x8C, 'f2l', SINGLE, 64), (0x8E, 'd2i', DOUBLE, 32),
                                 (0x8F, 'd2l', DOUBLE, 64)):
        yield code, name, (f.width,), width, lambda a, f=f, width=width: low(width, cut(f, width, a))
    yield 0x8D, 'f2d', (32,), 64, lambda a: converted(SINGLE, DOUBLE, a)
    yield 0x90, 'd2f', (64,), 32, lambda a: converted(DOUBLE, SINGLE, a)


def others():
    """IINC, LCMP, and the tests of the branches on two ints."""
    for code, name, width in ((0x84, 'iinc', 8), (0xC4, 'iinc_wide', 16)):
        yield code, name, (32, width), 32, lambda a, b, width=width: low(32, a + signed(width, b))
    yield 0x94, 'lcmp', (64, 64), 32, lambda a, b: low(32, order(signed(64, a), signed(64, b)))
    for code, name, test in ((0x9F, 'eq', lambda o: o == 0), (0xA0, 'ne', lambda o: o != 0), (0xA1, 'lt', lambda o: o < 0),
                             (0xA2, 'ge', lambda o: o >= 0), (0xA3, 'gt', lambda o: o > 0), (0xA4, 'le', lambda o: o <= 0)):
        yield code, 'icmp' + name, (32, 32), 1, lambda a, b, test=test: int(test(order(signed(32, a), signed(32, b))))


def functions():
    return sorted([*int_functions('i', 32, 0), *int_functions('l', 64, 1), *float_functions('f', SINGLE, 2, 0x95),
                   *float_functions('d', DOUBLE, 3, 0x97), *conversions(), *others()], key=lambda row: row[0])


# The operands.

class Scatter:
    """Bits without a pattern, the same at each run: a linear congruential generator, of which the upper half is used."""

    def __init__(self, seed):
        self.state = seed

    def bits(self, width):
        taken = 0
        for _ in range(0, width, 32):
            self.state = (self.state * 6364136223846793005 + 1442695040888963407) % (1 << 64)
            taken = (taken << 32) + (self.state >> 32)
        return low(width, taken)


def pairs(values):
    return [(a, b) for a in values for b in values]


def limits(width):
    """The limits of an int or a long, with neighbours, and the neighbours of the powers of two where a half ends."""
    half = 1 << (width // 2)
    most = 1 << (width - 1)
    return [low(width, n) for n in (0, 1, -1, 2, half // 2 - 1, half // 2, -half // 2, half - 1, half,
                                    most - 2, most - 1, -most, 1 - most)]


def some_ints(width):
    """Single operands: the limits, more neighbours of powers of two, and a few without a pattern."""
    scatter = Scatter(width)
    near = [sign * (1 << k) + d for k in (7, 8, 15, 16, 31, 32, 63) if k <= width for sign in (1, -1) for d in (-1, 0, 1)]
    return limits(width) + [low(width, n) for n in near] + [scatter.bits(width) for _ in range(6)]


def int_pairs(width, name):
    """Two ints or two longs, without a divisor 0."""
    scatter = Scatter(width + len(name))
    chosen = pairs(limits(width)) + [(scatter.bits(width), scatter.bits(width)) for _ in range(8)]
    chosen += [(scatter.bits(width), scatter.bits(width // 2)) for _ in range(4)]
    return [(a, b) for a, b in chosen if b or name[1:] not in ('div', 'rem')]


def shifted(width):
    """Values and counts of a shift: of a count, the low 5 or 6 bits are used."""
    most = 1 << (width - 1)
    scatter = Scatter(width)
    values = [low(width, n) for n in (0, 1, -1, most, most - 1, most + 1)] + [scatter.bits(width) for _ in range(3)]
    return [(a, low(32, n)) for a in values for n in (0, 1, 31, 32, 33, 63, 64, -1, -(1 << 31))]


def tested():
    """Two ints of a branch's test."""
    return pairs([low(32, n) for n in (0, 1, -1, 2, -2, (1 << 31) - 1, (1 << 31) - 2, -(1 << 31), 1 - (1 << 31))])


def increments(constants):
    return [(a, c) for a in limits(32) for c in constants]


def nans(f):
    """NaNs with payloads, quiet and signalling, of both signs."""
    return [f.nan, f.nan + 1, f.infinity + 1, f.infinity + f.one_up // 4, f.sign + f.nan, f.sign + f.infinity + 1,
            2 * f.sign - 1]


def edges(f):
    """Zeros, infinities, the ends of the subnormal and of the normal numbers, one and its neighbours, of both signs."""
    one = f.exactly(1)
    sizes = [0, f.infinity, 1, f.one_up - 1, f.one_up, f.largest, one - 1, one, one + 1, f.exactly(2), f.exactly(3)]
    return sizes + [negated(f, a) for a in sizes]


def float_pairs(f):
    """All pairs of the values at which an operation changes its course."""
    one = f.exactly(1)
    return pairs([0, f.sign, f.infinity, f.sign + f.infinity, f.nan + 1, f.sign + f.infinity + 1, 1, f.sign + 1, f.one_up - 1,
                  f.one_up, f.largest, f.sign + f.largest, one, f.sign + one, one + 1, one - 1])


def with_signs(f, chosen):
    """Each pair with both signs of each operand."""
    return [(a ^ s, b ^ t) for a, b in chosen for s in (0, f.sign) for t in (0, f.sign)]


def halfway_sums(f):
    """Sums halfway between two values, with an even and an odd one below, just above and just below; at the largest value too."""
    one = f.exactly(1)
    half = f.exactly(power(-f.digits))                   # half of the distance from 1 to the next value
    top = f.exactly(f.size(f.largest) / (2 ** f.digits - 1) / 2)
    chosen = [(a, half + d) for a in (one, one + 1) for d in (-1, 0, 1)]
    chosen += [(f.largest - a, top + d) for a in (0, 1) for d in (-1, 0, 1)]
    return with_signs(f, chosen)


def halfway_products(f):
    """Products and quotients halfway between two values: of numbers of half as many digits, and among the subnormal numbers."""
    half, one, two, three = (f.exactly(Fraction(n, 2)) for n in (1, 2, 4, 6))
    wide = f.exactly(2 ** (f.digits // 2) + 1)
    chosen = [(wide + d, wide) for d in (-2, -1, 0, 1, 2)] + [(one + 1, one + 1), (one + 1, f.exactly(Fraction(3, 2)))]
    chosen += [(n, half + d) for n in (1, 2, 3, 5, f.one_up - 1, f.one_up, f.one_up + 1) for d in (-1, 0, 1)]
    chosen += [(f.one_up, one - 1), (f.one_up + 1, one - 1), (f.largest, one + 1), (f.largest, half + 1), (f.largest, two)]
    return [pair for a, b in chosen for pair in ((a, b), (negated(f, a), b))] + [(three, three), (one, three), (two, three)]


def quotients(f):
    """Quotients halfway among the subnormal numbers, and some that have no end."""
    two, three = f.exactly(2), f.exactly(3)
    chosen = [(n, two + d) for n in (1, 2, 3, 5, f.one_up - 1, f.one_up, f.one_up + 1, 2 * f.one_up - 1) for d in (-1, 0, 1)]
    chosen += [(f.exactly(n), f.exactly(d)) for n, d in ((1, 3), (2, 3), (1, 10), (5, 7), (22, 7), (10, 3))]
    chosen += [(f.largest, f.exactly(Fraction(1, 2))), (f.largest, f.exactly(1) - 1), (three, f.largest), (1, f.largest)]
    return [pair for a, b in chosen for pair in ((a, b), (a, negated(f, b)))]


def remainders(f):
    """Quotients that are whole, that round to the next whole number, that are huge, and dividends below the divisor."""
    exact = f.exactly
    chosen = [(exact(a), exact(b)) for a, b in ((5, 3), (6, 3), (7, 2), (1, 3), (3, Fraction(3, 2)), (Fraction(11, 2), 2))]
    three = exact(3)
    chosen += [(exact(6) - 1, three), (exact(6) + 1, three), (f.largest, three), (f.largest, 1), (f.largest, f.one_up - 1),
               (f.largest, f.largest - 1), (three, 3), (f.one_up, 3), (f.one_up - 1, 7), (5, 3), (3, 5), (three, f.one_up + 1)]
    return with_signs(f, chosen)


def scattered(f, name):
    """Operands without a pattern: any bits, and two numbers of about one size, so that their digits meet."""
    scatter = Scatter(f.width * len(name) + ord(name[1]))
    chosen = []
    for _ in range(16):
        a = scatter.bits(f.width)
        chosen.append((a, scatter.bits(f.width)))
        exponent = max(1, a % f.sign // f.one_up - scatter.bits(3))
        chosen.append((a, exponent * f.one_up + scatter.bits(f.width) % f.one_up))
    return chosen


def float_operands(f, name):
    special = {'add': halfway_sums, 'sub': halfway_sums, 'mul': halfway_products, 'div': quotients, 'rem': remainders}
    return float_pairs(f) + special[name[1:]](f) + scattered(f, name)


def float_order(f):
    """Two operands of a comparison."""
    one = f.exactly(1)
    return pairs([0, f.sign, f.infinity, f.sign + f.infinity, f.nan, f.sign + f.infinity + 1, 1, f.sign + 1, one, f.sign + one,
                  one + 1, f.sign + one + 1])


def halfway_ints(width, f):
    """Whole numbers that take more digits than the format has: halfway between two values, just below and just above."""
    chosen = []
    for exponent in (f.digits, f.digits + 1, width // 2 + 1, f.digits + 5, width - 3, width - 2):
        unit = 1 << max(exponent - f.field, 0)
        for base in (1 << exponent, (1 << exponent) + unit, (2 << exponent) - unit):
            chosen += [base + unit // 2 + d for d in (-1, 0, 1)]
    return [low(width, n) for size in chosen if size < 1 << (width - 1) for n in (size, -size)]


def to_cut(f):
    """What a conversion to a whole number meets: fractions, the ends of both ranges, values just inside and outside them."""
    fractions = [f.exactly(Fraction(n, 4)) for n in (1, 2, 3, 4, 5, 6, 7, 10, 14)]
    ends = [f.exactly(power(k)) + d for k in (0, 23, 24, 31, 32, 52, 53, 62, 63, 64) for d in (-1, 0, 1)]
    if f is DOUBLE:
        ends += [f.exactly((1 << 31) + Fraction(n, 4)) + d for n in (-8, -4, -2, 2, 4, 8) for d in (-1, 0, 1)]
    scatter = Scatter(f.width)
    exponent = f.exactly(1) // f.one_up
    any_whole = [(exponent + k) * f.one_up + scatter.bits(f.width) % f.one_up for k in range(0, 66, 6)]
    return edges(f) + nans(f) + [a ^ sign for a in fractions + ends + any_whole for sign in (0, f.sign)]


def to_widen():
    """Floats of every course of F2D: subnormal ones with their first digit at each end, and any normal ones."""
    scatter = Scatter(1)
    small = [1, 2, 3, 4, 5, 0x1000, 0x1234, 0x3FFFFF, 0x400000, 0x400001, 0x7FFFFE]
    return edges(SINGLE) + nans(SINGLE) + [SINGLE.sign + a for a in small] + small + [scatter.bits(32) for _ in range(12)]


def to_narrow():
    """Doubles around each point halfway between two floats that changes the course of D2F: normal, subnormal, the two ends."""
    unit, least = power(-23), power(-149)
    points = [1 + unit / 2, 1 + unit * 3 / 2, 2 - unit / 2, 2 - unit * 3 / 2]
    points += [least * Fraction(n, 2) for n in (1, 2, 3, 5, 7, (1 << 24) - 3, (1 << 24) - 1, (1 << 24) + 1, (1 << 24) + 3)]
    points += [power(127) * (2 - unit * Fraction(n, 2)) for n in (1, 2, 3)] + [power(k) for k in (-151, -126, 127, 128)]
    near = [DOUBLE.exactly(p) + d for p in points for d in (-1, 0, 1)]
    scatter = Scatter(2)
    near += [(DOUBLE.exactly(1) // DOUBLE.one_up + k) * DOUBLE.one_up + scatter.bits(52) for k in range(-150, 130, 20)]
    return edges(DOUBLE) + nans(DOUBLE) + [a ^ sign for a in near for sign in (0, DOUBLE.sign)]


def single_operands(name):
    """The operands of a function of one operand."""
    if name in ('i2f', 'i2d', 'l2f', 'l2d'):
        width = 32 if name[0] == 'i' else 64
        return some_ints(width) + halfway_ints(width, SINGLE if name[2] == 'f' else DOUBLE)
    if name in ('fneg', 'dneg'):
        f = SINGLE if name[0] == 'f' else DOUBLE
        return edges(f) + nans(f)
    if name == 'f2d':
        return to_widen()
    if name == 'd2f':
        return to_narrow()
    if name[0] in 'fd':
        return to_cut(SINGLE if name[0] == 'f' else DOUBLE)
    return some_ints(32 if name[0] == 'i' else 64)


def operands(name, widths):
    """The operands at which a function is tried, as tuples of bits."""
    if len(widths) == 1:
        return [(a,) for a in single_operands(name)]
    if name == 'iinc':
        return increments((0, 1, 127, 128, 255))
    if name == 'iinc_wide':
        return increments((0, 1, 127, 128, 255, 32767, 32768, 65535))
    if name.startswith('icmp'):
        return tested()
    if name.endswith(('shl', 'shr')):
        return shifted(widths[0])
    if name[0] in 'fd':
        f = SINGLE if name[0] == 'f' else DOUBLE
        return float_order(f) if 'cmp' in name else float_operands(f, name)
    return int_pairs(widths[0], name)


# The file.

def digits(width, bits):
    return f'{bits:0{(width + 3) // 4}X}'


def vectors():
    """The text of the file. No operands are tried twice."""
    lines = []
    for code, name, widths, result_width, function in functions():
        for chosen in dict.fromkeys(operands(name, widths)):
            assert all(0 <= bits < 1 << width for bits, width in zip(chosen, widths))
            columns = [digits(width, bits) for width, bits in zip(widths, chosen)] + ['']
            result = digits(result_width, function(*chosen))
            lines.append(f'{code:02X} {name:9} {columns[0]:>16} {columns[1]:>16} {result:>16}\n')
    return ''.join(lines)


def run(given):
    """Writes the file asked for, or with --check compares it; else shows the usage."""
    *check, path = given or ['-']
    if check not in ([], ['--check']) or path.startswith('-'):
        sys.exit(__doc__)
    if not check:
        with open(path, 'w', encoding='ascii', newline='\n') as file:
            file.write(vectors())
        return
    with open(path, encoding='ascii', newline='') as file:
        if file.read() != vectors():
            sys.exit(f'{path}: not what tools/vectors/arithmetic.py writes')


if __name__ == '__main__':
    run(sys.argv[1:])
