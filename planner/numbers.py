"""Weights as text and as fractions: read, shown with every digit, and rounded only where that is allowed."""
import math
import re
from fractions import Fraction

from .faults import Fault

NUMBER = re.compile(r"[+-]?([0-9]+\.?[0-9]*|\.[0-9]+)([eE][+-]?[0-9]+)?")
WHOLE = re.compile(r"[0-9]+")
NOT_FINITE = ("nan", "inf", "infinity")
LONGEST = 1200


def decimal(word):
    """The word, where it is a decimal number."""
    if word.lstrip("+-").lower() in NOT_FINITE:
        raise Fault(f"`{word}` is not finite, and a weight is")
    if not NUMBER.fullmatch(word):
        raise Fault(f"`{word}` is no number")
    return word


def weight(word):
    """The f64 nearest to a decimal number, which is finite."""
    value = float(decimal(word))
    if math.isinf(value):
        raise Fault(f"`{word}` is too large for a weight")
    return value


def fraction(word):
    """A decimal number as it stands, with nothing rounded."""
    weight(word)
    if len(word) > LONGEST or abs(int(re.sub(r"[^eE]*[eE]?", "", word, 1) or 0)) > LONGEST:
        raise Fault(f"`{word[:20]}..` has more than {LONGEST:,} digits")
    return Fraction(word)


def whole(word):
    """A whole number, not negative; 10^9 stands for every greater one."""
    if not WHOLE.fullmatch(word):
        raise Fault(f"`{word}` is no whole number")
    digits = word.lstrip("0") or "0"
    return int(digits) if len(digits) < 10 else 10 ** 9


def decimals(x):
    """How many decimals a fraction has, whose denominator is of twos and fives."""
    twos = (x.denominator & -x.denominator).bit_length() - 1
    fives, rest = 0, x.denominator >> twos
    while rest > 1:
        fives, rest = fives + 1, rest // 5
    return max(twos, fives)


def fixed(x, count):
    """A fraction with this many decimals, rounded where it has more."""
    scaled = round(x * 10 ** count)
    digits = f"{abs(scaled):0{count + 1}}"
    return ("-" if scaled < 0 else "") + (f"{digits[:-count]}.{digits[-count:]}" if count else digits)


def exactly(x):
    """A number in decimals, with none left out."""
    x = Fraction(x)
    return fixed(x, decimals(x))


def shown(x):
    """A number with every digit, or as an f64 is written where those would be many."""
    text = exactly(x)
    if len(text) <= 24:
        return text
    try:
        return repr(float(x)) if Fraction(float(x)) == x else text
    except OverflowError:
        return text


class Rounding:
    """Whether a weight that is no f64 may become the nearest one; each that did is noted."""

    def __init__(self, is_allowed):
        self.is_allowed, self.notes = is_allowed, []

    def of(self, value, what):
        """The f64 that a fraction is, or the nearest one."""
        try:
            near = float(value)
        except OverflowError:
            raise Fault(f"{what} would be too large for a weight") from None
        if Fraction(near) != value:
            if not self.is_allowed:
                raise Fault(f"{what} would be rounded to {near!r}; --round allows it")
            self.notes.append(f"{what} is rounded to {near!r}")
        return near

    def times(self, factor, x, what):
        """A weight times a power of two, with the sign of a zero kept."""
        return factor * x if x == 0 else self.of(Fraction(factor) * Fraction(x), what)

    def total(self, weights, what):
        """The sum of some weights; a lone one keeps its bits."""
        return weights[0] if len(weights) == 1 else self.of(sum(map(Fraction, weights)), what)


def exponent(x):
    """The greatest k with x a whole multiple of 2^k, of an f64 that is not 0."""
    top, bottom = x.as_integer_ratio()
    return (top & -top).bit_length() - bottom.bit_length()


def unit_exponent(linear, weights):
    """The least k from -20 to 20 with every 2c and q a whole multiple of 2^k and at most 2^31 of it, or None."""
    most = max(max(map(abs, weights), default=0), 2 * max(map(abs, linear), default=0))
    least = -20
    while least <= 20 and most > 2.0 ** (31 + least):
        least += 1
    divides = min([20, *(exponent(c) + 1 for c in linear if c), *(exponent(q) for q in weights if q)])
    return least if least <= divides else None
