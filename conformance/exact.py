"""Exact prices as fractions or decimals of 60 digits, and searches for terms whose figure lies at a boundary.

A redemption is the calculator's, with what is paid up to it. Prices are in dollars per 100 of par, yields in 10^-6. A
price is a straight line over the coupon: slope * coupon + base, with the coupon in 10^-7.
"""
import dataclasses
import math
from decimal import ROUND_DOWN, Context, Decimal, localcontext
from fractions import Fraction

from calculator.numerals import COUPON_MAX
from calculator.price import HALVES, PERIOD, OnePayment
from calculator.redemptions import redemptions

DIGITS = Context(prec=60)
MILL = Fraction(1, 1000)
MICRO = Fraction(1, 1_000_000)


def is_rational(redemption):
    """Whether the price is a fraction at each yield, since no part of a half-year is discounted."""
    return isinstance(redemption.paid, OnePayment) or redemption.paid.is_rational


def decimal(redemption, y):
    """The exact price to 60 digits, at a whole yield or a decimal one."""
    with localcontext(DIGITS):
        paid = redemption.paid
        if is_rational(redemption) and isinstance(y, int):
            found = paid.price(y)
            return Decimal(found.numerator) / found.denominator
        discount = HALVES / (HALVES + Decimal(y))
        total = Decimal(0)
        for payment in reversed(paid.payments):
            total = total * discount + payment
        part = (Decimal(PERIOD - paid.elapsed) / PERIOD * discount.ln()).exp()
        return (total * part - paid.accrued) / paid.unit


def exact_yield(redemption, price):
    """The exact yield in 10^-6 at a price, which is a fraction."""
    with localcontext(DIGITS):
        if isinstance(redemption.paid, OnePayment):
            found = redemption.paid.yield_at(price)
            return Decimal(found.numerator) / found.denominator
        wanted = Decimal(price.numerator) / price.denominator
        # The price falls as the yield rises, and is convex, so steps along a chord from below do not pass the yield.
        y, step = Decimal(-60_000), Decimal("1e-15")
        for _ in range(200):
            value = decimal(redemption, y)
            more = (wanted - value) * step / (decimal(redemption, y + step) - value)
            y = min(y + more, Decimal(1_010_000))
            if abs(more) < Decimal("1e-22"):
                break
        return y


def cut(value, places):
    """A decimal as a text, cut off after so many places."""
    with localcontext(DIGITS):
        # The last of 60 digits may be one off, so a whole number is made whole first.
        rounded = value.quantize(Decimal(1).scaleb(-30))
        return "{:f}".format(rounded.quantize(Decimal(1).scaleb(-places), rounding=ROUND_DOWN))


class Line:
    """The price at one yield over the coupon: slope * coupon + base, as fractions that are exact or very near."""

    def __init__(self, issue, settlement, place, y):
        def at(coupon):
            redemption = redemptions(dataclasses.replace(issue, coupon=coupon), settlement)[place]
            return redemption.paid.price(y) if is_rational(redemption) else Fraction(decimal(redemption, y))

        self.base = at(0)
        self.slope = (at(COUPON_MAX) - self.base) / COUPON_MAX

    def coupon_near(self, unit, low, high, least):
        """The first coupon from the least on whose price is a whole multiple of the unit and low to high dollars."""
        scale = 1 << 190
        slope, base = int(self.slope / unit * scale) % scale, int(self.base / unit * scale)
        left = (int(low / unit * scale) - base - slope * least) % scale
        right = left + int((high - low) / unit * scale)
        more = 0 if right >= scale else first_between(slope, scale, left, right)
        if more is None or least + more > COUPON_MAX:
            return None
        return least + more

    def coupon_at(self, unit, parts, least):
        """The first coupon from the least on whose price is so many parts above a whole multiple of the unit."""
        return whole_at(self.slope / unit, self.base / unit, parts, least, COUPON_MAX)


def whole_at(slope, base, parts, least, greatest):
    """The first x from the least to the greatest with slope * x + base so many parts above a whole number.

    A part is the least that the fraction can be off.
    """
    whole = math.lcm(slope.denominator, base.denominator)
    slope, base = int(slope * whole), int(base * whole)
    shared = math.gcd(slope, whole)
    if (parts - base) % shared:
        return None
    step = whole // shared
    x = (parts - base) // shared * pow(slope // shared, -1, step) % step
    x += max(0, -(-(least - x) // step)) * step
    return x if x <= greatest else None


def first_between(slope, scale, left, right):
    """The least x from 0 on with left <= slope * x mod scale <= right, or None; 0 <= left <= right < scale."""
    if left == 0:
        return 0
    slope %= scale
    if slope == 0:
        return None
    if 2 * slope > scale:
        return first_between(scale - slope, scale, scale - right, scale - left)
    x = -(-left // slope)
    if slope * x <= right:
        return x
    turns = first_between(scale % slope, slope, -right % slope, -left % slope)
    return None if turns is None else -(-(left + scale * turns) // slope)


def yields_near(redemption, unit, low, high, start, step):
    """The yields from the start on, in steps, whose price is a whole multiple of the unit and low to high dollars. The
    payments are regular ones. A double looks first, and finds each; the decimal decides."""
    paid = redemption.paid
    half, accrued = paid.regular / paid.unit, paid.accrued / paid.unit
    price_then = paid.redemption / 10**6
    part, count = (PERIOD - paid.elapsed) / PERIOD, len(paid.payments) - 1
    size, near = float(unit), max(abs(float(low)), abs(float(high))) + 1e-10
    y = start
    while y < 1_000_000:
        growth = 1 + y / HALVES
        power = growth**-count
        price = growth**-part * (half * (1 + (1 - power) / (growth - 1)) + price_then * power) - accrued
        off = (price + near) % size
        if off < 2 * near:
            value = Fraction(decimal(redemption, y))
            past = (value - Fraction(low)) % unit
            if past <= Fraction(high) - Fraction(low):
                yield y
        y += step
