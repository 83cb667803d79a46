"""What each refusal means and what to do about it.

Made of docs/refusals.json by tests/documents/made_pages.py.
"""

WORDS: dict[int, tuple[str, str]] = {
    1: (
        "no issue of this CUSIP is kept",
        "check the CUSIP, or add the issue first",
    ),
    2: (
        "the desk keeps no trade of this reference",
        "check the desk and the reference, in which capitals and small letters differ",
    ),
    3: (
        "this number of the issue's terms, or of the trade, is kept with other contents, by another act, or "
        "by other terms of its issue. What is sent again as it was is answered as before",
        "an issue: compare the terms; those that are kept are never changed. If they are wrong, amend the "
        "issue under the next number. A trade: correct it under the next number, or enter it under another "
        "reference",
    ),
    4: (
        "the terms fail a test, so the desk cannot price the issue",
        "mend the terms",
    ),
    5: (
        "the settlement is before the dated date, or not before maturity or the day for which the issue has "
        "been called",
        "check the settlement",
    ),
    6: (
        "what is given, or a price with its commission, lies below or above its range, or the price at this "
        "yield would be below zero",
        "look for a slipped point, or a price where a yield belongs",
    ),
    7: (
        "up to this redemption so little is earned at the price that no yield is printed",
        "check the price against that call's, or the maturity",
    ),
    8: (
        "at the price every yield is above all that are printed",
        "check the price for a slipped point",
    ),
    9: (
        "the day count leaves no day up to this redemption, so there is no yield",
        "settle on another day; if interest is paid, a yield may be given",
    ),
    10: (
        "at a yield, the exact price lies on the boundary that is named or within 10^-9 dollars of it. At a "
        "price, the net price given lies so near to the exact price at the boundary that is named. So it "
        "cannot be told which of two printed figures it is",
        "give another yield or price, the last digit suffices",
    ),
    11: (
        "the trade is canceled, and nothing follows a cancel",
        "enter a new trade under another reference",
    ),
    12: (
        "the number, of a version or of terms of an issue, is neither one that is kept nor the next one; or a"
        " trade is to go by terms of its issue that are not kept",
        "read the last version, which may be another's correction, or the last terms of the issue, and send "
        "the number that is named. A trade goes by terms that are kept: their numbers are below it",
    ),
    13: (
        "the trade has 99 versions, or the issue 99 terms",
        "cancel the trade, which is still taken, and enter a new one. The last terms of an issue stay",
    ),
    14: (
        "the desk has as many trades as it may have: 100,000, if it was given no other number",
        "enter the trade under another desk",
    ),
    15: (
        "a rate for any issue but a discounted note, a yield for one, or a commission beside a yield or a "
        "rate",
        "give a price, or what this kind of issue is asked by",
    ),
}
