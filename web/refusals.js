// Made of docs/refusals.json by tests/documents/made_pages.py.

export const REFUSALS = {
  1: ["UnknownIssue", "no issue of this CUSIP is kept", "check the CUSIP, or add the issue first"],
  2: ["UnknownTrade", "the desk keeps no trade of this reference", "check the desk and the reference, in which capitals and small letters differ"],
  3: ["Conflict", "this number of the issue's terms, or of the trade, is kept with other contents, by another act, or by other terms of its issue. What is sent again as it was is answered as before", {"issue": "compare the terms; those that are kept are never changed. If they are wrong, amend the issue under the next number", "trade": "correct it under the next number, or enter it under another reference"}],
  4: ["BadTerms", "the terms fail a test, so the desk cannot price the issue", "mend the terms"],
  5: ["SettleOutside", "the settlement is before the dated date, or not before maturity or the day for which the issue has been called", "check the settlement"],
  6: ["GivenOutOfRange", "what is given, or a price with its commission, lies below or above its range, or the price at this yield would be below zero", "look for a slipped point, or a price where a yield belongs"],
  7: ["YieldBelow", "up to this redemption so little is earned at the price that no yield is printed", "check the price against that call's, or the maturity"],
  8: ["YieldAbove", "at the price every yield is above all that are printed", "check the price for a slipped point"],
  9: ["NoTime", "the day count leaves no day up to this redemption, so there is no yield", "settle on another day; if interest is paid, a yield may be given"],
  10: ["Undecided", "at a yield, the exact price lies on the boundary that is named or within 10^-9 dollars of it. At a price, the net price given lies so near to the exact price at the boundary that is named. So it cannot be told which of two printed figures it is", "give another yield or price, the last digit suffices"],
  11: ["Canceled", "the trade is canceled, and nothing follows a cancel", "enter a new trade under another reference"],
  12: ["WrongNumber", "the number, of a version or of terms of an issue, is neither one that is kept nor the next one; or a trade is to go by terms of its issue that are not kept", "read the last version, which may be another's correction, or the last terms of the issue, and send the number that is named. A trade goes by terms that are kept: their numbers are below it"],
  13: ["VersionsFull", "the trade has 99 versions, or the issue 99 terms", "cancel the trade, which is still taken, and enter a new one. The last terms of an issue stay"],
  14: ["DeskFull", "the desk has as many trades as it may have: 100,000, if it was given no other number", "enter the trade under another desk"],
  15: ["WrongBasis", "a rate for any issue but a discounted note, a yield for one, or a commission beside a yield or a rate", "give a price, or what this kind of issue is asked by"],
};

// The tests of terms by the number of their fault, and the field that each looks at.
export const FAULTS = {
  1: ["BadCusip", "cusip", "the CUSIP is eight digits and capital letters, and their check digit"],
  10: ["BadName", "name", "the name has 1 to 60 bytes, each from the space to the tilde"],
  2: ["BadOrder", "dated", "the dated date is from 1902 on; a periodic issue first pays after it and up to maturity; another matures after it"],
  3: ["BadDay", "maturity", "a periodic issue's first interest date and a zero issue's maturity fall on a day from 1 to 28, and a periodic issue matures on a quasi-coupon date"],
  4: ["BadCoupon", "coupon", "there is a coupon above 0 exactly if there is interest"],
  11: ["BadBasis", "days", "a periodic or zero issue counts its days by 30/360"],
  5: ["FirstTooLong", "first", "the first interest of a periodic issue is for 360 days at most"],
  9: ["TooLong", "maturity", "a periodic or zero issue has 100 quasi-coupon dates at most after its dated date and up to maturity, and a note runs 720 days at most, by its basis"],
  6: ["CallOffCalendar", "calls", "its date is a quasi-coupon date before maturity, and not before the first interest date (periodic), or after the dated date (zero); a note has no calls"],
  7: ["CallsNotRising", "calls", "it is after the call before it"],
  8: ["BadCallPrice", "calls", "its price is from 1 to 200"],
  12: ["CalledNotLast", "calls", "a call that is certain is the last one"],
};
