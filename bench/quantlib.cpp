// The trades of `drill` by QuantLib from C++: the lowest yield over the calls of each.
//
//     g++ -O2 -o quantlib bench/quantlib.cpp -lQuantLib
//     ./quantlib COUNT SEED bonds|legs
//
// `bonds` makes a bond for each redemption, as users do. `legs` cuts the payments of one bond and solves with
// Brent's method, which is the fastest way that was found. Figures are doubles, printed as the rule prints.
#include <algorithm>
#include <chrono>
#include <cstdint>
#include <cstdio>
#include <cstdlib>
#include <cstring>
#include <memory>
#include <ql/cashflows/cashflows.hpp>
#include <ql/cashflows/simplecashflow.hpp>
#include <ql/instruments/bonds/fixedratebond.hpp>
#include <ql/math/solvers1d/brent.hpp>
#include <ql/pricingengines/bond/bondfunctions.hpp>
#include <ql/time/calendars/nullcalendar.hpp>
#include <ql/time/daycounters/thirty360.hpp>
#include <ql/time/schedule.hpp>
#include <vector>

using namespace QuantLib;

// `BondBasis` is the rule's count; `USA` moves the end of February.
static const DayCounter basis = Thirty360(Thirty360::BondBasis);
static const Date dated(1, January, 2020), first(1, July, 2020);
static const long below = -1'000'000, above = 10'000'000;

struct RedemptionDate {
    Date day;
    double price;
};

struct Trade {
    Date maturity, settle;
    double coupon, price;
    std::vector<RedemptionDate> redemptions;
};

// The generator of docs/FORMATS.md.
static std::vector<Trade> trades(int count, uint64_t state) {
    auto draw = [&state] {
        state = state * 6364136223846793005u + 1442695040888963407u;
        return state >> 33;
    };
    std::vector<Trade> all;
    for (int i = 0; i < count; i++) {
        uint64_t x[7];
        for (auto& each : x) each = draw();
        Trade trade;
        trade.maturity = first + Period(int(6 * (1 + x[0] % 60)), Months);
        trade.coupon = 1 + double(x[1] % 49) / 8;
        trade.settle = Date(Day(1 + x[4] % 28), Month(7 + x[3] % 6), 2020);
        trade.price = 90 + double(x[6] % 30001) / 1000;
        for (int call = 0; call < int(x[2] % 41); call++) {
            Date day = first + Period(6 * (2 + call), Months);
            if (day < trade.maturity) trade.redemptions.push_back({day, std::max(100.0, 102 - call / 4.0)});
        }
        trade.redemptions.push_back({trade.maturity, 100.0});
        all.push_back(trade);
    }
    return all;
}

static ext::shared_ptr<FixedRateBond> bond(const Trade& trade, const RedemptionDate& redemption) {
    Schedule schedule(dated, redemption.day, 6 * Months, NullCalendar(), Unadjusted, Unadjusted,
                      DateGeneration::Forward, false);
    return ext::make_shared<FixedRateBond>(0, 100.0, schedule, std::vector<Rate>{trade.coupon / 100}, basis, Unadjusted,
                                           redemption.price);
}

// Truncated to four decimals of the percentage, rounded to three, and held against the printed range.
static long printed(double yield, bool one_left) {
    long units = long(yield * 1e6);
    long thousandths = units >= 0 ? (units + 5) / 10 : -((5 - units) / 10);
    if (thousandths < (one_left ? -90'000 : -5'000)) return below;
    return thousandths > (one_left ? 999'999 : 100'000) ? above : thousandths;
}

static Compounding way(bool one_left) { return one_left ? SimpleThenCompounded : Compounded; }

static bool is_last_payment(const Date& settle, const Date& day) { return day <= settle + 6 * Months; }

static long lowest_by_bonds(const Trade& trade) {
    long lowest = above;
    for (const auto& redemption : trade.redemptions) {
        if (redemption.day <= trade.settle) continue;
        bool one_left = is_last_payment(trade.settle, redemption.day);
        double yield = BondFunctions::yield(*bond(trade, redemption), trade.price, basis, way(one_left), Semiannual,
                                            trade.settle, 1e-10, 100);
        lowest = std::min(lowest, printed(yield, one_left));
    }
    return lowest;
}

static long lowest_by_legs(const Trade& trade) {
    auto whole = bond(trade, trade.redemptions.back());
    double paid = trade.price + whole->accruedAmount(trade.settle), guess = 0.05;
    Leg coupons(whole->cashflows().begin(), whole->cashflows().end() - 1), leg;
    size_t taken = 0;
    long lowest = above;
    Brent solver;
    solver.setMaxEvaluations(100);
    for (const auto& redemption : trade.redemptions) {
        if (!leg.empty()) leg.pop_back();
        for (; taken < coupons.size() && coupons[taken]->date() <= redemption.day; taken++)
            if (coupons[taken]->date() > trade.settle) leg.push_back(coupons[taken]);
        leg.push_back(ext::make_shared<Redemption>(redemption.price, redemption.day));
        if (redemption.day <= trade.settle) continue;
        bool one_left = is_last_payment(trade.settle, redemption.day);
        double yield = CashFlows::yield<Brent>(solver, leg, paid, basis, way(one_left), Semiannual, false, trade.settle,
                                               trade.settle, 1e-10, guess);
        if (yield > -0.05 && yield < 0.3) guess = yield;
        lowest = std::min(lowest, printed(yield, one_left));
    }
    return lowest;
}

int main(int count, char** words) {
    if (count != 4) return 2;
    auto all = trades(std::atoi(words[1]), std::strtoull(words[2], nullptr, 10));
    bool by_legs = std::strcmp(words[3], "legs") == 0;
    long printed_count = 0, sum = 0;
    auto begin = std::chrono::steady_clock::now();
    for (const auto& trade : all) {
        long lowest = by_legs ? lowest_by_legs(trade) : lowest_by_bonds(trade);
        if (lowest > below && lowest < above) {
            printed_count++;
            sum += lowest;
        }
    }
    std::chrono::duration<double> took = std::chrono::steady_clock::now() - begin;
    std::printf("PRINTED %ld\nYIELDS %ld\nSECONDS %.6f\n", printed_count, sum, took.count());
}
