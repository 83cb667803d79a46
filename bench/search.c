// The trades of `drill` in C: the lowest yield over the redemptions of each, found in three ways.
//
//     gcc -O2 -pthread -o search bench/search.c -lm
//     ./search COUNT SEED THREADS REPEATS doubles|halvings|leaps
//
// `doubles` is Newton's method on doubles, which leaves a redemption out if it cannot have the lowest yield. Nothing
// keeps its last digit right. `halvings` encloses prices by whole numbers, as the program does, and halves the yields
// of all redemptions in rounds. `leaps` encloses the same prices at yields that a guess names, and halves only what
// is left. It prints the lines of `drill`, how often a price was compared in a trade, and the seconds of one drill,
// the middle of the repeats. Each drill starts its threads and generates its trades anew, as the program does.
#include <math.h>
#include <pthread.h>
#include <stdbool.h>
#include <stdint.h>
#include <stdio.h>
#include <stdlib.h>
#include <string.h>
#include <time.h>

enum { MOST_REDEMPTIONS = 41, MOST_THREADS = 64, MOST_REPEATS = 10000 };

// Amounts are whole numbers of 1 / 3.6e11 dollars per 100 of par. All payments of a drill are regular, and every
// settlement is in the half-year that begins on 2020-07-01.
typedef struct {
    int periods;        // half-years from that day
    int64_t paid;
    bool is_called;
} Redemption;

typedef struct {
    int64_t coupon;     // 1e-7 percent
    int64_t par;        // dollars
    int64_t interest, accrued, price;
    int days;           // accrued
    int count;
    Redemption redemptions[MOST_REDEMPTIONS];
} Trade;

// The lowest yield of a trade, in thousandths of a percent, and the redemption that has it. A yield that is not
// printed is one step outside the range.
typedef struct {
    int yield, redemption;
    bool is_printed;
} Lowest;

typedef struct {
    long printed, outside, called, asked;
    int64_t yields, cents;
} Sums;

// ---------------------------------------------------------------- the trades

static uint64_t draw(uint64_t *state) {
    *state = *state * 6364136223846793005u + 1442695040888963407u;
    return *state >> 33;
}

static void next_trade(uint64_t *state, bool is_wanted, Trade *trade) {
    uint64_t drawn[7];
    for (int each = 0; each < 7; each++) drawn[each] = draw(state);
    if (!is_wanted) return;
    int half_years = 1 + drawn[0] % 60, calls = drawn[2] % 41;
    trade->coupon = 10000000 + 1250000 * (int64_t)(drawn[1] % 49);
    trade->par = 5000 * (1 + (int64_t)(drawn[5] % 200));
    trade->days = 30 * (drawn[3] % 6) + drawn[4] % 28;
    trade->interest = 18000 * trade->coupon;
    trade->accrued = 100 * trade->coupon * trade->days;
    trade->price = 360000000 * (90000 + (int64_t)(drawn[6] % 30001));
    trade->count = 0;
    for (int each = 0; each < calls && 2 + each < half_years; each++) {
        int64_t premium = each < 8 ? 2000000 - 250000 * each : 0;
        trade->redemptions[trade->count++] = (Redemption){2 + each, 360000 * (100000000 + premium), true};
    }
    trade->redemptions[trade->count++] = (Redemption){half_years, 360000ll * 100000000, false};
}

// ---------------------------------------------------------------- enclosures

enum { BELOW = -5001, ABOVE = 100001 };

typedef unsigned __int128 Wide;

// Ends of a factor, in 2^-60, or of a sum of factors, in 2^-56.
typedef struct {
    uint64_t low, high;
} Ends;

typedef struct {
    int place;          // a printed yield: what is enclosed is the price at its lower boundary
    Ends discount, first;
} Discount;

static const uint64_t ONE = 1ull << 60;

static uint64_t times_down(uint64_t a, uint64_t b) { return (uint64_t)((Wide)a * b >> 60); }

static uint64_t times_up(uint64_t a, uint64_t b) { return (uint64_t)(((Wide)a * b + (ONE - 1)) >> 60); }

static Ends times(Ends a, Ends b) { return (Ends){times_down(a.low, b.low), times_up(a.high, b.high)}; }

static Ends power(Ends base, int exponent) {
    Ends result = {ONE, ONE};
    for (; exponent; exponent >>= 1, base = times(base, base))
        if (exponent & 1) result = times(result, base);
    return result;
}

// The 180th root. It is guessed, and its powers show that the ends are ends.
static Ends root(Ends factor) {
    uint64_t guess = (uint64_t)(ldexpl(expl(logl(ldexpl(factor.low, -60)) / 180), 60));
    Ends ends = {guess - 8, guess + 8};
    while (power((Ends){ends.low, ends.low}, 180).high > factor.low) ends.low -= 8;
    while (power((Ends){ends.high, ends.high}, 180).low < factor.high) ends.high += 8;
    return ends;
}

static Discount discount_at(int place, int days) {
    uint64_t divisor = 2000000 + 10 * place - 5;
    Wide one = (Wide)2000000 << 60;
    Discount found = {place, {(uint64_t)(one / divisor), (uint64_t)((one + divisor - 1) / divisor)}, {0, 0}};
    found.first = days == 0 ? found.discount : power(root(found.discount), 180 - days);
    return found;
}

// The worth of all payments up to a redemption, in 1 / 4096 of an amount. The sum of powers is doubled.
static Ends worth(const Trade *trade, const Redemption *redemption, const Discount *discount) {
    int last = redemption->periods - 1, top = 31 - __builtin_clz(last);
    Ends sum = {ONE >> 4, ONE >> 4}, power = discount->discount;
    for (int bit = top - 1; bit >= 0; bit--) {
        Ends more = times(sum, power);
        sum = (Ends){sum.low + more.low, sum.high + more.high};
        power = times(power, power);
        if (last >> bit & 1) {
            sum = (Ends){sum.low + (power.low >> 4), sum.high + (power.high + 15 >> 4)};
            power = times(power, discount->discount);
        }
    }
    sum = (Ends){sum.low + (power.low >> 4), sum.high + (power.high + 15 >> 4)};
    Wide interest = trade->interest, paid = redemption->paid;
    Ends ends = {(interest * sum.low >> 44) + (paid * power.low >> 48),
                 (interest * sum.high >> 44) + (paid * power.high >> 48) + 2};
    return times(ends, discount->first);
}

// ---------------------------------------------------------------- the search

// The yield is at least the printed yield `yes`, and less than `no`. At the ends nothing was asked.
typedef struct {
    const Redemption *redemption;
    int yes, no;
    bool is_dropped;
} Window;

static bool is_settled(const Window *window) { return window->no == window->yes + 1; }

static bool is_open(const Window *window) { return !window->is_dropped && !is_settled(window); }

// Asks whether the price at a place reaches the traded one. From 1 on a boundary is in the range above it.
static void ask(const Trade *trade, Window *window, const Discount *discount, Sums *sums) {
    Ends ends = worth(trade, window->redemption, discount);
    uint64_t wanted = (uint64_t)(trade->price + trade->accrued) << 12;
    int place = discount->place;
    sums->asked++;
    if (place >= 1 ? ends.low >= wanted : ends.low > wanted) window->yes = place;
    else if (place >= 1 ? ends.high < wanted : ends.high <= wanted) window->no = place;
    else {
        fprintf(stderr, "a price is too near to its boundary\n");
        exit(1);
    }
}

// Redemptions that cannot have the lowest yield are dropped.
static void drop(Window *windows, int count) {
    int ceiling = ABOVE + 1;
    for (int each = 0; each < count; each++)
        if (windows[each].no < ceiling) ceiling = windows[each].no;
    for (int each = 0; each < count; each++)
        if (windows[each].yes >= ceiling) windows[each].is_dropped = true;
}

static Lowest lowest_of(const Window *windows, int count) {
    Lowest lowest = {ABOVE + 1, 0, false};
    for (int each = 0; each < count; each++)
        if (!windows[each].is_dropped && windows[each].yes < lowest.yield) {
            lowest.yield = windows[each].yes;
            lowest.redemption = each;
        }
    lowest.is_printed = lowest.yield > BELOW && lowest.yield < ABOVE;
    return lowest;
}

// The end of the range at which nothing was asked, or the middle.
static int next_place(const Window *window) {
    if (window->yes == BELOW) return BELOW + 1;
    return window->no == ABOVE + 1 ? ABOVE : (window->yes + window->no) >> 1;
}

// One round of halvings. The redemptions share few places, so each discount is computed once.
static bool halve(const Trade *trade, Window *windows, int count, Sums *sums) {
    Discount known[MOST_REDEMPTIONS];
    int many = 0;
    bool is_any = false;
    for (int each = 0; each < count; each++) {
        Window *window = &windows[each];
        if (!is_open(window)) continue;
        int place = next_place(window), at = 0;
        while (at < many && known[at].place != place) at++;
        if (at == many) known[many++] = discount_at(place, trade->days);
        ask(trade, window, &known[at], sums);
        is_any = true;
    }
    drop(windows, count);
    return is_any;
}

// With six months or less to redemption interest is simple, and whole numbers compare exactly.
static Lowest one_period(const Trade *trade) {
    __int128 due = trade->interest + trade->redemptions[0].paid, net = trade->price + trade->accrued;
    __int128 left = 180 - trade->days;
    int yes = -90001, no = 1000000;
    while (no > yes + 1) {
        int place = (yes + no) >> 1;
        __int128 over = due * 360000000 - net * (360000000 + left * (10 * (__int128)place - 5));
        if (place >= 1 ? over >= 0 : over > 0) yes = place;
        else no = place;
    }
    return (Lowest){yes, 0, yes > -90001 && yes < 999999 + 1};
}

static void begin(const Trade *trade, Window *windows) {
    for (int each = 0; each < trade->count; each++)
        windows[each] = (Window){&trade->redemptions[each], BELOW, ABOVE + 1, false};
}

static Lowest by_halvings(const Trade *trade, Sums *sums) {
    Window windows[MOST_REDEMPTIONS];
    begin(trade, windows);
    while (halve(trade, windows, trade->count, sums)) {}
    return lowest_of(windows, trade->count);
}

// ---------------------------------------------------------------- doubles

// The price at a yield as a fraction, and its slope.
static double price_at(const Trade *trade, const Redemption *redemption, double yield, double *slope) {
    double half = yield / 2, v = 1 / (1 + half), exponent = (180 - trade->days) / 180.0, n = redemption->periods;
    double last = pow(v, n - 1), sum, rise;
    if (fabs(half) > 1e-6) {
        sum = (1 - last * v) / (1 - v);
        rise = (1 - n * last + (n - 1) * last * v) / ((1 - v) * (1 - v));
    } else {
        sum = n;
        rise = n * (n - 1) / 2;
    }
    double paid = trade->interest * sum + redemption->paid * last;
    double paid_rise = trade->interest * rise + redemption->paid * (n - 1) * last / v;
    double first = pow(v, exponent);
    *slope = -v * v / 2 * first * (paid_rise + exponent / v * paid);
    return first * paid - trade->accrued;
}

// The price is convex and falls, so Newton's method ends from any yield. A yield outside the range is not looked for.
static double newton(const Trade *trade, const Redemption *redemption, double yield, double most_step) {
    const double least = -0.0501, most = 1.001;
    for (int step = 0; step < 60; step++) {
        double slope, error = price_at(trade, redemption, yield, &slope) - trade->price, move = error / slope;
        if (yield <= least && error < 0 || yield >= most && error > 0) return yield;
        yield = fmin(fmax(yield - move, least), most);
        if (fabs(move) < most_step) break;
    }
    return yield;
}

static int thousandths(double yield) {
    int units = (int)(yield * 1e6);
    return units >= 0 ? (units + 5) / 10 : -((5 - units) / 10);
}

static Lowest by_doubles(const Trade *trade, Sums *sums) {
    Lowest lowest = {ABOVE + 1, 0, false};
    double start = 0.05, slope;
    for (int each = 0; each < trade->count; each++) {
        const Redemption *redemption = &trade->redemptions[each];
        sums->asked++;
        if (each > 0 && price_at(trade, redemption, (lowest.yield * 10 - 5) * 1e-6, &slope) > trade->price) continue;
        double yield = newton(trade, redemption, start, 1e-12);
        int printed = thousandths(yield);
        if (printed < lowest.yield) lowest = (Lowest){printed, each, false};
        if (yield > -0.05 && yield < 0.3) start = yield;
    }
    lowest.is_printed = lowest.yield > BELOW && lowest.yield < ABOVE;
    return lowest;
}

// ---------------------------------------------------------------- leaps

// At a yield of nothing the price is the sum of the payments.
static void look_at_sum(const Trade *trade, Window *window) {
    int64_t sum = trade->interest * window->redemption->periods + window->redemption->paid;
    int64_t wanted = trade->price + trade->accrued;
    if (sum >= wanted) window->yes = 0;
    if (sum <= wanted) window->no = 1;
}

static double rough_yield(const Trade *trade, const Redemption *redemption) {
    double years = (redemption->periods - trade->days / 180.0) / 2, price = (double)trade->price;
    return (2.0 * trade->interest + (redemption->paid - price) / years) / (redemption->paid + price) * 2;
}

static void ask_all(const Trade *trade, Window *windows, int place, Sums *sums) {
    if (place <= BELOW || place > ABOVE) return;
    Discount discount = discount_at(place, trade->days);
    for (int each = 0; each < trade->count; each++) {
        Window *window = &windows[each];
        if (is_open(window) && window->yes < place && place < window->no) ask(trade, window, &discount, sums);
    }
    drop(windows, trade->count);
}

static Lowest by_leaps(const Trade *trade, Sums *sums) {
    Window windows[MOST_REDEMPTIONS];
    begin(trade, windows);
    for (int each = 0; each < trade->count; each++) look_at_sum(trade, &windows[each]);
    drop(windows, trade->count);
    int leader = -1;
    double rough = 0;
    for (int each = 0; each < trade->count; each++) {
        if (!is_open(&windows[each])) continue;
        double yield = rough_yield(trade, windows[each].redemption);
        if (leader < 0 || yield < rough) {
            leader = each;
            rough = yield;
        }
    }
    if (leader >= 0) {
        int place = thousandths(newton(trade, windows[leader].redemption, rough, 1e-7));
        ask_all(trade, windows, place + 1, sums);
        ask_all(trade, windows, place, sums);
    }
    while (halve(trade, windows, trade->count, sums)) {}
    return lowest_of(windows, trade->count);
}

// ---------------------------------------------------------------- the drill

typedef struct {
    pthread_t thread;
    long count;
    uint64_t seed;
    int workers, worker;
    Lowest (*way)(const Trade *, Sums *);
    Sums sums;
} Share;

static void *work(void *given) {
    Share *share = given;
    uint64_t state = share->seed;
    Trade trade;
    Sums *sums = &share->sums;
    *sums = (Sums){0};
    for (long each = 0; each < share->count; each++) {
        bool is_ours = each % share->workers == share->worker;
        next_trade(&state, is_ours, &trade);
        if (!is_ours) continue;
        Lowest lowest = trade.redemptions[0].periods == 1 ? one_period(&trade) : share->way(&trade, sums);
        if (!lowest.is_printed) {
            sums->outside++;
            continue;
        }
        sums->printed++;
        sums->yields += lowest.yield;
        sums->called += trade.redemptions[lowest.redemption].is_called;
        sums->cents += (trade.coupon * trade.par * trade.days / 360000000 + 5) / 10;
    }
    return NULL;
}

static Sums drill(Share *shares, int workers) {
    Sums all = {0};
    for (int each = 1; each < workers; each++) pthread_create(&shares[each].thread, NULL, work, &shares[each]);
    work(&shares[0]);
    for (int each = 0; each < workers; each++) {
        if (each > 0) pthread_join(shares[each].thread, NULL);
        const Sums *sums = &shares[each].sums;
        all.printed += sums->printed;
        all.outside += sums->outside;
        all.called += sums->called;
        all.asked += sums->asked;
        all.yields += sums->yields;
        all.cents += sums->cents;
    }
    return all;
}

static double seconds(void) {
    struct timespec now;
    clock_gettime(CLOCK_MONOTONIC, &now);
    return now.tv_sec + 1e-9 * now.tv_nsec;
}

static int by_size(const void *one, const void *other) {
    double a = *(const double *)one, b = *(const double *)other;
    return (a > b) - (a < b);
}

int main(int count, char **words) {
    if (count != 6) {
        fprintf(stderr, "usage: search COUNT SEED THREADS REPEATS doubles|halvings|leaps\n");
        return 2;
    }
    static Share shares[MOST_THREADS];
    long trades = atol(words[1]);
    int workers = atoi(words[3]), repeats = atoi(words[4]);
    if (workers < 1 || workers > MOST_THREADS || repeats < 1 || repeats > MOST_REPEATS) return 2;
    for (int each = 0; each < workers; each++) {
        Share *share = &shares[each];
        *share = (Share){.count = trades, .seed = strtoull(words[2], NULL, 10), .workers = workers, .worker = each};
        share->way = !strcmp(words[5], "doubles") ? by_doubles : !strcmp(words[5], "leaps") ? by_leaps : by_halvings;
    }
    static double took[MOST_REPEATS];
    Sums sums = {0};
    for (int each = 0; each < repeats; each++) {
        double from = seconds();
        sums = drill(shares, workers);
        took[each] = seconds() - from;
    }
    qsort(took, repeats, sizeof *took, by_size);
    printf("DRILL %ld\nPRINTED %ld\nUNDECIDED 0\nOUTSIDE %ld\n", trades, sums.printed, sums.outside);
    printf("YIELDS %lld\nACCRUED %lld.%02lld\nCALLED %ld\n", (long long)sums.yields, (long long)(sums.cents / 100),
           (long long)(sums.cents % 100), sums.called);
    printf("ASKED %.1f\nSECONDS %.9f\n", (double)sums.asked / trades, took[repeats / 2]);
    return 0;
}
