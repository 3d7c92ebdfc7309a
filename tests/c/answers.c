/* Every function of include/rolvenko.h once for each kind of answer: number, place, count, and the memory left. */
#include "expect.h"

/* L2 of document 01, and its image. */
static const char L2[] = "var v 0..1; v: GX(~(v = _v) -> [_v = 0] & v = (1)); v: GX(v = _v -> ~([_v = 0]));";
static const uint8_t L2_IMAGE[17] = {0, 1, 0, 2, 0, 3, 0, 1, 0, 10, 19, 1, 2, 20, 0, 22, 0};

static uint64_t translate(const char *text, uint8_t *image, size_t room) {
    return rolvenko_translate((const uint8_t *)text, strlen(text), image, room);
}

static void translations(void) {
    uint8_t image[24], filled[24];
    memset(filled, 0xA5, sizeof filled);
    memcpy(image, filled, sizeof image);
    expect("L2", translate(L2, image, sizeof image), 0, 0, 17);
    same("L2's image", image, L2_IMAGE, 17);
    same("behind L2's image", image + 17, filled, sizeof image - 17);
    memcpy(image, filled, sizeof image);
    expect("no room", translate(L2, image, 16), 10, sizeof L2 - 1, 0);
    expect("bad byte", translate("var $", image, sizeof image), 1, 4, 0);
    expect("early end", translate("var v", image, sizeof image), 2, 5, 0);
    expect("no rule", translate("var v 0..1;", image, sizeof image), 6, 11, 0);
    static uint8_t spaces[ROLVENKO_TEXT_LIMIT + 1];
    memset(spaces, ' ', sizeof spaces);
    expect("text over the limit", rolvenko_translate(spaces, sizeof spaces, image, sizeof image), 9, 0, 0);
    same("a refused translation", image, filled, sizeof image);
    expect("spaces", rolvenko_translate(spaces, sizeof spaces - 1, image, sizeof image), 0, 0, 2);
}

static void checks(void) {
    static const uint8_t held[] = {0, 0, 1, 0};
    static uint8_t zeros[ROLVENKO_IMAGE_LIMIT + 1];
    expect("sound", rolvenko_check(L2_IMAGE, 17), 0, 0, 0);
    expect("cut", rolvenko_check(L2_IMAGE, 15), 11, 15, 0);
    expect("a value held", rolvenko_check(held, sizeof held), 11, 4, 0);
    expect("image over the limit", rolvenko_check(zeros, sizeof zeros), 9, 0, 0);
}

static void starts_and_scans(void) {
    static const uint8_t counter[] = {1, 1, 0, 2, 0, 0, 4, 2, 3, 1, 2, 0, 4, 21, 1}; /* input i 0..1; var v 0..2 init 1; v = _v + i */
    int32_t state[2] = {7, 7}, found[2] = {7, 7}, row[1] = {1}, outside[1] = {2};
    expect("start of a wrong length", rolvenko_start(counter, sizeof counter, state, 1), 12, 0, 0);
    expect("start of an unsound image", rolvenko_start(counter, 14, state, 2), 11, 13, 0);
    expect("state outside", rolvenko_scan(counter, sizeof counter, state, 2, row, 1), 18, 0, 0);
    same("a refused start", state, found, sizeof state);
    expect("start", rolvenko_start(counter, sizeof counter, state, 2), 0, 0, 0);
    expect("row of a wrong length", rolvenko_scan(counter, sizeof counter, state, 2, row, 0), 12, 0, 0);
    expect("input outside", rolvenko_scan(counter, sizeof counter, state, 2, outside, 1), 13, 0, 0);
    expect("scan", rolvenko_scan(counter, sizeof counter, state, 2, row, 1), 0, 0, 4);
    int32_t after[2] = {1, 2};
    same("a scan", state, after, sizeof state);
    expect("value outside", rolvenko_scan(counter, sizeof counter, state, 2, row, 1), 17, 0, 4);
    same("a refused scan", state, after, sizeof state);
}

static uint64_t clock_of(const char *text, const int64_t *table, size_t table_len, int64_t utc, int32_t *row, size_t row_len) {
    return rolvenko_clock((const uint8_t *)text, strlen(text), table, table_len, utc, row, row_len);
}

/* The hour that comes again when the clocks go back from two hours to one; then every refusal. */
static void clocks(void) {
    static const char text[] = "input day 0..9; input go 0..1; input minute 0..1439; input again 0..1;";
    static const int64_t table[4] = {0, 120, 1000, 60}, found[4] = {0, 120, 1000, 60};
    int32_t row[5] = {7, 7, 7, 7, 7};
    const int32_t first[5] = {0, 7, 1060, 0, 7}, second[5] = {0, 7, 1060, 1, 7};
    expect("first pass", clock_of(text, table, 4, 940, row, 4), 0, 0, 0);
    same("the first pass", row, first, sizeof row);
    expect("second pass", clock_of(text, table, 4, 1000, row, 4), 0, 0, 0);
    same("the second pass", row, second, sizeof row);
    expect("clock of a faulty text", clock_of("var $", table, 0, -1, row, 5), 1, 4, 0);
    expect("half an entry", clock_of(text, table, 3, -1, row, 5), 19, 0, 0);
    expect("minute below 0", clock_of(text, table, 4, -1, row, 5), 20, 0, 0);
    expect("minute over the limit", clock_of(text, table, 4, INT64_C(2147483648), row, 5), 20, 0, 0);
    expect("clock row of a wrong length", clock_of(text, table, 4, 0, row, 5), 12, 0, 0);
    same("a refused clock", row, second, sizeof row);
    same("the farm table", table, found, sizeof table);
}

/* What is lent for a licence charge beside the image. */
struct bill {
    size_t id;
    int32_t trace[12];
    size_t trace_len;
    int32_t minutes[3];
    size_t minutes_len;
    int32_t threshold, rate, rate_above;
};

/* input i 0..9; var n 0..9 init 3; var z -1..1; n = i, z = 0 */
static const uint8_t LICENCES[] = {1, 2, 0, 18, 0, 0, 18, 6, 1, 2, 0, 2, 0, 21, 1, 1, 0, 21, 2};

/* A charge of `image_len` bytes of LICENCES; what is lent stays. */
static uint64_t charge_of(struct bill bill, size_t image_len) {
    struct bill lent = bill;
    uint64_t answer = rolvenko_charge(LICENCES, image_len, lent.id, lent.trace, lent.trace_len, lent.minutes, lent.minutes_len,
                                      lent.threshold, lent.rate, lent.rate_above);
    same("a charge's trace", lent.trace, bill.trace, sizeof bill.trace);
    same("a charge's minutes", lent.minutes, bill.minutes, sizeof bill.minutes);
    return answer;
}

static void owes(const char *what, struct bill bill, uint64_t cents, unsigned sixtieths) {
    uint64_t answer = charge_of(bill, sizeof LICENCES);
    if (answer == 60 * cents + sixtieths)
        return;
    printf("%s: %llu\n", what, (unsigned long long)answer);
    failures++;
}

/* Licences up to, at and above the threshold, the greatest charge, no row. */
static void charges(void) {
    struct bill bill = {1, {0, 3, 0, 5, 5, 0, 7, 7, 0}, 9, {60, 90}, 2, 6, 100, 250};
    owes("one above the threshold", bill, 500 + 900 + 375, 0);
    bill.threshold = 7;
    owes("all up to the threshold", bill, 500 + 1050, 0);
    bill.threshold = 0;
    bill.minutes[1] = 1;
    owes("all above the threshold", bill, 1250 + 29, 10);
    bill.trace_len = 3;
    bill.minutes_len = 0;
    owes("the start alone", bill, 0, 0);
    struct bill most = {1, {0, 0, 0, 0, 376299967, 0, 0, 1001363, 0, 0, 459519, 0}, 12, {1440, 1, 1}, 3, 1000000, 1, 1000000};
    owes("greatest charge", most, UINT64_C(9007199254740991), 59);
    most.trace[10]++;
    expect("a sixtieth more", charge_of(most, sizeof LICENCES), 29, 0, 0);
    most.trace[4] = INT32_MAX;
    most.minutes[2] = 1441;
    expect("minutes before the sum", charge_of(most, sizeof LICENCES), 28, 0, 0);
}

/* Every refusal of a charge; each bill has a fault that comes later too. */
static void refused_charges(void) {
    static uint8_t zeros[ROLVENKO_IMAGE_LIMIT + 1];
    const struct bill good = {1, {0, 3, 0, 5, 5, 0, 7, 7, 0}, 9, {60, 90}, 2, 6, 100, 250};
    struct bill bill = good;
    expect("charge over the limit", rolvenko_charge(zeros, sizeof zeros, 1, good.trace, 8, good.minutes, 2, 6, 100, 250), 9, 0, 0);
    bill.trace_len = 8;
    expect("charge of an unsound image", charge_of(bill, sizeof LICENCES - 1), 11, sizeof LICENCES - 2, 0);
    bill.threshold = -1;
    expect("cut state", charge_of(bill, sizeof LICENCES), 12, 0, 0);
    bill.trace_len = 0;
    expect("no start", charge_of(bill, sizeof LICENCES), 12, 0, 0);
    bill.trace_len = 9;
    expect("threshold below 0", charge_of(bill, sizeof LICENCES), 28, 0, 0);
    static const size_t ids[] = {0, 2, 3, SIZE_MAX};
    for (size_t i = 0; i < sizeof ids / sizeof *ids; i++) {
        bill = good;
        bill.id = ids[i];
        expect("no such variable", charge_of(bill, sizeof LICENCES), 28, 0, 0);
    }
    for (size_t at = 1; at < 9; at += 3) {
        bill = good;
        bill.trace[at] = -1;
        expect("value below 0", charge_of(bill, sizeof LICENCES), 28, 0, 0);
    }
    static const int32_t out[][3] = {{-1, 0, 0}, {1000001, 0, 0}, {0, -1, 0}, {0, 1000001, 0}, {0, 0, -1}, {0, 0, 1441}};
    for (size_t i = 0; i < sizeof out / sizeof *out; i++) {
        bill = good;
        bill.rate = out[i][0];
        bill.rate_above = out[i][1];
        bill.minutes[1] = out[i][2];
        expect("rate or minutes out of limit", charge_of(bill, sizeof LICENCES), 28, 0, 0);
    }
    for (size_t count = 1; count <= 3; count += 2) {
        bill = good;
        bill.minutes_len = count;
        expect("minutes not one a row", charge_of(bill, sizeof LICENCES), 28, 0, 0);
    }
}

/* input i 0..1; var v 0..3; v = _v + i, or (_v + i) mod 4 */
static const uint8_t ADDS[] = {1, 1, 0, 2, 0, 0, 6, 0, 3, 1, 2, 0, 4, 21, 1};
static const uint8_t TURNS[] = {1, 1, 0, 2, 0, 0, 6, 0, 3, 1, 2, 0, 4, 1, 8, 8, 21, 1};

/* Closed, and every refusal of a closed profile; the place of 27 counts scans. */
static void profiles(void) {
    static uint8_t zeros[ROLVENKO_IMAGE_LIMIT + 1];
    static const uint8_t first[] = {0, 1, 0, 2, 0, 1, 2, 1, 0, 7, 21, 0};   /* var v 0..1; v = 1 / 0 */
    uint8_t widest[13] = {1, 1, 0, 254, 3, 0, 0, 0, 0, 1, 0, 21, 1}; /* input i 0..255; var v 0..0; v = 0 */
    expect("closed", rolvenko_closed(TURNS, sizeof TURNS), 0, 0, 0);
    expect("closed latch", rolvenko_closed(L2_IMAGE, 17), 0, 0, 0);
    expect("65,536 scans", rolvenko_closed(widest, sizeof widest), 0, 0, 0);
    widest[7] = 2;
    expect("over 65,536 scans", rolvenko_closed(widest, sizeof widest), 26, 0, 0);
    expect("profile over the limit", rolvenko_closed(zeros, sizeof zeros), 9, 0, 0);
    expect("profile of an unsound image", rolvenko_closed(ADDS, sizeof ADDS - 1), 11, 13, 0);
    expect("a refused scan", rolvenko_closed(ADDS, sizeof ADDS), 27, 7, 0);
    expect("the first scan refused", rolvenko_closed(first, sizeof first), 27, 0, 0);
}

/* Parts of a closed profile: before the refused scan, with it, behind it and behind the last; then what comes before all scans. */
static void profile_parts(void) {
    static uint8_t zeros[ROLVENKO_IMAGE_LIMIT + 1];
    static const uint8_t large[] = {1, 1, 0, 254, 3, 0, 0, 2, 0, 1, 0, 21, 1}; /* input i 0..255; var v 0..1; v = 0 */
    expect("a part before", rolvenko_closed_part(ADDS, sizeof ADDS, 0, 7), 0, 0, 0);
    expect("a part to the refused scan", rolvenko_closed_part(ADDS, sizeof ADDS, 3, 5), 27, 7, 0);
    expect("the refused scan alone", rolvenko_closed_part(ADDS, sizeof ADDS, 7, 1), 27, 7, 0);
    expect("the part behind it", rolvenko_closed_part(ADDS, sizeof ADDS, 8, SIZE_MAX), 27, 15, 0);
    expect("no scans", rolvenko_closed_part(ADDS, sizeof ADDS, 7, 0), 0, 0, 0);
    expect("behind the last", rolvenko_closed_part(ADDS, sizeof ADDS, 16, 1), 0, 0, 0);
    expect("far behind the last", rolvenko_closed_part(ADDS, sizeof ADDS, SIZE_MAX, SIZE_MAX), 0, 0, 0);
    expect("a part over the limit", rolvenko_closed_part(zeros, sizeof zeros, 0, 0), 9, 0, 0);
    expect("a part of an unsound image", rolvenko_closed_part(ADDS, sizeof ADDS - 1, 9, 9), 11, 13, 0);
    expect("a part of too many", rolvenko_closed_part(large, sizeof large, 9, 9), 26, 0, 0);
    expect("a part, NULL image", rolvenko_closed_part(NULL, 0, 0, 1), 11, 0, 0);
}

/* The pair of a 27, the last pair, and every refusal; numbers behind the lengths stay. */
static void combinations(void) {
    static uint8_t zeros[ROLVENKO_IMAGE_LIMIT + 1];
    static const uint8_t large[] = {1, 1, 0, 254, 3, 0, 0, 2, 0, 1, 0, 21, 1}; /* input i 0..255; var v 0..1; v = 0 */
    int32_t state[3] = {7, 7, 7}, row[2] = {8, 8};
    const int32_t found[3] = {7, 7, 7}, given[2] = {8, 8}, at[3] = {0, 3, 7}, in[2] = {1, 8}, last[3] = {1, 3, 7};
    expect("combination over the limit", rolvenko_combination(zeros, sizeof zeros, 99, state, 3, row, 2), 9, 0, 0);
    expect("combination of an unsound image", rolvenko_combination(ADDS, sizeof ADDS - 1, 99, state, 3, row, 2), 11, 13, 0);
    expect("combination of too many", rolvenko_combination(large, sizeof large, 0, state, 3, row, 2), 26, 0, 0);
    expect("combination state too long", rolvenko_combination(ADDS, sizeof ADDS, 7, state, 3, row, 1), 12, 0, 0);
    expect("combination row too long", rolvenko_combination(ADDS, sizeof ADDS, 7, state, 2, row, 2), 12, 0, 0);
    expect("past the last", rolvenko_combination(ADDS, sizeof ADDS, 16, state, 2, row, 1), 12, 0, 0);
    expect("far past the last", rolvenko_combination(ADDS, sizeof ADDS, UINT32_MAX, state, 2, row, 1), 12, 0, 0);
    same("a refused combination's state", state, found, sizeof state);
    same("a refused combination's row", row, given, sizeof row);
    expect("combination", rolvenko_combination(ADDS, sizeof ADDS, 7, state, 2, row, 1), 0, 0, 0);
    same("its state", state, at, sizeof state);
    same("its row", row, in, sizeof row);
    expect("the pair scanned", rolvenko_scan(ADDS, sizeof ADDS, state, 2, row, 1), 17, 0, 4);
    expect("the last combination", rolvenko_combination(ADDS, sizeof ADDS, 15, state, 2, row, 1), 0, 0, 0);
    same("its state, the last", state, last, sizeof state);
    same("its row, the last", row, in, sizeof row);
}

/* Lengths of 0, with a pointer to nothing and with none. */
static void empty(void) {
    static const uint8_t none[] = {0, 0};
    uint8_t byte = 9;
    int32_t number = 9;
    expect("empty text, no room", rolvenko_translate(&byte, 0, &byte, 0), 10, 0, 0);
    expect("NULL text, no room", rolvenko_translate(NULL, 0, NULL, 0), 10, 0, 0);
    expect("empty image", rolvenko_check(&byte, 0), 11, 0, 0);
    expect("NULL image", rolvenko_check(NULL, 0), 11, 0, 0);
    expect("no names", rolvenko_start(none, 2, &number, 0), 0, 0, 0);
    expect("no names, NULL", rolvenko_start(none, 2, NULL, 0), 0, 0, 0);
    expect("no inputs", rolvenko_scan(none, 2, &number, 0, &number, 0), 0, 0, 0);
    expect("no inputs, NULL", rolvenko_scan(none, 2, NULL, 0, NULL, 0), 0, 0, 0);
    static const int64_t table[2] = {0, 60};
    expect("no table", rolvenko_clock(&byte, 0, table, 0, 0, &number, 0), 19, 0, 0);
    expect("no table, NULL", rolvenko_clock(NULL, 0, NULL, 0, 0, NULL, 0), 19, 0, 0);
    expect("nothing to fill", rolvenko_clock(&byte, 0, table, 2, 0, &number, 0), 0, 0, 0);
    expect("nothing to fill, NULL", rolvenko_clock(NULL, 0, table, 2, 0, NULL, 0), 0, 0, 0);
    expect("charge without names", rolvenko_charge(none, 2, 0, &number, 0, &number, 0, 0, 0, 0), 28, 0, 0);
    expect("charge without names, NULL", rolvenko_charge(none, 2, 0, NULL, 0, NULL, 0, 0, 0, 0), 28, 0, 0);
    expect("a trace without names", rolvenko_charge(none, 2, 0, &number, 1, &number, 0, 0, 0, 0), 12, 0, 0);
    expect("closed without names", rolvenko_closed(none, 2), 0, 0, 0);
    expect("closed, NULL image", rolvenko_closed(NULL, 0), 11, 0, 0);
    expect("combination without names", rolvenko_combination(none, 2, 0, &number, 0, &number, 0), 0, 0, 0);
    expect("combination without names, NULL", rolvenko_combination(none, 2, 0, NULL, 0, NULL, 0), 0, 0, 0);
    expect("a second one without names", rolvenko_combination(none, 2, 1, NULL, 0, NULL, 0), 12, 0, 0);
    if (byte != 9 || number != 9) {
        puts("an empty slice was written");
        failures++;
    }
}

int main(void) {
    translations();
    checks();
    starts_and_scans();
    clocks();
    charges();
    refused_charges();
    profiles();
    profile_parts();
    combinations();
    empty();
    printf("%d failures\n", failures);
    return failures != 0;
}
