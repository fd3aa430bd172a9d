/* What a yard's program does with Prskavon, on document 01's case A, one engine and ten wagons, and on a domestic train.
 * Masses are in tenths of a tonne, lengths in decimetres, speeds in km/h. */
#include <inttypes.h>
#include <stdbool.h>
#include <stdio.h>
#include <stdlib.h>
#include <string.h>

#include "prskavon.h"

enum { VEHICLES = 11, TRAIN = VEHICLES * PRSKAVON_VEHICLE, ENGINE = PRSKAVON_VEHICLE, CUT = 4 * PRSKAVON_VEHICLE };
enum { LINES = 3, ORDERS = LINES * PRSKAVON_ORDER };
enum { MIDDLE = 6 * PRSKAVON_VEHICLE, LONGER = TRAIN + PRSKAVON_VEHICLE };
enum { INLAND = 2, INLAND_ORDERS = INLAND * PRSKAVON_ORDER };

/* Kinds and settings of bytes 17 and 18, as far as these trains have them. */
enum { WAGON = 0, WORKING_ENGINE = 2, ISOLATED = 0, SET_M = 1, SET_V = 2 };

struct vehicle {
    uint64_t number;
    uint16_t mass, braked_v, braked_m, length;
    uint8_t axles, kind, setting, speed;
};

/* What a sheet of each book has: its length, and as many rule bytes as categories, from byte 4 on. What follows these is
 * the same in both. */
struct book {
    size_t sheet;
    int categories;
    const char *category[7];
};

static const struct book cross_border = {
    PRSKAVON_SHEET, 5, {"none", "ME120/P120", "ME100/P100", "MA100/P100", "MA100/G100", "MA90/G90"}};
static const struct book domestic = {
    PRSKAVON_DOMESTIC_SHEET, 6, {"none", "ME140", "ME120", "ME100", "MA100", "MA90", "MA80"}};

/* Vehicle numbers, the engine's first: the eleven least whose twelfth digit closes the sum, as the header says. */
static const uint64_t numbers[VEHICLES] = {18, 26, 34, 42, 59, 67, 75, 83, 91, 109, 117};

/* Document 01 prints case A's line; case B's follows from its margin of -2 t, rule 47 and 43.0 t a wagon. */
static const char case_a[] = "0 0 010164000000002020004400004d000070170000f41a000070170000a4060000";
static const char case_b[] = "0 0 010264002f0000202000feffff4d000070170000f41a0000b4140000a4060000";

/* The limits of a route's three sections. On the third ME100 is missing, so MA100 counts for category 2. */
static const uint8_t limits[LINES][5] = {{120, 100, 100, 100, 100}, {80, 90, 100, 100, 100}, {100, 0, 90, 90, 80}};

/* What a route of so many sections must give: the category granted and its speeds; and what each section for itself would
 * be granted. */
struct due {
    size_t sections;
    uint8_t category, speeds[LINES], alone_category[LINES], alone_speed[LINES];
};

/* Slowest are 80 km/h in category 1, 90 in 2 and 90 in 3, and 4 and 5 break rule 32: so 2, on these sections at these
 * speeds. Each section for itself would be granted another. */
static const struct due abroad = {LINES, 2, {100, 90, 90}, {1, 3, 1}, {120, 100, 100}};

/* Case 30 of docs/DOMESTIC.md: 842.5 t are braked, 173.2 t above 97 percent of 690.0 t. */
static const char case_30[] = "0 0 01018c0000000000000000ad000061010070170000f41a0000e9200000a4060000";

/* The limits of a domestic route's two sections, ME140 first. On the second it is missing, so ME120 counts for ME140. */
static const uint8_t inland_limits[INLAND][6] = {{140, 120, 100, 100, 90, 80}, {0, 80, 90, 90, 90, 80}};

/* Slowest are 80 km/h in ME140, ME120 and MA80, and 90 in the others: so ME100, the first of these. */
static const struct due inland = {INLAND, 3, {100, 90}, {1, 3}, {140, 90}};

static const char bad_order[] =
    ": the order record is not 24 bytes or has a field out of range; of a route, the orders are not whole, none or more than 64, or the section at this place, counted from 0, is out of range, asks for another category or names another book";
static const char short_sheet[] =
    ": the lent sheet is shorter than 32 bytes, of a domestic order than 33, or fewer bytes are lent than a route has sections";
static const char out_of_range[] = ": a field out of range; the place is the first such record, counted from 0";

static void expect(bool holds, const char *what) {
    if (!holds) {
        fprintf(stderr, "not as the documents say: %s\n", what);
        exit(1);
    }
}

static void put(uint8_t *at, uint64_t value, int bytes) {
    for (int i = 0; i < bytes; i++) at[i] = (uint8_t)(value >> (8 * i));
}

static uint64_t get(const uint8_t *at, int bytes) {
    uint64_t value = 0;
    for (int i = 0; i < bytes; i++) value |= (uint64_t)at[i] << (8 * i);
    return value;
}

static void put_vehicle(uint8_t *record, struct vehicle v) {
    memset(record, 0, PRSKAVON_VEHICLE);
    put(record, v.number, 8);
    put(record + 8, v.mass, 2);
    put(record + 10, v.braked_v, 2);
    put(record + 12, v.braked_m, 2);
    put(record + 14, v.length, 2);
    record[16] = v.axles;
    record[17] = v.kind;
    record[18] = v.setting;
    record[19] = 1; /* joined to the brake pipe, or rule 17, domestic 65, would be broken */
    record[20] = v.speed;
}

static void put_train(uint8_t *train, uint16_t wagon_braked_v) {
    put_vehicle(train, (struct vehicle){.number = numbers[0], .mass = 900, .braked_v = 1000, .braked_m = 800,
                                        .length = 200, .axles = 4, .kind = WORKING_ENGINE, .setting = SET_V,
                                        .speed = 140});
    for (size_t i = 1; i < VEHICLES; i++)
        put_vehicle(train + i * PRSKAVON_VEHICLE,
                    (struct vehicle){.number = numbers[i], .mass = 600, .braked_v = wagon_braked_v, .braked_m = 500,
                                     .length = 150, .axles = 4, .kind = WAGON, .setting = SET_V, .speed = 120});
}

static void put_order(uint8_t *order) {
    memset(order, 0, PRSKAVON_ORDER);
    memset(order, 100, 5); /* the line's limit in all five columns */
    order[5] = 1;          /* asked: ME120/P120 */
    put(order + 8, 100000, 4);
    put(order + 12, 100000, 4);
}

/* The same order in the domestic book: byte 7 names it, and the limits begin with ME140, which stands in byte 16. */
static void put_domestic_order(uint8_t *order, const uint8_t *six) {
    put_order(order); /* asked 1 is ME140 here */
    order[7] = 1;
    order[16] = six[0];
    memcpy(order, six + 1, 5);
}

/* Engine and five wagons set to M, five set to V, and all may do 140 km/h: braked as a long locomotive. */
static void put_domestic_train(uint8_t *train) {
    put_train(train, 400);
    train[18] = SET_M;
    for (size_t i = 1; i < VEHICLES; i++) {
        uint8_t *wagon = train + i * PRSKAVON_VEHICLE;
        bool front = i <= 5;
        put(wagon + 10, front ? 1500 : 400, 2);
        put(wagon + 12, front ? 800 : 400, 2);
        wagon[18] = front ? SET_M : SET_V;
        wagon[20] = 140;
    }
}

/* What stands behind the rule bytes: D loads, margin, p, mark, isolated records, masses and length. */
static const uint8_t *figures(struct book book, const uint8_t *sheet) {
    return sheet + 4 + book.categories;
}

/* The margin's three bytes are two's complement: from 0x800000 on they stand for a number below zero. */
static int32_t margin(struct book book, const uint8_t *sheet) {
    int32_t tonnes = (int32_t)get(figures(book, sheet) + 1, 3);
    return tonnes < 0x800000 ? tonnes : tonnes - 0x1000000;
}

static void print_sheet(struct book book, const uint8_t *sheet) {
    const uint8_t *figure = figures(book, sheet);
    printf("  asked %s, granted %s at %d km/h\n", book.category[sheet[0]], book.category[sheet[1]], sheet[2]);
    printf("  margin %" PRId32 " t over %d percent\n", margin(book, sheet), figure[4]);
    for (int c = 1; c <= book.categories; c++) {
        if (sheet[3 + c] == 0)
            printf("  %s breaks no rule\n", book.category[c]);
        else
            printf("  %s breaks rule %d\n", book.category[c], sheet[3 + c]);
    }
    uint64_t braked = get(figure + 15, 4), hauled = get(figure + 7, 4);
    printf("  braked mass %" PRIu64 ".%" PRIu64 " t, hauled mass %" PRIu64 ".%" PRIu64 " t\n", braked / 10, braked % 10,
           hauled / 10, hauled % 10);
    if (figure[5] == 1) printf("  braked as a long locomotive\n");
}

static void print_answer(uint64_t answer, const char *words) {
    printf("  number %u, place %zu%s\n", prskavon_number(answer), prskavon_place(answer), words);
}

static void whole_train(struct book book, const uint8_t *train, const uint8_t *order, uint8_t *sheet, const char *page) {
    uint64_t answer = prskavon_sheet_of_train(train, TRAIN, order, PRSKAVON_ORDER, sheet, book.sheet);
    expect(answer == 0, "the whole train has a sheet");
    char line[5 + 2 * PRSKAVON_DOMESTIC_SHEET] = "0 0 "; /* number, place, sheet: the line that the program SHEET writes */
    for (size_t i = 0; i < book.sheet; i++) sprintf(line + 4 + 2 * i, "%02x", sheet[i]);
    printf("  %s\n", line);
    expect(strcmp(line, page) == 0, page);
    print_answer(answer, "");
    print_sheet(book, sheet);
}

/* Two yards account 3 and 7 wagons; whoever has the engine needs their two accounts and no wagon. */
static void by_portions(struct book book, const uint8_t *train, const uint8_t *order, const uint8_t *whole, uint8_t *joined) {
    uint8_t left[PRSKAVON_ACCOUNT], right[PRSKAVON_ACCOUNT], sheet[PRSKAVON_DOMESTIC_SHEET];
    expect(prskavon_account_of(train + ENGINE, CUT - ENGINE, left, sizeof left) == 0, "3 wagons have an account");
    expect(prskavon_account_of(train + CUT, TRAIN - CUT, right, sizeof right) == 0, "7 wagons have an account");
    expect(get(left, 4) == 3 && get(right, 4) == 7, "the accounts count 3 and 7 wagons");
    expect(prskavon_join(left, sizeof left, right, sizeof right, joined, PRSKAVON_ACCOUNT) == 0, "the accounts join");
    uint64_t answer = prskavon_sheet_of_account(train, ENGINE, joined, PRSKAVON_ACCOUNT, order, PRSKAVON_ORDER, sheet,
                                                book.sheet);
    print_answer(answer, "");
    expect(answer == 0, "engine and account have a sheet");
    expect(memcmp(sheet, whole, book.sheet) == 0, "the sheet does not depend on the cut");
    printf("  byte for byte the same sheet\n");
}

/* The wagons tie at 120 km/h, so the first of them answers; the engine may do 140. */
static void speed_holder(const uint8_t *train) {
    uint8_t vehicle[PRSKAVON_VEHICLE];
    size_t written = prskavon_holds_the_speed(train, CUT, train + CUT, TRAIN - CUT, vehicle, sizeof vehicle);
    expect(written == sizeof vehicle, "a vehicle holds the speed");
    printf("  number %" PRIu64 ", %d km/h\n", get(vehicle, 8), vehicle[20]);
    expect(memcmp(vehicle, train + ENGINE, sizeof vehicle) == 0, "the first wagon holds the speed");
}

/* Case A's orders for the three sections, one behind the other. */
static void put_orders(uint8_t *orders, const uint8_t *order) {
    for (size_t k = 0; k < LINES; k++) {
        memcpy(orders + k * PRSKAVON_ORDER, order, PRSKAVON_ORDER);
        memcpy(orders + k * PRSKAVON_ORDER, limits[k], 5);
    }
}

/* One category from end to end, and beside it what each section for itself would be granted. */
static void route(struct book book, struct due due, const uint8_t *train, const uint8_t *orders, uint8_t *speeds) {
    uint64_t answer = prskavon_route_of_train(train, TRAIN, orders, due.sections * PRSKAVON_ORDER, speeds, due.sections);
    print_answer(answer, "");
    printf("  asked %s, granted %s\n", book.category[orders[5]], book.category[prskavon_category(answer)]);
    expect(prskavon_number(answer) == 0 && prskavon_category(answer) == due.category, "the route's category");
    for (size_t k = 0; k < due.sections; k++) {
        uint8_t sheet[PRSKAVON_DOMESTIC_SHEET]; /* room enough for either book */
        const uint8_t *order = orders + k * PRSKAVON_ORDER;
        expect(prskavon_sheet_of_train(train, TRAIN, order, PRSKAVON_ORDER, sheet, sizeof sheet) == 0, "a section's sheet");
        printf("  section %zu: %d km/h; for itself %s at %d km/h\n", k, speeds[k], book.category[sheet[1]], sheet[2]);
        expect(speeds[k] == due.speeds[k], "the section's speed");
        expect(sheet[1] == due.alone_category[k] && sheet[2] == due.alone_speed[k], "the section for itself");
    }
}

static void route_by_account(struct due due, const uint8_t *engine, const uint8_t *account, const uint8_t *orders,
                             const uint8_t *whole) {
    uint8_t speeds[LINES];
    uint64_t answer = prskavon_route_of_account(engine, ENGINE, account, PRSKAVON_ACCOUNT, orders,
                                                due.sections * PRSKAVON_ORDER, speeds, due.sections);
    print_answer(answer, "");
    expect(prskavon_number(answer) == 0 && prskavon_category(answer) == due.category, "the route's category");
    expect(memcmp(speeds, whole, due.sections) == 0, "the route does not depend on the cut");
    printf("  the same category and speeds\n");
}

/* How long the hauled part is, what of it is set to V, and what the sheet says then; 550.0 t are braked, less k percent. */
static void lengths(const uint8_t *train, size_t train_len, const uint8_t *order, uint64_t hauled, int32_t tonnes) {
    uint8_t account[PRSKAVON_ACCOUNT], sheet[PRSKAVON_SHEET];
    expect(prskavon_account_of(train + ENGINE, train_len - ENGINE, account, sizeof account) == 0, "the wagons' account");
    expect(prskavon_sheet_of_train(train, train_len, order, PRSKAVON_ORDER, sheet, sizeof sheet) == 0, "the train's sheet");
    uint64_t all = get(account + 16, 4), in_v = get(account + 69, 4), braked = get(sheet + 24, 4);
    printf("  hauled %" PRIu64 ".%" PRIu64 " m, of these %" PRIu64 ".%" PRIu64 " m set to V\n", all / 10, all % 10,
           in_v / 10, in_v % 10);
    int32_t left = margin(cross_border, sheet);
    printf("  granted %s, margin %" PRId32 " t, braked mass %" PRIu64 ".%" PRIu64 " t\n", cross_border.category[sheet[1]],
           left, braked / 10, braked % 10);
    expect(all == hauled && in_v == 5000, "500.0 m are set to V");
    expect(sheet[1] == 1 && left == tonnes && braked == 5500, "up to 500 m set to V nothing is deducted");
}

/* 550.0 t are 18.7 t above 77 percent of 690.0 t. The isolated wagon costs 77 percent of its 20.0 t, which are 15.4 t, and
 * leaves 3.3 t; were its metres counted, k would be 2 and category 1 lost. */
static void isolated_metres(const uint8_t *order) {
    uint8_t train[LONGER];
    put_train(train, 450);
    for (size_t i = 1; i < VEHICLES; i++) put(train + i * PRSKAVON_VEHICLE + 14, 500, 2);
    printf("Ten wagons of 50.0 m, set to V and braked with 45.0 t each\n");
    lengths(train, TRAIN, order, 5000, 18);
    printf("The same with an isolated wagon of 40.0 m and 20.0 t in the middle\n");
    memmove(train + MIDDLE + PRSKAVON_VEHICLE, train + MIDDLE, TRAIN - MIDDLE);
    put_vehicle(train + MIDDLE, (struct vehicle){.number = 125, .mass = 200, .length = 400, .axles = 4, .kind = WAGON,
                                                 .setting = ISOLATED, .speed = 120});
    lengths(train, LONGER, order, 5400, 3);
}

static void given(uint64_t answer, unsigned number, size_t place, const char *words) {
    print_answer(answer, words);
    expect(prskavon_number(answer) == number && prskavon_place(answer) == place, words);
    expect(prskavon_category(answer) == 0, "a refusal gives category 0");
}

/* Whether all lent bytes still hold the mark that was put there before the call. */
static bool untouched(const uint8_t *lent, size_t length) {
    while (length > 0 && lent[length - 1] == 0xaa) length--;
    return length == 0;
}

static void refused(uint64_t answer, unsigned number, size_t place, const char *words, const uint8_t *sheet, size_t length) {
    given(answer, number, place, words);
    expect(untouched(sheet, length), "a refused sheet is not written at all");
    printf("  the sheet was left as it was\n");
}

static void refused_route(const uint8_t *train, const uint8_t *orders, size_t sections, size_t place) {
    uint8_t speeds[LINES];
    memset(speeds, 0xaa, sizeof speeds);
    given(prskavon_route_of_train(train, TRAIN, orders, sections * PRSKAVON_ORDER, speeds, sections), 4, place, bad_order);
    expect(untouched(speeds, sizeof speeds), "a refused route writes nothing");
    printf("  the speeds were left as they were\n");
}

static void routes(const uint8_t *train, const uint8_t *order, const uint8_t *account) {
    uint8_t orders[ORDERS], speeds[LINES];
    put_orders(orders, order);
    printf("Case A's train on a route of three sections\n");
    route(cross_border, abroad, train, orders, speeds);
    printf("The same route, from the engine and the joined accounts\n");
    route_by_account(abroad, train, account, orders, speeds);
    printf("A German percentage of 201 on the last section\n");
    orders[2 * PRSKAVON_ORDER + 6] = 201;
    refused_route(train, orders, LINES, 2);
}

/* The domestic book takes the same vehicles and accounts. Its order has byte 7 set, and its sheet has 33 bytes. */
static void inside_france(void) {
    uint8_t train[TRAIN], orders[INLAND_ORDERS], sheet[PRSKAVON_DOMESTIC_SHEET], account[PRSKAVON_ACCOUNT], speeds[INLAND];
    put_domestic_train(train);
    for (size_t k = 0; k < INLAND; k++) put_domestic_order(orders + k * PRSKAVON_ORDER, inland_limits[k]);

    printf("A domestic train, engine and five wagons set to M, five wagons set to V (case 30)\n");
    whole_train(domestic, train, orders, sheet, case_30);
    printf("Case 30 again, from the engine and the joined accounts of 3 and 7 wagons\n");
    by_portions(domestic, train, orders, sheet, account);
    uint64_t in_m = get(account + 77, 4);
    printf("  V masses of the wagons set to M: %" PRIu64 ".%" PRIu64 " t, of which three quarters count\n", in_m / 10, in_m % 10);
    expect(in_m == 7500 && get(account + 73, 4) == 0 && account[81] == 0, "five wagons set to M, no hauled engine");
    printf("The domestic train on a route of two sections\n");
    route(domestic, inland, train, orders, speeds);
    printf("The same route, from the engine and the joined accounts\n");
    route_by_account(inland, train, account, orders, speeds);

    printf("A second section of the cross-border book\n");
    orders[PRSKAVON_ORDER + 7] = 0;
    refused_route(train, orders, INLAND, 1);
    memset(sheet, 0xaa, sizeof sheet);
    printf("32 bytes lent for a domestic sheet\n");
    refused(prskavon_sheet_of_train(train, TRAIN, orders, PRSKAVON_ORDER, sheet, PRSKAVON_SHEET), 5, 0, short_sheet, sheet,
            sizeof sheet);
}

int main(void) {
    uint8_t train[TRAIN], order[PRSKAVON_ORDER], sheet[PRSKAVON_SHEET], account[PRSKAVON_ACCOUNT];
    uint8_t train_b[TRAIN], sheet_b[PRSKAVON_SHEET];
    put_order(order);
    put_train(train, 500);
    put_train(train_b, 430);

    printf("The whole train, its wagons braked with 50.0 t each (case A)\n");
    whole_train(cross_border, train, order, sheet, case_a);
    printf("The whole train, its wagons braked with 43.0 t each (case B)\n");
    whole_train(cross_border, train_b, order, sheet_b, case_b);
    printf("Case A again, from the engine and the joined accounts of 3 and 7 wagons\n");
    by_portions(cross_border, train, order, sheet, account);
    printf("The vehicle that holds the speed\n");
    speed_holder(train);
    routes(train, order, account);
    isolated_metres(order);
    inside_france();

    memset(sheet, 0xaa, sizeof sheet); /* a mark that no refused call may touch */
    printf("The last wagon's number mistyped, 177 for 117\n");
    put(train_b + 10 * PRSKAVON_VEHICLE, 177, 8);
    refused(prskavon_sheet_of_train(train_b, TRAIN, order, sizeof order, sheet, sizeof sheet), 3, 10, out_of_range, sheet,
            sizeof sheet);
    printf("A fourth vehicle with 25 axles\n");
    train[3 * PRSKAVON_VEHICLE + 16] = 25;
    refused(prskavon_sheet_of_train(train, TRAIN, order, sizeof order, sheet, sizeof sheet), 3, 3, out_of_range, sheet,
            sizeof sheet);
    printf("An account with byte 127 set to 1\n");
    account[127] = 1;
    refused(prskavon_sheet_of_account(train, ENGINE, account, sizeof account, order, sizeof order, sheet, sizeof sheet),
            7, 0, ": an account with a figure above its ceiling", sheet, sizeof sheet);
    return 0;
}
