/* Prskavon: the brake sheet of a freight train between France and Germany, or inside France, and its category for a route.
 *
 * Build the archive with `rt lib` in crates/exports and link it: cc -I include program.c crates/exports/out/libexports.a
 * (x86-64 Linux; of the C library it needs memcpy and memmove alone). Every function takes any bytes and always returns.
 * There is no state and no allocation, so calls may run on several threads at once. docs/LEAFLET.md says what each number and
 * rule means, docs/DOMESTIC.md what the domestic book holds.
 *
 * TWO BOOKS. Byte 7 of an order names the rule book by which a train is judged: 0 is the cross-border book (RC A 7a no 11),
 * 1 the domestic one (RC A-B 7a no 1, freight trains on lines with flat-rate braking). Vehicles and accounts are the same for
 * both. A sheet does not say by which book it was made: keep it beside its order.
 *
 * BUFFERS
 * - A buffer is a pointer and its length in bytes. The pointer is never NULL, not even where the length is 0.
 * - A buffer that is read may be lent twice in one call. A buffer that is written overlaps no other of the call.
 * - A done call writes the first 32, 33, 128 or 24 bytes named below, of a route as many as it has sections, and no other,
 *   and the buffer may be longer. A refused call writes nothing: what the buffer held before is no sheet, account or speed.
 *
 * ANSWERS: number + 256 * place + 4294967296 * category. The place counts records from 0, and is 0 save for number 3 and,
 * of a route, number 4; with engines lent apart 3 counts among the engines. The category is a route's granted one, and 0
 * in every other answer. (prskavon_holds_the_speed alone answers otherwise: see there.)
 *
 *     0   done
 *     1   the list is empty or not a multiple of 24 bytes (for a portion: not a multiple of 24 bytes)
 *     2   more than 200 records together; in joining accounts, a joined figure above its ceiling
 *     3   a field out of range; the place is the first such record
 *     4   the order record is not 24 bytes or has a field outside of its book's range, byte 7 above 1 among them; of a route
 *         first, with place 0, orders that are not whole records, no section or more than 64, then a section with a field
 *         out of range, or with another book or another asked category than the first section's, the place being the first
 *         such section, counted from 0
 *     5   the lent sheet is shorter than 32 bytes, of a domestic order shorter than 33, or the room for an account shorter
 *         than 128; of a route, fewer bytes are lent for speeds than it has sections
 *     6   a working engine in a portion offered as hauled
 *     7   bytes that are no account: see the account below
 *     11  the first record is not a working engine; with engines lent apart, any of them is not
 *     12  a working engine stands behind another kind
 *     13  more than two working engines
 *     14  nothing is hauled
 *
 * RECORDS, little-endian; masses in tenths of a tonne, lengths in decimetres, speeds in km/h
 *
 * A vehicle, 24 bytes
 *     bytes  field                                              range
 *     0-7    vehicle number                                     1 to 999,999,999,999, and closes
 *     8-9    mass                                               1 to 2,500
 *     10-11  braked mass in V (German P)                        0 to 2,500
 *     12-13  braked mass in M (German G)                        0 to 2,500
 *     14-15  length                                             1 to 1,000
 *     16     axles                                              1 to 24
 *     17     kind: 0 wagon, 1 hauled engine, 2 working engine   0 to 2
 *     18     setting: 0 isolated, 1 M, 2 V, 3 R                 0 to 3
 *     19     joined to the brake pipe                           0 or 1
 *     20     permitted speed                                    1 to 200
 *     21     Matrossow brake, or no graduated release           0 or 1
 *     22     D load                                             0 or 1
 *     23     always 0                                           0
 *
 *   A number closes when its twelve digits, leading zeros counted, sum to a multiple of ten, those in odd places from the
 *   left being doubled first and their digits added: 218124712173 sums to 40. One that does not is out of range.
 *
 * A cross-border order, 24 bytes
 *     bytes  field                                              range
 *     0      the line's limit for ME120; 0 is a missing column  0 to 200
 *     1      the line's limit for ME100; 0 is a missing column  0 to 200
 *     2      the line's limit for MA100; 0 is a missing column  0 to 200
 *     3      the line's limit for MA90; 0 is a missing column   0 to 200
 *     4      the line's limit for MA80; 0 is a missing column   0 to 200
 *     5      category asked                                     1 to 5
 *     6      percentage in the German timetable                 0 to 200
 *     7      book: 0 cross-border                               0
 *     8-11   coupling limit (LRA)                               1 to 100,000
 *     12-15  admissible mass                                    1 to 100,000
 *     16-23  always 0                                           0
 *
 *   Its categories: 1 ME120/P120, 2 ME100/P100, 3 MA100/P100, 4 MA100/G100, 5 MA90/G90.
 *
 * A domestic order, 24 bytes
 *     bytes  field                                              range
 *     0      the line's limit for ME120; 0 is a missing column  0 to 200
 *     1      the line's limit for ME100; 0 is a missing column  0 to 200
 *     2      the line's limit for MA100; 0 is a missing column  0 to 200
 *     3      the line's limit for MA90; 0 is a missing column   0 to 200
 *     4      the line's limit for MA80; 0 is a missing column   0 to 200
 *     5      category asked                                     1 to 6
 *     6      always 0                                           0
 *     7      book: 1 domestic                                   1
 *     8-11   coupling limit (LRA)                               1 to 100,000
 *     12-15  admissible mass                                    1 to 100,000
 *     16     the line's limit for ME140; 0 is a missing column  0 to 200
 *     17     always 0                                           0
 *     18-19  always 0                                           0
 *     20-23  always 0                                           0
 *
 *   Its categories: 1 ME140, 2 ME120, 3 ME100, 4 MA100, 5 MA90, 6 MA80.
 *
 * The orders of a route: 1 to 64 orders one behind the other, a section each, all of one book and with the same category asked
 *
 * The speeds of a route, a byte a section
 *     k      speed on section k in the granted category, or 0 when none is granted
 *
 * A cross-border sheet, 32 bytes
 *     0      category asked
 *     1      category granted, or 0
 *     2      granted speed, or 0
 *     3      first common rule broken (15 to 23), or 0
 *     4-8    first rule broken by categories 1 to 5, or 0; all hold the common rule where there is one
 *     9      records with D load
 *     10-12  margin of the asked category in whole tonnes, rounded toward minus infinity, two's complement
 *     13     p of the asked category: the greater of its own percentage and the order's byte 6
 *     14     1 when 1 to 3 is asked and the hauled mass is above 1,200 t, else 0
 *     15     isolated records
 *     16-19  hauled mass
 *     20-23  train mass
 *     24-27  braked mass after deduction for the asked category, rounded down
 *     28-31  train length
 *
 * A domestic sheet, 33 bytes: six rule bytes, and what follows them a byte later
 *     0      category asked
 *     1      category granted, or 0
 *     2      granted speed, or 0
 *     3      always 0: no rule is common to all categories
 *     4-9    first rule broken by categories 1 to 6 (60 to 88), or 0
 *     10     records with D load
 *     11-13  margin of the asked category in whole tonnes, rounded toward minus infinity, two's complement
 *     14     p of the asked category, by the train's length
 *     15     1 when 1 to 3 is asked and the train is braked as a long locomotive, at any hauled mass, else 0
 *     16     isolated records
 *     17-20  hauled mass
 *     21-24  train mass
 *     25-28  braked mass for the asked category, rounded down
 *     29-32  train length
 *
 * An account of hauled vehicles in order, 128 bytes
 *     bytes  figure                                             ceiling
 *     0-3    count                                                  200
 *     4-7    mass                                               500,000
 *     8-11   V masses of records set to V                       500,000
 *     12-15  M masses of records set to M                       500,000
 *     16-19  length                                             200,000
 *     20-23  axles                                                4,800
 *     24-27  axles of records set to V                            4,800
 *     28-31  hauled engines                                         200
 *     32-35  records set to M                                       200
 *     36-39  isolated records                                       200
 *     40-43  D loads                                                200
 *     44-47  leading run of isolated                                200
 *     48-51  trailing run of isolated                               200
 *     52-55  longest run of isolated                                200
 *     56     an engine stands behind a wagon                          1
 *     57     rule 16 is broken: a record set to R                     1
 *     58     rule 17 is broken: a record not joined to the pipe       1
 *     59     rule 18 is broken: a wagon, byte 21 set, not isolated    1
 *     60-63  slowest speed                                          200
 *     64-68  settings of the first five, 4 where there is none        4 each
 *     69-72  length of records set to V                         200,000
 *     73-76  M masses of hauled engines set to M                500,000
 *     77-80  V masses of wagons set to M                        500,000
 *     81     a hauled engine is not set to M                          1
 *     82-127 not used                                                 0 each
 *
 *   Where an account is read, any other length than 128, or any figure, mark, setting or unused byte above its ceiling,
 *   is refusal 7. The empty account, which prskavon_account_of gives for no bytes, has 200 in byte 60 and 4 in bytes 64
 *   to 68; 128 zeros are an account too, but one whose slowest speed is 0. A figure once given its bytes
 *   never moves; figures to come take unused ones.
 *
 *   In cross-border categories 1 to 3 the length deduction (one percent for each begun 20 m above 500 m, at most ten) reads
 *   bytes 69-72 and no working engine's length; rule 22 reads bytes 16-19. An account that was kept from before bytes
 *   69-72 held this figure has 0 there, is taken, and is judged without the deduction, and an account joined from it has
 *   too little there: make both again from the records.
 *
 *   Domestic orders alone read bytes 73-81. An account that was kept from before they held these figures has 0 there and is
 *   taken. In ME it counts no M mass of hauled engines and no wagon set to M, and it breaks neither 71 nor 80; an account
 *   joined from it has too little there: make both again from the records. A cross-border sheet does not depend on them.
 */
#ifndef PRSKAVON_H
#define PRSKAVON_H

#include <stddef.h>
#include <stdint.h>

#ifdef __cplusplus
extern "C" {
#endif

#define PRSKAVON_VEHICLE 24
#define PRSKAVON_ORDER 24
#define PRSKAVON_SHEET 32          /* of a cross-border order */
#define PRSKAVON_DOMESTIC_SHEET 33 /* room enough for either */
#define PRSKAVON_ACCOUNT 128
#define PRSKAVON_SECTIONS 64 /* the most that a route may have */

/* The three parts of an answer. */
static inline unsigned prskavon_number(uint64_t answer) { return (unsigned)(answer % 256); }
static inline size_t prskavon_place(uint64_t answer) { return (size_t)(answer / 256 % 16777216); }
static inline unsigned prskavon_category(uint64_t answer) { return (unsigned)(answer / 4294967296); }

/* The sheet of a whole train, its working engines in front.
 * Refusals, the first that applies: 1, 2, 3, 4, 5, 11, 12, 13, 14. Done: 32 bytes of sheet are written, 33 of a domestic
 * order. */
uint64_t prskavon_sheet_of_train(const uint8_t *vehicles, size_t vehicles_len,
                                 const uint8_t *order, size_t order_len,
                                 uint8_t *sheet, size_t sheet_len);

/* The account of a portion of hauled vehicles; an empty portion is good.
 * Refusals, the first that applies: 1, 2, 3, 6, 5. Done: 128 bytes of account are written. */
uint64_t prskavon_account_of(const uint8_t *portion, size_t portion_len,
                             uint8_t *account, size_t account_len);

/* The account of two neighbouring portions, from their accounts, the front one left.
 * Refusals, the first that applies: 7, 2, 5. Done: 128 bytes of account are written. */
uint64_t prskavon_join(const uint8_t *left, size_t left_len,
                       const uint8_t *right, size_t right_len,
                       uint8_t *account, size_t account_len);

/* The sheet of one or two working engines, lent apart, with the account of what they haul.
 * Refusals, the first that applies: 1, 7, 2, 3, 4, 5, 11, 13, 14. Done: 32 bytes of sheet are written, 33 of a domestic
 * order. */
uint64_t prskavon_sheet_of_account(const uint8_t *engines, size_t engines_len,
                                   const uint8_t *hauled, size_t hauled_len,
                                   const uint8_t *order, size_t order_len,
                                   uint8_t *sheet, size_t sheet_len);

/* The vehicle that holds the speed, out of two portions in order, of any kind: the one with the least byte 20, the
 * first in the train at a tie. Answers how many bytes it wrote, and has no refusal numbers: 24, the vehicle's record;
 * or 0, and nothing is written, where both portions are empty, one is not whole good records, they pass 200 together,
 * or vehicle has fewer than 24 bytes. */
size_t prskavon_holds_the_speed(const uint8_t *front, size_t front_len,
                                const uint8_t *back, size_t back_len,
                                uint8_t *vehicle, size_t vehicle_len);

/* The route of a whole train, its working engines in front: one category for all sections, of the book that they name.
 * Granted is, among the asked number and greater ones with no rule broken on any section, the one whose slowest section
 * is the fastest, the lowest number at a tie. Category 0 of a done call: none is granted.
 * Refusals, the first that applies: 1, 2, 3, 4, 5, 11, 12, 13, 14. Done: a byte of speeds is written for each section. */
uint64_t prskavon_route_of_train(const uint8_t *vehicles, size_t vehicles_len,
                                 const uint8_t *orders, size_t orders_len,
                                 uint8_t *speeds, size_t speeds_len);

/* The same of one or two working engines, lent apart, with the account of what they haul.
 * Refusals, the first that applies: 1, 7, 2, 3, 4, 5, 11, 13, 14. Done: a byte of speeds is written for each section. */
uint64_t prskavon_route_of_account(const uint8_t *engines, size_t engines_len,
                                   const uint8_t *hauled, size_t hauled_len,
                                   const uint8_t *orders, size_t orders_len,
                                   uint8_t *speeds, size_t speeds_len);

#ifdef __cplusplus
}
#endif

#endif
