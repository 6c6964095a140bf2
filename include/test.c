/*
 * Calls every function of tarziloen.h, on cases T1, T5 and T7 of the rules, on
 * twins, for the desk and for other crews, on a bundle, on files of a book, on
 * the old form, on charges and on the refusals of a book in a buffer; prints each
 * answer that is another one.
 *
 * From the top folder, after `rt lib` in crates/export:
 *
 *     cc -std=c99 -Wall -Wextra -pedantic -Iinclude include/test.c crates/export/out/libexport.a -o target/test_c && target/test_c
 */
#include "tarziloen.h"

#include <stdio.h>
#include <string.h>

static int failures;

static void expect(const char *what, size_t got, size_t wanted)
{
    if (got != wanted) {
        printf("%s: %zu, not %zu\n", what, got, wanted);
        failures++;
    }
}

static void plan_and_check(void)
{
    const uint16_t ends[8] = {0, 3, 3, 6, 6, 0, 1, 4};
    uint16_t table[4] = {9, 9, 9, 9};
    uint16_t values[5] = {9, 9, 9, 9, 9};

    expect("short table", tarziloen_plan(8, 1, ends, 8, table, 3, values, 5), 6);
    expect("untouched table", table[0], 9);
    expect("plan", tarziloen_plan(8, 1, ends, 8, table, 4, values, 5), 0);
    expect("chain", values[0], 2);
    expect("match", values[1], 2);
    expect("pair", values[2], 2);
    expect("part", values[3], 0);
    expect("ceiling", values[4], 3);
    expect("request 0", table[0], 1);
    expect("request 3", table[3], 0);
    expect("check", tarziloen_check(8, 1, ends, 8, table, 4, values, 5), 0);
    expect("served", values[0], 2);
    table[3] = 1;
    expect("conflict", tarziloen_check(8, 1, ends, 8, table, 4, values, 5), 8);
    expect("first", values[0], 0);
    expect("second", values[1], 3);
}

static void spare_colour(void)
{
    const uint16_t ends[6] = {0, 1, 0, 1, 0, 1};
    uint16_t table[3] = {9, 9, 9};
    uint16_t values[5] = {9, 9, 9, 9, 9};

    expect("plan", tarziloen_plan(3, 2, ends, 6, table, 3, values, 5), 0);
    expect("chain", values[0], 2);
    expect("match", values[1], 1);
    expect("pair", values[2], 3);
    expect("part", values[3], 1);
    expect("ceiling", values[4], 3);
    expect("numbers 1, 2 and 3", table[0] + table[1] + table[2], 6);
    expect("check", tarziloen_check(3, 2, ends, 6, table, 3, values, 5), 0);
    expect("served", values[0], 3);
}

static void twins(void)
{
    const uint16_t ends[4] = {0, 4, 4, 0};
    uint16_t table[2] = {9, 9};
    uint16_t values[5] = {9, 9, 9, 9, 9};

    expect("plan", tarziloen_plan(5, 1, ends, 4, table, 2, values, 5), 0);
    expect("part", values[3], 1);
    expect("the older of twins, by the seam", table[0], 2);
    expect("the other, plain", table[1], 1);
    expect("check", tarziloen_check(5, 1, ends, 4, table, 2, values, 5), 0);
    expect("served", values[0], 2);
}

static void answer(void)
{
    const char text[] = "8 1 4\n0 3\n3 6\n6 0\n1 4\n";
    const char wanted[] = "plan 8 1 4\nchain 2 match 2 pair 2 used chain ceiling 3\n0 P 0\n1 P 0\n2 B\n3 B\n";
    const uint8_t *bytes = (const uint8_t *)text;
    uint8_t out[TARZILOEN_ANSWER_BYTES];
    size_t length = tarziloen_answer(bytes, strlen(text), out, sizeof out);

    expect("length of the answer", length, strlen(wanted));
    expect("its text", memcmp(out, wanted, strlen(wanted)) == 0, 1);
    expect("length of a refusal", tarziloen_answer(bytes, 3, out, sizeof out), 11);
    expect("refusal", memcmp(out, "refused 21\n", 11) == 0, 1);
    expect("short output", tarziloen_answer(bytes, strlen(text), out, sizeof out - 1), 0);
}

static void book(void)
{
    uint8_t buffer[TARZILOEN_BOOK_BYTES] = {0};
    uint8_t before[TARZILOEN_BOOK_BYTES];
    uint16_t values[4] = {0};

    expect("open", tarziloen_book_open(4, 1, buffer, sizeof buffer, values, 4), 0);
    expect("length of a new book", values[0], 512);
    expect("{0,2}", tarziloen_book_grant(buffer, sizeof buffer, 512, 0, 2, 0, 0, 0, values, 4), 0);
    expect("its serial", values[0], 1);
    expect("length of a book", values[1], 1024);
    expect("{2,3}", tarziloen_book_grant(buffer, sizeof buffer, 1024, 2, 3, 0, 0, 0, values, 4), 0);
    expect("its serial", values[0], 2);
    memcpy(before, buffer, sizeof buffer);
    expect("{1,3}", tarziloen_book_grant(buffer, sizeof buffer, 1024, 1, 3, 0, 0, 0, values, 4), 11);
    expect("confirm 1", tarziloen_book_confirm(buffer, sizeof buffer, 1024, 1, values, 4), 23);
    expect("same buffer", memcmp(buffer, before, sizeof buffer) == 0, 1);
    expect("remove 1", tarziloen_book_remove(buffer, sizeof buffer, 1024, 1, values, 4), 0);
    expect("same length", values[0], 1024);
    expect("remove 1 again", tarziloen_book_remove(buffer, sizeof buffer, 1024, 1, values, 4), 15);
    expect("{0,1} too early", tarziloen_book_grant(buffer, sizeof buffer, 1024, 0, 1, 0, 0, 0, values, 4), 11);
    expect("link 0", tarziloen_book_holder(buffer, 1024, 0, 0, 0, values, 4), 0);
    expect("held by an order", values[0], 2);
    expect("which is pending", values[1], 1);
    expect("confirm 1", tarziloen_book_confirm(buffer, sizeof buffer, 1024, 1, values, 4), 0);
    expect("confirm 1 again", tarziloen_book_confirm(buffer, sizeof buffer, 1024, 1, values, 4), 24);
    expect("confirm 3", tarziloen_book_confirm(buffer, sizeof buffer, 1024, 3, values, 4), 14);
    expect("{0,2} seam", tarziloen_book_grant(buffer, sizeof buffer, 1024, 0, 2, 1, 0, 0, values, 4), 11);
    expect("{0,1}", tarziloen_book_grant(buffer, sizeof buffer, 1024, 0, 1, 0, 0, 0, values, 4), 0);
    expect("its serial", values[0], 3);
    expect("show 1", tarziloen_book_show(buffer, 1024, 1, 0, values, 4), 15);
    expect("show 4", tarziloen_book_show(buffer, 1024, 4, 0, values, 4), 14);
    expect("link 1", tarziloen_book_holder(buffer, 1024, 1, 0, 0, values, 4), 0);
    expect("free", values[0] + values[1], 0);
    expect("link 4", tarziloen_book_holder(buffer, 1024, 4, 0, 0, values, 4), 16);
    expect("colour 1", tarziloen_book_holder(buffer, 1024, 0, 1, 0, values, 4), 10);
}

/* What a crew other than the desk learns of its own orders and of others, live and pending. */
static void crews(void)
{
    uint8_t buffer[TARZILOEN_BOOK_BYTES] = {0};
    uint8_t before[TARZILOEN_BOOK_BYTES];
    uint16_t values[4] = {0};

    expect("open", tarziloen_book_open(4, 1, buffer, sizeof buffer, values, 4), 0);
    expect("{0,2} to 999", tarziloen_book_grant(buffer, sizeof buffer, 512, 0, 2, 0, 0, 999, values, 4), 0);
    expect("{2,3}", tarziloen_book_grant(buffer, sizeof buffer, 1024, 2, 3, 0, 0, 0, values, 4), 0);
    memcpy(before, buffer, sizeof buffer);
    values[0] = 7;
    expect("{3,0} to 1000", tarziloen_book_grant(buffer, sizeof buffer, 1024, 3, 0, 1, 0, 1000, values, 4), 26);
    expect("{1,3} to 999", tarziloen_book_grant(buffer, sizeof buffer, 1024, 1, 3, 0, 0, 999, values, 4), 11);
    expect("{1,3} to 65535", tarziloen_book_grant(buffer, sizeof buffer, 1024, 1, 3, 0, 0, 65535, values, 4), 26);
    expect("colour 1 to 1000", tarziloen_book_grant(buffer, sizeof buffer, 1024, 1, 3, 0, 1, 1000, values, 4), 10);
    expect("show 2 to 999", tarziloen_book_show(buffer, 1024, 2, 999, values, 4), 14);
    expect("show 0 to 1000", tarziloen_book_show(buffer, 1024, 0, 1000, values, 4), 26);
    expect("link 4 for 999", tarziloen_book_holder(buffer, 1024, 4, 1, 999, values, 4), 16);
    expect("colour 1 for 999", tarziloen_book_holder(buffer, 1024, 3, 1, 999, values, 4), 10);
    expect("untouched values", values[0], 7);
    expect("same buffer", memcmp(buffer, before, sizeof buffer) == 0, 1);
    expect("link 1 for 999", tarziloen_book_holder(buffer, 1024, 1, 0, 999, values, 4), 0);
    expect("held by its own", values[0], 2);
    expect("which is 1", values[1], 1);
    expect("link 2 for 999", tarziloen_book_holder(buffer, 1024, 2, 0, 999, values, 4), 0);
    expect("held", values[0], 1);
    expect("no serial", values[1], 0);
    expect("show 1 to 999", tarziloen_book_show(buffer, 1024, 1, 999, values, 4), 0);
    expect("a", values[0], 0);
    expect("b", values[1], 2);
    expect("way and colour", values[2] + values[3], 0);
    expect("remove 1", tarziloen_book_remove(buffer, sizeof buffer, 1024, 1, values, 4), 0);
    expect("show 1 to 999", tarziloen_book_show(buffer, 1024, 1, 999, values, 4), 14);
    expect("show 1", tarziloen_book_show(buffer, 1024, 1, 0, values, 4), 15);
    expect("link 1 for 999", tarziloen_book_holder(buffer, 1024, 1, 0, 999, values, 4), 0);
    expect("held", values[0], 1);
}

/* A file from before a removal, and those from behind it, under the revisions of both. */
static void revisions(void)
{
    uint8_t buffer[TARZILOEN_BOOK_BYTES] = {0};
    uint8_t early[1024];
    uint16_t values[3] = {0, 0, 7};

    expect("open", tarziloen_book_open(4, 1, buffer, sizeof buffer, values, 2), 0);
    expect("{0,2}", tarziloen_book_grant(buffer, sizeof buffer, 512, 0, 2, 0, 0, 7, values, 2), 0);
    memcpy(early, buffer, sizeof early);
    expect("remove 1", tarziloen_book_remove(buffer, sizeof buffer, 1024, 1, values, 2), 0);
    expect("the later file", tarziloen_book_load(buffer, 1024, 2, values, 3), 0);
    expect("its revision", values[0] + 65536u * values[1], 2);
    expect("no third value", values[2], 7);
    expect("it is not 3", tarziloen_book_load(buffer, 1024, 3, values, 2), 28);
    expect("nor 65538", tarziloen_book_load(buffer, 1024, 65538, values, 2), 28);
    expect("the early file", tarziloen_book_load(early, 1024, 2, values, 2), 28);
    expect("on its own", tarziloen_book_load(early, 1024, 1, values, 2), 0);
    expect("its revision", values[0], 1);
    expect("confirm 1", tarziloen_book_confirm(buffer, sizeof buffer, 1024, 1, values, 2), 0);
    expect("a shorter form", values[0], 512);
    expect("the last file", tarziloen_book_load(buffer, 512, 2, values, 2), 0);
    expect("the same revision", values[0], 2);
    early[4] ^= 1;
    expect("changed byte", tarziloen_book_load(early, 1024, 9, values, 2), 19);
}

/* From the old form and back to it. */
static void conversions(void)
{
    uint8_t buffer[TARZILOEN_BOOK_BYTES] = {0};
    uint8_t old[TARZILOEN_OLD_BOOK_BYTES];
    uint8_t copy[TARZILOEN_BOOK_BYTES];
    uint16_t values[2] = {0};

    memset(old, 9, sizeof old);
    memset(copy, 9, sizeof copy);
    expect("open", tarziloen_book_open(4, 1, buffer, sizeof buffer, values, 2), 0);
    expect("{0,2}", tarziloen_book_grant(buffer, sizeof buffer, 512, 0, 2, 0, 0, 0, values, 2), 0);
    expect("short buffer", tarziloen_book_convert_back(buffer, 1024, old, 1023, values, 2), 17);
    expect("untouched buffer", old[0], 9);
    expect("back", tarziloen_book_convert_back(buffer, 1024, old, sizeof old, values, 2), 0);
    expect("length", values[0], 1024);
    expect("bytes past it", old[1024], 9);
    expect("it is not loaded", tarziloen_book_load(old, 1024, 0, values, 2), 20);
    expect("nor converted back", tarziloen_book_convert_back(old, 1024, copy, sizeof copy, values, 2), 20);
    expect("a book is not old", tarziloen_book_convert(buffer, 1024, copy, sizeof copy, values, 2), 20);
    expect("short buffer", tarziloen_book_convert(old, 1024, copy, 1023, values, 2), 17);
    expect("too long", tarziloen_book_convert(copy, 5632, buffer, sizeof buffer, values, 2), 18);
    expect("untouched buffer", copy[0], 9);
    expect("there", tarziloen_book_convert(old, 1024, copy, sizeof copy, values, 2), 0);
    expect("length", values[0], 1024);
    expect("the same book", memcmp(copy, buffer, 1024) == 0, 1);
    expect("{2,3} to 1", tarziloen_book_grant(copy, sizeof copy, 1024, 2, 3, 0, 0, 1, values, 2), 0);
    expect("a crew", tarziloen_book_convert_back(copy, 1024, old, 0, values, 2), 27);
    expect("remove 1", tarziloen_book_remove(buffer, sizeof buffer, 1024, 1, values, 2), 0);
    expect("pending", tarziloen_book_convert_back(buffer, 1024, old, sizeof old, values, 2), 27);
}

static void preview(void)
{
    /* Line 1 wants link 1, which line 0 would hold; line 2, to no crew and on a link that is held, is not looked at. */
    const uint16_t lines[15] = {1, 2, 0, 0, 7, 3, 1, 0, 0, 999, 0, 1, 0, 0, 1000};
    const uint16_t many[85] = {9};
    uint8_t buffer[TARZILOEN_BOOK_BYTES] = {0};
    uint8_t before[TARZILOEN_BOOK_BYTES];
    uint16_t values[TARZILOEN_PREVIEW_VALUES] = {0};

    expect("open", tarziloen_book_open(4, 1, buffer, sizeof buffer, values, 19), 0);
    expect("{0,1}", tarziloen_book_grant(buffer, sizeof buffer, 512, 0, 1, 0, 0, 0, values, 19), 0);
    memcpy(before, buffer, sizeof buffer);
    expect("line 0 alone", tarziloen_book_preview(buffer, 1024, lines, 5, values, 19), 0);
    expect("one serial", values[0], 1);
    expect("no line turned down", values[1], 65535);
    expect("no ground", values[2], 0);
    expect("its serial", values[3], 2);
    expect("line 1 alone", tarziloen_book_preview(buffer, 1024, lines + 5, 5, values, 19), 0);
    expect("no line turned down", values[1], 65535);
    expect("all lines", tarziloen_book_preview(buffer, 1024, lines, 15, values, 19), 0);
    expect("one serial", values[0], 1);
    expect("line 1", values[1], 1);
    expect("held", values[2], 11);
    expect("serial of line 0", values[3], 2);
    expect("line 2 alone", tarziloen_book_preview(buffer, 1024, lines + 10, 5, values, 3), 0);
    expect("no serial", values[0], 0);
    expect("line 0", values[1], 0);
    expect("above 999", values[2], 26);
    values[0] = 7;
    expect("no line", tarziloen_book_preview(buffer, 1024, lines, 0, values, 19), 22);
    expect("4 entries", tarziloen_book_preview(buffer, 1024, lines, 4, values, 19), 22);
    expect("17 lines", tarziloen_book_preview(buffer, 1024, many, 85, values, 19), 22);
    expect("untouched values", values[0], 7);
    expect("16 lines", tarziloen_book_preview(buffer, 1024, many, 80, values, 19), 0);
    expect("same buffer", memcmp(buffer, before, sizeof buffer) == 0, 1);
    expect("{1,2}", tarziloen_book_grant(buffer, sizeof buffer, 1024, 1, 2, 0, 0, 0, values, 19), 0);
    expect("the serial of the preview", values[0], 2);
}

/* The case of the rules: order 1 on link 0 of three, order 2 on the two others. */
static void charges(void)
{
    const uint32_t rates[4] = {30, 20, 10, 0};
    const uint32_t high[3] = {100000, 100000, 100001};
    uint32_t lengths[4] = {60000, 30000, 30001, 1};
    uint8_t buffer[TARZILOEN_BOOK_BYTES] = {0};
    uint16_t values[2] = {0};
    uint64_t cents = 7;

    expect("open", tarziloen_book_open(3, 2, buffer, sizeof buffer, values, 2), 0);
    expect("{0,1} plain", tarziloen_book_grant(buffer, sizeof buffer, 512, 0, 1, 0, 0, 7, values, 2), 0);
    expect("{0,1} seam", tarziloen_book_grant(buffer, sizeof buffer, 1024, 0, 1, 1, 1, 0, values, 2), 0);
    expect("charge for 3", tarziloen_book_charge(buffer, 1024, 3, lengths, 2, rates, 2, &cents), 14);
    expect("two lengths", tarziloen_book_charge(buffer, 1024, 1, lengths, 2, rates, 2, &cents), 29);
    expect("four lengths", tarziloen_book_charge_all(buffer, 1024, lengths, 4, rates, 2, &cents), 29);
    expect("two rates", tarziloen_book_charge(buffer, 1024, 1, lengths, 3, rates, 2, &cents), 30);
    expect("four rates", tarziloen_book_charge_all(buffer, 1024, lengths, 3, rates, 4, &cents), 30);
    expect("a rate above 100,000", tarziloen_book_charge(buffer, 1024, 1, lengths, 3, high, 3, &cents), 30);
    expect("untouched cents", cents, 7);
    expect("charge for 1", tarziloen_book_charge(buffer, 1024, 1, lengths, 3, rates, 3, &cents), 0);
    expect("60,000 m", cents, 1700);
    expect("charge for 2", tarziloen_book_charge(buffer, 1024, 2, lengths, 3, rates, 3, &cents), 0);
    expect("60,001 m", cents, 1701);
    expect("charge for both", tarziloen_book_charge_all(buffer, 1024, lengths, 3, rates, 3, &cents), 0);
    expect("together", cents, 3401);
    lengths[2] = 0;
    expect("a link of no length", tarziloen_book_charge(buffer, 1024, 1, lengths, 3, rates, 3, &cents), 29);
    expect("remove 1", tarziloen_book_remove(buffer, sizeof buffer, 1024, 1, values, 2), 0);
    expect("charge for 1", tarziloen_book_charge(buffer, 1024, 1, lengths, 3, rates, 3, &cents), 15);
    lengths[2] = 30000;
    expect("charge for all", tarziloen_book_charge_all(buffer, 1024, lengths, 3, rates, 3, &cents), 0);
    expect("order 2 alone", cents, 1700);
}

static void refusals(void)
{
    const uint16_t lines[3] = {9, 9, 9};
    const uint32_t none[1] = {0};
    uint8_t buffer[1024] = {7};
    uint16_t values[2] = {0};
    uint64_t cents = 0;

    expect("2 nodes", tarziloen_book_open(2, 1, buffer, sizeof buffer, values, 2), 1);
    expect("129 colours", tarziloen_book_open(4, 129, buffer, sizeof buffer, values, 2), 2);
    expect("short buffer", tarziloen_book_open(4, 1, buffer, 511, values, 2), 17);
    expect("untouched buffer", buffer[0], 7);
    expect("open", tarziloen_book_open(4, 1, buffer, sizeof buffer, values, 2), 0);
    expect("no room for a circuit", tarziloen_book_grant(buffer, 1023, 512, 0, 2, 0, 0, 0, values, 2), 17);
    expect("nor for a crew's", tarziloen_book_grant(buffer, 1023, 512, 0, 2, 0, 0, 1, values, 2), 17);
    expect("length past the buffer", tarziloen_book_remove(buffer, 511, 512, 1, values, 2), 18);
    expect("length past the buffer", tarziloen_book_confirm(buffer, 511, 512, 1, values, 2), 18);
    expect("length of no form", tarziloen_book_show(buffer, 511, 1, 1000, values, 2), 18);
    expect("length of no form", tarziloen_book_preview(buffer, 511, lines, 3, values, 2), 18);
    expect("length of no form", tarziloen_book_load(buffer, 511, 9, values, 2), 18);
    expect("length of no form", tarziloen_book_charge(buffer, 511, 0, none, 0, none, 0, &cents), 18);
    buffer[4] ^= 1;
    expect("changed byte", tarziloen_book_holder(buffer, 512, 0, 0, 1000, values, 2), 19);
    expect("changed byte", tarziloen_book_preview(buffer, 512, lines, 3, values, 2), 19);
    expect("changed byte", tarziloen_book_grant(buffer, sizeof buffer, 512, 0, 0, 2, 9, 1000, values, 2), 19);
    expect("changed byte", tarziloen_book_remove(buffer, sizeof buffer, 512, 0, values, 2), 19);
    expect("changed byte", tarziloen_book_confirm(buffer, sizeof buffer, 512, 0, values, 2), 19);
    expect("changed byte", tarziloen_book_charge_all(buffer, 512, none, 1, none, 1, &cents), 19);
}

int main(void)
{
    plan_and_check();
    spare_colour();
    twins();
    answer();
    book();
    crews();
    revisions();
    conversions();
    preview();
    charges();
    refusals();
    printf(failures == 0 ? "ok\n" : "failed\n");
    return failures != 0;
}
