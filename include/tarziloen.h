/*
 * Tarziloen, the ring planner and ring book: the C interface of the library
 * that `rt lib` writes to crates/export/out/libexport.a.
 *
 * A ring has n nodes, 0 to n-1, and w colours, 0 to w-1. Link i joins node i
 * and node i+1; link n-1, the seam, joins node n-1 and node 0. A request or a
 * circuit joins two different nodes; a is the smaller and b the larger. Its
 * plain way uses links a to b-1, its seam way all the others.
 *
 * Every function takes any numbers and any bytes at all: it stays inside the
 * memory lent to it, always ends, and is proved to answer what its definition
 * says. The library keeps no state and needs no heap; of the C library it uses
 * memcpy, memmove and memset. It works on the caller's stack: less than 640 KB in
 * tarziloen_plan and tarziloen_answer, less than 64 KB in the others.
 *
 * A slice is passed as a pointer and the number of its entries. The pointer is
 * aligned and not NULL, even where that number is 0. What is written through
 * one pointer must not overlap what is lent through another.
 *
 * All functions but tarziloen_answer give 0 if the call is accepted, and
 * otherwise the number of the first ground that turns it down:
 *
 *    1  n is not 3 to 256
 *    2  w is not 1 to 128
 *    3  more than 512 requests, or an odd number of ends
 *    4  an end is n or more
 *    5  the two ends are equal
 *    6  the plan table has fewer entries than there are requests
 *    7  a fate number is above 2w
 *    8  two requests of one colour share a link
 *    9  the way is not 0 (plain) or 1 (seam)
 *   10  the colour is w or more
 *   11  the colour is held on a link of the way
 *   12  512 circuits are live or pending, and the book has no other place
 *   13  serial 65,535 has been given
 *   14  the serial is 0 or was never given; to a crew other than the desk, it
 *       is that of no live order of its own
 *   15  the order was removed
 *   16  the link is n or more
 *   17  the buffer is shorter than the stored form
 *   18  the length is 0, not a multiple of 512, above 7,168 (5,120 in the old
 *       form), or above the buffer's own
 *   19  a block has a wrong number or check
 *   20  the bytes break the stored form, a limit, the rising serials from 1
 *       up to the grants so far, or feasibility
 *   21  the text is longer than 8,192 bytes or not of the stated form; only
 *       printed, by tarziloen_answer
 *   22  no line or more than 16, or a number of entries that is no multiple of
 *       five; in tarziloen_book_preview
 *   23  the circuit is live; in tarziloen_book_confirm
 *   24  the order was already confirmed; in tarziloen_book_confirm
 *   25  given by no function here: a record that is pending or whose crew is
 *       not 0 has no old form
 *   26  the crew is above 999
 *   27  a record that is pending or whose crew is not 0 cannot be converted
 *       back; in tarziloen_book_convert_back
 *   28  the revision is below the lowest; in tarziloen_book_load
 *   29  not n lengths, or a length that is not 1 to 1,000,000, on the way or
 *       not; in tarziloen_book_charge and tarziloen_book_charge_all
 *   30  not three rates, or a rate above 100,000; in the same two
 *
 * A refused call changes neither plan table nor buffer. The values of a call go
 * to the first entries of `values`; where it has fewer, as many as fit are
 * written. A refusal writes no values but these: in tarziloen_plan and
 * tarziloen_check 4, 5 and 7 give the request's number, and 8 both requests.
 * A refused charge leaves `*cents` as it is.
 */
#ifndef TARZILOEN_H
#define TARZILOEN_H

#include <stddef.h>
#include <stdint.h>

#ifdef __cplusplus
extern "C" {
#endif

/* The longest stored form of a book, in bytes, and the longest old form. */
#define TARZILOEN_BOOK_BYTES 7168
#define TARZILOEN_OLD_BOOK_BYTES 5120

/* The most values of tarziloen_book_preview, those of 16 serials. */
#define TARZILOEN_PREVIEW_VALUES 19

/* The longest output of tarziloen_answer, in bytes, and its longest text. */
#define TARZILOEN_ANSWER_BYTES 8192

/*
 * Plans a list of m requests, 0 to 512 of them.
 *
 * In: n, w; `ends`, the two ends of each request in turn, in any order.
 * Out: the first m entries of `table`, a fate number for each request: 0
 * blocked, 1+2c plain in colour c, 2+2c seam in colour c; the entries behind
 * them stay. Values: the requests that the chain part serves, the size of a
 * maximum matching, the requests that the pair part serves, the part that the
 * plan is (0 chain, 1 pair), and the ceiling: no feasible plan serves more.
 * Where a pair of the pair part joins the same two nodes, the request with the
 * lower number goes by the way with fewer links, plain on a tie, and the other
 * by the opposite way.
 * Refused: 1 to 6.
 */
uint16_t tarziloen_plan(uint16_t n, uint16_t w,
                        const uint16_t *ends, size_t ends_length,
                        uint16_t *table, size_t table_length,
                        uint16_t *values, size_t values_length);

/*
 * Checks a plan: whether no two requests of one colour share a link.
 *
 * In: n, w and `ends` as in tarziloen_plan; the first m entries of `table`, the
 * fate numbers. Values: the number of requests served.
 * Refused: 1 to 8.
 */
uint16_t tarziloen_check(uint16_t n, uint16_t w,
                         const uint16_t *ends, size_t ends_length,
                         const uint16_t *table, size_t table_length,
                         uint16_t *values, size_t values_length);

/*
 * The planning program as a function: what it prints for a text.
 *
 * In: `text`, a line "n w m", then m lines of two ends.
 * Out: the front of `out`, a line "plan n w m", a line of counts and a line for
 * each request, or the one line "refused" with the number of the ground. Gives
 * the number of bytes written, at most 8,192; an `out` of fewer than 8,192
 * bytes gets nothing, and the result is 0.
 */
size_t tarziloen_answer(const uint8_t *text, size_t text_length,
                        uint8_t *out, size_t out_length);

/*
 * A book lies in a buffer of the caller's, in its stored form, which has a
 * multiple of 512 and at most 7,168 bytes. A change reads it there, acts, and
 * writes it back; the bytes behind the stored form stay as they are. A buffer
 * of TARZILOEN_BOOK_BYTES has room for every book.
 *
 * A record of a book is live or pending. A removal leaves it pending: its place
 * and its colour stay held until the pull of its patch is confirmed. To the
 * desk a removed order is 15, confirmed or not; the confirmation of one that
 * has no record any more is 24.
 *
 * A record has a crew, 0 to 999, and 0 is the desk. A grant names the crew of
 * the circuit, and a question the crew that asks. The desk reads every order.
 * Another crew reads its own live orders: every other serial is to it as one
 * that was never given, and of a colour that any other order holds, a pending
 * one of its own too, it learns only that it is held. Removals and
 * confirmations are the desk's.
 *
 * A book has a revision: twice the grants so far less the live orders. It rises
 * by one with each grant and each removal, and stays with a confirmation. Of
 * the files of one book, from its opening on and with no earlier file put in
 * its place, tarziloen_book_load takes none that shows an order which was
 * removed by the revision that it is told. Every other call takes a book of any
 * revision.
 *
 * The old form has no room for states and crews, and at most 5,120 bytes: in it
 * every record is live and has crew 0. Two calls convert a book from it and
 * back to it. In every other call, bytes in the old form are 20.
 */

/*
 * Opens a book on a ring of n nodes with w colours.
 *
 * Out: `buffer`, the book. Values: the length of its stored form.
 * Refused: 1, 2, 17.
 */
uint16_t tarziloen_book_open(uint16_t n, uint16_t w,
                             uint8_t *buffer, size_t buffer_length,
                             uint16_t *values, size_t values_length);

/*
 * Grants a circuit between the nodes x and y, in any order, to a crew.
 *
 * In: the first `length` bytes of `buffer`, the book; the way, 0 plain or
 * 1 seam; the colour; the crew. Out: `buffer`, the book with the circuit.
 * Values: the serial of the order, which rises from 1 and is never given twice;
 * the length of the stored form.
 * Refused: 18, 19, 20, then 4, 5, 9, 10, 26, 11, 12, 13, then 17.
 */
uint16_t tarziloen_book_grant(uint8_t *buffer, size_t buffer_length,
                              size_t length,
                              uint16_t x, uint16_t y, uint16_t way, uint16_t colour,
                              uint16_t crew,
                              uint16_t *values, size_t values_length);

/*
 * Removes an order, which leaves its record pending.
 *
 * In: the first `length` bytes of `buffer`, the book; the serial of the order.
 * Out: `buffer`, the book with the order pending. Values: the length of the
 * stored form, which is what it was.
 * Refused: 18, 19, 20, then 14, 15.
 */
uint16_t tarziloen_book_remove(uint8_t *buffer, size_t buffer_length,
                               size_t length,
                               uint16_t serial,
                               uint16_t *values, size_t values_length);

/*
 * Confirms that the patch of a removed order is pulled, which frees its place
 * and its colour on every link of its way.
 *
 * In: the first `length` bytes of `buffer`, the book; the serial of the order.
 * Out: `buffer`, the book without it. Values: the length of the stored form.
 * Refused: 18, 19, 20, then 14, 23 for a live order, 24 for one that is
 * confirmed already.
 */
uint16_t tarziloen_book_confirm(uint8_t *buffer, size_t buffer_length,
                                size_t length,
                                uint16_t serial,
                                uint16_t *values, size_t values_length);

/*
 * Shows an order to a crew.
 *
 * In: `bytes`, the book, no byte more; the serial of the order; the crew that
 * asks. Values: a, b, the way (0 plain, 1 seam), the colour.
 * Refused: 18, 19, 20, then 26, 14, 15. A crew other than the desk gets 14 for
 * every serial that is not a live order of its own, and never 15.
 */
uint16_t tarziloen_book_show(const uint8_t *bytes, size_t bytes_length,
                             uint16_t serial, uint16_t crew,
                             uint16_t *values, size_t values_length);

/*
 * Says to a crew who holds a colour on a link.
 *
 * In: `bytes`, the book, no byte more; the link; the colour; the crew that
 * asks. Values: 0 if the colour is free, 1 if it is held, 2 if it is held by an
 * order that the crew may read, which is its own live one, for the desk any;
 * then the serial of that order, or 0.
 * Refused: 18, 19, 20, then 26, 16, 10.
 */
uint16_t tarziloen_book_holder(const uint8_t *bytes, size_t bytes_length,
                               uint16_t link, uint16_t colour, uint16_t crew,
                               uint16_t *values, size_t values_length);

/*
 * Tries 1 to 16 grants: says what they would answer on a copy of the book, one
 * after another, up to the first that would be turned down; later lines are not
 * looked at. The book stays as it is.
 *
 * In: `bytes`, the book, no byte more; `lines`, five entries for each line in
 * turn, as in tarziloen_book_grant: x, y, way (0 plain, 1 seam), colour, crew.
 * Values: the number of serials; the line, counted from 0, that would be turned
 * down, and the number of its ground, or 65,535 and 0 if no line would be; then
 * the serials that the lines before it, or all of them, would get, in order.
 * TARZILOEN_PREVIEW_VALUES entries have room for every answer.
 * Refused: 18, 19, 20, then 22, before any line is looked at. A line's own
 * ground, 4, 5, 9, 10, 26, 11, 12, 13, is among the values of an accepted call.
 */
uint16_t tarziloen_book_preview(const uint8_t *bytes, size_t bytes_length,
                                const uint16_t *lines, size_t lines_length,
                                uint16_t *values, size_t values_length);

/*
 * Says whether bytes are a stored book of some revision or a later one.
 *
 * In: `bytes`, the book, no byte more; the lowest revision that is taken, where
 * 0 takes every book. Values: the low 16 bits of the book's revision, then the
 * rest of it, 0 or 1: the revision is the first plus 65,536 times the second.
 * Refused: 18, 19, 20, then 28 for a revision below the lowest.
 */
uint16_t tarziloen_book_load(const uint8_t *bytes, size_t bytes_length,
                             uint32_t lowest,
                             uint16_t *values, size_t values_length);

/*
 * Converts a book from the old form.
 *
 * In: `bytes`, the book in the old form, no byte more. Out: `buffer`, the book,
 * all of its records live and with crew 0. Values: the length of its stored
 * form.
 * Refused: 18, above 5,120 too, 19, 20, then 17.
 */
uint16_t tarziloen_book_convert(const uint8_t *bytes, size_t bytes_length,
                                uint8_t *buffer, size_t buffer_length,
                                uint16_t *values, size_t values_length);

/*
 * Converts a book back to the old form; a book that was converted from it gets
 * the same bytes again. A buffer of TARZILOEN_OLD_BOOK_BYTES has room for every
 * book.
 *
 * In: `bytes`, the book, no byte more. Out: `buffer`, the book in the old form.
 * Values: its length.
 * Refused: 18, 19, 20, then 27, 17.
 */
uint16_t tarziloen_book_convert_back(const uint8_t *bytes, size_t bytes_length,
                                     uint8_t *buffer, size_t buffer_length,
                                     uint16_t *values, size_t values_length);

/*
 * Charges for an order, by the metres of the links that its way uses. A metre
 * up to 50,000 costs the first rate, one from there to 200,000 the second, and
 * one beyond the third; the sum is rounded up to a whole cent, once.
 *
 * In: `bytes`, the book, no byte more; the serial of the order; `lengths`, the
 * length of links 0 to n-1 in metres; `rates`, three rates in cents per
 * kilometre. Out: `*cents`, at most 25,500,000,000.
 * Refused: 18, 19, 20, then 14, 15 for a removed order, then 29, 30.
 */
uint16_t tarziloen_book_charge(const uint8_t *bytes, size_t bytes_length,
                               uint16_t serial,
                               const uint32_t *lengths, size_t lengths_length,
                               const uint32_t *rates, size_t rates_length,
                               uint64_t *cents);

/*
 * Charges for all live orders: the sum of what tarziloen_book_charge gives for
 * each. Pending records pay nothing.
 *
 * In: `bytes`, `lengths` and `rates` as there. Out: `*cents`, at most
 * 13,056,000,000,000.
 * Refused: 18, 19, 20, then 29, 30.
 */
uint16_t tarziloen_book_charge_all(const uint8_t *bytes, size_t bytes_length,
                                   const uint32_t *lengths, size_t lengths_length,
                                   const uint32_t *rates, size_t rates_length,
                                   uint64_t *cents);

#ifdef __cplusplus
}
#endif

#endif
