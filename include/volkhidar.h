/*
 * Volkhidar: the smallest disk that holds a letter's points, exact and proved.
 *
 * Build the library with `rt lib` in crates/volkhidar and link out/libvolkhidar.a of that folder; nothing else is needed. README.md has
 * one command that builds and runs an example. The library is for x86-64 Linux.
 *
 * The functions are proved against their definitions for every input that this header allows, and for every such input they return.
 *
 * What they share
 *
 *   Memory      Nothing is allocated, kept or freed, and there is no global state: every byte belongs to the caller, and a pointer is
 *               used only during the call. Calls from several threads at once are safe as long as they do not write to the same
 *               memory. The stack should have 64 KiB free: the deepest call takes about 41 KiB, read off the compiled code; the proofs
 *               do not cover the stack.
 *   Pointers    A pointer and the length behind it describe one run of memory; the length counts elements. A pointer is never null,
 *               not even with length 0, and is aligned for its type. In one call, memory that is written overlaps no other argument.
 *               These are the only things a caller owes; everything else is checked.
 *   Refusals    An answer begins with `refusal`: 0, or the number of the first rule that the input breaks. Then every other field of
 *               the answer is 0, and all memory lent to the call is as it was before.
 *
 *                  1   description or sheet over 65,535 bytes
 *                  2   a line that is neither blank nor a point
 *                  3   a point outside the em box; a traced point whose square leaves it
 *                  4   more than 4,096 points; more than 1,024 traced points
 *                  5   no point; no traced point
 *                  6   sheet shorter than its directory, or its pairs break the rules
 *                  7   a record of another length than 53 or 45 bytes, with a count that disagrees with its repeats, or not valid;
 *                      a disk and support set that a valid record of 53 bytes could not hold
 *                  8   a list under 8,192 numbers given to volkhidar_load or volkhidar_append_point; a buffer under 53 bytes given to
 *                      volkhidar_write_record or volkhidar_record_of; for the run of a sheet, a buffer under 53 bytes for each glyph
 *                      or a list with fewer places than glyphs; for what a sheet will take, such a list
 *                  9   a point list of odd length; a list of traced points whose length is not a multiple of three
 *                 10   glyph k not below the count
 *                 11   a NaN, an infinity or a float with a fraction in x or y of a drawing program's point
 *                 12   a chosen point that is not in the list
 *                 13   no disk holds the list with the chosen points on its boundary
 *                 14   a traced point whose t is outside 0 to 50
 *                 15   points that do not belong to their disk, in a record or beside it
 *                 16   only in the list that volkhidar_run_sheet fills: a glyph that needs more tests than are left, or comes behind
 *                      one that does
 *                 17   an allowance of 2^60 tests or more
 *
 *   Belonging   The points of a support set belong to a disk if their smallest disk is this disk, and with any one of them left out it is
 *               another, or there is none because no point is left. So one point belongs to the disk of radius 0 that it is itself; two
 *               belong to the disk of which they are the ends of a diameter; three belong to the disk that has them all on its
 *               boundary if their triangle is acute (a right angle's point is one too many); and to no other disk.
 *               volkhidar_whole_radius, volkhidar_preview, volkhidar_write_record and volkhidar_read_record test this, after all
 *               else, and refuse with 15. So a disk and set that one of them takes, and a record that is read, are what
 *               volkhidar_smallest_disk gives for the named points alone; and whatever that gives, they take.
 *   Records     A record has 53 bytes. One of 45 bytes is of an em box of 1,000 units: it has 8 bytes for s in place of 16 and is valid by
 *               the limits of that box, x from 0 to 1000, y from -250 to 750, e to 2,000,000 and s to 500,000 e^2.
 *               volkhidar_read_record takes both; 53 bytes are all that is written.
 *
 * docs/FORMATS.md describes descriptions, sheets and records byte by byte, and has examples of each call.
 */
#ifndef VOLKHIDAR_H
#define VOLKHIDAR_H

#include <stddef.h>
#include <stdint.h>

#ifdef __cplusplus
extern "C" {
#endif

/* Lengths and limits that the checks ask for. */
#define VOLKHIDAR_MOST_BYTES 65535      /* of a description or a sheet */
#define VOLKHIDAR_MOST_POINTS 4096      /* of a point list */
#define VOLKHIDAR_LIST_LENGTH 8192      /* least length of the list that volkhidar_load and volkhidar_append_point are lent */
#define VOLKHIDAR_RECORD_LENGTH 53      /* of a record, in bytes */
#define VOLKHIDAR_OLD_RECORD_LENGTH 45  /* of a record of an em box of 1,000 units, which is read too */
#define VOLKHIDAR_MOST_TRACED 1024      /* traced points of a list */
#define VOLKHIDAR_MOST_TOLERANCE 50     /* of a traced point, in units */
#define VOLKHIDAR_MOST_GLYPHS 16383     /* of a sheet */

/* Tests that volkhidar_run_sheet can be allowed: 2^60 - 1. */
#define VOLKHIDAR_MOST_ALLOWANCE UINT64_C(1152921504606846975)

/* A point of the em box: x from 0 to 2048, y from -512 to 1536. */
typedef struct {
    int16_t x, y;
} volkhidar_point;

/*
 * The number hi * 2^64 + lo: (unsigned __int128)hi << 64 | lo where the compiler has such numbers, ldexp((double)hi, 64) + (double)lo
 * as a double.
 */
typedef struct {
    uint64_t hi, lo;
} volkhidar_wide;

/*
 * Centre (x/e, y/e), squared radius s/e^2. A disk that a call returns has e from 1 to 8,388,608 and no common divisor of x, y and e
 * above 1; so each disk has one writing. Its centre is in the em box and s at most 2,097,152 e^2, except that a disk of
 * volkhidar_smallest_disk_through may lie and reach anywhere. s may need more than 64 bits, and so may what a caller compares with it:
 * the disk holds a point (a, b) if (a e - x)^2 + (b e - y)^2 is at most s.
 */
typedef struct {
    int64_t x, y;
    uint64_t e;
    volkhidar_wide s;
} volkhidar_disk;

/*
 * One to three points whose own smallest disk is that of the whole list. A set that a call returns is in rising order (x, then y), and
 * its last point is repeated to make three. In a set that is passed to a call the points behind `size` are not looked at; a size
 * other than 1, 2 or 3 is refused with 7, and points that do not belong to the disk beside them with 15.
 */
typedef struct {
    uint64_t size;
    volkhidar_point points[3];
} volkhidar_support;

/*
 * A point as a drawing program has it: two whole numbers (kind VOLKHIDAR_WHOLE) or two floats (kind VOLKHIDAR_DRAWN). The other two
 * values are not looked at. Any other kind stands for no number and is refused with 11.
 */
#define VOLKHIDAR_WHOLE 1
#define VOLKHIDAR_DRAWN 2

typedef struct {
    uint64_t kind;
    int32_t whole_x, whole_y;
    double drawn_x, drawn_y;
} volkhidar_drawn_point;

typedef struct {
    uint64_t refusal;
    uint64_t count;
} volkhidar_load_answer;

typedef volkhidar_load_answer volkhidar_append_answer;

typedef volkhidar_load_answer volkhidar_hull_answer;

typedef struct {
    uint64_t refusal;
    volkhidar_point a, b;
    uint64_t w;
} volkhidar_stretch_answer;

typedef struct {
    uint64_t refusal;
    uint64_t start, length;
} volkhidar_glyph_answer;

typedef struct {
    uint64_t refusal;
    volkhidar_disk disk;
    volkhidar_support support;
    uint64_t tests;
} volkhidar_disk_answer;

typedef struct {
    uint64_t refusal;
    volkhidar_disk disk;
} volkhidar_through_answer;

typedef volkhidar_through_answer volkhidar_traced_answer;

typedef struct {
    uint64_t refusal;
    uint64_t radius;
} volkhidar_radius_answer;

typedef struct {
    uint64_t refusal;
    double x, y, radius;
} volkhidar_preview_answer;

typedef struct {
    uint64_t refusal;
    volkhidar_disk disk;
    volkhidar_support support;
} volkhidar_record_answer;

typedef struct {
    uint64_t refusal;
    uint64_t worked, left;
} volkhidar_run_answer;

typedef struct {
    uint64_t refusal;
    uint64_t bytes, tests;
} volkhidar_estimate_answer;

/*
 * Reads a description: a point a line, "x y" in decimal, each number of 1 to 4 digits with one plus, one minus or no sign before
 * them. The points go to the front of `list` in the order of the lines, x and y by turns; the rest of the list stays. `count` is how
 * many points there are, so the first 2 * count numbers were written.
 * Refusals, in this order: 8 for a list under 8,192 numbers; 1; the first faulty line, by 2, then 3, then 4; 5.
 */
volkhidar_load_answer volkhidar_load(const uint8_t *text, size_t text_length, int16_t *list, size_t list_length);

/*
 * Puts a point behind the first n points of `list`, x and y by turns: the numbers 2n and 2n + 1 of the list are written and all others
 * stay. The points that are there are not looked at. `count` is how many there are afterwards, n + 1. A float is taken only where it
 * stands for a whole number exactly, and then as that number; minus zero is 0. 1e300 is a whole number, outside the em box.
 * Refusals, in this order: 8 for a list under 8,192 numbers; 11; 3; 4 where n is 4,096 or more.
 */
volkhidar_append_answer volkhidar_append_point(volkhidar_drawn_point point, int16_t *list, size_t list_length, size_t n);

/*
 * Finds part k of a sheet, from 0: `length` bytes from byte `start` of the sheet on.
 * Refusals, in this order: 1, 6, 10.
 */
volkhidar_glyph_answer volkhidar_glyph(const uint8_t *sheet, size_t sheet_length, size_t k);

/*
 * The smallest disk that holds the points of `list`, x and y by turns; its first support set, the least of the smallest; and the count
 * of containment tests of Welzl's move-to-front procedure on the list as given. The list is left in the order that the procedure
 * leaves: the same points, each as often as before. For n points the count is at most (n^3 + 5n) / 6.
 * Refusals, in this order: 9 for an odd length, 5, 4, 3.
 */
volkhidar_disk_answer volkhidar_smallest_disk(int16_t *list, size_t list_length);

/*
 * The smallest disk that holds the points of `list`, x and y by turns, and has the chosen points `first` and `second` on its boundary:
 * smallest of all disks with a fractional centre and squared radius that do, and no other is as small. One point that is chosen alone is
 * passed twice. The list is only read. Only the disk is returned: its centre may be outside the em box and s above 2,097,152 e^2, and
 * it then has no whole radius, preview or record (7). Within these limits it has them with points that belong to it, which the chosen
 * points need not do (15).
 * Refusals, in this order: 9 for an odd length, 5, 4, 3; 12 for a chosen point that is not in the list, one outside the em box too; 13
 * exactly where there is no such disk.
 */
volkhidar_through_answer volkhidar_smallest_disk_through(const int16_t *list, size_t list_length, volkhidar_point first, volkhidar_point second);

/*
 * The smallest disk that holds every traced point of `list`, wherever each may really be. The list goes by threes, x, y and t: the point
 * may be anywhere in the square from (x - t, y - t) to (x + t, y + t), at fractional places too, and t is its tolerance, 0 to 50
 * units. The disk holds all of these squares: smallest of all disks with a fractional centre and squared radius that do, and no other
 * is as small. With every t 0 it is the disk of volkhidar_smallest_disk. The list is only read. Only the disk is returned. Its whole
 * radius, preview and record take points that belong to it (15): volkhidar_smallest_disk of the four corners of every square, 4,096
 * points at most, gives the same disk with such a set.
 * Refusals, in this order: 9 for a length that is not a multiple of three, 5, 4 for more than 1,024 traced points; then the first
 * faulty traced point, by 14, then 3 where its square leaves the em box.
 */
volkhidar_traced_answer volkhidar_smallest_disk_of_traced(const int16_t *list, size_t list_length);

/*
 * Reduces `list`, x and y by turns, to the corners of the convex hull of its points, no three of them in a row. They go to the front,
 * counterclockwise (y goes upward) from the least by x, then y; all further numbers of the list become 0. `count` is how many were kept,
 * so the first 2 * count numbers are theirs. Points in a row keep the two ends, the least first; a lone point, repeated or not, is kept
 * itself. volkhidar_smallest_disk of the first 2 * count numbers gives the disk and support set that it gives for the full list, so whole
 * radius, preview and record are those of the full list too; the test count is that of the kept points.
 * Refusals, in this order: 9 for an odd length, 5, 4, 3; the list is then unchanged.
 */
volkhidar_hull_answer volkhidar_reduce_to_hull(int16_t *list, size_t list_length);

/*
 * The widest stretch of `list`, x and y by turns: the two of its points that are farthest apart, a before b in rising order (x, then y),
 * and w, the square of their distance, at most 8,388,608. Among pairs as far apart, each in rising order, they are the least, compared
 * point by point. A lone point, repeated or not, is given twice with w 0. The list is only read. With e and s of volkhidar_smallest_disk
 * for the same list, w e^2 is at least 3 s and at most 4 s (Jung's bound); w e^2 may need more than 64 bits, as s may.
 * Refusals, in this order: 9 for an odd length, 5, 4, 3.
 */
volkhidar_stretch_answer volkhidar_widest_stretch(const int16_t *list, size_t list_length);

/*
 * The radius to cut with, a whole number: the least R with R^2 e^2 greater than s. The cut, the circle of radius R about the disk's
 * centre, keeps off every point that the disk holds: each lies inside it and none on it. So R is above the disk's own radius by at most
 * 1, and by 1 exactly where that is a whole number itself; a single point has R 1, and no disk has one above 1449.
 * Refusals, in this order: 7 for a disk and support set that a valid record could not hold; 15 for points that do not belong to the disk.
 */
volkhidar_radius_answer volkhidar_whole_radius(volkhidar_disk disk, volkhidar_support support);

/*
 * The centre as x/e and y/e, each divided once and rounded once, and the whole radius. For every disk that is not refused, each centre
 * value is at most 2^-43 units from x/e or y/e, some 1.14e-13 (0x1p-43), and the radius is exact.
 * Refusals, in this order: 7 for a disk and support set that a valid record could not hold; 15 for points that do not belong to the disk.
 */
volkhidar_preview_answer volkhidar_preview(volkhidar_disk disk, volkhidar_support support);

/*
 * Writes the record of a disk and its support set into the first 53 bytes of `buffer`; the rest stays. Returns 0 or the refusal.
 * The record has three points, the last repeated where there are fewer, and in its last byte how many are meant: 1, 2 or 3.
 * Refusals, in this order: 8 for a buffer under 53 bytes; 7; 15 for points that do not belong to the disk.
 */
uint64_t volkhidar_write_record(volkhidar_disk disk, volkhidar_support support, uint8_t *buffer, size_t buffer_length);

/*
 * Reads a record of 53 bytes, or of 45 by the limits of an em box of 1,000 units. What volkhidar_write_record wrote is read back. What
 * is read, written again, gives its own bytes if they were 53, and otherwise the 53 bytes of the same disk and points.
 * Refusals, in this order: 7, for bytes of another length and for a count that disagrees with the repeats, too; 15 for a valid record
 * whose points do not belong to its disk.
 */
volkhidar_record_answer volkhidar_read_record(const uint8_t *bytes, size_t length);

/*
 * From a description to its record in one call: volkhidar_load, volkhidar_smallest_disk on the points that it found, and
 * volkhidar_write_record of what that gave. The first 53 bytes of `buffer` are written and the rest stays. Returns 0 or the refusal.
 * Refusals, in this order: 8 for a buffer under 53 bytes; then those of volkhidar_load for the description.
 */
uint64_t volkhidar_record_of(const uint8_t *text, size_t text_length, uint8_t *buffer, size_t buffer_length);

/*
 * Works the glyphs of a sheet, from the first on, with `allowance` containment tests in all. `numbers` gets a number for each glyph: 0
 * where it is worked, else its refusal. The records of the worked glyphs go one behind another to the front of `buffer`, 53 bytes each
 * and no gap where a glyph has none; so the first record is of the first glyph with a 0. Bytes behind the last record and places behind
 * the last glyph stay. `worked` is how many glyphs were worked, `left` what is left of the allowance.
 * A description that volkhidar_load refuses gives its refusal (2, 3, 4 or 5), wherever it stands, and costs nothing. Any other glyph is
 * worked if the tests that volkhidar_smallest_disk counts for it are no more than what is left, which then falls by them, and its record
 * is that of volkhidar_record_of. From the first glyph that needs more, each with an acceptable description gets 16, even a cheap one:
 * behind that glyph no disk is worked out.
 * So the counts of the worked glyphs and `left` make the allowance, and a larger one never changes a glyph that had its record.
 * A sheet's first two bytes, high byte first, are its count of glyphs, at most 16,383: a buffer of 53 * count bytes and a list of count
 * places always do. volkhidar_estimate_sheet gives an allowance that is enough for every glyph.
 * Refusals, in this order: 1; 6; 8 for a buffer under 53 bytes for each glyph, be it faulty or not, or a list under one place for each; 17
 * for an allowance of 2^60 or more.
 */
volkhidar_run_answer volkhidar_run_sheet(const uint8_t *sheet, size_t sheet_length, uint64_t allowance, uint8_t *buffer,
                                         size_t buffer_length, uint16_t *numbers, size_t numbers_length);

/*
 * What a run of a sheet will take, from its descriptions alone: no disk is worked out. `points` gets for each glyph how many points its
 * description has, 0 where volkhidar_load refuses it, and `refusals` that refusal (2, 3, 4 or 5), or 0. Places behind the last glyph
 * stay. `bytes` is how many bytes the records of all acceptable descriptions make, 53 each. `tests` is the sum of (n^3 + 5n) / 6 over
 * the same descriptions, each of n points, which never take more; the sum is always below 2^60.
 * A run with `tests` as its allowance gives no glyph 16 and writes `bytes` bytes; its numbers are those of `refusals`. Its buffer may
 * have to be longer: volkhidar_run_sheet asks for 53 bytes for every glyph, the faulty ones too.
 * Refusals, in this order: 1; 6; 8 for a list under one place for each glyph.
 */
volkhidar_estimate_answer volkhidar_estimate_sheet(const uint8_t *sheet, size_t sheet_length, uint16_t *points, size_t points_length,
                                                   uint16_t *refusals, size_t refusals_length);

#ifdef __cplusplus
}
#endif
#endif
