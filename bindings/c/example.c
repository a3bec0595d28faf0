/*
 * The way of a letter through the library: a description is read, its smallest disk worked out, and a record written and read back.
 * Then the same letter from a drawing program's own values, another letter's disk turned against a stop, a hand-traced letter, a
 * scanned outline that is reduced to its hull, a letter's widest stretch, a damaged record, a disk whose s is above 2^64, a record of
 * 45 bytes that is written again with 53, and a sheet: what it will take, and a run of it under an allowance.
 *
 *   bindings/c/run      builds and runs it on letter F of the papers
 *   bindings/c/run -    reads a description from standard input
 */
#include <inttypes.h>
#include <stdio.h>

#include "../../include/volkhidar.h"

static const char letter_f[] = "0 0\n4 0\n2 3\n";

/* Three points near corners of the em box: e is nearly the largest, and s is above 2^64. */
static const char wide_letter[] = "0 -512\n2048 -509\n1 1536\n";

/* The count and the pairs of offset and length, then four glyphs: a point, a fault, letter F and a point. */
static const char sheet[] = "\x00\x04" "\x00\x12\x00\x04" "\x00\x16\x00\x02" "\x00\x18\x00\x0c" "\x00\x24\x00\x04"
                            "0 0\n" "x\n" "0 0\n4 0\n2 3\n" "7 7\n";
enum { GLYPHS = 4 };

static int refused(uint64_t refusal) {
    printf("refused %" PRIu64 "\n", refusal);
    return 1;
}

/* In decimal: the s of every disk is below 10^38, so it is two numbers of 19 digits. */
static void print_wide(volkhidar_wide s) {
    const uint64_t ten_to_19 = UINT64_C(10000000000000000000);
    unsigned __int128 value = (unsigned __int128)s.hi << 64 | s.lo;
    uint64_t front = (uint64_t)(value / ten_to_19), back = (uint64_t)(value % ten_to_19);
    if (front) {
        printf("%" PRIu64 "%019" PRIu64, front, back);
    } else {
        printf("%" PRIu64, back);
    }
}

static void print_disk(const volkhidar_disk *d) {
    printf("disk %" PRId64 " %" PRId64 " %" PRIu64 " ", d->x, d->y, d->e);
    print_wide(d->s);
    printf("\n");
}

static int is_same_disk(const volkhidar_disk *c, const volkhidar_disk *d) {
    return c->x == d->x && c->y == d->y && c->e == d->e && c->s.hi == d->s.hi && c->s.lo == d->s.lo;
}

static void print_record(const uint8_t *record) {
    printf("record ");
    for (size_t i = 0; i < VOLKHIDAR_RECORD_LENGTH; i++) printf("%02x", record[i]);
    printf("\n");
}

/* A number for each glyph of the sheet. */
static void print_numbers(const char *name, const uint16_t *numbers) {
    printf("%s", name);
    for (int k = 0; k < GLYPHS; k++) printf(" %d", numbers[k]);
    printf("\n");
}

static void print_answer(const volkhidar_disk_answer *answer) {
    print_disk(&answer->disk);
    printf("rim");
    for (uint64_t i = 0; i < answer->support.size; i++) {
        printf(" %d %d", answer->support.points[i].x, answer->support.points[i].y);
    }
    printf("\n");
}

static int work_out(const uint8_t *text, size_t length) {
    int16_t list[VOLKHIDAR_LIST_LENGTH];
    volkhidar_load_answer loaded = volkhidar_load(text, length, list, VOLKHIDAR_LIST_LENGTH);
    if (loaded.refusal) return refused(loaded.refusal);

    volkhidar_disk_answer answer = volkhidar_smallest_disk(list, 2 * loaded.count);
    if (answer.refusal) return refused(answer.refusal);
    print_answer(&answer);

    volkhidar_radius_answer radius = volkhidar_whole_radius(answer.disk, answer.support);
    if (radius.refusal) return refused(radius.refusal);
    printf("whole %" PRIu64 "\ntests %" PRIu64 "\n", radius.radius, answer.tests);

    volkhidar_preview_answer preview = volkhidar_preview(answer.disk, answer.support);
    if (preview.refusal) return refused(preview.refusal);
    printf("preview %.17g %.17g %.17g\n", preview.x, preview.y, preview.radius);

    uint8_t record[VOLKHIDAR_RECORD_LENGTH];
    uint64_t refusal = volkhidar_write_record(answer.disk, answer.support, record, sizeof record);
    if (refusal) return refused(refusal);
    print_record(record);

    volkhidar_record_answer read = volkhidar_read_record(record, sizeof record);
    printf("read back %s\n", read.refusal == 0 && is_same_disk(&read.disk, &answer.disk) ? "yes" : "no");
    return 0;
}

/* A point behind `count` others: the new count, or 0 where it is refused. */
static size_t append(volkhidar_drawn_point point, int16_t *list, size_t count) {
    volkhidar_append_answer appended = volkhidar_append_point(point, list, VOLKHIDAR_LIST_LENGTH, count);
    if (appended.refusal) refused(appended.refusal);
    return appended.count;
}

static int work_out_drawing(void) {
    int16_t list[VOLKHIDAR_LIST_LENGTH];
    volkhidar_drawn_point a = {.kind = VOLKHIDAR_WHOLE, .whole_x = 0, .whole_y = 0};
    volkhidar_drawn_point b = {.kind = VOLKHIDAR_DRAWN, .drawn_x = 4.0, .drawn_y = -0.0};
    volkhidar_drawn_point c = {.kind = VOLKHIDAR_DRAWN, .drawn_x = 2.0, .drawn_y = 3.0};
    volkhidar_drawn_point fraction = {.kind = VOLKHIDAR_DRAWN, .drawn_x = 2.5, .drawn_y = 3.0};
    size_t count = append(c, list, append(b, list, append(a, list, 0)));
    append(fraction, list, count);
    volkhidar_disk_answer answer = volkhidar_smallest_disk(list, 2 * count);
    if (answer.refusal) return refused(answer.refusal);
    print_answer(&answer);
    return 0;
}

/* Letter G of the papers with its middle point at the stop: the disk has it on the boundary, and not inside as the smallest one. */
static int work_out_against_stop(void) {
    const int16_t list[] = {0, 0, 10, 0, 5, 1};
    volkhidar_point stop = {.x = 5, .y = 1};
    volkhidar_through_answer answer = volkhidar_smallest_disk_through(list, sizeof list / sizeof list[0], stop, stop);
    if (answer.refusal) return refused(answer.refusal);
    print_disk(&answer.disk);
    return 0;
}

/* Letter F traced by hand, its points known to within 0, 1 and 2 units: the disk holds them wherever they may really be. */
static int work_out_traced(void) {
    const int16_t list[] = {0, 0, 0, 4, 0, 1, 2, 3, 2};
    volkhidar_traced_answer answer = volkhidar_smallest_disk_of_traced(list, sizeof list / sizeof list[0]);
    if (answer.refusal) return refused(answer.refusal);
    print_disk(&answer.disk);
    return 0;
}

/*
 * A scanned outline with points on its sides and inside: the four corners of its hull are kept, and their disk is that of all points.
 * A list that ends in the middle of a point is refused.
 */
static int work_out_hull(void) {
    int16_t list[] = {4, 0, 8, 6, 3, 2, 0, 0, 8, 3, 0, 6, 8, 0, 5, 6};
    const size_t length = sizeof list / sizeof list[0];
    volkhidar_disk_answer all = volkhidar_smallest_disk(list, length);
    if (all.refusal) return refused(all.refusal);

    volkhidar_hull_answer hull = volkhidar_reduce_to_hull(list, length);
    if (hull.refusal) return refused(hull.refusal);
    printf("kept %" PRIu64 "\nhull", hull.count);
    for (uint64_t i = 0; i < 2 * hull.count; i++) printf(" %d", list[i]);
    printf("\n");

    volkhidar_disk_answer kept = volkhidar_smallest_disk(list, 2 * hull.count);
    if (kept.refusal) return refused(kept.refusal);
    print_answer(&kept);
    printf("same disk %s\n", is_same_disk(&kept.disk, &all.disk) ? "yes" : "no");
    refused(volkhidar_reduce_to_hull(list, length - 1).refusal);
    return 0;
}

/* Letter D of the papers, a square: its diagonals are as long, and the ends of the one from (0, 0) are the least pair. */
static int work_out_stretch(void) {
    const int16_t list[] = {0, 0, 10, 0, 0, 10, 10, 10};
    volkhidar_stretch_answer answer = volkhidar_widest_stretch(list, sizeof list / sizeof list[0]);
    if (answer.refusal) return refused(answer.refusal);
    printf("stretch %d %d %d %d %" PRIu64 "\n", answer.a.x, answer.a.y, answer.b.x, answer.b.y, answer.w);
    return 0;
}

/* Letter F's record with (1, 3) in place of (2, 3): a valid record still, but its points do not belong to its disk. */
static int read_damaged_record(void) {
    uint8_t record[VOLKHIDAR_RECORD_LENGTH];
    uint64_t refusal = volkhidar_record_of((const uint8_t *)letter_f, sizeof letter_f - 1, record, sizeof record);
    if (refusal) return refused(refusal);
    record[45] = 1;
    refused(volkhidar_read_record(record, sizeof record).refusal);
    return 0;
}

/* Letter F's record in 45 bytes: 8 for s, and all that is behind it 8 bytes earlier. */
static int write_old_record_again(void) {
    uint8_t old[VOLKHIDAR_OLD_RECORD_LENGTH] = {[7] = 12, [15] = 5, [23] = 6, [31] = 169, [37] = 2, [39] = 3, [41] = 4, [44] = 3};
    volkhidar_record_answer read = volkhidar_read_record(old, sizeof old);
    if (read.refusal) return refused(read.refusal);
    print_disk(&read.disk);

    uint8_t record[VOLKHIDAR_RECORD_LENGTH];
    uint64_t refusal = volkhidar_write_record(read.disk, read.support, record, sizeof record);
    if (refusal) return refused(refusal);
    print_record(record);
    return 0;
}

/* Before the sheet is run: nine tests are enough, one for each of the points and 7 for letter F. */
static int estimate_sheet(void) {
    uint16_t points[GLYPHS], refusals[GLYPHS];
    const uint8_t *bytes = (const uint8_t *)sheet;
    volkhidar_estimate_answer estimate = volkhidar_estimate_sheet(bytes, sizeof sheet - 1, points, GLYPHS, refusals, GLYPHS);
    if (estimate.refusal) return refused(estimate.refusal);
    print_numbers("points", points);
    print_numbers("refusals", refusals);
    printf("bytes %" PRIu64 "\ntests %" PRIu64 "\n", estimate.bytes, estimate.tests);
    return 0;
}

/* With 8 tests: the first point takes one and letter F the other 7, so that the point behind it gets 16. 2^60 tests are refused. */
static int run_sheet(void) {
    uint8_t buffer[GLYPHS * VOLKHIDAR_RECORD_LENGTH];
    uint16_t numbers[GLYPHS];
    const uint8_t *bytes = (const uint8_t *)sheet;
    volkhidar_run_answer run = volkhidar_run_sheet(bytes, sizeof sheet - 1, 8, buffer, sizeof buffer, numbers, GLYPHS);
    if (run.refusal) return refused(run.refusal);
    print_numbers("numbers", numbers);
    printf("worked %" PRIu64 "\nleft %" PRIu64 "\n", run.worked, run.left);
    for (uint64_t i = 0; i < run.worked; i++) print_record(buffer + i * VOLKHIDAR_RECORD_LENGTH);

    uint64_t too_much = VOLKHIDAR_MOST_ALLOWANCE + 1;
    refused(volkhidar_run_sheet(bytes, sizeof sheet - 1, too_much, buffer, sizeof buffer, numbers, GLYPHS).refusal);
    return 0;
}

int main(int argc, char **argv) {
    static uint8_t text[VOLKHIDAR_MOST_BYTES + 1];
    (void)argv;
    if (argc > 1) {
        return work_out(text, fread(text, 1, sizeof text, stdin));
    }
    return work_out((const uint8_t *)letter_f, sizeof letter_f - 1) || work_out_drawing() || work_out_against_stop() ||
           work_out_traced() || work_out_hull() || work_out_stretch() || read_damaged_record() ||
           work_out((const uint8_t *)wide_letter, sizeof wide_letter - 1) || write_old_record_again() || estimate_sheet() ||
           run_sheet();
}
