/*
 * Gorvlime: numbers kept in write-once cells by the position modulation code of Wu and Jiang.
 *
 * A wit is one write-once cell: it leaves the factory as 0, can be turned to 1, and never goes back. A field is a run of
 * wits that holds one number and can still be given a new one t times. A few numbers say what a field is like, its shape:
 *
 *     form                      0 to 2        what blank cells mean: 0, for drives in service, the number 0;
 *                                             1 and 2, for new drives, no number yet
 *     m   wits in a group       2 to 4
 *     t   generations           2 to 16       how often the field can be written
 *     v   range                 2 to 2^56     the numbers are 0 to v - 1. Form 2 has t ranges, one for each generation:
 *                                             the i-th number written is below the i-th range
 *
 * Ask gorvlime_layout once how large the field is, keep that many bytes of cells, all zeros at first, and hand them to
 * gorvlime_write and gorvlime_read; gorvlime_write_many writes many fields of one shape at once. gorvlime_judge tells
 * whether a write that a board of another make did is right, gorvlime_resume writes a number anew whose write was cut off, and
 * gorvlime_read_pair and gorvlime_write_pair take two fields as one. gorvlime_export makes a record of a field, records one after the other are a dump, and gorvlime_step and
 * gorvlime_walk list a dump. A new dump says each layout once, in front, and holds fields of every form:
 * gorvlime_export_layout and gorvlime_export_record make it, gorvlime_open_new, gorvlime_listed_shape, gorvlime_step_new and
 * gorvlime_walk_new list it, gorvlime_move_to_new and gorvlime_move_to_old turn one kind of dump into the other.
 * examples/board.c shows all of the board's side on one page.
 * gorvlime_hex_export and gorvlime_hex_import turn bytes into Intel HEX and back, for the bench that programs new
 * boards; examples/bench.c does so with a file.
 *
 * For every call:
 * - `refusal` is 0 when the call was accepted. When it is not, all other numbers of the answer are 0 and nothing was stored
 *   in lent memory, with three exceptions. Refusal 7 tells the offset of the malformed record, or 0 for the layout list of a
 *   new dump, and a walk has filled and counts the rows of the records before it. Refusals 15 and 16 tell a generation, 15 a
 *   count of groups too. A gorvlime_write_many that stops at a field tells which, and has written the fields before it.
 * - Lend no null pointer, not even with a count of 0, and no output, nor cells to be written, that overlap what else is
 *   lent. Nothing that is lent may change while a call runs, by another thread, an interrupt or a device. Not a byte more is
 *   read or stored than is lent.
 * - There is no state, no heap and no lock: calls may run at once on different memory.
 * - The archive libgorvlime.a is for 64-bit x86 and its System V calling convention. Of other code it needs `memcpy`,
 *   `memset` and nothing else; layout, read and write need no other code at all. It is position independent, and all its data is
 *   read-only. Code and data together have some 60 kilobytes linked whole, and some 31 kilobytes in a program that calls
 *   layout, read and write alone and is linked with -Wl,--gc-sections.
 * - As that convention allows, a call uses the 128 bytes below the stack pointer and the SSE registers. An interrupt handler
 *   that interrupts a call, or makes one, has to leave both as it found them.
 *
 * To link it, where it was built (`make archive`) and where it was installed (`make install`):
 *
 *     gcc -Iinclude board.c target/staticlib/libgorvlime.a -o board
 *     gcc board.c $(pkg-config --cflags --libs gorvlime) -o board
 */
#ifndef GORVLIME_H
#define GORVLIME_H

#include <stddef.h>
#include <stdint.h>

#ifdef __cplusplus
extern "C" {
#endif

/*
 * The version of this header and of the library beside it. Where callers have to change, the first number goes up; where
 * there is a call more, the second.
 */
#define GORVLIME_VERSION_MAJOR 1
#define GORVLIME_VERSION_MINOR 3
#define GORVLIME_VERSION_PATCH 0
#define GORVLIME_VERSION "1.3.0"

/*
 * The most that there can be, for arrays that have room for whatever comes. Each of them is reached, so less is too little.
 * GORVLIME_MANY, GORVLIME_ROW and GORVLIME_ROW_NEW stand further down, beside their calls.
 */
#define GORVLIME_SERIAL_MOST (UINT64_MAX >> 1)        /* a serial: 2^63 - 1 */
#define GORVLIME_RANGE_MOST (UINT64_C(1) << 56)       /* a range */
#define GORVLIME_GENERATIONS_MOST 16                  /* generations of a field, and counts of a layout */
#define GORVLIME_RANGES_MOST 16                       /* ranges of a shape: one for each generation */
#define GORVLIME_GROUPS_MOST 256                      /* groups that a layout may be offered */
#define GORVLIME_CELLS_MOST 64                        /* bytes of a field's cells */
#define GORVLIME_RECORD_MOST 85                       /* bytes of an exported record: 21 of numbers, and the cells */
#define GORVLIME_RECORD_NEW_MOST 75                   /* of one for a new dump: 11 of numbers, and the cells */
#define GORVLIME_LAYOUT_MOST 147                      /* of a layout for the list of a new dump, with sixteen ranges */
#define GORVLIME_LAYOUT_ONE_RANGE_MOST 12             /* of one with one range, as all of forms 0 and 1 are */
#define GORVLIME_LAYOUTS_MOST 64                      /* layouts in the list of a new dump */
#define GORVLIME_DUMP_MOST 65536                      /* bytes of a dump, old or new */
#define GORVLIME_HEX_BYTES_MOST 65536                 /* bytes that go into a HEX text or come out of one */
#define GORVLIME_HEX_MOST 180236                      /* characters of an exported HEX text */

/* Characters of the HEX text of so many bytes. The argument is evaluated twice. */
#define GORVLIME_HEX_LENGTH(bytes) (12 * (((bytes) + 15) / 16) + 2 * (bytes) + 12)

/*
 * Why a call was refused. The tests are made in the order of this list, and the first that holds is the answer. In form 2
 * the writes and resume test 6 last, behind 5, since the generation tells which range counts. A HEX text is tested line by
 * line: 23, 20, 21, 22, 24 at one line, the same at the next, and 9 when all lines have passed. A move tests 8 a second
 * time, of what it would store: right before 9. Write many tests 3 once for all bytes together, then 3, 6, 15, 16, 5 at one
 * field, and the same at the next when that one is written. Judge tests 3, 15, 16 of the cells before, then 3, 11, 15, 16 of
 * those after. The pair calls test all of the first field, then 1, 2, 3, 15, 16 of the second, then 5. The listed shape tests
 * 1 behind 8 and 7.
 */
enum gorvlime_refusal {
    GORVLIME_ACCEPTED = 0,      /* from                  when                                               */
    GORVLIME_NUMBERS = 14,      /* write many            more than GORVLIME_MANY numbers                    */
    GORVLIME_UNEQUAL = 18,      /* pairs                 the two ranges differ                              */
    GORVLIME_SERIAL = 10,       /* exports of a record   the serial is above GORVLIME_SERIAL_MOST           */
    GORVLIME_BOUNDS = 1,        /* all with m, t, v      the form, m, t, a range or g is outside its        */
                                /*                       bounds, another count of ranges than the form has, */
                                /*                       or a layout number from GORVLIME_LAYOUTS_MOST on   */
                                /* pairs                 also a form above 1                                */
                                /* listed shape          no layout of the list has the number               */
    GORVLIME_NO_ROOM = 2,       /* all with m, t, v      the field needs more than g groups                 */
    GORVLIME_CELLS = 3,         /* read, writes, judge,  another count of bytes, or a 1 behind the last wit */
                                /* resume, pairs, exports                                                   */
                                /* of a record                                                              */
    GORVLIME_BLANK = 11,        /* read                  the field is of form 1 or 2 and nothing is written */
                                /*                       yet                                                */
                                /* judge                 the same of the cells after                        */
                                /* read pair             the same of the first field                        */
    GORVLIME_NUMBER = 6,        /* writes, resume,       the number is not below the range; in form 2 not   */
                                /* write pair            below that of the generation it would be put into  */
    GORVLIME_MISCOUNTED = 15,   /* read, writes, judge,  another number of unerased groups than the         */
                                /* pairs                 generation has                                     */
    GORVLIME_BEYOND = 16,       /* read, writes, judge,  the number in the cells is not below the range of  */
                                /* pairs                 its generation                                     */
    GORVLIME_READABLE = 17,     /* resume                the cells have a reading, or are blank             */
    GORVLIME_SPENT = 5,         /* writes                all t generations are written                      */
                                /* resume                too few zero groups are left for the last one      */
                                /* write pair            of both fields                                     */
    GORVLIME_TOO_LONG = 8,      /* all with a dump       the dump has more than GORVLIME_DUMP_MOST bytes    */
                                /* HEX export            more than GORVLIME_HEX_BYTES_MOST bytes            */
    GORVLIME_MALFORMED = 7,     /* all with a dump       no whole record stands at the offset, or no whole  */
                                /*                       layout list in front of a new dump                 */
    GORVLIME_FORM = 12,         /* move to old           a listed form but 0: the old dump cannot hold it   */
    GORVLIME_LAYOUTS = 13,      /* move to new           more layouts than GORVLIME_LAYOUTS_MOST            */
    GORVLIME_NO_END = 23,       /* HEX import            the text is over and no end line was in it         */
    GORVLIME_LINE = 20,         /* HEX import            no line of the right shape, or a type 01 with data */
                                /*                       or an address                                      */
    GORVLIME_SUM = 21,          /* HEX import            the sum of the line is wrong                       */
    GORVLIME_ADDRESS = 22,      /* HEX import            data with a gap, an overlap or past address FFFF   */
    GORVLIME_TYPE = 24,         /* HEX import            a type but 00 and 01, or text behind the end line  */
    GORVLIME_OUTPUT = 9         /* all with an output    what is to be stored does not fit into the output  */
};

/*
 * What a field is like. It never changes for a field: another shape reads other numbers. The form does not change
 * either: a drive that is in service with form 0 stays with it. Name the fields,
 *
 *     { .m = 2, .t = 10, .count = 1, .v = { 1ull << 56 } }                        a drive in service
 *     { .form = 1, .m = 2, .t = 10, .count = 1, .v = { 1ull << 56 } }             a new drive
 *     { .form = 2, .m = 2, .t = 3, .count = 3, .v = { 1ull << 56, 5000, 20 } }    a new drive whose numbers get shorter
 *
 * since later versions of the library add some. A field that is left out is 0.
 *
 * `count` says how many ranges are given in v: 1 in forms 0 and 1, where all generations have that range, and t in form 2,
 * where generation i has v[i - 1]. Any other count, also one left out, is refused with 1. The ranges of form 2 may fall, rise
 * or be equal; with equal ones it is form 1 but for the place of refusal 6. What stands behind the ranges given is not
 * looked at.
 */
struct gorvlime_shape {
    uint64_t form, m, t, count;
    uint64_t v[GORVLIME_RANGES_MOST];
};

/*
 * How large a field is.
 *
 * Takes the shape and g, the groups that there is room for, 0 to GORVLIME_GROUPS_MOST. Answers the counts
 * h_1 > h_2 > .. > h_t in h[0] to h[t - 1], zeros behind: generation i uses h_i groups, and no smaller counts would do. The
 * field takes m * h[0] wits, which is (m * h[0] + 7) / 8 bytes of cells, never more than GORVLIME_CELLS_MOST. Only the layout
 * asks about g: the other calls work with g = GORVLIME_GROUPS_MOST, where every field has room. Between forms 0 and 1 only
 * h[0] differs, and only where v is just what form 0 has patterns for. In form 2 each h_i is the least for its own range and
 * those behind it.
 * Refusals: 1, 2.
 */
struct gorvlime_counts { uint64_t refusal; uint64_t h[GORVLIME_GENERATIONS_MOST]; };

struct gorvlime_counts gorvlime_layout(struct gorvlime_shape shape, uint64_t g);

/*
 * The number in a field.
 *
 * Takes the field's shape and its cells, exactly as many bytes as the layout says. Wit w of the field is bit
 * 7 - (w mod 8) of byte w / 8, bit 7 being the high one; bits behind the last wit are 0. Answers the generation of the last
 * write (1 to t), the number (below the range, in form 2 below that of the generation), and how many writes are left.
 * Blank cells of form 0 read as generation 1, number 0, with t writes left; those of forms 1 and 2 are refused with 11, since
 * no number was written.
 *
 * Cells that no whole write leaves have no number, and none may be guessed from them. They are refused with 15 or 16 and
 * tell the generation i that the count of their zero groups points to. With 15 they also tell `unerased`, how many groups
 * are not all ones, zero groups among them, where generation i has h_i; in generation 1 all ones are data, and it is never
 * refused with 15. With 16 the count is right. Either points to a write that was cut off, to another layout's cells or to
 * damage: README.md tells a fitter how to go on from there.
 *
 *     refusal 0     generation, number, left
 *     refusal 15    generation, unerased
 *     refusal 16    generation
 *
 * What is not named for a case is 0 in it, and with another refusal all is.
 * Refusals: 1, 2, 3, 11, 15, 16.
 */
struct gorvlime_reading { uint64_t refusal, generation, number, left, unerased; };

struct gorvlime_reading gorvlime_read(struct gorvlime_shape shape, const uint8_t *cells, size_t cells_count);

/*
 * A new number in a field.
 *
 * Takes the field's shape, its cells and the number, 0 to v - 1, and turns wits in the cells from 0 to 1, never back.
 * Answers the generation just written and how many wits were turned. In form 0, writing 0 on blank cells turns none and
 * leaves them blank. Every other write, in forms 1 and 2 every write, turns some wits and uses one of the t up.
 * In form 2 the range is that of the generation which the number is put into: v[0] on blank cells, v[i] on cells that read
 * as generation i. Spent cells take no number, whatever it is: 5.
 * Refused with 15 or 16 it tells generation and unerased of the cells, as gorvlime_read does, and turned is 0.
 * Refusals: 1, 2, 3, 6, 15, 16, 5; in form 2 they are 1, 2, 3, 15, 16, 5, 6. Blank cells of forms 1 and 2 are written as any
 * others and never refused with 11.
 */
struct gorvlime_writing { uint64_t refusal, generation, turned, unerased; };

struct gorvlime_writing gorvlime_write(struct gorvlime_shape shape, uint8_t *cells, size_t cells_count, uint64_t number);

/*
 * New numbers in many fields: the same as gorvlime_write for one field after the other up to the first that is refused, and
 * quicker, since the layout is worked out once.
 *
 * Takes the shape that all fields have, their cells end to end, each field in whole bytes, and as many numbers as there are
 * fields, at most GORVLIME_MANY. No numbers with no cells are accepted too.
 *
 *     all written    refusal 0; written, how many fields there are; generation[i] and turned[i] as gorvlime_write answers
 *                    them for field i
 *     stopped        refusal 3 (a 1 behind the field's last wit), 6, 15, 16 or 5; stopped 1; field, the refused one, from 0;
 *                    written, the fields before it, which stay written: as many as `field` says; their generation and turned;
 *                    with 15 or 16 what the refused field tells: refused_generation, and with 15 refused_unerased
 *     refused        refusal 14, 1, 2 or 3 (the count of bytes is not the fields' together), before any field was written
 *
 * What is not named for a case is 0 in it, and so are generation and turned behind the fields written. A field that is
 * refused and all behind it are as they were. `stopped` tells the two kinds of 3 apart. To go on behind a refused field,
 * hand in the fields behind it alone: those before it are written.
 * The answer has 304 bytes, which the caller has room for beside what the call itself takes.
 * Refusals: 14, 1, 2, 3; then at each field 3, 6, 15, 16, 5, or in form 2 3, 15, 16, 5, 6.
 */
#define GORVLIME_MANY 64

struct gorvlime_many {
    uint64_t refusal, stopped, field, written, refused_generation, refused_unerased;
    uint16_t generation[GORVLIME_MANY];
    uint16_t turned[GORVLIME_MANY];
};

struct gorvlime_many gorvlime_write_many(struct gorvlime_shape shape, uint8_t *cells, size_t cells_count,
                                         const uint64_t *numbers, size_t numbers_count);

/*
 * Whether a field was written rightly, and with which number, for collectors of boards that choose spare groups themselves.
 *
 * Where a write has more zero groups than its generation needs, gorvlime_write erases the leftmost. The code permits any
 * others, and a board of another make may erase those. What it leaves is read by gorvlime_read as any field is, but a
 * reading does not tell whether it was made of the cells that were there.
 *
 * Takes the field's shape, its cells before the write and its cells after it, and writes nothing. Answers yes 1 and the
 * number exactly when some choice of spare groups makes the cells after a right write of that number on the cells before:
 * they read as the generation that was due, every group that was not zero is all ones from generation 2 on, and no 1 became
 * 0. Else the answer is no, which is yes 0: a generation was skipped, or none was written, or a used group was written again.
 * Spent cells before are always no. On blank cells before generation 1 is due in every form; cells of form 0 that stay blank
 * are yes with number 0. What gorvlime_write leaves is always yes, with its number.
 *
 *     refusal 0     yes; with yes 1 number
 *     refusal 15    generation, unerased
 *     refusal 16    generation
 *
 * What is not named for a case is 0 in it, and with another refusal all is. 15 and 16 tell what gorvlime_read does of the
 * field that is refused; which of the two it is, reading them one by one tells.
 * Refusals: 1, 2; of the cells before 3, 15, 16, since blank ones are never refused; then of those after 3, 11, 15, 16.
 */
struct gorvlime_judged { uint64_t refusal, yes, number, generation, unerased; };

struct gorvlime_judged gorvlime_judge(struct gorvlime_shape shape, const uint8_t *before, size_t before_count,
                                      const uint8_t *after, size_t after_count);

/*
 * A number whose write was cut off, written anew, for boards that lost their supply while they turned cells.
 *
 * Takes the field's shape, its cells, which gorvlime_read refuses with 15 or 16, and the number that the board still has.
 * Writes the number at the first generation from 2 on that has no more places than zero groups are left, and erases all
 * other groups as gorvlime_write does. Afterwards the cells read as that generation and number, and are written on from
 * there as any others: t less the generation writes are left. What the cut-off write had begun is lost, and may cost a
 * generation more. Cells that read, and blank ones, are refused with 17 and stay as they are: what they hold may be the old
 * number, the new one or any other, and gorvlime_write goes on from it.
 *
 * Answers the generation, how many wits this call turned, and the groups that are all ones now and were not before, for
 * boards that keep account of their cells: `count` of them, group j at bit j mod 64 of erased[j / 64].
 *
 *     for (unsigned j = 0; j < GORVLIME_GROUPS_MOST; j++)
 *         if (r.erased[j / 64] >> j % 64 & 1)
 *             ..                                     group j, which is wits m * j to m * j + m - 1
 *
 * Refused, all other numbers are 0; what 15 and 16 tell of such cells, gorvlime_read says.
 * Refusals: 1, 2, 3, 6, 17, 5; in form 2 they are 1, 2, 3, 17, 5, 6, and the range is that of the generation found. It is 5
 * exactly when fewer zero groups are left than the last generation has places.
 */
struct gorvlime_resumed {
    uint64_t refusal, generation, turned, count;
    uint64_t erased[GORVLIME_GROUPS_MOST / 64];
};

struct gorvlime_resumed gorvlime_resume(struct gorvlime_shape shape, uint8_t *cells, size_t cells_count, uint64_t number);

/*
 * Two fields as one, for boards whose strip has room for a second field beside the first.
 *
 * The number of a pair is the sum of its fields' numbers modulo v. The first field is written until it is spent, then the
 * second, each time with the number that makes the sum right; so any t1 + t2 numbers can be written. The fields have one
 * form, which is 0 or 1, one m and one range, and each its own t. Which is the first never changes. README.md tells what a
 * pair costs beside one field.
 *
 * Name the fields, as in a shape: later versions of the library add some.
 */
struct gorvlime_pair { uint64_t form, m, t1, v1, t2, v2; };

/*
 * The number of a pair.
 *
 * Takes the pair, the cells of the first field and those of the second, each as gorvlime_read takes them. Answers the number,
 * below v, and how many writes are left in both fields together. A blank second field counts as 0 in every form. A blank first
 * field counts as 0 in form 0 and is refused with 11 in form 1, whatever the second has: no number was written.
 *
 *     refusal 0     number, left
 *     refusal 15    generation, unerased
 *     refusal 16    generation
 *
 * What is not named for a case is 0 in it, and with another refusal all is. 15 and 16 tell what gorvlime_read does of the
 * field that is refused; which of the two it is, reading them one by one tells.
 * Refusals: 18; of the first field 1, 2, 3, 11, 15, 16; then of the second 1, 2, 3, 15, 16.
 */
struct gorvlime_pair_reading { uint64_t refusal, number, left, generation, unerased; };

struct gorvlime_pair_reading gorvlime_read_pair(struct gorvlime_pair pair, const uint8_t *first, size_t first_count,
                                                const uint8_t *second, size_t second_count);

/*
 * A new number in a pair.
 *
 * Takes the pair, the cells of both fields and the number, 0 to v - 1. Writes one of the fields as gorvlime_write does: the
 * first unless it is spent, and else the second. The cells of the other stay as they are, but both are tested. Answers which
 * field was written, 0 for the first and 1 for the second, its generation, and how many wits were turned. Blank fields of
 * either form count as 0. In form 0, a field that is blank and gets a 0 stays blank, so that more than t1 + t2 writes may be
 * accepted; in form 1 every write uses one up. Refused with 15 or 16 it tells generation and unerased of the field that is
 * refused, and all else is 0.
 * Refusals: 18; of the first field 1, 2, 3, 6, 15, 16; of the second 1, 2, 3, 15, 16; then 5, when both are spent.
 */
struct gorvlime_pair_writing { uint64_t refusal, field, generation, turned, unerased; };

struct gorvlime_pair_writing gorvlime_write_pair(struct gorvlime_pair pair, uint8_t *first, size_t first_count,
                                                 uint8_t *second, size_t second_count, uint64_t number);

/*
 * A record of a field, for a dump.
 *
 * Takes a serial of your choice (0 to GORVLIME_SERIAL_MOST), the field's m, t, v and cells, and an output. Stores the record
 * at the front of the output, leaves the bytes behind it as they are, and answers the record's length, at most
 * GORVLIME_RECORD_MOST bytes. Cells that have no reading are exported too. A record has no place for the form and is read as
 * form 0: a field of another form goes into a new dump.
 * A record is serial, m, t, v, the count of cell bytes, then these bytes. Each number is groups of seven bits, lowest first,
 * the top bit set on all but the last.
 * Refusals: 10, 1, 2, 3, 9.
 */
struct gorvlime_stored { uint64_t refusal, length; };

struct gorvlime_stored gorvlime_export(uint64_t serial, uint64_t m, uint64_t t, uint64_t v, const uint8_t *cells,
                                         size_t cells_count, uint8_t *out, size_t out_count);

/*
 * One record of a dump.
 *
 * Takes a dump of at most GORVLIME_DUMP_MOST bytes and the offset of a record in it: 0, then the `next` of the step before.
 * An offset at or past the dump's end is the end.
 *
 *     a record    refusal 0, records 1; its serial, m, t, v; its cells are the dump's bytes start to start + length - 1;
 *                 next, where the next step starts; then what gorvlime_read says of the cells in form 0: `refused`, which
 *                 is 0 or the record's own refusal 1, 2, 3, 15 or 16, and generation, number, left and unerased
 *     the end     refusal 0, records 0
 *     refused     refusal 8, or 7 with the offset of the record's first byte; records 0
 *
 * What is not named for a case is 0 in it; `offset` is 0 unless the refusal is 7.
 * A record's own refusal does not end a walk, refusal 7 does: nothing behind a malformed record can be trusted.
 */
struct gorvlime_found {
    uint64_t refusal, offset, records, serial, m, t, v, start, length, next, refused, generation, number, left, unerased;
};

struct gorvlime_found gorvlime_step(const uint8_t *dump, size_t dump_count, size_t at);

/*
 * Many records of a dump: the same as steps from `at` on, and quicker where records repeat m, t and v.
 *
 * Takes the dump, the offset to start at, and room for rows_count numbers; a record fills a row of GORVLIME_ROW of them, in
 * the order serial, m, t, v, start, length, refused, generation, number, left, unerased. Goes on while a whole row is free.
 * Numbers behind the filled rows stay as they are.
 *
 *     rows      rows that were filled, also where the walk was refused with 7
 *     next      the offset of the first record that no row was filled for: where to go on, or where the walk ended
 *     ended     1 when a step found the dump's end; 0 when the rows were used up first, and the next call will tell
 *     refusal   8, and all else is 0; or 7, and offset and next are the malformed record's first byte
 *
 * A whole listing:
 *
 *     do {
 *         w = gorvlime_walk(dump, dump_count, at, rows, sizeof rows / sizeof rows[0]);
 *         ..                                         use w.rows rows
 *         at = w.next;
 *     } while (w.refusal == 0 && w.ended == 0);      rows has at least GORVLIME_ROW numbers
 */
#define GORVLIME_ROW 11

struct gorvlime_walked { uint64_t refusal, offset, rows, next, ended; };

struct gorvlime_walked gorvlime_walk(const uint8_t *dump, size_t dump_count, size_t at, uint64_t *rows, size_t rows_count);

/*
 * New dumps.
 *
 * A new dump is the count of its layouts, 0 to GORVLIME_LAYOUTS_MOST, then form, m, t, v of each, with t ranges for v in
 * form 2, then records of serial, layout number, the count of cell bytes and these bytes; all numbers are groups of seven
 * bits as in an old dump. The layout number is the place in the list, from 0. Nothing in the bytes tells the two kinds of
 * dump apart: who stores a dump notes its kind.
 *
 * A list whose count is above GORVLIME_LAYOUTS_MOST, in which a number is malformed, or in which a form 2 has t outside 2 to
 * 16, so that no one can tell how many ranges follow, is refused with 7 at offset 0. Any other listed layout that is out of
 * bounds, or of a form that there is not, which has one range, is whole all the same: each record that uses it is refused
 * with 1 of its own. A record whose layout number is not below the count is malformed.
 */

/*
 * One layout for the list of a new dump.
 *
 * Takes a shape and an output, stores form, m, t and the ranges given at the front of the output, leaves the bytes behind
 * them as they are, and answers how many they are: at most GORVLIME_LAYOUT_ONE_RANGE_MOST with one range, and
 * GORVLIME_LAYOUT_MOST with sixteen. The count of layouts, in front of the first one, is one byte that the board writes
 * itself.
 * Refusals: 1, 2, 9.
 */
struct gorvlime_stored gorvlime_export_layout(struct gorvlime_shape shape, uint8_t *out, size_t out_count);

/*
 * A record of a field, for a new dump.
 *
 * Takes a serial of your choice (0 to GORVLIME_SERIAL_MOST), the number of the field's layout in the list (0 to
 * GORVLIME_LAYOUTS_MOST - 1), the field's shape, which is that layout, its cells and an output. Stores the record at the
 * front of the output, leaves the bytes behind it as they are, and answers its length, at most GORVLIME_RECORD_NEW_MOST
 * bytes. The list is not lent: that the shape is the listed one is up to you. Cells that have no reading, blank ones of forms
 * 1 and 2 too, are exported as any others.
 * Refusals: 10, 1, 2, 3, 9.
 */
struct gorvlime_stored gorvlime_export_record(uint64_t serial, uint64_t layout, struct gorvlime_shape shape,
                                              const uint8_t *cells, size_t cells_count, uint8_t *out, size_t out_count);

/*
 * The layout list of a new dump.
 *
 * Answers how many layouts are listed and the offset of the first record, where a walk starts; with no record it is the
 * dump's end. Refusals: 8, 7 with offset 0.
 */
struct gorvlime_opened { uint64_t refusal, offset, layouts, first; };

struct gorvlime_opened gorvlime_open_new(const uint8_t *dump, size_t dump_count);

/*
 * One layout of a new dump, with all its ranges.
 *
 * Takes a new dump and the number of a layout, which is its place in the list, from 0. Answers the layout as it is listed, in
 * bounds or not: form, m, t, the count of its ranges, which is t in form 2 and 1 in every other, and the ranges, zeros behind
 * them. Handed to the other calls, it is the shape of the fields that have this layout.
 * Refusals: 8; 7 for a broken list, which is at offset 0; then 1 for a number that is not below the count of layouts.
 */
struct gorvlime_listed { uint64_t refusal; struct gorvlime_shape shape; };

struct gorvlime_listed gorvlime_listed_shape(const uint8_t *dump, size_t dump_count, uint64_t number);

/*
 * One record of a new dump.
 *
 * Takes a new dump of at most GORVLIME_DUMP_MOST bytes and the offset of a record in it: the `first` of gorvlime_open_new,
 * then the `next` of the step before. A record is read wherever the offset points, inside the list too; at or past the
 * dump's end is the end.
 *
 *     a record    refusal 0, records 1; its serial, the number of its layout and the listed form, m, t and v, which is the
 *                 first range, and the only one but in form 2; its cells are the dump's bytes start to start + length - 1;
 *                 next, where the next step starts; then what gorvlime_read says of the cells: `refused`, which is 0 or the
 *                 record's own refusal 1, 2, 3, 11, 15 or 16, and generation, number, left and unerased
 *     the end     refusal 0, records 0
 *     refused     refusal 8; or 7 with offset 0 for the list, or with the offset of the record's first byte; records 0
 *
 * What is not named for a case is 0 in it. gorvlime_listed_shape tells the other ranges of form 2. Each step passes over the
 * list again and works out the layout: for more than a few records take gorvlime_walk_new.
 */
struct gorvlime_found_new {
    uint64_t refusal, offset, records, serial, layout, form, m, t, v;
    uint64_t start, length, next, refused, generation, number, left, unerased;
};

struct gorvlime_found_new gorvlime_step_new(const uint8_t *dump, size_t dump_count, size_t at);

/*
 * Many records of a new dump: the same as steps from `at` on, and quicker where records repeat a layout.
 *
 * All is as in gorvlime_walk, but that a row has GORVLIME_ROW_NEW numbers, in the order serial, layout, form, m, t, v, start,
 * length, refused, generation, number, left, unerased, where v is the first range as in a step; that `at` is the `first` of
 * gorvlime_open_new to begin with; and that a broken list is refused with 7 whatever the room, with all else 0. It passes
 * over the list once.
 */
#define GORVLIME_ROW_NEW 13

struct gorvlime_walked gorvlime_walk_new(const uint8_t *dump, size_t dump_count, size_t at, uint64_t *rows,
                                         size_t rows_count);

/*
 * An old dump as a new one.
 *
 * Takes an old dump and an output. Stores the new dump at the front of the output, leaves the bytes behind it as they are,
 * and answers its length. The layouts are of form 0, in the order of their first use. What the cells say and whether m, t, v
 * are in bounds does not matter: every record moves. The new dump is at most 129 bytes longer, and shorter where layouts
 * repeat often; GORVLIME_DUMP_MOST bytes of output are always enough.
 * Moved back, it is the old dump again, byte for byte.
 * Refusals: 8, 7, 13, 8 for a new dump of more than GORVLIME_DUMP_MOST bytes, 9.
 */
struct gorvlime_moved { uint64_t refusal, offset, length; };

struct gorvlime_moved gorvlime_move_to_new(const uint8_t *dump, size_t dump_count, uint8_t *out, size_t out_count);

/*
 * A new dump as an old one.
 *
 * The same the other way. Every listed layout has to be of form 0, used or not. The list itself is not kept: moved to new
 * again, the dump is the same where its layouts are all used, different and in the order of their first use.
 * Refusals: 8, 7, 12, 8 for an old dump of more than GORVLIME_DUMP_MOST bytes, 9.
 */
struct gorvlime_moved gorvlime_move_to_old(const uint8_t *dump, size_t dump_count, uint8_t *out, size_t out_count);

/*
 * Bytes as an Intel HEX text.
 *
 * Takes at most GORVLIME_HEX_BYTES_MOST bytes, of cells or any others, and an output. Stores the text at the front of the
 * output, leaves the bytes behind it as they are, and answers the text's length: n bytes make GORVLIME_HEX_LENGTH(n)
 * characters, at most GORVLIME_HEX_MOST, and no 0 behind them.
 * The text is a data line for each 16 bytes, the last one for what is left, at addresses from 0, and the end line
 * :00000001FF. Its digits are upper case and each line ends in a line feed.
 * Refusals: 8, 9.
 */
struct gorvlime_stored gorvlime_hex_export(const uint8_t *bytes, size_t bytes_count, uint8_t *out, size_t out_count);

/*
 * The bytes of an Intel HEX text.
 *
 * Takes a text of any length and an output. Stores the bytes at the front of the output, leaves what is behind them as it
 * is, and answers how many they are: at most GORVLIME_HEX_BYTES_MOST, and fewer than text_count / 2.
 * A line is a colon, the count of its data bytes (0 to 255), an address, a type, the data and a sum, in hex digits of
 * either case: four for the address, two for each other byte. With the sum, all bytes of the line add up to 0 modulo 256.
 * Each line, the last one too, ends in a line feed, with or without a carriage return before it. Data lines are of type
 * 00; the data begins at address 0 and runs on without a gap to FFFF at most, and a line of no data may have any address.
 * The last line is the end line :00000001FF, and nothing is behind it.
 * Refusals: at each line 23 (there is none), 20, 21, 22, 24; behind the end line 24; then 9.
 */
struct gorvlime_stored gorvlime_hex_import(const uint8_t *text, size_t text_count, uint8_t *out, size_t out_count);

#ifdef __cplusplus
}
#endif

#endif
