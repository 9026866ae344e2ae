/* A proved reader and writer of LXT traces.
 *
 * Every function takes any bytes and any question, and answers 0 or the number of the one refusal, that of
 * the first check that fails (enum lxt_refusal). Where it refuses, nothing that was lent has changed.
 *
 * Each call that reads judges the file first, by all of its checks, 1 to 17, whatever was asked before;
 * lxt_carry_on alone makes only 1 to 14 of them. After the file come 35, 18, 19, 21 and 22, in this order; in
 * lxt_carry_on 21 for the record, 20, and 21 for the output. So a question costs time that grows with the
 * file's length and its number of changes: to read many changes of a large file, walk, and for the values of
 * many facilities at one time, ask for a column. lxt_write makes a file and gives 24 and 25 alone.
 *
 * What the caller owes:
 *
 * - A pointer is to as many objects as its length or room says, or to one object of its type. With a length
 *   or room of 0 it may be null. No other pointer may be null.
 * - What is written overlaps nothing else that is lent; what is only read may overlap. What is lent, the
 *   bytes of the file above all, does not change during the call.
 * - 128 KiB of stack are enough for each call; the most that was measured is 123,880 bytes.
 *
 * The functions keep nothing between calls: there is nothing to set up or to free, and calls can be made
 * from any thread. The archive needs memcpy and memset of the C library and nothing else.
 */
#ifndef LXT_H
#define LXT_H

#include <stddef.h>
#include <stdint.h>

#ifdef __cplusplus
extern "C" {
#endif

/* The limits of an accepted file: its length in bytes, its number n of facilities, the length of a name in
 * bytes, the width of a facility in bits. With room for LXT_MOST_FACILITIES pairs, LXT_LONGEST_NAME bytes of
 * names and LXT_WIDEST bytes of bits there is enough for every file. LXT_LONGEST_COLUMN is how many facility
 * numbers a column asks for at most. */
enum {
    LXT_SHORTEST_FILE = 6,
    LXT_LONGEST_FILE = 16777216,
    LXT_MOST_FACILITIES = 4096,
    LXT_LONGEST_NAME = 1023,
    LXT_WIDEST = 4096,
    LXT_LONGEST_COLUMN = 4096
};

/* What a function answers. docs/FORMAT.md has the rules behind each number, and an example. */
enum lxt_refusal {
    LXT_ACCEPTED = 0,
    /* the file has fewer than 6 or more than 16,777,216 bytes */
    LXT_REFUSED_LENGTH = 1,
    /* the first bytes are not 01 38 and a version from 0 to 4 */
    LXT_REFUSED_FIRST_BYTES = 2,
    /* the last byte is not B4 */
    LXT_REFUSED_LAST_BYTE = 3,
    /* the section list runs below offset 4 before its END tag */
    LXT_REFUSED_SECTION_LIST = 4,
    /* a section is compressed (tags 0A to 12), which is not read here */
    LXT_REFUSED_COMPRESSED = 5,
    /* there are both 32-bit times (tag 06) and 64-bit times (tag 09) */
    LXT_REFUSED_TWO_TIMES = 6,
    /* the changes, sync, names or geometry section (tags 01, 02, 03, 04) is absent, or both times
       sections (tags 06 and 09) are */
    LXT_REFUSED_ABSENT = 7,
    /* the changes start outside offset 4 to END, or the sync, names, geometry, timescale, times or
       initial value section does not lie there */
    LXT_REFUSED_PLACE = 8,
    /* the names section counts more than 4,096 facilities */
    LXT_REFUSED_TOO_MANY_FACILITIES = 9,
    /* in the names section a name passes END, takes more than the name before has or is longer than
       1,023 bytes, or all need more than the stated memory */
    LXT_REFUSED_NAMES = 10,
    /* in the geometry section the rows, flags or width of a facility are not allowed */
    LXT_REFUSED_GEOMETRY = 11,
    /* in the geometry section an alias leads to no facility, or in a circle */
    LXT_REFUSED_ALIAS = 12,
    /* in the times section a position or a time is out of bounds, a time delta after the first is
       negative, or there is no entry although there are changes */
    LXT_REFUSED_TIMES = 13,
    /* there is a real facility, and the real test section (tag 08) is absent, out of bounds or no
       reordering of 3.14159 */
    LXT_REFUSED_REAL_TEST = 14,
    /* a change starts outside the changes section, passes END, or leads back to an offset that is
       neither 0 nor in that section */
    LXT_REFUSED_CHANGE_PLACE = 15,
    /* a change has a command byte or data that its facility does not allow */
    LXT_REFUSED_CHANGE_BYTES = 16,
    /* two changes share a byte, or two facilities that are no aliases share a change */
    LXT_REFUSED_SHARED_BYTE = 17,
    /* there is no facility of that number */
    LXT_REFUSED_NO_FACILITY = 18,
    /* the facility has no change at that offset */
    LXT_REFUSED_NO_CHANGE = 19,
    /* in the walk's record a pair has a wrong number, or a pending offset that is an alias's or from
       which the changes downwards break a rule of 15 or 16 */
    LXT_REFUSED_RECORD = 20,
    /* too little room was lent: names need 1,023 bytes, bits the width, a column all widths together
       and an item for each number, a record a pair for each facility, an output two numbers for each
       change */
    LXT_REFUSED_ROOM = 21,
    /* the asked bytes are not one for each facility */
    LXT_REFUSED_ASKED = 22,
    /* the input of the writer breaks a limit or a rule, or its file would have more than 16,777,216
       bytes */
    LXT_REFUSED_WRITER_INPUT = 24,
    /* the file that is to be written has more bytes than the room that was lent */
    LXT_REFUSED_WRITER_ROOM = 25,
    /* a column asks for more than 4,096 facility numbers */
    LXT_REFUSED_LONG_COLUMN = 35
};

/* Padding is the bits of a change's last data byte that no symbol uses: symbols fill whole bytes. It is clean
 * where all of these bits are 0. Rubbish there is accepted and changes no value; clean says only whether
 * there was some. A real, a text, a change without data and one whose symbols use every bit are always
 * clean. */

/* What judging answers of an accepted file. */
typedef struct {
    uint32_t facilities; /* n; facilities have the numbers 0 to n - 1 */
    uint32_t changes;    /* C, where the changes start */
    uint32_t end;        /* T, the offset of the END byte */
    uint32_t initial;    /* the code of the initial symbol, 0 to 8: its place in LXT_SYMBOLS */
    uint32_t clean;      /* 1 where the padding of every change of every root is clean, so too where there
                            are no changes; else 0 */
} lxt_summary;

/* The symbols that bits and integers are written in, by their codes. */
#define LXT_SYMBOLS "01ZXHUWL-"

/* Judges a file. One unit of time is ten to the power of timescale seconds: -9 is nanoseconds. Where the
 * file has no timescale, or one outside -21 to 2, it is -9. */
uint32_t lxt_judge(const uint8_t *file, size_t length, lxt_summary *summary, int8_t *timescale);

/* How many stray bytes a file has: bytes from offset 4 up to END that belong to nothing. A byte belongs to
 *
 * - a change of a root: its command byte, its delta and its data, with the zero of a text; or
 * - a section that is there and lies wholly between offset 4 and END, whether it is read or passed over: tags
 *   02 to 09, 13 and 14, and 08 also where no facility is real. The names end behind the last name.
 *
 * All other bytes are stray: gaps, and changes that no root leads to. The rules allow them: the file is
 * accepted all the same, and the other calls answer as they do without them.
 *
 * They are the sign of a file that is made of two. A shorter trace saved over the start of a longer one may
 * keep every rule, and then bytes of the one run are shown under the names of the other. So where stray is not
 * 0, a program that reports on a run should send no report, and say why. 0 says that every byte has its place.
 * It does not say that the values are right, nor that all bytes are of one run: parts that fit together
 * without a gap leave none. The traces of gpsim and of GTKWave's writer that were tried have 0. */
uint32_t lxt_stray(const uint8_t *file, size_t length, uint32_t *stray);

enum lxt_kind { LXT_BITS = 0, LXT_INTEGER = 1, LXT_REAL = 2, LXT_TEXT = 3 };

typedef struct {
    uint32_t width; /* in symbols: |msb - lsb| + 1 of bits, 32 of an integer; 0 of a real or a text */
    uint32_t kind;  /* an enum lxt_kind */
} lxt_facility;

/* The facts of a facility; an alias answers its root's. msb and lsb are the numbers of the first and the
 * last symbol of bits; 31 and 0 of an integer, 0 and 0 of a real or a text. */
uint32_t lxt_facts(const uint8_t *file, size_t length, uint32_t facility, lxt_facility *facts, int32_t *msb,
                   int32_t *lsb);

/* The root of a facility, which has its changes; a root's root is itself. */
uint32_t lxt_root(const uint8_t *file, size_t length, uint32_t facility, uint32_t *root);

/* The name of a facility: its bytes, then zeros up to LXT_LONGEST_NAME; later bytes of names stay. size is
 * its length. A name of that length has no zero behind it. room is LXT_LONGEST_NAME or more, however short
 * the name. Names are any bytes but 0: of any encoding, line feeds and terminal escapes among them. */
uint32_t lxt_name(const uint8_t *file, size_t length, uint32_t facility, uint8_t *names, size_t room,
                  uint32_t *size);

/* The offset of the change before the change at an offset; 0 where there is none. */
uint32_t lxt_change_before(const uint8_t *file, size_t length, uint32_t facility, uint32_t offset,
                           uint32_t *before);

/* A value: what it is, and one or two numbers by what it is.
 *
 *     what               number                            length
 *     LXT_IS_BITS        the width: so many symbols        0
 *                        are the first bytes of bits
 *     LXT_IS_REAL        the 64 bits of a binary64         0
 *     LXT_IS_TEXT        where the text starts in          its length in bytes, without the
 *                        the file                          zero behind it in the file
 *     LXT_NOT_DRIVEN     0                                 0
 *
 * Bits and integers have symbols, LXT_SYMBOLS in ASCII, and need a room of their width or more; bytes of bits
 * past the width stay, and all of them for a real or a text. A real's number as a double is
 * memcpy(&real, &value.number, 8). Texts are any bytes but 0. Not driven is a real or a text that has no
 * change up to the time; bits and integers have the initial symbol at every place then, and lxt_text_at and
 * lxt_column answer a lent text in place of one that is not driven. LXT_IS_LENT_TEXT is that text, and only
 * in an item of a column. */
enum lxt_what {
    LXT_IS_BITS = 0,
    LXT_IS_REAL = 1,
    LXT_IS_TEXT = 2,
    LXT_NOT_DRIVEN = 3,
    LXT_IS_LENT_TEXT = 4
};

typedef struct {
    uint64_t what; /* an enum lxt_what */
    uint64_t number;
    uint64_t length;
} lxt_value;

/* Times are signed numbers of 64 bits: 0 to 4,294,967,295 in a file with 32-bit times (tag 06), and any, below
 * 0 too, in one with 64-bit times (tag 09). */

/* The time and the value of the change at an offset, and clean: 1 where its padding is clean, else 0. */
uint32_t lxt_change(const uint8_t *file, size_t length, uint32_t facility, uint32_t offset, uint8_t *bits,
                    size_t room, int64_t *time, lxt_value *value, uint32_t *clean);

/* The value at a time, which may be any: that of the change of highest offset whose time is at most that.
 *
 * visited is how many changes the lookup went past: those of the facility's root with a later time, and the
 * change answered, if any. An alias counts its root's. Before the first change it is all of them. It is at most
 * half the bytes between C and T, since each change takes two bytes at least. Judging is not counted. */
uint32_t lxt_value_at(const uint8_t *file, size_t length, uint32_t facility, int64_t time, uint8_t *bits,
                      size_t room, lxt_value *value, uint32_t *visited);

/* A text as a part of the file or of a text that the caller lends, and which of the two:
 *
 *     from               start                             length
 *     LXT_FROM_FILE      where the text starts in          its length in bytes, without the
 *                        the file                          zero behind it in the file
 *     LXT_FROM_LENT      0                                 that of the whole lent text
 *     LXT_OTHER_KIND     0                                 0
 *
 * Another kind is bits, an integer or a real, driven or not: it has no text. */
enum lxt_from { LXT_FROM_FILE = 0, LXT_FROM_LENT = 1, LXT_OTHER_KIND = 2 };

typedef struct {
    uint64_t from;   /* an enum lxt_from */
    uint64_t start;  /* of the part in the file; else 0 */
    uint64_t length; /* of the part in bytes, without the zero behind it in the file; 0 of another kind */
} lxt_part;

/* The text at a time, which may be any, with a lent text as the default. It is that of the change of highest
 * offset whose time is at most that, as by lxt_value_at. Where there is none, whether the facility has later
 * changes or no change at all, it is the whole lent text. An alias is asked as its root.
 *
 * Nothing is copied: the bytes of the part are at
 *
 *     (part.from == LXT_FROM_FILE ? file : text) + part.start
 *
 * An empty part does not say which of the two it is, since either text may be empty; from says it.
 *
 * The lent text is any bytes, zeros too, of any length, and may lie in the file; its bytes are not read. Only
 * part is written, so there is no lack of room: after the file's refusals 18 is the only one. Where it refuses,
 * part stays as it was. */
uint32_t lxt_text_at(const uint8_t *file, size_t length, uint32_t facility, int64_t time,
                     const uint8_t *text, size_t text_length, lxt_part *part);

/* One item of a column: what it is, and its place or its number by what it is. What is not named is 0.
 *
 *     what               start                   length                            real
 *     LXT_IS_BITS        of the symbols, in      the width: so many symbols        0
 *                        the lent bits
 *     LXT_IS_REAL        0                       0                                 the 64 bits of a
 *                                                                                  binary64
 *     LXT_IS_TEXT        of the text, in         its length in bytes, without      0
 *                        the file                the zero behind it
 *     LXT_NOT_DRIVEN     0                       0                                 0
 *     LXT_IS_LENT_TEXT   0                       that of the whole lent text       0
 */
typedef struct {
    uint64_t what;   /* an enum lxt_what */
    uint64_t start;  /* bits: in the lent bits; a text in the file: there; else 0 */
    uint64_t length; /* bits: the width; a text: its bytes, in the file or of the lent one; else 0 */
    uint64_t real;   /* the 64 bits of a real; else 0 */
} lxt_item;

/* A column: the values of many facilities at one time, as lxt_value_at and lxt_text_at answer them one by one,
 * with the file judged once. This prints those of all n facilities, where n is facilities of lxt_judge's
 * summary:
 *
 *     static uint32_t all[LXT_LONGEST_COLUMN];
 *     static lxt_item items[LXT_LONGEST_COLUMN];
 *     static uint8_t bits[(size_t)LXT_LONGEST_COLUMN * LXT_WIDEST];
 *     uint64_t visited;
 *     for (uint32_t i = 0; i < n; i++)
 *         all[i] = i;
 *     uint32_t refused = lxt_column(file, length, time, all, n, text, text_length, bits, sizeof bits, items,
 *                                   LXT_LONGEST_COLUMN, &visited);
 *     for (uint32_t i = 0; !refused && i < n; i++) {
 *         const lxt_item *item = &items[i];
 *         if (item->what == LXT_IS_BITS)
 *             show_symbols(bits + item->start, item->length);
 *         else if (item->what == LXT_IS_REAL)
 *             show_real(item->real);
 *         else if (item->what == LXT_NOT_DRIVEN)
 *             show_nothing();
 *         else
 *             show_text((item->what == LXT_IS_TEXT ? file : text) + item->start, item->length);
 *     }
 *
 * The list may have any order, and a number may stand in it more than once: items are in the order of the
 * list, one for each number. The symbols of bits and integers lie one after the other from the start of bits,
 * in that order too, each item with its own. Reals and texts take no bytes there. An alias is asked as its
 * root.
 *
 * Before its first change a real is not driven, and a text is the whole lent text, by lxt_text_at's rule. That
 * is any bytes, zeros too, of any length, and may lie in the file; its bytes are not read.
 *
 * visited is what lxt_value_at would count for each item, all together.
 *
 * room counts bytes and items_room items. LXT_WIDEST bytes for each number of the list are always enough.
 * Only the widths are touched, so the rest of a large buffer costs nothing where the system gives memory when
 * it is first used. Bytes of bits past the widths and items past count stay. An empty list needs no room, of
 * a file without facilities too.
 *
 * After the file's refusals: 35 where count is above LXT_LONGEST_COLUMN, 18 where a number of the list is not
 * below n, whatever the room, and 21 where room is below the sum of the widths, or items_room below count. Where
 * it refuses, bits, items and visited stay as they were.
 *
 * It takes the time of judging, of one pass over the times, of one down the changes of each root that is asked
 * for, however often it is, and of what is written. */
uint32_t lxt_column(const uint8_t *file, size_t length, int64_t time, const uint32_t *facilities, size_t count,
                    const uint8_t *text, size_t text_length, uint8_t *bits, size_t room, lxt_item *items,
                    size_t items_room, uint64_t *visited);

/* The walk: all changes of the facilities asked for, the highest offset first, in calls of any size. All
 * changes of all facilities, where n is facilities of lxt_judge's summary:
 *
 *     static lxt_pair pairs[LXT_MOST_FACILITIES];
 *     static uint8_t asked[LXT_MOST_FACILITIES];
 *     static uint32_t output[2 * 65536];
 *     lxt_handed handed = {0, 0};
 *     memset(asked, 1, n);
 *     uint32_t refused = lxt_start_walk(file, length, asked, n, pairs, n);
 *     while (!refused && !handed.done) {
 *         refused = lxt_carry_on(file, length, pairs, n, 65536, output, 2 * 65536, &handed);
 *         for (uint32_t i = 0; !refused && i < handed.count; i++)
 *             use(output[2 * i], output[2 * i + 1]);      the root's number, the change's offset
 *     }
 *
 * Each call reads again all changes that are still to come, so few large calls are faster than many small
 * ones; the answers are the same.
 *
 * The record of a walk is an array of one pair per facility, n in all, in memory of the caller's. Pair i has
 * the number i and a pending offset: that of the next change of facility i to be handed out, or 0. Only
 * roots have changes, so an alias's pending offset is 0. The record is all that there is of a walk: it may
 * be copied to carry on from there twice, and a walk may be left at any time. Pairs past n are neither read
 * nor written. */
typedef struct {
    uint32_t number;
    uint32_t offset;
} lxt_pair;

/* Starts a walk. asked has one byte per facility, not 0 where it is asked for; an alias asks for its root,
 * and a root is walked once, under its own number. Writes the record: the number of each facility, and the
 * newest change of each root asked for, else 0. Pairs past n stay. room counts pairs.
 * After the file's refusals: 21 where room is below n, then 22 where asked_length is not n. */
uint32_t lxt_start_walk(const uint8_t *file, size_t length, const uint8_t *asked, size_t asked_length,
                        lxt_pair *pairs, size_t room);

typedef struct {
    uint32_t count; /* how many changes were handed out */
    uint32_t done;  /* 1 where all pending offsets are now 0 and the walk is done, else 0 */
} lxt_handed;

/* Carries on with a walk: up to size times the highest pending offset is handed out, as the root's number
 * and the change's offset, and replaced in the record by that of the change before, or 0. Of equal offsets
 * the lowest facility goes first; in a file that lxt_judge accepts no two are equal. The pairs stand one
 * after the other from the start of output, which counts numbers, two a pair; output past the pairs
 * written stays. A size of 0 hands out none and tells whether the walk is done. After the end a call hands
 * out none and answers done.
 * The same file is to be lent with each call, and the record as the call before left it; then only a
 * short output is refused, with 21, and the walk can carry on with the next call.
 * The refusals: 1 to 14 of the file; 21 where pairs_length is below n; 20 where a pair has a wrong number, or a
 * pending offset not 0 of an alias, or one whose changes downwards break a rule of 15 or 16; 21 where
 * output_room is below 2 * size, which does not wrap. */
uint32_t lxt_carry_on(const uint8_t *file, size_t length, lxt_pair *pairs, size_t pairs_length, uint32_t size,
                      uint32_t *output, size_t output_room, lxt_handed *handed);

/* What is to be written: facilities, whose numbers are their places from 0 on, and changes in the order in
 * which they are to stand in the file. Names and values are parts of two lent buffers, each by its start and
 * length in bytes. Parts may overlap or be shared, and bytes of a buffer that no part has do not matter. */
typedef struct {
    uint32_t name_start;
    uint32_t name_length; /* up to LXT_LONGEST_NAME bytes, none of them 0; names may be equal or empty */
    uint32_t kind;        /* an enum lxt_kind */
    int32_t msb;          /* of bits |msb - lsb| + 1 symbols, up to LXT_WIDEST. Of the other kinds msb and */
    int32_t lsb;          /* lsb may be any: 31 and 0 are written for integers, 0 and 0 for reals and texts */
} lxt_new_facility;

/* A value is, by the facility's kind,
 *
 *     bits       as many symbols, LXT_SYMBOLS in ASCII, as they are wide
 *     integer    32 symbols, 0 and 1 in ASCII
 *     real       the 8 bytes of a binary64, the lowest first
 *     text       any bytes but 0, without a zero behind them
 */
typedef struct {
    uint32_t facility;
    uint32_t time; /* not below that of the change before it, of whatever facility */
    uint32_t value_start;
    uint32_t value_length;
} lxt_new_change;

/* Writes a trace of version 4 with 32-bit times (tag 06). Where it answers 0, length is the file's length and
 * the first length bytes of out are the file; out past them stays.
 *
 * The file is accepted, with no stray bytes and clean padding, and is read back as what was given: the same
 * names, kinds and ends of bits, and the same changes, those of one time in their order. Its bytes are settled
 * by what is given: each change takes the fewest bytes that can hold it, each different time has one entry, and
 * each name takes over all that it shares with the name before.
 *
 * initial is the code of the symbol that bits and integers have before their first change, 0 to 8: its place
 * in LXT_SYMBOLS. timescale is -21 to 2. A room of LXT_LONGEST_FILE bytes is enough for every file.
 *
 * The refusals: 24 where something breaks a rule, whatever the room: more than LXT_MOST_FACILITIES facilities,
 * a part that is not inside its buffer, what is said above about names, kinds, widths, initial, timescale,
 * facility numbers, times and values, or a file of more than LXT_LONGEST_FILE bytes. Then 25 where room is
 * below the file's length. No facilities, no changes, empty texts and values that repeat are fine. */
uint32_t lxt_write(const lxt_new_facility *facilities, size_t facility_count, const uint8_t *names,
                   size_t names_length, const lxt_new_change *changes, size_t change_count,
                   const uint8_t *values, size_t values_length, uint8_t initial, int8_t timescale,
                   uint8_t *out, size_t room, uint32_t *length);

#ifdef __cplusplus
}
#endif

#endif
