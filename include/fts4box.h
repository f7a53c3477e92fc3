/* fts4box: counting rows from raw FTS4 segment leaves.
 *
 * Each call returns the number of its answer and stores the number beside it in *second. Every call comes back for any
 * bytes, any lengths and any counts: what breaks a rule is refused by its own number, and input is never changed. What each
 * call answers is proved; docs/GUARANTEES.md says what exactly, and what is assumed.
 *
 * docs/REFERENCE.md has all that a caller needs beside this: the layouts, the query language, what earns each answer, and the
 * differences from SQLite.
 *
 * Lending. A slice is a pointer and a length, counted in elements; NULL goes with length 0. Several byte strings are lent as
 * one slice with a list of 32-bit ends: the ends never fall, none passes the slice's length, and the last equals it; an
 * empty list goes only with an empty slice.
 *
 * Age. The leaves of an index come in any order, each with its level and its index, as SQLite's %_segdir has them (level, idx). A
 * leaf is newer than another if its level is lower, or the levels are the same and its index is higher. No two have the same pair.
 *
 * What a caller must keep (it is not checked): every pointer is aligned and has so many elements from it on; the numbers to be
 * stored are not NULL; rooms and those numbers do not overlap each other or an input.
 *
 * Rooms. A refusal leaves the whole room zeros; acceptance leaves the result and then zeros. A room of length 0 is enough for
 * no result. Number 4 is given exactly when the need is greater than the room's length.
 *
 * The calls keep no state, so they are reentrant and may run on several threads at once. They use no heap and no files, and
 * need no other symbol than memcpy, memmove and memset.
 *
 * Stack, measured on x86-64 (bench/stack.sh):
 *     fts4_check, fts4_lookup and fts4_deciding 1 KiB, fts4_write 37 KiB, fts4_search 254 KiB, fts4_verdict 255 KiB,
 *     fts4_merge and fts4_merge_keeping 13 KiB
 */
#ifndef FTS4BOX_H
#define FTS4BOX_H

#include <stddef.h>
#include <stdint.h>

#ifdef __cplusplus
extern "C" {
#endif

/* A change of a signature or of what a call answers raises the version. The number is 100 times its first part plus the second. */
#define FTS4BOX_VERSION "1.8"
#define FTS4BOX_VERSION_NUMBER 108

/* The bounds: what is over one is refused. */
#define FTS4_MAX_QUERY 512      /* bytes of a query */
#define FTS4_MAX_QUERY_WORDS 16 /* words in a query, those of phrases and repetitions too */
#define FTS4_MAX_DEPTH 8        /* parentheses inside each other */
#define FTS4_MAX_LEAVES 8
#define FTS4_MAX_BYTES 65536    /* bytes of all leaves of a call together */
#define FTS4_MAX_COLUMNS 16
#define FTS4_MAX_NAME 32        /* bytes of a column name */
#define FTS4_MAX_WORD 64        /* bytes of a word */
#define FTS4_MAX_DOCUMENT 4096  /* bytes of a document's columns together */
#define FTS4_MAX_RUN 4096       /* rows of a run, from its first docid to its last */

/* Rooms that are enough for every input, so that number 4 is never given. */
#define FTS4_SEARCH_ROOM 21845 /* docids of a search, or of each list of a verdict */
#define FTS4_WRITE_ROOM 40960  /* bytes */
#define FTS4_MERGE_ROOM 65536  /* bytes: a merge that needs more is refused by number 1 */

enum {
    FTS4_ACCEPTED = 0,    /* second: docids listed, bytes written, bytes in the part, or rows of the run */
    FTS4_SHAPE = 1,       /* ends, names, counts, sizes, levels and indexes, a word's length, a run, a merge's size; second is 0 */
    FTS4_QUERY = 2,       /* a query is not in the language or over a bound of it; second is 0 */
    FTS4_LEAF = 3,        /* a leaf breaks a rule; second is the first such leaf, counted from 0 in the order lent */
    FTS4_ROOM = 4,        /* a room is too small; second is what is needed */
    FTS4_WORD = 5,        /* a document word over 64 bytes; second is the first column that has one */
    FTS4_TWO_VERDICTS = 7 /* a row of the run is in two lists; second is the smallest such docid */
};

/* Checks one leaf of a table with so many columns.
 *
 * Answers 0 if every rule of a leaf holds; 1 if columns is not 1 to 16 or the leaf has more than 65,536 bytes; else 3. The
 * number beside each is 0. */
uint32_t fts4_check(const uint8_t *leaf, size_t leaf_len, uint32_t columns, uint64_t *second);

/* Looks a word of 1 to 64 bytes up in one leaf, with no folding.
 *
 * Answers 0, 1 or 3. If the answer is 0 and *second is not 0, the word's posting list is leaf[*start .. *start + *second];
 * otherwise there is no such list, and *start is 0. *numbers_read is how many stored numbers were read outside posting lists, the
 * check of the leaf not counted: 3 for each word looked at, up to the first that is not less than the one sought; 0 if refused. */
uint32_t fts4_lookup(const uint8_t *leaf, size_t leaf_len, uint32_t columns, const uint8_t *word, size_t word_len,
                     uint64_t *second, uint64_t *start, uint64_t *numbers_read);

/* Looks for the entry that decides for a word and a docid: of the newer leaf if it has one, a deletion too, else of the older. The
 * two leaves have at most 65,536 bytes together.
 *
 * Answers 0, 1 or 3 (with 0 for the newer leaf, 1 for the older). If the answer is 0 and *second is not 0, the entry is the
 * *second bytes from *start on of the newer (*leaf is 0) or the older leaf (*leaf is 1); otherwise there is none, and *leaf and
 * *start are 0. */
uint32_t fts4_deciding(const uint8_t *newer, size_t newer_len, const uint8_t *older, size_t older_len, uint32_t columns,
                       const uint8_t *word, size_t word_len, int64_t docid,
                       uint64_t *second, uint32_t *leaf, uint64_t *start);

/* Writes the leaf for one document: a docid and the texts of its 1 to 16 columns, together at most 4,096 bytes.
 *
 * Answers 0 with the bytes written, 0 bytes for a document without words; or, checked in this order, 1; 5 with the first column
 * that has a word over 64 bytes; 4 with the bytes needed. */
uint32_t fts4_write(int64_t docid, const uint8_t *texts, size_t texts_len, const uint32_t *ends, size_t ends_len,
                    uint8_t *room, size_t room_len, uint64_t *second);

/* Lists the docids of all rows that satisfy a query, rising as signed numbers, each once.
 *
 * Lent are 1 to 16 column names (1 to 32 ASCII letters, digits or _, no two equal when case is ignored), 0 to 8 leaves of together
 * at most 65,536 bytes, in any order, a level and an index for each leaf, in the order of the leaves, and a query of at most 512
 * bytes in the enhanced syntax.
 *
 * Answers 0 with the count of docids; or, checked in this order, 1; 2; 3 with the first leaf that breaks a rule, in the order
 * lent; 4 with the count of docids. The same leaves with the same pairs give the same list in every order. */
uint32_t fts4_search(const uint8_t *names, size_t names_len, const uint32_t *name_ends, size_t name_ends_len,
                     const uint8_t *leaves, size_t leaves_len, const uint32_t *leaf_ends, size_t leaf_ends_len,
                     const uint32_t *levels, size_t levels_len, const uint32_t *indexes, size_t indexes_len,
                     const uint8_t *query, size_t query_len, int64_t *room, size_t room_len, uint64_t *second);

/* The verdict sheet of a run: how many of its rows, from docid first to docid last, satisfy the query for passes, the one for
 * failures and the one for silence, and how many satisfy none of them.
 *
 * Names, leaves, levels and indexes are lent as for a search, and each query is as there. Each list has a room of its own.
 *
 * Answers 0 with the rows of the run; or, checked in this order, 1 if last is below first or the run has more than 4,096 rows;
 * all that fts4_search refuses the pass query for, with its second number; then the fail query; then the silent query; 7 with
 * the smallest docid of the run that is in two lists. *second is signed, since that docid may be below 0.
 *
 * If the answer is 0, *passed, *failed and *silenced are the rows of the run in each list and *none those in no list; the four
 * add up to *second. The rooms hold the three lists whole. Docids outside the run count nowhere and earn no 7: the passes of the
 * run are the first *passed numbers of pass_room that lie from first to last, and likewise for the other rooms. If the answer is
 * another, the four counts are 0 and the three rooms all zeros. */
uint32_t fts4_verdict(int64_t first, int64_t last,
                      const uint8_t *names, size_t names_len, const uint32_t *name_ends, size_t name_ends_len,
                      const uint8_t *leaves, size_t leaves_len, const uint32_t *leaf_ends, size_t leaf_ends_len,
                      const uint32_t *levels, size_t levels_len, const uint32_t *indexes, size_t indexes_len,
                      const uint8_t *pass_query, size_t pass_query_len, const uint8_t *fail_query, size_t fail_query_len,
                      const uint8_t *silent_query, size_t silent_query_len,
                      int64_t *pass_room, size_t pass_room_len, int64_t *fail_room, size_t fail_room_len,
                      int64_t *silent_room, size_t silent_room_len,
                      int64_t *second, uint64_t *passed, uint64_t *failed, uint64_t *silenced, uint64_t *none);

/* Merges all leaves of an index, 1 to 8, into one: it has for each word and docid the entry of the newest leaf that has one, but no
 * deletions, and no words that are left without an entry. Every query gives the same list before and after.
 *
 * Lent are the count of columns, leaves of together at most 65,536 bytes, in any order, and a level and an index for each leaf, in
 * the order of the leaves. They must be all leaves of the index: a deletion that is dropped hides nothing any more in a leaf that
 * was left out.
 *
 * Answers 0 with the bytes written, 0 bytes if nothing is left: the index then has no leaf; or, checked in this order, 1; 3 with
 * the first leaf that breaks a rule, in the order lent; 1 if the merged leaf would have more than 65,536 bytes, whatever the room;
 * 4 with the bytes needed. *level and *index are those of the newest leaf lent, and the merged leaf takes them; both are 0 if the
 * answer is not 0, or nothing is written. */
uint32_t fts4_merge(uint32_t columns, const uint8_t *leaves, size_t leaves_len, const uint32_t *leaf_ends, size_t leaf_ends_len,
                    const uint32_t *levels, size_t levels_len, const uint32_t *indexes, size_t indexes_len,
                    uint8_t *room, size_t room_len, uint64_t *second, uint32_t *level, uint32_t *index);

/* Merges neighbours among the leaves of an index, 1 to 8, into one leaf that takes their place, and keeps deletions, so that they
 * go on hiding what older leaves have. Arguments and answers are those of fts4_merge, but that something is always left: 0 always
 * comes with a leaf.
 *
 * Neighbours are leaves with no other leaf of the index between them in age. Where no merge is refused, neighbours may be merged in
 * any grouping, step by step: the bytes and the pair in the end are the same, and so are those of an fts4_merge of all leaves after
 * it. Every query gives the same list before and after. One leaf alone comes back as it is. Leaves that are not neighbours are
 * merged too, since no call sees what is not lent; a query may then list other docids. */
uint32_t fts4_merge_keeping(uint32_t columns, const uint8_t *leaves, size_t leaves_len,
                            const uint32_t *leaf_ends, size_t leaf_ends_len,
                            const uint32_t *levels, size_t levels_len, const uint32_t *indexes, size_t indexes_len,
                            uint8_t *room, size_t room_len, uint64_t *second, uint32_t *level, uint32_t *index);

#ifdef __cplusplus
}
#endif

#endif
