/*
 * Shiulbart: the board's calls, for C99 and C++.
 *
 * The calls are the verified code itself, in libboard.a, for Linux on x86-64. A shape is what a
 * message between two ropeway stations looks like; its encoding takes 1 to 2,048 bytes and has at
 * most 16 levels.
 *
 * What holds for every call
 *
 * - It answers four numbers. If `number` is 0 it is an answer, and `place` is 0; only in
 *   shiulbart_child and shiulbart_name is it a part of the answer. Otherwise it is a refusal:
 *   `number` says what is wrong (enum shiulbart_refusal), `place` says where, and `length` and
 *   `extra` are 0. A field that a call does not use is 0. Of the reader in parts only the finish
 *   answers them: the start and a part give a state.
 * - Bytes, nodes, names and entries are counted from 0.
 * - Inputs (pointers to const) are only read. A call that is lent a buffer for its answer writes
 *   the first `length` bytes of it and no other; a refusal writes nothing.
 * - It keeps no pointer and no state, takes no memory but the stack, and may be called from several
 *   threads at once. The state of the reader in parts goes in and out by value.
 *
 * What the host owes every call
 *
 * - Each pointer is valid for the length beside it: so many bytes may be read there and, in a
 *   buffer lent for an answer, written. A pointer to nodes is valid for so many of them, and aligned
 *   as C wants it.
 * - A buffer lent for an answer overlaps nothing else that is lent to the same call.
 * - A pointer is null only if its length is 0.
 * - No other thread writes to what is lent, or reads a buffer lent for an answer, until the call
 *   has returned.
 *
 * Where these rules are broken nothing is promised. Where they are kept, every input has its answer
 * or its refusal: none crashes a call.
 */
#ifndef SHIULBART_H
#define SHIULBART_H

#include <stddef.h>
#include <stdint.h>

#ifdef __cplusplus
extern "C" {
#endif

/* What a call answers; see above. */
typedef struct shiulbart_answer {
    uint32_t number;
    uint32_t place;
    uint32_t length;
    uint32_t extra;
} shiulbart_answer;

/* The numbers that a refusal carries, and what its place is. */
enum shiulbart_refusal {
    /* cut short: the place of a missing shape; the first byte of a shape that does not fit; the
       place of the length of a text that does not fit */
    SHIULBART_CUT_SHORT = 1,
    /* first byte not assigned: that byte */
    SHIULBART_NOT_ASSIGNED = 2,
    /* size does not match: the shape's first byte; at the end, the first byte left over */
    SHIULBART_SIZE_WRONG = 3,
    /* LEB128 unfinished, over two bytes, or not shortest: its first byte; if missing, where it
       should start */
    SHIULBART_LEB128_WRONG = 4,
    /* text is not UTF-8: the first byte of the text */
    SHIULBART_NOT_UTF8 = 5,
    /* long form where a short one exists: the shape's first byte */
    SHIULBART_LONG_FORM = 6,
    /* deeper than 16: the shape's first byte */
    SHIULBART_TOO_DEEP = 7,
    /* input over 2,048 bytes: 2,048 */
    SHIULBART_INPUT_TOO_LONG = 8,
    /* table section broken: the place of its count; for leftover bytes, the first */
    SHIULBART_SECTION_BROKEN = 9,
    /* table node broken: the node */
    SHIULBART_NODE_BROKEN = 10,
    /* table name broken: the name's entry */
    SHIULBART_NAME_BROKEN = 11,
    /* lent buffer shorter than the answer: the length needed */
    SHIULBART_BUFFER_SHORT = 12,
    /* sheet broken (when joining: the first): the entry, or the byte where a count or what is left
       over starts */
    SHIULBART_SHEET_BROKEN = 13,
    /* second sheet broken: as 13 */
    SHIULBART_SECOND_BROKEN = 14,
    /* made shape deeper than 16: 0; when joining, the blank's number */
    SHIULBART_MADE_TOO_DEEP = 15,
    /* made shape over 2,048 bytes: as 15 */
    SHIULBART_MADE_TOO_LONG = 16,
    /* joined sheet over 32 entries or 16,384 bytes: how many there would be */
    SHIULBART_JOINED_TOO_LARGE = 17,
    /* no such child or name: how many there are */
    SHIULBART_NO_SUCH_PART = 18
};

/*
 * Judges an encoding. If the bytes are exactly one shape, `length` is how many they are and `extra`
 * is the shape's depth, 1 to 16. Otherwise refused with 1 to 8: 8 comes first, then the bytes are
 * read from the left and the first fault met is the answer.
 */
shiulbart_answer shiulbart_read(const uint8_t *bytes, size_t length);

/*
 * Child k of an encoded shape, counted from 0: the `length` bytes from `place` on, with `extra` 0.
 * If the shape is packed (one byte, 96 to 125) its children have no bytes: `place` is then the
 * primitive's number (0 Int, 1 Float, 2 Bool, 3 Str, 4 Bytes), `length` is 0 and `extra` is 1. An
 * Array has 1 child, a Map 2, a Record its fields, a Function its parameters and then its return;
 * all others have none. Refused with 1 to 8 as by shiulbart_read, whatever k is, and then with 18.
 */
shiulbart_answer shiulbart_child(const uint8_t *bytes, size_t length, uint64_t k);

/*
 * Name k of an encoded shape, counted from 0: the `length` bytes from `place` on. They are UTF-8 and
 * may be none. A Record has its fields' names and a Symbol its texts; all others have none. Refused
 * with 1 to 8 as by shiulbart_read, whatever k is, and then with 18.
 */
shiulbart_answer shiulbart_name(const uint8_t *bytes, size_t length, uint64_t k);

/*
 * Checks a fill sheet: a count of up to 32 entries, the entries, a count of up to 16,384 bytes, and
 * so many bytes, which are the entries' encodings one after the other. An entry is a blank's number
 * and the length of its encoding, 1 to 2,048; the numbers rise. Counts, numbers and lengths take two
 * bytes each, low first. If the sheet is sound, `length` is how many bytes the encodings are and
 * `extra` is how many entries there are; both are 0 for the empty sheet, four bytes of 0. Otherwise
 * refused with 13, at the first of these that applies: the entry count is missing or over 32, or the
 * entries pass the end (0); an entry's number does not rise or its length is bad (the entry); the
 * second count is missing, over 16,384 or not the sum of the lengths, or its bytes pass the end (that
 * count's place); bytes are left over (the first); shiulbart_read refuses an encoding (its entry).
 */
shiulbart_answer shiulbart_sheet(const uint8_t *sheet, size_t length);

/*
 * Fills a template: the encoded shape with each blank that the sheet names replaced by what the sheet
 * has for it, all together and once, so that nothing is replaced in what was put in. Other blanks
 * stay. The template is called `shape` here, for C++ keeps the other word to itself. If it is
 * answered, the first `length` bytes of `out`, 1 to 2,048, are the encoding of the filled shape, and
 * no other byte of it has changed. Otherwise refused, at the first of these that applies: 1 to 8 for
 * the template, as by shiulbart_read; 13 for the sheet, as by shiulbart_sheet; 15 and then 16, at 0,
 * for the filled shape, and for it alone; 12 if `out_length` is under the length needed, which is
 * the place. So a call with an `out_length` of 0 asks for that length.
 */
shiulbart_answer shiulbart_fill(const uint8_t *shape, size_t shape_length, const uint8_t *sheet,
    size_t sheet_length, uint8_t *out, size_t out_length);

/*
 * Joins two sheets, so that filling with the joined one is filling with the first and then with the
 * second. It has each blank of the first, with its shape filled by the second, and each blank that
 * only the second names, as it is there. If it is answered, the first `length` bytes of `out`, 4 to
 * 16,516, are the joined sheet, and no other byte of it has changed. Otherwise refused, at the first
 * of these that applies: 13 for the first sheet and 14 for the second, as by shiulbart_sheet; 17 if
 * there would be over 32 entries (how many); blank by blank, in rising order, 15 and then 16 for the
 * filled shape (the blank's number); 17 if the encodings would be over 16,384 bytes (how many); 12 if
 * `out_length` is under the length needed (that length).
 */
shiulbart_answer shiulbart_join(const uint8_t *first, size_t first_length, const uint8_t *second,
    size_t second_length, uint8_t *out, size_t out_length);

/*
 * Writes the encoding of the shape that a node table means. A table has four sections, each a count
 * and so many entries; counts and numbers take two bytes each, low first:
 *
 * - 1 to 6,144 nodes of 6 bytes: kind, a byte of 0, a, b. Kinds 0 to 4 are Int, Float, Bool, Str and
 *   Bytes, with a and b 0. 5 is an Array, 6 a Map, 7 a Record, 8 a Function and 9 a Symbol, of b links
 *   from link a on. 10 is the blank of number a, with b 0. The last node is the root.
 * - Up to 6,144 links of 4 bytes: target, name. An Array has 1 link, a Map 2 (key, value), a Function
 *   at least 1 (the return last); a + b is at most the count of links. A target is a node before the
 *   one whose link it is, but 0 in a Symbol. The name is one of the names in a Record and in a Symbol,
 *   else 0. Nodes may share children and links.
 * - Up to 2,048 names of 4 bytes: start and length in the text, of UTF-8.
 * - Up to 2,048 bytes of text.
 *
 * If it is answered, the first `length` bytes of `out`, 1 to 2,048, are the encoding of the root's
 * shape, and no other byte of it has changed. Otherwise refused, at the first of these that applies:
 * 9, section by section, if its count is missing or outside its limits or its entries pass the end
 * (that count's place), and then if bytes are left over (the first); 10 for a node that breaks any of
 * this, reached or not (the node; links that no node uses are not looked at); 11 for a name, used or
 * not, that passes the text or is not UTF-8 (the name); 15 and then 16, at 0, for the root's shape; 12
 * if `out_length` is under the length needed (that length).
 */
shiulbart_answer shiulbart_write(const uint8_t *table, size_t table_length, uint8_t *out,
    size_t out_length);

/*
 * A node as an editor has it: the kind, a and b of shiulbart_write's table. It takes 6 bytes. The one
 * between `kind` and `a` is not looked at, whatever it is.
 */
typedef struct shiulbart_node {
    uint8_t kind;
    uint16_t a;
    uint16_t b;
} shiulbart_node;

/*
 * As shiulbart_write, of a table whose nodes are records. `nodes` are its `node_count` nodes, and
 * `rest` is the rest of it in bytes, from the count of links on. Answer, refusal, place and `out` are
 * those of shiulbart_write on the same table in bytes: the count of nodes, each node with its byte of
 * 0, and the rest. So a place in the rest is counted from the start of that table, and the rest starts
 * at 2 + 6 x `node_count`. No nodes, or more than 6,144, are refused with 9 at 0, however many there
 * are: the count is taken whole, not as two bytes.
 */
shiulbart_answer shiulbart_write_records(const shiulbart_node *nodes, size_t node_count,
    const uint8_t *rest, size_t rest_length, uint8_t *out, size_t out_length);

/*
 * The node table of an encoded shape, in the form that shiulbart_write takes. Nothing is shared: the
 * children come first, in order, then the node, and with each node its links, names and texts, in
 * order. A Record or a Symbol without links has the number of links so far as its a. If it is
 * answered, the first `length` bytes of `out`, at most 61,448, are the table, and no other byte of it
 * has changed; shiulbart_write makes the same encoding of them again. Otherwise refused with 1 to 8 as
 * by shiulbart_read, and then with 12 if `out_length` is under the length needed (that length).
 */
shiulbart_answer shiulbart_table(const uint8_t *bytes, size_t length, uint8_t *out, size_t out_length);

/*
 * The reader in parts judges an encoding that comes part by part, as over a line, and need not be kept:
 *
 *     shiulbart_pieces state = shiulbart_pieces_start();
 *     while ((length = receive(part, sizeof part)) > 0)
 *         state = shiulbart_pieces_part(state, part, length);
 *     answer = shiulbart_pieces_finish(state).answer;
 *
 * A part may have any length, also none, and may end anywhere: in a size, a count or a character too.
 */

/* The sizes of the reader in parts. */
enum shiulbart_pieces_sizes {
    /* the levels that a state has an entry for, as many as a shape may have */
    SHIULBART_PIECES_LEVELS = 16,
    /* where the count of bytes stops, one over the longest encoding */
    SHIULBART_PIECES_COUNT_STOPS = 2049,
    /* the most bytes that a state takes */
    SHIULBART_PIECES_MOST = 512
};

/*
 * An open payload: the place of its shape, where it ends, and how many items are due after the one that
 * is being read.
 */
typedef struct shiulbart_pieces_entry {
    uint16_t at;
    uint16_t stop;
    uint16_t due;
} shiulbart_pieces_entry;

/* What the next byte is. */
typedef struct shiulbart_pieces_next {
    uint16_t a;
    uint16_t b;
    uint8_t code;
    uint8_t more;
    uint8_t low;
    uint8_t high;
} shiulbart_pieces_next;

/*
 * How far the reader in parts is. A host may copy it, keep it, and go on from it more than once. It may
 * read `count` and `used`; the rest is the reader's own.
 *
 * A host hands in only states that shiulbart_pieces_start, shiulbart_pieces_part and
 * shiulbart_pieces_finish gave it. From any other a call still ends, but what it gives is not promised.
 */
typedef struct shiulbart_pieces {
    shiulbart_pieces_next next;
    /* how many bytes came; it stops at 2,049, however many more there are */
    uint16_t count;
    /* how many bytes the root has, as far as that is known */
    uint16_t whole;
    /* how many of `levels` are in use: so many levels are open, none at the start */
    uint16_t used;
    /* how deep the root is so far */
    uint16_t deepest;
    /* what the items of `top` and of `levels` are, two bits each, those of `top` the lowest */
    uint64_t kinds;
    /* the payload that is being read; the input itself if none is open */
    shiulbart_pieces_entry top;
    /* 1 after the finish, else 0 */
    uint16_t closed;
    /* the payloads round `top`, from the outside in; the first is the input itself */
    shiulbart_pieces_entry levels[SHIULBART_PIECES_LEVELS];
} shiulbart_pieces;

/* The promised size of a state and its true one: nothing stands between its numbers. */
typedef char shiulbart_pieces_are_small[sizeof(shiulbart_pieces) <= SHIULBART_PIECES_MOST ? 1 : -1];
typedef char shiulbart_pieces_are_dense[sizeof(shiulbart_pieces) == 128 ? 1 : -1];

/* What the finish gives: the closed state, and the four numbers of shiulbart_read. */
typedef struct shiulbart_pieces_end {
    shiulbart_pieces state;
    shiulbart_answer answer;
} shiulbart_pieces_end;

/* The state of a reader that was given nothing yet. */
shiulbart_pieces shiulbart_pieces_start(void);

/*
 * The state after one more part. An empty part changes no byte of it, and after the finish no part does.
 * Nothing is answered here: a fault that is met is told by the finish alone.
 */
shiulbart_pieces shiulbart_pieces_part(shiulbart_pieces state, const uint8_t *part, size_t length);

/*
 * The answer of shiulbart_read for all parts joined, the same four numbers, and the state closed. With
 * that state the finish repeats both. No parts, or only empty ones, are refused with 1 at 0.
 */
shiulbart_pieces_end shiulbart_pieces_finish(shiulbart_pieces state);

#ifdef __cplusplus
}
#endif

#endif
