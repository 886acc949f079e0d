/* Calls the archive from C through include/shiulbart.h: M1 to M14 of the bench card, children and
   names, sheets, M4's table both ways and with its nodes as records, every byte of the buffers that
   fill, join, write, write_records and table are lent, and the reader in parts with every byte of its
   state. tests/host.sh compiles, links and runs it. Its last line is 'N passed, M failed'. */
#include "shiulbart.h"

#include <stdio.h>
#include <string.h>

/* the boundary's layout: four numbers of four bytes, nothing between them */
typedef char four_numbers[sizeof(shiulbart_answer) == 16 ? 1 : -1];

/* and of a node: one byte, one that is not looked at, and two numbers of two bytes */
typedef char six_bytes[sizeof(shiulbart_node) == 6 ? 1 : -1];
typedef char kind_first[offsetof(shiulbart_node, kind) == 0 ? 1 : -1];
typedef char then_a[offsetof(shiulbart_node, a) == 2 ? 1 : -1];
typedef char then_b[offsetof(shiulbart_node, b) == 4 ? 1 : -1];

/* and of a state: 16 entries and one of eight bytes, what is next in as many, and five numbers of two */
typedef char entry_of_six[sizeof(shiulbart_pieces_entry) == 6 ? 1 : -1];
typedef char next_of_eight[sizeof(shiulbart_pieces_next) == 8 ? 1 : -1];
typedef char bytes_of_next[offsetof(shiulbart_pieces_next, code) == 4 ? 1 : -1];
typedef char next_first[offsetof(shiulbart_pieces, next) == 0 ? 1 : -1];
typedef char then_count[offsetof(shiulbart_pieces, count) == 8 ? 1 : -1];
typedef char then_whole[offsetof(shiulbart_pieces, whole) == 10 ? 1 : -1];
typedef char then_used[offsetof(shiulbart_pieces, used) == 12 ? 1 : -1];
typedef char then_deepest[offsetof(shiulbart_pieces, deepest) == 14 ? 1 : -1];
typedef char then_kinds[offsetof(shiulbart_pieces, kinds) == 16 ? 1 : -1];
typedef char then_top[offsetof(shiulbart_pieces, top) == 24 ? 1 : -1];
typedef char then_closed[offsetof(shiulbart_pieces, closed) == 30 ? 1 : -1];
typedef char then_levels[offsetof(shiulbart_pieces, levels) == 32 ? 1 : -1];
typedef char then_answer[offsetof(shiulbart_pieces_end, answer) == 128 ? 1 : -1];
typedef char end_of_144[sizeof(shiulbart_pieces_end) == 144 ? 1 : -1];

static unsigned passed, failed;

static void expect(const char *name, shiulbart_answer came, shiulbart_answer answer)
{
    if (came.number == answer.number && came.place == answer.place && came.length == answer.length
        && came.extra == answer.extra) {
        passed++;
        return;
    }
    failed++;
    printf("FAILED %s: expected %lu %lu %lu %lu, came %lu %lu %lu %lu\n", name,
        (unsigned long)answer.number, (unsigned long)answer.place, (unsigned long)answer.length,
        (unsigned long)answer.extra, (unsigned long)came.number, (unsigned long)came.place,
        (unsigned long)came.length, (unsigned long)came.extra);
}

static shiulbart_answer answered(uint32_t place, uint32_t length, uint32_t extra)
{
    shiulbart_answer answer = {0, 0, 0, 0};
    answer.place = place;
    answer.length = length;
    answer.extra = extra;
    return answer;
}

static shiulbart_answer refusal(uint32_t number, uint32_t place)
{
    shiulbart_answer answer = {0, 0, 0, 0};
    answer.number = number;
    answer.place = place;
    return answer;
}

static void accepted(const char *name, const uint8_t *bytes, size_t length, uint32_t depth)
{
    expect(name, shiulbart_read(bytes, length), answered(0, (uint32_t)length, depth));
}

static void refused(const char *name, const uint8_t *bytes, size_t length, uint32_t number, uint32_t place)
{
    expect(name, shiulbart_read(bytes, length), refusal(number, place));
}

/* A buffer to lend that differs by position, and what it must be afterwards: the first `length` bytes
   `made`, and the others, also those behind the lent part, as they were. */
typedef struct buffer {
    uint8_t out[64], after[64];
} buffer;

static buffer lend(shiulbart_answer answer, const uint8_t *made)
{
    buffer buffer;
    size_t i;
    for (i = 0; i < sizeof buffer.out; i++)
        buffer.out[i] = buffer.after[i] = (uint8_t)(7 * i + 3);
    if (answer.length > 0)
        memcpy(buffer.after, made, answer.length);
    return buffer;
}

static void look(const char *name, const buffer *buffer)
{
    if (memcmp(buffer->out, buffer->after, sizeof buffer->out) == 0) {
        passed++;
    } else {
        failed++;
        printf("FAILED %s: the buffer is not as it should be\n", name);
    }
}

typedef shiulbart_answer lent_call(const uint8_t *, size_t, const uint8_t *, size_t, uint8_t *, size_t);

/* Calls fill or join, and looks at every byte of the buffer. */
static void lent(const char *name, lent_call *call, const uint8_t *first, size_t first_length,
    const uint8_t *second, size_t second_length, size_t room, shiulbart_answer answer, const uint8_t *made)
{
    buffer buffer = lend(answer, made);
    expect(name, call(first, first_length, second, second_length, buffer.out, room), answer);
    look(name, &buffer);
}

typedef shiulbart_answer one_call(const uint8_t *, size_t, uint8_t *, size_t);

/* Calls write or table, and looks at every byte of the buffer. */
static void one(const char *name, one_call *call, const uint8_t *bytes, size_t length, size_t room,
    shiulbart_answer answer, const uint8_t *made)
{
    buffer buffer = lend(answer, made);
    expect(name, call(bytes, length, buffer.out, room), answer);
    look(name, &buffer);
}

/* Calls write with one byte of a table changed. */
static void changed(const char *name, const uint8_t *table, size_t length, size_t place, uint8_t byte,
    shiulbart_answer answer)
{
    uint8_t copy[64];
    memcpy(copy, table, length);
    copy[place] = byte;
    one(name, shiulbart_write, copy, length, 64, answer, NULL);
}

/* Calls write_records, and looks at every byte of the buffer. */
static void records(const char *name, const shiulbart_node *nodes, size_t count, const uint8_t *rest,
    size_t length, size_t room, shiulbart_answer answer, const uint8_t *made)
{
    buffer buffer = lend(answer, made);
    expect(name, shiulbart_write_records(nodes, count, rest, length, buffer.out, room), answer);
    look(name, &buffer);
}

/* The state after the bytes, in parts of so many. */
static shiulbart_pieces fed(const uint8_t *bytes, size_t length, size_t size)
{
    shiulbart_pieces state = shiulbart_pieces_start();
    for (; length > size; bytes += size, length -= size)
        state = shiulbart_pieces_part(state, bytes, size);
    return shiulbart_pieces_part(state, bytes, length);
}

static void same(const char *name, shiulbart_pieces came, shiulbart_pieces state)
{
    if (memcmp(&came, &state, sizeof state) == 0) {
        passed++;
    } else {
        failed++;
        printf("FAILED %s: the state is not as it should be\n", name);
    }
}

/* Looks at what a host may read of a state. */
static void stands(const char *name, shiulbart_pieces state, unsigned count, unsigned used)
{
    if (state.count == count && state.used == used) {
        passed++;
        return;
    }
    failed++;
    printf("FAILED %s: expected %u bytes and %u levels, came %u and %u\n", name, count, used,
        (unsigned)state.count, (unsigned)state.used);
}

/* Finishes: the answer is this one, a part after it changes no byte, and the finish repeats itself. */
static void finished(const char *name, shiulbart_pieces state, shiulbart_answer answer)
{
    static const uint8_t part[] = {0x20, 0xA0};
    shiulbart_pieces_end end = shiulbart_pieces_finish(state), again;
    shiulbart_pieces after = shiulbart_pieces_part(end.state, part, sizeof part);
    expect(name, end.answer, answer);
    same(name, after, end.state);
    again = shiulbart_pieces_finish(after);
    expect(name, again.answer, answer);
    same(name, again.state, end.state);
}

/* Reads in parts of each length, and in two parts, one of which may be empty; an empty part between
   them, with and without a pointer, changes no byte of the state. */
static void pieces(const char *name, const uint8_t *bytes, size_t length, shiulbart_answer answer)
{
    size_t i;
    for (i = 1; i <= length; i++)
        finished(name, fed(bytes, length, i), answer);
    for (i = 0; i <= length; i++) {
        shiulbart_pieces state = shiulbart_pieces_part(shiulbart_pieces_start(), bytes, i);
        same(name, shiulbart_pieces_part(state, bytes, 0), state);
        same(name, shiulbart_pieces_part(state, NULL, 0), state);
        finished(name, shiulbart_pieces_part(state, bytes + i, length - i), answer);
    }
}

/* So many Arrays round an Array of Int, which is packed. */
static void wrap(uint8_t *bytes, size_t count)
{
    size_t i;
    for (i = 0; i < count; i++) {
        bytes[3 * i] = 0x40;
        bytes[3 * i + 1] = (uint8_t)(3 * (count - i) - 2);
        bytes[3 * i + 2] = 0x00;
    }
    bytes[3 * count] = 0x60;
}

int main(void)
{
    static const uint8_t m1[] = {0x20};
    static const uint8_t m2[] = {0x76};
    static const uint8_t m3[] = {0x40, 0x01, 0x00, 0x20};
    static const uint8_t m4[] = {0x42, 0x07, 0x00, 0x02, 0x01, 0x61, 0x20, 0x01, 0x62, 0x62};
    static const uint8_t m5[] = {0x45, 0x02, 0x00, 0x20, 0x00};
    static const uint8_t m6[] = {0x45, 0x02, 0x00, 0x1F, 0x00};
    static const uint8_t m8[] = {0x20, 0x20};
    static const uint8_t m9[] = {0x43, 0x02, 0x00, 0x00, 0x20};
    static const uint8_t m10[] = {0x44, 0x03, 0x00, 0x81, 0x00, 0x00};
    static const uint8_t m11[] = {0xA0};
    static const uint8_t symbol[] = {0x44, 0x06, 0x00, 0x03, 0x00, 0x02, 0xC3, 0xA9, 0x00};
    static const uint8_t too_long[2049] = {0};
    static const uint8_t m13_sheet[] = {0x01, 0x00, 0x00, 0x00, 0x01, 0x00, 0x01, 0x00, 0x20};
    static const uint8_t m14_sheet[]
        = {0x02, 0x00, 0x00, 0x00, 0x01, 0x00, 0x01, 0x00, 0x01, 0x00, 0x02, 0x00, 0x20, 0x20};
    static const uint8_t empty_sheet[] = {0x00, 0x00, 0x00, 0x00};
    static const uint8_t equal_numbers[]
        = {0x02, 0x00, 0x01, 0x00, 0x01, 0x00, 0x01, 0x00, 0x01, 0x00, 0x02, 0x00, 0x20, 0x20};
    static const uint8_t m12[] = {0x41, 0x02, 0x00, 0x00, 0x01};
    static const uint8_t m12_sheet[]
        = {0x02, 0x00, 0x00, 0x00, 0x01, 0x00, 0x01, 0x00, 0x01, 0x00, 0x02, 0x00, 0x01, 0x00};
    static const uint8_t m12_made[] = {0x41, 0x02, 0x00, 0x01, 0x00};
    static const uint8_t m13[] = {0x40, 0x01, 0x00, 0x00};
    static const uint8_t m13_made[] = {0x60};
    static const uint8_t m14_first[] = {0x01, 0x00, 0x00, 0x00, 0x01, 0x00, 0x01, 0x00, 0x01};
    static const uint8_t m14_second[] = {0x01, 0x00, 0x01, 0x00, 0x01, 0x00, 0x01, 0x00, 0x20};
    static const uint8_t m4_table[] = {0x04, 0x00, 0x00, 0x00, 0x00, 0x00, 0x00, 0x00, 0x02, 0x00, 0x00,
        0x00, 0x00, 0x00, 0x05, 0x00, 0x00, 0x00, 0x01, 0x00, 0x07, 0x00, 0x01, 0x00, 0x02, 0x00, 0x03, 0x00,
        0x01, 0x00, 0x00, 0x00, 0x00, 0x00, 0x00, 0x00, 0x02, 0x00, 0x01, 0x00, 0x02, 0x00, 0x00, 0x00, 0x01,
        0x00, 0x01, 0x00, 0x01, 0x00, 0x02, 0x00, 0x61, 0x62};
    static const uint8_t int_table[] = {0x01, 0x00, 0x00, 0x00, 0x00, 0x00, 0x00, 0x00, 0x00, 0x00, 0x00,
        0x00, 0x00, 0x00};
    /* the rest of M4's table: what stands behind its four nodes */
    static const uint8_t *const m4_rest = m4_table + 26;
    static const uint8_t int_rest[6] = {0};
    static const shiulbart_node m4_nodes[] = {{0, 0, 0}, {2, 0, 0}, {5, 0, 1}, {7, 1, 2}};
    static const shiulbart_node broken_nodes[] = {{0, 0, 0}, {11, 0, 0}};
    static const shiulbart_node ints[65537] = {{0, 0, 0}};
    /* before the letters of a Symbol of one text of 2,042 */
    static const uint8_t longest_head[] = {0x44, 0xFD, 0x07, 0x01, 0xFA, 0x0F};
    shiulbart_node set[4];
    uint8_t arrays[46], longest[2048];
    shiulbart_pieces state, other;
    size_t i;
    const size_t m4_rest_length = sizeof m4_table - 26;
    const uint32_t section = SHIULBART_SECTION_BROKEN;
    const uint64_t two_to_32 = (uint64_t)1 << 32;
    const uint32_t none = SHIULBART_NO_SUCH_PART;
    const uint32_t broken = SHIULBART_SHEET_BROKEN;

    accepted("M1", m1, sizeof m1, 1);
    accepted("M2", m2, sizeof m2, 2);
    refused("M3", m3, sizeof m3, SHIULBART_LONG_FORM, 0);
    accepted("M4", m4, sizeof m4, 3);
    accepted("M5", m5, sizeof m5, 1);
    refused("M6", m6, sizeof m6, SHIULBART_LONG_FORM, 0);
    refused("M7", m1, 0, SHIULBART_CUT_SHORT, 0);
    refused("M7, a null pointer", NULL, 0, SHIULBART_CUT_SHORT, 0);
    refused("M8", m8, sizeof m8, SHIULBART_SIZE_WRONG, 1);
    accepted("M9", m9, sizeof m9, 2);
    refused("M10", m10, sizeof m10, SHIULBART_LEB128_WRONG, 3);
    refused("M11", m11, sizeof m11, SHIULBART_NOT_ASSIGNED, 0);
    refused("2,049 bytes", too_long, sizeof too_long, SHIULBART_INPUT_TOO_LONG, 2048);

    expect("M4, child 0", shiulbart_child(m4, sizeof m4, 0), answered(6, 1, 0));
    expect("M4, child 1", shiulbart_child(m4, sizeof m4, 1), answered(9, 1, 0));
    expect("M4, child 2", shiulbart_child(m4, sizeof m4, 2), refusal(none, 2));
    expect("M4, child 2^32", shiulbart_child(m4, sizeof m4, two_to_32), refusal(none, 2));
    expect("M4, the largest child", shiulbart_child(m4, sizeof m4, UINT64_MAX), refusal(none, 2));
    expect("M2, child 0", shiulbart_child(m2, sizeof m2, 0), answered(3, 0, 1));
    expect("M2, child 1", shiulbart_child(m2, sizeof m2, 1), answered(2, 0, 1));
    expect("M2, child 2", shiulbart_child(m2, sizeof m2, 2), refusal(none, 2));
    expect("M9, child 0", shiulbart_child(m9, sizeof m9, 0), answered(4, 1, 0));
    expect("M1, child 0", shiulbart_child(m1, sizeof m1, 0), refusal(none, 0));
    expect("a Symbol, child 0", shiulbart_child(symbol, sizeof symbol, 0), refusal(none, 0));
    expect("M3, child 0", shiulbart_child(m3, sizeof m3, 0), refusal(SHIULBART_LONG_FORM, 0));
    expect("M7, child 0, a null pointer", shiulbart_child(NULL, 0, 0), refusal(SHIULBART_CUT_SHORT, 0));
    expect("2,049 bytes, child 0", shiulbart_child(too_long, sizeof too_long, 0),
        refusal(SHIULBART_INPUT_TOO_LONG, 2048));

    expect("M4, name 0", shiulbart_name(m4, sizeof m4, 0), answered(5, 1, 0));
    expect("M4, name 1", shiulbart_name(m4, sizeof m4, 1), answered(8, 1, 0));
    expect("M4, name 2", shiulbart_name(m4, sizeof m4, 2), refusal(none, 2));
    expect("M4, name 2^32", shiulbart_name(m4, sizeof m4, two_to_32), refusal(none, 2));
    expect("M4, the largest name", shiulbart_name(m4, sizeof m4, UINT64_MAX), refusal(none, 2));
    expect("a Symbol, name 0", shiulbart_name(symbol, sizeof symbol, 0), answered(5, 0, 0));
    expect("a Symbol, name 1", shiulbart_name(symbol, sizeof symbol, 1), answered(6, 2, 0));
    expect("a Symbol, name 2", shiulbart_name(symbol, sizeof symbol, 2), answered(9, 0, 0));
    expect("a Symbol, name 3", shiulbart_name(symbol, sizeof symbol, 3), refusal(none, 3));
    expect("M2, name 0", shiulbart_name(m2, sizeof m2, 0), refusal(none, 0));
    expect("M9, name 0", shiulbart_name(m9, sizeof m9, 0), refusal(none, 0));
    expect("M10, name 0", shiulbart_name(m10, sizeof m10, 0), refusal(SHIULBART_LEB128_WRONG, 3));
    expect("M7, name 0, a null pointer", shiulbart_name(NULL, 0, 0), refusal(SHIULBART_CUT_SHORT, 0));

    expect("M13's sheet", shiulbart_sheet(m13_sheet, sizeof m13_sheet), answered(0, 1, 1));
    expect("M14's sheet", shiulbart_sheet(m14_sheet, sizeof m14_sheet), answered(0, 2, 2));
    expect("the empty sheet", shiulbart_sheet(empty_sheet, sizeof empty_sheet), answered(0, 0, 0));
    expect("no sheet", shiulbart_sheet(m13_sheet, 0), refusal(broken, 0));
    expect("no sheet, a null pointer", shiulbart_sheet(NULL, 0), refusal(broken, 0));
    expect("a sheet of equal numbers", shiulbart_sheet(equal_numbers, sizeof equal_numbers),
        refusal(broken, 1));
    expect("M13's sheet, cut", shiulbart_sheet(m13_sheet, sizeof m13_sheet - 1), refusal(broken, 6));
    expect("the empty sheet and more", shiulbart_sheet(too_long, sizeof too_long), refusal(broken, 4));

    lent("M12", shiulbart_fill, m12, sizeof m12, m12_sheet, sizeof m12_sheet, 5, answered(0, 5, 0), m12_made);
    lent("M12, more room", shiulbart_fill, m12, sizeof m12, m12_sheet, sizeof m12_sheet, 40,
        answered(0, 5, 0), m12_made);
    lent("M12, a byte short", shiulbart_fill, m12, sizeof m12, m12_sheet, sizeof m12_sheet, 4,
        refusal(SHIULBART_BUFFER_SHORT, 5), NULL);
    lent("M13", shiulbart_fill, m13, sizeof m13, m13_sheet, sizeof m13_sheet, 40, answered(0, 1, 0), m13_made);
    lent("M13, no room", shiulbart_fill, m13, sizeof m13, m13_sheet, sizeof m13_sheet, 0,
        refusal(SHIULBART_BUFFER_SHORT, 1), NULL);
    lent("M3 filled", shiulbart_fill, m3, sizeof m3, m13_sheet, sizeof m13_sheet, 40,
        refusal(SHIULBART_LONG_FORM, 0), NULL);
    lent("M13 with no sheet", shiulbart_fill, m13, sizeof m13, m13_sheet, 0, 40, refusal(broken, 0), NULL);
    lent("M13 with a cut sheet", shiulbart_fill, m13, sizeof m13, m13_sheet, sizeof m13_sheet - 1, 40,
        refusal(broken, 6), NULL);
    lent("M14", shiulbart_join, m14_first, sizeof m14_first, m14_second, sizeof m14_second, 40,
        answered(0, 14, 0), m14_sheet);
    lent("M14, just enough room", shiulbart_join, m14_first, sizeof m14_first, m14_second, sizeof m14_second,
        14, answered(0, 14, 0), m14_sheet);
    lent("M14, a byte short", shiulbart_join, m14_first, sizeof m14_first, m14_second, sizeof m14_second, 13,
        refusal(SHIULBART_BUFFER_SHORT, 14), NULL);
    lent("M14, the first cut", shiulbart_join, m14_first, sizeof m14_first - 1, m14_second,
        sizeof m14_second, 40, refusal(broken, 6), NULL);
    lent("M14, the second cut", shiulbart_join, m14_first, sizeof m14_first, m14_second,
        sizeof m14_second - 1, 40, refusal(SHIULBART_SECOND_BROKEN, 6), NULL);
    lent("empty sheets joined", shiulbart_join, empty_sheet, 4, empty_sheet, 4, 40, answered(0, 4, 0),
        empty_sheet);
    expect("M13, null for no room", shiulbart_fill(m13, sizeof m13, m13_sheet, sizeof m13_sheet, NULL, 0),
        refusal(SHIULBART_BUFFER_SHORT, 1));
    expect("M14, null for no room",
        shiulbart_join(m14_first, sizeof m14_first, m14_second, sizeof m14_second, NULL, 0),
        refusal(SHIULBART_BUFFER_SHORT, 14));
    expect("nothing filled, null pointers", shiulbart_fill(NULL, 0, NULL, 0, NULL, 0),
        refusal(SHIULBART_CUT_SHORT, 0));
    expect("nothing joined, null pointers", shiulbart_join(NULL, 0, NULL, 0, NULL, 0), refusal(broken, 0));

    one("M4's table", shiulbart_write, m4_table, sizeof m4_table, 64, answered(0, 10, 0), m4);
    one("M4's table, just enough room", shiulbart_write, m4_table, sizeof m4_table, 10, answered(0, 10, 0), m4);
    one("M4's table, a byte short", shiulbart_write, m4_table, sizeof m4_table, 9,
        refusal(SHIULBART_BUFFER_SHORT, 10), NULL);
    one("M4's table, cut", shiulbart_write, m4_table, sizeof m4_table - 1, 64,
        refusal(SHIULBART_SECTION_BROKEN, 50), NULL);
    changed("M4's table, no nodes", m4_table, sizeof m4_table, 0, 0, refusal(SHIULBART_SECTION_BROKEN, 0));
    changed("M4's table, a byte left over", m4_table, sizeof m4_table, 50, 1,
        refusal(SHIULBART_SECTION_BROKEN, 53));
    changed("M4's table, an Array of itself", m4_table, sizeof m4_table, 28, 2,
        refusal(SHIULBART_NODE_BROKEN, 2));
    changed("M4's table, a name too long", m4_table, sizeof m4_table, 48, 2,
        refusal(SHIULBART_NAME_BROKEN, 1));
    changed("M4's table, a name that is not UTF-8", m4_table, sizeof m4_table, 52, 0xFF,
        refusal(SHIULBART_NAME_BROKEN, 0));
    one("no table", shiulbart_write, m4_table, 0, 64, refusal(SHIULBART_SECTION_BROKEN, 0), NULL);
    one("M4 to its table", shiulbart_table, m4, sizeof m4, 64, answered(0, 54, 0), m4_table);
    one("M4 to its table, just enough room", shiulbart_table, m4, sizeof m4, 54, answered(0, 54, 0), m4_table);
    one("M4 to its table, a byte short", shiulbart_table, m4, sizeof m4, 53,
        refusal(SHIULBART_BUFFER_SHORT, 54), NULL);
    one("M1 to its table", shiulbart_table, m1, sizeof m1, 64, answered(0, 14, 0), int_table);
    one("M1's table", shiulbart_write, int_table, sizeof int_table, 64, answered(0, 1, 0), m1);
    one("M3 to a table", shiulbart_table, m3, sizeof m3, 64, refusal(SHIULBART_LONG_FORM, 0), NULL);
    one("2,049 bytes to a table", shiulbart_table, too_long, sizeof too_long, 64,
        refusal(SHIULBART_INPUT_TOO_LONG, 2048), NULL);
    expect("M4's table, null for no room", shiulbart_write(m4_table, sizeof m4_table, NULL, 0),
        refusal(SHIULBART_BUFFER_SHORT, 10));
    expect("M4 to its table, null for no room", shiulbart_table(m4, sizeof m4, NULL, 0),
        refusal(SHIULBART_BUFFER_SHORT, 54));
    expect("nothing written, null pointers", shiulbart_write(NULL, 0, NULL, 0),
        refusal(SHIULBART_SECTION_BROKEN, 0));
    expect("no table, null pointers", shiulbart_table(NULL, 0, NULL, 0), refusal(SHIULBART_CUT_SHORT, 0));

    records("M4's nodes", m4_nodes, 4, m4_rest, m4_rest_length, 64, answered(0, 10, 0), m4);
    records("M4's nodes, just enough room", m4_nodes, 4, m4_rest, m4_rest_length, 10, answered(0, 10, 0), m4);
    records("M4's nodes, a byte short", m4_nodes, 4, m4_rest, m4_rest_length, 9,
        refusal(SHIULBART_BUFFER_SHORT, 10), NULL);
    records("M4's nodes, the rest cut", m4_nodes, 4, m4_rest, m4_rest_length - 1, 64, refusal(section, 50),
        NULL);
    records("M4's nodes, no rest", m4_nodes, 4, NULL, 0, 64, refusal(section, 26), NULL);
    records("M4's nodes but one", m4_nodes, 3, m4_rest, m4_rest_length, 64, answered(0, 1, 0), m4 + 9);
    records("a broken node", broken_nodes, 2, int_rest, 6, 64, refusal(SHIULBART_NODE_BROKEN, 1), NULL);
    records("a byte left over", m4_nodes, 1, too_long, 7, 64, refusal(section, 14), NULL);
    records("no nodes", m4_nodes, 0, m4_rest, m4_rest_length, 64, refusal(section, 0), NULL);
    records("no nodes, a null pointer", NULL, 0, int_rest, 6, 64, refusal(section, 0), NULL);
    records("6,144 nodes", ints, 6144, int_rest, 6, 64, answered(0, 1, 0), m1);
    records("6,145 nodes", ints, 6145, int_rest, 6, 64, refusal(section, 0), NULL);
    records("65,535 nodes", ints, 65535, int_rest, 6, 64, refusal(section, 0), NULL);
    records("65,536 nodes", ints, 65536, int_rest, 6, 64, refusal(section, 0), NULL);
    records("65,537 nodes", ints, 65537, int_rest, 6, 64, refusal(section, 0), NULL);
    memset(set, 0xFF, sizeof set);
    for (i = 0; i < 4; i++) {
        set[i].kind = m4_nodes[i].kind;
        set[i].a = m4_nodes[i].a;
        set[i].b = m4_nodes[i].b;
    }
    records("M4's nodes, other bytes between", set, 4, m4_rest, m4_rest_length, 64, answered(0, 10, 0), m4);
    expect("M4's nodes, null for no room",
        shiulbart_write_records(m4_nodes, 4, m4_rest, m4_rest_length, NULL, 0),
        refusal(SHIULBART_BUFFER_SHORT, 10));
    expect("no nodes written, null pointers", shiulbart_write_records(NULL, 0, NULL, 0, NULL, 0),
        refusal(section, 0));

    pieces("M1 in parts", m1, sizeof m1, answered(0, 1, 1));
    pieces("M2 in parts", m2, sizeof m2, answered(0, 1, 2));
    pieces("M3 in parts", m3, sizeof m3, refusal(SHIULBART_LONG_FORM, 0));
    pieces("M4 in parts", m4, sizeof m4, answered(0, 10, 3));
    pieces("M5 in parts", m5, sizeof m5, answered(0, 5, 1));
    pieces("M6 in parts", m6, sizeof m6, refusal(SHIULBART_LONG_FORM, 0));
    pieces("M7 in parts", m1, 0, refusal(SHIULBART_CUT_SHORT, 0));
    pieces("M8 in parts", m8, sizeof m8, refusal(SHIULBART_SIZE_WRONG, 1));
    pieces("M9 in parts", m9, sizeof m9, answered(0, 5, 2));
    pieces("M10 in parts", m10, sizeof m10, refusal(SHIULBART_LEB128_WRONG, 3));
    pieces("M11 in parts", m11, sizeof m11, refusal(SHIULBART_NOT_ASSIGNED, 0));
    pieces("a Symbol in parts", symbol, sizeof symbol, answered(0, 9, 1));
    pieces("M4 in parts, cut", m4, sizeof m4 - 1, refusal(SHIULBART_CUT_SHORT, 0));
    finished("no part at all", shiulbart_pieces_start(), refusal(SHIULBART_CUT_SHORT, 0));

    wrap(arrays, 14);
    pieces("fifteen Arrays in parts", arrays, 43, answered(0, 43, 16));
    wrap(arrays, 15);
    pieces("sixteen Arrays in parts", arrays, 46, refusal(SHIULBART_TOO_DEEP, 45));

    memset(longest, 'a', sizeof longest);
    memcpy(longest, longest_head, sizeof longest_head);
    for (i = 1; i <= sizeof longest; i *= 2) {
        state = fed(longest, sizeof longest, i);
        stands("2,048 bytes in parts", state, 2048, 0);
        finished("2,048 bytes in parts", state, answered(0, 2048, 1));
        state = shiulbart_pieces_part(state, m1, sizeof m1);
        stands("2,049 bytes in parts", state, SHIULBART_PIECES_COUNT_STOPS, 0);
        finished("2,049 bytes in parts", state, refusal(SHIULBART_INPUT_TOO_LONG, 2048));
    }
    for (i = 0; i < 40; i++) {
        state = shiulbart_pieces_part(state, too_long, sizeof too_long);
        stands("up to 84,009 bytes in parts", state, SHIULBART_PIECES_COUNT_STOPS, 0);
    }
    finished("84,009 bytes in parts", state, refusal(SHIULBART_INPUT_TOO_LONG, 2048));

    /* what a host may read of a state, and a state from which it goes on twice */
    stands("no bytes yet", shiulbart_pieces_start(), 0, 0);
    stands("M4, the size begun", fed(m4, 2, 1), 2, 0);
    stands("M4, its payload open", fed(m4, 3, 2), 3, 1);
    stands("M4, all of it", fed(m4, sizeof m4, 3), 10, 0);
    stands("sixteen Arrays but the last byte", fed(arrays, 45, 4), 45, 15);
    state = fed(m4, 6, 6);
    other = shiulbart_pieces_part(state, m11, sizeof m11);
    state = shiulbart_pieces_part(state, m4 + 6, 4);
    finished("M4 from a copy", state, answered(0, 10, 3));
    finished("M4's start, and then a byte not assigned", shiulbart_pieces_part(other, m4 + 7, 3),
        refusal(SHIULBART_NOT_ASSIGNED, 6));

    printf("%u passed, %u failed\n", passed, failed);
    return failed > 0;
}
