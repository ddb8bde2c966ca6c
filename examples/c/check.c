/* Holds header and library to docs/ABI.md: layout, every refusal, rooms, wrong numbers, texts in pieces, sheets. Prints
 * what differs; the last line says how many checks held, and the exit status is 1 if one didn't. */
#include "typetext.h"

#include <stdio.h>
#include <string.h>

static int held = 0;
static int failed = 0;

static void check_at(int line, int holds, const char *what)
{
    if (holds) {
        held++;
        return;
    }
    failed++;
    printf("check.c:%d: %s\n", line, what);
}

#define CHECK(holds) check_at(__LINE__, (holds), #holds)

static const uint8_t *bytes(const char *text) { return (const uint8_t *)text; }

static typetext_reading parse(const char *text) { return typetext_parse(bytes(text), strlen(text)); }

static typetext_reading strict(const char *text) { return typetext_parse_strict(bytes(text), strlen(text)); }

#define OFFSET(type, field, at) CHECK(offsetof(type, field) == (at))

static void layout(void)
{
    OFFSET(typetext_record, shape_len, 0);
    OFFSET(typetext_record, strides_len, 8);
    OFFSET(typetext_record, tile_len, 16);
    OFFSET(typetext_record, map_len, 24);
    OFFSET(typetext_record, traversal_len, 32);
    OFFSET(typetext_record, shape, 40);
    OFFSET(typetext_record, strides, 104);
    OFFSET(typetext_record, tile, 168);
    OFFSET(typetext_record, map, 200);
    OFFSET(typetext_record, traversal, 232);
    OFFSET(typetext_record, sparse, 264);
    OFFSET(typetext_record, kind, 268);
    OFFSET(typetext_record, element, 269);
    OFFSET(typetext_record, padding, 270);
    OFFSET(typetext_record, pointer, 271);
    OFFSET(typetext_record, attribute, 272);
    CHECK(sizeof(typetext_record) == 280);
    OFFSET(typetext_reading, value, 0);
    OFFSET(typetext_reading, place, 280);
    OFFSET(typetext_reading, note, 288);
    OFFSET(typetext_reading, refusal, 320);
    CHECK(sizeof(typetext_reading) == 328);
    OFFSET(typetext_note, a, 0);
    OFFSET(typetext_note, b, 8);
    OFFSET(typetext_note, c, 16);
    OFFSET(typetext_note, d, 24);
    CHECK(sizeof(typetext_note) == 32);
    OFFSET(typetext_written, len, 0);
    OFFSET(typetext_written, refusal, 8);
    CHECK(sizeof(typetext_written) == 16);
}

static void layout_of_sheets(void)
{
    OFFSET(typetext_sheet_totals, rows, 0);
    OFFSET(typetext_sheet_totals, accepted, 8);
    OFFSET(typetext_sheet_totals, refused_1, 16);
    OFFSET(typetext_sheet_totals, refused_2, 24);
    OFFSET(typetext_sheet_totals, refused_3, 32);
    OFFSET(typetext_sheet_totals, refused_4, 40);
    OFFSET(typetext_sheet_totals, a, 48);
    OFFSET(typetext_sheet_totals, b, 56);
    OFFSET(typetext_sheet_totals, c, 64);
    OFFSET(typetext_sheet_totals, d, 72);
    OFFSET(typetext_sheet_totals, refusal, 80);
    CHECK(sizeof(typetext_sheet_totals) == 88);
    OFFSET(typetext_row, first, 0);
    OFFSET(typetext_row, end, 8);
    OFFSET(typetext_row, next, 16);
    OFFSET(typetext_row, found, 24);
    OFFSET(typetext_row, refusal, 25);
    CHECK(sizeof(typetext_row) == 32);
}

/* In C99 there is no alignof: what a byte in front pushes a struct to is its alignment. */
struct byte_record { char c; typetext_record x; };
struct byte_reading { char c; typetext_reading x; };
struct byte_written { char c; typetext_written x; };
struct byte_totals { char c; typetext_sheet_totals x; };
struct byte_row { char c; typetext_row x; };

static void alignment(void)
{
    OFFSET(struct byte_record, x, 8);
    OFFSET(struct byte_reading, x, 8);
    OFFSET(struct byte_written, x, 8);
    OFFSET(struct byte_totals, x, 8);
    OFFSET(struct byte_row, x, 8);
}

static void constants(void)
{
    CHECK(sizeof(size_t) == 8);
    CHECK(TYPETEXT_DYNAMIC < -INT64_MAX);
    CHECK(TYPETEXT_CAPACITY == 8 && TYPETEXT_LONGEST_TEXT == 1024 && TYPETEXT_LONGEST_WRITTEN == 773);
    CHECK(TYPETEXT_COLLECTOR == 1027 && TYPETEXT_NOT_IN_ORDER == 6);
    CHECK(TYPETEXT_LONGEST_SHEET == 65536 && TYPETEXT_SHEET_TOO_LONG == 9);
}

static void kinds(void)
{
    CHECK(strict("f32").value.kind == TYPETEXT_SCALAR);
    CHECK(strict("ptr<f32>").value.kind == TYPETEXT_POINTER);
    CHECK(strict("tile<4xf32>").value.kind == TYPETEXT_TILE);
    CHECK(strict("tensor_view<f32>").value.kind == TYPETEXT_TENSOR_VIEW);
    CHECK(strict("partition_view<tile=(4),tensor_view<f32>,dim_map=[0]>").value.kind == TYPETEXT_PARTITION);
    CHECK(strict("gather_scatter_view<tile=(4),tensor_view<f32>,sparse_dim=0>").value.kind == TYPETEXT_GATHER_SCATTER);
    CHECK(strict("strided_view<tile=(4),traversal_strides=[1],tensor_view<f32>,dim_map=[0]>").value.kind ==
          TYPETEXT_STRIDED);
    CHECK(strict("token").value.kind == TYPETEXT_TOKEN && strict("token").refusal == TYPETEXT_ACCEPTED);
}

static void scalars(void)
{
    static const char *const names[] = {"i1",  "i4",   "i8",  "i16",      "i32",    "i64",       "f16",      "bf16",
                                        "f32", "tf32", "f64", "f8E4M3FN", "f8E5M2", "f8E8M0FNU", "f4E2M1FN", "f8E5M3FNU"};
    static const int numbers[] = {TYPETEXT_I1,       TYPETEXT_I4,     TYPETEXT_I8,        TYPETEXT_I16,
                                  TYPETEXT_I32,      TYPETEXT_I64,    TYPETEXT_F16,       TYPETEXT_BF16,
                                  TYPETEXT_F32,      TYPETEXT_TF32,   TYPETEXT_F64,       TYPETEXT_F8E4M3FN,
                                  TYPETEXT_F8E5M2,   TYPETEXT_F8E8M0FNU, TYPETEXT_F4E2M1FN, TYPETEXT_F8E5M3FNU};
    int i;
    for (i = 0; i < 16; i++) {
        CHECK(numbers[i] == i);
        CHECK(strict(names[i]).value.element == numbers[i]);
        CHECK(strict(names[i]).refusal == TYPETEXT_ACCEPTED);
    }
    CHECK(strict("bool").refusal == TYPETEXT_ACCEPTED);
}

static void paddings(void)
{
    static const char *const names[] = {"zero", "neg_zero", "nan", "pos_inf", "neg_inf"};
    static const int numbers[] = {TYPETEXT_PADDING_ZERO, TYPETEXT_PADDING_NEG_ZERO, TYPETEXT_PADDING_NAN,
                                  TYPETEXT_PADDING_POS_INF, TYPETEXT_PADDING_NEG_INF};
    char text[128];
    int i;
    CHECK(TYPETEXT_PADDING_NONE == 0);
    for (i = 0; i < 5; i++) {
        sprintf(text, "partition_view<tile=(4),padding_value=%s,tensor_view<f32>,dim_map=[0]>", names[i]);
        CHECK(strict(text).refusal == TYPETEXT_ACCEPTED && strict(text).value.padding == numbers[i]);
    }
}

/* Every field of a reading that uses nearly all of them. */
static void fields(void)
{
    typetext_reading r = parse("strided_view<tile=(2x3), traversal_strides=[-1,5], padding_value=nan, "
                               "tensor_view<?x-7xbf16, strides=[9, ?], #cuda_tile.ptr_attr<none>>, dim_map=[1,0]>");
    const typetext_record *v = &r.value;
    CHECK(r.refusal == TYPETEXT_ACCEPTED && r.place == 0);
    CHECK(r.note.a == 0 && r.note.b == 0 && r.note.c == 0 && r.note.d == 0);
    CHECK(v->shape_len == 2 && v->shape[0] == TYPETEXT_DYNAMIC && v->shape[1] == -7 && v->shape[2] == 0);
    CHECK(v->strides_len == 2 && v->strides[0] == 9 && v->strides[1] == TYPETEXT_DYNAMIC && v->strides[7] == 0);
    CHECK(v->tile_len == 2 && v->tile[0] == 2 && v->tile[1] == 3 && v->tile[2] == 0);
    CHECK(v->map_len == 2 && v->map[0] == 1 && v->map[1] == 0);
    CHECK(v->traversal_len == 2 && v->traversal[0] == -1 && v->traversal[1] == 5);
    CHECK(v->element == TYPETEXT_BF16 && v->padding == TYPETEXT_PADDING_NAN);
    CHECK(v->attribute == 1 && v->pointer == 0 && v->sparse == 0);
    CHECK(strict("tile<4xptr<f32>>").value.pointer == 1);
    CHECK(strict("gather_scatter_view<tile=(4),tensor_view<f32>,sparse_dim=-3>").value.sparse == -3);
}

static void counts(void)
{
    typetext_reading r = parse("strided_view<tile=(x2), traversal_strides=[q,r,s], tensor_view<axbxcxdxf32, "
                               "strides=[1]>>");
    CHECK(r.refusal == TYPETEXT_ACCEPTED);
    CHECK(r.note.a == 4 && r.note.b == 1 && r.note.c == 3 && r.note.d == 1);
    CHECK(r.value.tile[0] == 1 && r.value.traversal[2] == 0 && r.value.map_len == 2 && r.value.map[1] == 1);
}

/* A refused reading is a token with nothing else set. */
static int is_blank(const typetext_reading *r)
{
    typetext_record none;
    memset(&none, 0, sizeof none);
    none.kind = TYPETEXT_TOKEN;
    return memcmp(&r->value, &none, offsetof(typetext_record, attribute) + 1) == 0 && r->note.a == 0 &&
           r->note.b == 0 && r->note.c == 0 && r->note.d == 0;
}

static void refused(int line, typetext_reading r, int number, size_t place)
{
    check_at(line, r.refusal == number, "the refusal's number");
    check_at(line, r.place == place, "the refusal's place");
    check_at(line, is_blank(&r), "a refused reading is blank");
}

#define REFUSED(reading, number, place) refused(__LINE__, (reading), (number), (place))

static void refusals_of_length(void)
{
    static uint8_t text[TYPETEXT_LONGEST_TEXT + 1];
    memset(text, ' ', sizeof text);
    memcpy(text, "f32", 3);
    CHECK(typetext_parse(text, TYPETEXT_LONGEST_TEXT).refusal == TYPETEXT_ACCEPTED);
    REFUSED(typetext_parse(text, sizeof text), TYPETEXT_TOO_LONG, 0);
    REFUSED(typetext_parse_strict(text, sizeof text), TYPETEXT_TOO_LONG, 0);
    REFUSED(typetext_parse_strict(text, TYPETEXT_LONGEST_TEXT), TYPETEXT_NOT_STRICT, 0);
}

static void refusals_of_readers(void)
{
    REFUSED(parse("tile<\x80>"), TYPETEXT_NOT_ASCII, 5);
    REFUSED(strict("f32\xff"), TYPETEXT_NOT_ASCII, 3);
    REFUSED(parse("f31"), TYPETEXT_NO_TYPE, 0);
    REFUSED(parse("tile<1x1x1x1x1x1x1x1x1xf32>"), TYPETEXT_LIST_TOO_LONG, 0);
    REFUSED(strict("tile<1x1x1x1x1x1x1x1x1xf32>"), TYPETEXT_LIST_TOO_LONG, 0);
    CHECK(strict("tile<1x1x1x1x1x1x1x1xf32>").refusal == TYPETEXT_ACCEPTED);
    REFUSED(strict("tile<f32>junk"), TYPETEXT_NOT_STRICT, 0);
    CHECK(parse("tile<f32>junk").refusal == TYPETEXT_ACCEPTED);
}

/* With length 0 no byte is read, whatever the pointer. */
static void no_text(void)
{
    REFUSED(typetext_parse(NULL, 0), TYPETEXT_NO_TYPE, 0);
    REFUSED(typetext_parse_strict(NULL, 0), TYPETEXT_NOT_STRICT, 0);
}

static typetext_record tile(void)
{
    typetext_record r;
    memset(&r, 0, sizeof r);
    r.kind = TYPETEXT_TILE;
    r.element = TYPETEXT_F32;
    r.shape_len = 2;
    r.shape[0] = 2;
    r.shape[1] = TYPETEXT_DYNAMIC;
    return r;
}

static int all_are(const uint8_t *from, size_t len, uint8_t byte)
{
    size_t i;
    for (i = 0; i < len; i++)
        if (from[i] != byte)
            return 0;
    return 1;
}

static void rooms(void)
{
    typetext_record r = tile();
    uint8_t room[32];
    size_t lent;
    for (lent = 0; lent <= 30; lent++) {
        typetext_written w;
        memset(room, 0xAA, sizeof room);
        w = typetext_write(&r, room, lent);
        CHECK(w.len == (lent < 24 ? 0 : 24));
        CHECK(w.refusal == (lent < 24 ? TYPETEXT_ROOM_TOO_SHORT : TYPETEXT_ACCEPTED));
        CHECK(lent < 24 || memcmp(room, "!cuda_tile.tile<2x?xf32>", 24) == 0);
        CHECK(all_are(room + w.len, sizeof room - w.len, 0xAA));
    }
    CHECK(typetext_write(&r, NULL, 0).refusal == TYPETEXT_ROOM_TOO_SHORT);
}

/* A refused record leaves the room as it was, whatever its size. */
static void unwritten(int line, const typetext_record *r, int number)
{
    uint8_t room[TYPETEXT_LONGEST_WRITTEN];
    typetext_written w;
    memset(room, 0x55, sizeof room);
    w = typetext_write(r, room, sizeof room);
    check_at(line, w.refusal == number, "the writer's refusal");
    check_at(line, w.len == 0, "a refused writer's length");
    check_at(line, all_are(room, sizeof room, 0x55), "a refused writer touches no byte");
    check_at(line, typetext_write(r, room, 0).refusal == number, "the refusal comes before 8");
}

/* The tile above with one field set, which makes the writer refuse it. */
#define UNWRITTEN(field, value, number)                                                                                \
    do {                                                                                                               \
        typetext_record changed = tile();                                                                              \
        changed.field = (value);                                                                                       \
        unwritten(__LINE__, &changed, (number));                                                                       \
    } while (0)

static void wrong_numbers(void)
{
    UNWRITTEN(kind, 8, TYPETEXT_NOT_NORMAL);
    UNWRITTEN(kind, 255, TYPETEXT_NOT_NORMAL);
    UNWRITTEN(element, 16, TYPETEXT_NOT_NORMAL);
    UNWRITTEN(padding, 6, TYPETEXT_NOT_NORMAL);
    UNWRITTEN(pointer, 2, TYPETEXT_NOT_NORMAL);
    UNWRITTEN(attribute, 2, TYPETEXT_NOT_NORMAL);
    UNWRITTEN(shape_len, 9, TYPETEXT_NOT_NORMAL);
    UNWRITTEN(shape_len, SIZE_MAX, TYPETEXT_NOT_NORMAL);
    UNWRITTEN(traversal_len, SIZE_MAX, TYPETEXT_NOT_NORMAL);
}

static void not_normal(void)
{
    UNWRITTEN(shape_len, 1, TYPETEXT_NOT_NORMAL); /* an entry past the length */
    UNWRITTEN(strides_len, 1, TYPETEXT_NOT_NORMAL);
    UNWRITTEN(tile[7], 1, TYPETEXT_NOT_NORMAL);
    UNWRITTEN(map[0], 1, TYPETEXT_NOT_NORMAL);
    UNWRITTEN(sparse, 1, TYPETEXT_NOT_NORMAL);
    UNWRITTEN(padding, TYPETEXT_PADDING_ZERO, TYPETEXT_NOT_NORMAL);
    UNWRITTEN(kind, TYPETEXT_SCALAR, TYPETEXT_NOT_NORMAL);
}

static void without_text(void)
{
    UNWRITTEN(attribute, 1, TYPETEXT_NO_TEXT);
    UNWRITTEN(kind, TYPETEXT_TENSOR_VIEW, TYPETEXT_NO_TEXT);
    UNWRITTEN(kind, TYPETEXT_PARTITION, TYPETEXT_NO_TEXT);
    UNWRITTEN(kind, TYPETEXT_GATHER_SCATTER, TYPETEXT_NO_TEXT);
    UNWRITTEN(kind, TYPETEXT_STRIDED, TYPETEXT_NO_TEXT);
}

/* The longest text fills the room that the header names. */
static void longest(void)
{
    uint8_t room[TYPETEXT_LONGEST_WRITTEN];
    typetext_written w;
    typetext_reading back;
    typetext_record r;
    int i;
    memset(&r, 0, sizeof r);
    r.kind = TYPETEXT_STRIDED;
    r.element = TYPETEXT_F8E8M0FNU;
    r.padding = TYPETEXT_PADDING_NEG_ZERO;
    r.attribute = 1;
    r.shape_len = r.strides_len = r.tile_len = r.map_len = r.traversal_len = TYPETEXT_CAPACITY;
    for (i = 0; i < TYPETEXT_CAPACITY; i++) {
        r.shape[i] = r.strides[i] = INT64_MIN + 1;
        r.tile[i] = r.map[i] = r.traversal[i] = INT32_MIN;
    }
    w = typetext_write(&r, room, sizeof room);
    CHECK(w.refusal == TYPETEXT_ACCEPTED && w.len == TYPETEXT_LONGEST_WRITTEN);
    CHECK(typetext_write(&r, room, sizeof room - 1).refusal == TYPETEXT_ROOM_TOO_SHORT);
    back = typetext_parse_strict(room, w.len);
    CHECK(memcmp(&r, &back.value, offsetof(typetext_record, attribute) + 1) == 0);
}

/* The bytes that a call sets: the record's end and the reading's are padding. */
static int same(const typetext_reading *r, const typetext_reading *s)
{
    size_t record = offsetof(typetext_record, attribute) + 1;
    return memcmp(&r->value, &s->value, record) == 0 && r->place == s->place &&
           memcmp(&r->note, &s->note, sizeof r->note) == 0 && r->refusal == s->refusal;
}

static uint8_t block[TYPETEXT_COLLECTOR + 1]; /* one more byte, which must stay as it is */

static uint8_t feed(const uint8_t *piece, size_t len) { return typetext_feed(block, TYPETEXT_COLLECTOR, piece, len); }

/* The end answers as typetext_parse does on the whole, and leaves a fresh block. */
static void ended(int line, const uint8_t *text, size_t len)
{
    typetext_reading whole = typetext_parse(text, len);
    typetext_reading end = typetext_end(block, TYPETEXT_COLLECTOR);
    check_at(line, same(&end, &whole), "the end answers as on the whole text");
    check_at(line, all_are(block, sizeof block, 0), "the block is fresh after the end");
}

#define ENDED(text, len) ended(__LINE__, (text), (len))

/* Cut into any three pieces, some of them empty, then byte by byte. */
static void cut_everywhere(const char *text)
{
    size_t len = strlen(text), i, j;
    for (i = 0; i <= len; i++) {
        for (j = i; j <= len; j++) {
            CHECK(feed(bytes(text), i) == 0 && feed(bytes(text) + i, j - i) == 0);
            CHECK(feed(bytes(text) + j, len - j) == 0);
            ENDED(bytes(text), len);
        }
    }
    for (i = 0; i < len; i++)
        CHECK(feed(bytes(text) + i, 1) == 0 && feed(NULL, 0) == 0 && block[1024] == 0 && block[1025] == i + 1);
    CHECK(memcmp(block, text, len) == 0 && block[1026] == 0);
    ENDED(bytes(text), len);
}

static void pieces(void)
{
    ENDED(NULL, 0);
    cut_everywhere("");
    cut_everywhere("f32");
    cut_everywhere(" tile<04x?xbf16> ");
    cut_everywhere("tile<\x80\xff>");
    cut_everywhere("f31");
    cut_everywhere("tile<1x1x1x1x1x1x1x1x1xf32>");
    cut_everywhere("ptr<f32, #cuda_tile.ptr_attr<none>>");
    cut_everywhere("gather_scatter_view<tile=(q), tensor_view<4xf32>, sparse_dim=one>");
}

/* Up to 1,024 bytes and past them; past them the rest of the block is zero. */
static void pieces_of_length(void)
{
    static uint8_t text[2 * TYPETEXT_LONGEST_TEXT];
    size_t i;
    memset(text, ' ', sizeof text);
    memcpy(text + 1021, "f32", 3);
    for (i = 0; i <= 1024; i += 64) {
        CHECK(feed(text, i) == 0 && feed(text + i, 1024 - i) == 0);
        CHECK(memcmp(block, text, 1024) == 0 && block[1024] == 4 && block[1025] == 0 && block[1026] == 0);
        ENDED(text, 1024);
        CHECK(feed(text, i) == 0 && feed(text + i, 1025 - i) == 0);
        CHECK(all_are(block, 1026, 0) && block[1026] == 1);
        CHECK(feed(text, 3) == 0 && feed(NULL, 0) == 0 && feed(text, sizeof text) == 0);
        CHECK(all_are(block, 1026, 0) && block[1026] == 1);
        ENDED(text, 1025);
    }
    text[5] = 0x80; /* refusal 2 up to 1,024 bytes, 1 past them */
    CHECK(feed(text, 1024) == 0);
    ENDED(text, 1024);
    CHECK(feed(text, 1024) == 0 && feed(text, 1) == 0);
    REFUSED(typetext_end(block, TYPETEXT_COLLECTOR), TYPETEXT_TOO_LONG, 0);
    CHECK(all_are(block, sizeof block, 0));
}

/* A block that is refused, by a piece and by the end, stays as it was. */
static void not_in_order(int line, size_t len)
{
    uint8_t before[sizeof block];
    typetext_reading r;
    memcpy(before, block, sizeof block);
    check_at(line, typetext_feed(block, len, bytes("f32"), 3) == TYPETEXT_NOT_IN_ORDER, "a piece's refusal");
    check_at(line, typetext_feed(block, len, NULL, 0) == TYPETEXT_NOT_IN_ORDER, "an empty piece's refusal");
    r = typetext_end(block, len);
    refused(line, r, TYPETEXT_NOT_IN_ORDER, 0);
    check_at(line, memcmp(before, block, sizeof block) == 0, "a refused block stays as it was");
    memset(block, 0, sizeof block);
}

/* A block with these number and mark and one byte of its room set, which is refused; a byte of 0 sets none. */
static void wrong(int line, int high, int low, int mark, size_t place, int byte)
{
    block[1024] = (uint8_t)high;
    block[1025] = (uint8_t)low;
    block[1026] = (uint8_t)mark;
    block[place] = (uint8_t)byte;
    not_in_order(line, TYPETEXT_COLLECTOR);
}

#define WRONG(high, low, mark, place, byte) wrong(__LINE__, (high), (low), (mark), (place), (byte))

static void wrong_blocks(void)
{
    WRONG(0, 0, 0, 0, 'f'); /* a byte past the number */
    WRONG(0, 3, 0, 3, 1);
    WRONG(0, 3, 0, 1023, 255);
    WRONG(3, 255, 0, 1023, 1);
    WRONG(4, 1, 0, 0, 0); /* a number over 1,024 */
    WRONG(255, 255, 0, 0, 0);
    WRONG(0, 0, 2, 0, 0); /* no mark */
    WRONG(0, 0, 255, 0, 0);
    WRONG(0, 1, 1, 0, 0); /* over-full, with a number or a byte */
    WRONG(4, 0, 1, 0, 0);
    WRONG(0, 0, 1, 0, 'f');
    WRONG(0, 0, 1, 1023, 1);
}

static void blocks_of_another_size(void)
{
    static const size_t sizes[] = {0, 1, 1024, TYPETEXT_COLLECTOR - 1, TYPETEXT_COLLECTOR + 1};
    int i;
    for (i = 0; i < 5; i++) {
        not_in_order(__LINE__, sizes[i]);
        CHECK(feed(bytes("f32"), 3) == 0);
        not_in_order(__LINE__, sizes[i]);
    }
    CHECK(typetext_feed(NULL, 0, NULL, 0) == TYPETEXT_NOT_IN_ORDER);
    REFUSED(typetext_end(NULL, 0), TYPETEXT_NOT_IN_ORDER, 0);
}

/* In order, though no feeding but one of 1,024 zeros makes it so. */
static void a_block_of_zeros(void)
{
    block[1024] = 4;
    CHECK(feed(NULL, 0) == 0 && block[1024] == 4 && block[1025] == 0 && block[1026] == 0);
    REFUSED(typetext_end(block, TYPETEXT_COLLECTOR), TYPETEXT_NO_TYPE, 0);
    CHECK(all_are(block, sizeof block, 0));
}

/* The row at this place, by hand. */
static typetext_row row_by_hand(const uint8_t *sheet, size_t len, size_t place)
{
    typetext_row row;
    row.first = row.end = row.next = place;
    row.found = place < len;
    row.refusal = TYPETEXT_ACCEPTED;
    while (row.end < len && sheet[row.end] != '\n')
        row.end++;
    row.next = row.end < len ? row.end + 1 : row.end;
    return row;
}

static int same_row(const typetext_row *r, const typetext_row *s)
{
    return r->first == s->first && r->end == s->end && r->next == s->next && r->found == s->found &&
           r->refusal == s->refusal;
}

/* Every place gets its answer, past the end too. */
static void rows_at_every_place(const uint8_t *sheet, size_t len)
{
    size_t place;
    typetext_row row, wanted;
    for (place = 0; place < len + 3; place++) {
        row = typetext_next_row(sheet, len, place);
        wanted = row_by_hand(sheet, len, place);
        CHECK(same_row(&row, &wanted));
    }
    row = typetext_next_row(sheet, len, SIZE_MAX);
    CHECK(row.found == 0 && row.first == SIZE_MAX && row.end == SIZE_MAX && row.next == SIZE_MAX && row.refusal == 0);
}

/* The totals of the rows that the walk yields. */
static typetext_sheet_totals walked(const uint8_t *sheet, size_t len)
{
    typetext_sheet_totals t;
    typetext_row row;
    memset(&t, 0, sizeof t);
    for (row = typetext_next_row(sheet, len, 0); row.found; row = typetext_next_row(sheet, len, row.next)) {
        typetext_reading r = typetext_parse(sheet + row.first, row.end - row.first);
        t.rows++;
        t.accepted += r.refusal == TYPETEXT_ACCEPTED;
        t.refused_1 += r.refusal == TYPETEXT_TOO_LONG;
        t.refused_2 += r.refusal == TYPETEXT_NOT_ASCII;
        t.refused_3 += r.refusal == TYPETEXT_NO_TYPE;
        t.refused_4 += r.refusal == TYPETEXT_LIST_TOO_LONG;
        t.a += r.note.a;
        t.b += r.note.b;
        t.c += r.note.c;
        t.d += r.note.d;
    }
    t.refusal = row.refusal;
    return t;
}

/* The bytes that a call sets: the end is padding. */
static int same_totals(const typetext_sheet_totals *t, const typetext_sheet_totals *u)
{
    return memcmp(t, u, offsetof(typetext_sheet_totals, refusal) + 1) == 0;
}

/* The totals are those of the walk, and as many rows as said. */
static void counted(int line, const uint8_t *sheet, size_t len, size_t rows)
{
    typetext_sheet_totals t = typetext_totals(sheet, len), w = walked(sheet, len);
    check_at(line, same_totals(&t, &w), "the totals are those of the walk");
    check_at(line, t.rows == rows && t.refusal == TYPETEXT_ACCEPTED, "the number of rows");
    check_at(line, t.rows == t.accepted + t.refused_1 + t.refused_2 + t.refused_3 + t.refused_4, "their sum");
    if (len < 1000)
        rows_at_every_place(sheet, len);
}

#define COUNTED(text, rows) counted(__LINE__, bytes(text), strlen(text), (rows))

static void sheets(void)
{
    static const char defaults[] = "tile<xxf32>\npartition_view<tile=(q), tensor_view<4xf32>>\ntile<zxf32>";
    typetext_sheet_totals t = typetext_totals(bytes("f32\ntile<f32\n"), 13);
    CHECK(t.rows == 2 && t.accepted == 1 && t.refused_1 == 0 && t.refused_2 == 0 && t.refused_3 == 1);
    CHECK(t.refused_4 == 0 && t.a == 0 && t.b == 0 && t.c == 0 && t.d == 0 && t.refusal == TYPETEXT_ACCEPTED);
    counted(__LINE__, NULL, 0, 0);
    COUNTED("f32", 1);
    COUNTED("f32\n", 1);
    COUNTED("f32\ntile<f32", 2);
    COUNTED("\n", 1);
    COUNTED("\n\nf32\n\n", 4);
    COUNTED("\r\n \n\r", 3);
    COUNTED("f32\x80\ntile<1x1x1x1x1x1x1x1x1xf32>\n\xff", 3);
    t = typetext_totals(bytes(defaults), sizeof defaults - 1);
    CHECK(t.rows == 3 && t.accepted == 3 && t.a == 3 && t.b == 1 && t.c == 0 && t.d == 2);
}

static uint8_t sheet[TYPETEXT_LONGEST_SHEET + 1];

static void rows_of_length(void)
{
    typetext_sheet_totals t;
    memset(sheet, ' ', 2051);
    memcpy(sheet, "f32", 3);
    sheet[1024] = '\n';
    memcpy(sheet + 1025, "f32", 3);
    sheet[2050] = '\n';
    counted(__LINE__, sheet, 2051, 2);
    t = typetext_totals(sheet, 2051);
    CHECK(t.accepted == 1 && t.refused_1 == 1);
}

/* Up to 65,536 bytes; past them there are no rows, at any place. */
static void sheets_of_length(void)
{
    static const size_t places[] = {0, 1, TYPETEXT_LONGEST_SHEET, TYPETEXT_LONGEST_SHEET + 1, SIZE_MAX};
    typetext_sheet_totals t, none;
    int i;
    memset(sheet, '\n', sizeof sheet);
    counted(__LINE__, sheet, TYPETEXT_LONGEST_SHEET, TYPETEXT_LONGEST_SHEET);
    memset(&none, 0, sizeof none);
    none.refusal = TYPETEXT_SHEET_TOO_LONG;
    t = typetext_totals(sheet, sizeof sheet);
    CHECK(same_totals(&t, &none));
    for (i = 0; i < 5; i++) {
        typetext_row row = typetext_next_row(sheet, sizeof sheet, places[i]);
        CHECK(row.found == 0 && row.refusal == TYPETEXT_SHEET_TOO_LONG);
        CHECK(row.first == places[i] && row.end == places[i] && row.next == places[i]);
    }
    memset(sheet, 'f', sizeof sheet);
    counted(__LINE__, sheet, TYPETEXT_LONGEST_SHEET, 1);
    CHECK(typetext_totals(sheet, TYPETEXT_LONGEST_SHEET).refused_1 == 1);
}

int main(void)
{
    layout();
    layout_of_sheets();
    alignment();
    constants();
    kinds();
    scalars();
    paddings();
    fields();
    counts();
    refusals_of_length();
    refusals_of_readers();
    no_text();
    rooms();
    wrong_numbers();
    not_normal();
    without_text();
    longest();
    pieces();
    pieces_of_length();
    wrong_blocks();
    blocks_of_another_size();
    a_block_of_zeros();
    sheets();
    rows_of_length();
    sheets_of_length();
    printf("%d checks held, %d failed\n", held, failed);
    return failed != 0;
}
