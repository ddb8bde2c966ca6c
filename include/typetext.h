/* typetext.h: reads and writes type texts such as
 *
 *     !cuda_tile.tile<4x?xf32>
 *
 * For C99 and C++, on x86-64 with the System V calling convention. Link with libtypetext.a; tools/library makes it and
 * lays this file beside it.
 *
 * Seven calls: an ordinary reader, which reads what Type::parse of cutile-ir reads and counts the defaults that it took;
 * a strict reader, which takes no default and alone vouches for the whole text; a writer; two by which the ordinary reader
 * takes a text in pieces; and two for a sheet of texts, one a row, which count it and walk over its rows. They keep no pointer, allocate nothing, share
 * nothing between threads, and write nowhere but into their answer and the room or block that they are lent.
 *
 * A caller has to vouch for what C can't check and for nothing else: that the pointer of a text, a piece or a sheet leads
 * to `len` readable bytes, a record's pointer to one whole typetext_record, a room's pointer to `room_len` writable bytes
 * that are no part of that record, a block's to `block_len` writable bytes that are no part of that piece. With a length
 * of 0 the pointer isn't followed. What the bytes and numbers are is the library's concern: any text, any sheet and any
 * place in it get an answer, and a record or block that holds wrong numbers is refused. Answers come back by value, so
 * there is no size of an answer to get wrong.
 */
#ifndef TYPETEXT_H
#define TYPETEXT_H

#if !defined(__x86_64__) || defined(__ILP32__) || defined(_WIN32)
#error "libtypetext.a is for x86-64 with the System V calling convention and 64-bit pointers"
#endif

#include <stddef.h>
#include <stdint.h>

#ifdef __cplusplus
extern "C" {
#endif

/* The most entries that a list of a type can have. */
#define TYPETEXT_CAPACITY 8

/* The most bytes that a reader takes; a longer text is refused with TYPETEXT_TOO_LONG. */
#define TYPETEXT_LONGEST_TEXT 1024

/* The longest text that the writer makes: a room of so many bytes is enough for every type. */
#define TYPETEXT_LONGEST_WRITTEN 773

/* The size of a collector, the block in which a text that comes in pieces is joined. */
#define TYPETEXT_COLLECTOR 1027

/* The most bytes that a sheet of texts can have; a longer one is refused with TYPETEXT_SHEET_TOO_LONG. */
#define TYPETEXT_LONGEST_SHEET 65536

/* No call takes more bytes of stack than this, for threads with a small one: measured on the texts that are hardest on it,
 * not proved. */
#define TYPETEXT_STACK 24576

/* An entry of `shape` or `strides` that is known only when the kernel runs; written `?`. */
#define TYPETEXT_DYNAMIC INT64_MIN

/* What a type is: typetext_record's `kind`. */
enum typetext_kind {
    TYPETEXT_SCALAR = 0,         /* f32 */
    TYPETEXT_POINTER = 1,        /* ptr<f32> */
    TYPETEXT_TILE = 2,           /* tile<4x8xf32>, or of pointers: tile<4xptr<f32>> */
    TYPETEXT_TENSOR_VIEW = 3,    /* tensor_view<?x16xf32, strides=[16,1]> */
    TYPETEXT_PARTITION = 4,      /* partition_view<tile=(4x8), tensor_view<..>, dim_map=[0,1]> */
    TYPETEXT_GATHER_SCATTER = 5, /* gather_scatter_view<tile=(4), tensor_view<..>, sparse_dim=0> */
    TYPETEXT_STRIDED = 6,        /* strided_view<tile=(4), traversal_strides=[1], tensor_view<..>, dim_map=[0]> */
    TYPETEXT_TOKEN = 7           /* token */
};

/* What a type's entries are: typetext_record's `element`. The texts accept the names below, lower-case forms of the last
 * five, and `bool` for i1. */
enum typetext_scalar {
    TYPETEXT_I1 = 0,         /* i1 */
    TYPETEXT_I4 = 1,         /* i4 */
    TYPETEXT_I8 = 2,         /* i8 */
    TYPETEXT_I16 = 3,        /* i16 */
    TYPETEXT_I32 = 4,        /* i32 */
    TYPETEXT_I64 = 5,        /* i64 */
    TYPETEXT_F16 = 6,        /* f16 */
    TYPETEXT_BF16 = 7,       /* bf16 */
    TYPETEXT_F32 = 8,        /* f32 */
    TYPETEXT_TF32 = 9,       /* tf32 */
    TYPETEXT_F64 = 10,       /* f64 */
    TYPETEXT_F8E4M3FN = 11,  /* f8E4M3FN */
    TYPETEXT_F8E5M2 = 12,    /* f8E5M2 */
    TYPETEXT_F8E8M0FNU = 13, /* f8E8M0FNU */
    TYPETEXT_F4E2M1FN = 14,  /* f4E2M1FN */
    TYPETEXT_F8E5M3FNU = 15  /* f8E5M3FNU */
};

/* What a view yields outside its tensor: typetext_record's `padding`. */
enum typetext_padding {
    TYPETEXT_PADDING_NONE = 0,     /* nothing is said */
    TYPETEXT_PADDING_ZERO = 1,     /* zero */
    TYPETEXT_PADDING_NEG_ZERO = 2, /* neg_zero */
    TYPETEXT_PADDING_NAN = 3,      /* nan */
    TYPETEXT_PADDING_POS_INF = 4,  /* pos_inf */
    TYPETEXT_PADDING_NEG_INF = 5   /* neg_inf */
};

/* Why a call refuses: the `refusal` of its answer. Each is given exactly when what stands beside it holds and none that
 * comes before it does; the order is 1, 2, 3, 4 for the ordinary reader, 1, 2, 5, 4 for the strict one, 6, 7, 8 for the
 * writer and 6, 1, 2, 3, 4 for a collector. A sheet has 9 alone. */
enum typetext_refusal {
    TYPETEXT_ACCEPTED = 0,
    TYPETEXT_TOO_LONG = 1,       /* readers: the text has over 1,024 bytes */
    TYPETEXT_NOT_ASCII = 2,      /* readers: a byte is 128 or more; `place` says where the first is */
    TYPETEXT_NO_TYPE = 3,        /* ordinary reader: Type::parse returns None */
    TYPETEXT_LIST_TOO_LONG = 4,  /* readers: the type has a list of over 8 entries */
    TYPETEXT_NOT_STRICT = 5,     /* strict reader: the text isn't a strict form */
    TYPETEXT_NOT_NORMAL = 6,     /* writer: the record isn't normal, or has a number that is no record's */
    TYPETEXT_NOT_IN_ORDER = 6,   /* collector: the block isn't in order, or has another size */
    TYPETEXT_NO_TEXT = 7,        /* writer: the record has no text */
    TYPETEXT_ROOM_TOO_SHORT = 8, /* writer: the room is shorter than the text */
    TYPETEXT_SHEET_TOO_LONG = 9  /* sheet: it has over 65,536 bytes */
};

/* A type. It is normal if no length is over 8 and all that its kind doesn't use is zero, entries past a length included.
 * To build one, begin with an all-zero record (typetext_record r = {0}; in C++: = {}) and set what the kind uses:
 *
 *   every kind       attribute, though scalars, tiles of scalars and tokens have no text with it
 *   all but token    element
 *   tile             pointer, shape
 *   tensor view      shape, strides
 *   views            shape and strides of their tensor view, tile, padding, and
 *     partition        map
 *     gather-scatter   sparse
 *     strided          map, traversal
 */
typedef struct typetext_record {
    size_t shape_len; /* entries in use, at most TYPETEXT_CAPACITY; so for all five */
    size_t strides_len;
    size_t tile_len;
    size_t map_len;
    size_t traversal_len;
    int64_t shape[TYPETEXT_CAPACITY]; /* TYPETEXT_DYNAMIC stands for `?`, here and in `strides` */
    int64_t strides[TYPETEXT_CAPACITY];
    int32_t tile[TYPETEXT_CAPACITY];      /* a view's tile shape */
    int32_t map[TYPETEXT_CAPACITY];       /* a view's dim_map */
    int32_t traversal[TYPETEXT_CAPACITY]; /* a strided view's traversal_strides */
    int32_t sparse;                       /* a gather-scatter view's sparse_dim */
    uint8_t kind;                         /* an enum typetext_kind */
    uint8_t element;                      /* an enum typetext_scalar */
    uint8_t padding;                      /* an enum typetext_padding */
    uint8_t pointer;                      /* 1: a tile's element is a pointer; else 0 */
    uint8_t attribute;                    /* 1: the mark #cuda_tile.ptr_attr<none>; else 0 */
} typetext_record;

/* The defaults that the ordinary reader took, as far as they are counted: see typetext_parse. */
typedef struct typetext_note {
    size_t a; /* shape and stride entries that are neither `?` nor readable, now dynamic */
    size_t b; /* tile-shape entries set to 1 as unreadable */
    size_t c; /* dim-map, traversal and sparse entries set to 0 as unreadable */
    size_t d; /* whole clauses filled in: strides, dim map, traversal strides, sparse dimension */
} typetext_note;

/* What a reader answers. A refused reading has a token for its value and zero counts. */
typedef struct typetext_reading {
    typetext_record value; /* the type; its address can be handed to typetext_write */
    size_t place;          /* for TYPETEXT_NOT_ASCII the place of the byte, from 0; else 0 */
    typetext_note note;    /* the defaults taken */
    uint8_t refusal;       /* an enum typetext_refusal */
} typetext_reading;

/* What the writer answers. */
typedef struct typetext_written {
    size_t len;      /* bytes of the text; 0 for a refusal */
    uint8_t refusal; /* an enum typetext_refusal */
} typetext_written;

/* The totals of a sheet. The five numbers after `rows` sum to it. For a refused sheet all are 0. */
typedef struct typetext_sheet_totals {
    size_t rows;      /* rows of the sheet */
    size_t accepted;  /* rows that typetext_parse accepts */
    size_t refused_1; /* rows that it refuses with TYPETEXT_TOO_LONG */
    size_t refused_2; /* with TYPETEXT_NOT_ASCII */
    size_t refused_3; /* with TYPETEXT_NO_TYPE */
    size_t refused_4; /* with TYPETEXT_LIST_TOO_LONG */
    size_t a;         /* sums of `a` to `d` over the readings' notes */
    size_t b;
    size_t c;
    size_t d;
    uint8_t refusal; /* TYPETEXT_ACCEPTED or TYPETEXT_SHEET_TOO_LONG */
} typetext_sheet_totals;

/* Where a row of a sheet lies. Where there is none, `first`, `end` and `next` are the place that was asked for. */
typedef struct typetext_row {
    size_t first;    /* the place of its first byte, from 0 */
    size_t end;      /* the place behind its last byte: it has end - first bytes, none of them a line feed */
    size_t next;     /* the place at which the next row begins, if there is one */
    uint8_t found;   /* 1: there is a row; else 0 */
    uint8_t refusal; /* TYPETEXT_ACCEPTED or TYPETEXT_SHEET_TOO_LONG */
} typetext_row;

/* The ordinary reader: what Type::parse returns for this text, or refusal 1, 2, 3 or 4. A count of the `note` that isn't 0
 * says that the type has entries or clauses that the text hasn't. Four zeros don't say that the text has nothing else: a
 * misspelt clause (padding=zero for padding_value=zero), a misspelt padding and what stands behind the type are passed over
 * and not counted. To be sure of the whole text, use typetext_parse_strict. */
typetext_reading typetext_parse(const uint8_t *text, size_t len);

/* The strict reader: the type of a strict form, in which every byte has its meaning, or refusal 1, 2, 5 or 4. What it
 * accepts, typetext_parse reads as the same type; the counts of the `note` are 0. */
typetext_reading typetext_parse_strict(const uint8_t *text, size_t len);

/* The writer: the record's text at the front of the room, or refusal 6, 7 or 8. The text is a strict form and reads back
 * as this record. No byte 0 follows it, and bytes of the room behind it stay as they were; a refusal changes none. */
typetext_written typetext_write(const typetext_record *record, uint8_t *room, size_t room_len);

/* A text in pieces, of any number of bytes each, or none: feed a collector each piece, then end it. A collector is a block
 * of TYPETEXT_COLLECTOR bytes that you lend, a fresh one all zeros: uint8_t block[TYPETEXT_COLLECTOR] = {0}; and what it
 * holds is up to these calls. First come 1,024 bytes of room, then the number of bytes so far in two bytes, high byte
 * first, then the over-full mark: 1 once there were over 1,024 in all, else 0. It is in order if the number is at most
 * 1,024, the room past the number is zero, and an over-full one has number 0 and only zeros. Any other block, and any of
 * another size, is refused with 6 and stays as it was. The block and the piece don't overlap. */

/* A piece: 0, or refusal 6 and no other. */
uint8_t typetext_feed(uint8_t *block, size_t block_len, const uint8_t *piece, size_t len);

/* The end: what typetext_parse answers on the joined bytes, wherever they were cut, or refusal 6. After all but 6 the
 * block is fresh again and takes the next text. */
typetext_reading typetext_end(uint8_t *block, size_t block_len);

/* A sheet of texts: each row ends with a line feed, byte 10, which is no part of it; a last row without one counts if it
 * has a byte. A sheet of over TYPETEXT_LONGEST_SHEET bytes is refused with 9 and yields no row. */

/* The totals: how many rows there are, how typetext_parse answers them, and how many defaults it took in all. */
typetext_sheet_totals typetext_totals(const uint8_t *sheet, size_t len);

/* The row that begins at this place. To walk over a sheet, begin with place 0 and go on with `next` while there is a row:
 *
 *     for (row = typetext_next_row(sheet, len, 0); row.found; row = typetext_next_row(sheet, len, row.next))
 *         reading = typetext_parse(sheet + row.first, row.end - row.first);
 *
 * Any place gets an answer: one within a row yields what is left of it, one at the end or past it none. */
typetext_row typetext_next_row(const uint8_t *sheet, size_t len, size_t place);

#ifdef __cplusplus
}
#endif

#endif
