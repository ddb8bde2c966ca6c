/* Reads the type text of a table of track histories, loosely, strictly and in pieces, and writes it. */
#include "typetext.h"

#include <stdio.h>
#include <string.h>

/* The sparse dimension is missing its number: a loose reader takes 0 for it. */
static const char LOOSE[] = "gather_scatter_view<tile=(4), tensor_view<?x16xf32, strides=[16, 1]>, sparse_dim=one>";
static const char STRICT[] = "gather_scatter_view<tile=(4), tensor_view<?x16xf32, strides=[16, 1]>, sparse_dim=1>";

static const uint8_t *bytes(const char *text) { return (const uint8_t *)text; }

static void show_list(const char *name, const int64_t *entries, size_t len)
{
    size_t i;
    printf("  %s:", name);
    for (i = 0; i < len; i++) {
        if (entries[i] == TYPETEXT_DYNAMIC)
            printf(" ?");
        else
            printf(" %lld", (long long)entries[i]);
    }
    printf("\n");
}

static void show(const typetext_record *type)
{
    show_list("shape", type->shape, type->shape_len);
    show_list("strides", type->strides, type->strides_len);
    if (type->kind == TYPETEXT_GATHER_SCATTER)
        printf("  sparse dimension: %ld\n", (long)type->sparse);
}

static void show_reading(const char *how, const typetext_reading *r)
{
    printf("%s: refusal %d\n", how, r->refusal);
    if (r->refusal != TYPETEXT_ACCEPTED)
        return;
    show(&r->value);
    printf("  defaults taken: a %zu, b %zu, c %zu, d %zu\n", r->note.a, r->note.b, r->note.c,
           r->note.d);
}

/* Any text is read as far as can be; the counts say what was made up. */
static void read_loosely(const char *text)
{
    typetext_reading r = typetext_parse(bytes(text), strlen(text));
    show_reading("loosely", &r);
}

/* As a link delivers it, here at most 20 bytes at a time; the answer is that of the whole text. */
static void read_in_pieces(const char *text, uint8_t *block)
{
    size_t len = strlen(text), at, n;
    typetext_reading r;
    for (at = 0; at < len; at += n) {
        n = len - at < 20 ? len - at : 20;
        printf("  %.*s\n", (int)n, text + at);
        if (typetext_feed(block, TYPETEXT_COLLECTOR, bytes(text) + at, n) != TYPETEXT_ACCEPTED)
            return;
    }
    r = typetext_end(block, TYPETEXT_COLLECTOR);
    show_reading("in pieces", &r);
}

static void read_strictly_and_write(const char *text)
{
    uint8_t room[TYPETEXT_LONGEST_WRITTEN];
    typetext_written w;
    typetext_reading r = typetext_parse_strict(bytes(text), strlen(text));
    printf("strictly: refusal %d\n", r.refusal);
    if (r.refusal != TYPETEXT_ACCEPTED)
        return;
    show(&r.value);
    w = typetext_write(&r.value, room, sizeof room);
    if (w.refusal == TYPETEXT_ACCEPTED)
        printf("written: %.*s\n", (int)w.len, (const char *)room);
}

int main(void)
{
    static uint8_t block[TYPETEXT_COLLECTOR]; /* all zeros: a fresh collector, and fresh again after each text */
    printf("%s\n", LOOSE);
    read_loosely(LOOSE);
    read_strictly_and_write(LOOSE);
    printf("\n%s\n", STRICT);
    read_loosely(STRICT);
    read_strictly_and_write(STRICT);
    printf("\n");
    read_in_pieces(LOOSE, block);
    printf("\n");
    read_in_pieces(STRICT, block);
    return 0;
}
