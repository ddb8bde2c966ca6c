/* How much stack the library's calls take on texts that are hard on it. Each call runs on a stack of its own that was
 * painted before; the lowest byte that changed tells how deep it went. Then the same on a stack of SMALL bytes, which
 * it must outlive. More texts come from standard input, a row each, as crates/replay/data has them.
 *
 *     stack MACHINE    prints a row for each call; the exit status is 1 if one takes over LIMIT bytes or doesn't live
 *
 * The large answers come back through a pointer in front: on x86-64 the calling convention hides it, in the library
 * that is compiled for Arm it is an argument. Declared so, without the header, both are called alike. */
#define _GNU_SOURCE
#include <stddef.h>
#include <stdint.h>
#include <stdio.h>
#include <stdlib.h>
#include <string.h>
#include <sys/mman.h>
#include <sys/resource.h>
#include <sys/wait.h>
#include <ucontext.h>
#include <unistd.h>

#define LARGE (128 * 1024)  /* the stack on which calls are measured */
#define SMALL (32 * 1024)   /* the stack that a call must outlive */
#define GUARD (1024 * 1024) /* below it; no frame reaches over so much */
#define TEXT 1024
#define SHEET 65536
#define BLOCK 1027
#define WRITTEN 773
#define REFUSAL 320 /* where a reading's refusal lies */

typedef struct answer {
    uint64_t bytes[41]; /* a reading, the largest answer; it begins with the record */
} answer;

typedef struct written {
    size_t len;
    uint8_t refusal;
} written;

void typetext_parse(answer *, const uint8_t *text, size_t len);
void typetext_parse_strict(answer *, const uint8_t *text, size_t len);
written typetext_write(const answer *record, uint8_t *room, size_t len);
uint8_t typetext_feed(uint8_t *block, size_t block_len, const uint8_t *piece, size_t len);
void typetext_end(answer *, uint8_t *block, size_t block_len);
void typetext_totals(answer *, const uint8_t *sheet, size_t len);
void typetext_next_row(answer *, const uint8_t *sheet, size_t len, size_t place);

static void fail(const char *what, const char *of)
{
    fprintf(stderr, "stack: %s: %s\n", what, of);
    exit(1);
}

/* ── texts ── */

typedef struct text {
    char name[64];
    uint8_t *bytes;
    size_t len;
} text;

static text texts[4096];
static size_t count = 0;

static uint8_t refusal_of(const text *t)
{
    answer a;
    typetext_parse(&a, t->bytes, t->len);
    return ((const uint8_t *)&a)[REFUSAL];
}

/* A text, with the ordinary reader's refusal: were it another, the text wouldn't be what its name says. */
static void add(const char *name, const void *bytes, size_t len, int refusal)
{
    text *t = &texts[count];
    if (count++ == sizeof texts / sizeof *texts)
        fail("more texts than there is room for", name);
    snprintf(t->name, sizeof t->name, "%s", name);
    t->bytes = malloc(len + 1);
    if (!t->bytes)
        fail("no memory", name);
    memcpy(t->bytes, bytes, len);
    t->len = len;
    if (refusal_of(t) != refusal)
        fail("read otherwise", name);
}

/* As often as it fits between the other two. */
static void repeated(const char *name, const char *before, const char *unit, const char *behind, int refusal)
{
    char bytes[TEXT + 1];
    size_t n = (TEXT - strlen(before) - strlen(behind)) / strlen(unit);
    char *at = bytes + sprintf(bytes, "%s", before);
    while (n-- > 0)
        at += sprintf(at, "%s", unit);
    at += sprintf(at, "%s", behind);
    add(name, bytes, (size_t)(at - bytes), refusal);
}

static const char MARK[] = ", #cuda_tile.ptr_attr<none>";

/* Marks in marks, as many as fit between the two: where one is removed, the two halves around it form the next. */
static void nested(const char *before, const char *behind, size_t half)
{
    char name[64], bytes[TEXT + 1];
    size_t n = (TEXT - strlen(before) - strlen(behind)) / strlen(MARK), i;
    char *at = bytes + sprintf(bytes, "%s", before);
    for (i = 0; i < n; i++)
        at += sprintf(at, "%.*s", (int)half, MARK);
    for (i = 0; i < n; i++)
        at += sprintf(at, "%s", MARK + half);
    at += sprintf(at, "%s", behind);
    snprintf(name, sizeof name, "%zu nested marks in %.20s%s", n, before, behind);
    add(name, bytes, (size_t)(at - bytes), 0);
}

static void marks(void)
{
    static const char *const around[][2] = {
        {"token", ""},
        {"f32", ""},
        {"ptr<f32", ">"},
        {"tile<f32", ">"},
        {"tile<ptr<f32", ">>"},
        {"tensor_view<f32", ">"},
        {"tensor_view<4xf32, strides=[1]", ">"},
        {"partition_view<tile=(4), tensor_view<f32", ">>"},
        {"gather_scatter_view<tile=(4), tensor_view<f32", ">, sparse_dim=0>"},
        {"strided_view<tile=(4), traversal_strides=[1], tensor_view<f32", ">, dim_map=[0]>"},
    };
    size_t i;
    for (i = 0; i < sizeof around / sizeof *around; i++) {
        nested(around[i][0], around[i][1], 13);
        nested(around[i][0], around[i][1], 1);
        nested(around[i][0], around[i][1], 26);
    }
    repeated("marks in a row", "token", MARK, "", 0);
}

/* Long lists and numerals, spaces, and brackets in brackets. */
static void repeats(void)
{
    static const struct {
        const char *name, *before, *unit, *behind;
        int refusal;
    } rows[] = {
        {"a long shape", "tile<", "1x", "f32>", 4},
        {"a shape of nothing", "tile<", "x", "f32>", 4},
        {"a pointer tile's long shape", "tile<", "1x", "ptr<f32>>", 4},
        {"a tensor's long shape", "tensor_view<", "?x", "f32>", 4},
        {"long strides", "tensor_view<f32, strides=[", "1,", "1]>", 4},
        {"a long tile shape", "partition_view<tile=(", "1x", "1), tensor_view<f32>>", 4},
        {"a long dim_map", "partition_view<tile=(4), tensor_view<f32>, dim_map=[", "1,", "1]>", 4},
        {"long traversal_strides", "strided_view<tile=(4), traversal_strides=[", "1,", "1], tensor_view<f32>>", 4},
        {"a long numeral", "tile<", "1", "xf32>", 0},
        {"a long sparse_dim", "gather_scatter_view<tile=(4), tensor_view<f32>, sparse_dim=", "1", ">", 0},
        {"spaces before a type", "", " ", "tile<f32>", 0},
        {"spaces behind a type", "tile<f32>", " ", "", 0},
        {"ptr< in ptr<", "", "ptr<", "", 3},
        {"tile< in tile<", "", "tile<", "", 3},
        {"pointers to pointers", "tile<", "ptr<", "f32>", 3},
        {"tensor_view< in tensor_view<", "", "tensor_view<", "", 3},
        {"views in views", "", "partition_view<tile=(4), ", "tensor_view<f32>>", 0},
        {"strided views in strided views", "", "strided_view<tile=(4), traversal_strides=[1], ", "tensor_view<f32>>", 0},
        {"closing brackets behind", "tile<f32>", ">", "", 0},
        {"prefixes", "", "!cuda_tile.", "tile<f32>", 3},
    };
    size_t i;
    for (i = 0; i < sizeof rows / sizeof *rows; i++)
        repeated(rows[i].name, rows[i].before, rows[i].unit, rows[i].behind, rows[i].refusal);
}

static void one_byte(void)
{
    static const char *const bytes[] = {"<", ">", "x", "1", " ", ",", "(", "[", "=", "#", "?", "-", "!", "\n", "\x7f"};
    uint8_t high[TEXT];
    char name[64];
    size_t i;
    for (i = 0; i < sizeof bytes / sizeof *bytes; i++) {
        snprintf(name, sizeof name, "1024 bytes %d", bytes[i][0]);
        repeated(name, "", bytes[i], "", 3);
    }
    memset(high, 255, sizeof high);
    add("1024 bytes 255", high, sizeof high, 2);
    memset(high, 0, sizeof high);
    add("1024 bytes 0", high, sizeof high, 3);
    add("no byte", "", 0, 3);
}

#define EIGHT(entry, sep) entry sep entry sep entry sep entry sep entry sep entry sep entry sep entry
#define SIZES EIGHT("-9223372036854775807", "x")
#define SMALLS(sep) EIGHT("-2147483648", sep)
#define TENSOR                                                                                                         \
    "tensor_view<" SIZES "xf8E8M0FNU, strides=[" EIGHT("-9223372036854775807", ",") "], #cuda_tile.ptr_attr<none>>"
#define TILED "tile=(" SMALLS("x") "), "

/* The longest of each kind; the last is the longest text that the writer makes. */
static void kinds(void)
{
    static const char *const longest[] = {
        "!cuda_tile.token",
        "f8E8M0FNU",
        "!cuda_tile.ptr<f8E8M0FNU, #cuda_tile.ptr_attr<none>>",
        "!cuda_tile.tile<" SIZES "xf8E8M0FNU>",
        "!cuda_tile.tile<" SIZES "x!cuda_tile.ptr<f8E8M0FNU, #cuda_tile.ptr_attr<none>>>",
        "!cuda_tile." TENSOR,
        "!cuda_tile.partition_view<" TILED "padding_value=neg_zero, " TENSOR ", dim_map=[" SMALLS(",") "]>",
        "!cuda_tile.gather_scatter_view<" TILED "padding_value=neg_zero, " TENSOR ", sparse_dim=-2147483648>",
        "!cuda_tile.strided_view<" TILED "traversal_strides=[" SMALLS(",") "], padding_value=neg_zero, " TENSOR
                                                                           ", dim_map=[" SMALLS(",") "]>",
    };
    char name[64];
    size_t i, n = sizeof longest / sizeof *longest;
    uint8_t room[WRITTEN];
    answer a;
    for (i = 0; i < n; i++) {
        snprintf(name, sizeof name, "the longest %.*s", (int)strcspn(longest[i], "<"), longest[i]);
        add(name, longest[i], strlen(longest[i]), 0);
    }
    typetext_parse(&a, texts[count - 1].bytes, texts[count - 1].len);
    if (typetext_write(&a, room, WRITTEN).len != WRITTEN)
        fail("not the longest written text", longest[n - 1]);
}

/* The rows of standard input: a text with \\ and \xHH, a tab, its refusal. */
static void recorded(void)
{
    static char row[8 * TEXT];
    while (fgets(row, sizeof row, stdin)) {
        char *from = row, *to = row, *tab = strchr(row, '\t');
        char name[64];
        unsigned byte;
        if (row[0] == '#' || !tab)
            continue;
        snprintf(name, sizeof name, "%.*s", (int)(tab - row), row);
        while (from < tab) {
            if (from[0] != '\\')
                *to++ = *from++;
            else if (from[1] == 'x' && sscanf(from + 2, "%2x", &byte) == 1)
                *to++ = (char)byte, from += 4;
            else
                *to++ = from[1], from += 2;
        }
        add(name, row, (size_t)(to - row), tab[1] - '0');
    }
}

/* A sheet as long as one may be, with these texts as its rows, over and over. */
static void sheet_of(const char *name, size_t first, size_t end)
{
    static uint8_t bytes[SHEET];
    size_t at = 0, i = first;
    for (;;) {
        const text *t = &texts[i];
        if (at + t->len + 1 > SHEET)
            break;
        memcpy(bytes + at, t->bytes, t->len);
        at += t->len;
        bytes[at++] = '\n';
        i = i + 1 < end ? i + 1 : first;
    }
    memset(bytes + at, 'x', SHEET - at);
    add(name, bytes, SHEET, 1);
}

static void sheets(size_t nasty)
{
    static uint8_t bytes[SHEET + 1];
    sheet_of("a sheet of nested marks", 0, 1);
    sheet_of("a sheet of such texts", 0, nasty);
    memset(bytes, '\n', sizeof bytes);
    add("a sheet of line feeds", bytes, SHEET, 1);
    add("a sheet that is too long", bytes, SHEET + 1, 1);
    memset(bytes, 'x', SHEET);
    add("a sheet of one row", bytes, SHEET, 1);
}

/* ── calls ── */

static text now;       /* the text in hand */
static answer reading; /* or another answer */
static uint8_t block[BLOCK];
static uint8_t room[WRITTEN];

static void ready(void) {}

static void fed(size_t len)
{
    memset(block, 0, sizeof block);
    typetext_feed(block, BLOCK, now.bytes, len);
}

static void fed_half(void) { fed(now.len / 2); }
static void fed_whole(void) { fed(now.len); }

static void parse(void) { typetext_parse(&reading, now.bytes, now.len); }
static void strict(void) { typetext_parse_strict(&reading, now.bytes, now.len); }
static void write_it(void) { typetext_write(&reading, room, sizeof room); }
static void feed(void) { typetext_feed(block, BLOCK, now.bytes + now.len / 2, now.len - now.len / 2); }
static void end(void) { typetext_end(&reading, block, BLOCK); }
static void totals(void) { typetext_totals(&reading, now.bytes, now.len); }
static void next_row(void) { typetext_next_row(&reading, now.bytes, now.len, now.len / 2); }

typedef struct call {
    const char *name;
    void (*before)(void); /* not measured */
    void (*act)(void);
} call;

static const call calls[] = {
    {"typetext_parse", ready, parse},       {"typetext_parse_strict", ready, strict},
    {"typetext_write", parse, write_it},    {"typetext_feed", fed_half, feed},
    {"typetext_end", fed_whole, end},       {"typetext_totals", ready, totals},
    {"typetext_next_row", ready, next_row},
};

/* ── stacks ── */

static ucontext_t here, there;
static uint64_t *stack; /* painted */
static uintptr_t top;   /* where the call was made */
static void (*act)(void);

static void on_the_stack(void)
{
    uint8_t local;
    top = (uintptr_t)&local;
    act();
}

static void make_stack(size_t size)
{
    uint8_t *all = mmap(NULL, GUARD + size, PROT_READ | PROT_WRITE, MAP_PRIVATE | MAP_ANONYMOUS, -1, 0);
    if (all == MAP_FAILED || mprotect(all, GUARD, PROT_NONE) != 0)
        fail("no stack", "mmap");
    stack = (uint64_t *)(all + GUARD);
}

/* How deep it goes: eight bytes at a time, so up to seven bytes too much. What is painted is painted again. */
static size_t depth(size_t size, int paint)
{
    uint64_t painted;
    size_t i = 0;
    memset(&painted, paint, sizeof painted);
    getcontext(&there);
    there.uc_stack.ss_sp = stack;
    there.uc_stack.ss_size = size;
    there.uc_link = &here;
    makecontext(&there, on_the_stack, 0);
    swapcontext(&here, &there);
    while (i < size / sizeof painted && stack[i] == painted)
        i++;
    memset(stack + i, paint, size - i * sizeof painted);
    return (size_t)(top - (uintptr_t)(stack + i));
}

/* Seen by parent and child. */
typedef struct seen {
    size_t at;      /* the text in hand */
    size_t deepest; /* bytes */
    size_t text;    /* that took them */
} seen;

/* With two paints, as a byte that is written may be the paint. */
static void each_text(const call *c, size_t size, seen *s)
{
    static const int paints[] = {0xa5, 0x5a};
    size_t i, n, deep;
    make_stack(size);
    act = c->act;
    for (i = 0; i < 2; i++) {
        memset(stack, paints[i], size);
        for (n = 0; n < count; n++) {
            now = texts[n];
            s->at = n;
            c->before();
            deep = depth(size, paints[i]);
            if (deep > s->deepest) {
                s->deepest = deep;
                s->text = n;
            }
        }
    }
}

/* On every text, in a process of its own; whether it lives. */
static int lives(const call *c, size_t size, seen *s)
{
    int status;
    pid_t child;
    memset(s, 0, sizeof *s);
    child = fork();
    if (child == 0) {
        const struct rlimit none = {0, 0};
        setrlimit(RLIMIT_CORE, &none);
        if (freopen("/dev/null", "w", stderr)) /* an emulator would speak of the death, too */
            each_text(c, size, s);
        _exit(0);
    }
    if (child < 0 || waitpid(child, &status, 0) != child)
        fail("no process", c->name);
    return WIFEXITED(status) && WEXITSTATUS(status) == 0;
}

#define DEEP 40000
static void deep(void)
{
    volatile uint8_t bytes[DEEP];
    size_t i;
    for (i = 0; i < DEEP; i += 64)
        bytes[i] = 1;
    (void)bytes[0];
}

/* A call that is known to take too much is measured, and dies where it must. */
static int seeing(seen *s)
{
    static const call known = {"a call that takes too much", ready, deep};
    return lives(&known, LARGE, s) && s->deepest >= DEEP && s->deepest < DEEP + 256 && !lives(&known, SMALL, s);
}

static int held(const call *c, const char *machine, seen *s)
{
    int holds = 1;
    if (!lives(c, LARGE, s)) {
        printf("%-22s %-7s over %d  %s\n", c->name, machine, LARGE, texts[s->at].name);
        return 0;
    }
    printf("%-22s %-7s %6zu  %s\n", c->name, machine, s->deepest, texts[s->text].name);
    if (s->deepest > LIMIT) {
        printf("  over %d\n", LIMIT);
        holds = 0;
    }
    if (!lives(c, SMALL, s)) {
        printf("  on a stack of %d it dies on: %s\n", SMALL, texts[s->at].name);
        holds = 0;
    }
    return holds;
}

int main(int words, char **word)
{
    seen *s = mmap(NULL, sizeof *s, PROT_READ | PROT_WRITE, MAP_SHARED | MAP_ANONYMOUS, -1, 0);
    int holds = 1;
    size_t i;
    if (words != 2 || s == MAP_FAILED)
        return 2;
    marks();
    repeats();
    one_byte();
    kinds();
    sheets(count);
    recorded();
    if (!seeing(s))
        fail("a call that takes too much isn't seen", word[1]);
    printf("%-22s %-7s %6s  %s\n", "call", "machine", "bytes", "on the text that took most");
    for (i = 0; i < sizeof calls / sizeof *calls; i++)
        holds &= held(&calls[i], word[1], s);
    printf("%zu texts for each call\n", count);
    return !holds;
}
