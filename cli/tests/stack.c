/* Runs the library in threads with a small stack: stack BYTES [SHEET SCHEMA PACK]...
 *
 * A thread's stack has exactly so many bytes, and below it is a page that nothing may touch. The scenes are those with
 * the most structures inside one another, which are made here, and then those of the files. Four threads build each at
 * once and share its sheet and schema file; all must give the same. A line for each scene says how many bytes of stack
 * a call took.
 *
 * Most that are made here go down one way to the sheet's last level; the structure there, at depth 1, is the outermost
 * of 32 inline in one another, which need no rows. With 33 of them 8 is due. */
#define _GNU_SOURCE
#include <pthread.h>
#include <sandvurek.h>
#include <stdio.h>
#include <stdlib.h>
#include <string.h>
#include <sys/mman.h>

#define DEPTHS 32    /* of structures inline in one another */
#define LEVELS 64    /* of a sheet */
#define SIZE 40      /* of a structure */
#define REMARKS 1100 /* more than one round of the layout notes, so that a later one, which is called deeper, runs */
#define THREADS 4
#define RECORDS 2048
#define WORK (65536 + 8 * 4096 + 4 * 262144)
#define OUT 262144
#define PAGE 4096
#define ROW 16 /* of the block list */
#define PAINT 0xA5

/* Names; the structures of the nest have those from NEST on. */
enum { ROOT = 0x40, NODE, NEXT, END, INFO = 0x100, NEST = 0x400, WORDS = 0x500, ABSENT, BEHIND, OTHERS };
/* Type bytes. */
enum { NUMBER = 0x06, FLOAT, VECTOR = 0x0A, TEXT, STRUCTURE, ARRAY, ENUM, FLAGS, MAP, UNKNOWN };
/* Kinds of rows. */
enum { ROW_NULL = 0, ROW_U32 = 7, ROW_ARRAY = 19, ROW_MAP, ROW_STRUCT };

struct bytes {
    uint8_t at[65536];
    size_t length;
};

/* How a structure leads to the next: its member's type, subtype and reference; the subtype of an array's elements;
 * whether the last leads to the nest. */
struct way {
    const char *name;
    uint32_t type, subtype, reference, elements, nests;
};

static const struct way ways[] = {
    {"inline, by pointer at depth 32", STRUCTURE, 3, NEST, 0, 1},
    {"by pointer", STRUCTURE, 3, NODE, 0, 1},
    {"arrays of structures", ARRAY, 0, 0, 0, 1},
    {"arrays of pointers", ARRAY, 0, 0, 3, 1},
    {"embedded arrays of structures", ARRAY, 1, 1 << 16, 0, 1},
    {"embedded arrays of pointers", ARRAY, 1, 1 << 16, 3, 1},
    {"maps", MAP, 1, 0, 0, 1},
    {"inline in itself", STRUCTURE, 0, NODE, 0, 0},
    {"flags in arrays", FLAGS, 0, 0, 0, 0},
};

/* What the nest's last structure has without a value, each by type, subtype and reference: an embedded array of each of
 * these elements, and these members. */
static const uint32_t elements[][3] = {
    {NUMBER, 0, 0},       {FLOAT, 0, 0},        {VECTOR, 0, 0},         {TEXT, 0, 8 << 16},
    {TEXT, 1, 0},         {TEXT, 7, 0},         {TEXT, 9, 0},           {ENUM, 0, WORDS},
    {STRUCTURE, 0, NODE}, {STRUCTURE, 3, NODE}, {STRUCTURE, 0, ABSENT}, {UNKNOWN, 0, 0},
};
static const uint32_t leaves[][3] = {
    {NUMBER, 0, 0}, {VECTOR, 0, 0},       {TEXT, 0, 8 << 16},     {TEXT, 1, 0},    {TEXT, 3, 0},      {TEXT, 7, 0},
    {TEXT, 9, 0},   {ENUM, 0, WORDS},     {FLAGS, 0, 7},          {ARRAY, 0, 0},   {ARRAY, 0, 0xFFF}, {MAP, 1, 8},
    {MAP, 0, 8},    {STRUCTURE, 3, NODE}, {STRUCTURE, 0, ABSENT}, {UNKNOWN, 0, 0},
};
enum { ELEMENTS = sizeof elements / sizeof *elements, LEAVES = sizeof leaves / sizeof *leaves };

static void word(struct bytes *b, uint32_t x)
{
    for (int shift = 24; shift >= 0; shift -= 8)
        b->at[b->length++] = (uint8_t)(x >> shift);
}

/* A row. A Struct, Array or Map has so many members, items or pairs; they stand behind the children of earlier rows. */
static void row(struct bytes *sheet, uint32_t *next, uint32_t kind, uint32_t name, uint32_t type, uint32_t count)
{
    int holds = kind >= ROW_ARRAY;
    word(sheet, kind << 24);
    word(sheet, name);
    if (kind == ROW_STRUCT)
        word(sheet, type);
    word(sheet, holds ? *next : 0);
    word(sheet, holds ? count : 0);
    word(sheet, 0);
    if (kind != ROW_STRUCT)
        word(sheet, 0);
    *next += kind == ROW_MAP ? 2 * count : count;
}

/* A number in arrays, on the last level of a sheet. */
static void make_arrays(struct bytes *sheet, uint32_t *next)
{
    for (int level = 2; level < LEVELS; level++)
        row(sheet, next, ROW_ARRAY, level == 2 ? NEXT : 0, 0, 1);
    row(sheet, next, ROW_U32, 0, 0, 0);
}

/* Maps, each the value of the one before; the last one's key is the nest. */
static void make_maps(struct bytes *sheet, uint32_t *next)
{
    row(sheet, next, ROW_MAP, NEXT, 0, 1);
    for (int level = 3; level < LEVELS; level++) {
        row(sheet, next, ROW_NULL, 0, 0, 0);
        row(sheet, next, ROW_MAP, 0, 0, 1);
    }
    row(sheet, next, ROW_STRUCT, 0, NEST, 0);
    row(sheet, next, ROW_NULL, 0, 0, 0);
}

/* Structures, each in the one before or in its array; the last leads to the nest. */
static void make_structures(struct bytes *sheet, uint32_t *next, uint32_t type)
{
    for (int level = 2; level < LEVELS; level += type == ARRAY ? 2 : 1) {
        if (type == ARRAY)
            row(sheet, next, ROW_ARRAY, NEXT, 0, 1);
        row(sheet, next, ROW_STRUCT, type == ARRAY ? 0 : NEXT, NODE, 1);
    }
    row(sheet, next, ROW_STRUCT, END, NEST, 0);
}

/* Structures of nests, each inline in the one before while there are depths left, else by pointer. */
static void make_nests(struct bytes *sheet, uint32_t *next)
{
    for (int level = 2; level < LEVELS; level++)
        row(sheet, next, ROW_STRUCT, (level - 2) % DEPTHS == 0 ? END : NEXT, NEST, 1);
    row(sheet, next, ROW_STRUCT, END, NEST, 0);
}

static void make_sheet(struct bytes *sheet, const struct way *way)
{
    uint32_t next = 1;
    sheet->length = 4;
    row(sheet, &next, ROW_STRUCT, 0, ROOT, 1);
    if (way->type == FLAGS)
        make_arrays(sheet, &next);
    else if (way->type == MAP)
        make_maps(sheet, &next);
    else if (way->reference == NEST)
        make_nests(sheet, &next);
    else
        make_structures(sheet, &next, way->type);
    size_t length = sheet->length;
    sheet->length = 0;
    word(sheet, next);
    sheet->length = length;
}

static void member(struct bytes *b, uint32_t name, uint32_t type, uint32_t subtype, uint32_t offset, uint32_t reference)
{
    word(b, name);
    word(b, type << 24 | subtype << 16 | offset);
    word(b, reference);
}

/* A section with one definition of so many bytes, the first three words of it: a structure's header, or an enum's with
 * its one entry. */
static void section(struct bytes *b, uint32_t name, uint32_t first, uint32_t length)
{
    memcpy(b->at + b->length, "PSCH", 4);
    b->length += 4;
    word(b, 20 + length);
    word(b, 1);
    word(b, name);
    word(b, 20);
    word(b, first);
    word(b, SIZE);
    word(b, 0);
}

/* A structure with so many members, which follow. */
static void structure(struct bytes *b, uint32_t name, uint32_t members)
{
    section(b, name, members, 12 + 12 * members);
}

/* A structure of the way. Only the root has the members that packing remarks. */
static void make_structure(struct bytes *b, const struct way *way, uint32_t name, uint32_t remarks)
{
    structure(b, name, 3 + remarks);
    member(b, INFO, STRUCTURE, way->elements, 0, NODE);
    for (uint32_t k = 0; k < remarks; k++)
        member(b, 0x1000 + k, UNKNOWN, 0, 0, 0);
    member(b, END, STRUCTURE, 3, 32, NEST);
    member(b, NEXT, way->type, way->subtype, 0, way->reference);
}

/* The last structure of the nest; one of its members does not fit. */
static void make_last(struct bytes *b, uint32_t name)
{
    structure(b, name, 2 * ELEMENTS + LEAVES + 2);
    for (uint32_t k = 0; k < ELEMENTS; k++)
        member(b, INFO, elements[k][0], elements[k][1], 0, elements[k][2]);
    for (uint32_t k = 0; k < ELEMENTS; k++)
        member(b, OTHERS + k, ARRAY, 1, 0, 1 << 16 | k);
    for (uint32_t k = 0; k < LEAVES; k++)
        member(b, OTHERS + ELEMENTS + k, leaves[k][0], leaves[k][1], 0, leaves[k][2]);
    member(b, BEHIND, NUMBER, 0, SIZE, 0);
    member(b, END, STRUCTURE, 3, 32, NEST);
}

/* So many structures of the nest, and the enum that the last one's members name. */
static void make_nest(struct bytes *b, uint32_t depths)
{
    for (uint32_t k = 0; k + 1 < depths; k++) {
        structure(b, NEST + k, 2);
        member(b, END, STRUCTURE, 3, 32, NEST);
        member(b, NEXT, STRUCTURE, 0, 0, NEST + k + 1);
    }
    make_last(b, NEST + depths - 1);
    section(b, WORDS, 1 << 24 | 1, 12);
}

static void make_schema(struct bytes *b, const struct way *way, uint32_t more)
{
    b->length = 0;
    make_structure(b, way, ROOT, REMARKS);
    make_structure(b, way, NODE, 0);
    make_nest(b, DEPTHS + more);
}

struct call {
    const struct bytes *sheet, *schema;
    uint8_t *stack, *frame, *work, *out;
    sandvurek_remark *remarks;
    sandvurek_outcome alone, built;
};

/* Every function of the library. What the ordinary way of building left is the last. */
static void *run(void *given)
{
    struct call *c = given;
    c->frame = __builtin_frame_address(0);
    c->alone = sandvurek_build_with(1, c->sheet->at, c->sheet->length, c->schema->at, c->schema->length, c->work, WORK,
                                    c->out, OUT, c->remarks, RECORDS);
    memset(c->out, 0, OUT);
    c->built = sandvurek_build(c->sheet->at, c->sheet->length, c->schema->at, c->schema->length, c->work, WORK, c->out,
                               OUT, c->remarks, RECORDS);
    sandvurek_reading reading = sandvurek_read(c->out, c->built.length);
    sandvurek_block(c->out, c->built.length, reading.blocks);
    sandvurek_enum(c->out, c->built.length, ROOT);
    sandvurek_definition root = sandvurek_structure(c->out, c->built.length, ROOT);
    sandvurek_member(c->out, c->built.length, root.at, 0);
    sandvurek_entry(c->out, c->built.length, root.at, 0);
    return NULL;
}

static void *must(const char *what, void *given)
{
    if (given == NULL || given == MAP_FAILED) {
        perror(what);
        exit(2);
    }
    return given;
}

static void start(struct call *c, pthread_t *thread, size_t size)
{
    pthread_attr_t wanted;
    uint8_t *pages = must("stack", mmap(NULL, PAGE + size, PROT_READ | PROT_WRITE, MAP_PRIVATE | MAP_ANONYMOUS, -1, 0));
    c->stack = pages + PAGE;
    memset(c->stack, PAINT, size);
    c->work = must("work", calloc(WORK, 1));
    c->out = must("out", calloc(OUT, 1));
    c->remarks = must("remarks", calloc(RECORDS, sizeof *c->remarks));
    if (mprotect(pages, PAGE, PROT_NONE) != 0 || pthread_attr_init(&wanted) != 0
        || pthread_attr_setstack(&wanted, c->stack, size) != 0 || pthread_create(thread, &wanted, run, c) != 0) {
        fprintf(stderr, "stack: no thread with a stack of %zu bytes\n", size);
        exit(2);
    }
    pthread_attr_destroy(&wanted);
}

/* How much stack a call took that is over. */
static size_t taken(const struct call *c)
{
    size_t clean = 0;
    while (c->stack[clean] == PAINT)
        clean++;
    return (size_t)(c->frame - c->stack) - clean;
}

/* The other way of building gives the same pack, or one with a block more. */
static int both(const struct call *c)
{
    return c->alone.code == c->built.code && c->alone.remarks == c->built.remarks
           && (c->alone.length == c->built.length || c->alone.length == c->built.length + ROW);
}

static int same(const struct call *c, const struct call *d)
{
    return c->built.code == d->built.code && c->built.length == d->built.length && c->built.remarks == d->built.remarks
           && memcmp(c->out, d->out, OUT) == 0 && memcmp(c->remarks, d->remarks, RECORDS * sizeof *c->remarks) == 0;
}

static void finish(struct call *c, size_t size)
{
    munmap(c->stack - PAGE, PAGE + size);
    free(c->work);
    free(c->out);
    free(c->remarks);
}

/* Builds a scene in all threads at once. Whether all give the same, and the code and pack that are expected. */
static int build(const char *name, const struct bytes scene[3], size_t size, uint32_t code)
{
    struct call calls[THREADS];
    pthread_t threads[THREADS];
    size_t most = 0;
    for (int k = 0; k < THREADS; k++) {
        calls[k].sheet = &scene[0];
        calls[k].schema = &scene[1];
        start(&calls[k], &threads[k], size);
    }
    for (int k = 0; k < THREADS; k++)
        pthread_join(threads[k], NULL);
    int good = calls[0].built.code == code
               && (scene[2].length == 0 || (calls[0].built.length == scene[2].length
                                            && memcmp(calls[0].out, scene[2].at, scene[2].length) == 0));
    for (int k = 0; k < THREADS; k++) {
        good &= same(&calls[0], &calls[k]) && both(&calls[k]);
        most = taken(&calls[k]) > most ? taken(&calls[k]) : most;
    }
    for (int k = 0; k < THREADS; k++)
        finish(&calls[k], size);
    printf("%7zu %s: code %u, %s\n", most, name, calls[0].built.code, good ? "as expected" : "NOT as expected");
    fflush(stdout);
    return good;
}

static void load(const char *name, struct bytes *bytes)
{
    FILE *file = must(name, fopen(name, "rb"));
    bytes->length = fread(bytes->at, 1, sizeof bytes->at, file);
    fclose(file);
}

int main(int count, char **words)
{
    static struct bytes scene[3];
    size_t size = count > 1 ? strtoul(words[1], NULL, 10) : 0;
    int good = 1;
    if (size == 0 || count % 3 != 2) {
        fprintf(stderr, "stack BYTES [SHEET SCHEMA PACK]...\n");
        return 2;
    }
    for (size_t k = 0; k < sizeof ways / sizeof *ways; k++)
        for (uint32_t more = 0; more <= ways[k].nests; more++) {
            char name[100];
            snprintf(name, sizeof name, ways[k].nests ? "%s, then %u inline" : "%s", ways[k].name, DEPTHS + more);
            make_sheet(&scene[0], &ways[k]);
            make_schema(&scene[1], &ways[k], more);
            /* Inline structures need no values: they go on without end. */
            good &= build(name, scene, size, more || (!ways[k].nests && ways[k].type == STRUCTURE) ? 8 : 0);
        }
    for (int k = 2; k < count; k += 3) {
        for (int part = 0; part < 3; part++)
            load(words[k + part], &scene[part]);
        good &= build(words[k], scene, size, 0);
    }
    return !good;
}
