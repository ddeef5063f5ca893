/* Builds a scene in both ways with an output of each length up to 200 bytes: alone SHEET SCHEMA
 *
 * Prints for each way the least length with which it is built; with less it must be refused with 13, which leaves the
 * output as it was. sandvurek_build_with must do with 0 what sandvurek_build does, and with any other number what it
 * does with 1. */
#include <sandvurek.h>
#include <stdio.h>
#include <string.h>

#define MOST 200
#define WORK (65536 + 8 * 16 + 4 * 4096)
#define RECORDS 4
#define PAINT 0xA5

struct bytes {
    uint8_t at[4096];
    size_t length;
};

/* A call's answer, and what it leaves in the buffers. */
struct call {
    sandvurek_outcome built;
    uint8_t work[WORK], out[MOST];
    sandvurek_remark remarks[RECORDS];
};

static struct bytes sheet, schema;

/* Builds in one of the ways, or, where there is none, with sandvurek_build. */
static struct call *build(struct call *c, const uint32_t *way, size_t length)
{
    memset(c, PAINT, sizeof *c);
    c->built = way == NULL ? sandvurek_build(sheet.at, sheet.length, schema.at, schema.length, c->work, WORK, c->out,
                                             length, c->remarks, RECORDS)
                           : sandvurek_build_with(*way, sheet.at, sheet.length, schema.at, schema.length, c->work, WORK,
                                                  c->out, length, c->remarks, RECORDS);
    return c;
}

static int same(const struct call *c, const struct call *d)
{
    return c->built.code == d->built.code && c->built.length == d->built.length && c->built.remarks == d->built.remarks
           && memcmp(c->work, d->work, WORK) == 0 && memcmp(c->out, d->out, MOST) == 0
           && memcmp(c->remarks, d->remarks, sizeof c->remarks) == 0;
}

/* Whether it was built, or refused with 13 with the output untouched; the least length that is enough. */
static int held(const struct call *c, size_t length, size_t *least)
{
    if (c->built.code == 0 && *least > length)
        *least = length;
    for (size_t k = 0; c->built.code == 13 && k < MOST; k++)
        if (c->out[k] != PAINT)
            return 0;
    return c->built.code == (length < *least ? 13 : 0) && (c->built.code == 13 || c->built.length == *least);
}

static int load(const char *name, struct bytes *bytes)
{
    FILE *file = fopen(name, "rb");
    if (file == NULL)
        return 0;
    bytes->length = fread(bytes->at, 1, sizeof bytes->at, file);
    return fclose(file) == 0;
}

int main(int count, char **words)
{
    static struct call ordinary, alone, other;
    static const uint32_t none = 0, ways[] = {1, 2, 0x100, 0x80000000, UINT32_MAX};
    size_t least[2] = {SIZE_MAX, SIZE_MAX};
    int good = 1;
    if (count != 3 || !load(words[1], &sheet) || !load(words[2], &schema))
        return 2;
    for (size_t length = 0; length <= MOST; length++) {
        build(&ordinary, NULL, length);
        good &= held(&ordinary, length, &least[0]) && same(&ordinary, build(&other, &none, length));
        build(&alone, ways, length);
        good &= held(&alone, length, &least[1]);
        for (size_t k = 1; k < sizeof ways / sizeof *ways; k++)
            good &= same(&alone, build(&other, &ways[k], length));
    }
    printf("ordinary %zu, alone %zu, %s\n", least[0], least[1], good ? "as expected" : "NOT as expected");
    return !good;
}
