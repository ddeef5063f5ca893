/* Packs a sheet with a schema file: pack SHEET SCHEMA OUT
 *
 *     cc -I include -o pack examples/pack.c target/staticlib/libsandvurek.a
 *
 * Exit status: 0 packed, 1 refused or failed, 2 wrong use. */
#include <errno.h>
#include <sandvurek.h>
#include <stdio.h>
#include <stdlib.h>
#include <string.h>
#include <sys/stat.h>

#define PACK_LENGTH 16777216 /* no pack is longer */
#define RECORDS 4096         /* for remarks; where there are more different ones, refusal 14 */

struct bytes {
    uint8_t *at;
    size_t length;
};

/* Says what failed, and why. */
static int fail(const char *what, int why)
{
    fprintf(stderr, "%s: %s\n", what, strerror(why));
    return 1;
}

/* Reads a file to its end, however long it is. The buffer is never null, also where the file is empty. */
static int load(const char *name, struct bytes *bytes)
{
    FILE *file = fopen(name, "rb");
    if (file == NULL)
        return fail(name, errno);
    size_t room = 0, got;
    int why = 0;
    do {
        if (bytes->length == room) {
            room = 2 * room + 65536;
            uint8_t *more = realloc(bytes->at, room);
            if (more == NULL) {
                why = ENOMEM;
                break;
            }
            bytes->at = more;
        }
        got = fread(bytes->at + bytes->length, 1, room - bytes->length, file);
        bytes->length += got;
    } while (got > 0);
    if (why == 0 && ferror(file))
        why = errno;
    fclose(file);
    return why == 0 ? 0 : fail(name, why);
}

/* Writes a file. Where that fails no part of it is left, unless the name is no file's but a device's. */
static int save(const char *name, const uint8_t *at, size_t length)
{
    FILE *file = fopen(name, "wb");
    if (file == NULL)
        return fail(name, errno);
    int why = fwrite(at, 1, length, file) == length ? 0 : errno;
    if (fclose(file) != 0 && why == 0)
        why = errno;
    if (why == 0)
        return 0;
    struct stat status;
    if (stat(name, &status) == 0 && S_ISREG(status.st_mode))
        remove(name);
    return fail(name, why);
}

/* Says which file a refusal is about: the sheet, the schema file, or both together. */
static int refused(uint32_t code, const char *sheet, const char *schema)
{
    if (code <= 3 || code == 11)
        fprintf(stderr, "%s: refusal %u\n", sheet, code);
    else if (code <= 6)
        fprintf(stderr, "%s: refusal %u\n", schema, code);
    else
        fprintf(stderr, "%s with %s: refusal %u\n", sheet, schema, code);
    return 1;
}

static int pack(char **names, struct bytes sheet, struct bytes schema)
{
    /* Enough for the largest pack: an index entry takes 8 bytes, so there are fewer than schema.length / 8. */
    size_t work_length = 65536 + schema.length + 4 * 4194304;
    uint8_t *work = calloc(work_length, 1);
    uint8_t *out = calloc(PACK_LENGTH, 1);
    sandvurek_remark *remarks = calloc(RECORDS, sizeof *remarks);
    int status;
    if (work == NULL || out == NULL || remarks == NULL) {
        status = fail("buffers", ENOMEM);
    } else {
        sandvurek_outcome built = sandvurek_build(sheet.at, sheet.length, schema.at, schema.length, work, work_length,
                                                  out, PACK_LENGTH, remarks, RECORDS);
        for (size_t i = 0; i < built.remarks; i++)
            fprintf(stderr, "remark %u: structure 0x%X, member 0x%X, detail %u\n", remarks[i].kind,
                    remarks[i].structure, remarks[i].member, remarks[i].detail);
        status = built.code == 0 ? save(names[2], out, built.length) : refused(built.code, names[0], names[1]);
    }
    free(work);
    free(out);
    free(remarks);
    return status;
}

int main(int count, char **words)
{
    if (count != 4) {
        fprintf(stderr, "pack SHEET SCHEMA OUT\n");
        return 2;
    }
    struct bytes sheet = {NULL, 0}, schema = {NULL, 0};
    int status = load(words[1], &sheet);
    if (status == 0)
        status = load(words[2], &schema);
    if (status == 0)
        status = pack(words + 1, sheet, schema);
    free(sheet.at);
    free(schema.at);
    return status;
}
