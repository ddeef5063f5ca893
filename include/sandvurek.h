/* Sandvurek: building and reading PSO files.
 *
 * A slice is passed as a pointer and a length: of bytes, or of records for the remarks. The pointer is aligned for what
 * it points to and holds for the whole call; no function keeps it. It is never null, not even where the length is 0:
 * there the address of any byte, or of any record, will do. Behind `const` nothing is written. What is lent to be
 * written (work, out, remarks) overlaps nothing else that is passed, and is initialised. Every function takes any
 * bytes; what each answers is proved equal to its definition in crates/sandvurek/specs/Exports.antt.
 *
 * Threads: there is no global state, nothing is allocated and nothing is kept between calls. Any functions may run in
 * several threads at once, on the same inputs too, as long as each call has its own work, out and remarks and nobody
 * writes to what a call was passed before it returns.
 *
 * Stack: a thread with a stack of 131,072 bytes can make every call, whatever the input. The deepest, with 95
 * structures inside one another, takes about 72,000 of them, measured on x86-64 Linux; the rest is margin, and for what
 * the thread itself needs. The functions that do not build take some 200. */
#ifndef SANDVUREK_H
#define SANDVUREK_H

#include <stddef.h>
#include <stdint.h>

#ifdef __cplusplus
extern "C" {
#endif

/* What building gives. code 0: length is the file's, remarks the number of remarks. Else code is the refusal's number
 * and the rest is 0:
 *    1  the sheet breaks its layout
 *    2  a text byte is above 127
 *    3  the root is no Struct
 *    4  a section's length is below 8 or runs past the end
 *    5  a head, index, definition or member lies outside its PSCH section
 *    6  a definition's top byte is neither 0 nor 1
 *    7  the root type has no definition
 *    8  a structure would start at depth 33, inline in 32 others: one inline in another is one deeper than the other;
 *       the root, and a structure by pointer, in a run or as a map's pair, has depth 1
 *    9  the charge would pass its cap
 *   10  an item's block number would be above 4,095, or its start above 0xFFFFF; a block that is added for the root
 *       (sandvurek_build_with) counts
 *   11  a floating-point text other than a decimal of one to nine digits: one with an exponent, inf, infinity, nan, or
 *       ten digits or more (but where an integer is due whole numbers of up to 64 bits are read)
 *   12  work is shorter than 65,536 + 8 x i, i being the index entries of all PSCH sections
 *   13  the file is longer than the output or than 16,777,216
 *   14  one more distinct remark than records
 * in the order 1, 2, 3; sections in file order (4, 5, 6); 7; 12; then 8, 9, 10, 11, 14 as first met in writing order;
 * last 13. */
typedef struct {
    uint32_t code;
    size_t length;
    size_t remarks;
} sandvurek_outcome;

/* A remark: its kind, the names of the structure and the member, and a detail (in brackets; else 0). Kinds:
 *    1  the member does not fit (the structure's size)
 *    2  wrong value (what was wanted: 1 boolean, 2 integer, 3 float, 4 vector2, 5 vector3, 6 vector4, 7 string or
 *       name, 8 enum member, 9 flag set, 10 structure, 11 array, 12 map)
 *    3  string subtype (the subtype)
 *    4  no structure definition (its name)
 *    5  no ARRAYINFO
 *    6  map subtype (the subtype)
 *    7  no pair definition (its name)
 *    8  no element definition (its name)
 *    9  an element is no structure
 *   10  strings of length zero
 *   11  string array subtype (the subtype)
 *   12  element type (the type byte)
 *   13  member type (the type byte) */
typedef struct {
    uint32_t kind;
    uint32_t structure;
    uint32_t member;
    uint32_t detail;
} sandvurek_remark;

/* Builds a pack from a value sheet and a schema file. Where code is 0 the file stands at the front of out, the rest of
 * it untouched, and the remarks, each once, at the front of their list, the rest of it zero. A refusal leaves out
 * untouched and sets all remarks to zero. work is zero after every call. What stood in work and in the remarks before
 * does not matter. remarks_length counts records. The cap of refusal 9 is the smaller of 4,194,304 and
 * (work_length - 65,536 - 8 x i) / 4, without the remainder. */
sandvurek_outcome sandvurek_build(const uint8_t *sheet, size_t sheet_length,
                                  const uint8_t *schema, size_t schema_length,
                                  uint8_t *work, size_t work_length,
                                  uint8_t *out, size_t out_length,
                                  sandvurek_remark *remarks, size_t remarks_length);

/* Builds in one of two ways; all that is said of sandvurek_build holds here too. root_alone 0: it does just what
 * sandvurek_build does. Any other number: the root gets a new last block, of its type's name, also where another block
 * of that name has room; all other items keep block and start. That is for loaders that look for the root at its
 * block's start.
 *
 * In a pack that is built so the root is all of its block, and its pointer is its block number, which is the number of
 * blocks: sandvurek_read gives root equal to blocks. Where sandvurek_build opens a block for the root too, it is the
 * same file; else it is 16 bytes longer, a row of the block list, and the data section differs only in that the root's
 * bytes stand at its end. Remarks are the same in both ways. So are refusals, but for the root's own 10, which counts
 * the added block, and for 13. Building the pack again in the same way, from its own schema, gives the same bytes. */
sandvurek_outcome sandvurek_build_with(uint32_t root_alone,
                                       const uint8_t *sheet, size_t sheet_length,
                                       const uint8_t *schema, size_t schema_length,
                                       uint8_t *work, size_t work_length,
                                       uint8_t *out, size_t out_length,
                                       sandvurek_remark *remarks, size_t remarks_length);

/* What a file is. code 0: root is the block number of the root, data_at and data_length say where the data section
 * stands in the file (the last PSIN section, its head included), blocks is the number of blocks. Else code is the
 * refusal's number and the rest is 0:
 *    4  a section's length is below 8 or runs past the end
 *    5  a head, index, definition or member lies outside its PSCH section
 *    6  a definition's top byte is neither 0 nor 1
 *   15  the magic is missing
 *   16  PMAP is too short
 *   17  no data section
 *   18  no PMAP
 * in the order 15; sections in file order (4, then 16, 5 or 6); 17; 18. */
typedef struct {
    uint32_t code;
    uint32_t root;
    size_t data_at;
    size_t data_length;
    size_t blocks;
} sandvurek_reading;

sandvurek_reading sandvurek_read(const uint8_t *file, size_t length);

/* A block: its name, its place in the data section and its length, as the file says them. They need not lie in the data
 * section unless the file was built by this library. found is 1; where there is no such block all is 0. */
typedef struct {
    uint32_t found;
    uint32_t name;
    uint32_t place;
    uint32_t length;
} sandvurek_block_row;

/* The block of a number, from 1, over all PMAP sections in file order. */
sandvurek_block_row sandvurek_block(const uint8_t *file, size_t length, size_t number);

/* A definition: the unknown byte and the size of a structure (0 for an enum), how many members or entries it has, and
 * its place in the file. found is 1; where there is no such definition all is 0. */
typedef struct {
    uint32_t found;
    uint32_t unknown;
    uint32_t size;
    uint32_t count;
    size_t at;
} sandvurek_definition;

/* The structure of a name. Of several in a file the first counts. */
sandvurek_definition sandvurek_structure(const uint8_t *file, size_t length, uint32_t name);

/* The enum of a name. Of several in a file the first counts. */
sandvurek_definition sandvurek_enum(const uint8_t *file, size_t length, uint32_t name);

/* A member: its name, type byte, subtype byte, offset and reference. */
typedef struct {
    uint32_t name;
    uint32_t kind;
    uint32_t subtype;
    uint32_t offset;
    uint32_t reference;
} sandvurek_member_row;

/* The member of a number, from 0 to below count, of the structure that stands at `at`. Elsewhere it is what the bytes
 * there say, read only as far as the file goes. */
sandvurek_member_row sandvurek_member(const uint8_t *file, size_t length, size_t at, uint32_t index);

/* An entry of an enum: its name and value. */
typedef struct {
    uint32_t name;
    uint32_t value;
} sandvurek_entry_row;

/* The entry of a number, from 0 to below count, of the enum that stands at `at`. Elsewhere as for members. */
sandvurek_entry_row sandvurek_entry(const uint8_t *file, size_t length, size_t at, uint32_t index);

#ifdef __cplusplus
}
#endif

#endif
