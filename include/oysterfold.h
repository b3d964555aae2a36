/*
 * Oysterfold: a proved reader of Universal 3D (ECMA-363) meshes, for C and for whatever calls C.
 *
 * Every function returns a number of document 01's list:
 *
 *    0  done
 *    1  the bytes end too early, or a coded value's bits pass the end of the data
 *    2  the first block is no file header of the profile's data size (24 bytes, 32 with bit 0x8)
 *       and major version 0
 *    3  the file size field is not the file's length, or the declaration size exceeds it
 *    4  a profile bit other than 0x2 and 0x8 is set
 *    5  a padding byte is not 0
 *    6  a block type that is not known
 *    7  a chain too deep, not filled exactly, of a type above 2, or with attributes
 *    8  a name above 255 bytes, or a continuation's name unlike its declaration's
 *    9  above 16 MiB; in a file, a count above its limit, or bones; a request of more than 4,096
 *       steps, or neither up nor down
 *   10  a number not below its count or range; range 0; a dynamic value above 255
 *   11  blocks out of order, chain index not 0, base counts unlike the declaration's
 *   12  what was lent can't hold the result
 *   13  a climb text or step table not of its form
 *   14  a step that the rules do not allow
 *   15  the present counts disagree with the step table
 *   16  no step that way
 *   17  bytes left after a declaration's last field
 *   18  table records not as the step needs them; a coder state or histogram not well formed
 *
 * Whatever bytes and numbers they are given, the functions end, write only within what is lent,
 * and keep nothing. Nothing is trusted but the pointers: each must be aligned, not null, and valid
 * for its length, which counts elements and not bytes; what is lent for writing may not overlap
 * anything else of the same call.
 *
 * `result` takes what the call gives back, place first; on a refusal the place and every other
 * word of it 0 (a refused mesh also tells its part). Shorter than stated, the answer is 12, before
 * all else, and nothing is changed. Tables, buffers, state and counts arrays change only on answer
 * 0. oysterfold_steps alone is excepted: refused, it keeps the steps granted before, in tables and
 * counts, and its result tells their number. Words past those stated are never touched. The place
 * is the offending field's byte offset, for a climb text the line from 1, and 0 where there is none
 * (12 always).
 */
#ifndef OYSTERFOLD_H
#define OYSTERFOLD_H

#include <stddef.h>
#include <stdint.h>

#ifdef __cplusplus
extern "C" {
#endif

/* U32 words of a row of the walk, of a face's record, of a position; frequencies of a histogram. */
#define OYSTERFOLD_ROW 5
#define OYSTERFOLD_FACE 19
#define OYSTERFOLD_POSITION 3
#define OYSTERFOLD_HISTOGRAM 257

/* A field of a face's record that is absent. */
#define OYSTERFOLD_ABSENT 0xFFFFFFFFu

/* The profile's bit for defined units: the header has a units scaling factor. */
#define OYSTERFOLD_DEFINED_UNITS 0x8u

/* U64 words of a reader's and of a writer's state. */
#define OYSTERFOLD_READER 4
#define OYSTERFOLD_WRITER 5

/*
 * The fields of a file's header, judged as the walk judges the first block.
 * result: place, minor version, profile, declaration size, file size, character encoding, units
 * scaling factor as the bit pattern of its F64 (0 where the profile has no bit 0x8), offset of the
 * next block. Answers 0 to 5, 9.
 */
uint32_t oysterfold_header(const uint8_t *file, size_t file_len, uint64_t *result,
                           size_t result_len);

/*
 * Walks the blocks of a file, chains before their contents. Lent: room for a row of 5 words a
 * block (offset, type, data size, meta data size, depth from 0).
 * result: place, number of blocks. Answers 0 to 9, 11, 12 (judged last).
 */
uint32_t oysterfold_walk(const uint8_t *file, size_t file_len, uint32_t *rows, size_t rows_len,
                         uint64_t *result, size_t result_len);

/*
 * The listing of a file's blocks as text, stored at the start of `text`. A refused file is listed
 * too, by its first and last line, which tells its number: the answer is then 0.
 * result: place, bytes of the text. Answers 0, 12.
 */
uint32_t oysterfold_listing(const uint8_t *file, size_t file_len, uint8_t *text, size_t text_len,
                            uint64_t *result, size_t result_len);

/*
 * The fields of a mesh declaration's data: U32 fields in file order from chain index to bone
 * count, shadings as they come, at most 343. All judged as 01 judges a declaration, then 12
 * (place 0) where fields_len is below the number of fields. Fields past the number are untouched.
 * result: place, number of fields, offset of the name in the data, length of the name.
 * Answers 0, 1, 8, 9, 11, 12, 17.
 */
uint32_t oysterfold_declaration(const uint8_t *data, size_t data_len, uint32_t *fields,
                                size_t fields_len, uint64_t *result, size_t result_len);

/*
 * Reads a base mesh from a declaration's and a continuation's data. Lent: room for 19 words a
 * face (shading; for each of three corners position, normal, diffuse, specular, texture layers 0
 * and 1, absent ones 0xFFFFFFFF), 3 a position and normal, 4 a color and texture coordinate (F32
 * bit patterns). Done, all room past the base is set to 0, to each table's end.
 * result: place, part that it counts from (0 declaration, 1 continuation), counts of faces,
 * positions, normals, diffuse colors, specular colors, texture coordinates, shadings.
 * Answers 0, 1, 8 to 12 (12 after the counts), 17.
 */
uint32_t oysterfold_read_mesh(const uint8_t *decl, size_t decl_len, const uint8_t *cont,
                              size_t cont_len, uint32_t *faces, size_t faces_len,
                              uint32_t *positions, size_t positions_len, uint32_t *normals,
                              size_t normals_len, uint32_t *diffuse, size_t diffuse_len,
                              uint32_t *specular, size_t specular_len, uint32_t *texture,
                              size_t texture_len, uint64_t *result, size_t result_len);

/*
 * The bit coder (ECMA-363, clause 10.4). A state is low, high, pending, settled, and for a writer
 * a fifth word, the compressed flag: 1 where a compressed value was written, else 0. It is handed
 * in, and changed only on answer 0. A state or histogram that is too short is 12, before all else
 * but a result that is too short. A low or high above 0xFFFFFFFF, or a compressed flag above 1, is
 * a state that is not well formed: 18.
 */

/* The state at the start of a block. Answers 0, 12. */
uint32_t oysterfold_writer_fresh(uint64_t *state, size_t state_len);
uint32_t oysterfold_reader_fresh(uint64_t *state, size_t state_len);

/* A dynamic context at its start: escape has frequency 1, the 256 values 0. Answers 0, 12. */
uint32_t oysterfold_histogram_fresh(uint32_t *histogram, size_t histogram_len);

/*
 * Writes a value into `buffer`, whose settled bits come from the calls before: in a static range,
 * in a dynamic context (escape first, then the frequencies of 0 to 255), or as a plain value of 1,
 * 2 or 4 bytes. Bits of the last byte that are not settled are 0, later bytes untouched.
 * Answers 0, 9, 18, 10 (also a width that isn't 1, 2 or 4), 12, judged in this order.
 */
uint32_t oysterfold_write_static(uint64_t *state, size_t state_len, uint8_t *buffer,
                                 size_t buffer_len, uint32_t range, uint32_t value);
uint32_t oysterfold_write_dynamic(uint64_t *state, size_t state_len, uint8_t *buffer,
                                  size_t buffer_len, uint32_t *histogram, size_t histogram_len,
                                  uint32_t value);
uint32_t oysterfold_write_plain(uint64_t *state, size_t state_len, uint8_t *buffer,
                                size_t buffer_len, uint32_t bytes, uint32_t value);

/*
 * Ends a coded run. result: place, bytes used from the buffer's start. Answers 0, 9, 18, 12.
 */
uint32_t oysterfold_write_end(uint64_t *state, size_t state_len, uint8_t *buffer,
                              size_t buffer_len, uint64_t *result, size_t result_len);

/*
 * Reads a value back. result: place, value.
 * Answers 0, 9, 18, 10 for range 0 or `bytes` other than 1, 2, 4 (nothing is read), 1, then 10 for
 * a value not below its range or above 255, judged in this order.
 */
uint32_t oysterfold_read_static(uint64_t *state, size_t state_len, const uint8_t *data,
                                size_t data_len, uint32_t range, uint64_t *result,
                                size_t result_len);
uint32_t oysterfold_read_dynamic(uint64_t *state, size_t state_len, const uint8_t *data,
                                 size_t data_len, uint32_t *histogram, size_t histogram_len,
                                 uint64_t *result, size_t result_len);
uint32_t oysterfold_read_plain(uint64_t *state, size_t state_len, const uint8_t *data,
                               size_t data_len, uint32_t bytes, uint64_t *result,
                               size_t result_len);

/*
 * Reads a climb text into a step table. result: place (line from 1), words written: the step
 * table is just those. Answers 0, 13, 12.
 */
uint32_t oysterfold_read_climb(const uint8_t *text, size_t text_len, uint32_t *table,
                               size_t table_len, uint64_t *result, size_t result_len);

/*
 * One step of detail up, one down, on the tables of faces and positions that oysterfold_read_mesh
 * filled. `list` is the step table, `shadings` the mesh's shading count, `counts` the present
 * numbers of positions and faces, in and out. Fewer than two counts are 12, before all else.
 * Answers 0, 13, 15, 16, 12, 14, 18, judged in this order.
 */
uint32_t oysterfold_up(const uint32_t *list, size_t list_len, uint32_t shadings, uint32_t *faces,
                       size_t faces_len, uint32_t *positions, size_t positions_len,
                       uint32_t *counts, size_t counts_len);
uint32_t oysterfold_down(const uint32_t *list, size_t list_len, uint32_t shadings,
                         uint32_t *faces, size_t faces_len, uint32_t *positions,
                         size_t positions_len, uint32_t *counts, size_t counts_len);

/* What a walk is asked for: so many steps in one direction, 0 up or 1 down. */
typedef struct { uint32_t direction, count; } oysterfold_request;

/*
 * A walk: the steps of all requests, taken one at a time as oysterfold_up and oysterfold_down take
 * them; it stops at the first refusal. A request with a count above 4,096, or with a direction
 * other than 0 and 1, is 9 when its turn comes, and nothing of it is done. No requests, or requests
 * of 0 steps up or down, are done with any list and tables. In this call only, a refusal keeps the
 * steps granted before: tables and counts are those after the granted steps, and the result tells
 * their number, ups and downs together, on refusals too. Fewer than two counts are 12, before all
 * else but a result that is too short: the result is 0 0 then, and nothing else changes.
 * result: place (always 0), granted steps modulo 2^64.
 * Answers 0, 9 (for each request), 13, 15, 16, 12, 14, 18 (for each step), judged in this order.
 */
uint32_t oysterfold_steps(const uint32_t *list, size_t list_len, uint32_t shadings,
                          const oysterfold_request *requests, size_t requests_len,
                          uint32_t *faces, size_t faces_len, uint32_t *positions,
                          size_t positions_len, uint32_t *counts, size_t counts_len,
                          uint64_t *result, size_t result_len);

#ifdef __cplusplus
}
#endif

#endif
