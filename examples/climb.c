/*
 * Reads the units and the first base mesh of a file and a climb text, goes up as far as there are
 * steps, comes down again, and prints what was done.
 *
 *     climb FILE CLIMB
 */
#include <inttypes.h>
#include <stdio.h>
#include <stdlib.h>
#include <string.h>

#include "oysterfold.h"

enum {
    LARGEST_INPUT = 0x10000,
    DECLARATION = 0x31,
    BASE_MESH = 0x3B,
    BLOCK_HEAD = 12,
    FACE_ROOM = 1024,
    POSITION_ROOM = 1024,
    POOL_ROOM = 4096,
    TABLE_ROOM = 65536
};

struct bytes {
    uint8_t data[LARGEST_INPUT];
    size_t len;
};

struct mesh {
    uint32_t faces[FACE_ROOM * OYSTERFOLD_FACE];
    uint32_t positions[POSITION_ROOM * OYSTERFOLD_POSITION];
    uint32_t normals[POOL_ROOM], diffuse[POOL_ROOM], specular[POOL_ROOM], texture[POOL_ROOM];
    uint32_t counts[2]; /* positions, faces */
    uint32_t shadings;
};

static struct bytes file, text;
static uint32_t rows[LARGEST_INPUT / BLOCK_HEAD * OYSTERFOLD_ROW];
static struct mesh mesh;
static uint32_t list[TABLE_ROOM];

static void read_input(const char *name, struct bytes *into)
{
    FILE *from = fopen(name, "rb");

    if (from == NULL) {
        perror(name);
        exit(1);
    }
    into->len = fread(into->data, 1, sizeof into->data, from);
    fclose(from);
}

/* Ends the program where a call was refused. */
static void expect_done(const char *what, uint32_t number, const uint64_t *result)
{
    if (number != 0) {
        fprintf(stderr, "%s: refused, %" PRIu32 " at %" PRIu64 "\n", what, number, result[0]);
        exit(1);
    }
}

/* How many metres a unit of the file is: the factor comes as the bit pattern of a double. */
static void print_units(void)
{
    uint64_t result[8];
    double metres;

    expect_done("header", oysterfold_header(file.data, file.len, result, 8), result);
    memcpy(&metres, &result[6], sizeof metres);
    if (result[2] & OYSTERFOLD_DEFINED_UNITS)
        printf("header: %g metres a unit\n", metres);
    else
        printf("header: no units\n");
}

/* The row of the first block whose type ends in a byte; NULL where there is none. */
static const uint32_t *row_of(uint64_t blocks, uint32_t last_byte)
{
    for (uint64_t i = 0; i < blocks; i++) {
        const uint32_t *row = rows + i * OYSTERFOLD_ROW;
        if (row[1] == 0xFFFFFF00u + last_byte)
            return row;
    }
    return NULL;
}

static void read_mesh(const uint32_t *decl, const uint32_t *cont)
{
    uint64_t result[9];
    uint32_t number = oysterfold_read_mesh(
        file.data + decl[0] + BLOCK_HEAD, decl[2], file.data + cont[0] + BLOCK_HEAD, cont[2],
        mesh.faces, FACE_ROOM * OYSTERFOLD_FACE, mesh.positions,
        POSITION_ROOM * OYSTERFOLD_POSITION, mesh.normals, POOL_ROOM, mesh.diffuse, POOL_ROOM,
        mesh.specular, POOL_ROOM, mesh.texture, POOL_ROOM, result, 9);

    expect_done("mesh", number, result);
    mesh.counts[0] = (uint32_t)result[3];
    mesh.counts[1] = (uint32_t)result[2];
    mesh.shadings = (uint32_t)result[8];
    printf("mesh: %" PRIu32 " positions, %" PRIu32 " faces, %" PRIu32 " shadings\n",
           mesh.counts[0], mesh.counts[1], mesh.shadings);
}

static uint32_t step(int upward, size_t words)
{
    uint32_t (*call)(const uint32_t *, size_t, uint32_t, uint32_t *, size_t, uint32_t *, size_t,
                     uint32_t *, size_t) = upward ? oysterfold_up : oysterfold_down;

    return call(list, words, mesh.shadings, mesh.faces, FACE_ROOM * OYSTERFOLD_FACE,
                mesh.positions, POSITION_ROOM * OYSTERFOLD_POSITION, mesh.counts, 2);
}

/* Steps one way until a step is refused. */
static void climb(int upward, size_t words)
{
    const char *way = upward ? "up" : "down";
    uint32_t number = step(upward, words);

    while (number == 0) {
        printf("%s: %" PRIu32 " positions, %" PRIu32 " faces\n", way, mesh.counts[0],
               mesh.counts[1]);
        number = step(upward, words);
    }
    printf("%s: refused, %" PRIu32 "\n", way, number);
}

/* Three steps up, one down and ten up, in one call. */
static void walk(size_t words)
{
    const oysterfold_request requests[] = {{0, 3}, {1, 1}, {0, 10}};
    uint64_t result[2];
    uint32_t number = oysterfold_steps(
        list, words, mesh.shadings, requests, sizeof requests / sizeof *requests, mesh.faces,
        FACE_ROOM * OYSTERFOLD_FACE, mesh.positions, POSITION_ROOM * OYSTERFOLD_POSITION,
        mesh.counts, 2, result, 2);

    printf("walk: %" PRIu32 " after %" PRIu64 " steps, %" PRIu32 " positions, %" PRIu32 " faces\n",
           number, result[1], mesh.counts[0], mesh.counts[1]);
}

int main(int argc, char **argv)
{
    uint64_t result[2];

    if (argc != 3) {
        fprintf(stderr, "usage: climb FILE CLIMB\n");
        return 1;
    }
    read_input(argv[1], &file);
    read_input(argv[2], &text);
    print_units();
    expect_done("file", oysterfold_walk(file.data, file.len, rows, sizeof rows / sizeof *rows,
                                        result, 2), result);
    printf("file: %" PRIu64 " blocks\n", result[1]);
    const uint32_t *decl = row_of(result[1], DECLARATION);
    const uint32_t *cont = row_of(result[1], BASE_MESH);
    if (decl == NULL || cont == NULL) {
        fprintf(stderr, "the file has no base mesh\n");
        return 1;
    }
    read_mesh(decl, cont);
    expect_done("climb", oysterfold_read_climb(text.data, text.len, list, TABLE_ROOM, result, 2),
                result);
    printf("climb: %" PRIu32 " steps\n", list[2]);
    size_t words = (size_t)result[1];
    climb(1, words);
    climb(0, words);
    walk(words);
    return 0;
}
