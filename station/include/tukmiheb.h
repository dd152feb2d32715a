/*
 * The tissue map graph for C: the entries of the seven archives that tools/archives makes,
 *
 *     cc -I station/include program.c -L target/staticlib \
 *         -lstation_building -lstation_files -lstation_ring_files -lstation_steps -lstation_cuts \
 *         -lstation_rings -lstation_questions
 *
 * station/c/list.c is a whole program. docs/ARCHITECTURE.md says what the tables hold, what each stage
 * allows, and what every number means.
 *
 * A slice is two arguments, a pointer and how many elements it has. `state`, `reply` and `line` are arrays of
 * exactly the length in their brackets. No pointer may be null, not even that of an empty slice, and no two
 * of what is lent to a call may overlap. An entry stays within the lengths, whatever the slices hold, writes
 * nothing that is const and keeps no pointer. It has no memory of its own, so threads may call at once, each
 * with its own slices. In trials on full tables TUKMIHEB_STACK bytes of stack were enough for every call.
 *
 * Every entry answers 0, or the number of a refusal, after which nothing lent has changed.
 */
#ifndef TUKMIHEB_H
#define TUKMIHEB_H

#include <stddef.h>
#include <stdint.h>

#ifdef __cplusplus
extern "C" {
#endif

/* ---- limits */

#define TUKMIHEB_NODE_LIMIT 2048
#define TUKMIHEB_EDGE_LIMIT 2048
#define TUKMIHEB_HALF_EDGE_LIMIT (2 * TUKMIHEB_EDGE_LIMIT)

/* Pairs of a line id and the place of the next, for the lists of all edges. */
#define TUKMIHEB_PAIR_LIMIT 4096

/* x and y are whole numbers from minus this to this. */
#define TUKMIHEB_COORDINATE_BOUND 1048576

#define TUKMIHEB_STACK (128 * TUKMIHEB_EDGE_LIMIT)

/* ---- where each table begins in its slice, and the least length of the slice */

#define TUKMIHEB_SEGMENT_FLOATS 6

#define TUKMIHEB_NODES_X 0
#define TUKMIHEB_NODES_Y (TUKMIHEB_NODES_X + TUKMIHEB_NODE_LIMIT)
#define TUKMIHEB_NODES_Z (TUKMIHEB_NODES_Y + TUKMIHEB_NODE_LIMIT)
#define TUKMIHEB_SEGMENTS (TUKMIHEB_NODES_Z + TUKMIHEB_NODE_LIMIT)
#define TUKMIHEB_FLOATS (TUKMIHEB_SEGMENTS + TUKMIHEB_SEGMENT_FLOATS * TUKMIHEB_EDGE_LIMIT)

#define TUKMIHEB_SOURCES 0
#define TUKMIHEB_TARGETS (TUKMIHEB_SOURCES + TUKMIHEB_HALF_EDGE_LIMIT)
#define TUKMIHEB_LIST_PLACES (TUKMIHEB_TARGETS + TUKMIHEB_HALF_EDGE_LIMIT)
#define TUKMIHEB_LINKS (TUKMIHEB_LIST_PLACES + TUKMIHEB_EDGE_LIMIT)
#define TUKMIHEB_NUMBERS (TUKMIHEB_LINKS + TUKMIHEB_PAIR_LIMIT)

#define TUKMIHEB_OUTGOING 0
#define TUKMIHEB_DEGREES (TUKMIHEB_OUTGOING + TUKMIHEB_HALF_EDGE_LIMIT)
#define TUKMIHEB_STARS (TUKMIHEB_DEGREES + TUKMIHEB_NODE_LIMIT)

#define TUKMIHEB_NODE_MARKS 0
#define TUKMIHEB_HALF_EDGE_MARKS (TUKMIHEB_NODE_MARKS + TUKMIHEB_NODE_LIMIT)
#define TUKMIHEB_MARKS (TUKMIHEB_HALF_EDGE_MARKS + TUKMIHEB_HALF_EDGE_LIMIT)

#define TUKMIHEB_LINE_IDS 0
#define TUKMIHEB_PAIR_IDS (TUKMIHEB_LINE_IDS + TUKMIHEB_EDGE_LIMIT)
#define TUKMIHEB_IDS (TUKMIHEB_PAIR_IDS + TUKMIHEB_PAIR_LIMIT)

/* Ends a list of line ids. */
#define TUKMIHEB_LIST_END 65535

/* The holder of an open ring that no ring holds. */
#define TUKMIHEB_OUTSIDE 65535

/* ---- what a reply holds */

/* Node count, edge count, stage. */
#define TUKMIHEB_STATE_LENGTH 3
/* An edge, and 1 where it is new. */
#define TUKMIHEB_ADDED_LENGTH 2
/* A count. */
#define TUKMIHEB_COUNT_LENGTH 1
/* A count, V, E, cycles, C, and 1 where the verdict is yes. */
#define TUKMIHEB_CENSUS_LENGTH 6
/* Behind these the comparisons of naming, and how many half-edges and holes were written. */
#define TUKMIHEB_RINGS_LENGTH (TUKMIHEB_CENSUS_LENGTH + 3)
/* How many records were taken, those passed over among them, and the number of what ended it: 0 at the file's end. */
#define TUKMIHEB_FILE_LENGTH 2
/* What there is at a place (enum tukmiheb_found), its line id, the place of the next record. */
#define TUKMIHEB_RECORD_LENGTH 3
/* How many bytes of a ring file were written. */
#define TUKMIHEB_WRITTEN_LENGTH 1
/* How many rings and how many node numbers of a ring file were written into lists. */
#define TUKMIHEB_READ_LENGTH 2
/* 0 before, 1 at one place, 2 after. */
#define TUKMIHEB_ORDER_LENGTH 1
/* The place where the least rotation starts, and the comparisons made. */
#define TUKMIHEB_ROTATION_LENGTH 2

enum tukmiheb_refusal {
    TUKMIHEB_REFUSED_NOT_WHOLE = 1,
    TUKMIHEB_REFUSED_SAME_NODE = 2,
    TUKMIHEB_REFUSED_TOO_MANY_NODES = 3,
    TUKMIHEB_REFUSED_TOO_MANY_EDGES = 4,
    TUKMIHEB_REFUSED_WRONG_STAGE = 5,
    TUKMIHEB_REFUSED_TABLE_TOO_SHORT = 6,
    TUKMIHEB_REFUSED_UNSOUND = 7,
    TUKMIHEB_REFUSED_LIST_TOO_SHORT = 8,
    TUKMIHEB_REFUSED_RECORD_SHORT = 9,
    TUKMIHEB_REFUSED_RECORD_LENGTH = 10,
    TUKMIHEB_REFUSED_RECORD_KIND = 11,
    TUKMIHEB_REFUSED_TOO_MANY_PAIRS = 12,
    TUKMIHEB_REFUSED_TOO_FEW_HOLES = 13,
    TUKMIHEB_REFUSED_OUTPUT_TOO_SHORT = 14,
    TUKMIHEB_REFUSED_BAD_RING = 15
};

enum tukmiheb_stage {
    TUKMIHEB_BUILDING = 0,
    TUKMIHEB_SORTED = 1,
    TUKMIHEB_PRUNED = 2,
    TUKMIHEB_CUT = 3,
    TUKMIHEB_RINGED = 4
};

/* What there is at a place of a segment file: nothing, a segment, or a ring or a record of kinds 3 to 15. */
enum tukmiheb_found { TUKMIHEB_AT_END = 0, TUKMIHEB_A_SEGMENT = 1, TUKMIHEB_PASSED_OVER = 2 };

enum tukmiheb_side { TUKMIHEB_FLAT = 0, TUKMIHEB_ENCLOSED = 1, TUKMIHEB_OPEN = 2 };

/* An open ring, the enclosed ring that holds it or TUKMIHEB_OUTSIDE, and its own doubled area, below 0. */
typedef struct tukmiheb_hole {
    uint16_t ring;
    uint16_t holder;
    int64_t doubled;
} tukmiheb_hole;

/* ---- a graph and its tables, for who has no tables of his own */

typedef struct tukmiheb_graph {
    uint16_t state[TUKMIHEB_STATE_LENGTH];
    double floats[TUKMIHEB_FLOATS];
    uint16_t numbers[TUKMIHEB_NUMBERS];
    uint16_t stars[TUKMIHEB_STARS];
    uint8_t marks[TUKMIHEB_MARKS];
    uint32_t ids[TUKMIHEB_IDS];
} tukmiheb_graph;

/* The five slices of a graph, as arguments. */
#define TUKMIHEB_SLICES(graph)                                                                      \
    (graph).floats, TUKMIHEB_FLOATS, (graph).numbers, TUKMIHEB_NUMBERS, (graph).stars,              \
        TUKMIHEB_STARS, (graph).marks, TUKMIHEB_MARKS, (graph).ids, TUKMIHEB_IDS

/* ---- station_building */

/* An empty graph. No slice is written. Refusal: 6. */
uint32_t tukmiheb_create(uint16_t state[TUKMIHEB_STATE_LENGTH], const double *floats,
                         size_t floats_length, const uint16_t *numbers, size_t numbers_length,
                         const uint16_t *stars, size_t stars_length, const uint8_t *marks,
                         size_t marks_length, const uint32_t *ids, size_t ids_length);

/* Adds a segment. Stage 0. Refusals: 6, 7, 5, 1, 2, 3, 4, 12. */
uint32_t tukmiheb_add_line(uint16_t state[TUKMIHEB_STATE_LENGTH], double x1, double y1, double z1,
                           double x2, double y2, double z2, uint32_t line_id, double *floats,
                           size_t floats_length, uint16_t *numbers, size_t numbers_length,
                           uint16_t *stars, size_t stars_length, uint8_t *marks,
                           size_t marks_length, uint32_t *ids, size_t ids_length,
                           uint16_t reply[TUKMIHEB_ADDED_LENGTH]);

/* ---- station_files */

/*
 * Adds the segments of a file up to its end or to the first bad record; rings and records of kinds 3 to 15 are
 * passed over. Stage 0. Refusals: 6, 7, 5.
 */
uint32_t tukmiheb_add_records(uint16_t state[TUKMIHEB_STATE_LENGTH], const uint8_t *bytes,
                              size_t bytes_length, double *floats, size_t floats_length,
                              uint16_t *numbers, size_t numbers_length, uint16_t *stars,
                              size_t stars_length, uint8_t *marks, size_t marks_length,
                              uint32_t *ids, size_t ids_length,
                              uint64_t reply[TUKMIHEB_FILE_LENGTH]);

/* ---- station_ring_files */

/*
 * Writes rings as a file, from the first byte of `out` on. Ring k is entry k of the four ring slices, over the
 * nodes; there are as many as the shortest of the four has. Refusals: 15 (any ring), 14.
 */
uint32_t tukmiheb_write_rings(const size_t *ring_first, size_t ring_first_length,
                              const size_t *ring_length, size_t ring_length_length,
                              const uint16_t *ring_face, size_t ring_face_length,
                              const int64_t *ring_doubled, size_t ring_doubled_length,
                              const uint16_t *nodes, size_t nodes_length, uint8_t *out,
                              size_t out_length, uint64_t reply[TUKMIHEB_WRITTEN_LENGTH]);

/*
 * Reads the rings of a file, each beginning where the one before it ends; segments and records of kinds 3 to 15
 * are passed over. Refusals: record by record 9, 10, 11, 15; then 14.
 */
uint32_t tukmiheb_read_rings(const uint8_t *bytes, size_t bytes_length, size_t *ring_first,
                             size_t ring_first_length, size_t *ring_length,
                             size_t ring_length_length, uint16_t *ring_face,
                             size_t ring_face_length, int64_t *ring_doubled,
                             size_t ring_doubled_length, uint16_t *nodes, size_t nodes_length,
                             uint64_t reply[TUKMIHEB_READ_LENGTH]);

/* ---- station_steps */

/* Stage 0 to 1. Refusals: 6, 7, 5. */
uint32_t tukmiheb_sort_edges(uint16_t state[TUKMIHEB_STATE_LENGTH], const double *floats,
                             size_t floats_length, const uint16_t *numbers,
                             size_t numbers_length, uint16_t *stars, size_t stars_length,
                             const uint8_t *marks, size_t marks_length, const uint32_t *ids,
                             size_t ids_length);

/* Any stage to 0. Refusals: 6, 7. */
uint32_t tukmiheb_reset(uint16_t state[TUKMIHEB_STATE_LENGTH], const double *floats,
                        size_t floats_length, const uint16_t *numbers, size_t numbers_length,
                        uint16_t *stars, size_t stars_length, uint8_t *marks, size_t marks_length,
                        const uint32_t *ids, size_t ids_length);

/* ---- station_cuts */

/* Stage 1 to 2; `dangles` needs an entry for each edge. Refusals: 6, 7, 5, 8. */
uint32_t tukmiheb_prune_dangles(uint16_t state[TUKMIHEB_STATE_LENGTH], const double *floats,
                                size_t floats_length, const uint16_t *numbers,
                                size_t numbers_length, uint16_t *stars, size_t stars_length,
                                uint8_t *marks, size_t marks_length, const uint32_t *ids,
                                size_t ids_length, uint16_t *dangles, size_t dangles_length,
                                uint16_t reply[TUKMIHEB_COUNT_LENGTH]);

/* Stage 2 to 3; `cuts` needs an entry for each edge. Refusals: 6, 7, 5, 8. */
uint32_t tukmiheb_delete_cut_edges(uint16_t state[TUKMIHEB_STATE_LENGTH], const double *floats,
                                   size_t floats_length, const uint16_t *numbers,
                                   size_t numbers_length, const uint16_t *stars,
                                   size_t stars_length, uint8_t *marks, size_t marks_length,
                                   const uint32_t *ids, size_t ids_length, uint16_t *cuts,
                                   size_t cuts_length, uint16_t reply[TUKMIHEB_CENSUS_LENGTH]);

/* ---- station_rings */

/*
 * Stage 3 to 4. Each ring list needs two entries for each edge, and the hole list a record for each open ring;
 * as many as there are edges are always enough. Refusals: 6, 7, 5, 8, 13.
 */
uint32_t tukmiheb_extract_rings(
    tukmiheb_hole *holes, size_t holes_length, uint16_t state[TUKMIHEB_STATE_LENGTH],
    const double *floats, size_t floats_length, const uint16_t *numbers, size_t numbers_length,
    const uint16_t *stars, size_t stars_length, const uint8_t *marks, size_t marks_length,
    const uint32_t *ids, size_t ids_length, uint16_t *half_edges, size_t half_edges_length,
    uint16_t *ring_first, size_t ring_first_length, uint16_t *ring_length,
    size_t ring_length_length, uint16_t *ring_face, size_t ring_face_length, uint8_t *ring_side,
    size_t ring_side_length, double *ring_area, size_t ring_area_length,
    uint16_t reply[TUKMIHEB_RINGS_LENGTH]);

/* ---- station_questions */

/* The order of two targets around a centre, counterclockwise. Refusal: 1. */
uint32_t tukmiheb_compare_angular(double cx, double cy, double ax, double ay, double bx, double by,
                                  uint8_t reply[TUKMIHEB_ORDER_LENGTH]);

/* Where the least rotation of the keys (xs[i], ys[i]) starts. Refusal: 8 where the lengths differ. */
uint32_t tukmiheb_minimum_rotation_index(const uint64_t *xs, size_t xs_length, const uint64_t *ys,
                                         size_t ys_length,
                                         size_t reply[TUKMIHEB_ROTATION_LENGTH]);

/*
 * Reads the record at a place. At the end only the reply's first number is written, and `line` for a segment
 * alone. Refusals: 9, 10, 11.
 */
uint32_t tukmiheb_read_record(const uint8_t *bytes, size_t bytes_length, size_t at,
                              double line[TUKMIHEB_SEGMENT_FLOATS],
                              uint64_t reply[TUKMIHEB_RECORD_LENGTH]);

#ifdef __cplusplus
}
#endif

#endif
