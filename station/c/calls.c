/* The calls that list.c does not make, and refusals, with the replies that they must have. */

#include "tukmiheb.h"

#include <stdio.h>
#include <stdlib.h>
#include <string.h>

/* The graph, and what it held before a call that must not change it. */
static tukmiheb_graph graph, before;

static void expect(const char *what, long long expected, long long found) {
    if (expected != found) {
        fprintf(stderr, "%s: expected %lld, found %lld\n", what, expected, found);
        exit(EXIT_FAILURE);
    }
}

static void add(double x, double y, uint32_t line_id, uint32_t number, uint16_t edge, uint16_t is_new) {
    uint16_t reply[TUKMIHEB_ADDED_LENGTH] = {9, 9};
    uint32_t answer = tukmiheb_add_line(graph.state, 0, 0, 0.5, x, y, 0.25, line_id,
                                        TUKMIHEB_SLICES(graph), reply);
    expect("adding", number, answer);
    expect("the edge", edge, reply[0]);
    expect("whether it is new", is_new, reply[1]);
}

static void additions(void) {
    expect("creating", 0, tukmiheb_create(graph.state, TUKMIHEB_SLICES(graph)));
    add(3, 4, 7, 0, 0, 1);
    add(3, 4, 5, 0, 0, 0);
    expect("the lowest line id", 5, graph.ids[TUKMIHEB_LINE_IDS]);
    expect("x of node 1", 3, (long long)graph.floats[TUKMIHEB_NODES_X + 1]);
    expect("y of node 1", 4, (long long)graph.floats[TUKMIHEB_NODES_Y + 1]);
    before = graph;
    add(0, 0, 7, TUKMIHEB_REFUSED_SAME_NODE, 9, 9);
    add(TUKMIHEB_COORDINATE_BOUND + 1, 0, 7, TUKMIHEB_REFUSED_NOT_WHOLE, 9, 9);
    expect("what a refusal changes", 0, memcmp(&graph, &before, sizeof graph));
    add(-TUKMIHEB_COORDINATE_BOUND, 0, 7, 0, 1, 1);
}

static void stages(void) {
    expect("sorting", 0, tukmiheb_sort_edges(graph.state, TUKMIHEB_SLICES(graph)));
    expect("the stage", TUKMIHEB_SORTED, graph.state[2]);
    add(1, 1, 7, TUKMIHEB_REFUSED_WRONG_STAGE, 9, 9);
    expect("resetting", 0, tukmiheb_reset(graph.state, TUKMIHEB_SLICES(graph)));
    expect("the stage", TUKMIHEB_BUILDING, graph.state[2]);
    graph.numbers[TUKMIHEB_SOURCES] = TUKMIHEB_NODE_LIMIT;
    add(1, 1, 7, TUKMIHEB_REFUSED_UNSOUND, 9, 9);
    uint32_t answer = tukmiheb_create(graph.state, graph.floats, TUKMIHEB_FLOATS - 1, graph.numbers,
                                      TUKMIHEB_NUMBERS, graph.stars, TUKMIHEB_STARS, graph.marks,
                                      TUKMIHEB_MARKS, graph.ids, TUKMIHEB_IDS);
    expect("a short slice", TUKMIHEB_REFUSED_TABLE_TOO_SHORT, answer);
}

static void records(void) {
    /* From (1, 0, 0) to (0, 2, 0), line id 258. */
    uint8_t bytes[58] = {54, 0, 0, 0, 1, 0, 2, 1};
    bytes[16] = 0xf0, bytes[17] = 0x3f, bytes[49] = 0x40;
    double line[TUKMIHEB_SEGMENT_FLOATS];
    uint64_t reply[TUKMIHEB_RECORD_LENGTH] = {9, 9, 9};
    expect("reading", 0, tukmiheb_read_record(bytes, sizeof bytes, 0, line, reply));
    expect("a segment", TUKMIHEB_A_SEGMENT, (long long)reply[0]);
    expect("its line id", 258, (long long)reply[1]);
    expect("the next place", 58, (long long)reply[2]);
    expect("x of its start", 1, (long long)line[0]);
    expect("y of its end", 2, (long long)line[4]);
    expect("at the end", 0, tukmiheb_read_record(bytes, sizeof bytes, 58, line, reply));
    expect("no record", TUKMIHEB_AT_END, (long long)reply[0]);
    uint32_t answer = tukmiheb_read_record(bytes, sizeof bytes, 1, line, reply);
    expect("a short record", TUKMIHEB_REFUSED_RECORD_SHORT, answer);
    bytes[4] = 15;
    expect("reading", 0, tukmiheb_read_record(bytes, sizeof bytes, 0, line, reply));
    expect("a record passed over", TUKMIHEB_PASSED_OVER, (long long)reply[0]);
    expect("the next place", 58, (long long)reply[2]);
}

static void ring_files(void) {
    const size_t first[] = {0, 1}, length[] = {3, 2};
    const uint16_t face[] = {1, 0}, nodes[] = {0, 1, 2};
    const int64_t doubled[] = {12, -12};
    uint8_t bytes[46];
    uint64_t written[TUKMIHEB_WRITTEN_LENGTH];
    expect("too few bytes", TUKMIHEB_REFUSED_OUTPUT_TOO_SHORT,
           tukmiheb_write_rings(first, 2, length, 2, face, 2, doubled, 2, nodes, 3, bytes, 45, written));
    expect("past the nodes", TUKMIHEB_REFUSED_BAD_RING,
           tukmiheb_write_rings(first, 2, length, 2, face, 2, doubled, 2, nodes, 2, bytes, 46, written));
    expect("writing", 0,
           tukmiheb_write_rings(first, 2, length, 2, face, 2, doubled, 2, nodes, 3, bytes, 46, written));
    expect("the bytes", 46, (long long)written[0]);
    size_t first_read[2], length_read[2];
    uint16_t face_read[2], nodes_read[5];
    int64_t doubled_read[2];
    uint64_t counts[TUKMIHEB_READ_LENGTH];
    expect("reading", 0,
           tukmiheb_read_rings(bytes, 46, first_read, 2, length_read, 2, face_read, 2, doubled_read, 2,
                               nodes_read, 5, counts));
    expect("the rings", 2, (long long)counts[0]);
    expect("the node numbers", 5, (long long)counts[1]);
    expect("the second ring's place", 3, (long long)first_read[1]);
    expect("its length", 2, (long long)length_read[1]);
    expect("the first ring's face", 1, face_read[0]);
    expect("the second ring's doubled area", -12, doubled_read[1]);
    expect("its last node", 2, nodes_read[4]);
}

static void questions(void) {
    uint8_t order[TUKMIHEB_ORDER_LENGTH];
    expect("comparing", 0, tukmiheb_compare_angular(0, 0, 1, 0, 0, 1, order));
    expect("right before up", 0, order[0]);
    expect("comparing", 0, tukmiheb_compare_angular(0, 0, 0, 1, 1, 0, order));
    expect("up after right", 2, order[0]);
    const uint64_t xs[] = {2, 1, 2, 1}, ys[] = {0, 0, 0, 0};
    size_t rotation[TUKMIHEB_ROTATION_LENGTH];
    expect("turning", 0, tukmiheb_minimum_rotation_index(xs, 4, ys, 4, rotation));
    expect("the least rotation", 1, (long long)rotation[0]);
    expect("the comparisons", 6, (long long)rotation[1]);
    uint32_t answer = tukmiheb_minimum_rotation_index(xs, 4, ys, 3, rotation);
    expect("unequal lengths", TUKMIHEB_REFUSED_LIST_TOO_SHORT, answer);
}

int main(void) {
    additions();
    stages();
    records();
    ring_files();
    questions();
    return EXIT_SUCCESS;
}
