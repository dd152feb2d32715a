/* Lists the segment file on standard input, as the program `listing` does, over the archives. */

#include "tukmiheb.h"

#include <stdio.h>
#include <stdlib.h>

/* Too large for the stack of a small thread. */
static tukmiheb_graph graph;
static uint16_t listed[TUKMIHEB_EDGE_LIMIT];
static tukmiheb_hole holes[TUKMIHEB_EDGE_LIMIT];

static struct {
    uint16_t half_edges[TUKMIHEB_HALF_EDGE_LIMIT];
    uint16_t first[TUKMIHEB_HALF_EDGE_LIMIT];
    uint16_t length[TUKMIHEB_HALF_EDGE_LIMIT];
    uint16_t face[TUKMIHEB_HALF_EDGE_LIMIT];
    uint8_t side[TUKMIHEB_HALF_EDGE_LIMIT];
    double area[TUKMIHEB_HALF_EDGE_LIMIT];
} rings;

/* All of a stream in memory of its own, and how many bytes; null where that cannot be had. */
static uint8_t *read_all(FILE *from, size_t *length) {
    size_t room = 65536;
    uint8_t *bytes = malloc(room);
    *length = 0;
    while (bytes != NULL) {
        *length += fread(bytes + *length, 1, room - *length, from);
        if (*length < room) {
            break;
        }
        room *= 2;
        uint8_t *more = realloc(bytes, room);
        if (more == NULL) {
            free(bytes);
        }
        bytes = more;
    }
    if (bytes != NULL && ferror(from)) {
        free(bytes);
        bytes = NULL;
    }
    return bytes;
}

static void print_ring(size_t ring) {
    printf("ring %zu face %u doubled %.0f nodes", ring, rings.face[ring], 2 * rings.area[ring]);
    for (size_t place = 0; place < rings.length[ring]; place++) {
        uint16_t half_edge = rings.half_edges[rings.first[ring] + place];
        printf(" %u", graph.numbers[TUKMIHEB_SOURCES + half_edge]);
    }
    printf("\n");
}

/* The four steps, then the listing. Answers the number of a refusal, which no tracing can cause here. */
static uint32_t list(void) {
    uint16_t dangles[TUKMIHEB_COUNT_LENGTH], cuts[TUKMIHEB_CENSUS_LENGTH];
    uint16_t found[TUKMIHEB_RINGS_LENGTH];
    uint32_t refused = tukmiheb_sort_edges(graph.state, TUKMIHEB_SLICES(graph));
    if (refused == 0) {
        refused = tukmiheb_prune_dangles(graph.state, TUKMIHEB_SLICES(graph), listed,
                                         TUKMIHEB_EDGE_LIMIT, dangles);
    }
    if (refused == 0) {
        refused = tukmiheb_delete_cut_edges(graph.state, TUKMIHEB_SLICES(graph), listed,
                                            TUKMIHEB_EDGE_LIMIT, cuts);
    }
    if (refused == 0) {
        refused = tukmiheb_extract_rings(
            holes, TUKMIHEB_EDGE_LIMIT, graph.state, TUKMIHEB_SLICES(graph), rings.half_edges,
            TUKMIHEB_HALF_EDGE_LIMIT, rings.first, TUKMIHEB_HALF_EDGE_LIMIT, rings.length,
            TUKMIHEB_HALF_EDGE_LIMIT, rings.face, TUKMIHEB_HALF_EDGE_LIMIT, rings.side,
            TUKMIHEB_HALF_EDGE_LIMIT, rings.area, TUKMIHEB_HALF_EDGE_LIMIT, found);
    }
    if (refused != 0) {
        return refused;
    }
    printf("nodes %u edges %u dangles %u cuts %u rings %u euler %s\n", graph.state[0],
           graph.state[1], dangles[0], cuts[0], found[0], found[5] == 1 ? "yes" : "no");
    for (size_t ring = 0; ring < found[0]; ring++) {
        print_ring(ring);
    }
    return 0;
}

int main(void) {
    size_t length;
    uint8_t *bytes = read_all(stdin, &length);
    if (bytes == NULL) {
        fprintf(stderr, "read error\n");
        return EXIT_FAILURE;
    }
    uint64_t records[TUKMIHEB_FILE_LENGTH] = {0, 0};
    uint32_t refused = tukmiheb_create(graph.state, TUKMIHEB_SLICES(graph));
    if (refused == 0) {
        refused = tukmiheb_add_records(graph.state, bytes, length, TUKMIHEB_SLICES(graph), records);
    }
    free(bytes);
    if (refused == 0 && records[1] != 0) {
        printf("refused %u record %llu\n", (unsigned)records[1], (unsigned long long)records[0]);
        return EXIT_SUCCESS;
    }
    if (refused == 0) {
        refused = list();
    }
    return refused == 0 ? EXIT_SUCCESS : EXIT_FAILURE;
}
