/* The calls of Jangoripu, exported by the static library libjangoripu.a and by the shared library libjangoripu.so.1, which is made of the same
 * objects, and a small layer over them at the end of this file.
 *
 * A sheet is a graph: fish are its vertices, pairs its edges, merits its weights, limits its bounds; a plan is a subgraph, a group an
 * odd set and a leftover a slack. On a two-sided sheet (a bipartite graph) the dams are the rows and the sires the columns; on a
 * one-sided sheet (a general graph) rows and columns are both the number of families.
 *
 * Vertices: row i is vertex i, and column j of a two-sided sheet is vertex rows + j; on a one-sided sheet family i is vertex i. There
 * are rows + columns vertices, or rows on a one-sided sheet. Edges are numbered in the order of the sheet. Both count from 1, so
 * vertex v and edge e stand at [v - 1] and [e - 1] of their arrays. Rows and columns hold numbers from 1, as the text does.
 *
 * A sheet of either sort has an index, which lists the edges of each vertex (compressed row layout): for n vertices and m edges n + 1
 * offsets and then 2m edge numbers, grouped by vertex, rising within a vertex. The first offset is 0 and the last 2m; vertex v has the
 * edge numbers at [n + 1 + index[v - 1]] up to, not including, [n + 1 + index[v]]. So each edge stands there twice, once for each end.
 *
 * Weights are in points; prices of vertices, edges and odd sets, their total, the slacks and the gap are in half points. An edge is covered
 * if its prices reach twice its weight, and the gap is the total minus twice the plan's weight. So a plan's gap is at least twice what it
 * lacks; a gap of 0 proves the plan best, and so does a gap of 1. The solver's prices are even.
 *
 * A number in a text has one way to be written: 1 to 9 digits with no leading zero, unless it is the single digit 0, and - before a
 * weight, bound or price below 0. So 07, +7 and -0 are malformed: JANGORIPU_SIZE_LINE on a size line, JANGORIPU_LATER_LINE elsewhere, and
 * JANGORIPU_ASSIGNMENT_LINE in an assignment. The program rewrite puts Matrix Market texts that were stored with such numbers right.
 *
 * A sheet has one tidy form, a text: its header, of which all words but the first are in lower case, its size line, and its edges by rising
 * row and then column, with one space between words and numbers, byte 10 after every line, and nothing else. Two sheets have the same kind
 * and sizes and the same edges with the same weights exactly if their tidy forms are the same bytes. The edges of a tidy text are numbered in
 * its order: plans that are texts are read with it as before, but an index, marks and prices are for the order that they were made for.
 *
 * A two-sided sheet whose limits are all 1 has a DIMACS assignment text too: a line "p asn NODES ARCS", a line "n NODE" for each source node,
 * and a line "a SOURCE TARGET COST" for each arc. The rows are the source nodes, 1 up to their number, and column j is node rows + j; an arc is
 * an edge, in the order of the sheet, and its cost is the negated weight. It is written as a plan is, with one space and byte 10 after every
 * line. In a text that is read, lines that begin with c are comments; these and blank lines may stand anywhere, and only blank lines begin
 * with blanks. Letters keep their case, and numbers are those of a sheet.
 *
 * A slice is passed as a pointer and then its length, in numbers, which is exactly what is said at the call. A pointer may point
 * anywhere if its length is 0, but is NOT NULL; the layer below takes care of that. Slices that are written overlap no other.
 *
 * Each call returns JANGORIPU_OK, which is 0, or the number of a refusal, and tells the refusal's place, or 0. After a refusal every
 * output and workspace number is 0, and so is every number told but the place. Rows, columns and the numbers of edges and of odd sets
 * are taken as passed, whatever they are, and tested.
 *
 * The calls use no heap, no files and no state of their own, so they are reentrant: several may run at a time, each with its own
 * slices. JANGORIPU_STACK bytes of stack are enough for a call: that is measured (58 KiB at most), and unlike the rest not proved. */
#ifndef JANGORIPU_H
#define JANGORIPU_H

#include <stdbool.h>
#include <stddef.h>
#include <stdint.h>

/* The version of all that comes together: the libraries, the programs, the command and the module. */
#define JANGORIPU_VERSION "1.1.0"

#ifdef __cplusplus
extern "C" {
#endif

/* What is refused, and which place is told: the line of a text, or the number of an edge, a vertex, a price, an odd set or an index's
 * number, from 1; or 0. */
enum jangoripu_refusal {
    JANGORIPU_OK = 0,            /* a result */
    JANGORIPU_TEXT_LENGTH = 1,   /* the text is too long; 0 */
    JANGORIPU_HEADER = 2,        /* the first line is absent, too long or no accepted header; 1 */
    JANGORIPU_SIZE_LINE = 3,     /* the size line is absent, malformed or too long; line */
    JANGORIPU_SIZES = 4,         /* sizes out of range, or not the count asked for; line, or 0 for numbers that are passed */
    JANGORIPU_LATER_LINE = 5,    /* a later line is malformed, too long, missing or surplus; line */
    JANGORIPU_ENDS = 6,          /* an end out of range or on the wrong side; line or edge */
    JANGORIPU_WEIGHT = 7,        /* a weight (merit) out of range; line or edge */
    JANGORIPU_SAME_ENDS = 8,     /* the same ends as an earlier edge (pair); the later line or edge */
    JANGORIPU_LENT_LENGTH = 9,   /* a slice has a wrong length; 0 */
    JANGORIPU_BOUND = 10,        /* a bound (limit) out of range; line or vertex */
    JANGORIPU_MARK = 11,         /* a mark is neither 0 nor 1; edge */
    JANGORIPU_DEGREE = 12,       /* a vertex (fish) is used more often than its bound; vertex */
    JANGORIPU_PRICE = 13,        /* a price out of range; line, or position in vertex, then edge, then set prices */
    JANGORIPU_ODD_SET = 14,      /* an odd set (group) breaks a rule, or there are too many; set, or 17 */
    JANGORIPU_UNCOVERED = 15,    /* an edge (pair) is not covered; edge */
    JANGORIPU_NOT_BIPARTITE = 16, /* a one-sided sheet given to the solver or to the assignment writer; 0 */
    JANGORIPU_DISAGREEMENT = 17, /* a plan's kind, rows, columns or count disagree with the sheet, or its pair is not on it; line */
    JANGORIPU_INDEX = 18,        /* the index is not the sheet's; position of the first number that differs, in offsets, then edge numbers */
    JANGORIPU_BOUND_NOT_ONE = 19, /* a bound (limit) of an assignment is not 1; vertex */
    JANGORIPU_ASSIGNMENT_LINE = 20, /* a line of an assignment is malformed, too long, missing, surplus or out of turn; line */
    JANGORIPU_SOURCES = 21,      /* an assignment's source nodes are not 1 up to their number in rising order; line of the first wrong one */
    JANGORIPU_NOT_DOUBLED = 24   /* a sheet to be priced is two-sided, or has over 64 vertices (families) or over 512 edges (pairs); 0 */
};

/* Lengths and ranges. */
#define JANGORIPU_MOST_SIDE 64           /* rows, and columns, of a two-sided sheet, from 1; families of a one-sided sheet that is priced */
#define JANGORIPU_MOST_VERTICES 128      /* vertices; families of a one-sided sheet */
#define JANGORIPU_MOST_EDGES 1024        /* edges; the length of a sheet or assignment reader's outputs of edges */
#define JANGORIPU_MOST_DOUBLED_EDGES 512 /* edges of a one-sided sheet that is priced */
#define JANGORIPU_ASSIGNMENT_BOUNDS 128  /* the length of an assignment reader's output of limits */
#define JANGORIPU_MOST_NUMBERS 1152      /* numbers in a text of limits or prices */
#define JANGORIPU_LONGEST_INDEX 2177     /* numbers of an index: 128 + 1 + 2 * 1,024 */
#define JANGORIPU_GREATEST_WEIGHT 1000000 /* a weight is from -1,000,000 to 1,000,000 */
#define JANGORIPU_GREATEST_BOUND 64      /* a bound is from 0 to 64 */
#define JANGORIPU_GREATEST_PRICE 4000000 /* a price is from 0 to 4,000,000 half points, one that a call gives to 2,000,000 */
#define JANGORIPU_MOST_SETS 16           /* odd sets (groups) */
#define JANGORIPU_VERTEX_WORDS 2         /* 64-bit words of an odd set that mark vertices */
#define JANGORIPU_EDGE_WORDS 16          /* 64-bit words of an odd set that mark edges */
#define JANGORIPU_LONGEST_TEXT 32768     /* bytes of a text */
#define JANGORIPU_LONGEST_LINE 1024      /* bytes of a line */
#define JANGORIPU_SUBGRAPH_BYTES 16384   /* the length of a plan writer's output */
#define JANGORIPU_GRAPH_BYTES 32768      /* the length of a tidy sheet's output, and of an assignment writer's */
#define JANGORIPU_WORKSPACE_NUMBERS 4096 /* the length of the solver's workspace */
#define JANGORIPU_STACK 65536            /* bytes of stack that are enough for a call, as measured */

/* Where the numbers stand that a call tells. */
enum { JANGORIPU_GRAPH_PLACE, JANGORIPU_GRAPH_KIND, JANGORIPU_GRAPH_ROWS, JANGORIPU_GRAPH_COLUMNS, JANGORIPU_GRAPH_EDGES, JANGORIPU_GRAPH_TOLD };
enum { JANGORIPU_TEXT_PLACE, JANGORIPU_TEXT_BYTES, JANGORIPU_TEXT_TOLD };
enum {
    JANGORIPU_MEASURED_WEIGHT,   /* the plan's merit, in points */
    JANGORIPU_MEASURED_TOTAL,    /* the prices' total, in half points as all that follows */
    JANGORIPU_MEASURED_VERTICES, /* slack (leftover) of vertices (fish) */
    JANGORIPU_MEASURED_SETS,     /* of odd sets (groups) */
    JANGORIPU_MEASURED_EDGES,    /* of edges (pairs) */
    JANGORIPU_MEASURED_COVER,    /* of cover */
    JANGORIPU_MEASURED_GAP,      /* total minus twice the weight, which is the slacks added up */
    JANGORIPU_MEASURED_TOLD
};

/* Reads a sheet. row, column and weight have exactly 1,024 numbers each; those after the last edge are 0 afterwards.
 * answer: place; kind (0 two-sided, 1 one-sided); rows; columns; number of edges.
 * Refusals: 9, 1, then line by line 2, 3, 4, 5, 6, 7, 8. No pointer is null. */
uint32_t jangoripu_read_graph(const uint8_t *text, size_t text_len, uint32_t *row, size_t row_len, uint32_t *column, size_t column_len,
                              int32_t *weight, size_t weight_len, uint64_t answer[5]);

/* Reads count bounds (limits) or prices, count from 1 to 1,152; out has exactly count numbers. prices: false for limits, true for prices.
 * Refusals: 9, 4 at place 0, 1, then line by line 2, 3, 4, 5, 10 or 13. No pointer is null. */
uint32_t jangoripu_read_numbers(const uint8_t *text, size_t text_len, bool prices, uint32_t count, int32_t *out, size_t out_len,
                                uint64_t *place);

/* Reads a plan of a sheet. row, column, weight and chosen have exactly edges numbers each; chosen gets a mark for each edge, 1 or 0.
 * general: false for a two-sided sheet, true for a one-sided one; so in every call below.
 * Refusals: 9, 4, 6, 7, 8 of the sheet's numbers, 1, then line by line 2, 17, 3, 4, 17, 5, 6, 17, 8. No pointer is null. */
uint32_t jangoripu_read_subgraph(const uint8_t *text, size_t text_len, bool general, uint32_t rows, uint32_t columns, uint32_t edges,
                                 const uint32_t *row, size_t row_len, const uint32_t *column, size_t column_len,
                                 const int32_t *weight, size_t weight_len, uint8_t *chosen, size_t chosen_len, uint64_t *place);

/* Writes a plan as a text. row, column, weight and chosen have exactly edges numbers each, out exactly 16,384 bytes, 0 after the text.
 * answer: place; length of the text. Refusals: 9, 4, 6, 7, 8, 11. No pointer is null. */
uint32_t jangoripu_write_subgraph(bool general, uint32_t rows, uint32_t columns, uint32_t edges, const uint32_t *row, size_t row_len,
                                  const uint32_t *column, size_t column_len, const int32_t *weight, size_t weight_len,
                                  const uint8_t *chosen, size_t chosen_len, uint8_t *out, size_t out_len, uint64_t answer[2]);

/* Writes a sheet of either sort in its tidy form. row, column and weight have exactly edges numbers each, out exactly 32,768 bytes, 0 after
 * the text. answer: place; length of the text. Refusals: 9, 4, 6, 7, 8. No pointer is null. */
uint32_t jangoripu_tidy_graph(bool general, uint32_t rows, uint32_t columns, uint32_t edges, const uint32_t *row, size_t row_len,
                              const uint32_t *column, size_t column_len, const int32_t *weight, size_t weight_len, uint8_t *out,
                              size_t out_len, uint64_t answer[2]);

/* Writes a two-sided sheet whose limits are all 1 as an assignment. row, column and weight have exactly edges numbers each, bound exactly a
 * number for each vertex, out exactly 32,768 bytes, 0 after the text. answer: place; length of the text.
 * Refusals: 9, 4, 6, 7, 8, 10, 16, 19. No pointer is null. */
uint32_t jangoripu_write_assignment(bool general, uint32_t rows, uint32_t columns, uint32_t edges, const uint32_t *row, size_t row_len,
                                    const uint32_t *column, size_t column_len, const int32_t *weight, size_t weight_len,
                                    const int32_t *bound, size_t bound_len, uint8_t *out, size_t out_len, uint64_t answer[2]);

/* Reads an assignment as a two-sided sheet, its edges in the order of the arcs, and its limits, which are 1. row, column and weight have
 * exactly 1,024 numbers each, bound exactly 128; those after the last edge or vertex are 0 afterwards.
 * answer: place; kind, always 0; rows; columns; number of edges.
 * Refusals: 9, 1, then line by line 20, 21, 4, 6, 7, 8; 4 is tested at the first arc, or at the end before a missing line, and its place is
 * the p line. No pointer is null. */
uint32_t jangoripu_read_assignment(const uint8_t *text, size_t text_len, uint32_t *row, size_t row_len, uint32_t *column,
                                   size_t column_len, int32_t *weight, size_t weight_len, int32_t *bound, size_t bound_len,
                                   uint64_t answer[5]);

/* Builds the index of a sheet of either sort. row, column and weight have exactly edges numbers each; index has exactly
 * n + 1 + 2 * edges, n the number of vertices, and after a refusal only 0. Refusals: 9, 4, 6, 7, 8. No pointer is null. */
uint32_t jangoripu_build_index(bool general, uint32_t rows, uint32_t columns, uint32_t edges, const uint32_t *row, size_t row_len,
                               const uint32_t *column, size_t column_len, const int32_t *weight, size_t weight_len, uint32_t *index,
                               size_t index_len, uint64_t *place);

/* Tests whether an index is the sheet's; the lengths are those of building it. Nothing is written but the place.
 * Refusals: 9, 4, 6, 7, 8, 18. No pointer is null. */
uint32_t jangoripu_test_index(bool general, uint32_t rows, uint32_t columns, uint32_t edges, const uint32_t *row, size_t row_len,
                              const uint32_t *column, size_t column_len, const int32_t *weight, size_t weight_len,
                              const uint32_t *index, size_t index_len, uint64_t *place);

/* Solves a two-sided sheet: a plan of largest merit, and prices that prove it, each an even number of half points. bound and
 * vertex_price have exactly a number for each vertex; row, column, weight, chosen and edge_price exactly one for each edge; index is the
 * sheet's, and is tested; workspace has exactly 4,096 numbers, all 0 afterwards.
 * Refusals: 9, 4, 6, 7, 8, 10, 16, 18. No pointer is null. */
uint32_t jangoripu_solve(bool general, uint32_t rows, uint32_t columns, uint32_t edges, const uint32_t *row, size_t row_len,
                         const uint32_t *column, size_t column_len, const int32_t *weight, size_t weight_len, const int32_t *bound,
                         size_t bound_len, const uint32_t *index, size_t index_len, uint8_t *chosen, size_t chosen_len,
                         int32_t *vertex_price, size_t vertex_price_len, int32_t *edge_price, size_t edge_price_len, int32_t *workspace,
                         size_t workspace_len, uint64_t *place);

/* Prices a one-sided sheet of at most 64 families and 512 edges, without odd sets. Its doubled sheet, which has each family on both sides and
 * each edge once in each direction, with the same bounds and weights, is solved; each vertex and each edge gets, as half points, the sum of
 * its two prices there in points. So a price is from 0 to 2,000,000, every edge is covered, and the total in half points is the number that
 * the doubled sheet's largest weight is in points, which is at least twice the weight of any valid plan. A best plan can have a gap
 * above 1 against these prices, where edges form an odd ring. Which such prices come out is free. bound and vertex_price have exactly a
 * number for each vertex; row, column, weight and edge_price exactly one for each edge. No index and no workspace is lent.
 * Refusals: 9, 4, 6, 7, 8, 10, 24. No pointer is null. */
uint32_t jangoripu_price_general(bool general, uint32_t rows, uint32_t columns, uint32_t edges, const uint32_t *row, size_t row_len,
                                 const uint32_t *column, size_t column_len, const int32_t *weight, size_t weight_len,
                                 const int32_t *bound, size_t bound_len, int32_t *vertex_price, size_t vertex_price_len,
                                 int32_t *edge_price, size_t edge_price_len, uint64_t *place);

/* Measures a plan against prices, on a sheet of either sort. bound and vertex_price have exactly a number for each vertex; row, column,
 * weight, chosen and edge_price exactly one for each edge; set_price exactly one for each odd set, set_vertices 2 words and set_edges
 * 16 words for each, set after set. Vertex v is bit (v - 1) % 64 of word (v - 1) / 64 of its set, bit 0 the lowest, and edge e likewise;
 * bits above the last vertex or edge are 0. An odd set marks at least one vertex; a marked edge has exactly one end marked; the bounds of
 * its vertices plus the number of its marked edges is odd, 2q + 1, and it covers its marked edges and those with both ends marked.
 * numbers: weight in points, and in half points total, slack of vertices, of odd sets, of edges, of cover, and gap.
 * Refusals: 9, 4, 6, 7, 8, 10, 11, 12, 13, 14, 15. No pointer is null. */
uint32_t jangoripu_measure(bool general, uint32_t rows, uint32_t columns, uint32_t edges, const uint32_t *row, size_t row_len,
                           const uint32_t *column, size_t column_len, const int32_t *weight, size_t weight_len, const int32_t *bound,
                           size_t bound_len, const uint8_t *chosen, size_t chosen_len, const int32_t *vertex_price,
                           size_t vertex_price_len, const int32_t *edge_price, size_t edge_price_len, uint32_t sets,
                           const int32_t *set_price, size_t set_price_len, const uint64_t *set_vertices, size_t set_vertices_len,
                           const uint64_t *set_edges, size_t set_edges_len, int64_t numbers[7], uint64_t *place);

/* ---- A layer over the calls: a sheet by its pointers. The lengths follow from the sheet, so they cannot be wrong. A pointer may be
 * null where its length is 0; where it is not, a null pointer of a sheet, of marks or of prices counts as a wrong length (9), and so does
 * one of an output or a workspace; a null text counts as an empty one. Each function returns what its call returns, and clears its outputs
 * after a refusal as the call does, in the lengths that follow from the sheet. place may be null; the pointers to a sheet, to prices, to
 * measures and to a text's length may not. */

/* A sheet: its kind and sizes, and what its arrays hold. bound may be null where no limits are asked for; index may be null, and the
 * solver then has one built. */
typedef struct jangoripu_sheet {
    bool general;
    uint32_t rows, columns, edges;
    const uint32_t *row, *column; /* edges numbers each */
    const int32_t *weight;        /* edges numbers */
    const int32_t *bound;         /* a number for each vertex */
    const uint32_t *index;        /* jangoripu_index_length numbers */
} jangoripu_sheet;

/* A price sheet, in half points: a price for each vertex and each edge, and the odd sets, of which there may be none. */
typedef struct jangoripu_prices {
    const int32_t *vertex, *edge;
    uint32_t sets;
    const int32_t *set;
    const uint64_t *set_vertices; /* 2 words a set */
    const uint64_t *set_edges;    /* 16 words a set */
} jangoripu_prices;

/* What a measuring tells, by the names that `mark` uses: the merit in points, the rest in half points. */
typedef struct jangoripu_measures {
    int64_t merit, total, fish, groups, pairs, cover, gap;
} jangoripu_measures;

/* The number of vertices. */
static inline size_t jangoripu_vertices(const jangoripu_sheet *s) {
    return s->general ? (size_t)s->rows : (size_t)s->rows + s->columns;
}

/* The length of the sheet's index. */
static inline size_t jangoripu_index_length(const jangoripu_sheet *s) {
    return jangoripu_vertices(s) + 1 + 2 * (size_t)s->edges;
}

/* A pointer that is not null, to be read or to be written; whether so many numbers are lent; the place that is told, if it is asked for;
 * and a text's length with it. */
static inline const void *jangoripu_some(const void *pointer) {
    static const uint64_t nothing = 0;
    return pointer != NULL ? pointer : (const void *)&nothing;
}

static inline void *jangoripu_room(void *pointer) {
    static uint64_t nothing;
    return pointer != NULL ? pointer : (void *)&nothing;
}

static inline bool jangoripu_lent(const void *pointer, size_t length) {
    return pointer != NULL || length == 0;
}

static inline uint32_t jangoripu_told(uint32_t refusal, uint64_t at, uint64_t *place) {
    if (place != NULL)
        *place = at;
    return refusal;
}

static inline uint32_t jangoripu_written(uint32_t refusal, const uint64_t told[JANGORIPU_TEXT_TOLD], size_t *length, uint64_t *place) {
    *length = (size_t)told[JANGORIPU_TEXT_BYTES];
    return jangoripu_told(refusal, told[JANGORIPU_TEXT_PLACE], place);
}

/* A slice that is read or written, and a sheet's numbers, as the calls take them. */
#define JANGORIPU_READ(type, pointer, length) (const type *)jangoripu_some(pointer), (pointer) != NULL ? (size_t)(length) : 0
#define JANGORIPU_WRITTEN(type, pointer, length) (type *)jangoripu_room(pointer), (pointer) != NULL ? (size_t)(length) : 0
#define JANGORIPU_NUMBERS(s)                                                                                                              \
    (s)->general, (s)->rows, (s)->columns, (s)->edges, JANGORIPU_READ(uint32_t, (s)->row, (s)->edges),                                    \
        JANGORIPU_READ(uint32_t, (s)->column, (s)->edges), JANGORIPU_READ(int32_t, (s)->weight, (s)->edges)

/* Points a sheet that was read at its arrays, and gives it the kind and the sizes that were told; it has no bounds and no index then. */
static inline void jangoripu_sheet_told(jangoripu_sheet *s, const uint64_t told[JANGORIPU_GRAPH_TOLD], const uint32_t *row,
                                        const uint32_t *column, const int32_t *weight) {
    s->general = told[JANGORIPU_GRAPH_KIND] == 1;
    s->rows = (uint32_t)told[JANGORIPU_GRAPH_ROWS];
    s->columns = (uint32_t)told[JANGORIPU_GRAPH_COLUMNS];
    s->edges = (uint32_t)told[JANGORIPU_GRAPH_EDGES];
    s->row = row;
    s->column = column;
    s->weight = weight;
    s->bound = NULL;
    s->index = NULL;
}

/* Reads a sheet into arrays of 1,024 numbers each, and points s at them; s has no bounds and no index then. */
static inline uint32_t jangoripu_sheet_read(jangoripu_sheet *s, const void *text, size_t length, uint32_t *row, uint32_t *column,
                                            int32_t *weight, uint64_t *place) {
    uint64_t told[JANGORIPU_GRAPH_TOLD];
    uint32_t refusal = jangoripu_read_graph(JANGORIPU_READ(uint8_t, text, length), JANGORIPU_WRITTEN(uint32_t, row, JANGORIPU_MOST_EDGES),
                                            JANGORIPU_WRITTEN(uint32_t, column, JANGORIPU_MOST_EDGES),
                                            JANGORIPU_WRITTEN(int32_t, weight, JANGORIPU_MOST_EDGES), told);
    jangoripu_sheet_told(s, told, row, column, weight);
    return jangoripu_told(refusal, told[JANGORIPU_GRAPH_PLACE], place);
}

/* Reads an assignment into three arrays of 1,024 numbers and one of 128 for the limits, and points s at them; s has no index then. */
static inline uint32_t jangoripu_assignment_read(jangoripu_sheet *s, const void *text, size_t length, uint32_t *row, uint32_t *column,
                                                 int32_t *weight, int32_t *bound, uint64_t *place) {
    uint64_t told[JANGORIPU_GRAPH_TOLD];
    uint32_t refusal = jangoripu_read_assignment(JANGORIPU_READ(uint8_t, text, length),
                                                 JANGORIPU_WRITTEN(uint32_t, row, JANGORIPU_MOST_EDGES),
                                                 JANGORIPU_WRITTEN(uint32_t, column, JANGORIPU_MOST_EDGES),
                                                 JANGORIPU_WRITTEN(int32_t, weight, JANGORIPU_MOST_EDGES),
                                                 JANGORIPU_WRITTEN(int32_t, bound, JANGORIPU_ASSIGNMENT_BOUNDS), told);
    jangoripu_sheet_told(s, told, row, column, weight);
    s->bound = bound;
    return jangoripu_told(refusal, told[JANGORIPU_GRAPH_PLACE], place);
}

/* Reads limits or prices. A count that 32 bits do not hold is refused as any other out of range (4): the call, which is passed another,
 * refuses the length and clears the array. */
static inline uint32_t jangoripu_numbers_read(const void *text, size_t length, bool prices, size_t count, int32_t *out, uint64_t *place) {
    bool held = count <= UINT32_MAX;
    uint64_t at;
    uint32_t refusal = jangoripu_read_numbers(JANGORIPU_READ(uint8_t, text, length), prices, held ? (uint32_t)count : UINT32_MAX,
                                              JANGORIPU_WRITTEN(int32_t, out, count), &at);
    if (!held && out != NULL)
        refusal = JANGORIPU_SIZES;
    return jangoripu_told(refusal, at, place);
}

/* Reads the sheet's limits into an array of at least as many numbers as it has vertices (128 do if its sizes are in range), and points s
 * at them. */
static inline uint32_t jangoripu_limits_read(jangoripu_sheet *s, const void *text, size_t length, int32_t *bound, uint64_t *place) {
    s->bound = bound;
    return jangoripu_numbers_read(text, length, false, jangoripu_vertices(s), bound, place);
}

/* Reads a price sheet without groups: price gets the vertices' prices and then the edges' (1,152 numbers do if the sheet's sizes are in
 * range), and p points at them. */
static inline uint32_t jangoripu_prices_read(const jangoripu_sheet *s, const void *text, size_t length, int32_t *price, jangoripu_prices *p,
                                             uint64_t *place) {
    size_t n = jangoripu_vertices(s);
    p->vertex = price;
    p->edge = price != NULL ? price + n : NULL;
    p->sets = 0;
    p->set = NULL;
    p->set_vertices = p->set_edges = NULL;
    return jangoripu_numbers_read(text, length, true, n + s->edges, price, place);
}

/* Reads a plan of the sheet; chosen has room for a mark for each edge. */
static inline uint32_t jangoripu_plan_read(const jangoripu_sheet *s, const void *text, size_t length, uint8_t *chosen, uint64_t *place) {
    uint64_t at;
    uint32_t refusal = jangoripu_read_subgraph(JANGORIPU_READ(uint8_t, text, length), JANGORIPU_NUMBERS(s),
                                               JANGORIPU_WRITTEN(uint8_t, chosen, s->edges), &at);
    return jangoripu_told(refusal, at, place);
}

/* Writes a plan of the sheet; out has 16,384 bytes, and *length is how many of them the text has. */
static inline uint32_t jangoripu_plan_write(const jangoripu_sheet *s, const uint8_t *chosen, uint8_t *out, size_t *length, uint64_t *place) {
    uint64_t told[JANGORIPU_TEXT_TOLD];
    uint32_t refusal = jangoripu_write_subgraph(JANGORIPU_NUMBERS(s), JANGORIPU_READ(uint8_t, chosen, s->edges),
                                                JANGORIPU_WRITTEN(uint8_t, out, JANGORIPU_SUBGRAPH_BYTES), told);
    return jangoripu_written(refusal, told, length, place);
}

/* Writes the sheet in its tidy form; out has 32,768 bytes, and *length is how many of them the text has. */
static inline uint32_t jangoripu_sheet_tidy(const jangoripu_sheet *s, uint8_t *out, size_t *length, uint64_t *place) {
    uint64_t told[JANGORIPU_TEXT_TOLD];
    uint32_t refusal = jangoripu_tidy_graph(JANGORIPU_NUMBERS(s), JANGORIPU_WRITTEN(uint8_t, out, JANGORIPU_GRAPH_BYTES), told);
    return jangoripu_written(refusal, told, length, place);
}

/* Writes the sheet and its limits, which must all be 1, as an assignment; out has 32,768 bytes, and *length is how many of them the text
 * has. */
static inline uint32_t jangoripu_assignment_write(const jangoripu_sheet *s, uint8_t *out, size_t *length, uint64_t *place) {
    uint64_t told[JANGORIPU_TEXT_TOLD];
    uint32_t refusal = jangoripu_write_assignment(JANGORIPU_NUMBERS(s), JANGORIPU_READ(int32_t, s->bound, jangoripu_vertices(s)),
                                                  JANGORIPU_WRITTEN(uint8_t, out, JANGORIPU_GRAPH_BYTES), told);
    return jangoripu_written(refusal, told, length, place);
}

/* Builds the sheet's index into an array of at least as many numbers as it has (2,177 do if the sheet's sizes are in range), and points s
 * at it. */
static inline uint32_t jangoripu_index_build(jangoripu_sheet *s, uint32_t *index, uint64_t *place) {
    uint64_t at;
    uint32_t refusal = jangoripu_build_index(JANGORIPU_NUMBERS(s), JANGORIPU_WRITTEN(uint32_t, index, jangoripu_index_length(s)), &at);
    s->index = index;
    return jangoripu_told(refusal, at, place);
}

/* Tests whether the index that s points at is the sheet's. */
static inline uint32_t jangoripu_index_test(const jangoripu_sheet *s, uint64_t *place) {
    uint64_t at;
    uint32_t refusal = jangoripu_test_index(JANGORIPU_NUMBERS(s), JANGORIPU_READ(uint32_t, s->index, jangoripu_index_length(s)), &at);
    return jangoripu_told(refusal, at, place);
}

/* Solves the sheet: a plan of largest merit, and prices of its vertices and edges, in half points, that prove it; workspace has 4,096
 * numbers. Where s points at no index, one is built for this call on the stack, in 8,708 bytes; a sheet whose index would be longer than
 * that is out of range, and is refused as if its index were lent: 9 if a pointer is null that may not be, and else 4. */
static inline uint32_t jangoripu_sheet_solve(const jangoripu_sheet *s, uint8_t *chosen, int32_t *vertex_price, int32_t *edge_price,
                                             int32_t *workspace, uint64_t *place) {
    uint32_t own[JANGORIPU_LONGEST_INDEX], refusal;
    const uint32_t *index = s->index;
    uint64_t at;
    size_t n = jangoripu_vertices(s), m = s->edges, length = jangoripu_index_length(s);
    if (index == NULL && length <= JANGORIPU_LONGEST_INDEX) {
        jangoripu_build_index(JANGORIPU_NUMBERS(s), own, length, &at); /* what this refuses, the solver refuses too */
        index = own;
    }
    refusal = jangoripu_solve(JANGORIPU_NUMBERS(s), JANGORIPU_READ(int32_t, s->bound, n), JANGORIPU_READ(uint32_t, index, length),
                              JANGORIPU_WRITTEN(uint8_t, chosen, m), JANGORIPU_WRITTEN(int32_t, vertex_price, n),
                              JANGORIPU_WRITTEN(int32_t, edge_price, m),
                              JANGORIPU_WRITTEN(int32_t, workspace, JANGORIPU_WORKSPACE_NUMBERS), &at);
    if (index == NULL && jangoripu_lent(s->row, m) && jangoripu_lent(s->column, m) && jangoripu_lent(s->weight, m) &&
        jangoripu_lent(s->bound, n) && jangoripu_lent(chosen, m) && jangoripu_lent(vertex_price, n) && jangoripu_lent(edge_price, m) &&
        jangoripu_lent(workspace, JANGORIPU_WORKSPACE_NUMBERS))
        refusal = JANGORIPU_SIZES; /* the index is all that was refused above, with 9 at place 0 */
    return jangoripu_told(refusal, at, place);
}

/* Prices a one-sided sheet of at most 64 families and 512 edges: a price for each vertex and each edge, in half points. */
static inline uint32_t jangoripu_sheet_price(const jangoripu_sheet *s, int32_t *vertex_price, int32_t *edge_price, uint64_t *place) {
    uint64_t at;
    size_t n = jangoripu_vertices(s), m = s->edges;
    uint32_t refusal = jangoripu_price_general(JANGORIPU_NUMBERS(s), JANGORIPU_READ(int32_t, s->bound, n),
                                               JANGORIPU_WRITTEN(int32_t, vertex_price, n), JANGORIPU_WRITTEN(int32_t, edge_price, m), &at);
    return jangoripu_told(refusal, at, place);
}

/* Measures a plan of the sheet against a price sheet. */
static inline uint32_t jangoripu_plan_measure(const jangoripu_sheet *s, const uint8_t *chosen, const jangoripu_prices *p,
                                              jangoripu_measures *m, uint64_t *place) {
    int64_t told[JANGORIPU_MEASURED_TOLD];
    uint64_t at;
    size_t n = jangoripu_vertices(s), sets = p->sets;
    uint32_t refusal = jangoripu_measure(JANGORIPU_NUMBERS(s), JANGORIPU_READ(int32_t, s->bound, n),
                                         JANGORIPU_READ(uint8_t, chosen, s->edges), JANGORIPU_READ(int32_t, p->vertex, n),
                                         JANGORIPU_READ(int32_t, p->edge, s->edges), p->sets, JANGORIPU_READ(int32_t, p->set, sets),
                                         JANGORIPU_READ(uint64_t, p->set_vertices, JANGORIPU_VERTEX_WORDS * sets),
                                         JANGORIPU_READ(uint64_t, p->set_edges, JANGORIPU_EDGE_WORDS * sets), told, &at);
    m->merit = told[JANGORIPU_MEASURED_WEIGHT];
    m->total = told[JANGORIPU_MEASURED_TOTAL];
    m->fish = told[JANGORIPU_MEASURED_VERTICES];
    m->groups = told[JANGORIPU_MEASURED_SETS];
    m->pairs = told[JANGORIPU_MEASURED_EDGES];
    m->cover = told[JANGORIPU_MEASURED_COVER];
    m->gap = told[JANGORIPU_MEASURED_GAP];
    return jangoripu_told(refusal, at, place);
}

#undef JANGORIPU_NUMBERS
#undef JANGORIPU_WRITTEN
#undef JANGORIPU_READ

#ifdef __cplusplus
}
#endif

#endif
