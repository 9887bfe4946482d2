/* Tests the layer of jangoripu.h, as C11 and as C++17: null pointers, and sheets whose sizes are out of range. Writes what is wrong; the
 * exit status is 0 if nothing is. */
#include "jangoripu.h"
#include <stdio.h>
#include <string.h>

/* The lengths of the arrays of numbers and of bytes: more than any function here is asked to write. What an array holds before a call, in
 * each byte. */
#define ROOM 5000
#define BYTES 40000
#define HELD 7

static uint32_t row[ROOM], column[ROOM], listed[ROOM];
static int32_t weight[ROOM], bound[ROOM], price[ROOM], vertex_price[ROOM], edge_price[ROOM], workspace[ROOM];
static uint8_t chosen[ROOM], out[BYTES];

static unsigned tested, wrong;

/* Counts a test, and names one that failed. */
static void test(bool right, const char *what, unsigned which) {
    tested++;
    if (!right) {
        wrong++;
        printf("%s, %u: wrong\n", what, which);
    }
}

/* Whether bytes are 0 in a length, and hold what they held after it. */
static bool cleared_bytes(const void *array, size_t length, size_t size) {
    const uint8_t *byte = (const uint8_t *)array;
    size_t at;
    for (at = 0; at < size; at++)
        if (byte[at] != (at < length ? 0 : HELD))
            return false;
    return true;
}

/* Whether just so many numbers of an array were cleared; and how an array is filled before a call. */
#define CLEARED(array, length) cleared_bytes(array, (length) * sizeof *(array), sizeof(array))
#define FILL(array) memset(array, HELD, sizeof(array))

/* A pointer, or null where the bit of a set is on. */
#define UNLESS(set, bit, pointer) (((set) >> (bit) & 1) != 0 ? NULL : (pointer))

/* The refusal of a null pointer that is asked for, or another answer. */
static uint32_t refused_if(bool is_null, uint32_t otherwise) {
    return is_null ? (uint32_t)JANGORIPU_LENT_LENGTH : otherwise;
}

/* A sheet of these sizes, with limits of 1. Its pairs are right where the sizes are in range; those of a one-sided sheet are of the first
 * family and each other one. */
static jangoripu_sheet sheet(bool general, uint32_t rows, uint32_t columns, uint32_t edges) {
    jangoripu_sheet s;
    size_t at;
    for (at = 0; at < ROOM; at++) {
        row[at] = general ? (uint32_t)at + 2 : (uint32_t)at % 64 + 1;
        column[at] = general ? 1 : (uint32_t)at / 64 + 1;
        weight[at] = (int32_t)at;
        bound[at] = 1;
    }
    s.general = general;
    s.rows = rows;
    s.columns = columns;
    s.edges = edges;
    s.row = row;
    s.column = column;
    s.weight = weight;
    s.bound = bound;
    s.index = NULL;
    return s;
}

/* Solves a sheet with each set of null pointers, with its index lent and with none. A null pointer that is asked for is refused 9, and else
 * the sheet as it is expected, at place 0; every output is cleared after a refusal, and a plan and its prices are the same both ways. */
static void solve(const char *what, bool general, uint32_t rows, uint32_t columns, uint32_t edges, uint32_t expected) {
    static uint8_t first_chosen[ROOM];
    static int32_t first_vertex[ROOM], first_edge[ROOM];
    jangoripu_sheet s = sheet(general, rows, columns, edges);
    size_t n = jangoripu_vertices(&s), m = edges, length = jangoripu_index_length(&s);
    const size_t asked[8] = {m, m, m, n, m, n, m, JANGORIPU_WORKSPACE_NUMBERS};
    unsigned nulls, bit, lent;
    FILL(listed);
    test(jangoripu_index_build(&s, listed, NULL) == (expected == JANGORIPU_SIZES ? expected : 0), what, 1000);
    test(expected != JANGORIPU_SIZES || CLEARED(listed, length), what, 1001);
    for (nulls = 0; nulls < 256; nulls++) {
        uint32_t refusal = expected;
        s.row = UNLESS(nulls, 0, row);
        s.column = UNLESS(nulls, 1, column);
        s.weight = UNLESS(nulls, 2, weight);
        s.bound = UNLESS(nulls, 3, bound);
        for (bit = 0; bit < 8; bit++)
            if ((nulls >> bit & 1) != 0 && asked[bit] != 0)
                refusal = JANGORIPU_LENT_LENGTH;
        for (lent = 0; lent < 2; lent++) {
            uint64_t place = 5;
            bool right;
            s.index = lent != 0 ? listed : NULL;
            FILL(chosen);
            FILL(vertex_price);
            FILL(edge_price);
            FILL(workspace);
            right = jangoripu_sheet_solve(&s, UNLESS(nulls, 4, chosen), UNLESS(nulls, 5, vertex_price), UNLESS(nulls, 6, edge_price),
                                          UNLESS(nulls, 7, workspace), &place) == refusal;
            right = right && place == 0 && CLEARED(workspace, (nulls >> 7 & 1) != 0 ? 0 : asked[7]);
            if (refusal != JANGORIPU_OK) {
                right = right && CLEARED(chosen, (nulls >> 4 & 1) != 0 ? 0 : m);
                right = right && CLEARED(vertex_price, (nulls >> 5 & 1) != 0 ? 0 : n);
                right = right && CLEARED(edge_price, (nulls >> 6 & 1) != 0 ? 0 : m);
            } else if (lent == 0) {
                memcpy(first_chosen, chosen, sizeof chosen);
                memcpy(first_vertex, vertex_price, sizeof vertex_price);
                memcpy(first_edge, edge_price, sizeof edge_price);
            } else {
                right = right && memcmp(first_chosen, chosen, sizeof chosen) == 0;
                right = right && memcmp(first_vertex, vertex_price, sizeof vertex_price) == 0;
                right = right && memcmp(first_edge, edge_price, sizeof edge_price) == 0;
            }
            test(right, what, 2 * nulls + lent);
        }
    }
}

/* An index of 2,177 numbers is the longest that a sheet in range has, and that the layer builds. */
static void solves(void) {
    solve("solve, a small sheet", false, 3, 2, 3, JANGORIPU_OK);
    solve("solve, a sheet without pairs", false, 1, 1, 0, JANGORIPU_OK);
    solve("solve, a one-sided sheet", true, 4, 4, 3, JANGORIPU_NOT_BIPARTITE);
    solve("solve, no fish and no pairs", false, 0, 0, 0, JANGORIPU_SIZES);
    solve("solve, out of range, an index of 2,177", false, 1, 1, 1087, JANGORIPU_SIZES);
    solve("solve, out of range, an index of 2,178", false, 64, 65, 1024, JANGORIPU_SIZES);
    solve("solve, out of range, an index of 2,179", false, 1, 1, 1088, JANGORIPU_SIZES);
    solve("solve, out of range and one-sided", true, 1, 1, 1088, JANGORIPU_SIZES);
    solve("solve, out of range without fish", false, 0, 0, 1089, JANGORIPU_SIZES);
    solve("solve, out of range without pairs", false, 2000, 177, 0, JANGORIPU_SIZES);
    solve("solve, out of range without pairs, one-sided", true, 2177, 5, 0, JANGORIPU_SIZES);
}

/* Prices a sheet with each set of null pointers. A null pointer that is asked for is refused 9, and else the sheet as it is expected, at
 * place 0; both outputs are cleared after a refusal, and else every edge is covered, with a total of twice the greatest weight. */
static void price_sheet(const char *what, bool general, uint32_t rows, uint32_t columns, uint32_t edges, uint32_t expected) {
    jangoripu_sheet s = sheet(general, rows, columns, edges);
    size_t n = jangoripu_vertices(&s), m = edges;
    const size_t asked[6] = {m, m, m, n, n, m};
    unsigned nulls, bit;
    memset(chosen, 0, sizeof chosen);
    for (nulls = 0; nulls < 64; nulls++) {
        int32_t *of_vertices = UNLESS(nulls, 4, vertex_price), *of_edges = UNLESS(nulls, 5, edge_price);
        uint32_t refusal = expected;
        uint64_t place = 5;
        bool right;
        s.row = UNLESS(nulls, 0, row);
        s.column = UNLESS(nulls, 1, column);
        s.weight = UNLESS(nulls, 2, weight);
        s.bound = UNLESS(nulls, 3, bound);
        for (bit = 0; bit < 6; bit++)
            if ((nulls >> bit & 1) != 0 && asked[bit] != 0)
                refusal = JANGORIPU_LENT_LENGTH;
        FILL(vertex_price);
        FILL(edge_price);
        right = jangoripu_sheet_price(&s, of_vertices, of_edges, &place) == refusal && place == 0;
        if (refusal != JANGORIPU_OK) {
            right = right && CLEARED(vertex_price, of_vertices != NULL ? n : 0) && CLEARED(edge_price, of_edges != NULL ? m : 0);
        } else {
            const jangoripu_prices p = {of_vertices, of_edges, 0, NULL, NULL, NULL};
            jangoripu_measures told;
            right = right && jangoripu_plan_measure(&s, chosen, &p, &told, NULL) == JANGORIPU_OK;
            right = right && told.total == (m != 0 ? 2 * ((int64_t)m - 1) : 0);
        }
        test(right, what, nulls);
    }
}

static void prices(void) {
    price_sheet("price, a small sheet", true, 4, 4, 3, JANGORIPU_OK);
    price_sheet("price, a sheet without pairs", true, 1, 1, 0, JANGORIPU_OK);
    price_sheet("price, 64 families", true, 64, 64, 63, JANGORIPU_OK);
    price_sheet("price, 65 families", true, 65, 65, 64, JANGORIPU_NOT_DOUBLED);
    price_sheet("price, 128 families without pairs", true, 128, 128, 0, JANGORIPU_NOT_DOUBLED);
    price_sheet("price, a two-sided sheet", false, 3, 2, 3, JANGORIPU_NOT_DOUBLED);
    price_sheet("price, no families", true, 0, 0, 0, JANGORIPU_SIZES);
    price_sheet("price, out of range", true, 129, 129, 3, JANGORIPU_SIZES);
    price_sheet("price, out of range and two-sided", false, 64, 65, 1025, JANGORIPU_SIZES);
}

static const char sheet_text[] = "%%MatrixMarket matrix coordinate integer general\n3 2 3\n1 1 0\n2 1 1\n3 1 2\n";
static const char crosses_text[] = "p asn 5 3\nn 1\nn 2\nn 3\na 1 4 0\na 2 4 -1\na 3 4 -2\n";
static const char limits_text[] = "%%MatrixMarket matrix array integer general\n5 1\n1\n1\n1\n1\n1\n";
static const char prices_text[] = "%%MatrixMarket matrix array integer general\n8 1\n8\n7\n6\n5\n4\n3\n2\n1\n";
static const char plan_text[] = "%%MatrixMarket matrix coordinate pattern general\n3 2 1\n3 1\n";
static const char no_plan_text[] = "%%MatrixMarket matrix coordinate pattern general\n3 2 0\n";

/* A sheet is read, or an assignment, with each set of null outputs. */
static void read_sheets(void) {
    unsigned nulls;
    for (nulls = 0; nulls < 32; nulls++) {
        const bool crosses = (nulls & 16) != 0;
        const uint32_t expected = refused_if((nulls & (crosses ? 15 : 7)) != 0, JANGORIPU_OK);
        uint32_t *rows = UNLESS(nulls, 0, row), *columns = UNLESS(nulls, 1, column);
        int32_t *weights = UNLESS(nulls, 2, weight), *bounds = UNLESS(nulls, 3, bound);
        uint64_t place = 5;
        jangoripu_sheet s;
        bool right;
        FILL(row);
        FILL(column);
        FILL(weight);
        FILL(bound);
        if (crosses)
            right = jangoripu_assignment_read(&s, crosses_text, sizeof crosses_text - 1, rows, columns, weights, bounds, &place) == expected;
        else
            right = jangoripu_sheet_read(&s, sheet_text, sizeof sheet_text - 1, rows, columns, weights, &place) == expected;
        right = right && place == 0 && s.row == rows && s.column == columns && s.weight == weights && s.index == NULL;
        right = right && s.bound == (crosses ? bounds : NULL) && !s.general;
        if (expected == JANGORIPU_OK) {
            right = right && s.rows == 3 && s.columns == 2 && s.edges == 3 && row[2] == 3 && column[2] == 1 && weight[2] == 2;
            right = right && (!crosses || bound[4] == 1);
        } else {
            right = right && s.rows == 0 && s.columns == 0 && s.edges == 0 && CLEARED(row, rows != NULL ? JANGORIPU_MOST_EDGES : 0);
            right = right && CLEARED(column, columns != NULL ? JANGORIPU_MOST_EDGES : 0);
            right = right && CLEARED(weight, weights != NULL ? JANGORIPU_MOST_EDGES : 0);
            right = right && CLEARED(bound, crosses && bounds != NULL ? JANGORIPU_ASSIGNMENT_BOUNDS : 0);
        }
        test(right, "reading a sheet", nulls);
    }
}

/* Limits are read, or prices, into an array or null; the sheet has these sizes, and so many numbers are read. */
static void read_numbers(unsigned which, uint32_t rows, uint32_t columns, uint32_t edges, uint32_t refusal, uint32_t refusal_of_null) {
    unsigned form;
    for (form = 0; form < 4; form++) {
        const bool is_price = (form & 1) != 0, is_null = (form & 2) != 0;
        const uint32_t expected = is_null ? refusal_of_null : refusal;
        jangoripu_sheet s = sheet(false, rows, columns, edges);
        int32_t *numbers = is_null ? NULL : price;
        uint64_t place = 5;
        jangoripu_prices p;
        size_t n = jangoripu_vertices(&s), count = is_price ? n + edges : n;
        bool right;
        if (count > ROOM && !is_null)
            continue; /* no array here is as long */
        FILL(price);
        if (is_price) {
            right = jangoripu_prices_read(&s, prices_text, sizeof prices_text - 1, numbers, &p, &place) == expected;
            right = right && p.vertex == numbers && p.edge == (is_null ? NULL : numbers + n);
            right = right && p.sets == 0 && p.set == NULL && p.set_vertices == NULL && p.set_edges == NULL;
        } else {
            right = jangoripu_limits_read(&s, limits_text, sizeof limits_text - 1, numbers, &place) == expected;
            right = right && s.bound == numbers;
        }
        right = right && place == 0;
        if (expected == JANGORIPU_OK)
            right = right && price[0] == (is_price ? 8 : 1) && price[4] == (is_price ? 4 : 1);
        else
            right = right && CLEARED(price, is_null ? 0 : count);
        test(right, "reading numbers", 10 * which + form);
    }
}

static void all_numbers(void) {
    const uint32_t half = (uint32_t)1 << 31;
    read_numbers(0, 3, 2, 3, JANGORIPU_OK, JANGORIPU_LENT_LENGTH);
    read_numbers(1, 0, 0, 0, JANGORIPU_SIZES, JANGORIPU_SIZES);
    read_numbers(2, 600, 600, 0, JANGORIPU_SIZES, JANGORIPU_LENT_LENGTH);
    read_numbers(3, half, half - 1, 0, JANGORIPU_SIZES, JANGORIPU_LENT_LENGTH);
    read_numbers(4, half, half, 0, JANGORIPU_SIZES, JANGORIPU_LENT_LENGTH);
    read_numbers(5, half, half + 5, 0, JANGORIPU_SIZES, JANGORIPU_LENT_LENGTH);
}

/* A null text is read as an empty one, whatever its length. */
static void no_texts(void) {
    size_t length;
    for (length = 0; length <= 100000; length += 50000) {
        jangoripu_sheet s = sheet(false, 3, 2, 3), told;
        jangoripu_prices p;
        uint64_t place[5] = {5, 5, 5, 5, 5};
        bool right = jangoripu_sheet_read(&told, NULL, length, listed, listed + 2000, edge_price, &place[0]) == JANGORIPU_HEADER;
        right = right && jangoripu_limits_read(&s, NULL, length, bound, &place[1]) == JANGORIPU_HEADER;
        right = right && jangoripu_prices_read(&s, NULL, length, price, &p, &place[2]) == JANGORIPU_HEADER;
        right = right && jangoripu_plan_read(&s, NULL, length, chosen, &place[3]) == JANGORIPU_HEADER;
        right = right && jangoripu_assignment_read(&told, NULL, length, listed, listed + 2000, edge_price, price, &place[4]) ==
                             JANGORIPU_ASSIGNMENT_LINE;
        right = right && place[0] == 1 && place[1] == 1 && place[2] == 1 && place[3] == 1 && place[4] == 1;
        test(right, "reading no text", (unsigned)length);
    }
}

/* A plan is read and written, a sheet is tidied, written as an assignment and indexed, with each set of null pointers. */
static void plans_and_texts(void) {
    unsigned nulls, empty;
    for (empty = 0; empty < 2; empty++)
        for (nulls = 0; nulls < 64; nulls++) {
            jangoripu_sheet s = sheet(false, 3, 2, empty != 0 ? 0 : 3);
            const bool of_pairs = empty == 0 && (nulls & 7) != 0, no_bound = (nulls & 8) != 0, no_marks = (nulls & 16) != 0;
            const char *text = empty != 0 ? no_plan_text : plan_text;
            const uint32_t sheet_refusal = refused_if(of_pairs, JANGORIPU_OK);
            const uint32_t marks_refusal = refused_if(empty == 0 && no_marks, sheet_refusal);
            uint8_t *marks = no_marks ? NULL : chosen, *bytes = UNLESS(nulls, 5, out);
            uint32_t expected;
            uint64_t place = 5;
            size_t length = 5;
            s.row = UNLESS(nulls, 0, row);
            s.column = UNLESS(nulls, 1, column);
            s.weight = UNLESS(nulls, 2, weight);
            s.bound = no_bound ? NULL : bound;
            FILL(chosen);
            test(jangoripu_plan_read(&s, text, strlen(text), marks, &place) == marks_refusal && place == 0, "reading a plan", nulls);
            test(marks_refusal == JANGORIPU_OK || CLEARED(chosen, no_marks ? 0 : s.edges), "a plan after a refusal", nulls);
            memset(chosen, 1, s.edges);

            expected = refused_if(bytes == NULL, marks_refusal);
            FILL(out);
            place = 5;
            test(jangoripu_plan_write(&s, marks, bytes, &length, &place) == expected && place == 0, "writing a plan", nulls);
            test((length == 0) == (expected != JANGORIPU_OK), "the length of a plan", nulls);
            test(length > 0 || CLEARED(out, bytes == NULL ? 0 : JANGORIPU_SUBGRAPH_BYTES), "a plan's text after a refusal", nulls);

            expected = refused_if(bytes == NULL, sheet_refusal);
            FILL(out);
            length = 5;
            place = 5;
            test(jangoripu_sheet_tidy(&s, bytes, &length, &place) == expected && place == 0, "tidying", nulls);
            test((length == 0) == (expected != JANGORIPU_OK), "the length of a tidy sheet", nulls);
            test(length > 0 || CLEARED(out, bytes == NULL ? 0 : JANGORIPU_GRAPH_BYTES), "a tidy sheet after a refusal", nulls);

            expected = refused_if(no_bound, expected);
            FILL(out);
            length = 5;
            place = 5;
            test(jangoripu_assignment_write(&s, bytes, &length, &place) == expected && place == 0, "writing an assignment", nulls);
            test((length == 0) == (expected != JANGORIPU_OK), "the length of an assignment", nulls);
            test(length > 0 || CLEARED(out, bytes == NULL ? 0 : JANGORIPU_GRAPH_BYTES), "an assignment after a refusal", nulls);

            expected = refused_if(no_marks, sheet_refusal);
            FILL(listed);
            place = 5;
            test(jangoripu_index_build(&s, no_marks ? NULL : listed, &place) == expected && place == 0, "building an index", nulls);
            test(expected == JANGORIPU_OK || CLEARED(listed, no_marks ? 0 : jangoripu_index_length(&s)), "an index after a refusal", nulls);
            place = 5;
            test(jangoripu_index_test(&s, &place) == expected && place == 0, "testing an index", nulls);
        }
}

/* A plan is measured with each set of null pointers, against prices with a group and without. */
static void measure(void) {
    const int32_t set_price[1] = {0};
    const uint64_t set_vertices[JANGORIPU_VERTEX_WORDS] = {1, 0}, set_edges[JANGORIPU_EDGE_WORDS] = {0};
    unsigned nulls, sets;
    for (sets = 0; sets < 2; sets++)
        for (nulls = 0; nulls < 1024; nulls++) {
            const unsigned asked = sets != 0 ? 1023 : 127;
            const uint32_t expected = refused_if((nulls & asked) != 0, JANGORIPU_OK);
            jangoripu_sheet s = sheet(false, 3, 2, 3);
            jangoripu_prices p;
            jangoripu_measures m;
            uint64_t place = 5;
            size_t at;
            bool right;
            memset(chosen, 0, sizeof chosen);
            for (at = 0; at < ROOM; at++)
                vertex_price[at] = edge_price[at] = 4;
            s.row = UNLESS(nulls, 0, row);
            s.column = UNLESS(nulls, 1, column);
            s.weight = UNLESS(nulls, 2, weight);
            s.bound = UNLESS(nulls, 3, bound);
            p.vertex = UNLESS(nulls, 5, vertex_price);
            p.edge = UNLESS(nulls, 6, edge_price);
            p.sets = sets;
            p.set = UNLESS(nulls, 7, set_price);
            p.set_vertices = UNLESS(nulls, 8, set_vertices);
            p.set_edges = UNLESS(nulls, 9, set_edges);
            right = jangoripu_plan_measure(&s, UNLESS(nulls, 4, chosen), &p, &m, &place) == expected && place == 0;
            right = right && m.merit == 0 && m.total == (expected == JANGORIPU_OK ? 32 : 0) && m.gap == m.total;
            test(right, "measuring", 10000 * sets + nulls);
        }
}

/* The place need not be asked for. */
static void no_places(void) {
    jangoripu_sheet s = sheet(true, 4, 4, 3), told;
    jangoripu_prices p;
    jangoripu_measures m;
    size_t length;
    bool right = jangoripu_sheet_price(&s, vertex_price, edge_price, NULL) == JANGORIPU_OK;
    s = sheet(false, 3, 2, 3);
    right = right && jangoripu_limits_read(&s, limits_text, sizeof limits_text - 1, bound, NULL) == JANGORIPU_OK;
    right = right && jangoripu_sheet_solve(&s, chosen, vertex_price, edge_price, workspace, NULL) == JANGORIPU_OK;
    right = right && jangoripu_plan_write(&s, chosen, out, &length, NULL) == JANGORIPU_OK;
    right = right && jangoripu_plan_read(&s, out, length, chosen, NULL) == JANGORIPU_OK;
    right = right && jangoripu_prices_read(&s, prices_text, sizeof prices_text - 1, price, &p, NULL) == JANGORIPU_OK;
    right = right && jangoripu_plan_measure(&s, chosen, &p, &m, NULL) == JANGORIPU_OK;
    right = right && jangoripu_index_build(&s, listed, NULL) == JANGORIPU_OK && jangoripu_index_test(&s, NULL) == JANGORIPU_OK;
    right = right && jangoripu_sheet_tidy(&s, out, &length, NULL) == JANGORIPU_OK;
    right = right && jangoripu_sheet_read(&told, out, length, row, column, weight, NULL) == JANGORIPU_OK;
    right = right && jangoripu_assignment_write(&s, out, &length, NULL) == JANGORIPU_OK;
    right = right && jangoripu_assignment_read(&told, out, length, row, column, weight, bound, NULL) == JANGORIPU_OK;
    test(right, "no place asked for", 0);
}

int main(void) {
    solves();
    prices();
    read_sheets();
    all_numbers();
    no_texts();
    plans_and_texts();
    measure();
    no_places();
    printf("%u tested, %u wrong\n", tested, wrong);
    return wrong == 0 ? 0 : 1;
}
