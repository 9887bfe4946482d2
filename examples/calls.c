/* The calls from C, through the layer of jangoripu.h: draws up the plan of the season, marks it against the season's prices, and measures
 * the tank's plan against prices with a group and against those that a call gives; builds and tests the index of both sheets; tidies the
 * untidy sheet; and takes a partner's crosses in, and out again. Run in this folder; what it writes is in calls.out. */
#include "jangoripu.h"
#include <stdio.h>
#include <stdlib.h>

static uint32_t row[JANGORIPU_MOST_EDGES], column[JANGORIPU_MOST_EDGES], listed[JANGORIPU_LONGEST_INDEX];
static int32_t weight[JANGORIPU_MOST_EDGES], bound[JANGORIPU_ASSIGNMENT_BOUNDS];
static uint8_t chosen[JANGORIPU_MOST_EDGES];

/* A text, at most one byte longer than a text may be. */
static uint8_t text[JANGORIPU_LONGEST_TEXT + 1];

static size_t load(const char *path) {
    FILE *file = fopen(path, "rb");
    size_t length = file == NULL ? 0 : fread(text, 1, sizeof text, file);
    if (file != NULL)
        fclose(file);
    return length;
}

/* Ends the program where a call refused. */
static void expect(uint32_t refusal, const uint64_t *place, const char *what) {
    if (refusal == JANGORIPU_OK)
        return;
    printf("refused %u at %llu in %s\n", (unsigned)refusal, (unsigned long long)*place, what);
    exit(1);
}

static jangoripu_sheet sheet(const char *path) {
    jangoripu_sheet s;
    uint64_t place;
    size_t length = load(path);
    expect(jangoripu_sheet_read(&s, text, length, row, column, weight, &place), &place, path);
    return s;
}

static jangoripu_sheet sheet_with_limits(const char *path, const char *limits) {
    jangoripu_sheet s = sheet(path);
    uint64_t place;
    size_t length = load(limits);
    expect(jangoripu_limits_read(&s, text, length, bound, &place), &place, limits);
    return s;
}

/* Builds the sheet's index, and tests it as it is and with its last number changed. */
static void build_index(jangoripu_sheet *s) {
    size_t last = jangoripu_index_length(s) - 1;
    uint32_t refusal;
    uint64_t place;
    expect(jangoripu_index_build(s, listed, &place), &place, "input");
    expect(jangoripu_index_test(s, &place), &place, "index");
    listed[last]++;
    refusal = jangoripu_index_test(s, &place);
    printf("refused %u at %llu in index\n", (unsigned)refusal, (unsigned long long)place);
    listed[last]--;
}

/* Writes the pairs of a fish, as the sheet's index lists them. */
static void write_pairs(const jangoripu_sheet *s, uint32_t fish) {
    const uint32_t *pair = s->index + jangoripu_vertices(s) + 1;
    uint32_t at;
    printf("fish %u is in pairs", (unsigned)fish);
    for (at = s->index[fish - 1]; at < s->index[fish]; at++)
        printf(" %u", (unsigned)pair[at]);
    printf("\n");
}

static jangoripu_measures measured(const jangoripu_sheet *s, const jangoripu_prices *p) {
    jangoripu_measures m;
    uint64_t place;
    expect(jangoripu_plan_measure(s, chosen, p, &m, &place), &place, "input");
    return m;
}

static void mark(const jangoripu_sheet *s, const jangoripu_prices *p) {
    jangoripu_measures m = measured(s, p);
    printf("merit %lld total %lld fish %lld groups %lld pairs %lld cover %lld gap %lld\n", (long long)m.merit, (long long)m.total,
           (long long)m.fish, (long long)m.groups, (long long)m.pairs, (long long)m.cover, (long long)m.gap);
}

static void season(void) {
    static int32_t vertex_price[JANGORIPU_MOST_VERTICES], edge_price[JANGORIPU_MOST_EDGES], workspace[JANGORIPU_WORKSPACE_NUMBERS];
    static int32_t price[JANGORIPU_MOST_NUMBERS];
    static uint8_t out[JANGORIPU_SUBGRAPH_BYTES];
    jangoripu_sheet s = sheet_with_limits("season/sheet.mtx", "season/limits.mtx");
    jangoripu_prices p;
    uint64_t place;
    size_t length;
    build_index(&s);
    write_pairs(&s, 6);
    expect(jangoripu_sheet_solve(&s, chosen, vertex_price, edge_price, workspace, &place), &place, "input");
    expect(jangoripu_plan_write(&s, chosen, out, &length, &place), &place, "input");
    fwrite(out, 1, length, stdout);
    length = load("season/prices.mtx");
    expect(jangoripu_prices_read(&s, text, length, price, &p, &place), &place, "season/prices.mtx");
    mark(&s, &p);
}

/* Prices the sheet without groups. Which prices come out is free, but their total is not, and so neither is the plan's gap. */
static void price(const jangoripu_sheet *s) {
    static int32_t vertex_price[JANGORIPU_MOST_VERTICES], edge_price[JANGORIPU_MOST_EDGES];
    const jangoripu_prices p = {vertex_price, edge_price, 0, NULL, NULL, NULL};
    jangoripu_measures m;
    uint64_t place;
    expect(jangoripu_sheet_price(s, vertex_price, edge_price, &place), &place, "input");
    m = measured(s, &p);
    printf("priced: total %lld gap %lld\n", (long long)m.total, (long long)m.gap);
}

/* The prices and the group of tank/README.md. */
static void tank(void) {
    const int32_t vertex_price[5] = {0, 0, 4, 8, 0}, edge_price[5] = {0}, set_price[1] = {20};
    const uint64_t set_vertices[JANGORIPU_VERTEX_WORDS] = {7, 0}, set_edges[JANGORIPU_EDGE_WORDS] = {0};
    const jangoripu_prices p = {vertex_price, edge_price, 1, set_price, set_vertices, set_edges};
    jangoripu_sheet s = sheet_with_limits("tank/sheet.mtx", "tank/limits.mtx");
    uint64_t place;
    size_t length = load("tank/plan.mtx");
    build_index(&s);
    write_pairs(&s, 3);
    expect(jangoripu_plan_read(&s, text, length, chosen, &place), &place, "tank/plan.mtx");
    mark(&s, &p);
    price(&s);
}

/* Writes the tidy form of a sheet whose pairs stand in any order. */
static void untidy(void) {
    static uint8_t out[JANGORIPU_GRAPH_BYTES];
    jangoripu_sheet s = sheet("untidy/sheet.mtx");
    uint64_t place;
    size_t length;
    expect(jangoripu_sheet_tidy(&s, out, &length, &place), &place, "input");
    fwrite(out, 1, length, stdout);
}

/* Reads the partner's crosses as a sheet with limits of 1, writes them as they are written here, and tries it with another limit. */
static void crosses(void) {
    static uint8_t out[JANGORIPU_GRAPH_BYTES];
    jangoripu_sheet s;
    uint32_t refusal;
    uint64_t place;
    size_t length = load("dimacs/partner.asn");
    expect(jangoripu_assignment_read(&s, text, length, row, column, weight, bound, &place), &place, "dimacs/partner.asn");
    printf("%u dams, %u sires, %u pairs\n", (unsigned)s.rows, (unsigned)s.columns, (unsigned)s.edges);
    expect(jangoripu_assignment_write(&s, out, &length, &place), &place, "input");
    fwrite(out, 1, length, stdout);
    bound[6] = 2;
    refusal = jangoripu_assignment_write(&s, out, &length, &place);
    printf("refused %u at %llu in input\n", (unsigned)refusal, (unsigned long long)place);
}

int main(void) {
    season();
    tank();
    untidy();
    crosses();
    return 0;
}
