/* What `fdr exceed` does with the rows of a listing, plainly and unproved, for bench/exceed.py.
 *
 *     exceed_peer ROWS RULES
 *
 * ROWS has a row in 24 bytes: its counter, its subframe, its word and the number of its parameter in four bytes each, and its
 * value in eight. A row of parameter 2^32 - 1 ends a stretch. A line of RULES has a rule's name, the number of its parameter,
 * a letter for its kind (a, b or c), its limit, its count, and how many decimals its parameter has. */
#include <stdint.h>
#include <stdio.h>
#include <stdlib.h>

typedef struct { uint32_t counter, subframe, word, param; int64_t value; } Row;
typedef struct { uint64_t first, last; int64_t *value; uint64_t *place; } Queue;
typedef struct { char name[64], kind; uint32_t param, count, decimals, next; int64_t limit, peak; uint64_t seen, hits; Row first; Queue high, low; } Rule;

static Rule rules[256];
static uint32_t count, starts[65536];

static void end(Rule *rule) {
    if (rule->hits && rule->hits >= (rule->kind == 'c' ? 1 : rule->count)) {
        uint64_t size = rule->peak < 0 ? -(uint64_t)rule->peak : (uint64_t)rule->peak, scale = 1;
        for (uint32_t i = 0; i < rule->decimals; i++) scale *= 10;
        printf("exceed,%s,%u,%u,%u,%lu,%s%lu", rule->name, rule->first.counter, rule->first.subframe, rule->first.word, rule->hits, rule->peak < 0 ? "-" : "", size / scale);
        if (rule->decimals) printf(".%0*lu", (int)rule->decimals, size % scale);
        putchar('\n');
    }
    rule->hits = 0;
}

/* The last of a queue that the value surpasses go, and so does the first where it is too old. */
static int64_t first_of(Queue *queue, uint32_t room, uint64_t place, int64_t value) {
    while (queue->last > queue->first && queue->value[(queue->last - 1) % room] <= value) queue->last--;
    if (queue->last > queue->first && queue->place[queue->first % room] + room <= place) queue->first++;
    queue->value[queue->last % room] = value;
    queue->place[queue->last++ % room] = place;
    return queue->value[queue->first % room];
}

static void give(Rule *rule, const Row *row) {
    int64_t x = row->value;
    if (rule->kind == 'c') {
        x = first_of(&rule->high, rule->count, rule->seen, x) + first_of(&rule->low, rule->count, rule->seen, -x);
        if (++rule->seen < rule->count) return;
    }
    if (rule->kind == 'b' ? x >= rule->limit : x <= rule->limit) { end(rule); return; }
    if (!rule->hits++) { rule->first = *row; rule->peak = x; }
    else if (rule->kind == 'b' ? x < rule->peak : x > rule->peak) rule->peak = x;
}

int main(int words, char **word) {
    FILE *file = words == 3 ? fopen(word[2], "r") : NULL;
    if (!file) return 1;
    for (Rule *rule = rules; count < 256 && fscanf(file, "%63s %u %c %ld %u %u", rule->name, &rule->param, &rule->kind, &rule->limit, &rule->count, &rule->decimals) == 6; count++, rule++)
        for (Queue *queue = &rule->high; queue <= &rule->low; queue++) {
            queue->value = malloc(rule->count * sizeof *queue->value);
            queue->place = malloc(rule->count * sizeof *queue->place);
        }
    for (uint32_t i = 0; i < 65536; i++) starts[i] = count;
    for (uint32_t i = count; i--; starts[rules[i].param] = i) rules[i].next = starts[rules[i].param];
    if (!(file = fopen(word[1], "rb"))) return 1;
    fseek(file, 0, SEEK_END);
    size_t size = (size_t)ftell(file);
    Row *rows = malloc(size + 1);
    rewind(file);
    if (!rows || fread(rows, 1, size, file) != size) return 1;
    for (const Row *row = rows; row < rows + size / sizeof *row; row++)
        if (row->param == UINT32_MAX)
            for (Rule *rule = rules; rule < rules + count; rule++) { end(rule); rule->seen = rule->high.first = rule->high.last = rule->low.first = rule->low.last = 0; }
        else for (uint32_t i = starts[row->param]; i < count; i = rules[i].next) give(&rules[i], row);
    return fflush(stdout) != 0;
}
