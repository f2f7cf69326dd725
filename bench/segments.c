/* The floor of a segment: the words of documents with their hits, found by a map of hashes and written into the same
 * blocks, with nothing kept that isn't needed for that. `bench/segments` compiles it and stands it beside nm_segment. */
#include <stdint.h>
#include <stdio.h>
#include <stdlib.h>
#include <string.h>

enum { MAX_HITS = 128, MAX_BYTES = 16, FIELDS = 5, LISTS = 4 };

/* How many words the first lists of a document have; the last one has all others. */
static const uint32_t FIRST[LISTS - 1] = {4, 4, 6};
static const uint8_t FIELD_OF[LISTS] = {0, 1, 2, 3};

struct hit { uint32_t doc, list, place; };
struct bytes { uint8_t *at; size_t len, room; };
/* Blocks, where the last of them begins, how many hits it has, and the last of these. */
struct run { uint8_t *at; uint32_t len, room, begin, count; struct hit before; };
struct word { const uint8_t *at; uint32_t len, number; };
struct slot { uint32_t hash, number; };
struct list { uint32_t count; struct bytes words; };

static void *must(void *found) {
    if (!found) exit(2);
    return found;
}

static void add(struct bytes *to, const uint8_t *from, size_t len) {
    if (to->room - to->len < len) {
        to->room = to->room * 2 > to->len + len ? to->room * 2 : to->len + len;
        to->at = must(realloc(to->at, to->room));
    }
    if (len) memcpy(to->at + to->len, from, len);
    to->len += len;
}

/* ---- the documents */

static uint64_t state = 7;

static uint64_t next_number(void) {
    state = state * 6364136223846793005u + 1442695040888963407u;
    return state >> 20;
}

/* The word of a rank: its digits in base 60, the lowest first, each a syllable. */
static uint8_t spell(uint32_t rank, uint8_t *to) {
    uint8_t len = 0;
    do {
        to[len++] = "bcdfghjklmnprstvwxyz"[rank % 60 / 3];
        to[len++] = "aio"[rank % 3];
        rank /= 60;
    } while (rank > 0);
    return len;
}

/* By Zipf's law: the ranks up to each take so much of the whole. */
static uint64_t *sums_of(uint32_t vocabulary) {
    uint64_t *sums = must(malloc(vocabulary * sizeof *sums)), sum = 0;
    for (uint32_t rank = 0; rank < vocabulary; rank++) sums[rank] = sum += ((uint64_t)1 << 32) / (rank + 1);
    return sums;
}

static uint32_t rank_of(const uint64_t *sums, uint32_t vocabulary, uint64_t number) {
    uint32_t low = 0, high = vocabulary;
    while (low < high) {
        uint32_t middle = low + (high - low) / 2;
        if (sums[middle] <= number) low = middle + 1;
        else high = middle;
    }
    return low;
}

static struct list *documents(uint32_t count, uint32_t words, uint32_t vocabulary) {
    uint64_t *sums = sums_of(vocabulary);
    struct list *lists = must(calloc((size_t)count * LISTS, sizeof *lists));
    for (size_t at = 0; at < (size_t)count * LISTS; at++) {
        uint32_t left = at % LISTS < LISTS - 1 ? FIRST[at % LISTS] : words > 14 ? words - 14 : 0;
        for (lists[at].count = left; left > 0; left--) {
            uint8_t text[16];
            text[0] = spell(rank_of(sums, vocabulary, next_number() % sums[vocabulary - 1]), text + 1);
            add(&lists[at].words, text, text[0] + 1);
        }
        lists[at].words.at = must(realloc(lists[at].words.at, lists[at].words.len));
    }
    free(sums);
    return lists;
}

/* ---- the segment */

static struct word *words;
static struct run *rows;
static size_t count, room;
/* By the hashes of the words: their numbers, from 1. */
static struct slot *slots;
static size_t slot_count;

static uint32_t hash_of(const uint8_t *at, uint32_t len) {
    uint64_t hash = len, part = 0;
    for (; len >= 8; at += 8, len -= 8) {
        memcpy(&part, at, 8);
        hash = (hash ^ part) * 0x9e3779b97f4a7c15u, hash ^= hash >> 29;
    }
    part = 0;
    memcpy(&part, at, len);
    hash = (hash ^ part) * 0x9e3779b97f4a7c15u;
    return hash >> 32;
}

static void put_slot(struct slot slot) {
    size_t at = slot.hash & (slot_count - 1);
    while (slots[at].number) at = (at + 1) & (slot_count - 1);
    slots[at] = slot;
}

static void double_slots(void) {
    struct slot *old = slots;
    size_t old_count = slot_count;
    slot_count = old_count ? old_count * 2 : 1024;
    slots = must(calloc(slot_count, sizeof *slots));
    for (size_t at = 0; at < old_count; at++)
        if (old[at].number) put_slot(old[at]);
    free(old);
}

/* The five runs of a word. */
static struct run *runs_of(const uint8_t *text, uint32_t len) {
    uint32_t hash = hash_of(text, len);
    if (count * 2 >= slot_count) double_slots();
    for (size_t at = hash & (slot_count - 1); slots[at].number; at = (at + 1) & (slot_count - 1)) {
        size_t number = slots[at].number - 1;
        if (slots[at].hash == hash && words[number].len == len && !memcmp(words[number].at, text, len)) return &rows[number * FIELDS];
    }
    if (count == room) {
        room = room ? room * 2 : 1024;
        words = must(realloc(words, room * sizeof *words));
        rows = must(realloc(rows, room * FIELDS * sizeof *rows));
    }
    memset(&rows[count * FIELDS], 0, FIELDS * sizeof *rows);
    words[count] = (struct word){text, len, count};
    put_slot((struct slot){hash, ++count});
    return &rows[(count - 1) * FIELDS];
}

static uint8_t *put(uint8_t *to, uint32_t number) {
    for (; number >= 128; number /= 128) *to++ = number % 128 + 128;
    *to++ = number;
    return to;
}

static void close_block(struct run *run) {
    if (run->count) run->at[run->begin] = run->count;
    run->count = 0;
}

static void push(struct run *run, struct hit hit) {
    if (run->room - run->len < MAX_BYTES) run->at = must(realloc(run->at, run->room = run->room * 2 + MAX_BYTES));
    if (run->count == MAX_HITS) close_block(run);
    if (!run->count) run->begin = run->len++, run->before = (struct hit){0, 0, 0};
    struct hit before = run->before;
    uint8_t *to = put(run->at + run->len, hit.doc - before.doc);
    to = put(to, hit.doc == before.doc ? hit.list - before.list : hit.list);
    to = put(to, hit.doc == before.doc && hit.list == before.list ? hit.place - before.place : hit.place);
    run->len = to - run->at;
    run->count++;
    run->before = hit;
}

static int in_order(const void *a, const void *b) {
    const struct word *x = a, *y = b;
    int found = memcmp(x->at, y->at, x->len < y->len ? x->len : y->len);
    return found ? found : (int)x->len - (int)y->len;
}

static struct bytes texts, runs;
static size_t *text_ends, *run_ends;

static void build(const struct list *lists, uint32_t docs) {
    for (size_t at = 0; at < (size_t)docs * LISTS; at++) {
        const uint8_t *text = lists[at].words.at;
        struct hit hit = {at / LISTS, at % LISTS, 0};
        for (; hit.place < lists[at].count; hit.place++, text += *text + 1) push(&runs_of(text + 1, *text)[FIELD_OF[hit.list]], hit);
    }
    free(slots);
    qsort(words, count, sizeof *words, in_order);
    text_ends = must(malloc(count * sizeof *text_ends));
    run_ends = must(malloc(count * FIELDS * sizeof *run_ends));
    for (size_t at = 0; at < count; at++) {
        add(&texts, words[at].at, words[at].len);
        text_ends[at] = texts.len;
        for (size_t field = 0; field < FIELDS; field++) {
            struct run *run = &rows[words[at].number * FIELDS + field];
            close_block(run);
            add(&runs, run->at, run->len);
            run_ends[at * FIELDS + field] = runs.len;
            free(run->at);
        }
    }
    free(rows);
    free(words);
}

static const uint8_t *take(const uint8_t *from, uint32_t *number) {
    uint32_t shift = 0;
    for (*number = 0; *from >= 128; shift += 7) *number |= (uint32_t)(*from++ - 128) << shift;
    *number |= (uint32_t)*from++ << shift;
    return from;
}

/* The place of a word, or of what would stand before it. */
static size_t place_of(const uint8_t *text, size_t len, int *is_there) {
    size_t low = 0, high = count;
    *is_there = 0;
    while (low < high) {
        size_t middle = low + (high - low) / 2, start = middle ? text_ends[middle - 1] : 0, size = text_ends[middle] - start;
        int found = memcmp(text, texts.at + start, size < len ? size : len);
        if (!found) found = (int)len - (int)size;
        if (!found) return *is_there = 1, middle;
        if (found > 0) low = middle + 1;
        else high = middle;
    }
    return low;
}

/* How many hits a word has in the last list, and the sum of their places. */
static void walk(const uint8_t *text, size_t len) {
    int is_there;
    size_t row = place_of(text, len, &is_there) * FIELDS + FIELD_OF[LISTS - 1];
    uint64_t hits = 0, sum = 0;
    if (is_there) {
        const uint8_t *at = runs.at + (row ? run_ends[row - 1] : 0), *end = runs.at + run_ends[row];
        while (at < end) {
            struct hit hit = {0, 0, 0}, gap;
            for (uint32_t left = *at++; left > 0; left--, hits++) {
                at = take(take(take(at, &gap.doc), &gap.list), &gap.place);
                if (gap.doc) hit = (struct hit){hit.doc + gap.doc, gap.list, gap.place};
                else if (gap.list) hit.list += gap.list, hit.place = gap.place;
                else hit.place += gap.place;
                sum += hit.place;
            }
        }
    }
    printf("%llu %llu\n", (unsigned long long)hits, (unsigned long long)sum);
}

static int begins(const uint8_t *text, uint32_t rank, int is_whole) {
    uint8_t word[16], len = spell(rank, word);
    return (is_whole ? *text == len : *text >= len) && !memcmp(text + 1, word, len);
}

/* How many documents have in their last list the two commonest words one after the other, or one that begins with the commonest,
 * and the sum of their numbers: read off the lists, word by word. */
static void scan(const struct list *lists, uint32_t docs, int is_phrase) {
    uint64_t found = 0, sum = 0;
    for (uint32_t doc = 0; doc < docs; doc++) {
        const struct list *list = &lists[(size_t)doc * LISTS + LISTS - 1];
        const uint8_t *text = list->words.at, *next;
        int is_there = 0;
        for (uint32_t place = 0; place < list->count && !is_there; place++, text = next) {
            next = text + *text + 1;
            is_there = is_phrase ? begins(text, 0, 1) && place + 1 < list->count && begins(next, 1, 1) : begins(text, 0, 0);
        }
        if (is_there) found++, sum += doc;
    }
    printf("%llu %llu\n", (unsigned long long)found, (unsigned long long)sum);
}

int main(int argc, char **argv) {
    if (argc != 5) return 2;
    uint32_t docs = atoi(argv[1]), vocabulary = atoi(argv[3]);
    struct list *lists = documents(docs, atoi(argv[2]), vocabulary);
    puts("made");
    fflush(stdout);
    for (int step; (step = getchar()) != EOF; fflush(stdout)) {
        uint8_t text[16];
        if (step == 'b') {
            build(lists, docs);
            printf("built %zu %zu\n", count, runs.len);
        } else if (step == 'p' || step == 's') scan(lists, docs, step == 'p');
        else walk(text, spell(step == 'r' ? vocabulary / 5 : 0, text));
    }
}
