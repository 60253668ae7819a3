/* How much of the machine's stack each call takes: it is made on a stack that was painted before, and what is no longer
   painted is counted. bench/run stack builds and runs it.

   The panel: one lane of 15,006 bases, k 2, with a forward port of one word at every third base, so that every piece of three
   bases may follow every other; the assignments: all of them, from the lane's start to its end and in no order. */
#include "panel_routes.h"
#include <pthread.h>
#include <stdio.h>
#include <stdlib.h>
#include <string.h>
#include <sys/mman.h>

enum { STACK = 16 << 20, PAINT = 0xa5, PIECES = 5000, LENGTH = 3 * (PIECES + 2), PORTS = PIECES + 1, RECORD = 19 };
enum { IMAGE = 80 + 24 + 8 + 8 + 2 * PORTS * RECORD, WORDS = 3 + 4 * (PIECES + 2), FRONTIER = 64, OPTIMA = 8 };

static uint8_t image[IMAGE], letters[LENGTH], text[64 * (PIECES + 2)];
static uint64_t words[2][WORDS], out[1 << 20], frames[10 * (FRONTIER + 1)], kept[(OPTIMA + 2) * (3 + 4 * FRONTIER)];
static double scores[1000], kept_scores[OPTIMA + 1];
static const uint8_t names[] = "lane\n";
static size_t text_length[2];
static uint8_t texts[2][64 * (PIECES + 2)];

static void put(size_t at, uint64_t word) { memcpy(image + at, &word, 8); }

static void build(void) {
    uint64_t head[] = {2, 1, 1, 1, PORTS, 80, 104, 112, 120, 120 + PORTS * RECORD, LENGTH, PORTS, 0, 1, 0};
    memcpy(image, head, sizeof head);
    for (size_t i = 0; i < 2 * PORTS; i++) {
        size_t at = 120 + i * RECORD;
        memcpy(image + at, "AC", 2);
        put(at + 10, 3 * (i % PORTS + 1) - 1);
    }
    size_t order[PIECES];
    for (size_t i = 0; i < PIECES; i++) order[i] = i + 1;
    for (int shuffled = 0; shuffled < 2; shuffled++) {
        uint64_t *w = words[shuffled];
        *w++ = 0, *w++ = 1, *w++ = PIECES + 2;
        for (size_t i = 0; i < PIECES + 2; i++) {
            size_t piece = i == 0 ? 0 : i == PIECES + 1 ? PIECES + 1 : order[i - 1];
            *w++ = 0, *w++ = 3 * piece, *w++ = 3 * (piece + 1), *w++ = 0;
            text_length[shuffled] += sprintf((char *)texts[shuffled] + text_length[shuffled], "lane\t%zu\t%zu\tr0\t0\t+\n", 3 * piece, 3 * (piece + 1));
        }
        for (size_t i = PIECES - 1; i > 0; i--) {
            size_t j = (i * 7919 + 13) % (i + 1), was = order[i];
            order[i] = order[j], order[j] = was;
        }
    }
    for (size_t i = 0; i < LENGTH; i++) letters[i] = "ACG"[(i + 1) % 3];
    for (size_t i = 0; i < 1000; i++) scores[i] = i;
}

static uint64_t refusal;
static int shuffled;
static search_budget budget = {5000, 1000, FRONTIER, OPTIMA, 0.0};

static void check_panel(void) { refusal = panel_routes_check_panel(image, IMAGE).refusal; }
static void port_at_cut(void) { refusal = panel_routes_port_at_cut(image, IMAGE, 0, 3, false).refusal; }
static void hub_bucket(void) { refusal = panel_routes_hub_bucket(image, IMAGE, (const uint8_t *)"AC", 2).refusal; }
static void check_assignment(void) { refusal = panel_routes_check_assignment(image, IMAGE, words[shuffled], WORDS, out, WORDS).refusal; }
static void list(void) { refusal = panel_routes_list(image, IMAGE, budget, 0, frames, sizeof frames / 8, kept, sizeof kept / 8, out, sizeof out / 8).refusal; }
static void search(void) {
    refusal = panel_routes_search(image, IMAGE, budget, scores, 1000, frames, sizeof frames / 8, kept, sizeof kept / 8, kept_scores, OPTIMA + 1).refusal;
}
static void check_letters(void) { refusal = panel_routes_check_letters(image, IMAGE, letters, LENGTH).refusal; }
static void spell(void) { refusal = panel_routes_spell(image, IMAGE, letters, LENGTH, words[shuffled], WORDS, 0, 0, LENGTH, text, sizeof text).refusal; }
static void write_bed(void) { refusal = panel_routes_write_bed(image, IMAGE, names, 5, words[shuffled], WORDS, text, sizeof text).refusal; }
static void read_bed(void) { refusal = panel_routes_read_bed(image, IMAGE, names, 5, 0, texts[shuffled], text_length[shuffled], out, WORDS).refusal; }
static void lower_bound(void) { refusal = panel_routes_lower_bound(words[0], 100, 50.0).refusal; }

static uint8_t *stack, *from;

static void *made(void *call) {
    from = __builtin_frame_address(0);
    (*(void (**)(void))call)();
    return NULL;
}

static size_t used(void (*call)(void)) {
    pthread_t thread;
    pthread_attr_t attributes;
    memset(stack, PAINT, STACK);
    pthread_attr_init(&attributes);
    if (pthread_attr_setstack(&attributes, stack, STACK) || pthread_create(&thread, &attributes, made, &call)) exit(1);
    pthread_join(thread, NULL);
    size_t bare = 0;
    while (stack[bare] == PAINT) bare++;
    return from - (stack + bare);
}

static void row(const char *name, void (*call)(void)) {
    size_t most = 0;
    for (shuffled = 0; shuffled < 2; shuffled++) {
        size_t bytes = used(call);
        if (bytes > most) most = bytes;
        if (refusal) printf("%s: refusal %llu\n", name, (unsigned long long)refusal), exit(1);
    }
    printf("| `panel_routes_%s` | %zu |\n", name, most);
}

int main(void) {
    stack = mmap(NULL, STACK, PROT_READ | PROT_WRITE, MAP_PRIVATE | MAP_ANONYMOUS, -1, 0);
    build();
    printf("| call | bytes of stack |\n|---|---|\n");
    row("check_panel", check_panel);
    row("port_at_cut", port_at_cut);
    row("hub_bucket", hub_bucket);
    row("check_assignment", check_assignment);
    row("list", list);
    row("search", search);
    row("check_letters", check_letters);
    row("spell", spell);
    row("write_bed", write_bed);
    row("read_bed", read_bed);
    row("lower_bound", lower_bound);
    return 0;
}
