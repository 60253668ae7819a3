/* panel_routes: the calls of libpanel_routes.a (./archive). Every call checks its input itself. */
#ifndef PANEL_ROUTES_H
#define PANEL_ROUTES_H

#include <stdbool.h>
#include <stddef.h>
#include <stdint.h>

#ifdef __cplusplus
extern "C" {
#endif

/* refusal 0: none; fields that an answer does not use are 0 */
typedef struct { uint64_t refusal, place; } panel_reply;

/* found 0: no port, 1: a port; the word zero-padded */
typedef struct { uint64_t refusal, place, found, anchor; uint8_t word[32]; } port_reply;

typedef struct { uint64_t refusal, place, lo, hi; } bucket_reply;

/* words: how many words of out were written, the normal form */
typedef struct { uint64_t refusal, place, words; } assignment_reply;

/* a larger budget only adds: with none smaller and the same tie width, the incumbent is the same or scores lower */
typedef struct { uint64_t max_work, max_evaluations, max_frontier, max_optima; double tie_width; } search_budget;

/* status: 1 certified, 2 support incomplete, 3 work, 4 evaluation, 5 frontier. 1 and 2: every legal assignment was evaluated, and if the scores are those
   of one function, none scores below slot 0 (without a family there is none). 1: slots 1 to optima have exactly those within the tie width. A listing
   has 1, 3, 4 and 5; 1 says that every legal assignment is listed (README, "What 'certified' says") */
typedef struct { uint64_t refusal, place, status, written, words, evaluations; } list_reply;

/* optima: tied optima kept; discarded: 1 where one was discarded; frames: frames left; pending: 1 where a child is pending */
typedef struct {
    uint64_t refusal, place, status, work, evaluations, natives, donors, non_native, mixed, mixed_identity, switches, families;
    uint64_t optima, discarded, frames, pending;
} search_reply;

/* written: how many assignments were listed; words: their words, at the front of out */
typedef struct { uint64_t refusal, place, written, words; } plain_reply;

/* letters: how many bytes of out were written */
typedef struct { uint64_t refusal, place, letters; } spell_reply;

/* length: how many bytes (writing) or words (reading) of out were written */
typedef struct { uint64_t refusal, place, length; } bed_reply;

/* given 1: a bound; refusal 0 and given 0: none, since the running bound stopped being finite */
typedef struct { uint64_t refusal, place, given; double bound; } bound_reply;

panel_reply  panel_routes_check_panel(const uint8_t *image, size_t image_len);
port_reply   panel_routes_port_at_cut(const uint8_t *image, size_t image_len, uint64_t lane, uint64_t cut, bool reverse);
bucket_reply panel_routes_hub_bucket(const uint8_t *image, size_t image_len, const uint8_t *word, size_t word_len);
assignment_reply panel_routes_check_assignment(const uint8_t *image, size_t image_len, const uint64_t *words, size_t words_len, uint64_t *out, size_t out_len);
list_reply   panel_routes_list(const uint8_t *image, size_t image_len, search_budget budget, uint64_t from, uint64_t *frames, size_t frames_len,
                               uint64_t *slot, size_t slot_len, uint64_t *out, size_t out_len);
search_reply panel_routes_search(const uint8_t *image, size_t image_len, search_budget budget, const double *scores, size_t scores_len,
                                 uint64_t *frames, size_t frames_len, uint64_t *kept, size_t kept_len, double *kept_scores, size_t kept_scores_len);
/* all legal assignments, as the unbudgeted walk hands them over after seeding and numbered from 1 in that order: those with numbers from + 1 on are
   written until one doesn't fit; the rest of out stays. An assignment has at most 322 words. There is no budget, and no count of all: it ends on every
   panel but may take very long, since the number of mosaics may grow exponentially with the ports; every call that is not refused goes through the
   whole walk at least once. Refusal 42, with out unchanged: that walk's deepest stack is over 64. It needs up to 1.55 MB of stack (x86-64) */
plain_reply  panel_routes_plain_list(const uint8_t *image, size_t image_len, uint64_t from, uint64_t *out, size_t out_len);
/* letters: all lanes', lane after lane, only A, C, G and T. Refusal 39: not as many as the lanes have, or another letter; 40: a port whose word is not
   its k letters from the anchor on, reverse complemented when the port is reverse */
panel_reply  panel_routes_check_letters(const uint8_t *image, size_t image_len, const uint8_t *letters, size_t letters_len);
/* out begins with the letters from number from up to number to, counted from 0 and to left out, of the route of that slot as given, a reverse segment
   reverse complemented; the rest of out stays. Refusals 1 to 8, 39, 40, then 22 to 31 of the words, 41: no such slot, or crop empty or past its route,
   37: out shorter than to - from; out unchanged. The normal form of the words spells the same */
spell_reply  panel_routes_spell(const uint8_t *image, size_t image_len, const uint8_t *letters, size_t letters_len, const uint64_t *words, size_t words_len,
                                uint64_t slot, uint64_t from, uint64_t to, uint8_t *out, size_t out_len);
/* routes as BED. names: a line for each lane, in the lanes' order, each ended by a line feed, the last too, and of 1 to 64 bytes from 33 to 126, all
   different; else refusal 34. Of 34 to 37 the place is 0, and a refusal leaves out unchanged; the rest of out stays.
   out begins with a line for each segment as given, route by route: name, start, end, r and the slot, 0, + or -, apart by tabs and ended by a line feed.
   Refusals 1 to 8, 34, then 22 to 31 of the words, 37: out shorter than the text. 25 bytes for each of the words suffice */
bed_reply    panel_routes_write_bed(const uint8_t *image, size_t image_len, const uint8_t *names, size_t names_len, const uint64_t *words, size_t words_len,
                                    uint8_t *out, size_t out_len);
/* such lines back into the words they hold, with the family given: out begins with family, route count, then per route its segment count and its segments
   as the lines have them. Refusals 1 to 8, 34, then of the whole text 35: a line not in this form, numbers below 2^64 without leading zeros, slots
   from 0 without a gap, 36: a name not in the table, 37: out shorter than the words, then 22 to 31 of the words. What is written is read back as the same words */
bed_reply    panel_routes_read_bed(const uint8_t *image, size_t image_len, const uint8_t *names, size_t names_len, uint64_t family, const uint8_t *text, size_t text_len,
                                   uint64_t *out, size_t out_len);
/* at most minus the sum of (c - background)^2 / background over the counts c above the background; refusal 43: a count of 2^53 or more, or a
   background not finite or not above 0 */
bound_reply  panel_routes_lower_bound(const uint64_t *counts, size_t counts_len, double background);

#ifdef __cplusplus
}
#endif

#endif
