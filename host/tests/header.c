/* Uses every part of include/hingrezh.h as a host does, compiled as C99 and as C++11 and linked with the archive:
 * macros, the table of refusals, all calls on a small model, NULL for empty slices, slices that nobody has set,
 * inputs that threads with a small stack share. Says what is wrong and answers 1. */
#include "hingrezh.h"
/* Once more, as two other headers would. */
#include "hingrezh.h"

#include <pthread.h>
#include <stdio.h>
#include <stdlib.h>
#include <string.h>

#define V 4
#define E 8

static int failures;

static void check(int holds, const char *what)
{
    if (!holds) {
        printf("not so: %s\n", what);
        failures++;
    }
}

#define CHECK(claim) check((claim), #claim)

/* A state with two loops, and "for ever the action is possible": the game is 0 -> 1 -> 2 -> 0, and the diamond's edge,
 * that from 1 to 2, stands for both loops. */
static const uint32_t LABELS[HINGREZH_LABEL_WORDS(1)] = {1, 1, 0, 7};
static const uint32_t SYSTEM[HINGREZH_SYSTEM_WORDS(1, 2)] = {1, 2, 0, 2, 0, 0, 0, 0};
static const uint32_t ACTIONS[HINGREZH_NODE_WORDS(1)] = {1, 2, 0};
static const uint32_t FORMULA[HINGREZH_NODE_WORDS(3)] = {3, 7, 5, 8, 0, 0, 0};
static const uint32_t GAME[HINGREZH_GAME_WORDS(3, 3)] = {3, 3, 0, 0, 0, 1, 0, 0, 0, 0, 0, 0, 0,
                                                         1, 2, 0, 1, 2, 3, 1, 2, 0, 0, 2, 0};

/* The same as PGSolver text, and what is read from it: states, items and counts are not in the text. */
static const char TEXT[] = "parity 2;\n0 0 0 1;\n1 0 0 2;\n2 0 1 0;\n";
#define TEXT_LEN (sizeof TEXT - 1)
static const uint32_t READ[HINGREZH_GAME_WORDS(3, 3)] = {3, 3, 0, 0, 0, 1, 0, 0, 0, 0, 0, 0, 0,
                                                         0, 0, 0, 1, 2, 3, 1, 2, 0, 0, 0, 0};

/* The box of any number of actions to true, and its expansion: greatest I, (box I) and true. */
static const uint32_t REGULARS[HINGREZH_NODE_WORDS(2)] = {2, 3, 0, 0, 0};
static const uint32_t OVER[HINGREZH_NODE_WORDS(2)] = {2, 4, 0, 0, 0};
static const uint32_t EXPANDED[HINGREZH_NODE_WORDS(5)] = {5, 7, 2, 4, 8, 0, 0, 4, 0, 0, 0};

static int answered(const uint32_t *answer, uint32_t kind, uint32_t first, uint32_t second, uint32_t third)
{
    return answer[0] == kind && answer[1] == first && answer[2] == second && answer[3] == third;
}

/* Memory as malloc gives it: what it holds before doesn't matter. */
static uint32_t *lent(size_t words)
{
    uint32_t *slice = (uint32_t *)malloc(words * sizeof(uint32_t));
    if (slice == NULL) {
        puts("no memory");
        exit(1);
    }
    return slice;
}

static int all_zero(const uint32_t *words, size_t from, size_t to)
{
    size_t i;
    for (i = from; i < to; i++) {
        if (words[i] != 0) return 0;
    }
    return 1;
}

static void translate(uint32_t limit, uint32_t *game, uint32_t *work, uint32_t *answer)
{
    hingrezh_translate(LABELS, sizeof LABELS / 4, SYSTEM, sizeof SYSTEM / 4, ACTIONS, sizeof ACTIONS / 4, FORMULA,
                       sizeof FORMULA / 4, V, E, limit, game, HINGREZH_GAME_WORDS(V, E), work,
                       HINGREZH_WORK_WORDS(V, E), answer);
}

static void a_run(void)
{
    uint32_t *game = lent(HINGREZH_GAME_WORDS(V, E)), *work = lent(HINGREZH_WORK_WORDS(V, E));
    uint32_t answer[HINGREZH_ANSWER_WORDS];
    translate(UINT32_MAX, game, work, answer);
    CHECK(answered(answer, HINGREZH_DONE, 3, 3, 3));
    CHECK(memcmp(game, GAME, sizeof GAME) == 0);
    CHECK(all_zero(game, HINGREZH_GAME_WORDS(3, 3), HINGREZH_GAME_WORDS(V, E)));
    CHECK(all_zero(work, 0, HINGREZH_WORK_WORDS(V, E)));
    translate(0, game, work, answer);
    CHECK(answered(answer, HINGREZH_CUT, 0, 1, 0));
    CHECK(game[3] == 2);
    free(game);
    free(work);
}

/* Two states with a transition from each to both, the second one initial: the words of a vertex by the places that the
 * header names, of a waiting one too. */
static void states_and_items(void)
{
    static const uint32_t system[HINGREZH_SYSTEM_WORDS(2, 4)] = {2, 4, 1, 2, 2, 0, 0, 0, 0, 0, 1, 1, 0};
    uint32_t *game = lent(HINGREZH_GAME_WORDS(V, E)), *work = lent(HINGREZH_WORK_WORDS(V, E));
    uint32_t answer[HINGREZH_ANSWER_WORDS], n;
    hingrezh_translate(LABELS, sizeof LABELS / 4, system, sizeof system / 4, ACTIONS, sizeof ACTIONS / 4, FORMULA,
                       sizeof FORMULA / 4, V, E, 2, game, HINGREZH_GAME_WORDS(V, E), work, HINGREZH_WORK_WORDS(V, E),
                       answer);
    CHECK(answered(answer, HINGREZH_CUT, 2, 4, 3));
    n = game[0];
    /* The equation and the diamond in state 1, and the reference in 1 and 0, which waits. */
    CHECK(game[3 + 2 * n] == 1 && game[3 + 3 * n] == 0);
    CHECK(game[3 + 2 * n + 1] == 1 && game[3 + 3 * n + 1] == 1);
    CHECK(game[3 + 2] == 2 && game[3 + 2 * n + 2] == 1 && game[3 + 3 * n + 2] == 2);
    CHECK(game[3 + 3] == 2 && game[3 + 2 * n + 3] == 0 && game[3 + 3 * n + 3] == 2);
    free(game);
    free(work);
}

static void a_restriction(void)
{
    uint32_t *out = lent(HINGREZH_GAME_WORDS(3, 3)), *map = lent(3), *work = lent(3);
    uint32_t answer[HINGREZH_ANSWER_WORDS];
    hingrezh_compute_reachable(GAME, HINGREZH_GAME_WORDS(3, 3), out, HINGREZH_GAME_WORDS(3, 3), map, 3, work, 3,
                               answer);
    CHECK(answered(answer, HINGREZH_DONE, 3, 3, 3));
    CHECK(memcmp(out, GAME, sizeof GAME) == 0);
    CHECK(map[0] == 0 && map[1] == 1 && map[2] == 2);
    CHECK(all_zero(work, 0, 3));
    free(out);
    free(map);
    free(work);
}

static uint8_t *lent_bytes(size_t bytes)
{
    return (uint8_t *)lent(bytes / sizeof(uint32_t) + 1);
}

/* The bytes of the text, then zeros; a slice that is too short stays as it was. */
static void a_written_text(void)
{
    size_t most = HINGREZH_TEXT_BYTES(3, 3), i, zeros = 0;
    uint8_t *text = lent_bytes(most);
    uint32_t answer[HINGREZH_ANSWER_WORDS];
    memset(text, 7, most);
    hingrezh_write_pgsolver(GAME, HINGREZH_GAME_WORDS(3, 3), text, TEXT_LEN - 1, answer);
    CHECK(answered(answer, HINGREZH_REFUSED, 2, 0, 0));
    CHECK(text[0] == 7 && text[TEXT_LEN - 2] == 7);
    hingrezh_write_pgsolver(GAME, HINGREZH_GAME_WORDS(3, 3), text, TEXT_LEN, answer);
    CHECK(answered(answer, HINGREZH_DONE, TEXT_LEN, 0, 0));
    CHECK(memcmp(text, TEXT, TEXT_LEN) == 0 && text[TEXT_LEN] == 7);
    hingrezh_write_pgsolver(GAME, HINGREZH_GAME_WORDS(3, 3), text, most, answer);
    CHECK(answered(answer, HINGREZH_DONE, 37, 0, 0));
    CHECK(memcmp(text, TEXT, TEXT_LEN) == 0);
    for (i = TEXT_LEN; i < most; i++) zeros += text[i] == 0;
    CHECK(zeros == most - TEXT_LEN);
    free(text);
}

/* The most vertices, with long priorities: the macro's bytes are enough, and the text gives the game again. */
static void the_longest_text(void)
{
    uint32_t n = HINGREZH_MOST_VERTICES, v;
    size_t words = HINGREZH_GAME_WORDS(n, n), most = HINGREZH_TEXT_BYTES(n, n);
    uint32_t *game = lent(words), *again = lent(words);
    uint8_t *text = lent_bytes(most);
    uint32_t answer[HINGREZH_ANSWER_WORDS];
    game[0] = n;
    game[1] = n;
    game[2] = 0;
    for (v = 0; v < n; v++) {
        game[3 + v] = v % 2;
        game[3 + n + v] = UINT32_MAX - v;
        game[3 + 2 * n + v] = 0;
        game[3 + 3 * n + v] = 0;
        game[3 + 4 * n + v] = v;
        game[4 + 5 * n + v] = n - 1 - v;
        game[4 + 6 * n + v] = 0;
    }
    game[3 + 5 * n] = n;
    hingrezh_write_pgsolver(game, words, text, most, answer);
    CHECK(answer[0] == HINGREZH_DONE && answer[1] <= most && answer[2] == 0 && answer[3] == 0);
    CHECK(memcmp(text, "parity 1048575;\n0 4294967295 0 1048575;\n", 40) == 0);
    hingrezh_read_pgsolver(text, answer[1], n, n, again, words, answer);
    CHECK(answered(answer, HINGREZH_DONE, n, n, n));
    CHECK(memcmp(again, game, words * sizeof(uint32_t)) == 0);
    free(game);
    free(again);
    free(text);
}

static void read_text(const char *text, uint32_t *game, uint32_t *answer)
{
    hingrezh_read_pgsolver((const uint8_t *)text, strlen(text), V, E, game, HINGREZH_GAME_WORDS(V, E), answer);
}

static void a_text_read(void)
{
    uint32_t *game = lent(HINGREZH_GAME_WORDS(V, E));
    uint32_t answer[HINGREZH_ANSWER_WORDS];
    read_text(TEXT, game, answer);
    CHECK(answered(answer, HINGREZH_DONE, 3, 3, 3));
    CHECK(memcmp(game, READ, sizeof READ) == 0);
    CHECK(all_zero(game, HINGREZH_GAME_WORDS(3, 3), HINGREZH_GAME_WORDS(V, E)));
    memset(game, 7, HINGREZH_GAME_WORDS(V, E) * sizeof(uint32_t));
    read_text("parity 2;\n2 0 1 0,0 \"third; and last\";\n0 0 0 1 \"\";\n1 0 0 2;\n", game, answer);
    CHECK(answered(answer, HINGREZH_DONE, 3, 3, 3));
    CHECK(memcmp(game, READ, sizeof READ) == 0);
    free(game);
}

/* Each number of refusals, with the slices as they were. */
static void refused_texts(void)
{
    static const uint32_t stuck[] = {2, 1, 0, 1, 1, 0, 0, 0, 0, 0, 0, 0, 1, 1, 1, 1};
    static const uint32_t cut[] = {1, 0, 0, 2, 0, 0, 0, 0, 0};
    /* GAME as games were before their vertices had states and items. */
    static const uint32_t old[] = {3, 3, 0, 0, 0, 1, 0, 0, 0, 0, 1, 2, 3, 1, 2, 0, 0, 2, 0};
    uint32_t *game = lent(HINGREZH_GAME_WORDS(V, E));
    uint8_t text[64];
    uint32_t answer[HINGREZH_ANSWER_WORDS];
    memset(text, 7, sizeof text);
    hingrezh_write_pgsolver(stuck, sizeof stuck / 4, text, sizeof text, answer);
    CHECK(answered(answer, HINGREZH_REFUSED, 98, 0, 0));
    hingrezh_write_pgsolver(cut, sizeof cut / 4, text, sizeof text, answer);
    CHECK(answered(answer, HINGREZH_REFUSED, 53, 3, 0));
    /* A game without its counts. */
    hingrezh_write_pgsolver(GAME, HINGREZH_GAME_WORDS(3, 3) - 3, text, sizeof text, answer);
    CHECK(answered(answer, HINGREZH_REFUSED, 51, 0, 0));
    hingrezh_write_pgsolver(old, sizeof old / 4, text, sizeof text, answer);
    CHECK(answered(answer, HINGREZH_REFUSED, 51, 0, 0));
    CHECK(text[0] == 7 && text[63] == 7);
    memset(game, 7, HINGREZH_GAME_WORDS(V, E) * sizeof(uint32_t));
    read_text("parity 0;\n0 0 2 0;\n", game, answer);
    CHECK(answered(answer, HINGREZH_REFUSED, 91, 0, 0));
    hingrezh_read_pgsolver((const uint8_t *)TEXT, sizeof TEXT, V, E, game, HINGREZH_GAME_WORDS(V, E), answer);
    CHECK(answered(answer, HINGREZH_REFUSED, 91, 0, 0)); /* the zero past the text */
    read_text("parity 1;\n0 0 0 0;\n", game, answer);
    CHECK(answered(answer, HINGREZH_REFUSED, 92, 0, 0));
    read_text("parity 0;\n0 4294967296 0 0;\n", game, answer);
    CHECK(answered(answer, HINGREZH_REFUSED, 93, 0, 0));
    CHECK(game[0] == UINT32_C(0x07070707) && game[HINGREZH_GAME_WORDS(V, E) - 1] == UINT32_C(0x07070707));
    free(game);
}

static void expand(const uint32_t *regulars, size_t regulars_len, const uint32_t *formula, size_t formula_len,
                   uint32_t *out, uint32_t *answer)
{
    hingrezh_expand(LABELS, sizeof LABELS / 4, ACTIONS, sizeof ACTIONS / 4, regulars, regulars_len, formula,
                    formula_len, out, HINGREZH_EXPANDED_WORDS, answer);
}

/* The words, then zeros; a run takes what is written. */
static void an_expansion(void)
{
    uint32_t *out = lent(HINGREZH_EXPANDED_WORDS), answer[HINGREZH_ANSWER_WORDS];
    uint32_t *game = lent(HINGREZH_GAME_WORDS(V, E)), *work = lent(HINGREZH_WORK_WORDS(V, E));
    memset(out, 7, HINGREZH_EXPANDED_WORDS * sizeof(uint32_t));
    expand(REGULARS, sizeof REGULARS / 4, OVER, sizeof OVER / 4, out, answer);
    CHECK(answered(answer, HINGREZH_DONE, 11, 0, 0));
    CHECK(memcmp(out, EXPANDED, sizeof EXPANDED) == 0);
    CHECK(all_zero(out, 11, HINGREZH_EXPANDED_WORDS));
    hingrezh_translate(LABELS, sizeof LABELS / 4, SYSTEM, sizeof SYSTEM / 4, ACTIONS, sizeof ACTIONS / 4, out,
                       answer[1], V, E, 0, game, HINGREZH_GAME_WORDS(V, E), work, HINGREZH_WORK_WORDS(V, E), answer);
    CHECK(answered(answer, HINGREZH_CUT, 0, 1, 0));
    free(out);
    free(game);
    free(work);
}

/* A formula of so many boxes above true, each of which names regular node 0. */
static size_t boxes(uint32_t count, uint32_t *formula)
{
    uint32_t n = count + 1, v;
    formula[0] = n;
    for (v = 0; v < n; v++) {
        formula[1 + v] = v < count ? 4 : 0;
        formula[1 + n + v] = 0;
    }
    return HINGREZH_NODE_WORDS(n);
}

/* Each part of a choice has a copy of what stands behind it: nine in a row are too many nodes. */
static void large_expansions(void)
{
    static const uint32_t choice[HINGREZH_NODE_WORDS(3)] = {3, 2, 0, 0, 2, 0, 0};
    uint32_t formula[HINGREZH_NODE_WORDS(10)], answer[HINGREZH_ANSWER_WORDS], *out = lent(HINGREZH_EXPANDED_WORDS);
    expand(choice, sizeof choice / 4, formula, boxes(8, formula), out, answer);
    CHECK(answered(answer, HINGREZH_DONE, HINGREZH_NODE_WORDS(1021), 0, 0));
    CHECK(out[0] == 1021 && all_zero(out, answer[1], HINGREZH_EXPANDED_WORDS));
    memset(out, 7, HINGREZH_EXPANDED_WORDS * sizeof(uint32_t));
    expand(choice, sizeof choice / 4, formula, boxes(9, formula), out, answer);
    CHECK(answered(answer, HINGREZH_REFUSED, 62, 0, 0));
    CHECK(out[0] == UINT32_C(0x07070707) && out[HINGREZH_EXPANDED_WORDS - 1] == UINT32_C(0x07070707));
    free(out);
}

/* Each group of words, with the slice as it was; and slices of other lengths. */
static void refused_expansions(void)
{
    static const uint32_t star[] = {1, 3, 0}, no_label[] = {1, 2, 1}, no_kind[] = {1, 9, 0}, inside[] = {2, 4, 0, 1, 0};
    uint32_t *out = lent(HINGREZH_EXPANDED_WORDS + 1), answer[HINGREZH_ANSWER_WORDS];
    memset(out, 7, (HINGREZH_EXPANDED_WORDS + 1) * sizeof(uint32_t));
    expand(star, sizeof star / 4, OVER, sizeof OVER / 4, out, answer);
    CHECK(answered(answer, HINGREZH_REFUSED, 61, 0, 0));
    expand(REGULARS, sizeof REGULARS / 4, no_kind, sizeof no_kind / 4, out, answer);
    CHECK(answered(answer, HINGREZH_REFUSED, 43, 0, 0));
    expand(REGULARS, sizeof REGULARS / 4, inside, sizeof inside / 4, out, answer);
    CHECK(answered(answer, HINGREZH_REFUSED, 44, 0, 0));
    hingrezh_expand(LABELS, sizeof LABELS / 4, no_label, sizeof no_label / 4, star, sizeof star / 4, no_kind,
                    sizeof no_kind / 4, out, HINGREZH_EXPANDED_WORDS, answer);
    CHECK(answered(answer, HINGREZH_REFUSED, 34, 0, 0));
    hingrezh_expand(LABELS, sizeof LABELS / 4, ACTIONS, sizeof ACTIONS / 4, REGULARS, sizeof REGULARS / 4, OVER,
                    sizeof OVER / 4, out, HINGREZH_EXPANDED_WORDS - 1, answer);
    CHECK(answered(answer, HINGREZH_REFUSED, 2, 0, 0));
    hingrezh_expand(LABELS, sizeof LABELS / 4, ACTIONS, sizeof ACTIONS / 4, REGULARS, sizeof REGULARS / 4, OVER,
                    sizeof OVER / 4, out, HINGREZH_EXPANDED_WORDS + 1, answer);
    CHECK(answered(answer, HINGREZH_REFUSED, 2, 0, 0));
    CHECK(out[0] == UINT32_C(0x07070707) && out[HINGREZH_EXPANDED_WORDS] == UINT32_C(0x07070707));
    free(out);
}

/* A slice of length 0 may be NULL, read or written. */
static void empty_slices(void)
{
    uint32_t *game = lent(HINGREZH_GAME_WORDS(V, E)), *work = lent(HINGREZH_WORK_WORDS(V, E));
    uint32_t answer[HINGREZH_ANSWER_WORDS];
    hingrezh_translate(NULL, 0, NULL, 0, NULL, 0, NULL, 0, V, E, 9, game, HINGREZH_GAME_WORDS(V, E), work,
                       HINGREZH_WORK_WORDS(V, E), answer);
    CHECK(answered(answer, HINGREZH_REFUSED, 11, 0, 0));
    hingrezh_translate(NULL, 0, NULL, 0, NULL, 0, NULL, 0, V, E, 9, NULL, 0, NULL, 0, answer);
    CHECK(answered(answer, HINGREZH_REFUSED, 2, 0, 0));
    hingrezh_translate(NULL, 0, NULL, 0, NULL, 0, NULL, 0, 0, 0, 9, NULL, 0, NULL, 0, answer);
    CHECK(answered(answer, HINGREZH_REFUSED, 1, 0, 0));
    hingrezh_compute_reachable(NULL, 0, NULL, 0, NULL, 0, NULL, 0, answer);
    CHECK(answered(answer, HINGREZH_REFUSED, 51, 0, 0));
    hingrezh_compute_reachable(GAME, HINGREZH_GAME_WORDS(3, 3), NULL, 0, NULL, 0, NULL, 0, answer);
    CHECK(answered(answer, HINGREZH_REFUSED, 2, 0, 0));
    hingrezh_write_pgsolver(NULL, 0, NULL, 0, answer);
    CHECK(answered(answer, HINGREZH_REFUSED, 51, 0, 0));
    hingrezh_write_pgsolver(GAME, HINGREZH_GAME_WORDS(3, 3), NULL, 0, answer);
    CHECK(answered(answer, HINGREZH_REFUSED, 2, 0, 0));
    hingrezh_read_pgsolver(NULL, 0, V, E, game, HINGREZH_GAME_WORDS(V, E), answer);
    CHECK(answered(answer, HINGREZH_REFUSED, 91, 0, 0));
    hingrezh_read_pgsolver(NULL, 0, V, E, NULL, 0, answer);
    CHECK(answered(answer, HINGREZH_REFUSED, 2, 0, 0));
    hingrezh_read_pgsolver(NULL, 0, 0, 0, NULL, 0, answer);
    CHECK(answered(answer, HINGREZH_REFUSED, 1, 0, 0));
    hingrezh_expand(NULL, 0, NULL, 0, NULL, 0, NULL, 0, NULL, 0, answer);
    CHECK(answered(answer, HINGREZH_REFUSED, 2, 0, 0));
    free(game);
    free(work);
}

/* The same of an expansion: one group after another is there. */
static void empty_slices_of_expansions(void)
{
    uint32_t *out = lent(HINGREZH_EXPANDED_WORDS), answer[HINGREZH_ANSWER_WORDS];
    hingrezh_expand(NULL, 0, NULL, 0, NULL, 0, NULL, 0, out, HINGREZH_EXPANDED_WORDS, answer);
    CHECK(answered(answer, HINGREZH_REFUSED, 11, 0, 0));
    hingrezh_expand(LABELS, sizeof LABELS / 4, NULL, 0, NULL, 0, NULL, 0, out, HINGREZH_EXPANDED_WORDS, answer);
    CHECK(answered(answer, HINGREZH_REFUSED, 31, 0, 0));
    expand(NULL, 0, NULL, 0, out, answer);
    CHECK(answered(answer, HINGREZH_REFUSED, 61, 0, 0));
    expand(REGULARS, sizeof REGULARS / 4, NULL, 0, out, answer);
    CHECK(answered(answer, HINGREZH_REFUSED, 41, 0, 0));
    free(out);
}

/* Calls of several threads at the same time read the same inputs. */
static void *many_runs(void *same)
{
    uint32_t *game = lent(HINGREZH_GAME_WORDS(V, E)), *work = lent(HINGREZH_WORK_WORDS(V, E));
    uint32_t *out = lent(HINGREZH_EXPANDED_WORDS), answer[HINGREZH_ANSWER_WORDS];
    uint8_t text[TEXT_LEN];
    int i, *good = (int *)same;
    for (i = 0; i < 2000; i++) {
        translate(UINT32_MAX, game, work, answer);
        *good = *good && answered(answer, HINGREZH_DONE, 3, 3, 3) && memcmp(game, GAME, sizeof GAME) == 0;
        hingrezh_write_pgsolver(GAME, HINGREZH_GAME_WORDS(3, 3), text, TEXT_LEN, answer);
        *good = *good && answered(answer, HINGREZH_DONE, TEXT_LEN, 0, 0) && memcmp(text, TEXT, TEXT_LEN) == 0;
        read_text(TEXT, game, answer);
        *good = *good && answered(answer, HINGREZH_DONE, 3, 3, 3) && memcmp(game, READ, sizeof READ) == 0;
        expand(REGULARS, sizeof REGULARS / 4, OVER, sizeof OVER / 4, out, answer);
        *good = *good && answered(answer, HINGREZH_DONE, 11, 0, 0) && memcmp(out, EXPANDED, sizeof EXPANDED) == 0;
    }
    free(game);
    free(work);
    free(out);
    return NULL;
}

/* The deepest formula that is expanded: nested fixpoints, as many as a table holds. */
static void *deepest_expansion(void *good)
{
    uint32_t *deep = lent(HINGREZH_EXPANDED_WORDS), *out = lent(HINGREZH_EXPANDED_WORDS), answer[HINGREZH_ANSWER_WORDS];
    const size_t n = HINGREZH_MOST_NODES;
    size_t v;
    for (v = 0; v < n; v++) {
        deep[1 + v] = v + 1 < n ? 6 + (uint32_t)(v % 2) : 8;
        deep[1 + n + v] = 0;
    }
    deep[0] = (uint32_t)n;
    expand(REGULARS, sizeof REGULARS / 4, deep, HINGREZH_EXPANDED_WORDS, out, answer);
    *(int *)good = answered(answer, HINGREZH_DONE, (uint32_t)HINGREZH_EXPANDED_WORDS, 0, 0) &&
                   memcmp(out, deep, HINGREZH_EXPANDED_WORDS * sizeof(uint32_t)) == 0;
    free(deep);
    free(out);
    return NULL;
}

static void threads(void)
{
    pthread_t thread[5];
    pthread_attr_t small;
    int good[5] = {1, 1, 1, 1, 0}, i;
    CHECK(pthread_attr_init(&small) == 0 && pthread_attr_setstacksize(&small, 256 * 1024) == 0);
    for (i = 0; i < 4; i++) CHECK(pthread_create(&thread[i], &small, many_runs, &good[i]) == 0);
    CHECK(pthread_create(&thread[4], &small, deepest_expansion, &good[4]) == 0);
    for (i = 0; i < 5; i++) CHECK(pthread_join(thread[i], NULL) == 0 && good[i]);
}

static void refusals(void)
{
    static const uint32_t numbers[] = {1,  2,  11, 12, 13, 21, 22, 23, 24, 25, 26, 31,
                                       32, 33, 34, 41, 42, 43, 44, 45, 51, 52, 53, 60,
                                       61, 62, 91, 92, 93, 98};
    size_t i, texts = 0, known = sizeof numbers / sizeof numbers[0];
    uint32_t n;
    for (i = 0; i < known; i++) CHECK(hingrezh_refusal_text(numbers[i]) != NULL);
    for (n = 0; n < 1000; n++) texts += hingrezh_refusal_text(n) != NULL;
    CHECK(texts == known);
}

static void macros(void)
{
    char version[32];
    snprintf(version, sizeof version, "%d.%d.%d", HINGREZH_VERSION_MAJOR, HINGREZH_VERSION_MINOR,
             HINGREZH_VERSION_PATCH);
    CHECK(strcmp(version, HINGREZH_VERSION) == 0);
    CHECK(strcmp(version, EXPECTED) == 0);
    /* Sums beyond 32 bits. */
    CHECK(HINGREZH_GAME_WORDS(UINT32_MAX, UINT32_MAX) == (size_t)30064771069);
    CHECK(HINGREZH_GAME_WORDS(HINGREZH_MOST_VERTICES, HINGREZH_MOST_EDGES) == (size_t)13631492);
    CHECK(HINGREZH_WORK_WORDS(HINGREZH_MOST_VERTICES, HINGREZH_MOST_EDGES) == (size_t)16777216);
    CHECK(HINGREZH_SYSTEM_WORDS(HINGREZH_MOST_STATES, HINGREZH_MOST_TRANSITIONS) == (size_t)589826);
    CHECK(HINGREZH_LABEL_WORDS(HINGREZH_MOST_ACTIONS) == (size_t)32770);
    CHECK(HINGREZH_NODE_WORDS(HINGREZH_MOST_NODES) == (size_t)2049);
    CHECK(HINGREZH_EXPANDED_WORDS == (size_t)2049);
    CHECK(HINGREZH_TEXT_BYTES(HINGREZH_MOST_VERTICES, HINGREZH_MOST_EDGES) == (size_t)56623120);
    CHECK(HINGREZH_MOST_LABELS == 4096 && HINGREZH_NOT_REACHED == UINT32_MAX);
}

int main(void)
{
    macros();
    refusals();
    a_run();
    states_and_items();
    a_restriction();
    a_written_text();
    the_longest_text();
    a_text_read();
    refused_texts();
    an_expansion();
    large_expansions();
    refused_expansions();
    empty_slices();
    empty_slices_of_expansions();
    threads();
    return failures != 0;
}
