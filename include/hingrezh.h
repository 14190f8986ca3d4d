/* Hingrezh: parity games from a labelled transition system and a modal formula, by a proved library.
 *
 * Link with libhingrezh.a, which `make host` makes; `make install` puts it beside a pkg-config file. The
 * archive has no variables, and of the C library it needs memset (a later one may need memcpy, memmove or memcmp too).
 *
 * How a game is won: the largest priority that is seen for ever decides; if it is even, Even wins. If Even wins vertex
 * 0 of a finished game, with reasons that check out, the formula holds in the initial state: proved. If Odd wins, the
 * formula may hold all the same, a false alarm of the ranking (docs/VERDICTS.md). A solver that goes by the smallest
 * priority gives false passes. A cut game has no verdict.
 *
 * A slice is passed as a pointer to 32-bit words and its length in words, a text as a pointer to bytes and its length
 * in bytes. No function has a precondition on contents or lengths: whatever the slices hold is answered, at worst by a
 * refusal. The pointers must be valid for their lengths; a slice of length 0 may be NULL, `answer` may not. No slice
 * lent for writing may overlap another one. Slices that are only read may overlap each other, and may be shared by
 * calls in several threads at the same time, as long as nobody writes them meanwhile; each call needs slices of its own
 * to write to. Nothing is kept after a call and nothing is allocated.
 *
 * ---------------------------------------------------------------------------------------------------------------
 * The answer, four words
 *
 *   HINGREZH_DONE     steps, vertices, edges          the whole game
 *                     bytes, 0, 0                     the whole text, of hingrezh_write_pgsolver
 *                     words, 0, 0                     the whole formula, of hingrezh_expand
 *   HINGREZH_CUT      steps, vertices known, edges    a vertex still waits after `limit` steps
 *   HINGREZH_REFUSED  number, place, 0                see the refusals below
 *
 * ---------------------------------------------------------------------------------------------------------------
 * The words handed over: sizes first, then two parallel arrays
 *
 *   labels   L (0 to 4,096), A (0 to 16,384); A label numbers, never falling; A action numbers, any value.
 *            A label is the multiset of its actions; one with none is tau.
 *   system   S (1 to 65,535), T (0 to 262,144), initial state, S out-degrees summing to T; T labels and T targets,
 *            grouped by source state.
 *   actions  m (0 to 1,024); m kinds, m operands: a row of complete trees in prefix order. 0 true, 1 false,
 *            2 multi-action (operand: a label), 3 union, 4 intersection (operand: the right child), 5 negation.
 *   formula  n (1 to 1,024); n kinds, n operands: one tree in prefix order. 0 true, 1 false, 2 and, 3 or (operand: the
 *            right child), 4 box, 5 diamond (operand: the first node of one of the row's trees), 6 least, 7 greatest,
 *            8 reference (operand: an enclosing node of kind 6 or 7).
 *   regulars r (0 to 1,024); r kinds, r operands: a row of complete trees in prefix order, of hingrezh_expand alone.
 *            0 action formula (operand: the first node of one of the trees of `actions`), 1 sequence, 2 choice
 *            (operand: the right child), 3 star, 4 plus. The operand of a box or diamond of a formula that is to be
 *            expanded is the first node of one of these trees.
 *   Operands that are not named are 0.
 *
 * A game: vertices n, edges m, initial vertex; n owners (0 Even, 1 Odd); n priorities; n states; n items; n + 1
 * offsets; m targets; m counts: 4 + 5n + 2m words. So vertex v has its owner in word 3 + v, its priority in word
 * 3 + n + v, its state in word 3 + 2n + v, its item in word 3 + 3n + v, and the targets of its edges in the words from
 * 4 + 5n + a to before 4 + 5n + b, where a and b are the words 3 + 4n + v and the next; the count of an edge stands m
 * words behind its target. A cut game shows a waiting vertex with owner 2, priority 0 and no edges.
 *
 * In the game of a run a vertex, a waiting one too, stands for its state of the system and its item of the formula, and
 * no two vertices have the same two; vertex 0 has the initial state and item 0. Items are numbered from 0: first the
 * equations, one for each fixpoint by its node, before them one for the whole formula where that is no fixpoint; then
 * the subformulas of their right sides, where an inner fixpoint is a reference, by the lowest node that carries them,
 * alike ones once. `hingrezh show` lists them. A restricted game keeps both numbers of each vertex, whatever they are;
 * in a game that was read from a text both are 0.
 *
 * A box or diamond has one edge to a state however many transitions lead there. The edge's count says how many: the
 * transitions that leave the vertex's state with a label that its action formula matches and lead to the target's
 * state; so it is 1 or more. The count is 0 for the edges of all other vertices, for a self-loop that was added to a
 * vertex without targets, and in a game that was read from a text. Who wins does not depend on counts.
 *
 * Example: one state with two loops on label 0, and greatest X, diamond label 0, X. The words of its game:
 *   3 3 0   0 0 1   0 0 0   0 0 0   0 1 2   0 1 2 3   1 2 0   0 2 0
 * All vertices are of state 0. Vertex 0 is the equation of X, item 0. Vertex 1 is the diamond, item 1, and its edge to
 * vertex 2, the reference to X, stands for both loops.
 *
 * ---------------------------------------------------------------------------------------------------------------
 * A game as PGSolver text
 *
 *   parity 2;        the highest vertex number, n - 1
 *   0 0 0 1;         a line for each vertex: number, priority, owner, successors parted by commas
 *   1 0 0 2;
 *   2 0 1 0;
 *
 * So a game of three vertices is written. Single spaces part the four, a newline ends each line, the last one too;
 * numbers are decimal without leading zeros. The vertices are written in order and, of equal edges of a vertex, the
 * first alone. Where the game begins, the vertices' states and items and the edges' counts are not in the text: a game
 * that is read begins at vertex 0, and all of its states, items and counts are 0.
 *
 * When it is read, the vertices' lines may stand in any order; a successor may be repeated, and counts once, where it
 * stands first; and between the successors and the semicolon there may be a space and a name in double quotes, which
 * is passed over: any bytes but quotes and newlines, or none. Nothing else is of this form: no other line, space or
 * sign, no text without the header, no byte past the last newline, such as the zeros that writing leaves there.
 *
 * ---------------------------------------------------------------------------------------------------------------
 * Regular formulas in modalities, and what they are expanded to
 *
 *   [R . S] f    [R] [S] f                      <R . S> f    <R> <S> f
 *   [R + S] f    [R] f and [S] f                <R + S> f    <R> f or <S> f
 *   [R*] f       greatest I. ([R] I) and f      <R*> f       least I. (<R> I) or f
 *   [R+] f       [R] [R*] f                     <R+> f       <R> <R*> f
 *
 * f stands in both parts of a choice, so nine choices in a row are too large: a formula has at most 1,024 nodes.
 * Proved: the formula that is written is accepted with the same labels and actions, and it says the same of every
 * system, where [R] f says that all paths whose labels are a word of R end in states with f, <R> f that one does.
 *
 * ---------------------------------------------------------------------------------------------------------------
 * Refusals: what, where, who can mend it
 *
 * Words and nodes are counted from 0, words in the slice concerned. Where no place is named it is 0.
 *
 *   number  what                                                                       place
 *   The host program:
 *    1      vertices not 1 to 1,048,576, or edges not 1 to 4,194,304
 *    2      a slice lent for writing has the wrong length, or is too short for a text
 *   60      within the first `limit` steps the game needs more vertices or edges,
 *           added self-loops included, than there is room for
 *   The modeller:
 *   11      label words fewer than 2, or not 2 + 2A
 *   12      L or A too large
 *   13      a label number is L or more, or smaller than the one before it             word of labels
 *   21      system words fewer than 3, or not 3 + S + 2T
 *   22      S not 1 to 65,535, or T too large
 *   23      the initial state is S or more                                             2
 *   24      the out-degrees don't sum to T                                             1
 *   25      a transition's label is L or more                                          word of system
 *   26      a transition's target is S or more                                         word of system
 *   The formula's writer:
 *   31      no action words, or not 1 + 2m
 *   32      m too large
 *   33      a kind above 5                                                             node of actions
 *   34      a wrong operand; an unfinished last tree                                   node of actions; m
 *   41      no formula words, or not 1 + 2n
 *   42      n not 1 to 1,024
 *   43      a kind above 8                                                             node of formula
 *   44      a wrong operand of kinds 0 to 7; nodes left over past the tree;            node of formula; the first
 *           an unfinished tree                                                         left over; n
 *   45      a reference to anything but an enclosing fixpoint                          node of formula
 *   61      the regular formulas: no words, or not 1 + 2r; r too large; a kind above 4;
 *           a wrong operand; an unfinished last tree
 *   62      the expanded formula has more than 1,024 nodes
 *   Whoever hands a game to the restriction or to the writing of texts:
 *   51      words fewer than 3 or not 4 + 5n + 2m, no vertex, n above 1,048,576
 *           or m above 4,194,304
 *   52      the offsets don't begin at 0, fall, or don't end at m                      word of the game; the later one
 *   53      the initial vertex is n or more; an owner above 1; a target n or more      word of the game
 *           (no state, item or count is wrong)
 *   98      a vertex without successors, in writing a text
 *   Whoever hands over a text, or too little room for it:
 *   91      the text is not of the form above
 *   92      a vertex up to the highest number without a line, or with two; a vertex
 *           or a successor above the highest number
 *   93      more vertices or edges, equal ones of a vertex counted once, than there
 *           is room for, or a priority beyond 32 bits
 *
 * Of several faults a call answers the first in its order; of faults with one number the one with the smallest place.
 *   hingrezh_translate          1, 2, 11 to 45, 60
 *   hingrezh_compute_reachable  51, 52, 53, 2
 *   hingrezh_write_pgsolver     51, 52, 53, 98, 2
 *   hingrezh_read_pgsolver      1, 2, 91, 92, 93
 *   hingrezh_expand             2, 11 to 13, 31 to 34, 61, 41 to 45, 62
 * In 34, 44 and 61 a right-child operand isn't judged if its left tree is unfinished.
 *
 * hingrezh_refusal_text gives the middle column for a number.
 *
 * Stack: the deepest inputs (511 nested unions or conjunctions) have run in 164 KB as a whole process, the calls on
 * PGSolver text in 156 KB, whatever the text, an expansion (1,023 nested fixpoints) in 112 KB; give the calling thread
 * at least 256 KB.
 */
#ifndef HINGREZH_H
#define HINGREZH_H

#include <stddef.h>
#include <stdint.h>

#ifdef __cplusplus
extern "C" {
#endif

/* The version of header, library and command. */
#define HINGREZH_VERSION_MAJOR 0
#define HINGREZH_VERSION_MINOR 5
#define HINGREZH_VERSION_PATCH 0
#define HINGREZH_VERSION "0.5.0"

enum { HINGREZH_DONE = 0, HINGREZH_CUT = 1, HINGREZH_REFUSED = 2 };

/* Stands in the map of a restriction for a vertex that is not reached. */
#define HINGREZH_NOT_REACHED UINT32_C(4294967295)

/* The largest sizes that are accepted. */
#define HINGREZH_MOST_LABELS UINT32_C(4096)
#define HINGREZH_MOST_ACTIONS UINT32_C(16384)
#define HINGREZH_MOST_STATES UINT32_C(65535)
#define HINGREZH_MOST_TRANSITIONS UINT32_C(262144)
#define HINGREZH_MOST_NODES UINT32_C(1024)
#define HINGREZH_MOST_VERTICES UINT32_C(1048576)
#define HINGREZH_MOST_EDGES UINT32_C(4194304)

/* How many words the slices have: the four that are read, by their sizes; `game` and `work`, by the room for vertices
 * and edges; a finished game, by its vertices and edges; an answer. */
#define HINGREZH_LABEL_WORDS(actions) ((size_t)2 + (size_t)2 * (size_t)(actions))
#define HINGREZH_SYSTEM_WORDS(states, transitions) ((size_t)3 + (size_t)(states) + (size_t)2 * (size_t)(transitions))
#define HINGREZH_NODE_WORDS(nodes) ((size_t)1 + (size_t)2 * (size_t)(nodes))
#define HINGREZH_GAME_WORDS(vertices, edges) \
    ((size_t)4 + (size_t)5 * (size_t)(vertices) + (size_t)2 * (size_t)(edges))
#define HINGREZH_WORK_WORDS(vertices, edges) ((size_t)8 * (size_t)(vertices) + (size_t)2 * (size_t)(edges))
#define HINGREZH_ANSWER_WORDS 4

/* How many words the slice has that an expanded formula is written into: those of the most nodes. */
#define HINGREZH_EXPANDED_WORDS HINGREZH_NODE_WORDS(HINGREZH_MOST_NODES)

/* At most so many bytes has the text of a game, by its vertices and edges: its numbers of vertices have at most seven
 * digits, its priorities ten. */
#define HINGREZH_TEXT_BYTES(vertices, edges) \
    ((size_t)16 + (size_t)22 * (size_t)(vertices) + (size_t)8 * (size_t)(edges))

/* Builds the parity game of a formula on a system, in at most `limit` steps; vertex 0 stands for the initial state
 * and the first equation.
 *
 * V = vertices and E = edges are the room. `game` must have exactly HINGREZH_GAME_WORDS(V, E) words and `work` exactly
 * HINGREZH_WORK_WORDS(V, E). What they hold before doesn't matter: memory from malloc need not be set first, and slices
 * can be lent again as they are. `labels`, `system`, `actions` and `formula` are only read.
 *
 * Afterwards, by the case of `answer`:
 *   done       `game` begins with the whole game, and every word past its end is 0; `work` is all 0
 *   cut        the same with the game as known after `limit` steps
 *   refused 60 `game` and `work` are all 0
 *   refused, any other number: `game` and `work` are as they were; what malloc left there is still left there
 * `answer` is written in every case. */
void hingrezh_translate(const uint32_t *labels, size_t labels_len,
                        const uint32_t *system, size_t system_len,
                        const uint32_t *actions, size_t actions_len,
                        const uint32_t *formula, size_t formula_len,
                        uint32_t vertices, uint32_t edges, uint32_t limit,
                        uint32_t *game, size_t game_len,
                        uint32_t *work, size_t work_len,
                        uint32_t answer[4]);

/* Restricts a game to the vertices that its initial vertex reaches, numbered breadth first with targets in order, so
 * that the new game begins at 0. Owners, priorities, states, items, the order of edges and their counts stay, whatever
 * states, items and counts are.
 *
 * `game` is only read, and must be a game without words past its end: of a finished run's slice the first
 * HINGREZH_GAME_WORDS(vertices, edges) words, by its answer. For n vertices `out` must have as many words as `game`,
 * and `map` and `work` exactly n each; what they hold before doesn't matter.
 *
 * Afterwards, by the case of `answer`:
 *   done     steps and vertices are the number of vertices reached, edges the number of their edges; `out` begins with
 *            the new game, and every word past its end is 0; `map` has for each old vertex its new number, or
 *            HINGREZH_NOT_REACHED; `work` is all 0
 *   refused  `out`, `map` and `work` are as they were
 * This call is never cut. `answer` is written in every case. */
void hingrezh_compute_reachable(const uint32_t *game, size_t game_len,
                                uint32_t *out, size_t out_len,
                                uint32_t *map, size_t map_len,
                                uint32_t *work, size_t work_len,
                                uint32_t answer[4]);

/* Writes a game as PGSolver text: for a solver that reads nothing else.
 *
 * `game` is only read, and must be a game without words past its end, as for the restriction; it may begin anywhere,
 * and its states, items and counts don't matter. Each vertex needs a successor; every vertex of a finished run has one.
 * `text` must not be shorter than the text; HINGREZH_TEXT_BYTES(n, m) bytes are always enough, and a longer slice is
 * fine. What it holds before doesn't matter.
 *
 * Afterwards, by the case of `answer`:
 *   done     answer[1] is the number of bytes of the text; `text` begins with it, and every byte past its end is 0.
 *            A file, or hingrezh_read_pgsolver, gets the bytes of the text alone
 *   refused  `text` is as it was
 * This call is never cut: a cut game is refused (53). `answer` is written in every case. */
void hingrezh_write_pgsolver(const uint32_t *game, size_t game_len,
                             uint8_t *text, size_t text_len,
                             uint32_t answer[4]);

/* Reads a game from PGSolver text.
 *
 * V = vertices and E = edges are the room, and `game` must have exactly HINGREZH_GAME_WORDS(V, E) words; what they hold
 * before doesn't matter. `text` is only read. A line has at least nine bytes, a successor two, so of a text of B bytes
 * B / 9 vertices and B / 2 edges, at least one of each, are room enough, as far as the largest room goes.
 *
 * Afterwards, by the case of `answer`:
 *   done     steps and vertices are the number of vertices n, edges the number of edges m, equal ones of a vertex
 *            counted once; `game` begins with the game, which begins at vertex 0, has state 0 and item 0 for each
 *            vertex, its successors in the order of the text and the count 0 for each, and every word past its end is 0
 *   refused  `game` is as it was
 * This call is never cut. `answer` is written in every case.
 *
 * Proved: a game that begins at vertex 0, written and then read into room that holds it, is that game without the
 * repeated edges and with all states, items and counts 0; and what was read from any text, written and read again, is
 * the same game. */
void hingrezh_read_pgsolver(const uint8_t *text, size_t text_len,
                            uint32_t vertices, uint32_t edges,
                            uint32_t *game, size_t game_len,
                            uint32_t answer[4]);

/* Expands the regular formulas in the modalities of a formula: what is written is the formula for hingrezh_translate,
 * with the same `labels` and `actions`.
 *
 * `labels`, `actions`, `regulars` and `formula` are only read. `out` must have exactly HINGREZH_EXPANDED_WORDS words;
 * what they hold before doesn't matter.
 *
 * Afterwards, by the case of `answer`:
 *   done     answer[1] is the number of words of the formula, 1 + 2n for its n nodes; `out` begins with it, and every
 *            word past its end is 0. hingrezh_translate gets the words of the formula alone
 *   refused  `out` is as it was
 * This call is never cut, and its time is bounded by the sizes of the tables, however large the expanded formula would
 * be. `answer` is written in every case. */
void hingrezh_expand(const uint32_t *labels, size_t labels_len,
                     const uint32_t *actions, size_t actions_len,
                     const uint32_t *regulars, size_t regulars_len,
                     const uint32_t *formula, size_t formula_len,
                     uint32_t *out, size_t out_len,
                     uint32_t answer[4]);

/* What a refusal is about; NULL for a number that is none. */
static inline const char *hingrezh_refusal_text(uint32_t number)
{
    switch (number) {
    case 1: return "the room is out of range: 1 to 1,048,576 vertices and 1 to 4,194,304 edges";
    case 2: return "a lent slice has the wrong length";
    case 11: return "the label words are fewer than 2, or not 2 + 2A";
    case 12: return "more than 4,096 labels or more than 16,384 actions";
    case 13: return "a label number is not below L, or smaller than the one before it";
    case 21: return "the system words are fewer than 3, or not 3 + S + 2T";
    case 22: return "the states are not 1 to 65,535, or the transitions more than 262,144";
    case 23: return "the initial state is not below S";
    case 24: return "the out-degrees don't sum to T";
    case 25: return "a transition's label is not below L";
    case 26: return "a transition's target is not below S";
    case 31: return "there are no action words, or they are not 1 + 2m";
    case 32: return "more than 1,024 action nodes";
    case 33: return "the kind of an action node is above 5";
    case 34: return "the operand of an action node is wrong, or the last action tree is unfinished";
    case 41: return "there are no formula words, or they are not 1 + 2n";
    case 42: return "the formula's nodes are not 1 to 1,024";
    case 43: return "the kind of a formula node is above 8";
    case 44: return "the operand of a formula node is wrong, the tree is unfinished, or nodes are left over";
    case 45: return "a reference doesn't name an enclosing fixpoint";
    case 51: return "the words are no game: fewer than 3, not 4 + 5n + 2m, no vertex, or a size above the room limits";
    case 52: return "the offsets don't begin at 0, fall, or don't end at the number of edges";
    case 53: return "an owner is above 1, or a target or the initial vertex is not below n";
    case 60: return "the game needs more vertices or edges than there is room for";
    case 61: return "the regular formulas are no table of at most 1,024 nodes: its words, a kind, an operand or a tree";
    case 62: return "the expanded formula has more than 1,024 nodes";
    case 91: return "the text is not of the form: a header, then a line for each vertex";
    case 92: return "a vertex is missing, given twice or, also as a successor, above the highest";
    case 93: return "more vertices or edges than there is room for, or a priority beyond 32 bits";
    case 98: return "a vertex has no successors, and cannot be written as PGSolver text";
    default: return NULL;
    }
}

#ifdef __cplusplus
}
#endif

#endif
