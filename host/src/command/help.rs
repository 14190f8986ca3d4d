//! What the command says of itself; host/man/hingrezh.1 says the same at more length.

pub const ALL: &str = "\
hingrezh: parity games from models and formulas, built by a proved library

usage: hingrezh build INPUT [--vertices N] [--edges N] [--limit N] [--format F] [--counts] [-o OUT]
       hingrezh night MODEL FORMULA.. -o DIR [--vertices N] [--edges N] [--limit N] [--format F] [--counts]
       hingrezh read TEXT [--vertices N] [--edges N] [--format F] [-o OUT]
       hingrezh restrict GAME [--map] [--format F] [--counts] [-o OUT]
       hingrezh expand INPUT [-o OUT]
       hingrezh show INPUT [--all]
       hingrezh where GAME VERTEX [--model MODEL --formula FORMULA]
       hingrezh dot GAME|INPUT [--vertices N] [--edges N] [--limit N] [-o OUT]
       hingrezh COMMAND --help, hingrezh --version

build     one game, as lines, as words or as PGSolver text
night     for each formula its game in a folder, as PGSolver text, words or lines, with a table and a manifest
read      a game from PGSolver text, as words, lines or the text that build writes
restrict  the part of a game that its initial vertex reaches
expand    a formula without regular formulas in the place of one with them
show      labels, system, formula and items as text
where     what a vertex of a game stands for: its state and its part of the formula
dot       a small game as a Graphviz graph

INPUT is one file of little-endian 32-bit words: four lengths, then labels, system, action formulas and formula; or
two files, MODEL (two lengths, labels, system) and FORMULA (two lengths, action formulas, formula). With regular
formulas, sequences, choices and repetitions in modalities, there is a length more and their words stand before the
formula (see `hingrezh expand --help`). GAME holds a game's words, TEXT is PGSolver text, F is pgsolver, words or lines.
A file may be - for standard input; -- ends the options.

What a game says: the largest priority that a play sees for ever decides it, an even one for Even. If Even wins vertex 0
the formula holds in the model's initial state. docs/VERDICTS.md says how far a verdict can be relied on.

exit status: 0 done, 2 refused, 3 cut (the step limit came first), 64 usage, 65 the file holds no such words, 66 no such
file, 71 no memory, 74 output failed. A night ends with the gravest of its formulas: 74, 71, 66, 65, 2, 3, 0.";

pub const BUILD: &str = "\
usage: hingrezh build INPUT [--vertices N] [--edges N] [--limit N] [--format F] [--counts] [-o OUT]

Builds the game of a formula on a system. INPUT is one file (four lengths, then labels, system, action formulas and
formula) or two, MODEL and FORMULA (see `hingrezh night --help`). A formula over regular formulas is expanded first (see
`hingrezh expand --help`).

--vertices N, --edges N  room for the game, at most and by default 1048576 and 4194304
--limit N                at most N steps; by default 4294967295
--format F               pgsolver, words or lines; by default words where -o is given, otherwise lines
--counts                 lines say how many transitions are behind an edge, where there are any
-o OUT, --output OUT, --words OUT
                         the game goes to OUT (- is standard output) instead of standard output

Lines: `done` or `cut` with steps, vertices and edges; then for each vertex its number, owner (0 Even, 1 Odd, 2 still
waiting), priority and targets. Words: those of a game, as restrict and dot take it. Of words and PGSolver text on
standard output the answer goes to standard error.

A box or diamond has one edge to a state however many matching transitions lead there. --counts says how many: `2*3` is
an edge to vertex 2 with three transitions behind it, `2*1` one with a single transition; other edges are written as
without the option. Words always have the counts, and state and item of each vertex; PGSolver text has neither.

PGSolver text: `parity 2;` with the highest vertex, then for each vertex a line `2 0 1 0,1;` with its number, priority,
owner and successors, equal ones once. A cut game has no such text: nothing is written, and the exit status is 3.

The largest priority that a play sees for ever decides it, an even one for Even. If Even wins vertex 0 the formula holds
in the model's initial state.

A refusal writes nothing and leaves an old OUT as it is. exit status: 0 done, 2 refused, 3 cut.";

pub const READ: &str = "\
usage: hingrezh read TEXT [--vertices N] [--edges N] [--format F] [-o OUT]

Reads a game from PGSolver text and gives its words, as restrict and dot take them. The game begins at vertex 0, its
vertices have state 0 and item 0, and its edges the count 0: what a vertex stands for and how many transitions are
behind an edge is not in the text.

TEXT begins with the line `parity 2;`, which has the highest vertex. Then there is a line for each vertex, in any order,
`2 0 1 0,1;` or `2 0 1 0,1 \"a name\";`: number, priority, owner (0 Even, 1 Odd), successors, of which equal ones count
once, and a name that is passed over. Spaces are single, numbers decimal without leading zeros, and a newline ends each
line. The largest TEXT has 268435456 bytes.

--vertices N, --edges N  room for the game, at most 1048576 and 4194304; by default what the text needs
--format F               pgsolver, words or lines; by default words
-o OUT, --output OUT, --words OUT
                         the game goes to OUT (- is standard output) instead of standard output

A refusal tells the line, counted from 1, writes nothing and leaves an old OUT as it is.

exit status: 0 done, 2 refused.";

pub const RESTRICT: &str = "\
usage: hingrezh restrict GAME [--map] [--format F] [--counts] [-o OUT]

The part of a game that its initial vertex reaches, numbered breadth first. Vertices keep their states and items, edges
their counts. GAME holds a game's words, as build, night and read write them; a cut game is refused.

--map       adds a line with the new number of each old vertex (4294967295: not reached)
--format F  pgsolver, words or lines (see `hingrezh build --help`); by default words where -o is given, otherwise lines.
            PGSolver text has no vertex without successors: a game with one is refused
--counts    lines say how many transitions are behind an edge, where there are any (see `hingrezh build --help`)
-o OUT, --output OUT, --words OUT
            the game goes to OUT (- is standard output) instead of standard output

exit status: 0 done, 2 refused.";

pub const NIGHT: &str = "\
usage: hingrezh night MODEL FORMULA.. -o DIR [--vertices N] [--edges N] [--limit N] [--format F] [--counts]

Reads one model, then builds for each formula its game as PGSolver text: of NAME, NAME.words or another ending,
DIR/NAME.pg.

MODEL    two lengths, then labels and system      } little-endian 32-bit words;
FORMULA  two lengths, then actions and formula    } the lengths count words

A FORMULA may have regular formulas: three lengths, then actions, regular formulas and formula. It is expanded first
(see `hingrezh expand --help`).

--vertices N, --edges N  room for each game, at most and by default 1048576 and 4194304
--limit N                at most N steps for each game; by default 4294967295
--format F               pgsolver: DIR/NAME.pg, the default; words: DIR/NAME.game; lines: DIR/NAME.lines
--counts                 lines say how many transitions are behind an edge (see `hingrezh build --help`)
-o DIR, --output DIR     the folder of the games; it is made if it is missing

Old games of these formulas, in any format, and the old manifest are removed before the first formula is read, so that
DIR never shows a game of another night as this one's: a formula that is refused, cut or fails has no game. A game is
written beside its place, brought to the disk and renamed. Nothing is done at all if two formulas have one NAME or if an
output would take the place of an input. Other files in DIR stay.

Standard output has a table: formula, answer, steps, vertices, edges, and seconds for reading, building and writing.
DIR/manifest, written last, has the tool's version, the checksums (SHA-256) of model, formulas and games, and the
answers; `sha256sum -c manifest` in DIR checks the games.

In a game the largest priority that a play sees for ever decides it, an even one for Even. If Even wins vertex 0 the
formula holds in the model's initial state.

exit status: 0 if every formula is done, else the gravest: 74 output failed, 71 no memory, 66 no such file, 65 no such
words, 2 refused, 3 cut.";

pub const EXPAND: &str = "\
usage: hingrezh expand INPUT [-o OUT]

Expands the regular formulas in the boxes and diamonds of a formula, and writes the formula without them, which means
the same and is what `build` and `night` build the game of; they expand by themselves, so nobody has to do it before.

INPUT    one file: five lengths, then labels, system, actions, regular formulas and formula. What is written has four
         lengths and no regular formulas. Or two files, MODEL and FORMULA: then a FORMULA is written
MODEL    two lengths, then labels and system
FORMULA  three lengths, then actions, regular formulas and formula. What is written has two, actions and formula

Which file has regular formulas is told by its number of words: there is a length more, and the words that it counts.
An INPUT or a FORMULA without regular formulas is its own expansion and is written as it is. Either way it is judged as
`build` does, the system too, and what is written is never refused for its words.

A regular formula R names action formulas: a (kind 0), R . S (1), R + S (2), R* (3), R+ (4). In boxes

  [R . S]f  is  [R][S]f             [R*]f  is  nu X. [R]X && f
  [R + S]f  is  [R]f && [S]f        [R+]f  is  [R][R*]f

and in diamonds likewise, with || in the place of && and mu in that of nu. The f behind a choice is written once for
each of its parts, so the formula grows; one of more than 1024 nodes is refused.

-o OUT, --output OUT, --words OUT
         the words go to OUT (- is standard output) instead of standard output

The answer is `done` with the number of words of the expanded formula and two zeros. It goes to standard output where -o
names a file, otherwise to standard error. A refusal writes nothing and leaves an old OUT as it is.

exit status: 0 done, 2 refused.";

pub const SHOW: &str = "\
usage: hingrezh show INPUT [--all]

Labels, system, formula and items as text. Action 7 is a7, a label's actions are joined by bars, tau has none; the
variable of equation 1 is X1; mu is a least fixpoint, nu a greatest, [a] a box, <a> a diamond. Items are what a vertex
pairs with a state, by the numbers that a game's words show (`hingrezh where`): equations first, then the subformulas of
their bodies, alike ones once.

A formula over regular formulas is shown as it was written, where a point is a sequence, + between two a choice, * or +
behind something its repetition; then the regular formulas, each by its first node; then the expanded formula, whose
variables are numbered anew, and its items.

--all  lists every label, transition and item, up to 4000 characters of each; otherwise the first 20, up to 100
       characters. The formula is shown whole, in it a label of more than 8 actions by its number, as in label3.";

pub const WHERE: &str = "\
usage: hingrezh where GAME VERTEX [--model MODEL --formula FORMULA]

What a vertex of a game stands for. VERTEX is its number, GAME holds a game's words, as `hingrezh build INPUT -o GAME`
and a night with --format words write them.

Two lines: the numbers of its state and its item; owner (0 Even, 1 Odd, 2 still waiting), priority and number of edges.
With the model and the formula that the game was built of also the item as `hingrezh show` writes it, an equation or a
subformula, of a formula over regular formulas one of the expanded formula; then the state's transitions, the first 20.

--model MODEL      two lengths, then labels and system
--formula FORMULA  two lengths, then actions and formula; or three, with regular formulas

With both the game must fit them: vertex 0 has the initial state and item 0, every state is one of the model's, every
item one of the formula's, with the vertex's owner. A game of another formula of the same form is not found out. A game
that was read from PGSolver text has state 0 and item 0 everywhere, which is said, and fits no model. A restricted game
has the states and items of the game that it was made of.

exit status: 0 done; 2 refused: no game, no such vertex, or no game of this model and formula; 3 the game is cut (what
is known is written all the same).";

pub const DOT: &str = "\
usage: hingrezh dot GAME|INPUT [--vertices N] [--edges N] [--limit N] [-o OUT]

A game as a Graphviz graph: diamonds are Even's vertices, boxes Odd's; inside is the priority, beside it stand the
vertex's number, its state and its item, as in 5: s1 i3 (see `hingrezh where --help`); of a game that was read from
PGSolver text the number alone. A vertex that still waits in a cut game is dashed. An edge with several transitions
behind it has their number beside it. GAME holds a game's words (`hingrezh read` makes them of PGSolver text); an INPUT,
as build takes it, is built first.

--vertices N, --edges N  no larger game is drawn; by default 1000 and 4000
--limit N                at most N steps for an INPUT
-o OUT, --output OUT     a file for the graph

The largest priority that a play sees for ever decides it, an even one for Even. If Even wins vertex 0 the formula holds
in the model's initial state.

exit status: 0 done, 2 refused or too large, 3 cut (the graph is written all the same).";

/// The version and the line of the toolchain that proved the library.
pub fn version() -> String {
    let toolchain = option_env!("HINGREZH_TOOLCHAIN").unwrap_or("not known when the command was built");
    format!("hingrezh {}\ntoolchain {toolchain}", env!("CARGO_PKG_VERSION"))
}
