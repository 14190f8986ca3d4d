//! The calls of the proved library as safe functions. It has no preconditions: slices of any content and any
//! length are answered, so there is nothing to test before a call.
use crate::Answer;

// Nothing compares these declarations with the library's source; include/hingrezh.h says the same in C.
unsafe extern "C" {
    fn hingrezh_translate(
        labels: *const u32,
        labels_len: usize,
        system: *const u32,
        system_len: usize,
        actions: *const u32,
        actions_len: usize,
        formula: *const u32,
        formula_len: usize,
        vertices: u32,
        edges: u32,
        limit: u32,
        game: *mut u32,
        game_len: usize,
        work: *mut u32,
        work_len: usize,
        answer: *mut u32,
    );
    fn hingrezh_compute_reachable(
        game: *const u32,
        game_len: usize,
        out: *mut u32,
        out_len: usize,
        map: *mut u32,
        map_len: usize,
        work: *mut u32,
        work_len: usize,
        answer: *mut u32,
    );
    fn hingrezh_write_pgsolver(game: *const u32, game_len: usize, text: *mut u8, text_len: usize, answer: *mut u32);
    fn hingrezh_read_pgsolver(
        text: *const u8,
        text_len: usize,
        vertices: u32,
        edges: u32,
        game: *mut u32,
        game_len: usize,
        answer: *mut u32,
    );
    fn hingrezh_expand(
        labels: *const u32,
        labels_len: usize,
        actions: *const u32,
        actions_len: usize,
        regulars: *const u32,
        regulars_len: usize,
        formula: *const u32,
        formula_len: usize,
        out: *mut u32,
        out_len: usize,
        answer: *mut u32,
    );
}

/// Builds a game; the contract is that of `hingrezh_translate` in include/hingrezh.h.
#[allow(clippy::too_many_arguments)]
pub fn translate(
    labels: &[u32],
    system: &[u32],
    actions: &[u32],
    formula: &[u32],
    vertices: u32,
    edges: u32,
    limit: u32,
    game: &mut [u32],
    work: &mut [u32],
    answer: &mut [u32; 4],
) {
    // SAFETY: each pointer comes with its slice's length, the borrows last for the call, and the written slices
    // overlap nothing.
    unsafe {
        hingrezh_translate(
            labels.as_ptr(),
            labels.len(),
            system.as_ptr(),
            system.len(),
            actions.as_ptr(),
            actions.len(),
            formula.as_ptr(),
            formula.len(),
            vertices,
            edges,
            limit,
            game.as_mut_ptr(),
            game.len(),
            work.as_mut_ptr(),
            work.len(),
            answer.as_mut_ptr(),
        )
    }
}

/// Restricts a game; the contract is that of `hingrezh_compute_reachable` in include/hingrezh.h.
pub fn compute_reachable(game: &[u32], out: &mut [u32], map: &mut [u32], work: &mut [u32], answer: &mut [u32; 4]) {
    // SAFETY: as above.
    unsafe {
        hingrezh_compute_reachable(
            game.as_ptr(),
            game.len(),
            out.as_mut_ptr(),
            out.len(),
            map.as_mut_ptr(),
            map.len(),
            work.as_mut_ptr(),
            work.len(),
            answer.as_mut_ptr(),
        )
    }
}

/// Writes a game as PGSolver text; the contract is that of `hingrezh_write_pgsolver` in include/hingrezh.h. Where it is
/// done the answer's steps are the bytes of the text, and it has no vertices or edges.
pub fn write_pgsolver(game: &[u32], text: &mut [u8]) -> Answer {
    let mut answer = [0; 4];
    // SAFETY: as above.
    unsafe {
        hingrezh_write_pgsolver(game.as_ptr(), game.len(), text.as_mut_ptr(), text.len(), answer.as_mut_ptr());
    }
    Answer::of_words(answer)
}

/// Reads a game from PGSolver text; the contract is that of `hingrezh_read_pgsolver` in include/hingrezh.h.
pub fn read_pgsolver(text: &[u8], vertices: u32, edges: u32, game: &mut [u32]) -> Answer {
    let mut answer = [0; 4];
    // SAFETY: as above.
    unsafe {
        hingrezh_read_pgsolver(
            text.as_ptr(),
            text.len(),
            vertices,
            edges,
            game.as_mut_ptr(),
            game.len(),
            answer.as_mut_ptr(),
        );
    }
    Answer::of_words(answer)
}

/// Expands a formula over regular formulas; the contract is that of `hingrezh_expand` in include/hingrezh.h. Where it
/// is done the answer's steps are the words of the formula, and it has no vertices or edges.
pub fn expand(labels: &[u32], actions: &[u32], regulars: &[u32], formula: &[u32], out: &mut [u32]) -> Answer {
    let mut answer = [0; 4];
    // SAFETY: as above.
    unsafe {
        hingrezh_expand(
            labels.as_ptr(),
            labels.len(),
            actions.as_ptr(),
            actions.len(),
            regulars.as_ptr(),
            regulars.len(),
            formula.as_ptr(),
            formula.len(),
            out.as_mut_ptr(),
            out.len(),
            answer.as_mut_ptr(),
        );
    }
    Answer::of_words(answer)
}
