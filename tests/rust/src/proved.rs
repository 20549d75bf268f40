//! The exports of the proved code, as in `include/grid.h`, with safe wrappers.
//!
//! Pointer and length are declared as two parameters. A slice as one parameter would not do for `out` and `rows`: no
//! register is left for its length, and the pointer would then go to the stack with it.

use crate::{Answer, Editing, Part, Step};

extern "C" {
    fn grid_check_plain(model: *const u8, model_length: usize, plan: *const u8, plan_length: usize) -> Answer;
    fn grid_check_strict(model: *const u8, model_length: usize, plan: *const u8, plan_length: usize) -> Answer;
    fn grid_run(
        model: *const u8,
        model_length: usize,
        choice: *const u8,
        choice_length: usize,
        out: *mut u8,
        out_length: usize,
    ) -> Answer;
    fn grid_lateness(
        model: *const u8,
        model_length: usize,
        choice: *const u8,
        choice_length: usize,
        rows: *mut i32,
        rows_length: usize,
    ) -> Answer;
    fn grid_mark(
        model: *const u8,
        model_length: usize,
        plan: *mut u8,
        plan_length: usize,
        activity: u32,
        tick: u32,
    ) -> Answer;
    fn grid_clear(
        model: *const u8,
        model_length: usize,
        plan: *mut u8,
        plan_length: usize,
        activity: u32,
        tick: u32,
    ) -> Answer;
    fn grid_edit_ask(
        state: Editing,
        model: *const u8,
        model_length: usize,
        plan: *const u8,
        plan_length: usize,
        mark: bool,
        activity: u32,
        tick: u32,
    ) -> Step;
    fn grid_edit_keep(state: Editing, model: *const u8, model_length: usize, plan: *mut u8, plan_length: usize)
        -> Step;
    fn grid_edit_mark(
        state: Editing,
        model: *const u8,
        model_length: usize,
        plan: *mut u8,
        plan_length: usize,
        activity: u32,
        tick: u32,
    ) -> Step;
    fn grid_edit_clear(
        state: Editing,
        model: *const u8,
        model_length: usize,
        plan: *mut u8,
        plan_length: usize,
        activity: u32,
        tick: u32,
    ) -> Step;
    fn grid_stands(first: *const u8, first_length: usize, second: *const u8, second_length: usize) -> Part;
    fn grid_choose(file: *const u8, file_length: usize) -> Part;
}

pub fn check_plain(model: &[u8], plan: &[u8]) -> Answer {
    // SAFETY: each pointer comes with the length of its slice, and nothing is written.
    unsafe { grid_check_plain(model.as_ptr(), model.len(), plan.as_ptr(), plan.len()) }
}

pub fn check_strict(model: &[u8], plan: &[u8]) -> Answer {
    // SAFETY: each pointer comes with the length of its slice, and nothing is written.
    unsafe { grid_check_strict(model.as_ptr(), model.len(), plan.as_ptr(), plan.len()) }
}

pub fn run(model: &[u8], choice: &[u8], out: &mut [u8]) -> Answer {
    // SAFETY: each pointer comes with the length of its slice, and `out` is borrowed alone, so it overlaps neither input.
    unsafe { grid_run(model.as_ptr(), model.len(), choice.as_ptr(), choice.len(), out.as_mut_ptr(), out.len()) }
}

pub fn lateness(model: &[u8], choice: &[u8], rows: &mut [i32]) -> Answer {
    // SAFETY: each pointer comes with the length of its slice, that of `rows` in rows, and `rows` is borrowed alone, so it
    // overlaps neither input.
    unsafe { grid_lateness(model.as_ptr(), model.len(), choice.as_ptr(), choice.len(), rows.as_mut_ptr(), rows.len()) }
}

pub fn mark(model: &[u8], plan: &mut [u8], activity: u32, tick: u32) -> Answer {
    // SAFETY: each pointer comes with the length of its slice, and `plan` is borrowed alone, so it does not overlap the
    // model.
    unsafe { grid_mark(model.as_ptr(), model.len(), plan.as_mut_ptr(), plan.len(), activity, tick) }
}

pub fn clear(model: &[u8], plan: &mut [u8], activity: u32, tick: u32) -> Answer {
    // SAFETY: each pointer comes with the length of its slice, and `plan` is borrowed alone, so it does not overlap the
    // model.
    unsafe { grid_clear(model.as_ptr(), model.len(), plan.as_mut_ptr(), plan.len(), activity, tick) }
}

/// Puts the state that a call handed back where it was taken from.
fn handed_back(state: &mut Editing, step: Step) -> Answer {
    *state = step.state;
    step.answer
}

pub fn edit_ask(state: &mut Editing, model: &[u8], plan: &[u8], mark: bool, activity: u32, tick: u32) -> Answer {
    // SAFETY: each pointer comes with the length of its slice, and nothing is written.
    let step =
        unsafe { grid_edit_ask(*state, model.as_ptr(), model.len(), plan.as_ptr(), plan.len(), mark, activity, tick) };
    handed_back(state, step)
}

pub fn edit_keep(state: &mut Editing, model: &[u8], plan: &mut [u8]) -> Answer {
    // SAFETY: each pointer comes with the length of its slice, and `plan` is borrowed alone, so it does not overlap the
    // model.
    let step = unsafe { grid_edit_keep(*state, model.as_ptr(), model.len(), plan.as_mut_ptr(), plan.len()) };
    handed_back(state, step)
}

pub fn edit_mark(state: &mut Editing, model: &[u8], plan: &mut [u8], activity: u32, tick: u32) -> Answer {
    // SAFETY: as for a keep.
    let step =
        unsafe { grid_edit_mark(*state, model.as_ptr(), model.len(), plan.as_mut_ptr(), plan.len(), activity, tick) };
    handed_back(state, step)
}

pub fn edit_clear(state: &mut Editing, model: &[u8], plan: &mut [u8], activity: u32, tick: u32) -> Answer {
    // SAFETY: as for a keep.
    let step =
        unsafe { grid_edit_clear(*state, model.as_ptr(), model.len(), plan.as_mut_ptr(), plan.len(), activity, tick) };
    handed_back(state, step)
}

pub fn stands(first: &[u8], second: &[u8]) -> Part {
    // SAFETY: each pointer comes with the length of its slice, and nothing is written.
    unsafe { grid_stands(first.as_ptr(), first.len(), second.as_ptr(), second.len()) }
}

pub fn choose(file: &[u8]) -> Part {
    // SAFETY: the pointer comes with the length of its slice, and nothing is written.
    unsafe { grid_choose(file.as_ptr(), file.len()) }
}
