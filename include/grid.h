/* The twelve calls of the grid checker.
 *
 * Every record, file and the buffer is passed as a pointer and the number of bytes, and the list `rows` as a pointer and the
 * number of its rows, each an int32_t. No pointer may be null, even where the number is 0. `rows` is aligned as int32_t is;
 * no other pointer has to be aligned. Only seven calls write: grid_run only into `out`, grid_lateness only into `rows`, and
 * grid_mark, grid_clear, grid_edit_keep, grid_edit_mark and grid_edit_clear only into `plan`. What a call writes into overlaps
 * none of its records; two records that it only reads may overlap. With 16,553 bytes `out` is never too short, and with 32
 * rows `rows` never is.
 *
 * The calls keep nothing. What an editor has asked for is in a GridEditing, a value: the caller keeps it, hands it to each of
 * the four calls grid_edit_ and takes up the one that comes back with the answer. A call with an older copy of it is answered
 * as that copy says. Each plan that is edited needs a GridEditing of its own. grid_mark and grid_clear know of none, so an
 * editor that asks makes its direct edits by grid_edit_mark and grid_edit_clear. Since the calls keep nothing, several threads
 * may make them at once, each with an `out`, `rows` or edited `plan` that no other one uses.
 */
#ifndef GRID_H
#define GRID_H

#include <stdbool.h>
#include <stddef.h>
#include <stdint.h>

#ifdef __cplusplus
extern "C" {
#endif

/* number 0: accepted. first is the usage in core ticks, second the cores times the horizon, third the makespan, and length
 * the number of bytes of the run's plan (0 for a check and for an ask); of a keep, a mark and a clear all four are 0.
 * Otherwise number is the number of the refusal, or of the rule that the verdict of an ask names, first its A and second its
 * B; third and length are 0. */
typedef struct GridAnswer {
    uint32_t number;
    uint32_t first;
    uint32_t second;
    uint32_t third;
    uint32_t length;
} GridAnswer;

/* The plain check of a plan: refusals 1 to 7, 51 to 53 and 57 of the model, 8 to 12 and 14 of the plan, and 21 to 29. No call
 * answers 24, a number that is out of use. A model is of version 1, 2 or 3. One of version 2 or 3 may have several rounds;
 * threads and activities in the second record and in the answers then count in all rounds together. In one of version 3 an
 * activity may take several cores. */
GridAnswer grid_check_plain(const uint8_t *model, size_t model_length,
                            const uint8_t *plan, size_t plan_length);

/* The strict check of a plan: those of the plain check, then 30 and 31. */
GridAnswer grid_check_strict(const uint8_t *model, size_t model_length,
                             const uint8_t *plan, size_t plan_length);

/* The run of a choice: refusals 1 to 13, 51 to 53, 57 and 41 change no byte of `out`, 42 and 43 set as many of its first
 * bytes to 0 as the plan would have taken, and a success writes the plan there. Bytes beyond the plan's length never
 * change. */
GridAnswer grid_run(const uint8_t *model, size_t model_length,
                    const uint8_t *choice, size_t choice_length,
                    uint8_t *out, size_t out_length);

/* The lateness of each activity in the run of a choice. The answer is that of grid_run with room enough, the plan's length
 * included, but 50 for fewer than 32 rows, however few activities there are; it is tried after the records and before 42 and
 * 43. A success and 43 set row a to the deadline of activity a, its thread's release + period, less its end, negative when
 * late and 0 on the dot, or to INT32_MIN where its thread has no period. Refusals 1 to 13, 51 to 53, 57, 42 and 50 change
 * no row, and rows beyond the last activity never change. */
GridAnswer grid_lateness(const uint8_t *model, size_t model_length,
                         const uint8_t *choice, size_t choice_length,
                         int32_t *rows, size_t rows_length);

/* Marks a tick of an activity in a plan: sets that activity's bit in the word of that tick. Its start then becomes its first
 * marked tick and its end its last plus 1, whatever they were before, and no other byte of `plan` changes. `plan` does not
 * overlap `model`. Refusals 1 to 7, 51 to 53 and 57 of the model, 8 to 12 and 14 of the plan, then 58 for an activity outside
 * m, 59 for a tick outside H and 60 for a bit that is set already, these three with A and B 0, change no byte. None of 21 to
 * 31 is tried. */
GridAnswer grid_mark(const uint8_t *model, size_t model_length,
                     uint8_t *plan, size_t plan_length,
                     uint32_t activity, uint32_t tick);

/* Clears a tick of an activity in a plan: as grid_mark, but the bit is cleared, 60 is for one that is clear already, and
 * start and end both become 0 where no tick is marked any more. */
GridAnswer grid_clear(const uint8_t *model, size_t model_length,
                      uint8_t *plan, size_t plan_length,
                      uint32_t activity, uint32_t tick);

/* The state of an editor: which edit is asked. asked is 1 for a mark and 2 for a clear, of `activity` at `tick`; with any
 * other number nothing is asked. A refused ask and an unrefused keep, mark or clear write 0 into these three. All zeros is a
 * state, with which an editor begins: GridEditing state = {0};. No call looks at total and counts, and each hands them back
 * as given. */
typedef struct GridEditing {
    uint32_t asked;
    uint32_t activity;
    uint32_t tick;
    uint32_t total;
    uint32_t counts[32];
} GridEditing;

/* What one of the four calls answers, and the state to hand to the next. */
typedef struct GridStep {
    GridAnswer answer;
    GridEditing state;
} GridStep;

/* Asks what the verdict on a plan would be after an edit, a mark where `mark` is true and else a clear, and changes no byte.
 * number 0 with the three figures and 21 to 29 are verdicts: what grid_check_plain would answer after grid_edit_mark or
 * grid_edit_clear, which count that activity's start and end anew. The edit is then asked, in the place of what was asked
 * before. Every other number is a refused ask, after which nothing is asked: the refusals of grid_edit_mark or
 * grid_edit_clear. The call needs 16,553 bytes of stack for a copy of the plan. */
GridStep grid_edit_ask(GridEditing state,
                       const uint8_t *model, size_t model_length,
                       const uint8_t *plan, size_t plan_length,
                       bool mark, uint32_t activity, uint32_t tick);

/* Keeps the edit that is asked: makes it as grid_edit_mark or grid_edit_clear does, and answers as they do, but with 61 tried
 * between 14 and 58, A and B 0, where nothing is asked. So it is 61 where any edit was kept since the asking, by this call or
 * by those two; 58, 59 and 60 come where model or plan are others than at the asking. A refused keep changes no byte and
 * hands back the state as given, an unrefused one leaves nothing asked. `plan` does not overlap `model`. */
GridStep grid_edit_keep(GridEditing state,
                        const uint8_t *model, size_t model_length,
                        uint8_t *plan, size_t plan_length);

/* Marks a tick of an activity in a plan: sets that activity's bit in the word of that tick. Its start then becomes its first
 * marked tick and its end its last plus 1, whatever they were before, and no other byte of `plan` changes. Nothing is asked
 * afterwards. `plan` does not overlap `model`. Refusals 1 to 7, 51 to 53 and 57 of the model, 8 to 12 and 14 of the plan,
 * then 58 for an activity outside m, 59 for a tick outside H and 60 for a bit that is set already, these three with A and B
 * 0, change no byte and hand back the state as given: what was asked is still asked. None of 21 to 31 is tried. */
GridStep grid_edit_mark(GridEditing state,
                        const uint8_t *model, size_t model_length,
                        uint8_t *plan, size_t plan_length,
                        uint32_t activity, uint32_t tick);

/* Clears a tick of an activity in a plan: as grid_edit_mark, but the bit is cleared, 60 is for one that is clear already, and
 * start and end both become 0 where no tick is marked any more. */
GridStep grid_edit_clear(GridEditing state,
                         const uint8_t *model, size_t model_length,
                         uint8_t *plan, size_t plan_length,
                         uint32_t activity, uint32_t tick);

/* Of wrapped records, models behind 12 bytes: the length of it all (4 bytes, the most significant first), version 1, the
 * series (4), the issue (2), and 1 for withdrawn or 0 for live.
 * number 0: the record numbered `record`, from 0, stands; its first byte in its argument is byte `offset`, and it has
 * `length` bytes. Otherwise number is that of the refusal, and record its A, the record that was tried; offset and length are
 * 0. zero is always 0.
 * The record that stands may be a withdrawn one: number is 0 then too. So before anything of it is loaded, look at byte
 * offset + 11 of its argument, 1 for withdrawn. Of a pair its argument is `first` for record 0 and `second` for record 1. */
typedef struct GridPart {
    uint32_t number;
    uint32_t zero;
    uint64_t record;
    uint64_t offset;
    uint64_t length;
} GridPart;

/* Which of two wrapped records stands: of one series the higher issue, at equal issue the withdrawn one over the live one,
 * and the first where both are equal; `offset` is 0. 54 for record 0, then 54 for record 1 where a wrapper's length is not
 * the bytes given or is under 12, its version or its flag is wrong or its model is refused; then 55 for two series, and 56
 * for equal series, issue and flag with other bytes, both with record 1. */
GridPart grid_stands(const uint8_t *first, size_t first_length,
                     const uint8_t *second, size_t second_length);

/* Which record stands of a file, wrapped records end to end: each is tried against the one standing so far, by 54, then 55,
 * then 56, and the first refusal is the answer. 54 is also for an empty file and for a wrapper whose length cannot be read or
 * goes past the end of the file. Each series needs a file of its own: records of two are 55. */
GridPart grid_choose(const uint8_t *file, size_t file_length);

#ifdef __cplusplus
}
#endif

#endif
