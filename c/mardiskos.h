/* The proved planner library.
 *
 * A refusal is told by one code: 32 * place + number. 0 means success.
 *
 *   number  what is wrong                                       place
 *   1       the record stops before all its fields are there    where the missing field starts
 *   2       the record is of another edition than 1             0
 *   3       not 1 to 64 variables, or over 1,024 actions        where the count starts
 *   4       a value that its variable does not have; a goal     where the value starts
 *           value other than 0 without a goal
 *   5       a fact of a variable that does not exist, or that   where the variable starts
 *           is not above the one before it in its list
 *   6       the padding is not 0, or bytes follow               where the last field ends
 *   7       black variables depend on one another in a circle;  the lowest of them
 *           setting again a fact that the action needs counts
 *           for nothing here
 *   8       an arc of a black variable lacks its return         the lowest action with such an arc
 *   9       an entry that is no action of the record; in a      the entry's position; for a goal, the
 *           caller's relaxed plan also one that does not        length of the list
 *           apply, or a goal that is missed
 *   10      there is no plan                                    how many facts can be reached
 *   11      the result needs more room than was lent            the room: entries, or bytes
 *   12      a sheet that stops early, is of another edition     where the field starts; for the end,
 *           than 1 and 2 or has too many steps, or whose end    where the last step ends
 *           is not as in 6
 *   13      a list of more than 32,768 entries; for a sheet     32,768; the entry's position
 *           also an entry above 1,023
 *
 * Where something starts is told in bits, and the most significant bit of the first byte is bit 0. Entries, variables and
 * actions count from 0 too. Fields are looked at in their order, and the first fault is told. Room, or capacity, is
 * the length of the list lent for the result, or of the work list or mark area lent with it if one of these is shorter,
 * and never more than 32,768; for a list of values it is that list's length.
 *
 * A record and a sheet are unsigned numbers without gaps between them, most significant bit first. Zero bits fill the
 * last byte, and nothing follows. Their fields, with their bits:
 *
 *   record   4  the edition, 1
 *            7  how many variables there are, 1 to 64
 *           11  how many actions, up to 1,024
 *           for each variable:
 *            6  how many values it has, less one
 *            1  1 if it is black, 0 if it is red
 *            6  the value that it starts with
 *            1  1 if it has a goal, else 0
 *            6  the goal's value, 0 without a goal
 *           for each action:
 *           16  its cost
 *            4  how many preconditions it has
 *            4  how many effects
 *           12  each precondition, then each effect: the variable in 6 bits, the value in 6. Among the
 *               preconditions each variable is above the one before it, and likewise among the effects.
 *
 *   sheet    4  the edition, 1 or 2
 *            1  1 if the plan is one for real
 *           16  how many steps it has, up to 32,768
 *           32  its cost
 *           for each step:
 *            1  its mark, in edition 2 only
 *           10  its action
 *
 * Anything may be handed over: any bytes as a record, a sheet or marks, any numbers as a list, and all of it
 * may be empty, what is lent for writing too. What stands there before a call makes no difference.
 * A pointer may be null where its length is 0: nothing is read or written there.
 * What is lent stays the caller's: it is used only during the call, and no pointer to it is kept.
 * Areas lent for writing must not overlap with anything else lent to the same call. Nothing is
 * allocated. Calls may run at the same time in several threads. 256 KiB of stack are enough.
 *
 * After a refusal every other field of a result is 0 or false, each list lent for writing holds
 * 65,535 throughout, and each byte area 0 throughout.
 */
#ifndef MARDISKOS_H
#define MARDISKOS_H

#include <stdbool.h>
#include <stddef.h>
#include <stdint.h>

#ifdef __cplusplus
extern "C" {
#endif

/* The version, as text and as 10,000 * major + 100 * minor + patch. */
#define MARDISKOS_VERSION "0.7.0"
#define MARDISKOS_VERSION_NUMBER 700

#define MARDISKOS_NUMBER(code) ((unsigned)((code) % 32))
#define MARDISKOS_PLACE(code) ((code) / 32)

/* The numbers of the table above. */
enum mardiskos_number {
    MARDISKOS_ACCEPTED = 0,
    MARDISKOS_RECORD_CUT_SHORT = 1,
    MARDISKOS_WRONG_EDITION = 2,
    MARDISKOS_WRONG_COUNT = 3,
    MARDISKOS_WRONG_VALUE = 4,
    MARDISKOS_WRONG_VARIABLE = 5,
    MARDISKOS_WRONG_END = 6,
    MARDISKOS_BLACK_CYCLE = 7,
    MARDISKOS_NO_RETURN = 8,
    MARDISKOS_WRONG_ENTRY = 9,
    MARDISKOS_NO_PLAN = 10,
    MARDISKOS_NO_ROOM = 11,
    MARDISKOS_WRONG_SHEET = 12,
    MARDISKOS_LIST_TOO_LARGE = 13
};

/* A number in words; never null. */
static inline const char *mardiskos_words(unsigned number)
{
    static const char *const words[] = {
        "accepted",
        "the record stops before all its fields are there",
        "the record's edition is not 1",
        "the count of variables is not 1 to 64, or there are more than 1,024 actions",
        "a value does not exist in its variable, or a goal value is given where there is no goal",
        "a fact's variable does not exist, or the variables of a list do not rise",
        "padding is not 0, or bytes follow the record",
        "the black causal graph has a cycle",
        "an arc of a black variable lacks its return",
        "a list entry is no action or does not apply, or a goal is missed",
        "no plan exists",
        "the result is longer than the room lent",
        "the sheet is cut short, of another edition or over 32,768 steps, or its end is not clean",
        "the list is over 32,768 entries, or an entry is too large for a sheet",
    };
    return number < sizeof words / sizeof words[0] ? words[number] : "no such number";
}

/* The most variables and actions of a record, the longest record and the longest sheet of either edition in bytes, and
 * the most steps of a plan. */
#define MARDISKOS_MOST_VARIABLES 64
#define MARDISKOS_MOST_ACTIONS 1024
#define MARDISKOS_LONGEST_RECORD 49315
#define MARDISKOS_LONGEST_SHEET 45063
#define MARDISKOS_MOST_STEPS 32768

/* Checks the len bytes at record, any bytes and any number of them. Answers 0 if they are a record,
 * else the code of the first fault, with a number from 1 to 6. */
uint64_t mardiskos_check(const uint8_t *record, size_t len);

/* A list of actions judged under the three semantics: in a relaxed run every variable keeps every value it has
 * had, in a real run each holds one value, in a red-black run the black ones hold one and the red ones keep all.
 * For each: how many steps run until one does not apply, and whether it is a plan. */
typedef struct {
    uint64_t code;
    uint32_t relaxed_steps;
    uint32_t red_black_steps;
    uint32_t real_steps;
    bool relaxed_plan;
    bool red_black_plan;
    bool real_plan;
} mardiskos_judgement;

/* Judges the list_len actions at list in the record. Refuses with 1 to 6, 13, 9, in this order, as every
 * function does in the order named with it. The painting may be any. */
mardiskos_judgement mardiskos_judge(const uint8_t *record, size_t len, const uint16_t *list,
                                    size_t list_len);

/* How many steps of a list run red-black until one does not apply, and how many run for real. */
typedef struct {
    uint64_t code;
    uint32_t steps;
    uint32_t runs;
} mardiskos_newest_values;

/* Where things were put last. The newest value of a variable is its initial value until a step sets the variable,
 * then the value set last, also where the variable had that value before. The list is run red-black until a
 * step does not apply; the newest value of each variable there fills the front of the values list, which needs
 * an entry for each variable of the record (MARDISKOS_MOST_VARIABLES are always enough), and 65,535 the rest.
 * If steps and runs are equal, the values are the real state. For the state in which a real run stops, hand
 * over the first `runs` actions alone. Refuses with 1 to 6, 13, 9, 11. The painting may be any. */
mardiskos_newest_values mardiskos_newest(const uint8_t *record, size_t len, const uint16_t *list,
                                         size_t list_len, uint16_t *values, size_t values_len);

typedef struct {
    uint64_t code;
    uint32_t steps;
    uint32_t reached;
} mardiskos_forward_run;

/* The forward run of the record: as long as a goal is missing it takes the cheapest action that applies and
 * reaches something new, of several the one with the lowest number. It fills the front of the plan list and
 * 65,535 the rest; answers its steps and the facts reached. Refuses with 1 to 6, 10, 11. */
mardiskos_forward_run mardiskos_forward(const uint8_t *record, size_t len, uint16_t *plan,
                                        size_t plan_len);

typedef struct {
    uint64_t code;
    uint32_t steps;
} mardiskos_relaxed_plan;

/* The relaxed plan: what the forward run needs of itself for the goals. It fills the plan list in the
 * same way. Refuses with 1 to 6, 10, 11. */
mardiskos_relaxed_plan mardiskos_relax(const uint8_t *record, size_t len, uint16_t *plan,
                                       size_t plan_len);

/* A plan: how many steps it has, the sum of their costs, how many run for real until one does not apply, how many
 * path searches the repair made, and whether it is a plan for real. The steps that run are the first `runs`
 * entries of the plan list; where all run and only a goal is missed, they are the whole plan.
 *
 * A search is a place where the repair asks for a path. Where the next action of the relaxed plan, or the goals,
 * want a black variable at another value than it has, moves are inserted before them. For each black variable in
 * turn there is one search for each of these moves so far that needs a value of the variable, and one if a value
 * of it is wanted, also where it has that value. A path without moves counts, and so does one that was found
 * before. With n actions in the relaxed plan, P the product of the black variables' counts of values and m black
 * variables, there are at most n * P * m searches; so there are none where the relaxed plan is empty. */
typedef struct {
    uint64_t code;
    uint32_t steps;
    uint32_t cost;
    uint32_t runs;
    uint32_t searches;
    bool real;
} mardiskos_plan_result;

/* The planner: the repair of the record's relaxed plan. The plan fills the front of the plan list and
 * 65,535 the rest. The lengths of the work list and of the mark area bound the plan's as that of the plan list
 * does. The work list holds 65,535 throughout afterwards, always. Refuses with 1 to 8, 10, 11.
 *
 * Byte i of the mark area is the mark of step i: 1 if the step is an inserted move, 0 if it is an action of the
 * relaxed plan. Bytes behind the plan are 0. An action may stand in one plan with either mark. The steps marked
 * 0 are, in their order, the relaxed plan that was repaired; repairing that gives, where the capacity holds it,
 * the same plan with the same marks. Who has no use for marks lends the area all the same: without it there is room
 * for the empty plan only.
 *
 * The way on which inserted moves bring a black variable to a value is one of least cost; of several one of
 * fewest moves; of those the one with the lower action at the first place where they differ.
 *
 * With F the sum over all variables of the count of values less one, and P the product of the black
 * variables' counts of values (1 if none is black), for every record that passes 1 to 8:
 * - it answers 10 exactly if no list of actions, however long, is a red-black plan;
 * - every plan it returns is a red-black plan of at most F * P steps;
 * - if some list is a red-black plan and the capacity is F * P or more, it returns a plan.
 * It answers 11 only where the plan is longer than the capacity, whatever F * P is. */
mardiskos_plan_result mardiskos_plan(const uint8_t *record, size_t len, uint16_t *plan, size_t plan_len,
                                     uint16_t *work, size_t work_len, uint8_t *marks, size_t marks_len);

/* The same for the caller's own relaxed plan, the list_len actions at list, which is only read; the steps marked 0
 * are that list. Of n actions it makes a red-black plan of at most n * P steps. Refuses with 1 to 8, 13, 9, 11. */
mardiskos_plan_result mardiskos_repair(const uint8_t *record, size_t len, const uint16_t *list,
                                       size_t list_len, uint16_t *plan, size_t plan_len, uint16_t *work,
                                       size_t work_len, uint8_t *marks, size_t marks_len);

typedef struct {
    uint64_t code;
    uint32_t bytes;
} mardiskos_sheet_size;

/* Writes the plan sheet of a list of steps, their marks, their cost and the verdict into the len bytes at bytes:
 * answers how many bytes it has; the bytes behind it are 0. Refuses with 13 (length first), 11.
 *
 * Edition 1 gives a sheet of edition 1, which has no marks: those given are not looked at. Any other number gives a
 * sheet of edition 2. In it a step is marked if its byte at marks is not 0; steps behind the marks_len bytes are not
 * marked, and bytes behind the last step are not looked at. */
mardiskos_sheet_size mardiskos_write_sheet(const uint16_t *list, size_t list_len, const uint8_t *marks,
                                           size_t marks_len, uint32_t edition, uint32_t cost, bool real,
                                           uint8_t *bytes, size_t len);

typedef struct {
    uint64_t code;
    uint32_t steps;
    uint32_t cost;
    uint32_t edition;
    bool real;
} mardiskos_sheet;

/* Reads the plan sheet of len bytes at bytes, of either edition. The steps fill the front of the list, 65,535 the
 * rest; their marks, 0 or 1, the front of the mark area, 0 the rest. A sheet of edition 1 shows no marks, so that all
 * are 0; the mark area's length bounds the steps as for edition 2. Refuses with 12, 11.
 *
 * What was written reads back as it was: the edition as 1 or 2, the marks of edition 2 as 0 or 1. What is read and
 * written again, with the edition and the marks that were read, gives the same bytes. */
mardiskos_sheet mardiskos_read_sheet(const uint8_t *bytes, size_t len, uint16_t *list, size_t list_len,
                                     uint8_t *marks, size_t marks_len);

#ifdef __cplusplus
}
#endif

#endif
