/* What the header says beyond the calls themselves, tried as C11 and as C++17, under sanitizers and against the installed copy: the
 * version, the numbers in words, and null pointers wherever a length is 0. */
#include <mardiskos.h>

#include <stdio.h>
#include <string.h>

static const uint8_t two_shelves[35] = {
    0x10, 0x40, 0x10, 0x18, 0x10, 0x02, 0x03, 0x00, 0x00, 0x10, 0x44, 0x00,
    0x00, 0x04, 0x00, 0x10, 0x44, 0x00, 0x40, 0x00, 0x00, 0x04, 0x84, 0x00,
    0x41, 0x04, 0x10, 0x80, 0x00, 0x48, 0x40, 0x00, 0x10, 0x81, 0x00,
};
/* One black variable with one value, which is its goal; no action. */
static const uint8_t goal_met[6] = {0x10, 0x20, 0x00, 0x08, 0x10, 0x00};

static int tried, failed;

static void expect(int holds, const char *what)
{
    tried++;
    if (holds)
        return;
    failed++;
    printf("failed: %s\n", what);
}

static uint64_t code(unsigned number, uint64_t place)
{
    return 32 * place + number;
}

static int all_zero(const uint8_t *bytes, size_t len)
{
    for (size_t i = 0; i < len; i++)
        if (bytes[i] != 0)
            return 0;
    return 1;
}

static void words(void)
{
    char version[32];
    snprintf(version, sizeof version, "%d.%d.%d", MARDISKOS_VERSION_NUMBER / 10000, MARDISKOS_VERSION_NUMBER / 100 % 100,
             MARDISKOS_VERSION_NUMBER % 100);
    expect(strcmp(version, MARDISKOS_VERSION) == 0, "version");
    expect(strcmp(mardiskos_words(MARDISKOS_ACCEPTED), "accepted") == 0, "words of 0");
    for (unsigned i = 0; i < MARDISKOS_LIST_TOO_LARGE; i++)
        for (unsigned j = i + 1; j <= MARDISKOS_LIST_TOO_LARGE; j++)
            expect(strcmp(mardiskos_words(i), mardiskos_words(j)) != 0, "two numbers, the same words");
    expect(strcmp(mardiskos_words(14), mardiskos_words(99)) == 0, "words of a number that does not exist");
}

static void null_records(void)
{
    uint16_t plan[2] = {0, 0}, work[2] = {0, 0};
    uint8_t marks[2] = {1, 1};
    const uint64_t cut_short = code(MARDISKOS_RECORD_CUT_SHORT, 0);
    expect(mardiskos_check(NULL, 0) == cut_short, "check");
    expect(mardiskos_judge(NULL, 0, NULL, 0).code == cut_short, "judge");
    expect(mardiskos_newest(NULL, 0, NULL, 0, NULL, 0).code == cut_short, "newest");
    expect(mardiskos_newest(NULL, 0, NULL, 0, work, 2).code == cut_short && work[1] == 65535, "newest, values lent");
    expect(mardiskos_forward(NULL, 0, plan, 2).code == cut_short && plan[1] == 65535, "forward");
    expect(mardiskos_relax(NULL, 0, NULL, 0).code == cut_short, "relax");
    work[1] = 0;
    expect(mardiskos_plan(NULL, 0, NULL, 0, work, 2, NULL, 0).code == cut_short && work[1] == 65535, "plan, work list lent");
    expect(mardiskos_plan(NULL, 0, NULL, 0, NULL, 0, marks, 2).code == cut_short && all_zero(marks, 2), "plan, marks lent");
    plan[1] = 0;
    expect(mardiskos_repair(NULL, 0, NULL, 0, plan, 2, NULL, 0, NULL, 0).code == cut_short && plan[1] == 65535, "repair, plan list lent");
    marks[0] = marks[1] = 1;
    expect(mardiskos_repair(NULL, 0, NULL, 0, NULL, 0, NULL, 0, marks, 2).code == cut_short && all_zero(marks, 2), "repair, marks lent");
}

static void null_lists(void)
{
    uint16_t list[4] = {0, 2, 1, 3}, plan[4];
    mardiskos_judgement judged = mardiskos_judge(two_shelves, sizeof two_shelves, NULL, 0);
    expect(judged.code == 0 && judged.real_steps == 0 && !judged.relaxed_plan, "judge, no list");
    mardiskos_newest_values newest = mardiskos_newest(two_shelves, sizeof two_shelves, NULL, 0, plan, 4);
    expect(newest.code == 0 && newest.steps == 0 && newest.runs == 0, "newest, no list");
    expect(plan[0] == 0 && plan[1] == 1 && plan[2] == 65535 && plan[3] == 65535, "newest, no list: initial values");
    newest = mardiskos_newest(two_shelves, sizeof two_shelves, list, 4, NULL, 0);
    expect(newest.code == code(MARDISKOS_NO_ROOM, 0) && newest.steps == 0 && newest.runs == 0, "newest, no room");
    expect(mardiskos_forward(two_shelves, sizeof two_shelves, NULL, 0).code == code(MARDISKOS_NO_ROOM, 0), "forward, no room");
    expect(mardiskos_relax(two_shelves, sizeof two_shelves, NULL, 0).code == code(MARDISKOS_NO_ROOM, 0), "relax, no room");
    expect(mardiskos_forward(goal_met, sizeof goal_met, NULL, 0).code == 0, "forward, goal met");
    expect(mardiskos_relax(goal_met, sizeof goal_met, NULL, 0).code == 0, "relax, goal met");
}

/* Planner and repair, with one of the three areas missing, or all. */
static void null_plans(void)
{
    const uint64_t no_room = code(MARDISKOS_NO_ROOM, 0);
    uint16_t list[4] = {0, 2, 1, 3}, plan[4] = {0}, work[4] = {0};
    uint8_t marks[4];
    memset(marks, 255, sizeof marks);
    expect(mardiskos_plan(goal_met, sizeof goal_met, NULL, 0, NULL, 0, NULL, 0).real, "plan, goal met");
    mardiskos_plan_result planned = mardiskos_plan(two_shelves, sizeof two_shelves, plan, 4, NULL, 0, marks, 4);
    expect(planned.code == no_room && plan[0] == 65535 && plan[3] == 65535, "plan, no work list");
    expect(planned.searches == 0 && all_zero(marks, 4), "plan, no work list: searches, marks");
    planned = mardiskos_plan(two_shelves, sizeof two_shelves, NULL, 0, work, 4, marks, 4);
    expect(planned.code == no_room && work[3] == 65535, "plan, no plan list");
    plan[3] = 0;
    planned = mardiskos_plan(two_shelves, sizeof two_shelves, plan, 4, work, 4, NULL, 0);
    expect(planned.code == no_room && plan[3] == 65535, "plan, no mark area");
    planned = mardiskos_plan(two_shelves, sizeof two_shelves, plan, 4, work, 4, marks, 4);
    expect(planned.code == 0 && marks[0] == 0 && marks[1] == 0 && marks[2] == 1 && marks[3] == 0, "plan, marks");
    planned = mardiskos_repair(two_shelves, sizeof two_shelves, NULL, 0, plan, 4, NULL, 0, NULL, 0);
    expect(planned.code == code(MARDISKOS_WRONG_ENTRY, 0), "repair, no list");
    planned = mardiskos_repair(two_shelves, sizeof two_shelves, list, 4, NULL, 0, NULL, 0, NULL, 0);
    expect(planned.code == no_room, "repair, no room");
    planned = mardiskos_repair(two_shelves, sizeof two_shelves, list, 4, plan, 4, work, 4, NULL, 0);
    expect(planned.code == no_room && plan[0] == 65535, "repair, no mark area");
    planned = mardiskos_repair(goal_met, sizeof goal_met, NULL, 0, NULL, 0, NULL, 0, NULL, 0);
    expect(planned.real && planned.searches == 0, "repair, goal met");
    marks[0] = 255;
    planned = mardiskos_repair(goal_met, sizeof goal_met, NULL, 0, NULL, 0, NULL, 0, marks, 4);
    expect(planned.real && all_zero(marks, 4), "repair, goal met, marks lent");
}

static void null_sheets(void)
{
    const uint64_t no_room = code(MARDISKOS_NO_ROOM, 0), wrong = code(MARDISKOS_WRONG_SHEET, 0);
    uint16_t list[4] = {0, 2, 1, 3};
    uint8_t marks[4] = {0, 0, 1, 0}, bytes[16];
    expect(mardiskos_write_sheet(NULL, 0, NULL, 0, 2, 0, false, NULL, 0).code == no_room, "sheet, nothing at all");
    expect(mardiskos_write_sheet(list, 4, marks, 4, 2, 10, true, NULL, 0).code == no_room, "sheet, no bytes lent");
    expect(mardiskos_write_sheet(list, 4, NULL, 0, 2, 10, true, bytes, sizeof bytes).bytes == 13, "sheet, no marks");
    mardiskos_sheet sheet = mardiskos_read_sheet(bytes, 13, list, 4, marks, 4);
    expect(sheet.code == 0 && sheet.edition == 2 && list[3] == 3 && all_zero(marks, 4), "sheet without marks, read");
    expect(mardiskos_write_sheet(list, 4, NULL, 0, 1, 10, true, bytes, sizeof bytes).bytes == 12, "sheet of edition 1, no marks");
    sheet = mardiskos_read_sheet(bytes, 12, list, 4, NULL, 0);
    expect(sheet.code == no_room && sheet.edition == 0 && list[0] == 65535, "sheet of edition 1 read, no mark area");
    for (uint32_t edition = 0; edition < 4; edition++) {
        expect(mardiskos_write_sheet(NULL, 0, marks, 4, edition, 5, true, bytes, sizeof bytes).bytes == 7, "sheet, no list");
        sheet = mardiskos_read_sheet(bytes, 7, NULL, 0, NULL, 0);
        expect(sheet.code == 0 && sheet.steps == 0 && sheet.cost == 5 && sheet.real, "empty sheet read, no list");
        expect(sheet.edition == (edition == 1 ? 1u : 2u), "empty sheet read, edition");
    }
    memset(marks, 255, sizeof marks);
    expect(mardiskos_read_sheet(NULL, 0, list, 4, marks, 4).code == wrong, "sheet, no bytes");
    expect(list[3] == 65535 && all_zero(marks, 4), "sheet, no bytes: list and marks");
    expect(mardiskos_read_sheet(NULL, 0, NULL, 0, NULL, 0).code == wrong, "sheet read, nothing at all");
}

int main(void)
{
    words();
    null_records();
    null_lists();
    null_plans();
    null_sheets();
    printf("mardiskos %s: %d tried, %d failed\n", MARDISKOS_VERSION, tried, failed);
    return failed == 0 && fflush(stdout) == 0 ? 0 : 1;
}
