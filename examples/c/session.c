/* Makes two objects, links them, adds and withdraws, and compares, by libv7. */
#include <stdio.h>
#include <string.h>

#include "v7.h"

enum { ROOM = 256 };

struct linked {
    uint32_t status;
    struct v7_result result;
    unsigned char file[ROOM], report[ROOM];
};

/* what a session of the first object shows */
static const char first_state[] =
    "{\"objects\":1,\"text\":[{\"offset\":0,\"value\":5568,\"pc\":false,\"target\":\"number\"},"
    "{\"offset\":2,\"value\":4,\"pc\":false,\"target\":\"number\"},{\"offset\":4,\"value\":2551,\"pc\":false,\"target\":\"number\"},"
    "{\"offset\":6,\"value\":65528,\"pc\":true,\"target\":\"external\",\"name\":\"_half\"}],\"data\":[],\"bss\":0,"
    "\"externals\":[{\"name\":\"_half\",\"state\":\"undefined\",\"value\":0}],\"multiples\":[],\"marks\":[]}";

/* mov $4,r0; jsr pc,_half */
static const struct v7_word main_text[] = {{012700, 0}, {4, 0}, {004767, 0}, {0177770, V7_REFERS_TO(1) + V7_FROM_PC}};
static const struct v7_symbol main_symbols[] = {{"start", V7_TEXT, 0}, {"_half", V7_UNDEFINED + V7_EXTERNAL, 0}};

/* asr r0; rts pc; and a word of data that holds the address of the first */
static const struct v7_word half_text[] = {{006200, V7_NUMBER}, {000207, V7_NUMBER}};
static const struct v7_word half_data[] = {{0, V7_IN_TEXT}};
static const struct v7_symbol half_symbols[] = {{"_half", V7_TEXT + V7_EXTERNAL, 0}};

static int failed;

static void same(const char *name, int is_same)
{
    printf("%s: %s\n", name, is_same ? "as wanted" : "other than wanted");
    if (!is_same)
        failed = 1;
}

static int alike(const struct linked *a, const struct linked *b)
{
    return a->status == b->status && a->result.fault == b->result.fault && a->result.file_size == b->result.file_size &&
           a->result.report_size == b->result.report_size && memcmp(a->file, b->file, a->result.file_size) == 0 &&
           memcmp(a->report, b->report, a->result.report_size) == 0;
}

/* the link of what the session keeps, or without one of the objects */
static void run(struct v7_session *session, const struct v7_slice *objects, size_t count, struct linked *to)
{
    struct v7_request request = {.size = sizeof request, .wants = V7_REPORT, .objects = objects, .object_count = count};
    struct v7_result result = {.size = sizeof result, .file = to->file, .file_room = ROOM, .report = to->report, .report_room = ROOM};

    to->status = session ? v7_session_link(session, &request, &result) : v7_run(&request, &result);
    to->result = result;
}

/* whether the session shows this */
static int shows(struct v7_session *session, const char *state)
{
    unsigned char room[2 * ROOM];
    struct v7_answer answer;

    return v7_session_state(session, room, sizeof room, &answer) == 0 && answer.size == strlen(state) && memcmp(room, state, answer.size) == 0;
}

int main(void)
{
    unsigned char first[ROOM], second[ROOM];
    struct v7_slice objects[2] = {{first, 0}, {second, 0}};
    struct v7_answer answer;
    struct v7_counts counts;
    struct v7_word text[4], data[1];
    struct v7_symbol symbols[2];
    struct linked both, alone, kept;
    struct v7_session session = {0};

    same("the first is made", v7_make(main_text, 4, half_data, 0, 0, main_symbols, 2, first, ROOM, &answer) == 0);
    objects[0].size = answer.size;
    same("the second is made", v7_make(half_text, 2, half_data, 1, 0, half_symbols, 1, second, ROOM, &answer) == 0);
    objects[1].size = answer.size;
    same("taken apart", v7_take_apart(first, objects[0].size, text, 4, data, 1, symbols, 2, &counts, &answer) == 0 &&
                            counts.text == 4 && counts.data == 0 && counts.bss == 0 && counts.symbols == 2 &&
                            memcmp(text, main_text, sizeof main_text) == 0 &&
                            memcmp(symbols, main_symbols, sizeof main_symbols) == 0);
    run(NULL, objects, 2, &both);
    same("nothing to report", both.status == 0 && both.result.report_size == 0);
    run(NULL, objects, 1, &alone);
    same("a name that is not there", alone.status == 1 && alone.result.report_size == 17 &&
                                         memcmp(alone.report, "Undefined:\n_half\n", 17) == 0);
    same("begun", v7_session_new(&session, NULL, 0, &answer) == 0);
    same("one is there", v7_session_add(&session, first, objects[0].size, &answer) == 0 && shows(&session, first_state));
    same("two are there", v7_session_add(&session, second, objects[1].size, &answer) == 0);
    run(&session, NULL, 0, &kept);
    same("linked", alike(&kept, &both));
    same("cut short", v7_session_add(&session, first, 20, &answer) == 2 && answer.fault == V7_TRUNCATED);
    same("withdrawn", v7_session_withdraw(&session, &answer) == 0);
    run(&session, NULL, 0, &kept);
    same("linked as before", alike(&kept, &alone) && shows(&session, first_state));
    same("nothing left", v7_session_withdraw(&session, &answer) == 0 && v7_session_withdraw(&session, &answer) == 2 && answer.fault == V7_NOTHING);
    same("ended", v7_session_free(&session) == 0 && v7_session_withdraw(&session, &answer) == 2 && answer.fault == V7_NO_SESSION);
    return failed;
}
