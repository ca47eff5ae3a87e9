/* Calls of libv7 with bytes that libFuzzer makes. The first byte chooses a call, the next two its options; the rest is a file, a listing,
 * an object of GNU's assembler, or a list of objects, each after two bytes with its size. What is asserted of each call: status and fault
 * agree; it takes a buffer of the size that it names, and with one byte less writes nothing. And of calls together: what is stripped is
 * stripped already; a listing is read as its file; parts link as the file does; a linked file has each object at some place; a partial link
 * links as its objects do; a session links as they do afresh; what is added and withdrawn leaves its state as it was. */
#define _GNU_SOURCE
#include <stdio.h>
#include <stdlib.h>
#include <string.h>
#include <v7.h>
#define HOLDS(claim) ((claim) ? (void)0 : (fprintf(stderr, "line %d: not so: %s\n", __LINE__, #claim), abort()))

enum { MOST = 1 << 18, OBJECTS = 8 };

struct bytes {
    unsigned char *at;
    size_t size;
};

/* exactly as many bytes as there are, so that the address sanitizer sees one that is beside them */
static struct bytes copied(const void *at, size_t size)
{
    struct bytes made = {malloc(size ? size : 1), size};
    if (size) memcpy(made.at, at, size);
    return made;
}

static int equal(struct bytes one, struct bytes other)
{
    return one.size == other.size && (!one.size || !memcmp(one.at, other.at, one.size));
}

typedef uint32_t call(uint32_t options, const unsigned char *at, size_t size, unsigned char *buffer, size_t room, struct v7_answer *);

#define WITHOUT_OPTIONS(name, called)                                                                                                      \
    static uint32_t name(uint32_t o, const unsigned char *at, size_t size, unsigned char *buffer, size_t room, struct v7_answer *answer)   \
    {                                                                                                                                      \
        return (void)o, called(at, size, buffer, room, answer);                                                                           \
    }
WITHOUT_OPTIONS(strip, v7_strip)
WITHOUT_OPTIONS(sizes, v7_size)
WITHOUT_OPTIONS(disassemble, v7_disassemble)
WITHOUT_OPTIONS(list, v7_list)
WITHOUT_OPTIONS(from_listing, v7_from_listing)

static uint32_t disassemble_words(uint32_t o, const unsigned char *at, size_t size, unsigned char *buffer, size_t room,
                                  struct v7_answer *answer)
{
    struct bytes words = copied(at, size & ~(size_t)1);
    uint32_t status = v7_disassemble_words((uint16_t)o, (uint16_t *)words.at, size / 2, buffer, room, answer);
    free(words.at);
    return status;
}

/* what a call makes; no place if it refuses the bytes */
static struct bytes result(call *called, uint32_t options, struct bytes of)
{
    struct v7_answer answer;
    uint32_t status = called(options, of.at, of.size, NULL, 0, &answer);
    HOLDS(status <= 2 && (status == 2) == (answer.fault != 0) && strcmp(v7_strerror(answer.fault), "unknown fault"));
    HOLDS((answer.fault == V7_NO_ROOM) == (answer.size != 0));
    if (answer.fault && answer.fault != V7_NO_ROOM) return (struct bytes){NULL, 0};
    struct bytes made = {malloc(answer.size ? answer.size : 1), answer.size};
    if (!made.size) return made;
    memset(made.at, 0xA5, made.size);
    HOLDS(called(options, of.at, of.size, made.at, made.size - 1, &answer) == 2 && answer.fault == V7_NO_ROOM && answer.size == made.size);
    for (size_t i = 0; i < made.size; i++) HOLDS(made.at[i] == 0xA5);
    HOLDS(called(options, of.at, of.size, made.at, made.size, &answer) <= 1 && !answer.fault && answer.size == made.size);
    return made;
}

/* what a call makes of bytes is made again of what another one makes of it */
static void round_trip(call *there, call *back, struct bytes of)
{
    struct bytes first = result(there, 0, of);
    if (!first.at) return;
    struct bytes second = result(back, 0, first), third = result(there, 0, second);
    HOLDS(second.at && third.at && equal(first, third));
    free(first.at), free(second.at), free(third.at);
}

static void convert(uint32_t options, struct bytes of)
{
    struct bytes made = result(v7_from_gnu, options & 7, of);
    struct v7_answer answer;
    if (made.at) HOLDS(!v7_check(made.at, made.size, &answer) && answer.size == made.size);
    free(made.at);
}

static void remarks(struct bytes of)
{
    struct v7_answer answer;
    v7_remarks(of.at, of.size, NULL, 0, NULL, 0, &answer);
    if (answer.fault != V7_NO_ROOM) return;
    struct bytes text = {malloc(answer.size + 1), answer.size};
    size_t count = answer.report_size, at = 0;
    struct v7_remark *all = malloc((count + 1) * sizeof *all);
    HOLDS(v7_remarks(of.at, of.size, text.at, text.size, all, count, &answer) <= 1 && answer.report_size == count);
    for (size_t i = 0; i < count; at += all[i++].text_size) HOLDS(all[i].text == at && all[i].text_size && all[i].place <= of.size);
    HOLDS(at == text.size);
    free(text.at), free(all);
}

struct linked {
    struct bytes file, report;
    uint32_t status, fault;
};

/* a link of objects, or of those of a session; after a refusal there is a fault, and no file */
static struct linked link_of(const struct v7_slice *objects, size_t count, uint32_t options, struct v7_session *session)
{
    struct v7_request asked = {
        .size = sizeof asked, .options = options, .wants = V7_REPORT | V7_FINDINGS, .objects = objects, .object_count = count};
    struct v7_result came = {.size = sizeof came};
    struct linked made = {.status = session ? v7_session_link(session, &asked, &came) : v7_run(&asked, &came), .fault = came.fault};
    HOLDS(made.status <= 2 && (made.status == 2) == (came.fault != 0));
    if (came.fault != V7_NO_ROOM) return made;
    came.file = malloc((came.file_room = came.file_size) + 1);
    came.report = malloc((came.report_room = came.report_size) + 1);
    came.findings = malloc(((came.finding_room = came.finding_count) + 1) * sizeof *came.findings);
    came.places = malloc(((came.place_room = came.place_count) + 1) * sizeof *came.places);
    made.status = session ? v7_session_link(session, &asked, &came) : v7_run(&asked, &came);
    HOLDS(made.status <= 1 && !came.fault);
    free(came.findings), free(came.places);
    return (struct linked){{came.file, came.file_size}, {came.report, came.report_size}, made.status, 0};
}

static void drop(struct linked of)
{
    free(of.file.at), free(of.report.at);
}

/* a linked file has each of its objects at some place */
static void find_all(struct linked made, const struct v7_slice *objects, size_t count)
{
    struct v7_answer answer;
    for (size_t i = 0; made.file.at && i < count; i++)
        HOLDS(v7_places(made.file.at, made.file.size, objects[i].bytes, objects[i].size, NULL, 0, &answer) == 2
              && answer.fault == V7_NO_ROOM);
    drop(made);
}

/* two links are alike */
static void compare(struct linked one, struct linked other)
{
    HOLDS(one.status == other.status && one.fault == other.fault && equal(one.file, other.file) && equal(one.report, other.report));
    drop(one), drop(other);
}

/* a file and its parts link alike */
static void take_apart(uint32_t options, struct bytes of)
{
    struct v7_counts counts;
    struct v7_answer answer;
    v7_take_apart(of.at, of.size, NULL, 0, NULL, 0, NULL, 0, &counts, &answer);
    if (answer.fault && answer.fault != V7_NO_ROOM) return;
    struct v7_word *text = malloc((counts.text + 1) * sizeof *text), *data = malloc((counts.data + 1) * sizeof *data);
    struct v7_symbol *symbols = malloc((counts.symbols + 1) * sizeof *symbols);
    unsigned char *made = malloc(MOST);
    HOLDS(!v7_take_apart(of.at, of.size, text, counts.text, data, counts.data, symbols, counts.symbols, &counts, &answer));
    HOLDS(!v7_make(text, counts.text, data, counts.data, counts.bss, symbols, counts.symbols, made, MOST, &answer));
    struct v7_slice whole = {of.at, of.size}, parts = {made, answer.size};
    compare(link_of(&whole, 1, options, NULL), link_of(&parts, 1, options, NULL));
    free(text), free(data), free(symbols), free(made);
}

/* what -r makes of the first two objects links with the rest as all do, if no name is defined twice; or it does not fit */
static void link_in_two_steps(uint32_t options, const struct v7_slice *objects, size_t count)
{
    if (count < 2) return;
    options &= 62;
    struct linked whole = link_of(objects, count, options, NULL), first = link_of(objects, 2, V7_RELOCATABLE, NULL);
    if (whole.status < 2 && first.status == 0 && !memmem(whole.report.at, whole.report.size, "Multiply", 8)) {
        struct v7_slice rest[OBJECTS];
        memcpy(rest, objects + 1, (count - 1) * sizeof *rest);
        rest[0] = (struct v7_slice){first.file.at, first.file.size};
        struct linked second = link_of(rest, count - 1, options, NULL);
        if (second.status < 2) compare(whole, second);
        else drop(whole);
        whole.file.at = whole.report.at = NULL;
    }
    drop(whole), drop(first);
}

static uint32_t state_call(uint32_t o, const unsigned char *session, size_t size, unsigned char *buffer, size_t room,
                           struct v7_answer *answer)
{
    return (void)size, (void)o, v7_session_state((struct v7_session *)session, buffer, room, answer);
}

static struct bytes state(struct v7_session *session)
{
    return result(state_call, 0, (struct bytes){(unsigned char *)session, 0});
}

/* a session, of which the bits of the options withdraw objects, links as the objects that are left do afresh */
static void edit(uint32_t options, const struct v7_slice *objects, size_t count)
{
    struct v7_session session = {0};
    struct v7_slice left[OBJECTS];
    struct v7_answer answer;
    size_t have = 0;
    HOLDS(!v7_session_new(&session, NULL, 0, &answer));
    for (size_t i = 0; i < count; i++) {
        struct bytes before = state(&session);
        int is_added = !v7_session_add(&session, objects[i].bytes, objects[i].size, &answer), is_kept = is_added && !(options >> i & 1);
        if (is_added && !is_kept) HOLDS(!v7_session_withdraw(&session, &answer));
        struct bytes after = state(&session);
        if (is_kept) left[have++] = objects[i];
        else HOLDS(equal(before, after));
        compare(link_of(NULL, 0, options >> 9, &session), link_of(left, have, options >> 9, NULL));
        free(before.at), free(after.at);
    }
    while (have--) HOLDS(!v7_session_withdraw(&session, &answer));
    HOLDS(v7_session_withdraw(&session, &answer) == 2 && answer.fault == V7_NOTHING);
    v7_session_free(&session);
}

static void do_list(unsigned chosen, uint32_t options, struct bytes of)
{
    struct v7_slice objects[OBJECTS];
    size_t count = 0;
    for (size_t at = 0; at + 2 <= of.size && count < OBJECTS;) {
        size_t size = (size_t)(of.at[at] | of.at[at + 1] << 8), rest = of.size - at - 2;
        struct bytes object = copied(of.at + at + 2, size < rest ? size : rest);
        objects[count++] = (struct v7_slice){object.at, object.size};
        at += 2 + object.size;
    }
    if (chosen == 0) find_all(link_of(objects, count, options & 127, NULL), objects, count);
    else if (chosen == 1) link_in_two_steps(options, objects, count);
    else edit(options, objects, count);
    while (count--) free((void *)objects[count].bytes);
}

int LLVMFuzzerTestOneInput(const uint8_t *data, size_t size)
{
    static call *const calls[] = {v7_nm, sizes, disassemble, disassemble_words};
    if (size < 3 || size > MOST) return 0;
    uint32_t options = data[1] | (uint32_t)data[2] << 8;
    unsigned chosen = data[0] % 13;
    struct bytes of = copied(data + 3, size - 3);
    switch (chosen) {
    case 4: round_trip(strip, strip, of); break;
    case 5: round_trip(list, from_listing, of); break;
    case 6: round_trip(from_listing, list, of); break;
    case 7: convert(options, of); break;
    case 8: remarks(of); break;
    case 9: take_apart(options & 127, of); break;
    case 10: case 11: case 12: do_list(chosen - 10, options, of); break;
    default: free(result(calls[chosen], options & (chosen == 3 ? 65535 : 31), of).at);
    }
    free(of.at);
    return 0;
}
