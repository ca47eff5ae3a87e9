/* Makes each call of libv7 as v7.h describes it. What a call reads ends at a page that may not be touched, and may not be written; so does
 * what it writes. The linker's option --wrap sends the library's calls of malloc, realloc and free here, where requests for memory are
 * counted and refused. tests/libv7/library.sh compiles and runs it; tests/libv7/library.py has an input for each fault. */
#define _DEFAULT_SOURCE
#include <stddef.h>
#include <stdio.h>
#include <stdlib.h>
#include <string.h>
#include <sys/mman.h>

#include "v7.h"

enum { PAGE = 4096, FILLER = 0xa5 };

static unsigned compared, failures;

static void is(int is_right, const char *call, const char *what)
{
    compared++;
    if (!is_right) {
        failures++;
        printf("%s: %s: wrong\n", call, what);
    }
}

/* ---- memory: requests from one number to another, counted from 1, are refused */

static size_t requests, refused_from, refused_to, held;

static void refuse(size_t from, size_t to)
{
    refused_from = from;
    refused_to = to;
}

void *__real_malloc(size_t size);
void *__real_realloc(void *old, size_t size);
void __real_free(void *old);
void *__wrap_malloc(size_t size);
void *__wrap_realloc(void *old, size_t size);
void __wrap_free(void *old);

static int is_refused(void)
{
    requests++;
    return refused_from <= requests && requests <= refused_to;
}

void *__wrap_malloc(size_t size)
{
    void *made = is_refused() ? NULL : __real_malloc(size);

    held += made != NULL;
    return made;
}

void *__wrap_realloc(void *old, size_t size)
{
    void *made = is_refused() ? NULL : __real_realloc(old, size);

    held += made != NULL && old == NULL;
    return made;
}

void __wrap_free(void *old)
{
    held -= old != NULL;
    __real_free(old);
}

/* ---- pages, each between two that may not be touched */

enum { INPUTS = 4, ROOMS = 6 };

static unsigned char *inputs[INPUTS], *rooms[ROOMS], *asking, *answering, *keeping, filled[PAGE];

static unsigned char *new_page(void)
{
    unsigned char *all = mmap(NULL, 3 * PAGE, PROT_NONE, MAP_PRIVATE | MAP_ANONYMOUS, -1, 0);

    if (all == MAP_FAILED || mprotect(all + PAGE, PAGE, PROT_READ | PROT_WRITE))
        exit(2);
    return all + PAGE;
}

static void make_pages(void)
{
    int i;

    for (i = 0; i < INPUTS; i++)
        inputs[i] = new_page();
    for (i = 0; i < ROOMS; i++)
        rooms[i] = new_page();
    asking = new_page();
    answering = new_page();
    keeping = new_page();
    memset(filled, FILLER, PAGE);
}

/* so many bytes at the end of a page, which is filled up */
static void *room_in(unsigned char *page, size_t size)
{
    memset(page, FILLER, PAGE);
    return page + PAGE - size;
}

/* a copy at the end of a page, which may not be written then */
static const void *input_in(unsigned char *page, const void *bytes, size_t size)
{
    if (mprotect(page, PAGE, PROT_READ | PROT_WRITE))
        exit(2);
    if (size > 0)
        memcpy(page + PAGE - size, bytes, size);
    if (mprotect(page, PAGE, PROT_READ))
        exit(2);
    return page + PAGE - size;
}

/* whether a room of this size begins with these bytes, and nothing else of its page is written */
static int has_alone(const unsigned char *page, size_t room, const void *bytes, size_t size)
{
    const unsigned char *at = page + PAGE - room;

    return (size == 0 || memcmp(at, bytes, size) == 0) && memcmp(page, filled, PAGE - room) == 0 && memcmp(at + size, filled, room - size) == 0;
}

/* ---- calls by one form */

enum call {
    CHECK,
    STRIP,
    NM,
    SIZE,
    DISASSEMBLE,
    LIST,
    READ,
    TAKE_APART,
    FROM_LISTING,
    FROM_GNU,
    REMARKS,
    PLACES,
    DISASSEMBLE_WORDS,
    MAKE,
    LINK,
    FINDINGS,
    SESSION,
    STATE,
    CALLS
};

/* so many items of this size */
struct span {
    const void *at;
    size_t count, unit;
};

/* A call: OPTIONS, FORM, BSS or ADDRESS, what it reads and how many items its rooms have, each in the order of the parameters, and what
 * it answers and leaves in its rooms. LINK and FINDINGS are calls of v7_run: with its report as lines, or as a list and the objects
 * of that. SESSION and STATE keep a session of the objects, and link it or show its state. */
struct request {
    const char *name;
    enum call call;
    uint32_t option;
    struct span in[3];
    size_t room[3];
    uint32_t status;
    struct v7_answer answer;
    struct span out[3];
    struct v7_counts counts;
    struct v7_header header;
};

static struct v7_answer answer;
static struct v7_counts counts;
static struct v7_header header;

/* what a link or a session is asked for: the entry point, forced names and objects */
static const struct v7_request *asked(const struct request *r, const void *const *in)
{
    struct v7_request request = {.size = sizeof request, .options = r->option, .wants = r->call == FINDINGS ? V7_FINDINGS | V7_PLACES : V7_REPORT};

    request.entry = (struct v7_slice){in[0], r->in[0].count};
    request.forced = (struct v7_slice){in[1], r->in[1].count};
    request.objects = in[2];
    request.object_count = r->in[2].count;
    return input_in(asking, &request, sizeof request);
}

/* the link of the objects, or of a session that keeps them, by the shortest result that it may have; with the result as an answer */
static uint32_t run(const struct request *r, const struct v7_request *request, struct v7_session *session, void *const *room)
{
    size_t size = r->call == FINDINGS ? offsetof(struct v7_result, map) : offsetof(struct v7_result, finding_count);
    struct v7_result all = {.size = size, .file = room[0], .file_room = r->room[0]}, *result = room_in(answering, size);
    uint32_t status;

    if (r->call == FINDINGS) {
        all.findings = room[1];
        all.finding_room = r->room[1];
        all.places = room[2];
        all.place_room = r->room[2];
    } else {
        all.report = room[1];
        all.report_room = r->room[1];
    }
    memcpy(result, &all, size);
    status = session ? v7_session_link(session, request, result) : v7_run(request, result);
    answer = (struct v7_answer){result->fault, result->word, result->place, result->file_size, r->call == FINDINGS ? result->finding_count : result->report_size};
    return status;
}

/* a session of the objects, up to a fault, whose place is the number of the object; and its link or its state */
static uint32_t keep(const struct request *r, const struct v7_request *request, void *const *room)
{
    struct v7_session *session = memset(room_in(keeping, sizeof *session), 0, sizeof *session);
    uint32_t status = v7_session_new(session, request->forced.bytes, request->forced.size, &answer);
    size_t i;

    for (i = 0; i < request->object_count && status == 0; i++) {
        status = v7_session_add(session, request->objects[i].bytes, request->objects[i].size, &answer);
        answer.place += i;
    }
    if (status == 0)
        status = r->call == SESSION ? run(r, request, session, room) : v7_session_state(session, room[0], r->room[0], &answer);
    v7_session_free(session);
    return status;
}

static uint32_t call(const struct request *r, const void *const *in, void *const *room)
{
    const size_t size = r->in[0].count, *most = r->room;

    switch (r->call) {
    case CHECK:
        return v7_check(in[0], size, &answer);
    case STRIP:
        return v7_strip(in[0], size, room[0], most[0], &answer);
    case NM:
        return v7_nm(r->option, in[0], size, room[0], most[0], &answer);
    case SIZE:
        return v7_size(in[0], size, room[0], most[0], &answer);
    case DISASSEMBLE:
        return v7_disassemble(in[0], size, room[0], most[0], &answer);
    case LIST:
        return v7_list(in[0], size, room[0], most[0], &answer);
    case READ:
        return v7_read(in[0], size, &header, room[0], most[0], room[1], most[1], room[2], most[2], &counts, &answer);
    case TAKE_APART:
        return v7_take_apart(in[0], size, room[0], most[0], room[1], most[1], room[2], most[2], &counts, &answer);
    case FROM_LISTING:
        return v7_from_listing(in[0], size, room[0], most[0], &answer);
    case FROM_GNU:
        return v7_from_gnu(r->option, in[0], size, room[0], most[0], &answer);
    case REMARKS:
        return v7_remarks(in[0], size, room[0], most[0], room[1], most[1], &answer);
    case PLACES:
        return v7_places(in[0], size, in[1], r->in[1].count, room[0], most[0], &answer);
    case DISASSEMBLE_WORDS:
        return v7_disassemble_words((uint16_t)r->option, in[0], size, room[0], most[0], &answer);
    case MAKE:
        return v7_make(in[0], size, in[1], r->in[1].count, r->option, in[2], r->in[2].count, room[0], most[0], &answer);
    case LINK:
    case FINDINGS:
        return run(r, asked(r, in), NULL, room);
    default:
        return keep(r, asked(r, in), room);
    }
}

/* the status of the call, with all that it may write to filled up before */
static uint32_t status_of(const struct request *r)
{
    const void *in[3];
    void *room[3];
    int i;

    for (i = 0; i < 3; i++) {
        in[i] = r->in[i].at ? input_in(inputs[i], r->in[i].at, r->in[i].count * r->in[i].unit) : NULL;
        room[i] = r->out[i].unit ? room_in(rooms[i], r->room[i] * r->out[i].unit) : NULL;
    }
    memset(&answer, FILLER, sizeof answer);
    memset(&counts, FILLER, sizeof counts);
    memset(&header, FILLER, sizeof header);
    requests = 0;
    return call(r, in, room);
}

/* The call has to answer this, and to give its memory back; with a fault it writes nothing. */
static void expect(const char *what, const struct request *r)
{
    const struct v7_answer *a = &r->answer;
    int is_right = status_of(r) == r->status && held == 0, i;

    for (i = 0; i < 3; i++)
        is_right &= !r->out[i].unit || has_alone(rooms[i], r->room[i] * r->out[i].unit, r->out[i].at, a->fault ? 0 : r->out[i].count * r->out[i].unit);
    is_right &= answer.fault == a->fault && answer.word == a->word && answer.place == a->place && answer.size == a->size && answer.report_size == a->report_size;
    if (r->call == READ)
        is_right &= memcmp(&header, &r->header, sizeof header) == 0;
    if (r->call == READ || r->call == TAKE_APART)
        is_right &= memcmp(&counts, &r->counts, offsetof(struct v7_counts, bss) + sizeof counts.bss) == 0;
    is(is_right, r->name, what);
}

/* The call has to have this fault, and no sizes. */
static void expect_fault(const char *what, const struct request *r, uint32_t fault, size_t place)
{
    struct request other = *r;

    other.status = 2;
    other.answer = (struct v7_answer){fault, 0, place, 0, 0};
    memset(&other.counts, 0, sizeof other.counts);
    memset(&other.header, 0, sizeof other.header);
    expect(what, &other);
}

/* ---- for each call one that gives something: an object, which calls _f and has two symbols, and another that defines _f */

#define W(n) (n) & 255, (n) >> 8
#define NAME(a, b) a, b, 0, 0, 0, 0, 0, 0
#define CONTENTS W(04767), W(0177774), W(0207), W(7)
#define OBJECT                                                                                                          \
    W(0407), W(6), W(2), W(4), W(24), W(0), W(0), W(0), CONTENTS, W(0), W(011), W(0), W(0), NAME('_', 'f'), W(040), W(0), \
        NAME('L', '1'), W(2), W(0)

static const unsigned char object[] = {OBJECT}, more[] = {OBJECT, 1, 2, 3, 4, 5};
static const unsigned char definition[] = {W(0407), W(4), W(0), W(0), W(12), W(0), W(0), W(0), W(0240), W(0207), W(0), W(0), NAME('_', 'f'), W(042), W(2)};
static const unsigned char stripped[] = {W(0407), W(6), W(2), W(4), W(0), W(0), W(0), W(1), CONTENTS};
static const unsigned char linked[] = {W(0407), W(10), W(2), W(4), W(24), W(8), W(0), W(1), W(04767), W(4), W(0207), W(0240), W(0207), W(7),
                                       NAME('_', 'x'), W(040), W(0), NAME('_', 'f'), W(042), W(8)};
/* a return and a 7, and a program in which the return may be either of two; the data is at 4 */
static const unsigned char returning[] = {W(0407), W(2), W(2), W(0), W(0), W(0), W(0), W(0), W(0207), W(7), W(0), W(0)};
static const unsigned char returns[] = {W(0407), W(4), W(2), W(0), W(0), W(0), W(0), W(1), W(0207), W(0207), W(7)};
static const struct v7_place fits[] = {{0, 4, 1}, {2, 4, 1}};
/* its strings begin with their length, 10, the high word first; L1 is at 4, and _f at 7 */
static const unsigned char gnu_object[] = {W(0407), W(6), W(2), W(4), W(16), W(0), W(0), W(0), CONTENTS, W(0), W(011), W(0), W(0),
                                           W(0), W(7), W(040), W(0), W(0), W(4), W(2), W(0), W(0), W(10), 'L', '1', 0, '_', 'f', 0};
static const struct v7_slice both[] = {{more, sizeof more}, {definition, sizeof definition}};
/* _f is defined twice */
static const struct v7_slice twice[] = {{definition, sizeof definition}, {definition, sizeof definition}};
static const unsigned char linked_twice[] = {W(0407), W(8), W(0), W(0), W(0), W(2), W(0), W(1), W(0240), W(0207), W(0240), W(0207)};
static const struct v7_finding findings[] = {{"_f", V7_MULTIPLY_DEFINED}, {"_x", V7_UNDEFINED_NAME}};
static const struct v7_finding_place places[] = {{0, 1}, {SIZE_MAX, SIZE_MAX}};
static const struct v7_word text[] = {{04767, V7_NUMBER}, {0177774, V7_REFERS_TO(0) + V7_FROM_PC}, {0207, V7_NUMBER}}, data[] = {{7, V7_NUMBER}};
static const struct v7_symbol symbols[] = {{"_f", V7_UNDEFINED + V7_EXTERNAL, 0}, {"L1", V7_TEXT, 0}};
static const struct v7_word linked_text[] = {{04767, 0}, {4, 0}, {0207, 0}, {0240, 0}, {0207, 0}};
static const struct v7_symbol linked_symbols[] = {{"_x", V7_UNDEFINED + V7_EXTERNAL, 0}, {"_f", V7_TEXT + V7_EXTERNAL, 8}};
/* the address after the first instruction is 0 */
static const uint16_t at_end[] = {0401, 012767, 0177777, 0};
static const char instructions[] = "L1:\n"
                                   "000000  004767 177774         jsr pc,_f\n"
                                   "000004  000207                rts pc\n";
static const char plain[] = "177776  000401                br 2\n"
                            "000000  012767 177777 000000  mov $177777,6\n";
static const char listing[] = "text\n"
                              "L1:\n"
                              "000000  004767     0  jsr pc,_f\n"
                              "000002  177774    11\n"
                              "000004  000207     0  rts pc\n"
                              "data\n"
                              "000006  000007     0\n"
                              "bss 4\n"
                              "symbols\n"
                              "0     _f         40  000000  U\n"
                              "1     L1          2  000000  t\n"
                              "end\n";
static const char remark_text[] = "05 (5) bytes after the symbol table are not read";
static const struct v7_remark remarks[] = {{56, 0, sizeof remark_text - 1, V7_REMARK_BYTES_AFTER_TABLE, 0, 0}};
static const char state[] = "{\"objects\":2,\"text\":[{\"offset\":0,\"value\":2551,\"pc\":false,\"target\":\"number\"},"
                            "{\"offset\":2,\"value\":4,\"pc\":true,\"target\":\"text\"},"
                            "{\"offset\":4,\"value\":135,\"pc\":false,\"target\":\"number\"},"
                            "{\"offset\":6,\"value\":160,\"pc\":false,\"target\":\"number\"},"
                            "{\"offset\":8,\"value\":135,\"pc\":false,\"target\":\"number\"}],"
                            "\"data\":[{\"offset\":0,\"value\":7,\"pc\":false,\"target\":\"number\"}],\"bss\":4,"
                            "\"externals\":[{\"name\":\"_x\",\"state\":\"undefined\",\"value\":0},"
                            "{\"name\":\"_f\",\"state\":\"text\",\"value\":8}],\"multiples\":[],"
                            "\"marks\":[{\"name\":\"_f\",\"was\":{\"state\":\"undefined\",\"value\":0}},"
                            "{\"segment\":\"text\",\"offset\":2,\"was\":{\"value\":65532,\"pc\":true,"
                            "\"target\":\"external\",\"name\":\"_f\"}}]}";

#define STRING(s) {s, sizeof s - 1, 1}
#define ITEMS(a) {a, sizeof a / sizeof *a, sizeof *a}
#define FORCED STRING("_x\0\0\0\0\0\0")
#define REPORT STRING("Undefined:\n_x\n")
#define LINKED(n) .answer = {0, 0, 0, 52, n}
#define LENGTH(s) .room = {sizeof s - 1}, .answer = {.size = sizeof s - 1}, .out = {STRING(s)}
#define SIZED(a) .room = {sizeof a}, .answer = {.size = sizeof a}, .out = {ITEMS(a)}

static const struct request good[CALLS] = {
    {"v7_check", CHECK, 0, {ITEMS(more)}, .answer = {.size = sizeof object}},
    {"v7_strip", STRIP, 0, {ITEMS(more)}, SIZED(stripped)},
    {"v7_nm", NM, V7_NM_REVERSE, {ITEMS(more)}, LENGTH("       U _f\n000000 t L1\n")},
    {"v7_size", SIZE, 0, {ITEMS(more)}, LENGTH("6+2+4 = 12b = 014b\n")},
    {"v7_disassemble", DISASSEMBLE, 0, {ITEMS(more)}, LENGTH(instructions)},
    {"v7_list", LIST, 0, {ITEMS(more)}, LENGTH(listing)},
    {"v7_read", READ, 0, {ITEMS(linked)}, {5, 1, 2}, .out = {ITEMS(linked_text), ITEMS(data), ITEMS(linked_symbols)}, .counts = {5, 1, 2, 4},
     .header = {0407, 10, 2, 4, 24, 8, 0, 1}},
    {"v7_take_apart", TAKE_APART, 0, {ITEMS(more)}, {3, 1, 2}, .out = {ITEMS(text), ITEMS(data), ITEMS(symbols)}, .counts = {3, 1, 2, 4}},
    {"v7_from_listing", FROM_LISTING, 0, {STRING(listing)}, SIZED(object)},
    {"v7_from_gnu", FROM_GNU, V7_DROP_DEBUGGER, {ITEMS(gnu_object)}, SIZED(object)},
    {"v7_remarks", REMARKS, 0, {ITEMS(more)}, {sizeof remark_text - 1, 1}, .answer = {0, 0, 0, sizeof remark_text - 1, 1},
     .out = {STRING(remark_text), ITEMS(remarks)}},
    {"v7_places", PLACES, 0, {ITEMS(returns), ITEMS(returning)}, {2}, .answer = {.size = 2}, .out = {ITEMS(fits)}},
    {"v7_disassemble_words", DISASSEMBLE_WORDS, 0177776, {ITEMS(at_end)}, LENGTH(plain)},
    {"v7_make", MAKE, 4, {ITEMS(text), ITEMS(data), ITEMS(symbols)}, SIZED(object)},
    {"v7_run", LINK, V7_NOT_L, {STRING("_f"), FORCED, ITEMS(both)}, {52, 14}, 1, LINKED(14), .out = {ITEMS(linked), REPORT}},
    {"v7_run for findings", FINDINGS, V7_STRIP, {STRING("_f"), FORCED, ITEMS(twice)}, {24, 2, 2}, 1, .answer = {0, 0, 0, 24, 2},
     .out = {ITEMS(linked_twice), ITEMS(findings), ITEMS(places)}},
    {"v7_session_link", SESSION, V7_NOT_L, {STRING("_f"), FORCED, ITEMS(both)}, {52, 14}, 1, LINKED(14), .out = {ITEMS(linked), REPORT}},
    {"v7_session_state", STATE, 0, {STRING(""), FORCED, ITEMS(both)}, LENGTH(state)},
};

/* a room that is too small by one, and rooms of size 0 */
static void check_rooms(const struct request *r)
{
    struct request none = *r;
    int i;

    none.status = 2;
    none.answer.fault = V7_NO_ROOM;
    for (i = 0; i < 3 && r->room[i] > 0; i++) {
        struct request short_one = none;

        memcpy(short_one.room, r->room, sizeof r->room);
        short_one.room[i]--;
        expect("a room too small", &short_one);
        none.room[i] = 0;
    }
    if (i > 0)
        expect("no room", &none);
}

/* Each request for memory refused, and all after it; and each alone, where the call may do with a smaller one. The place is that of an
 * object, or 0. */
static void check_memory(const struct request *r)
{
    size_t all = (status_of(r), requests), n;
    int has_place = r->call >= LINK || r->call == PLACES;

    is(all > 0, r->name, "requests for memory");
    for (n = 1; n <= all; n++) {
        refuse(n, (size_t)-1);
        status_of(r);
        expect_fault("memory refused", r, V7_NO_MEMORY, has_place && answer.place < 2 ? answer.place : 0);
        refuse(n, n);
        if (status_of(r) == r->status)
            expect("less memory", r);
        else
            expect_fault("memory refused once", r, V7_NO_MEMORY, has_place && answer.place < 2 ? answer.place : 0);
    }
    refuse(0, 0);
}

/* what is refused before memory is wanted */
static void check_without_memory(const struct request *r)
{
    static const struct v7_slice cut[] = {{object, 15}};
    struct request other = *r;

    refuse(1, (size_t)-1);
    if (r->call <= TAKE_APART || r->call == FROM_GNU || r->call == PLACES) {
        other.in[0].count = 15;
        status_of(&other);
        expect_fault("a short file", &other, V7_SHORT_HEADER, r->call == FROM_GNU ? 15 : 0);
    } else if (r->call == LINK || r->call == FINDINGS) {
        other.in[1].count = 7;
        expect_fault("forced names", &other, V7_CUT_NAMES, 0);
        other.in[1].count = 0;
        other.in[2] = (struct span){cut, 1, sizeof *cut};
        expect_fault("a short object", &other, V7_SHORT_HEADER, 0);
        other.option = V7_RELOCATABLE | V7_STRIP;
        expect_fault("options", &other, V7_EXCLUDED, 0);
    } else if (r->call == SESSION || r->call == STATE) {
        other.in[1].count = 7;
        expect_fault("forced names", &other, V7_CUT_NAMES, 0);
    }
    refuse(0, 0);
}

/* Null pointers, where there are no bytes. The link of no objects has a header alone. */
static void check_null(void)
{
    static unsigned char header_alone[16] = {W(0407)};
    struct request r = {"null pointers", MAKE, 0, {{0}}, SIZED(header_alone)};

    expect("parts", &r);
    header_alone[14] = 1;
    for (r.call = LINK; r.call <= SESSION; r.call++)
        expect("a link", &r);
    r.call = CHECK;
    r.room[0] = r.out[0].unit = 0;
    expect_fault("bytes", &r, V7_SHORT_HEADER, 0);
    r.call = DISASSEMBLE_WORDS;
    r.answer.size = 0;
    expect("words", &r);
}

/* ---- structs of each size, right before a page that may not be touched: what a struct lacks is not touched. A session has neither places
 * nor a map, and the last want stands for nothing */

enum { ANSWERED = offsetof(struct v7_result, file) };

static uint32_t link_by(struct v7_session *session, const void *request, struct v7_result *result)
{
    return session ? v7_session_link(session, request, result) : v7_run(request, result);
}

static void check_short_structs(const char *name, struct v7_session *session)
{
    static const size_t least[] = {offsetof(struct v7_result, finding_count), offsetof(struct v7_result, place_count), offsetof(struct v7_result, map),
                                   sizeof(struct v7_result)};
    struct v7_request request = {.size = sizeof request};
    struct v7_result *result;
    size_t size, there, want;

    for (want = 0; want <= 4; want++)
        for (size = 0; size <= sizeof *result; size++) {
            uint32_t fault = want == 4 ? V7_NO_WANT : session && want >= 2 ? V7_NOT_KEPT : size < least[want] ? V7_SHORT_STRUCT : V7_NO_ROOM;

            request.wants = 1u << want;
            there = size < ANSWERED ? ANSWERED : (size + 7) / 8 * 8;
            result = room_in(answering, there);
            memset(result, 0, size < sizeof size ? sizeof size : size);
            result->size = size;
            is(link_by(session, input_in(asking, &request, sizeof request), result) == 2 && result->fault == fault && result->size == size &&
                   (size < ANSWERED || memcmp((unsigned char *)result + size, filled, there - size) == 0),
               name, "a result of each size");
        }
    for (size = sizeof size; size < sizeof request; size += sizeof size) {
        request.size = size;
        result = room_in(answering, sizeof *result);
        result->size = sizeof *result;
        is(link_by(session, input_in(asking, &request, size), result) == 2 && result->fault == V7_SHORT_STRUCT, name, "a request of each size");
    }
}

/* ---- a session: what a withdrawal leaves is what was there */

static void check_session(void)
{
    struct v7_session session = {0}, other = {0};
    struct v7_request request = {.size = sizeof request, .wants = V7_REPORT, .objects = both, .object_count = 1};
    struct v7_result kept = {.size = sizeof kept}, left = {.size = sizeof left};
    static unsigned char files[2][PAGE], shown[2][PAGE];
    const char *name = "a session";

    is(v7_session_add(&session, object, sizeof object, &answer) == 2 && answer.fault == V7_NO_SESSION, name, "an addition before it");
    is(v7_session_withdraw(&session, &answer) == 2 && answer.fault == V7_NO_SESSION, name, "a withdrawal before it");
    is(v7_session_state(&session, NULL, 0, &answer) == 2 && answer.fault == V7_NO_SESSION, name, "a state before it");
    is(v7_session_link(&session, &request, &kept) == 2 && kept.fault == V7_NO_SESSION, name, "a link before it");
    is(v7_session_new(&session, NULL, 0, &answer) == 0 && session.is_open == 1, name, "its beginning");
    is(v7_session_new(&session, NULL, 0, &answer) == 2 && answer.fault == V7_SESSION_OPEN, name, "a second beginning");
    is(v7_session_withdraw(&session, &answer) == 2 && answer.fault == V7_NOTHING, name, "a withdrawal of nothing");
    check_short_structs(name, &session);
    v7_session_new(&other, NULL, 0, &answer);
    v7_session_add(&other, more, sizeof more, &answer);
    is(v7_session_add(&session, more, sizeof more, &answer) == 0, name, "an addition");
    is(v7_session_add(&session, definition, sizeof definition, &answer) == 0, name, "a second addition");
    is(v7_session_add(&session, object, 55, &answer) == 2 && answer.fault == V7_TRUNCATED && answer.place == 0, name, "an addition that is refused");
    is(v7_session_withdraw(&session, &answer) == 0, name, "a withdrawal");
    v7_session_state(&session, shown[0], PAGE, &answer);
    v7_session_state(&other, shown[1], PAGE, &answer);
    is(answer.fault == 0 && shown[0][0] == '{' && memcmp(shown[0], shown[1], PAGE) == 0, name, "the state after a withdrawal");
    kept.file = kept.report = files[0];
    left.file = left.report = files[1];
    kept.file_room = left.file_room = PAGE / 2;
    kept.report += PAGE / 2;
    left.report += PAGE / 2;
    kept.report_room = left.report_room = PAGE / 2;
    is(v7_session_link(&session, &request, &kept) == v7_run(&request, &left) && kept.fault == 0 && kept.file_size == left.file_size &&
           memcmp(files[0], files[1], PAGE) == 0,
       name, "the link after a withdrawal");
    is(v7_session_free(&session) == 0 && session.is_open == 0 && session.state == NULL && v7_session_free(&session) == 0, name, "its end");
    v7_session_free(&other);
    is(held == 0, name, "memory");
}

/* ---- a map with findings: its sizes, its records in rooms that just hold them, and a room that is too small */

static void check_map(void)
{
    struct v7_request request = {.size = sizeof request, .wants = V7_FINDINGS | V7_PLACES | V7_MAP, .forced = {(const unsigned char *)"_x\0\0\0\0\0\0", 8}, .objects = both, .object_count = 2};
    struct v7_result result = {.size = sizeof result};
    struct v7_map *map = &result.map;
    const char *name = "a map";

    is(v7_run(&request, &result) == 2 && result.fault == V7_NO_ROOM && map->object_count == 2 && map->name_count == 2 && map->use_count == 4 && map->limit_count == 6,
       name, "its sizes");
    result.file = room_in(rooms[0], result.file_room = result.file_size);
    result.findings = room_in(rooms[5], (result.finding_room = result.finding_count) * sizeof *result.findings);
    result.places = room_in(keeping, (result.place_room = result.place_count) * sizeof *result.places);
    map->objects = room_in(rooms[1], (map->object_room = map->object_count) * sizeof *map->objects);
    map->names = room_in(rooms[2], (map->name_room = map->name_count) * sizeof *map->names);
    map->uses = room_in(rooms[3], (map->use_room = map->use_count) * sizeof *map->uses);
    map->limits = room_in(rooms[4], (map->limit_room = map->limit_count) * sizeof *map->limits);
    map->limit_room--;
    is(v7_run(&request, &result) == 2 && result.fault == V7_NO_ROOM && memcmp(rooms[4], filled, PAGE) == 0 && memcmp(rooms[1], filled, PAGE) == 0, name, "a room too small");
    map->limit_room++;
    is(v7_run(&request, &result) == 1 && map->head.text_end == 10 && map->head.data_end == 12 && map->head.bss_end == 16 && map->head.magic == 0407, name, "its head");
    is(map->objects[1].text == 6 && map->objects[0].bss_size == 4 && map->names[0].definer == 1 && map->names[0].value == 8 && map->names[0].user == 0 &&
           map->names[1].state == V7_NAME_IS_PLACED + V7_NAME_IS_UNDEFINED && map->limits[0].kind == V7_LIMIT_TEXT && map->limits[0].used == 10,
       name, "its records");
    is(result.finding_count == 1 && memcmp(result.findings, findings + 1, sizeof *findings) == 0 && memcmp(result.places, places + 1, sizeof *places) == 0, name,
       "its findings");
    is(map->uses[0].kind == V7_WANTS && map->uses[1].kind == V7_TEXT_WORD && map->uses[1].address == 2 && memcmp(map->uses[1].label, "L1\0", 3) == 0 &&
           map->uses[2].kind == V7_DEFINES && map->uses[3].kind == V7_FORCES && map->uses[3].object == SIZE_MAX,
       name, "its uses");
    is(held == 0, name, "memory");
}

/* ---- bounds of a link, of which each name is reported once */

static void check_most(void)
{
    struct v7_request request = {.size = sizeof request, .wants = V7_REPORT | V7_FINDINGS, .entry = {(const unsigned char *)"_missing", 8}};
    struct v7_result result = {.size = sizeof result};

    is(v7_run(&request, &result) == 2 && result.fault == V7_NO_ROOM && result.finding_count == 1 && result.report_size == 34, "bounds", "an entry point");
    request.forced = (struct v7_slice){(const unsigned char *)"_forced1_forced2", 16};
    is(v7_run(&request, &result) == 2 && result.file_size == 16 + 12 * 2 && result.finding_count == 3 &&
           result.report_size == 34 + 11 + 2 * 9 && result.report_size <= 27 * result.finding_count + 18,
       "bounds", "undefined names");
}

int main(void)
{
    const struct request *r;

    make_pages();
    for (r = good; r < good + CALLS; r++) {
        expect("a good call", r);
        check_rooms(r);
        check_memory(r);
        check_without_memory(r);
    }
    check_null();
    check_short_structs("v7_run", NULL);
    check_session();
    check_map();
    is(v7_version() == V7_VERSION_NUMBER, "v7_version", "that of the header");
    check_most();
    printf("%u comparisons, %u failed\n", compared, failures);
    return failures != 0;
}
