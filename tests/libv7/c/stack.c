/* Makes each call of libv7 in a thread with 32,768 bytes of stack, with an object at its limits and with a list of 200 objects. A call
 * that needs more ends the program at the guard page. tests/libv7/library.sh compiles and runs it. */
#include <pthread.h>
#include <stdio.h>
#include <stdlib.h>

#include "v7.h"

enum { STACK = 32768, WORDS = 32767, SYMBOLS = 5461, COUNT = 200, ROOM = 1 << 23 };

static struct v7_word text[WORDS], data[WORDS];
static struct v7_symbol symbols[SYMBOLS];
static struct v7_slice slices[COUNT];
static struct v7_finding findings[SYMBOLS];
static struct v7_finding_place places[SYMBOLS];
static struct v7_place fits[WORDS + 1];
static unsigned char objects[ROOM], room[ROOM], more[ROOM];
static size_t objects_size, count;
static struct v7_answer answer;
static unsigned calls, results;

static void called(uint32_t status)
{
    calls++;
    results += status != 2;
}

static struct v7_result rooms(void)
{
    struct v7_result result = {.size = sizeof result, .file = room, .file_room = ROOM, .report = more, .report_room = ROOM,
                               .findings = findings, .finding_room = SYMBOLS, .places = places, .place_room = SYMBOLS};

    return result;
}

/* the link with its map, by two calls: for how many records there are, and for them */
static void run(uint32_t options)
{
    struct v7_request request = {sizeof request, options, V7_REPORT | V7_FINDINGS | V7_PLACES | V7_MAP, {0, 0}, {0, 0}, slices, count};
    struct v7_result result = rooms();
    struct v7_map *map = &result.map;

    v7_run(&request, &result);
    map->objects = malloc((map->object_room = map->object_count) * sizeof *map->objects);
    map->names = malloc((map->name_room = map->name_count) * sizeof *map->names);
    map->uses = malloc((map->use_room = map->use_count) * sizeof *map->uses);
    map->limits = malloc((map->limit_room = map->limit_count) * sizeof *map->limits);
    called(v7_run(&request, &result));
    free(map->objects);
    free(map->names);
    free(map->uses);
    free(map->limits);
}

/* a session of the same objects */
static void keep(void)
{
    struct v7_session session = {0, NULL};
    struct v7_request request = {.size = sizeof request, .wants = V7_REPORT | V7_FINDINGS};
    struct v7_result result = rooms();
    size_t i;

    called(v7_session_new(&session, NULL, 0, &answer));
    for (i = 0; i < count; i++)
        if (v7_session_add(&session, slices[i].bytes, slices[i].size, &answer) != 0)
            exit(3);
    called(v7_session_link(&session, &request, &result));
    called(v7_session_state(&session, room, ROOM, &answer));
    called(v7_session_withdraw(&session, &answer));
    called(v7_session_free(&session));
}

static void *call_all(void *unused)
{
    struct v7_counts counts;
    struct v7_header header;
    uint32_t option;

    called(v7_check(objects, objects_size, &answer));
    called(v7_strip(objects, objects_size, room, ROOM, &answer));
    called(v7_nm(V7_NM_BY_VALUE, objects, objects_size, room, ROOM, &answer));
    called(v7_size(objects, objects_size, room, ROOM, &answer));
    called(v7_disassemble(objects, objects_size, room, ROOM, &answer));
    called(v7_list(objects, objects_size, more, ROOM, &answer));
    called(v7_from_listing(more, answer.size, room, ROOM, &answer));
    called(v7_disassemble_words(0, (const uint16_t *)objects, objects_size / 2, room, ROOM, &answer));
    for (option = 0; option < 128; option = 2 * option + (option == 0))
        run(option);
    keep();
    called(v7_read(objects, objects_size, &header, text, WORDS, data, WORDS, symbols, SYMBOLS, &counts, &answer));
    called(v7_take_apart(objects, objects_size, text, WORDS, data, WORDS, symbols, SYMBOLS, &counts, &answer));
    called(v7_make(text, counts.text, data, counts.data, counts.bss, symbols, counts.symbols, room, ROOM, &answer));
    called(v7_places(objects, objects_size, objects, objects_size, fits, WORDS + 1, &answer));
    /* these two end with a fault: it is no object in GNU's form, and the remarks are made before there is no room for them */
    v7_from_gnu(0, objects, objects_size, room, ROOM, &answer);
    v7_remarks(objects, objects_size, more, 0, NULL, 0, &answer);
    return unused;
}

static void call_in_thread(void)
{
    pthread_attr_t attributes;
    pthread_t thread;

    if (pthread_attr_init(&attributes) || pthread_attr_setstacksize(&attributes, STACK) ||
        pthread_create(&thread, &attributes, call_all, NULL) || pthread_join(thread, NULL))
        exit(2);
}

/* an object with so many words that refer to its symbols in turn, appended to the objects */
static void append(size_t words, size_t names, unsigned number)
{
    size_t i;

    for (i = 0; i < words; i++) {
        text[i].value = (uint16_t)i;
        text[i].reloc = V7_REFERS_TO(i % (names < 4096 ? names : 4096));
    }
    for (i = 0; i < names; i++) {
        symbols[i].type = V7_UNDEFINED + V7_EXTERNAL;
        symbols[i].value = words < WORDS && i % 3 == 0 ? 2 : 0;
        sprintf((char *)symbols[i].name, "%x", (unsigned)(number * 20 + i) & 0xfffff);
    }
    if (v7_make(text, words, data, 0, 0, symbols, names, objects + objects_size, ROOM - objects_size, &answer) != 0)
        exit(2);
    slices[number] = (struct v7_slice){objects + objects_size, answer.size};
    objects_size += answer.size;
}

int main(void)
{
    count = 1;
    append(WORDS, SYMBOLS, 0);
    call_in_thread();
    objects_size = 0;
    for (count = 0; count < COUNT; count++)
        append(150, 25, (unsigned)count);
    call_in_thread();
    printf("%u calls, %u with a result\n", calls, results);
    return calls != 50 || results != calls;
}
