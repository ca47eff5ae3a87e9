/* Links objects by libv7: link OUT OBJECT... does what v7 ld -o OUT OBJECT... does, with fewer words for its faults. */
#include <stdio.h>
#include <stdlib.h>

#include "v7.h"

/* Reads the bytes of a file, and shows its sizes. */
static int read_object(const char *path, struct v7_slice *object)
{
    unsigned char *bytes = NULL, *grown, line[128];
    struct v7_answer answer;
    size_t size = 0, n;
    FILE *file = fopen(path, "rb");

    if (!file)
        return 0;
    do {
        if (!(grown = realloc(bytes, size + 4096)))
            return 0;
        bytes = grown;
        n = fread(bytes + size, 1, 4096, file);
        size += n;
    } while (n > 0);
    fclose(file);
    if (v7_size(bytes, size, line, sizeof line, &answer) == 0)
        printf("%s: %.*s", path, (int)answer.size, (char *)line);
    object->bytes = bytes;
    object->size = size;
    return 1;
}

/* Links the objects into buffers of the sizes that the first call asks for. */
static uint32_t link_objects(const struct v7_slice *objects, size_t count, struct v7_result *result)
{
    struct v7_request request = {.size = sizeof request, .wants = V7_REPORT, .objects = objects, .object_count = count};
    uint32_t status = v7_run(&request, result);

    if (result->fault != V7_NO_ROOM)
        return status;
    result->file_room = result->file_size;
    result->report_room = result->report_size;
    result->file = malloc(result->file_room + 1);
    result->report = malloc(result->report_room + 1);
    return result->file && result->report ? v7_run(&request, result) : 2;
}

int main(int argc, char **argv)
{
    struct v7_result result = {.size = sizeof result};
    struct v7_slice *objects;
    uint32_t status;
    FILE *out;
    int i;

    if (argc < 3) {
        fprintf(stderr, "usage: link OUT OBJECT...\n");
        return 2;
    }
    if (!(objects = malloc((size_t)argc * sizeof *objects)))
        return 2;
    for (i = 2; i < argc; i++)
        if (!read_object(argv[i], &objects[i - 2])) {
            perror(argv[i]);
            return 2;
        }
    status = link_objects(objects, (size_t)argc - 2, &result);
    for (i = 2; i < argc; i++)
        free((void *)objects[i - 2].bytes);
    free(objects);
    if (result.fault) {
        fprintf(stderr, "object %zu: %s, word %u\n", result.place, v7_strerror(result.fault), (unsigned)result.word);
        return (int)status;
    }
    if (!(out = fopen(argv[1], "wb"))) {
        perror(argv[1]);
        return 2;
    }
    fwrite(result.file, 1, result.file_size, out);
    fclose(out);
    fwrite(result.report, 1, result.report_size, stdout);
    free(result.file);
    free(result.report);
    return (int)status;
}
