/* The shortest link by libv7: short OBJECT... links at most 16 objects, and the program goes to standard output. */
#include <stdio.h>
#include <v7.h>

int main(int argc, char **argv)
{
    static unsigned char bytes[16][1 << 18], program[1 << 18], report[1 << 20];
    struct v7_slice objects[16];
    struct v7_request request = {.size = sizeof request, .wants = V7_REPORT, .objects = objects};
    struct v7_result result = {.size = sizeof result, .file = program, .file_room = sizeof program, .report = report, .report_room = sizeof report};

    for (int i = 0; i < 16 && i + 1 < argc; i++) {
        FILE *file = fopen(argv[i + 1], "rb");
        objects[request.object_count++] = (struct v7_slice){bytes[i], file ? fread(bytes[i], 1, sizeof *bytes, file) : 0};
    }
    uint32_t status = v7_run(&request, &result);
    if (status == 2)
        return fprintf(stderr, "object %zu: %s\n", result.place, v7_strerror(result.fault)), 2;
    fwrite(report, 1, result.report_size, stderr);
    fwrite(program, 1, result.file_size, stdout);
    return (int)status;
}
