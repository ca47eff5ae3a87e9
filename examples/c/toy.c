/* A toy assembler that links by libv7: toy OUT FILE... assembles each FILE, or takes it as an object if its name ends with .o, and
 * links all. What is wrong with a name is reported with a place of the source.
 *
 * A line of a source is one of these, and `#` begins a comment:
 *
 *     _name:        defines a name
 *     call _name    jsr pc,_name
 *     return        rts pc
 *     value _name   a word with the address of a name
 *     12700         a word, in octal */
#include <stdio.h>
#include <stdlib.h>
#include <string.h>

#include "v7.h"

enum { MOST = 64, WORDS = 2048, NAMES = 256, BYTES = 1 << 16, FINDINGS = 256 };

/* A file: its object, and for each word and each symbol the line of the source, or 0 if there is no source. */
struct module {
    const char *path;
    unsigned char object[BYTES];
    size_t size;
    int word_lines[WORDS], symbol_lines[NAMES];
};

static struct module *modules[MOST];
static size_t module_count;

/* what the assembler has made of the source so far */
static struct v7_word text[WORDS];
static struct v7_symbol symbols[NAMES];
static size_t word_count, symbol_count;

static void stop(const char *path, int line, const char *what)
{
    if (line)
        fprintf(stderr, "%s:%d: %s\n", path, line, what);
    else
        fprintf(stderr, "%s: %s\n", path, what);
    exit(2);
}

static void put(struct module *m, int line, unsigned value, unsigned reloc)
{
    if (word_count == WORDS)
        stop(m->path, line, "too many words");
    m->word_lines[word_count] = line;
    text[word_count].value = (uint16_t)value;
    text[word_count++].reloc = (uint16_t)reloc;
}

static void put_symbol(struct module *m, int line, const char *name, unsigned type, unsigned value)
{
    if (symbol_count == NAMES)
        stop(m->path, line, "too many names");
    m->symbol_lines[symbol_count] = line;
    memset(symbols[symbol_count].name, 0, sizeof symbols->name);
    memcpy(symbols[symbol_count].name, name, strlen(name) < 8 ? strlen(name) : 8);
    symbols[symbol_count].type = (uint16_t)(type | V7_EXTERNAL);
    symbols[symbol_count++].value = (uint16_t)value;
}

/* puts a word that refers to a name: by a symbol of its own, which is undefined */
static void refer(struct module *m, int line, const char *name, unsigned value, unsigned from_pc)
{
    put(m, line, value, V7_REFERS_TO(symbol_count) + from_pc);
    put_symbol(m, line, name, V7_UNDEFINED, 0);
}

static void assemble_line(struct module *m, int line, char *source)
{
    char first[80] = "", second[80] = "";
    size_t length;

    source[strcspn(source, "#")] = '\0';
    if (sscanf(source, "%79s %79s", first, second) < 1)
        return;
    length = strlen(first);
    if (first[length - 1] == ':') {
        first[length - 1] = '\0';
        put_symbol(m, line, first, V7_TEXT, 2 * (unsigned)word_count);
    } else if (strcmp(first, "call") == 0) {
        put(m, line, 004767, V7_NUMBER);
        refer(m, line, second, -2 * ((unsigned)word_count + 1), V7_FROM_PC);
    } else if (strcmp(first, "return") == 0) {
        put(m, line, 000207, V7_NUMBER);
    } else if (strcmp(first, "value") == 0) {
        refer(m, line, second, 0, 0);
    } else if (strspn(first, "01234567") == length) {
        put(m, line, (unsigned)strtoul(first, 0, 8), V7_NUMBER);
    } else {
        stop(m->path, line, "what is this?");
    }
}

static void assemble(struct module *m, FILE *file)
{
    char source[256];
    struct v7_answer answer;
    int line = 0;

    word_count = symbol_count = 0;
    while (fgets(source, sizeof source, file))
        assemble_line(m, ++line, source);
    if (v7_make(text, word_count, 0, 0, 0, symbols, symbol_count, m->object, BYTES, &answer) != 0)
        stop(m->path, 0, v7_strerror(answer.fault));
    m->size = answer.size;
}

static void read_module(const char *path)
{
    struct module *m = calloc(1, sizeof *m);
    FILE *file = fopen(path, "rb");
    size_t length = strlen(path);

    if (!m || !file || module_count == MOST)
        stop(path, 0, "cannot be read");
    m->path = path;
    if (length > 2 && strcmp(path + length - 2, ".o") == 0)
        m->size = fread(m->object, 1, BYTES, file);
    else
        assemble(m, file);
    fclose(file);
    modules[module_count++] = m;
}

/* prints where a word or a symbol of a module is: its line, or without a source its address */
static void tell(const struct module *m, int line, unsigned address, const char *name, const char *what)
{
    if (line)
        fprintf(stderr, "%s:%d: %.8s %s\n", m->path, line, name, what);
    else
        fprintf(stderr, "%s at %06o: %.8s %s\n", m->path, address, name, what);
}

/* tells where the modules define a name, or else where they use it */
static void tell_name(const char *name, int is_defined)
{
    struct v7_word *words = malloc(BYTES * sizeof *words);
    struct v7_symbol *rows = malloc(BYTES / 12 * sizeof *rows);
    struct v7_counts counts;
    struct v7_answer answer;
    const char *what = is_defined ? "is defined here" : "is not defined";
    size_t i, row, word;

    for (i = 0; words && rows && i < module_count; i++) {
        const struct module *m = modules[i];

        /* data follows text, as it does in the addresses */
        if (v7_take_apart(m->object, m->size, 0, 0, 0, 0, 0, 0, &counts, &answer) == 2 && answer.fault != V7_NO_ROOM)
            continue;
        v7_take_apart(m->object, m->size, words, counts.text, words + counts.text, counts.data, rows, counts.symbols, &counts, &answer);
        for (row = 0; row < counts.symbols; row++) {
            int line = row < NAMES ? m->symbol_lines[row] : 0;

            if (!(rows[row].type & V7_EXTERNAL) || memcmp(rows[row].name, name, 8) != 0)
                continue;
            if (is_defined && (rows[row].type & 037) != V7_UNDEFINED) {
                tell(m, line, rows[row].value, name, what);
                what = "is defined here again";
            }
            for (word = 0; !is_defined && word < counts.text + counts.data; word++)
                if ((words[word].reloc & ~V7_FROM_PC) == V7_REFERS_TO(row))
                    tell(m, line, 2 * (unsigned)word, name, what);
        }
    }
    free(words);
    free(rows);
}

int main(int argc, char **argv)
{
    static unsigned char program[BYTES * 4];
    static struct v7_finding findings[FINDINGS];
    static struct v7_slice objects[MOST];
    struct v7_request request = {.size = sizeof request, .wants = V7_FINDINGS, .objects = objects};
    struct v7_result result = {.size = sizeof result, .file = program, .file_room = sizeof program, .findings = findings, .finding_room = FINDINGS};
    uint32_t status;
    FILE *out;
    size_t i;

    if (argc < 3)
        stop("usage", 0, "toy OUT FILE...");
    while (module_count + 2 < (size_t)argc)
        read_module(argv[module_count + 2]);
    for (i = 0; i < module_count; i++) {
        objects[i].bytes = modules[i]->object;
        objects[i].size = modules[i]->size;
    }
    request.object_count = module_count;
    status = v7_run(&request, &result);
    if (result.fault != V7_NO_FAULT)
        stop(result.fault > 40 ? argv[1] : modules[result.place]->path, 0, v7_strerror(result.fault));
    for (i = 0; i < result.finding_count; i++)
        if (i == 0 || memcmp(findings[i].name, findings[i - 1].name, 8) != 0)
            tell_name((const char *)findings[i].name, findings[i].kind != V7_UNDEFINED_NAME);
    if (!(out = fopen(argv[1], "wb")) || fwrite(program, 1, result.file_size, out) != result.file_size || fclose(out) != 0)
        stop(argv[1], 0, "cannot be written");
    return (int)status;
}
