/* Compiles a plan by the library, writes its module to a file, and prints a line for each of its imports.

   compile PLAN.json MODULE.wasm

   Ends with the status of the call, FACTC_STATUS_READ_FAULT where the plan is not read, and FACTC_STATUS_WRITE_FAULT where the module is not
   written. README.md, "As a library", has the commands that build it. */

#include "factc.h"

#include <stdio.h>

/* All bytes of a file, or null. The caller frees them. */
static uint8_t *read_file(const char *path, size_t *size)
{
    FILE *file = fopen(path, "rb");
    long end = file != NULL && fseek(file, 0, SEEK_END) == 0 ? ftell(file) : -1;
    uint8_t *bytes = end < 0 ? NULL : malloc((size_t)end + 1);
    if (bytes != NULL) {
        rewind(file);
        *size = fread(bytes, 1, (size_t)end, file);
        if (*size != (size_t)end) {
            free(bytes);
            bytes = NULL;
        }
    }
    if (file != NULL) {
        fclose(file);
    }
    return bytes;
}

static bool write_file(const char *path, const uint8_t *bytes, size_t size)
{
    FILE *file = fopen(path, "wb");
    if (file == NULL) {
        return false;
    }
    const size_t written = fwrite(bytes, 1, size, file);
    return fclose(file) == 0 && written == size;
}

/* A text of an outcome, behind a word. */
static void print_text(const char *word, const struct factc_outcome *outcome, struct factc_text text)
{
    fputs(word, stdout);
    fwrite(outcome->text + text.at, 1, text.size, stdout);
}

static void print_imports(const struct factc_outcome *outcome)
{
    for (size_t place = 0; place < outcome->sizes.imports; place++) {
        const struct factc_import *import = &outcome->imports[place];
        print_text("", outcome, import->module);
        print_text(" ", outcome, import->name);
        print_text(": ", outcome, import->line);
    }
}

int main(int count, char **words)
{
    if (count != 3) {
        fprintf(stderr, "usage: compile PLAN.json MODULE.wasm\n");
        return FACTC_STATUS_USAGE;
    }
    size_t size;
    uint8_t *plan = read_file(words[1], &size);
    if (plan == NULL) {
        perror(words[1]);
        return FACTC_STATUS_READ_FAULT;
    }
    struct factc_outcome outcome = {0};
    uint32_t status = factc_compile(plan, size, false, FACTC_FUEL_DEFAULT, &outcome);
    free(plan);
    if (status != FACTC_STATUS_DONE) {
        fprintf(stderr, "%s: %s", words[1], outcome.text == NULL ? FACTC_TOLD_OUT_OF_MEMORY "\n" : outcome.text);
    } else if (write_file(words[2], outcome.bytes, outcome.sizes.bytes)) {
        print_imports(&outcome);
    } else {
        perror(words[2]);
        status = FACTC_STATUS_WRITE_FAULT;
    }
    factc_free(&outcome);
    return (int)status;
}
