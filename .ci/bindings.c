/* Calls the library with what a caller may get wrong, with too little room, with too little memory and from several threads, and looks at what it
   answers and writes.

   bindings PLAN.json REFUSED.json

   The first plan is to come to a module, the second to be refused. Says what is not as it should be, and ends with 1 where something is. With
   REFUSES_MEMORY it is linked with --wrap=malloc and --wrap=realloc. */

#include "factc.h"

#include <pthread.h>
#include <stdio.h>
#include <string.h>

static int failed = 0;

static void want(bool holds, const char *what)
{
    if (!holds) {
        fprintf(stderr, "bindings: not so: %s\n", what);
        failed = 1;
    }
}

struct plan {
    uint8_t *bytes;
    size_t size;
};

static struct plan read_plan(const char *path)
{
    struct plan plan = {malloc(1 << 20), 0};
    FILE *file = fopen(path, "rb");
    if (file == NULL || plan.bytes == NULL) {
        perror(path);
        exit(1);
    }
    plan.size = fread(plan.bytes, 1, 1 << 20, file);
    fclose(file);
    return plan;
}

/* Buffers that end where their room ends, so that a byte past it is told by a checker of memory, and are full of one byte. */
struct room {
    struct factc_sizes sizes;
    uint8_t *bytes;
    struct factc_import *imports;
    uint8_t *text;
};

static struct room room_of(size_t bytes, size_t imports, size_t text)
{
    struct room room = {{bytes, imports, text}, malloc(bytes), malloc(imports * sizeof *room.imports), malloc(text)};
    static uint8_t somewhere[sizeof(struct factc_import)];
    if (bytes == 0) {
        free(room.bytes);
        room.bytes = somewhere;
    }
    if (imports == 0) {
        free(room.imports);
        room.imports = (struct factc_import *)(void *)malloc(sizeof *room.imports);
    }
    if (text == 0) {
        free(room.text);
        room.text = somewhere;
    }
    memset(room.bytes, 0xa5, bytes);
    memset(room.imports, 0xa5, imports * sizeof *room.imports);
    memset(room.text, 0xa5, text);
    return room;
}

static void leave(struct room room)
{
    if (room.sizes.bytes != 0) {
        free(room.bytes);
    }
    free(room.imports);
    if (room.sizes.text != 0) {
        free(room.text);
    }
}

static bool is_full(const void *bytes, size_t from, size_t to)
{
    for (size_t at = from; at < to; at++) {
        if (((const uint8_t *)bytes)[at] != 0xa5) {
            return false;
        }
    }
    return true;
}

static bool is_same_text(struct factc_text one, struct factc_text other)
{
    return one.at == other.at && one.size == other.size;
}

static bool is_same_definition(struct factc_definition one, struct factc_definition other)
{
    return one.kind == other.kind && one.number == other.number && one.width == other.width && is_same_text(one.name, other.name);
}

static bool are_same_imports(const struct factc_import *one, const struct factc_import *other, size_t count)
{
    for (size_t at = 0; at < count; at++) {
        if (one[at].kind != other[at].kind || one[at].operation != other[at].operation || !is_same_definition(one[at].first, other[at].first)
            || !is_same_definition(one[at].second, other[at].second) || !is_same_text(one[at].module, other[at].module)
            || !is_same_text(one[at].name, other[at].name) || !is_same_text(one[at].line, other[at].line)) {
            return false;
        }
    }
    return true;
}

static bool is_same_outcome(const struct factc_outcome *one, const struct factc_outcome *other)
{
    return one->status == other->status && memcmp(&one->sizes, &other->sizes, sizeof one->sizes) == 0
        && memcmp(one->bytes, other->bytes, one->sizes.bytes) == 0 && are_same_imports(one->imports, other->imports, one->sizes.imports)
        && memcmp(one->text, other->text, one->sizes.text) == 0;
}

static uint32_t compiled_into(struct plan plan, uint32_t fuel, struct room room, struct factc_sizes *sizes)
{
    return factc_compile_into(plan.bytes, plan.size, false, fuel, room.bytes, room.sizes.bytes, room.imports, room.sizes.imports, room.text,
                              room.sizes.text, sizes);
}

/* Nothing is written where there is no room, also for one byte or one record. */
static void look_at_too_little(struct plan plan, size_t bytes, size_t imports, size_t text, struct factc_sizes wanted)
{
    struct room room = room_of(bytes, imports, text);
    struct factc_sizes sizes;
    want(compiled_into(plan, FACTC_FUEL_DEFAULT, room, &sizes) == FACTC_STATUS_NO_ROOM, "too little room is NO_ROOM");
    want(memcmp(&sizes, &wanted, sizeof sizes) == 0, "NO_ROOM tells the sizes that are wanted");
    want(is_full(room.bytes, 0, bytes) && is_full(room.text, 0, text) && is_full(room.imports, 0, imports * sizeof *room.imports), "NO_ROOM writes nothing");
    leave(room);
}

static void look_at_rooms(struct plan plan, const struct factc_outcome *outcome)
{
    const struct factc_sizes is = outcome->sizes;
    struct room just = room_of(is.bytes, is.imports, is.text), more = room_of(is.bytes + 7, is.imports + 1, is.text + 9);
    struct factc_sizes sizes;
    look_at_too_little(plan, is.bytes - 1, is.imports, is.text, is);
    look_at_too_little(plan, is.bytes, is.imports - 1, is.text, is);
    look_at_too_little(plan, is.bytes, is.imports, is.text - 1, is);
    look_at_too_little(plan, 0, 0, 0, is);
    want(compiled_into(plan, FACTC_FUEL_DEFAULT, just, &sizes) == FACTC_STATUS_DONE, "just the room that is wanted is enough");
    want(memcmp(just.bytes, outcome->bytes, is.bytes) == 0 && memcmp(just.text, outcome->text, is.text) == 0, "one plan comes to one module");
    want(are_same_imports(just.imports, outcome->imports, is.imports), "one plan comes to one list of imports");
    want(compiled_into(plan, FACTC_FUEL_DEFAULT, more, &sizes) == FACTC_STATUS_DONE, "more room is enough");
    want(memcmp(more.bytes, outcome->bytes, is.bytes) == 0 && is_full(more.bytes, is.bytes, is.bytes + 7), "what is behind the module stays");
    want(memcmp(more.text, outcome->text, is.text) == 0 && is_full(more.text, is.text, is.text + 9), "what is behind the text stays");
    want(is_full(more.imports, is.imports * sizeof *more.imports, (is.imports + 1) * sizeof *more.imports), "what is behind the imports stays");
    leave(just);
    leave(more);
}

static void look_at_numbers(struct plan plan)
{
    static const uint32_t fuels[] = {0, FACTC_FUEL_MOST + 1, UINT32_MAX};
    struct factc_outcome outcome = {0};
    for (size_t place = 0; place < sizeof fuels / sizeof *fuels; place++) {
        want(factc_compile(plan.bytes, plan.size, false, fuels[place], &outcome) == FACTC_STATUS_USAGE, "a fuel that is none is USAGE");
        want(outcome.sizes.bytes == 0 && outcome.sizes.imports == 0 && outcome.sizes.text == 0, "USAGE has nothing to tell");
    }
    want(factc_compile(plan.bytes, plan.size, true, FACTC_FUEL_LEAST, &outcome) == FACTC_STATUS_DONE, "the least fuel is one");
    want(factc_compile(plan.bytes, plan.size, true, FACTC_FUEL_MOST, &outcome) == FACTC_STATUS_DONE, "the most fuel is one");
    factc_free(&outcome);
}

static void look_at_lengths(void)
{
    struct factc_outcome outcome = {0};
    char *long_plan = calloc(1, FACTC_LIMIT_INPUT + 1);
    if (long_plan == NULL) {
        return;
    }
    memset(long_plan, ' ', FACTC_LIMIT_INPUT + 1);
    want(factc_compile(long_plan, FACTC_LIMIT_INPUT + 1, false, FACTC_FUEL_DEFAULT, &outcome) == FACTC_STATUS_TOO_LONG, "a byte past the limit is TOO_LONG");
    want(strcmp(outcome.text, FACTC_TOLD_TOO_LONG "\n") == 0, "TOO_LONG has its line");
    want(factc_compile(long_plan, FACTC_LIMIT_INPUT, false, FACTC_FUEL_DEFAULT, &outcome) == FACTC_STATUS_NOT_JSON, "as many bytes as the limit are read");
    want(factc_compile(long_plan, 0, false, FACTC_FUEL_DEFAULT, &outcome) == FACTC_STATUS_NOT_JSON, "no bytes are no JSON text");
    want(strcmp(outcome.text, FACTC_TOLD_NOT_JSON "\n") == 0, "NOT_JSON has its line");
    factc_free(&outcome);
    free(long_plan);
}

static void look_at_pointers(struct plan plan)
{
    struct factc_outcome outcome = {0};
    want(factc_compile(plan.bytes, plan.size, false, FACTC_FUEL_DEFAULT, NULL) == FACTC_STATUS_NULL_POINTER, "no outcome is NULL_POINTER");
    want(factc_compile(NULL, 1, false, FACTC_FUEL_DEFAULT, &outcome) == FACTC_STATUS_NULL_POINTER, "a null plan that has bytes is NULL_POINTER");
    want(outcome.bytes == NULL && outcome.imports == NULL && outcome.text == NULL, "NULL_POINTER holds nothing");
    want(factc_compile(NULL, 0, false, FACTC_FUEL_DEFAULT, &outcome) == FACTC_STATUS_NOT_JSON, "a null plan without bytes is no JSON text");
    factc_free(&outcome);
    factc_free(&outcome);
    want(outcome.bytes == NULL && outcome.imports == NULL && outcome.text == NULL, "a second free does nothing");
    factc_free(NULL);
}

#ifdef REFUSES_MEMORY
/* How many times memory is still given; negative where it always is. */
static long given = -1;

void *__real_malloc(size_t size);
void *__real_realloc(void *block, size_t size);
void *__wrap_malloc(size_t size);
void *__wrap_realloc(void *block, size_t size);

static bool is_given(void)
{
    if (given > 0) {
        given--;
        return true;
    }
    return given < 0;
}

void *__wrap_malloc(size_t size)
{
    return is_given() ? __real_malloc(size) : NULL;
}

void *__wrap_realloc(void *block, size_t size)
{
    return is_given() ? __real_realloc(block, size) : NULL;
}

/* Memory is refused from each place on; the last one is behind all that a call takes. */
static void look_at_memory(struct plan plan, const struct factc_outcome *wanted)
{
    struct factc_outcome outcome = {0};
    long place = 0;
    uint32_t status;
    do {
        given = place++;
        status = factc_compile(plan.bytes, plan.size, false, FACTC_FUEL_DEFAULT, &outcome);
        given = -1;
        want(status == wanted->status || status == FACTC_STATUS_OUT_OF_MEMORY, "without memory the status is OUT_OF_MEMORY");
        want(status != FACTC_STATUS_OUT_OF_MEMORY || outcome.text == NULL || strcmp(outcome.text, FACTC_TOLD_OUT_OF_MEMORY "\n") == 0,
             "OUT_OF_MEMORY has its line, or none");
        want(status != FACTC_STATUS_OUT_OF_MEMORY || (outcome.sizes.bytes == 0 && outcome.sizes.imports == 0), "OUT_OF_MEMORY has no module");
    } while (status == FACTC_STATUS_OUT_OF_MEMORY);
    want(place > 10, "a call takes memory");
    want(is_same_outcome(&outcome, wanted), "with just enough memory all is as with more");
    factc_free(&outcome);
}
#else
static void look_at_memory(struct plan plan, const struct factc_outcome *wanted)
{
    (void)plan;
    (void)wanted;
}
#endif

/* What a thread compiles, what is to come of it, and whether it did. */
struct work {
    struct plan plan;
    const struct factc_outcome *wanted;
    bool is_same;
};

static void *compile_often(void *given_work)
{
    struct work *work = given_work;
    struct factc_outcome outcome = {0};
    for (int turn = 0; turn < 20; turn++) {
        factc_compile(work->plan.bytes, work->plan.size, false, FACTC_FUEL_DEFAULT, &outcome);
        work->is_same = work->is_same && is_same_outcome(&outcome, work->wanted);
    }
    factc_free(&outcome);
    return NULL;
}

static void look_at_threads(struct plan plan, const struct factc_outcome *made, struct plan refused, const struct factc_outcome *told)
{
    struct work works[4] = {{plan, made, true}, {refused, told, true}, {plan, made, true}, {refused, told, true}};
    pthread_t threads[4];
    size_t begun = 0;
    while (begun < 4 && pthread_create(&threads[begun], NULL, compile_often, &works[begun]) == 0) {
        begun++;
    }
    want(begun == 4, "threads begin");
    for (size_t at = 0; at < begun; at++) {
        pthread_join(threads[at], NULL);
        want(works[at].is_same, "in threads that call at once it is as in one");
    }
}

int main(int count, char **words)
{
    struct factc_outcome made = {0}, told = {0};
    if (count != 3) {
        return 2;
    }
    struct plan plan = read_plan(words[1]), refused = read_plan(words[2]);
    want(factc_compile(plan.bytes, plan.size, false, FACTC_FUEL_DEFAULT, &made) == FACTC_STATUS_DONE, "the plan comes to a module");
    want(made.sizes.bytes != 0 && made.sizes.imports != 0, "which has imports");
    look_at_rooms(plan, &made);
    want(factc_compile(plan.bytes, plan.size, false, FACTC_FUEL_DEFAULT, &told) == FACTC_STATUS_DONE, "two outcomes stand side by side");
    want(factc_compile(refused.bytes, refused.size, false, FACTC_FUEL_DEFAULT, &told) == FACTC_STATUS_REFUSED, "an outcome is used again");
    want(told.sizes.bytes == 0 && told.sizes.imports == 0 && told.sizes.text == strlen(told.text), "REFUSED has a line alone");
    look_at_numbers(plan);
    look_at_lengths();
    look_at_pointers(plan);
    look_at_memory(plan, &made);
    look_at_memory(refused, &told);
    look_at_threads(plan, &made, refused, &told);
    factc_free(&made);
    factc_free(&told);
    free(plan.bytes);
    free(refused.bytes);
    return failed;
}
