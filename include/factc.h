/* The compiler of fused adapters as a library for C, and for whatever calls C; and the contract of the modules that it makes, as numbers and
   texts. It is read as C99 or later, and as C++.

   A plan, a JSON text (docs/plan.schema.json), becomes a core module, its imports one record each. A program links two archives: the library,
   crates/fact_c/out/libfact_c.a, which `rt lib` proves and builds, and the toolchain's liblibc_c.a, by which it calls malloc, realloc and
   free. README.md has the commands.

   Who owns what. The library keeps nothing: no state, no handle, no pointer of the caller's, and each byte that a call took by malloc it has
   freed when it returns. All that it hands over it writes into buffers that the caller passes, and owns. So there is nothing of the library's
   to free, calls do not depend on one another, and any number of threads may call at once, each with its own buffers. What a call comes to is
   decided by its arguments, and by the memory that malloc and realloc give.

   What the caller owes, which nothing tests: each pointer points to as many bytes or records as the size behind it says, is aligned as its type,
   and is not null, also where the size is 0; a bool that another language passes is 0 or 1; neither two buffers overlap nor a buffer and the
   plan, and `sizes` stands in none of them; meanwhile no other thread reads or writes the buffers or `sizes`, or writes into the plan; malloc,
   realloc and free are of one allocator, which aligns as C asks; and no call is made from a signal handler, or in the child of a fork of a
   process that had several threads. factc_compile, which stands over it, takes null pointers and has buffers of its own.

   Stack. A call takes the more the deeper types are nested. Nothing tests whether there is enough: a stack that is too small ends the process.
   64 KiB were enough for each example, 1 MiB for types nested 98 deep, and 4 MiB for variants of 4,096 cases nested 90 deep with the most fuel.

   Each group of constants names the part of the public standard that it is of. "Core specification" is the WebAssembly Core Specification,
   "canonical ABI" is CanonicalABI.md of the Component Model. Where neither has it, the group says "this project" and the page of docs/. Numbers
   have the unit that their line says; addresses, sizes, places and numbers of instances are unsigned. Texts are UTF-8, without a zero at
   their end; the names of adapters and of exports may have some in them.

   `.ci/bindings` compares each number and text here with the sources, and the library with the program. */

#ifndef FACTC_H
#define FACTC_H

#include <stdbool.h>
#include <stddef.h>
#include <stdint.h>
#include <stdlib.h>

/* ---- The profile: this project, docs/IMPORTS.md ---- */

#define FACTC_IMPORTS_PROFILE 1 /* it rises where a host that was written against docs/IMPORTS.md would have to change */

/* ---- Fuel: this project, docs/BEHAVIOUR.md, "The command" ---- */

#define FACTC_FUEL_LEAST 1      /* what translating a type costs, as `cost` of docs/DEFINITIONS.md says; a call takes no less */
#define FACTC_FUEL_MOST 1000000 /* the same; a call takes no more */
#define FACTC_FUEL_DEFAULT 1000 /* the same, where there is no wish */

/* ---- How a call ends: this project, docs/BEHAVIOUR.md, "How a run ends" ----

   The numbers of the command and of the library are the same for the same reasons. The library tells the first that is so of NULL_POINTER, USAGE,
   TOO_LONG, NOT_JSON, BAD_PLAN and REFUSED, and reads no byte of a plan that is too long. Want of memory may be told in place of each from NOT_JSON on,
   and of DONE; NO_ROOM stands in place of what there is no room for. */

enum factc_status {
    FACTC_STATUS_DONE = 0,          /* there is a module; of the command: what was asked for is written */
    FACTC_STATUS_USAGE = 2,         /* the fuel is none of 1 to 1,000,000; of the command: the words are none of its */
    FACTC_STATUS_READ_FAULT = 3,    /* of the command alone: standard input failed */
    FACTC_STATUS_WRITE_FAULT = 4,   /* of the command alone: standard output failed */
    FACTC_STATUS_TOO_LONG = 5,      /* the plan has more than FACTC_LIMIT_INPUT bytes, however many */
    FACTC_STATUS_NOT_JSON = 6,      /* the plan is no JSON text (RFC 8259), or nests deeper than FACTC_LIMIT_JSON_DEPTH */
    FACTC_STATUS_BAD_PLAN = 7,      /* the JSON value is no plan (docs/plan.schema.json) */
    FACTC_STATUS_REFUSED = 8,       /* the plan breaks a rule */
    FACTC_STATUS_OUT_OF_MEMORY = 9, /* malloc or realloc gave nothing */
    FACTC_STATUS_NO_ROOM = 10,      /* of the library alone: a buffer is too small; the sizes that are wanted are told, and nothing is written */
    FACTC_STATUS_NOT_HEX = 11,      /* of the command alone, with --check: the input is no hex digits */
    FACTC_STATUS_REJECTED = 12,     /* the same: the bytes are no adapter module */
    FACTC_STATUS_NOT_CALLABLE = 13, /* of the command alone, with --call: no adapter of the name can be called */
    FACTC_STATUS_BAD_VALUE = 14,    /* of the command alone, with --call or --chain: the values are not of their types */
    FACTC_STATUS_OVER_LIMIT = 15,   /* the same: they are too large */
    FACTC_STATUS_NOT_CHAINED = 16,  /* of the command alone, with --chain: the names are not those of two adapters, the first of which leads to the second */
    FACTC_STATUS_NULL_POINTER = 32  /* of factc_compile alone: it was passed a null pointer */
};

/* ---- The library ---- */

/* A text among others: where it begins in `text`, counted from 0, and how many bytes it has. */
struct factc_text {
    size_t at;
    size_t size;
};

/* What an import stands for. In the comments: what `operation`, `first` and `second` of its record say; where they are not named they say
   nothing, 0 and FACTC_DEFINITION_NONE. */
enum factc_import_kind {
    FACTC_IMPORT_CORE_DEF = 0,                 /* a core definition, which is first */
    FACTC_IMPORT_TRANSCODE = 1,                /* a transcoder: operation is enum factc_transcode; first is the memory it reads, second the one it writes */
    FACTC_IMPORT_RESOURCE_TRANSFER_OWN = 2,    /* an owned handle goes from table to table */
    FACTC_IMPORT_RESOURCE_TRANSFER_BORROW = 3, /* a borrowed one does */
    FACTC_IMPORT_PREPARE_CALL = 4,             /* a prepare-call: first is the memory of the lift side, where there is one */
    FACTC_IMPORT_START_CALL = 5,               /* a start-call: first is the callback, second the post-return, where there is one */
    FACTC_IMPORT_FUTURE_TRANSFER = 6,          /* a future goes from table to table */
    FACTC_IMPORT_STREAM_TRANSFER = 7,          /* a stream does */
    FACTC_IMPORT_ERROR_CONTEXT_TRANSFER = 8,   /* an error context does */
    FACTC_IMPORT_TRAP = 9,                     /* a trap: operation is enum factc_trap */
    FACTC_IMPORT_ENTER_SYNC_CALL = 10,         /* a sync call begins */
    FACTC_IMPORT_EXIT_SYNC_CALL = 11,          /* it is over */
    FACTC_IMPORT_UNSAFE_INTRINSIC = 12         /* a slot of the task's context: operation is enum factc_slot */
};

/* What a slot of the context is asked. */
enum factc_slot {
    FACTC_SLOT_GET0 = 0, /* what the first one holds */
    FACTC_SLOT_GET1 = 1, /* what the second one holds */
    FACTC_SLOT_SET0 = 2, /* to hold something: the first one */
    FACTC_SLOT_SET1 = 3  /* to hold something: the second one */
};

enum factc_definition_kind {
    FACTC_DEFINITION_NONE = 0,           /* none: number, width and name are 0 */
    FACTC_DEFINITION_EXPORT = 1,         /* an export: number is the core instance, name that of the export, as the plan has it */
    FACTC_DEFINITION_INSTANCE_FLAGS = 2, /* the flags of a component instance, which is number */
    FACTC_DEFINITION_TRAMPOLINE = 3      /* a function of the runtime: number is the one that the plan gives it */
};

/* A core definition of the plan. */
struct factc_definition {
    uint32_t kind;   /* enum factc_definition_kind */
    uint32_t number; /* by kind */
    uint32_t width;  /* of a memory of a transcoder: bits of its addresses, 32 or 64; else 0 */
    struct factc_text name;
};

/* One import of a module (core specification, "Imports"). docs/IMPORTS.md says what each must do. What stands between the fields says nothing. */
struct factc_import {
    uint32_t kind;      /* enum factc_import_kind */
    uint32_t operation; /* by kind */
    struct factc_definition first;
    struct factc_definition second;
    struct factc_text module; /* the module that it names: one of FACTC_MODULE_ below */
    struct factc_text name;   /* its name there */
    struct factc_text line;   /* the line that `factc --imports` prints of it, with its newline (docs/BEHAVIOUR.md, "The lines of imports") */
};

/* How much there is to hand over. */
struct factc_sizes {
    size_t bytes;   /* bytes of the module */
    size_t imports; /* records of its imports */
    size_t text;    /* bytes of the text */
};

#ifdef __cplusplus
extern "C" {
#endif

/* Compiles a plan, and hands over what comes of it into the caller's buffers. Returns enum factc_status.

   Debug checks are made where the plan or `debug` asks for them. `fuel` is how much translation a function may hold, as --fuel of the
   command: FACTC_FUEL_LEAST to FACTC_FUEL_MOST, and FACTC_FUEL_DEFAULT where there is no wish.

   `sizes` is always set. At DONE the module is the first sizes->bytes bytes of `bytes`, its imports, in the order of its import section, the
   first sizes->imports records of `imports`, and the texts of these stand in the first sizes->text bytes of `text`. At TOO_LONG, NOT_JSON, BAD_PLAN,
   REFUSED and OUT_OF_MEMORY the first sizes->text bytes of `text` are the line that the command tells, with its newline. What is behind stays as
   it was. At USAGE there is nothing to tell. At NO_ROOM one of the buffers is smaller than `sizes` says, and none is written: where malloc and
   realloc give as much again, the same call with buffers of these sizes ends otherwise. A caller that never makes a buffer smaller is told
   NO_ROOM twice at most. */
uint32_t factc_compile_into(const uint8_t *plan, size_t plan_size, bool debug, uint32_t fuel, uint8_t *bytes, size_t bytes_room,
                            struct factc_import *imports, size_t imports_room, uint8_t *text, size_t text_room, struct factc_sizes *sizes);

#ifdef __cplusplus
}
#endif

/* What comes of a plan, in memory that factc_compile took by malloc. It is the caller's: factc_free gives it back, or the caller does by free: each
   pointer is that of a block of its own, and one that is set to null is not freed by factc_free. Of two copies of an outcome one is freed. Begin
   with all zeros: `struct factc_outcome outcome = {0};`, and in C++ `= {}`. Before factc_compile, at NULL_POINTER, after factc_free, and at
   OUT_OF_MEMORY where there was no room for a line, the pointers are null and the sizes 0; else none is null. */
struct factc_outcome {
    uint32_t status;              /* enum factc_status */
    uint8_t *bytes;               /* the module, at DONE */
    struct factc_import *imports; /* its imports, at DONE */
    char *text;                   /* their texts, or a line; a zero stands behind its sizes.text bytes, so that a line is a string of C */
    struct factc_sizes sizes;     /* of all three */
};

/* Gives back what an outcome holds, and sets it to zeros: once more, it does nothing, as with a null pointer. */
static inline void factc_free(struct factc_outcome *outcome)
{
    if (outcome == NULL) {
        return;
    }
    free(outcome->bytes);
    free(outcome->imports);
    free(outcome->text);
    outcome->status = FACTC_STATUS_DONE;
    outcome->bytes = NULL;
    outcome->imports = NULL;
    outcome->text = NULL;
    outcome->sizes.bytes = 0;
    outcome->sizes.imports = 0;
    outcome->sizes.text = 0;
}

/* Takes buffers of the sizes of an outcome. */
static inline bool factc_take_(struct factc_outcome *outcome)
{
    const struct factc_sizes sizes = outcome->sizes;
    if (sizes.imports > SIZE_MAX / sizeof *outcome->imports || sizes.text == SIZE_MAX) {
        return false;
    }
    outcome->bytes = (uint8_t *)malloc(sizes.bytes);
    outcome->imports = (struct factc_import *)malloc(sizes.imports * sizeof *outcome->imports);
    outcome->text = (char *)malloc(sizes.text + 1);
    return outcome->bytes != NULL && outcome->imports != NULL && outcome->text != NULL;
}

static inline size_t factc_larger_(size_t one, size_t other)
{
    return one < other ? other : one;
}

/* Compiles a plan, as factc_compile_into does, and takes the buffers for what comes of it. What the outcome held before is given back first. Returns
   its status, which is never NO_ROOM. A null pointer in place of the outcome, or of a plan that has bytes, is answered by NULL_POINTER; a null plan of
   no bytes is one of no bytes. Want of memory is told by OUT_OF_MEMORY, and may be told without a line, also in place of USAGE and TOO_LONG. */
static inline uint32_t factc_compile(const void *plan, size_t plan_size, bool debug, uint32_t fuel, struct factc_outcome *outcome)
{
    struct factc_sizes room = {16384, 64, 16384};
    int turn;
    if (outcome == NULL) {
        return FACTC_STATUS_NULL_POINTER;
    }
    factc_free(outcome);
    if (plan == NULL && plan_size != 0) {
        return outcome->status = FACTC_STATUS_NULL_POINTER;
    }
    for (turn = 0; turn < 2; turn++) {
        outcome->sizes = room;
        if (!factc_take_(outcome)) {
            break;
        }
        outcome->status = factc_compile_into(plan == NULL ? (const uint8_t *)"" : (const uint8_t *)plan, plan_size, debug, fuel, outcome->bytes,
                                             room.bytes, outcome->imports, room.imports, (uint8_t *)outcome->text, room.text, &outcome->sizes);
        if (outcome->status != FACTC_STATUS_NO_ROOM) {
            outcome->text[outcome->sizes.text] = '\0';
            return outcome->status;
        }
        room.bytes = factc_larger_(room.bytes, outcome->sizes.bytes);
        room.imports = factc_larger_(room.imports, outcome->sizes.imports);
        room.text = factc_larger_(room.text, outcome->sizes.text);
        factc_free(outcome);
    }
    factc_free(outcome);
    return outcome->status = FACTC_STATUS_OUT_OF_MEMORY;
}

/* ---- The lines of statuses: this project, docs/BEHAVIOUR.md ----

   Each line has a newline at its end, which is not written here. These are whole lines. */

#define FACTC_TOLD_TOO_LONG "input too long"     /* of TOO_LONG */
#define FACTC_TOLD_NOT_JSON "not json"           /* of NOT_JSON */
#define FACTC_TOLD_OUT_OF_MEMORY "out of memory" /* of OUT_OF_MEMORY */

/* Lines that tell a fault: one of the next two, its kind, FACTC_FAULT_AT and its place. */

#define FACTC_FAULT_BAD_PLAN "bad plan: " /* of BAD_PLAN; then a kind, and a path as the place */
#define FACTC_FAULT_REFUSED "refused: "   /* of REFUSED; then a name, and an entry of the plan as the place */
#define FACTC_FAULT_AT " at "             /* between a kind and its place */

/* Kinds of bad plans. The path begins with FACTC_PATH_PLAN; each step into it is a dot and a key, or a dot and a place from 0 in decimal. */

#define FACTC_PATH_PLAN "plan"                   /* the begin of each path */
#define FACTC_BAD_PLAN_MISSING "Missing"         /* a required key is not there; the path ends with it */
#define FACTC_BAD_PLAN_UNKNOWN_KEY "UnknownKey"  /* a key that none knows; the path ends with it */
#define FACTC_BAD_PLAN_WRONG_KIND "WrongKind"    /* another JSON kind, a list of another length, or a number that is no whole one */
#define FACTC_BAD_PLAN_OUT_OF_RANGE "OutOfRange" /* a number past its range, or a word that is none of those allowed */

/* Names of refusals, in the order in which they are looked for. The place is an entry of the plan, counted from 0: one of FACTC_AT_TYPE,
   FACTC_AT_FUNCTION and FACTC_AT_ADAPTER, and its number in decimal. */

#define FACTC_REFUSED_UNKNOWN_INDEX "UnknownIndex"     /* a number names no entry, or one that is not before it (Explainer.md, "Index Spaces") */
#define FACTC_REFUSED_BAD_TYPE "BadType"               /* a type that no component has: without members, with one name twice, a borrow in a result */
#define FACTC_REFUSED_TOO_LARGE "TooLarge"             /* past one of the limits below */
#define FACTC_REFUSED_BAD_OPTIONS "BadOptions"         /* options that do not go together (canonical ABI, "Canonical ABI options") */
#define FACTC_REFUSED_TYPE_MISMATCH "TypeMismatch"     /* values of one side cannot be carried to the other, or the async marks differ */
#define FACTC_REFUSED_BAD_MEMORY "BadMemory"           /* a memory or a realloc that the types need is missing, or cannot be used */
#define FACTC_REFUSED_BAD_SIGNATURE "BadSignature"     /* a core type is not that of the canonical ABI, "Flattening" */
#define FACTC_REFUSED_IMPORT_CONFLICT "ImportConflict" /* one core item is used as two things */
#define FACTC_REFUSED_DUPLICATE_NAME "DuplicateName"   /* two exports would have one name (core specification, "Validation", "Modules") */

#define FACTC_AT_TYPE "type "         /* and a place in `types` of the plan */
#define FACTC_AT_FUNCTION "function " /* and a place in `funcs` of the plan */
#define FACTC_AT_ADAPTER "adapter "   /* and a place in `adapters` of the plan */

/* ---- Limits ---- */

#define FACTC_LIMIT_INPUT 67108864      /* bytes of a plan: this project, docs/BEHAVIOUR.md */
#define FACTC_LIMIT_JSON_DEPTH 127      /* arrays and objects within one another (RFC 8259, section 9) */
#define FACTC_LIMIT_ENTRIES 268435456   /* entries of a list of a plan: this project */
#define FACTC_LIMIT_INSTANCE 2147483647 /* the greatest number of a component instance of a side: this project */
#define FACTC_LIMIT_TYPE_DEPTH 100      /* types within one another, a plain type being 1: this project */
#define FACTC_LIMIT_CASES 4096          /* cases of a variant: this project */
#define FACTC_LIMIT_FLAGS 32            /* labels of flags: Component Model, Explainer.md, "Type Definitions" */
#define FACTC_LIMIT_VALUE 4294967295u   /* bytes that values of one type take in memory: canonical ABI, "Element Size" */
#define FACTC_LIMIT_LIST 4294967295u    /* bytes of a list or a map on either side, else trap 4: canonical ABI, "Loading" */
#define FACTC_LIMIT_STRING 2147483647   /* bytes of a string: canonical ABI, "Loading", MAX_STRING_BYTE_LENGTH */
#define FACTC_LIMIT_PARAMS 16           /* core parameters, else one pointer: canonical ABI, "Flattening", MAX_FLAT_PARAMS */
#define FACTC_LIMIT_RESULTS 1           /* core results, else one pointer: canonical ABI, "Flattening", MAX_FLAT_RESULTS */
#define FACTC_LIMIT_ASYNC_PARAMS 4      /* the same of an async lower side: canonical ABI, "Flattening", MAX_FLAT_ASYNC_PARAMS */

/* Code units of a string up to which it is moved whatever it holds, by the encoding in which it stands and that of the other side; a compact
   string stands as one of the first two says, UTF-16 or Latin-1 (canonical ABI, "Storing", `store_string`). Past it comes trap 3, but for
   what docs/BEHAVIOUR.md, "Strings", says. A code unit is a byte of UTF-8 or Latin-1, or two bytes of UTF-16. */

#define FACTC_UNITS_UTF8_TO_UTF8 2147483647            /* code units */
#define FACTC_UNITS_UTF8_TO_UTF16 1073741823           /* code units */
#define FACTC_UNITS_UTF8_TO_COMPACT_UTF16 1073741823   /* code units */
#define FACTC_UNITS_UTF16_TO_UTF8 715827882            /* code units */
#define FACTC_UNITS_UTF16_TO_UTF16 1073741823          /* code units */
#define FACTC_UNITS_UTF16_TO_COMPACT_UTF16 1073741823  /* code units */
#define FACTC_UNITS_LATIN1_TO_UTF8 1073741823          /* code units */
#define FACTC_UNITS_LATIN1_TO_UTF16 1073741823         /* code units */
#define FACTC_UNITS_LATIN1_TO_COMPACT_UTF16 2147483647 /* code units */

/* ---- Memories: canonical ABI, "Canonical ABI options", `memory`; core specification, "Memory Types" ----

   A plan names the size of a page by its exponent (`page_size_log2`). */

#define FACTC_PAGE_LOG2_DEFAULT 16 /* pages of 65,536 bytes */
#define FACTC_PAGE_LOG2_BYTE 0     /* pages of one byte: the proposal of custom page sizes */

/* ---- Encodings of strings: canonical ABI, "Canonical ABI options", `string-encoding` ----

   The numbers are those that a prepare-call is told. */

enum factc_encoding {
    FACTC_ENCODING_UTF8 = 0,         /* "utf8" of a plan */
    FACTC_ENCODING_UTF16 = 1,        /* "utf16" of a plan */
    FACTC_ENCODING_COMPACT_UTF16 = 2 /* "compact" of a plan: Latin-1, or UTF-16 where the length has FACTC_UTF16_TAG */
};

#define FACTC_UTF16_TAG 2147483648u /* the bit of a compact string's length that says UTF-16: canonical ABI, "Loading", UTF16_TAG */

/* ---- Imports: the modules that they name (this project, docs/IMPORTS.md) ---- */

#define FACTC_MODULE_FLAGS "flags"                 /* globals: may-leave of an instance (canonical ABI, "Component Instance State") */
#define FACTC_MODULE_MEMORY "memory"               /* memories (canonical ABI, "Canonical ABI options", `memory`) */
#define FACTC_MODULE_REALLOC "realloc"             /* functions (the same, `realloc`) */
#define FACTC_MODULE_CALLBACK "callback"           /* functions (the same, `callback`); no adapter calls them */
#define FACTC_MODULE_CALLEE "callee"               /* functions: those that are lifted (canonical ABI, "`canon lift`") */
#define FACTC_MODULE_POST_RETURN "post_return"     /* functions (canonical ABI, "Canonical ABI options", `post-return`) */
#define FACTC_MODULE_RUNTIME "runtime"             /* functions: traps */
#define FACTC_MODULE_TRANSCODE "transcode"         /* functions: transcoders (canonical ABI, "Storing", `store_string_into_range`) */
#define FACTC_MODULE_RESOURCE "resource"           /* functions: handles of resources (canonical ABI, "Loading", `lift_own`, `lift_borrow`) */
#define FACTC_MODULE_FUTURE "future"               /* functions: handles of futures (the same, `lift_future`) */
#define FACTC_MODULE_STREAM "stream"               /* functions: handles of streams (the same, `lift_stream`) */
#define FACTC_MODULE_ERROR_CONTEXT "error-context" /* functions: handles of error contexts (the same, `lift_error_context`) */
#define FACTC_MODULE_ASYNC "async"                 /* functions: start-calls, and what tells of a sync call (canonical ABI, "`canon lower`") */
#define FACTC_MODULE_SYNC "sync"                   /* functions: prepare-calls (canonical ABI, "`canon lower`") */
#define FACTC_MODULE_CONTEXT "context"             /* functions: slots of the task (canonical ABI, "`canon context.get`", "`canon context.set`") */

/* How the names begin behind which a decimal number of 32 bits stands, or the name of an adapter, which is any text. */

#define FACTC_PREFIX_INSTANCE "instance"           /* of flags; then the number of the component instance */
#define FACTC_PREFIX_MEMORY "m"                    /* of memories; then how many memories are imported before */
#define FACTC_PREFIX_FUNCTION "f"                  /* of reallocs and callbacks; then how many functions are imported before */
#define FACTC_PREFIX_TRAP "trap"                   /* of runtime; then the number of the trap, enum factc_trap */
#define FACTC_PREFIX_PREPARE_CALL "[prepare-call]" /* of sync; then the name of the adapter */
#define FACTC_PREFIX_START_CALL "[start-call]"     /* of async; then the name of the first adapter that uses it */
#define FACTC_PREFIX_FROM " (mem"                  /* of transcode, behind the operation; then a place among the imported memories, from 0 */
#define FACTC_PREFIX_TO " => mem"                  /* behind that number; then the place of the memory that is written */
#define FACTC_SUFFIX_TRANSCODE ")"                 /* behind that number, and the end */

/* Whole names. Those of callee and post_return are the names of adapters. */

#define FACTC_NAME_TRANSFER "transfer"               /* of future, stream and error-context */
#define FACTC_NAME_TRANSFER_OWN "transfer-own"       /* of resource */
#define FACTC_NAME_TRANSFER_BORROW "transfer-borrow" /* of resource */
#define FACTC_NAME_ENTER_SYNC_CALL "enter-sync-call" /* of async */
#define FACTC_NAME_EXIT_SYNC_CALL "exit-sync-call"   /* of async */
#define FACTC_NAME_GET0 "get0"                       /* of context; in the line of the import too */
#define FACTC_NAME_GET1 "get1"                       /* the same */
#define FACTC_NAME_SET0 "set0"                       /* the same */
#define FACTC_NAME_SET1 "set1"                       /* the same */

/* ---- Imports: their types (core specification, "Function Types") ----

   Parameters, an arrow and results. P is i32 where the memory has addresses of 32 bits and i64 where it has 64: the type of addresses and sizes. */

#define FACTC_TYPE_REALLOC "(P, P, P, P) -> (P)"       /* old address, old size in bytes, alignment in bytes, new size in bytes; the address */
#define FACTC_TYPE_CALLBACK "(i32, i32, i32) -> (i32)" /* canonical ABI, "`canon lift`" */
#define FACTC_TYPE_TRAP "() -> ()"                     /* is not to return */
#define FACTC_TYPE_TRANSFER "(i32, i32, i32) -> (i32)" /* a handle, its table, the other side's table; the handle there */
#define FACTC_TYPE_ENTER_SYNC_CALL "(i32, i32) -> ()"  /* 1 where the function type is marked async, else 0; the lift side's instance */
#define FACTC_TYPE_EXIT_SYNC_CALL "() -> ()"           /* the call that was entered is over */
#define FACTC_TYPE_CONTEXT_GET "() -> (i32)"           /* what the slot holds */
#define FACTC_TYPE_CONTEXT_SET "(i32) -> ()"           /* what it is to hold */

/* The parameters that each prepare-call and each start-call begins with. A prepare-call then has the core parameters of its adapter, and no results;
   a start-call has no more, and the core results of its adapter. */

#define FACTC_TYPE_PREPARE_CALL "funcref, funcref, i32, i32, i32, i32, i32, i32" /* by enum factc_prepare_parameter */
#define FACTC_TYPE_START_CALL "funcref, i32, i32, i32"                           /* by enum factc_start_parameter */

enum factc_prepare_parameter {
    FACTC_PREPARE_START = 0,          /* the function `[async-start]NAME` */
    FACTC_PREPARE_RETURN = 1,         /* the function `[async-return]NAME` */
    FACTC_PREPARE_LOWER_INSTANCE = 2, /* the component instance that calls */
    FACTC_PREPARE_LIFT_INSTANCE = 3,  /* the component instance that is called */
    FACTC_PREPARE_TUPLE = 4,          /* the number of the tuple of the callee's results: docs/BEHAVIOUR.md, "An async one between two instances" */
    FACTC_PREPARE_ASYNC_TYPE = 5,     /* 1 where the function type is marked async, else 0 */
    FACTC_PREPARE_ENCODING = 6,       /* that of the lift side, enum factc_encoding */
    FACTC_PREPARE_RESULTS = 7,        /* core values of the results of a sync lower side, or one of FACTC_RESULTS_ below */
    FACTC_PREPARE_FIXED = 8           /* how many these are; the adapter's own follow */
};

#define FACTC_RESULTS_MANY 2147483647        /* sync lower side, and one of the results takes more than 16 core values */
#define FACTC_RESULTS_BY_POINTER 4294967294u /* async lower side with results */
#define FACTC_RESULTS_NONE 4294967295u       /* async lower side without results */

enum factc_start_parameter {
    FACTC_START_CALLEE = 0,  /* the callee */
    FACTC_START_PARAMS = 1,  /* how many core parameters it has */
    FACTC_START_RESULTS = 2, /* how many core results it has */
    FACTC_START_BITS = 3,    /* the sum of those below that hold */
    FACTC_START_FIXED = 4    /* how many these are */
};

#define FACTC_START_BIT_LIFT_ASYNC 1  /* the lift side is async */
#define FACTC_START_BIT_LOWER_ASYNC 2 /* the lower side is async */

/* ---- Imports: the flags (canonical ABI, "Component Instance State", `may_leave`) ----

   Each is a global, a mutable i32 of its own for each component instance. There are no bits in it, and none for may-enter: whether an
   instance may be entered is for the host to see to, but that an adapter within one instance calls trap 1. */

#define FACTC_FLAG_MAY_NOT_LEAVE 0 /* what an adapter sets it to while values are moved to the instance; a caller with it is trap 0 */
#define FACTC_FLAG_MAY_LEAVE 1     /* what a host sets it to at first; every number but 0 says the same */

/* ---- Imports: the traps (canonical ABI, the `trap_if` of the section that is named) ---- */

enum factc_trap {
    FACTC_TRAP_CANNOT_LEAVE_COMPONENT = 0,                 /* the caller may not leave its component: "`canon lower`" */
    FACTC_TRAP_CANNOT_ENTER_COMPONENT = 1,                 /* both sides are of one instance: "`canon lift`" */
    FACTC_TRAP_MEMORY_OUT_OF_BOUNDS = 2,                   /* parameters or results behind a pointer: "Lifting and Lowering Values" */
    FACTC_TRAP_STRING_OUT_OF_BOUNDS = 3,                   /* a string that passes its memory or its limit: "Loading", "Storing" */
    FACTC_TRAP_LIST_OUT_OF_BOUNDS = 4,                     /* a list or a map that does: "Loading", "Storing" */
    FACTC_TRAP_UNALIGNED_POINTER = 5,                      /* a pointer to one of these: "Loading", "Storing" */
    FACTC_TRAP_INVALID_CHAR = 6,                           /* no Unicode scalar value: "Loading", `convert_i32_to_char` */
    FACTC_TRAP_INVALID_DISCRIMINANT = 7,                   /* no case of its number: "Loading", `load_variant` */
    FACTC_TRAP_UNCAUGHT_EXCEPTION = 8,                     /* something was thrown, with exceptions: "`canon lift`" */
    FACTC_TRAP_DEBUG_ASSERT_POINTER_ALIGNED = 9,           /* debug check, this project; it never comes */
    FACTC_TRAP_DEBUG_ASSERT_UPPER_BITS_UNSET = 10,         /* debug check, this project: the upper half of an i64 that carries 32 bits */
    FACTC_TRAP_DEBUG_ASSERT_STRING_ENCODING_FINISHED = 11, /* debug check, this project: a transcoder into UTF-8 that stopped early */
    FACTC_TRAP_DEBUG_ASSERT_EQUAL_CODE_UNITS = 12          /* debug check, this project: a transcoder that changed the number of units */
};

/* ---- Imports: the transcoders (canonical ABI, "Storing", `store_string_into_range`) ----

   What a transcoder does, as a number; and as a text, as the name and the line of the import begin. Its type has Pi of the memory that is read and
   Pj of the one that is written. Each takes the source's address in bytes, its length in code units and the destination's address in bytes; what
   else it takes, and what it answers, stands with its type. */

enum factc_transcode {
    FACTC_OPERATION_UTF8_TO_UTF8 = 0,                     /* copies all */
    FACTC_OPERATION_UTF16_TO_UTF16 = 1,                   /* copies all */
    FACTC_OPERATION_LATIN1_TO_LATIN1 = 2,                 /* copies all */
    FACTC_OPERATION_LATIN1_TO_UTF16 = 3,                  /* writes all of it as UTF-16 */
    FACTC_OPERATION_UTF8_TO_UTF16 = 4,                    /* writes all of it as UTF-16 */
    FACTC_OPERATION_UTF16_TO_UTF8 = 5,                    /* writes what fits */
    FACTC_OPERATION_LATIN1_TO_UTF8 = 6,                   /* writes what fits */
    FACTC_OPERATION_UTF8_TO_LATIN1 = 7,                   /* writes up to a scalar value above 255 */
    FACTC_OPERATION_UTF16_TO_LATIN1 = 8,                  /* writes up to a scalar value above 255 */
    FACTC_OPERATION_UTF8_TO_COMPACT_UTF16 = 9,            /* widens Latin-1 in place, and writes all behind it */
    FACTC_OPERATION_UTF16_TO_COMPACT_UTF16 = 10,          /* the same */
    FACTC_OPERATION_UTF16_TO_COMPACT_PROBABLY_UTF16 = 11 /* Latin-1 where all of it can be, else UTF-16 */
};

#define FACTC_TRANSCODE_UTF8_TO_UTF8 "utf8-to-utf8"                                       /* copies all */
#define FACTC_TRANSCODE_UTF16_TO_UTF16 "utf16-to-utf16"                                   /* copies all */
#define FACTC_TRANSCODE_LATIN1_TO_LATIN1 "latin1-to-latin1"                               /* copies all */
#define FACTC_TRANSCODE_LATIN1_TO_UTF16 "latin1-to-utf16"                                 /* writes all of it as UTF-16 */
#define FACTC_TRANSCODE_UTF8_TO_UTF16 "utf8-to-utf16"                                     /* writes all of it as UTF-16 */
#define FACTC_TRANSCODE_UTF16_TO_UTF8 "utf16-to-utf8"                                     /* writes what fits */
#define FACTC_TRANSCODE_LATIN1_TO_UTF8 "latin1-to-utf8"                                   /* writes what fits */
#define FACTC_TRANSCODE_UTF8_TO_LATIN1 "utf8-to-latin1"                                   /* writes up to a scalar value above 255 */
#define FACTC_TRANSCODE_UTF16_TO_LATIN1 "utf16-to-latin1"                                 /* writes up to a scalar value above 255 */
#define FACTC_TRANSCODE_UTF8_TO_COMPACT_UTF16 "utf8-to-compact-utf16"                     /* widens Latin-1 in place, and writes all behind it */
#define FACTC_TRANSCODE_UTF16_TO_COMPACT_UTF16 "utf16-to-compact-utf16"                   /* the same */
#define FACTC_TRANSCODE_UTF16_TO_COMPACT_PROBABLY_UTF16 "utf16-to-compact-probably-utf16" /* Latin-1 where all of it can be, else UTF-16 */

#define FACTC_TRANSCODE_TYPE_UTF8_TO_UTF8 "(Pi, Pi, Pj) -> ()"                      /* no answer */
#define FACTC_TRANSCODE_TYPE_UTF16_TO_UTF16 "(Pi, Pi, Pj) -> ()"                    /* no answer */
#define FACTC_TRANSCODE_TYPE_LATIN1_TO_LATIN1 "(Pi, Pi, Pj) -> ()"                  /* no answer */
#define FACTC_TRANSCODE_TYPE_LATIN1_TO_UTF16 "(Pi, Pi, Pj) -> ()"                   /* no answer */
#define FACTC_TRANSCODE_TYPE_UTF8_TO_UTF16 "(Pi, Pi, Pj) -> (Pj)"                   /* units written */
#define FACTC_TRANSCODE_TYPE_UTF16_TO_UTF8 "(Pi, Pi, Pj, Pj, i32) -> (Pi, Pj)"      /* room in bytes, 1 in the first pass, else 0; units read, bytes written */
#define FACTC_TRANSCODE_TYPE_LATIN1_TO_UTF8 "(Pi, Pi, Pj, Pj, i32) -> (Pi, Pj)"     /* the same */
#define FACTC_TRANSCODE_TYPE_UTF8_TO_LATIN1 "(Pi, Pi, Pj) -> (Pi, Pj)"              /* units read, bytes written */
#define FACTC_TRANSCODE_TYPE_UTF16_TO_LATIN1 "(Pi, Pi, Pj) -> (Pi, Pj)"             /* units read, bytes written */
#define FACTC_TRANSCODE_TYPE_UTF8_TO_COMPACT_UTF16 "(Pi, Pi, Pj, Pj, Pj) -> (Pj)"   /* room in units, Latin-1 bytes that are there; units in all */
#define FACTC_TRANSCODE_TYPE_UTF16_TO_COMPACT_UTF16 "(Pi, Pi, Pj, Pj, Pj) -> (Pj)"  /* the same */
#define FACTC_TRANSCODE_TYPE_UTF16_TO_COMPACT_PROBABLY_UTF16 "(Pi, Pi, Pj) -> (Pj)" /* the source's length, with FACTC_UTF16_TAG for UTF-16 */

/* ---- Exports (this project, docs/IMPORTS.md, "Async adapters") ----

   A sync adapter, and an async one within one instance, exports its name. An async adapter between two instances exports these besides, each with its
   name behind it. */

#define FACTC_EXPORT_ASYNC_START "[async-start]"       /* moves the parameters */
#define FACTC_EXPORT_ASYNC_RETURN "[async-return]"     /* moves the results */
#define FACTC_EXPORT_ADAPTER_CALLEE "[adapter-callee]" /* the callee */

#endif
