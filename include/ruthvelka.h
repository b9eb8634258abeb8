/* ruthvelka.h: validation of WebAssembly modules, for C and C++.

   A module is accepted exactly where it is valid under the WebAssembly Core Specification 3.0 and
   the enabled proposals, within fixed limits, and has nothing that is left out. docs/THEOREM.md of
   the repository has the exact statement. All of the library but c/ (some 500 lines of C that
   test the arguments, pass these calls on, write outcomes and take memory) has proofs, which
   docs/PROVED.md lists; whether they were run for the library at hand is what the file PROVED says,
   which bin/build-c leaves beside it, or the file PROOF of a release.

   How to use it. A program that loads modules makes a validator, gives it one module after
   another, keeps the types of those that it accepts, and asks these what may be linked:

       struct ruthvelka_validator validator = RUTHVELKA_NOTHING;
       struct ruthvelka_types types = RUTHVELKA_NOTHING;
       if (ruthvelka_validator_new(&validator, RUTHVELKA_STANDARD, NULL) != RUTHVELKA_STATUS_DONE)
           return out_of_memory();
       if (ruthvelka_validator_validate(&validator, bytes, length, NULL, 0, NULL, &types)
           == RUTHVELKA_STATUS_VALID)
           run(bytes, length, &types);
       ruthvelka_types_release(&types);
       ruthvelka_validator_free(&validator);

   It fails closed. No status is 0, so neither memory that is zero nor an outcome that was never
   written reads as valid. A call that has an outcome writes it, whatever its status is, unless its
   size ends before its function does. Compare with the one status that lets you go on:
   == RUTHVELKA_STATUS_VALID, and not != REFUSED.

   Handles. `struct ruthvelka_validator` and `struct ruthvelka_types` are handles: places that only
   these calls read and write. The library trusts its caller for three things, which it can't test:
   - a handle begins as RUTHVELKA_NOTHING (or all bytes 0), and then holds what these calls wrote;
   - it is moved and never copied: of two copies only one is used from the next call on, and
     ruthvelka_types_retain is how two handles come to share types;
   - a validator, and all handles that hold types from it, stay on one thread.

   What a call fills has to hold nothing before. A handle that was freed holds nothing: each call
   on it that has a status says RUTHVELKA_STATUS_WRONG, each question is answered with
   RUTHVELKA_NO, and to free it again does nothing. Types live on when their validator is freed.

   Ids. Each type has an id, a number below 1,048,576. Under RUTHVELKA_STANDARD two types of
   modules of one validator have one id exactly where they are equal, and an id means the same as
   long as the validator lives, whatever it validates meanwhile, and as long as types from it are
   held. Ids of different validators say nothing of one another. The modules of one validator may
   have at most 1,048,576 different types: one that has more is refused.

   A validator that fails. Behind a module that is valid up to its bodies the validator goes on,
   with that module's types, whatever its bodies are. Any other module that it refuses, and memory
   that it is refused within a module, may leave it unable to go on: it then says
   RUTHVELKA_STATUS_FAILED, and says so for good. Types that it gave keep what they are. A host
   whose modules come from strangers asks ruthvelka_check about each of them first, by itself and
   under the same features. One way is left then: a module with more different types than the
   validator has ids left fails it too. So such a host counts the types that it lets in, which are
   at most `types` of each outcome, or makes a new validator.

   Structures that grow. One that is read or written begins with its size, which the caller sets:
   `struct ruthvelka_outcome outcome = {.size = sizeof outcome};` in C, and in C++
   `struct ruthvelka_outcome outcome = {};` and then `outcome.size = sizeof outcome;`. A later
   version of the library writes no more than that size, and an earlier one no more than it knows,
   so set the others to 0 before. Of an array of structures the caller sets the size of the first
   item, which is that of each. ruthvelka_side_entry and ruthvelka_body_table have no size of their
   own: it stands in the table or the totals, and has to be the one that the library knows.

   Memory comes from malloc, realloc and free; in a call on a handle from the allocator that its
   validator was made with, if it was made with one; and in a call without a handle from what
   ruthvelka_set_allocator was given. Where a request is refused the status is
   RUTHVELKA_STATUS_NO_MEMORY, unless the call can do without that memory: then it is the right
   one, without a message where only that wanted it. All that was taken is given back, but for what
   handles hold.

   Messages. The message of a refusal is UTF-8, without a zero behind it. It may quote a name of
   the module: "duplicate export name `a` already defined". The name is the module's, and may hold
   any characters: line feeds, escape sequences of terminals, zeros, marks that change the
   direction of text. So a message about a module that isn't trusted has to be escaped before it
   goes to a terminal, a log or a page.

   Threads. Calls on different validators, and on types from different ones, and all calls without
   a handle but ruthvelka_set_allocator, may run side by side. What a call is given belongs to it
   until it returns; bytes and lists of modules are only read, so calls may share them. Make no
   call in a signal handler, and none in an allocator. The bodies of a module are validated by the
   call on the module: what a validator holds counts its holders without locks, so that two
   threads can't read it. Threads validate several modules side by side, each by a validator of
   its own.

   Wrong calls. A pointer may be null where its count is 0; an outcome, and the handle for the types
   of a module, may always be null. Any other null pointer, a count of items that no object can have
   (more than PTRDIFF_MAX bytes), an outcome whose size ends before its function does, an array whose
   items are of another size than this library knows, a handle to be filled that holds something,
   and a bit of `features` that no feature has make the status RUTHVELKA_STATUS_WRONG, and nothing
   is written but an outcome. Calls that give no status say themselves what they do. Arrays that are
   written need not be initialized.

   Arrays that are written. Each comes with the count of items that there is room for in it. No
   more are written, and what is behind them stays as it was. The outcome says how many there are:
   where that is more than there was room for, the call can be made again with a larger array.

   Gates. With RUTHVELKA_CRATE_LIMITS a function type has at most 1,000 parameters and 1,000
   results, a structure type 10,000 fields, a try_table 10,000 catch clauses, and a name of an
   import or export 100,000 bytes, and the work on a body is at most a constant times its bytes
   times 10,000, the limit on fields, and linear for all that compilers write; without it, it is the
   product of the parameters, results and fields of types and the operators and functions that have
   them. That is measured, not proved, and 100,000 bytes can still take some 40 seconds or 400
   megabytes. While a list grows, an allocator of the host's own is asked for up to three times
   that, since the old list and the new one stand together. A handle takes some three kilobytes,
   however small its module is. A host that takes modules from strangers sets
   RUTHVELKA_CRATE_LIMITS, leaves RUTHVELKA_COMPACT_IMPORTS out, limits the bytes of a module, and
   ends what takes too long, as by a process of its own. A refusal by one of these limits has no
   proposal in missing_features: what would lift it is to leave RUTHVELKA_CRATE_LIMITS out.

   Left out. Components are refused under all features. These are refused without a feature of
   their own, which RUTHVELKA_STANDARD doesn't have:
   - the operators on vectors other than v128.const, without RUTHVELKA_VECTOR_OPERATORS;
   - the atomic operators on memories and atomic.fence, without RUTHVELKA_ATOMIC_OPERATORS;
   - try, catch, catch_all, rethrow and delegate, the operators of legacy exceptions, without
     RUTHVELKA_LEGACY_EXCEPTIONS;
   - i64.add128, i64.sub128, i64.mul_wide_s and i64.mul_wide_u, the operators of wide arithmetic,
     without RUTHVELKA_WIDE_ARITHMETIC;
   - memory.discard, without RUTHVELKA_MEMORY_CONTROL;
   - ref.get_desc, and the casts and branches by descriptors, without
     RUTHVELKA_DESCRIPTOR_OPERATORS;
   - the atomic accesses to globals, tables, structures and arrays, and pause, without
     RUTHVELKA_SHARED_ATOMIC_OPERATORS;
   - the operators of stack switching, without RUTHVELKA_STACK_SWITCHING_OPERATORS; continuation
     types are validated with RUTHVELKA_STACK_SWITCHING alone;
   - entries of the import section that have several imports, without RUTHVELKA_COMPACT_IMPORTS.
   A refusal for want of one of the last six has no proposal in missing_features: their opcodes
   count as unassigned then, and so does the byte that such an entry has where the kind of a
   single import stands.

   Trust. Besides what stands under "Handles", the library trusts its caller for what C can't test:
   that each pointer is of as many items as its count says, that what a call writes overlaps
   nothing else that it is given, and that nothing changes the bytes while it runs. It trusts the
   Rattle toolchain, the C compiler, and malloc or the host's own functions for memory. It trusts
   nothing in the bytes of a module.

   Build with `pkg-config --cflags --libs ruthvelka`, or with include/ in the path and
   libruthvelka.a. Behind `bin/build-c FOLDER` pkg-config needs PKG_CONFIG_PATH=FOLDER, and a
   program with the shared library runs with LD_LIBRARY_PATH=FOLDER; the file PROVED in that folder
   says `proved` or `not proved`, and which commit it was built of. The library is for x86-64 Linux
   (x86-64-v2). The static one has other functions too whose names begin with rattle_ or ruthvelka_:
   a program that is linked with it has none such. */
#ifndef RUTHVELKA_H
#define RUTHVELKA_H

#include <stddef.h>
#include <stdint.h>

#ifdef __cplusplus
extern "C" {
#endif

/* The version that this header is of: major * 1000000 + minor * 1000 + patch. */
#define RUTHVELKA_VERSION 1000

/* The features, as bits of a set: the proposals, and CRATE_LIMITS. ruthvelka_feature and
   ruthvelka_feature_name have them by name. */
#define RUTHVELKA_MUTABLE_GLOBAL (UINT64_C(1) << 0) /* mutable globals are imported and exported */
#define RUTHVELKA_REFERENCE_TYPES (UINT64_C(1) << 1)
    /* values that are references, and more than one table */
#define RUTHVELKA_MULTI_VALUE (UINT64_C(1) << 2) /* more than one result */
#define RUTHVELKA_BULK_MEMORY (UINT64_C(1) << 3) /* passive segments, and the data count section */
#define RUTHVELKA_SIMD (UINT64_C(1) << 4) /* vectors of 128 bits */
#define RUTHVELKA_THREADS (UINT64_C(1) << 5) /* shared memories */
#define RUTHVELKA_SHARED_EVERYTHING_THREADS (UINT64_C(1) << 6)
    /* types, tables and globals that are shared between threads */
#define RUTHVELKA_FLOATS (UINT64_C(1) << 7) /* floating-point types */
#define RUTHVELKA_MULTI_MEMORY (UINT64_C(1) << 8) /* more than one memory */
#define RUTHVELKA_EXCEPTIONS (UINT64_C(1) << 9) /* tags, and references to exceptions */
#define RUTHVELKA_MEMORY64 (UINT64_C(1) << 10)
    /* memories and tables whose addresses have 64 bits */
#define RUTHVELKA_EXTENDED_CONST (UINT64_C(1) << 11)
    /* add, sub and mul of integers in constant expressions */
#define RUTHVELKA_FUNCTION_REFERENCES (UINT64_C(1) << 12)
    /* references to types by index, and ones that may not be null */
#define RUTHVELKA_GC (UINT64_C(1) << 13) /* recursion groups, sub types, structures and arrays */
#define RUTHVELKA_GC_TYPES (UINT64_C(1) << 14)
    /* structure, array, continuation types; references but to functions and exceptions */
#define RUTHVELKA_CUSTOM_PAGE_SIZES (UINT64_C(1) << 15) /* memories with a written page size */
#define RUTHVELKA_CUSTOM_DESCRIPTORS (UINT64_C(1) << 16)
    /* descriptor clauses, struct.new_desc, exact references; see DESCRIPTOR_OPERATORS */
#define RUTHVELKA_STACK_SWITCHING (UINT64_C(1) << 17)
    /* continuation types, and tags with results; see STACK_SWITCHING_OPERATORS */
#define RUTHVELKA_COMPONENT_MODEL (UINT64_C(1) << 18) /* components, which are not validated */
#define RUTHVELKA_VECTOR_OPERATORS (UINT64_C(1) << 19)
    /* the operators on vectors, also the relaxed ones; they need SIMD too */
#define RUTHVELKA_ATOMIC_OPERATORS (UINT64_C(1) << 20)
    /* the atomic operators on memories and atomic.fence; they need THREADS too */
#define RUTHVELKA_LEGACY_EXCEPTIONS (UINT64_C(1) << 21)
    /* try, catch, catch_all, rethrow and delegate; they need EXCEPTIONS too */
#define RUTHVELKA_CRATE_LIMITS (UINT64_C(1) << 22)
    /* no proposal: the limits of the Rust crate's readers; see "Gates" */
#define RUTHVELKA_WIDE_ARITHMETIC (UINT64_C(1) << 23)
    /* sums, differences and products of integers of 128 bits */
#define RUTHVELKA_MEMORY_CONTROL (UINT64_C(1) << 24)
    /* memory.discard, which gives up the content of pages */
#define RUTHVELKA_DESCRIPTOR_OPERATORS (UINT64_C(1) << 25)
    /* ref.get_desc, casts and branches by descriptors; they need CUSTOM_DESCRIPTORS too */
#define RUTHVELKA_SHARED_ATOMIC_OPERATORS (UINT64_C(1) << 26)
    /* pause, atomic access to globals, tables, structures, arrays; need SHARED_EVERYTHING_THREADS */
#define RUTHVELKA_STACK_SWITCHING_OPERATORS (UINT64_C(1) << 27)
    /* the operators on continuations; they need STACK_SWITCHING too */
#define RUTHVELKA_COMPACT_IMPORTS (UINT64_C(1) << 28)
    /* entries of the import section that have several imports of one module */
/* All but SHARED_EVERYTHING_THREADS, CUSTOM_PAGE_SIZES, CUSTOM_DESCRIPTORS, STACK_SWITCHING,
   COMPONENT_MODEL, VECTOR_OPERATORS, ATOMIC_OPERATORS, LEGACY_EXCEPTIONS, WIDE_ARITHMETIC,
   MEMORY_CONTROL, DESCRIPTOR_OPERATORS, SHARED_ATOMIC_OPERATORS, STACK_SWITCHING_OPERATORS and
   COMPACT_IMPORTS; and without CRATE_LIMITS. That is the Core Specification 3.0, but for two things:
   the operators on vectors other than v128.const are missing, which RUTHVELKA_VECTOR_OPERATORS adds;
   and RUTHVELKA_THREADS is on, so memories may be shared, which the specification has not. */
#define RUTHVELKA_STANDARD UINT64_C(32703)

/* ruthvelka_version: the version of the library that is linked, as RUTHVELKA_VERSION is that of
   the header. It may be called at any time, in any thread.

       if (ruthvelka_version() / 1000 != RUTHVELKA_VERSION / 1000) return wrong_library(); */
uint32_t ruthvelka_version(void);

/* ruthvelka_feature: the bit of the feature with this name, of `length` bytes: the name of the
   macro above without RUTHVELKA_, in capitals. It is 0 where there is no feature of the name, the
   name is null, or `length` is more than PTRDIFF_MAX. It may be called at any time, in any thread.

       uint64_t features = RUTHVELKA_STANDARD | ruthvelka_feature("CUSTOM_PAGE_SIZES", 17); */
uint64_t ruthvelka_feature(const char *name, size_t length);

/* ruthvelka_feature_name: writes the name of the feature with this bit, as far as there is room,
   without a zero behind it, and gives the length of the whole name. That is 0, and nothing is
   written, where no feature has just this bit, `name` is null and `room` isn't 0, or `room` is
   more than PTRDIFF_MAX. It may be called at any time, in any thread.

       char name[32];
       size_t length = ruthvelka_feature_name(report.missing_features, name, sizeof name);
       if (length) printf("it wants %.*s\n", (int)length, name); */
size_t ruthvelka_feature_name(uint64_t feature, char *name, size_t room);

/* ---------------------------------- Statuses, and what is told ---------------------------------

   What a call says. None is 0, and none is a number that version 1 has. */
#define RUTHVELKA_STATUS_DONE 16      /* it was done */
#define RUTHVELKA_STATUS_VALID 17     /* the bytes are a valid module */
#define RUTHVELKA_STATUS_REFUSED 18   /* the bytes are no valid module */
#define RUTHVELKA_STATUS_NO_MEMORY 19 /* memory was refused: nothing is said of the bytes */
#define RUTHVELKA_STATUS_FAILED 20    /* the validator can't go on: see "A validator that fails" */
#define RUTHVELKA_STATUS_WRONG 21     /* the call is wrong: see "Wrong calls" */

/* The answers to a question. */
#define RUTHVELKA_NO 0
#define RUTHVELKA_YES 1

/* In place of a function's index, where it is no body that is refused. */
#define RUTHVELKA_NO_FUNCTION UINT32_MAX

/* What a call tells of a module. All but the size is written, as far as the size goes. */
struct ruthvelka_outcome {
    /* given: sizeof(struct ruthvelka_outcome) */
    uint64_t size;
    /* as the call's result */
    uint32_t status;
    /* refused for a body: the index of its function, imported ones counted; else
       RUTHVELKA_NO_FUNCTION */
    uint32_t function;
    /* refused: of the byte that is wrong, from the first byte; else 0 */
    uint64_t offset;
    /* refused: the proposal without which it is, as a bit; 0 where none is known to lift it */
    uint64_t missing_features;
    /* refused: how many bytes the whole message has, also where the room was less; else 0 */
    uint64_t message_length;
    /* how many of each the module has, imported ones among them; 0 unless the status is
       RUTHVELKA_STATUS_VALID or RUTHVELKA_STATUS_DONE */
    uint64_t imports, exports;
    uint32_t types, functions, tables, memories, globals, tags;
    /* ruthvelka_types_externs: how many bytes the names have; of any other call 0 */
    uint64_t names_length;
};

/* ruthvelka_check: whether `length` bytes are a valid module under these features, by themselves.

   It writes the message of a refusal into `message`, as far as there is room, and nothing behind
   it changes; where there is less room than that, the text may end within a character. The message
   is empty where memory for it is refused. The outcome tells the rest. It keeps nothing.

   Result: VALID, REFUSED, NO_MEMORY or WRONG. Threads: any, side by side. Memory: as of calls
   without a handle (ruthvelka_set_allocator).

       struct ruthvelka_outcome outcome = {.size = sizeof outcome};
       char text[200];
       if (ruthvelka_check(bytes, length, RUTHVELKA_STANDARD, text, sizeof text, &outcome)
           == RUTHVELKA_STATUS_REFUSED) {
           uint64_t all = outcome.message_length;
           printf("at byte %llu: ", (unsigned long long)outcome.offset);
           print_escaped(text, all < sizeof text ? (size_t)all : sizeof text);
       } */
uint32_t ruthvelka_check(const uint8_t *bytes, size_t length, uint64_t features, char *message,
    size_t message_room, struct ruthvelka_outcome *outcome);

/* ----------------------------------------- Side tables -----------------------------------------

   For interpreters that run bodies in place, over the bytes of the module: where each branch goes,
   and what it does with the operands. All offsets count from the module's first byte, and have 32
   bits. examples/c/in_place.c of the repository is such an interpreter, of some operators. */

/* One branch. The entries of a body come in the order of its instructions, those of one instruction
   in the order of its labels: one for each br, br_if, if, else, br_on_null, br_on_non_null,
   br_on_cast and br_on_cast_fail, by descriptors or not; one for each label of a br_table, the
   default last; one for each clause of a try_table, and for each handler of a resume, resume_throw
   or resume_throw_ref that names a label; and one for each catch and catch_all of a `try`. */
struct ruthvelka_side_entry {
    uint32_t at;      /* the offset of the instruction that branches */
    uint32_t target;  /* the offset of the instruction to go on with: to the label of a loop, that
                         behind `loop` and its type; to that of another block, behind its `end` or
                         `delegate`; to that of the body itself, the table's `end`, where there is
                         no instruction: the function returns with the operands that are kept */
    uint32_t next;    /* how many entries come before that one: where to go on in the table; to the
                         label of the body itself, all `entries` of the table */
    uint32_t kept;    /* how many operands are kept, from the top */
    uint32_t dropped; /* how many operands below these are dropped */
};

/* What is told of a table. All but the sizes is written. */
struct ruthvelka_side_table {
    uint64_t size;       /* given: sizeof(struct ruthvelka_side_table) */
    uint64_t entry_size; /* given: sizeof(struct ruthvelka_side_entry) */
    uint64_t entries;    /* how many entries there are, also where the room was less */
    uint32_t first;      /* the offset of the body's first instruction, behind its locals */
    uint32_t end;        /* the offset behind its last instruction, an `end` */
    uint32_t operands;   /* how many operands it has at most at once */
    uint32_t locals;     /* how many locals it has, parameters included */
};

/* ruthvelka_side_table: the side table of the body of the function with this index, imported ones
   counted, in a module that is valid under these features, by itself. Its entries are written as
   far as there is room, and nothing behind them changes; the table, which may be null where there
   is no room for entries, tells how many there are. `length` entries are always enough. Message and
   outcome are as of ruthvelka_check.

   A body begins at `first`, with entry 0. A branch that is taken goes on at `target`, with the
   entry `next`. Where an instruction doesn't branch it goes on behind itself, with the entry behind
   all its own: so does a try_table that is entered, or a resume whose continuation returns. An `if`
   branches where its condition is 0, to behind its `else` or its `end`; an `else` or a catch that
   is reached from above branches to behind the `end`. `return` and calls have no entry: how many
   values a function takes and gives, and so how many of its locals are parameters,
   ruthvelka_types_signature says, of a validator's types.

   Operands. What is taken first counts neither as kept nor as dropped: the condition of br_if and
   if, the index of br_table, the null of br_on_null, the descriptor of a branch by descriptors. The
   reference of br_on_non_null, br_on_cast and br_on_cast_fail is among those that are kept. In code
   that isn't reached there may be fewer operands than a branch keeps, and it drops none then.

   Clauses and handlers. A clause of a try_table keeps what it gives to its label: the values of the
   exception, and the reference to it if the clause gives one. They stand on the operands that were
   below the parameters of the try_table, of which `dropped` go. A handler of a resume keeps the
   values of its tag and the continuation, on the operands that were below what the resume takes.
   What is dropped goes first: with it there may be more than `operands` at once. No table tells
   where a try_table ends, and so how long its clauses catch, nor to which catch of a `try` an
   exception goes: the blocks in the bytes say so.

   The whole module is validated first, so that each call takes as long as ruthvelka_check and more:
   ruthvelka_side_tables makes the tables of all bodies in one.

   Result: DONE; REFUSED, where the module isn't valid; NO_MEMORY; or WRONG. WRONG too where the
   module is valid and has no body of that function, as where it is imported, or one whose end lies
   past 4 GiB; where there is room for entries and no table; and where the table's size ends before
   its locals do, or its entries have another size. Where it isn't DONE nothing else is written than
   the outcome, and the message where it is REFUSED. Threads: any, side by side. Memory: as of calls
   without a handle (ruthvelka_set_allocator).

       struct ruthvelka_side_table table = {.size = sizeof table,
           .entry_size = sizeof(struct ruthvelka_side_entry)};
       struct ruthvelka_side_entry entries[64];
       if (ruthvelka_side_table(bytes, length, RUTHVELKA_STANDARD, function, NULL, 0, NULL, &table,
               entries, 64) == RUTHVELKA_STATUS_DONE
           && table.entries <= 64)
           interpret(bytes, &table, entries); */
uint32_t ruthvelka_side_table(const uint8_t *bytes, size_t length, uint64_t features,
    uint32_t function, char *message, size_t message_room, struct ruthvelka_outcome *outcome,
    struct ruthvelka_side_table *table, struct ruthvelka_side_entry *entries, size_t entry_room);

/* What is told of the table of one body among those of all. */
struct ruthvelka_body_table {
    uint64_t start;    /* how many entries the bodies before have: its own stand behind them */
    uint64_t entries;  /* how many entries it has */
    uint32_t first;    /* the offset of the body's first instruction, behind its locals */
    uint32_t end;      /* the offset behind its last instruction, an `end` */
    uint32_t operands; /* how many operands it has at most at once */
    uint32_t locals;   /* how many locals it has, parameters included */
    uint32_t function; /* the index of its function, imported ones counted */
    uint32_t reserved; /* 0 */
};

/* How many tables and entries a module has. All but the sizes is written. */
struct ruthvelka_side_tables {
    uint64_t size;       /* given: sizeof(struct ruthvelka_side_tables) */
    uint64_t table_size; /* given: sizeof(struct ruthvelka_body_table) */
    uint64_t entry_size; /* given: sizeof(struct ruthvelka_side_entry) */
    uint64_t tables;     /* how many bodies the module has, also where the room was less */
    uint64_t entries;    /* how many entries they have together, also where the room was less */
};

/* ruthvelka_side_tables: the side tables of all bodies of a module that is valid under these
   features, by itself. What is told of each body's table is written in the order of the bodies, and
   the entries of all, one body's behind the other's: each as far as there is room, and nothing
   behind them changes. The totals, which may be null where there is room for neither, tell how many
   there are. `length` tables and `length` entries are always enough. The `next` of an entry counts
   within its body: the entry behind a branch is `entries[tables[i].start + next]`. Message and
   outcome are as of ruthvelka_check.

   The module is validated once, and its tables are made meanwhile, however many bodies there are:
   so for compiled code a call takes less than twice as long as ruthvelka_check, and for code of
   branches alone up to seven times as long. The example below makes two calls, each of which takes
   that; one call with room for `length` of each, 60 bytes for each byte of the module, spares the
   second. A module that isn't valid is looked at twice, the first time up to where it isn't. What
   is told is kept until the module is known to be valid: so, whatever the room is, a call takes up
   to five times as much memory as all tables and entries, and some 40 bytes for each block that is
   open at once, besides what ruthvelka_check takes.

   Result: DONE; REFUSED, where the module isn't valid; NO_MEMORY; or WRONG. WRONG too where the
   module is valid and the end of a body lies past 4 GiB; where there is room and there are no
   totals; and where the totals' size ends before their entries do, or tables or entries have
   another size. Where it isn't DONE nothing else is written than the outcome, and the message where
   it is REFUSED. Threads: any, side by side. Memory: as of calls without a handle
   (ruthvelka_set_allocator).

       struct ruthvelka_side_tables totals = {.size = sizeof totals,
           .table_size = sizeof(struct ruthvelka_body_table),
           .entry_size = sizeof(struct ruthvelka_side_entry)};
       if (ruthvelka_side_tables(bytes, length, RUTHVELKA_STANDARD, NULL, 0, NULL, &totals, NULL, 0,
               NULL, 0) != RUTHVELKA_STATUS_DONE)
           return refuse();
       size_t table_room = (size_t)totals.tables, entry_room = (size_t)totals.entries;
       struct ruthvelka_body_table *tables = calloc(table_room + 1, sizeof *tables);
       struct ruthvelka_side_entry *entries = calloc(entry_room + 1, sizeof *entries);
       if (!tables || !entries
           || ruthvelka_side_tables(bytes, length, RUTHVELKA_STANDARD, NULL, 0, NULL, &totals,
                  tables, table_room, entries, entry_room) != RUTHVELKA_STATUS_DONE)
           return out_of_memory();
       for (size_t i = 0; i < table_room; i++)
           keep(bytes, &tables[i], entries + tables[i].start); */
uint32_t ruthvelka_side_tables(const uint8_t *bytes, size_t length, uint64_t features,
    char *message, size_t message_room, struct ruthvelka_outcome *outcome,
    struct ruthvelka_side_tables *totals, struct ruthvelka_body_table *tables, size_t table_room,
    struct ruthvelka_side_entry *entries, size_t entry_room);

/* ----------------------------------------- Validators ----------------------------------------- */

/* Where a validator takes memory from: functions of the host, which do what malloc, realloc and
   free do, and are given the host's `context` besides: a block for any size, aligned to each power
   of two up to 16 that divides the size, or null. They are called only while a call on a handle
   runs that goes back to them, in its thread. The structure is read where it stands, so it stays
   there, and as it is, until the last such handle holds nothing. */
struct ruthvelka_allocator {
    size_t size; /* given: sizeof(struct ruthvelka_allocator) */
    void *context;
    void *(*allocate)(void *context, size_t size);
    void *(*resize)(void *context, void *block, size_t size);
    void (*release)(void *context, void *block);
};

/* A handle that holds a validator, or nothing; and one that holds the types of a module. */
struct ruthvelka_validator {
    void *words[4];
};
struct ruthvelka_types {
    void *words[4];
};

/* How a handle begins. */
#define RUTHVELKA_NOTHING {{0, 0, 0, 0}}

/* ruthvelka_validator_new: makes a validator of modules under these features, with no types yet. A
   null allocator is malloc, realloc and free, whatever ruthvelka_set_allocator was given.

   Result: DONE; NO_MEMORY or WRONG, and the handle still holds nothing. WRONG too where the
   allocator lacks a function, or has a size that ends before its functions do. Threads: any.

       struct ruthvelka_allocator arena = {sizeof arena, &my_arena, take, resize, give_back};
       struct ruthvelka_validator validator = RUTHVELKA_NOTHING;
       if (ruthvelka_validator_new(&validator, RUTHVELKA_STANDARD, &arena) != RUTHVELKA_STATUS_DONE)
           return out_of_memory(); */
uint32_t ruthvelka_validator_new(struct ruthvelka_validator *validator, uint64_t features,
    const struct ruthvelka_allocator *allocator);

/* ruthvelka_validator_validate: whether `length` bytes are a valid module, by this validator,
   whose ids go on behind those of the modules before. Message and outcome are as of
   ruthvelka_check. The handle `types`, if it is not null, holds the module's types where the
   status is VALID, and else nothing.

   Result: VALID; REFUSED, also where there are too few ids left for the module's types; NO_MEMORY;
   FAILED, where the validator couldn't go on before, and then the bytes aren't looked at; or
   WRONG. Threads: the validator's.

       struct ruthvelka_types types[10] = {RUTHVELKA_NOTHING};
       for (int i = 0; i < 10; i++)
           if (ruthvelka_validator_validate(&validator, bytes[i], lengths[i], NULL, 0, &outcome,
                   &types[i]) != RUTHVELKA_STATUS_VALID)
               return refuse(i, &outcome); */
uint32_t ruthvelka_validator_validate(struct ruthvelka_validator *validator, const uint8_t *bytes,
    size_t length, char *message, size_t message_room, struct ruthvelka_outcome *outcome,
    struct ruthvelka_types *types);

/* ruthvelka_validator_types: makes `types`, which holds nothing, hold the types of the last module
   that this validator accepted, whatever it refused since. The validator itself holds them until it
   accepts the next one, or is freed.

   Result: DONE; NO_MEMORY or WRONG, and `types` still holds nothing. WRONG too where the validator
   has accepted no module yet. Threads: the validator's.

       struct ruthvelka_types types = RUTHVELKA_NOTHING;
       if (ruthvelka_validator_types(&validator, &types) == RUTHVELKA_STATUS_DONE)
           link(&types); */
uint32_t ruthvelka_validator_types(struct ruthvelka_validator *validator,
    struct ruthvelka_types *types);

/* ruthvelka_validator_reset: makes the validator ready for its next module, and says whether it
   can go on. Its types keep their ids. ruthvelka_validator_validate does the same by itself.

   Result: DONE, FAILED or WRONG. Threads: the validator's.

       if (ruthvelka_validator_reset(&validator) == RUTHVELKA_STATUS_FAILED)
           begin_anew(&validator); */
uint32_t ruthvelka_validator_reset(struct ruthvelka_validator *validator);

/* ruthvelka_validator_free: gives back what the validator has taken; the handle holds nothing
   then. Types from it live on. A null pointer, or a handle that holds nothing, is left alone.
   Threads: the validator's. */
void ruthvelka_validator_free(struct ruthvelka_validator *validator);

/* ------------------------------------------- Types -------------------------------------------- */

/* ruthvelka_types_retain: makes `copy`, which holds nothing, hold the same types as `types`. Each
   of the two is released by itself.

   Result: DONE; NO_MEMORY or WRONG, and `copy` still holds nothing. Threads: the validator's.

       struct ruthvelka_types instance = RUTHVELKA_NOTHING;
       if (ruthvelka_types_retain(&types, &instance) != RUTHVELKA_STATUS_DONE)
           return out_of_memory(); */
uint32_t ruthvelka_types_retain(struct ruthvelka_types *types, struct ruthvelka_types *copy);

/* ruthvelka_types_release: the handle holds nothing then; with the last handle that holds these
   types they are given back. A null pointer, or a handle that holds nothing, is left alone.
   Threads: the validator's. */
void ruthvelka_types_release(struct ruthvelka_types *types);

/* ruthvelka_types_ids: writes the ids of the module's types, by type index, and of the types of
   its functions, by function index, as far as there is room for each; the outcome tells how many
   there are.

   Result: DONE or WRONG. Threads: the validator's.

       uint32_t functions[64];
       struct ruthvelka_outcome outcome = {.size = sizeof outcome};
       if (ruthvelka_types_ids(&types, &outcome, NULL, 0, functions, 64) == RUTHVELKA_STATUS_DONE)
           for (uint32_t i = 0; i < outcome.functions && i < 64; i++)
               printf("function %u: type id %u\n", i, functions[i]); */
uint32_t ruthvelka_types_ids(struct ruthvelka_types *types, struct ruthvelka_outcome *outcome,
    uint32_t *type_ids, size_t type_room, uint32_t *function_ids, size_t function_room);

/* ruthvelka_types_is_subtype: whether the type with the first id is that with the second one, or
   is declared to be below it: equal to it, or to one that is reached from it by declared
   supertypes. Types match so in the standard (Validation, Matching, Defined Types). Both ids are
   of one validator, of this module or of one that it validated before; a later module's types know
   more.

   Result: RUTHVELKA_YES where this is so; RUTHVELKA_NO everywhere else, also where these types
   don't know an id, or the handle holds none. Threads: the validator's.

       if (ruthvelka_types_is_subtype(&types, given[i], wanted[j]) == RUTHVELKA_YES) call(i, j); */
uint32_t ruthvelka_types_is_subtype(struct ruthvelka_types *types, uint32_t first,
    uint32_t second);

/* The kinds of value types, and the abstract heap types that a reference may be to, by their
   numbers in the binary format. */
#define RUTHVELKA_I32 0x7f
#define RUTHVELKA_I64 0x7e
#define RUTHVELKA_F32 0x7d
#define RUTHVELKA_F64 0x7c
#define RUTHVELKA_V128 0x7b
#define RUTHVELKA_REFERENCE 0x64         /* a reference that isn't null */
#define RUTHVELKA_NULL_OR_REFERENCE 0x63 /* one that may be */
#define RUTHVELKA_HEAP_FUNC 0x70
#define RUTHVELKA_HEAP_EXTERN 0x6f
#define RUTHVELKA_HEAP_ANY 0x6e
#define RUTHVELKA_HEAP_EQ 0x6d
#define RUTHVELKA_HEAP_I31 0x6c
#define RUTHVELKA_HEAP_STRUCT 0x6b
#define RUTHVELKA_HEAP_ARRAY 0x6a
#define RUTHVELKA_HEAP_EXN 0x69
#define RUTHVELKA_HEAP_CONT 0x68
#define RUTHVELKA_HEAP_NONE 0x71
#define RUTHVELKA_HEAP_NOEXTERN 0x72
#define RUTHVELKA_HEAP_NOFUNC 0x73
#define RUTHVELKA_HEAP_NOEXN 0x74
#define RUTHVELKA_HEAP_NOCONT 0x75
#define RUTHVELKA_HEAP_ID 0 /* no abstract heap type: a type by its id */

/* What else a reference may say, as flags. */
#define RUTHVELKA_HEAP_IS_SHARED 1 /* the abstract heap type is shared between threads */
#define RUTHVELKA_HEAP_IS_EXACT 2  /* it is exactly the type with this id, and none below it */

/* A value type. What isn't said of its kind is 0, so two that were written are one where their
   bytes are. */
struct ruthvelka_value_type {
    uint64_t size;  /* given: sizeof(struct ruthvelka_value_type) */
    uint32_t kind;  /* RUTHVELKA_I32 and so on */
    uint32_t heap;  /* of a reference: what it is to */
    uint32_t id;    /* of a reference to a type by its id: the id */
    uint32_t flags; /* of a reference: RUTHVELKA_HEAP_IS_SHARED, RUTHVELKA_HEAP_IS_EXACT, or 0 */
};

/* ruthvelka_types_matches: whether the first value type matches the second one (Validation,
   Matching, Value Types), so that a value of the first may stand where one of the second is wanted.

   Result: RUTHVELKA_YES where this is so; RUTHVELKA_NO everywhere else, also where one of the two
   is null, is none, has a size that ends before its id does or an id that these types don't know,
   or the handle holds none. Threads: the validator's.

       struct ruthvelka_value_type given = {sizeof given, RUTHVELKA_REFERENCE,
           RUTHVELKA_HEAP_ID, id, 0};
       struct ruthvelka_value_type wanted = {sizeof wanted, RUTHVELKA_NULL_OR_REFERENCE,
           RUTHVELKA_HEAP_FUNC, 0, 0};
       if (ruthvelka_types_matches(&types, &given, &wanted) == RUTHVELKA_YES) store(); */
uint32_t ruthvelka_types_matches(struct ruthvelka_types *types,
    const struct ruthvelka_value_type *first, const struct ruthvelka_value_type *second);

/* ruthvelka_types_entity_may_be_given: whether export number `exported` of the first module may be
   given where import number `imported` of the second one asks for something: whether its external
   type matches that of the import (Validation, Matching, External Types): functions by declared
   supertypes, tags by equal types, globals, tables and memories by what they hold, their limits
   and their flags. Names aren't compared. Numbers are as ruthvelka_types_externs has them, from 0
   on. The two modules are of one validator, and the handles two places: for a module with itself
   ruthvelka_types_retain gives the second one.

   It takes time that grows with the numbers, so that to link each import of a module takes time
   that grows with the square of how many it has: 40,000 imports of four bytes took seven seconds. A
   host limits the imports of modules from strangers (`imports` of the outcome).

   Result: RUTHVELKA_YES where this is so; RUTHVELKA_NO everywhere else, also where there is no
   such export or import, the modules are of two validators, both handles are one place, or a handle
   holds no types. Threads: the validator's.

       if (ruthvelka_types_entity_may_be_given(&library, 0, &program, 3) == RUTHVELKA_YES)
           link_import(3, 0); */
uint32_t ruthvelka_types_entity_may_be_given(struct ruthvelka_types *exporter, uint32_t exported,
    struct ruthvelka_types *importer, uint32_t imported);

/* The kinds of what is imported and exported, by their numbers in the binary format. */
#define RUTHVELKA_FUNCTION 0
#define RUTHVELKA_TABLE 1
#define RUTHVELKA_MEMORY 2
#define RUTHVELKA_GLOBAL 3
#define RUTHVELKA_TAG 4
#define RUTHVELKA_EXACT_FUNCTION 32
    /* with CUSTOM_DESCRIPTORS: a function that has exactly its type, and not one below it */

/* In place of the id of a type, where it is neither a function nor a tag. */
#define RUTHVELKA_NO_ID UINT32_MAX

/* What else an import or an export may be, as flags. */
#define RUTHVELKA_HAS_MAXIMUM 1 /* a table or a memory: its size has a limit */
#define RUTHVELKA_HAS_64_BITS 2 /* a table or a memory: its addresses have 64 bits, and not 32 */
#define RUTHVELKA_IS_SHARED 4   /* a table, a memory or a global: threads may share it */
#define RUTHVELKA_IS_MUTABLE 8  /* a global: it can be written */

/* An import or an export: its names, which are parts of the text of all names, so many bytes from
   that start on; and its whole type. What its kind doesn't have is 0, but for the sizes. */
struct ruthvelka_extern_type {
    /* sizeof(struct ruthvelka_extern_type): given of the first item, and written */
    uint64_t size;
    /* an import: the name of the module that it is from; an export: the empty name */
    uint64_t module_start, module_length;
    /* its own name */
    uint64_t name_start, name_length;
    /* a table, in elements, or a memory, in pages: its limits */
    uint64_t minimum, maximum;
    /* RUTHVELKA_FUNCTION and so on */
    uint32_t kind;
    /* a function or a tag: the id of its function type; else RUTHVELKA_NO_ID */
    uint32_t type_id;
    /* RUTHVELKA_HAS_MAXIMUM and so on */
    uint32_t flags;
    /* a memory: the base-2 logarithm of a page's bytes, which is 16 unless the memory says another
       one */
    uint32_t page_size_log2;
    /* a table: the type of its elements; a global: that of what it holds */
    struct ruthvelka_value_type value;
};

/* ruthvelka_types_externs: writes the imports and the exports of the module, each with its whole
   type, and their names, as far as there is room for each. The outcome tells how many there are
   (imports, exports, names_length), and all else that it tells of a module.

   The exports come in their order. The imports come by their pairs of names (of the module, and
   their own), in the order in which the pairs first come, and those of one pair in their order: so
   in the order of the module, unless a pair comes again behind another one. A link or a question
   names an import or an export by its number here, from 0 on. The names stand in `names` one after
   another, those of imports first: UTF-8, without a zero behind them, and of any characters, as in
   a message. It takes time and memory that grow with all that there is, however little room there
   is; the length of the module's bytes is always enough for all names.

   Result: DONE; NO_MEMORY or WRONG, and none of the arrays changes. Threads: the validator's.

       struct ruthvelka_extern_type imports[64] = {{.size = sizeof imports[0]}};
       char names[4096];
       if (ruthvelka_types_externs(&types, &outcome, imports, 64, NULL, 0, names, sizeof names)
               == RUTHVELKA_STATUS_DONE
           && outcome.names_length <= sizeof names)
           for (uint64_t i = 0; i < outcome.imports && i < 64; i++)
               if (imports[i].kind == RUTHVELKA_MEMORY) {
                   if (imports[i].minimum > SIZE_MAX >> imports[i].page_size_log2)
                       return refuse();
                   reserve(imports[i].minimum << imports[i].page_size_log2);
               } */
uint32_t ruthvelka_types_externs(struct ruthvelka_types *types,
    struct ruthvelka_outcome *outcome, struct ruthvelka_extern_type *imports, size_t import_room,
    struct ruthvelka_extern_type *exports, size_t export_room, char *names, size_t name_room);

/* How many values a function of a type takes and gives. All but the size is written. */
struct ruthvelka_signature {
    uint64_t size;    /* given: sizeof(struct ruthvelka_signature) */
    uint64_t params;  /* how many values it takes */
    uint64_t results; /* how many it gives */
};

/* ruthvelka_types_signature: writes the types of the values that a function of the type with this
   id takes and gives, as far as there is room for each; the signature, which may be null, tells how
   many there are. The id is one of this validator's: of an import or an export, of
   ruthvelka_types_ids, or of a value type.

   Result: DONE; or WRONG, and nothing is written, also where these types know no function type
   under this id, or the signature's size ends before its results do. Threads: the validator's.

       struct ruthvelka_signature signature = {.size = sizeof signature};
       struct ruthvelka_value_type params[2] = {{.size = sizeof params[0]}};
       if (ruthvelka_types_signature(&types, imports[i].type_id, &signature, params, 2, NULL, 0)
               == RUTHVELKA_STATUS_DONE
           && signature.params == 2 && !signature.results && params[0].kind == RUTHVELKA_I32
           && params[1].kind == RUTHVELKA_I32)
           give_host_function(i, write_to_console); */
uint32_t ruthvelka_types_signature(struct ruthvelka_types *types, uint32_t id,
    struct ruthvelka_signature *signature, struct ruthvelka_value_type *params, size_t param_room,
    struct ruthvelka_value_type *results, size_t result_room);

/* ------------------------------- Sections, bodies, names ---------------------------------------

   Where parts of a module lie in its bytes, for a host that looks at them itself: it reads a custom
   section of its own, or compiles the bodies one by one. These calls need no more than that the
   bytes are divided into sections as a module is (Binary Format, Modules), and say nothing of
   whether it is valid: ruthvelka_check does. All offsets count from the first byte. */

/* There is no such thing. */
#define RUTHVELKA_STATUS_NONE 22

/* A custom section: its contents, from `start` up to but not including `end`, are the length of its
   name, the name, and its data. */
struct ruthvelka_custom_section {
    uint64_t size;       /* given: sizeof(struct ruthvelka_custom_section) */
    uint64_t start;      /* where its contents begin */
    /* its name: UTF-8, without a zero behind it, and of any characters */
    uint64_t name_start, name_length;
    uint64_t data_start; /* its data: all behind the name */
    uint64_t end;        /* the byte behind it */
};

/* ruthvelka_custom_sections: writes where the custom sections of a module lie, in their order, as
   far as there is room, and nothing behind them changes; `count`, which may be null, tells how many
   there are. Several may have one name. `length / 3` is always enough room. What a custom section
   holds is the module's own word: no rule of validation reads it.

   Result: DONE; or REFUSED, where the bytes aren't divided as a module's are, NO_MEMORY or WRONG:
   then the count is 0, and nothing is written. WRONG too where the size of the first item isn't
   that of this structure. Threads: any, side by side. Memory: as of ruthvelka_check.

       struct ruthvelka_custom_section sections[16] = {{.size = sizeof sections[0]}};
       uint64_t count;
       if (ruthvelka_custom_sections(bytes, length, &count, sections, 16) == RUTHVELKA_STATUS_DONE)
           for (uint64_t i = 0; i < count && i < 16; i++)
               if (sections[i].name_length == 11
                   && !memcmp(bytes + sections[i].name_start, "target_info", 11))
                   read_target(bytes + sections[i].data_start, bytes + sections[i].end); */
uint32_t ruthvelka_custom_sections(const uint8_t *bytes, size_t length, uint64_t *count,
    struct ruthvelka_custom_section *sections, size_t room);

/* The body of a function, from `start` up to but not including `end`: its locals and its
   instructions, without its size. */
struct ruthvelka_body {
    uint64_t size;  /* given: sizeof(struct ruthvelka_body) */
    uint64_t start; /* its first byte */
    uint64_t end;   /* the byte behind it */
};

/* ruthvelka_bodies: writes where the bodies of a module lie, in their order, as far as there is
   room, and nothing behind them changes; `count`, which may be null, tells how many there are. The
   first one is that of the first function that isn't imported.

   One body. There is no call that validates one body of a module alone. What bodies look up, the
   types and the index spaces of their module, has counts of its holders that are not atomic, so no
   two threads may read one module's, and handles over one snapshot would share these counts too:
   docs/DECISIONS.md of the repository has the whole reason, under "There is no call for one body".
   A host with several threads shares the bodies out by copies: each thread gets the module with
   each body that isn't its own made one that is valid for any function, of the same size: no
   locals, `unreachable`, and `nop` up to the `end` (00 00 01 .. 01 0b). A body of at most two bytes
   stays as it is: in bytes that aren't valid there may be one of none.
   Bodies are valid each by itself, under what the sections say (Validation, Modules), so the module
   is valid exactly where ruthvelka_check says so of each such copy.

   Result, threads and memory: as of ruthvelka_custom_sections.

       struct ruthvelka_body bodies[64] = {{.size = sizeof bodies[0]}};
       uint64_t count;
       if (ruthvelka_bodies(bytes, length, &count, bodies, 64) == RUTHVELKA_STATUS_DONE)
           for (uint64_t i = 0; i < count && i < 64; i++)
               compile(imported + i, bytes + bodies[i].start, bytes + bodies[i].end); */
uint32_t ruthvelka_bodies(const uint8_t *bytes, size_t length, uint64_t *count,
    struct ruthvelka_body *bodies, size_t room);

/* ruthvelka_function_name: writes the name that a module gives the function of this index, imported
   ones counted, as far as there is room, and nothing behind it changes; `name_length`, which may be
   null, tells how many bytes the whole name has. It is the first such name in the first custom
   section "name" (Appendix, Custom Sections, Name Section), if all before it can be read.

   Distrust it: it is the module's own word, and no rule of validation reads it. It may be the name
   of another function, or of several, or one that the host gives a meaning; it is UTF-8, without a
   zero behind it, and of any characters, so it has to be escaped, as a message.

   Result: DONE; or NONE, where there is no such name, REFUSED, where the bytes aren't divided as a
   module's are, or WRONG: then the length is 0, and nothing is written. It takes no memory. Each
   call goes over the whole module: ask for the name of the function that a message is about, and
   not of each function. Threads: any, side by side.

       char name[64];
       uint64_t all;
       if (ruthvelka_function_name(bytes, length, outcome.function, &all, name, sizeof name)
           == RUTHVELKA_STATUS_DONE)
           print_escaped(name, all < sizeof name ? (size_t)all : sizeof name); */
uint32_t ruthvelka_function_name(const uint8_t *bytes, size_t length, uint32_t function,
    uint64_t *name_length, char *name, size_t room);

/* ----------------------------------------- Version 1 -------------------------------------------

   The calls below but ruthvelka_set_allocator are deprecated: they stay for one version more.
   Their verdicts begin with 0 for a valid module, so a report that was set to 0 and never written
   reads as valid. ruthvelka_check has what ruthvelka_validate has, and handles have all else.
   What is said above of outcomes holds of their reports, which may be null; a wrong call gives
   RUTHVELKA_BAD_CALL, and writes nothing but its report, or for a list not even that. */

/* Verdicts. */
#define RUTHVELKA_VALID 0        /* the bytes are a valid module */
#define RUTHVELKA_REFUSED 1      /* the bytes are no valid module */
#define RUTHVELKA_NO_MEMORY 2    /* memory was refused: nothing is said of the bytes */
#define RUTHVELKA_NOT_CHECKED 3
    /* in a list: the module stands behind one that ended the list, and was not looked at */
#define RUTHVELKA_BAD_CALL 4     /* the call is wrong: see "Wrong calls" above */

/* What a call reports on a module. */
struct ruthvelka_report {
    uint64_t offset;           /* refused: of the byte that is wrong, from the first byte; else 0 */
    uint64_t missing_features; /* refused: the proposal without which it is, as a bit; 0 where none
                                  is known to lift it */
    uint64_t message_length;   /* refused: how many bytes the whole message has, also where the room
                                  was less; else 0 */
    uint64_t imports;          /* valid: how many imports the module has; of any other module this
                                  and all further counts are 0 */
    uint64_t exports;          /* how many exports */
    uint64_t names_length;     /* ruthvelka_validate_with_externs: how many bytes all names have; of
                                  any other call 0 */
    uint32_t verdict;          /* the same as the call's result */
    uint32_t function;         /* refused for a function's body: the function's index, imported ones
                                  counted; else RUTHVELKA_NO_FUNCTION */
    uint32_t types;            /* how many types */
    uint32_t functions;        /* functions, imported ones among them; and so on */
    uint32_t tables;
    uint32_t memories;
    uint32_t globals;
    uint32_t tags;
};

/* ruthvelka_validate: whether `length` bytes are a valid module under these features.

   It writes the message of a refusal into `message`, as far as there is room: UTF-8, without a
   zero behind it, and nothing behind it changes. Where there is less room than that, the text may
   end within a character. The message is empty where memory for it is refused. It gives the
   verdict and writes it into the report, with all else: VALID, REFUSED, NO_MEMORY or BAD_CALL.

   A message may quote a name of the module: "duplicate export name `a` already defined". The name
   is the module's, and may hold any characters: line feeds, escape sequences of terminals, zeros,
   marks that change the direction of text. So a message about a module that isn't trusted has to
   be escaped before it goes to a terminal, a log or a page.

       struct ruthvelka_report report;
       char text[200];
       if (ruthvelka_validate(bytes, length, RUTHVELKA_STANDARD, text, sizeof text, &report)
           == RUTHVELKA_REFUSED) {
           uint64_t all = report.message_length;
           printf("at byte %llu: ", (unsigned long long)report.offset);
           print_escaped(text, all < sizeof text ? (size_t)all : sizeof text);
       } */
uint32_t ruthvelka_validate(const uint8_t *bytes, size_t length, uint64_t features, char *message,
    size_t message_room, struct ruthvelka_report *report);

/* ruthvelka_validate_with_ids: the same, and of a valid module also the ids of its types, by type
   index, and of the types of its functions, by function index, as far as there is room for each.
   How many there are stands in the report, and nothing behind them changes. Where the module isn't
   valid neither array changes. Where a feature lets a type refer to another one, as in
   RUTHVELKA_STANDARD, two types have one id exactly where they are equal. Room for `length` ids is
   always enough.

       uint32_t type_ids[64], function_ids[64];
       if (ruthvelka_validate_with_ids(bytes, length, RUTHVELKA_STANDARD, NULL, 0, &report,
               type_ids, 64, function_ids, 64) == RUTHVELKA_VALID)
           for (uint32_t i = 0; i < report.functions && i < 64; i++)
               printf("function %u: type id %u\n", i, function_ids[i]); */
uint32_t ruthvelka_validate_with_ids(const uint8_t *bytes, size_t length, uint64_t features,
    char *message, size_t message_room, struct ruthvelka_report *report, uint32_t *type_ids,
    size_t type_room, uint32_t *function_ids, size_t function_room);

/* An import or an export. Its names are parts of the text of all names: so many bytes from that
   start on. */
struct ruthvelka_extern {
    uint64_t module_start;  /* an import: the name of the module that it is from; an export: the
                               empty name */
    uint64_t module_length;
    uint64_t name_start;    /* its own name */
    uint64_t name_length;
    uint32_t kind;          /* RUTHVELKA_FUNCTION and so on */
    uint32_t type_id;       /* a function or a tag: the id of its type; else RUTHVELKA_NO_ID */
};

/* ruthvelka_validate_with_externs: as ruthvelka_validate, and of a valid module also its imports,
   its exports and their names, as far as there is room for each. How many there are, and the
   length of all names, stand in the report, and nothing behind them changes. Where the module
   isn't valid none of the arrays changes.

   The exports come in their order. The imports come by their pairs of names (of the module, and
   their own), in the order in which the pairs first come, and those of one pair in their order: so
   in the order of the module, unless a pair comes again behind another one. This is how
   RUTHVELKA_MAY_BE_GIVEN numbers them too. The names stand in `names` one after another, those of
   imports first: UTF-8, without a zero behind them, and of any characters, as in a message. It
   takes memory for what it writes: where that is refused, the verdict is RUTHVELKA_NO_MEMORY and
   none of the arrays changes. `length` bytes are always enough for all names.

       struct ruthvelka_extern imports[64];
       char names[4096];
       if (ruthvelka_validate_with_externs(bytes, length, RUTHVELKA_STANDARD, NULL, 0, &report,
               imports, 64, NULL, 0, names, sizeof names) == RUTHVELKA_VALID
               && report.names_length <= sizeof names)
           for (uint64_t i = 0; i < report.imports && i < 64; i++)
               print_escaped(names + imports[i].name_start, (size_t)imports[i].name_length); */
uint32_t ruthvelka_validate_with_externs(const uint8_t *bytes, size_t length, uint64_t features,
    char *message, size_t message_room, struct ruthvelka_report *report,
    struct ruthvelka_extern *imports, size_t import_room, struct ruthvelka_extern *exports,
    size_t export_room, char *names, size_t name_room);

/* The bytes of one module of a list. */
struct ruthvelka_bytes {
    const uint8_t *bytes;
    size_t length;
};

/* ruthvelka_validate_list: validates modules in their order, which share one space of ids, so that
   ids compare across all of them: under RUTHVELKA_STANDARD two types have one id exactly where
   they are equal, whichever modules have them.

   It goes on behind each module that is valid up to its bodies, and stops at any other one. It
   writes a report on each module, as far as there is room, with no message and the verdict
   RUTHVELKA_NOT_CHECKED of those behind the last that was looked at; and the ids of the types, and
   of the types of the functions, of all valid modules, one module after another, as far as there
   is room: how many each has stands in its report.

   It gives RUTHVELKA_VALID where it did so, whatever the verdicts are; RUTHVELKA_NO_MEMORY where
   memory for the list itself was refused, and then nothing is written; or RUTHVELKA_BAD_CALL, also
   where the pointer of one of the modules is null and its length isn't 0. Together the modules may
   have at most 1,048,576 different types: one that has more is refused.

       struct ruthvelka_bytes modules[2] = {{exporter, sizeof exporter},
           {importer, sizeof importer}};
       struct ruthvelka_report reports[2];
       uint32_t ids[64];
       if (ruthvelka_validate_list(modules, 2, RUTHVELKA_STANDARD, reports, 2, NULL, 0, ids, 64)
               == RUTHVELKA_VALID
           && reports[0].verdict == RUTHVELKA_VALID && reports[1].verdict == RUTHVELKA_VALID)
           has_one_type = ids[given] == ids[reports[0].functions + wanted]; */
uint32_t ruthvelka_validate_list(const struct ruthvelka_bytes *modules, size_t module_count,
    uint64_t features, struct ruthvelka_report *reports, size_t report_room, uint32_t *type_ids,
    size_t type_room, uint32_t *function_ids, size_t function_room);

/* The kinds of questions. */
#define RUTHVELKA_IS_SUBTYPE 0   /* is the first type the second one, or declared to be below it? */
#define RUTHVELKA_MAY_BE_GIVEN 1 /* may the export be given where the import asks for something? */

/* A third answer, beside RUTHVELKA_YES and RUTHVELKA_NO, of questions about a list: one of the two
   isn't there, its module isn't valid or wasn't checked, or there is no such kind of question. */
#define RUTHVELKA_UNKNOWN 2

/* A question about two types, or about an export and an import, of modules of one list. A module
   is named by its place in the list, from 0 on. */
struct ruthvelka_query {
    uint32_t kind;          /* RUTHVELKA_IS_SUBTYPE or RUTHVELKA_MAY_BE_GIVEN */
    uint32_t first_module;
    uint32_t first;         /* a type index of the first module; or the number of one of its
                               exports, as ruthvelka_validate_with_externs has them */
    uint32_t second_module;
    uint32_t second;        /* a type index of the second module; or the number of one of its
                               imports */
    uint32_t answer;        /* written: RUTHVELKA_YES, RUTHVELKA_NO or RUTHVELKA_UNKNOWN; nothing
                               else of a question changes */
};

/* ruthvelka_validate_list_with_queries: as ruthvelka_validate_list, but it writes no ids, and
   answers questions about the valid modules of the list:

   - RUTHVELKA_IS_SUBTYPE: whether the first type is equal to the second one or to one above that
     is reached by declared supertypes. Types match so in the standard (Validation, Matching,
     Defined Types).
   - RUTHVELKA_MAY_BE_GIVEN: whether the export's external type matches that of the import
     (Validation, Matching, External Types): functions by declared supertypes, tags by equal types,
     globals, tables and memories by what they hold, their limits and their flags. Names aren't
     compared.

   It gives RUTHVELKA_VALID where it did so, whatever the verdicts and the answers are;
   RUTHVELKA_NO_MEMORY where memory for the list was refused, and then nothing is written; or
   RUTHVELKA_BAD_CALL. A question about an export or an import takes time that grows with its
   number.

       struct ruthvelka_query query = {.kind = RUTHVELKA_MAY_BE_GIVEN, .first_module = 0,
           .first = 0, .second_module = 1, .second = 0};
       if (ruthvelka_validate_list_with_queries(modules, 2, RUTHVELKA_STANDARD, reports, 2,
               &query, 1) == RUTHVELKA_VALID
           && query.answer == RUTHVELKA_YES)
           link(0, 1); */
uint32_t ruthvelka_validate_list_with_queries(const struct ruthvelka_bytes *modules,
    size_t module_count, uint64_t features, struct ruthvelka_report *reports, size_t report_room,
    struct ruthvelka_query *queries, size_t query_count);

/* ruthvelka_set_allocator: from now on memory comes from these three functions, which have to do
   what malloc, realloc and free do: a block for any size, aligned to each power of two up to 16
   that divides the size, or null. Any null argument sets malloc, realloc and free again. It isn't
   safe beside other calls: call it first, before any thread makes one.

       ruthvelka_set_allocator(arena_allocate, arena_resize, arena_release); */
void ruthvelka_set_allocator(void *(*allocate)(size_t size), void *(*resize)(void *block, size_t
    size), void (*release)(void *block));

#ifdef __cplusplus
}
#endif

#endif
