/* What talloc_replay.c and tevent_replay.c share. Each includes this file, has a table of the calls that it does on the
 * real libraries, and gives it to replay(), which reads a schedule line by line from the standard input and writes the
 * transcript to the standard output.
 *
 * How it sees what goes: libtalloc gives an object's block back by free() right after it has freed the children, which
 * is where a transcript says `freed`. So there is a free() here, and a malloc() that adds eight bytes to each block,
 * which say what the block was taken for. Nothing is added to an object or to its place in the tree, but where an
 * object is made below a request or its state object. */
#define _GNU_SOURCE
#include <malloc.h>
#include <stdbool.h>
#include <stdint.h>
#include <stdio.h>
#include <stdlib.h>
#include <string.h>
#include <unistd.h>

#include <talloc.h>

/* ---- The transcript ---- */

static char waiting[1 << 16]; /* what isn't written yet */
static size_t waiting_length;
static uint64_t line_number;

static void write_out(void) {
    if (fwrite(waiting, 1, waiting_length, stdout) != waiting_length || fflush(stdout) != 0)
        _exit(4);
    waiting_length = 0;
}

static void put_bytes(const char *bytes, size_t length) {
    if (waiting_length + length > sizeof waiting)
        write_out();
    memcpy(waiting + waiting_length, bytes, length);
    waiting_length += length;
}

static void put_text(const char *text) {
    put_bytes(text, strlen(text));
}

/* A space and a number. */
static void put_number(uint64_t number) {
    char digits[21];
    size_t first = sizeof digits;
    do {
        digits[--first] = (char)('0' + number % 10);
        number /= 10;
    } while (number != 0);
    digits[--first] = ' ';
    put_bytes(digits + first, sizeof digits - first);
}

/* A word or more, and a number after a space. */
static void put(const char *words, uint64_t number) {
    put_text(words);
    put_number(number);
}

/* Unless the condition holds, ends the program at the present line. What was told before it is written. */
static void need(bool condition, const char *otherwise) {
    if (condition)
        return;
    write_out();
    fprintf(stderr, "line %llu: %s\n", (unsigned long long)line_number, otherwise);
    _exit(3);
}

/* ---- The objects ---- */

/* A name with the number of its object in front: libtalloc keeps a pointer to `text`, and gives it for a pointer to
 * the object, so this is the way from the pointer back to the number. */
struct label {
    uint64_t number;
    char text[];
};

/* What libtevent makes comes after the first two. */
enum kind { PLAIN = 1, REFERENCE, TIMER, IMMEDIATE, DESCRIPTOR, REQUEST, STATE, QUEUE, ENTRY };

/* What stands under a number. All is 0 where nothing lives there. */
struct row {
    void *object; /* where it is, but for a reference */
    union {
        struct label *label; /* for a plain object and the state object of a request */
        uint64_t target;     /* for a reference: the number of what it refers to */
        uint64_t user;       /* for an event, a request and an entry: the number that its routine is told */
    };
    uint32_t routine; /* for those too */
    uint8_t kind;
    bool timed;  /* for a request: it was given an end time */
    bool marked; /* for a state object: it has a marker */
};

static struct row *rows;
static uint64_t rows_length = 1; /* numbers go up from 1 */
static uint64_t rows_room;
static void *root;

static struct label *label_for(uint64_t number, const char *name) {
    size_t length = strlen(name) + 1;
    struct label *label = malloc(sizeof *label + length);
    need(label != NULL, "no memory");
    label->number = number;
    memcpy(label->text, name, length);
    return label;
}

/* The number of the root, or of an object with a label. */
static uint64_t number_of(const void *object) {
    const struct label *label = (const struct label *)(talloc_get_name(object) - offsetof(struct label, text));
    return object == root ? 0 : label->number;
}

static void *object_of(uint64_t number) {
    need(number < rows_length && rows[number].object != NULL, "this number names no object");
    return rows[number].object;
}

static void *owner_of(uint64_t number) {
    return number == 0 ? root : object_of(number);
}

static uint64_t next_number(void) {
    if (rows_length >= rows_room) {
        rows_room = rows_room == 0 ? 1024 : 2 * rows_room;
        rows = realloc(rows, rows_room * sizeof *rows);
        need(rows != NULL, "no memory");
    }
    rows[rows_length] = (struct row){0};
    return rows_length++;
}

static void (*before_gone)(void); /* what is to be looked at, and told, before something is told as gone */

/* Tells that what stands under the number is no more. */
static void tell_gone(uint64_t number) {
    struct row *row = &rows[number];
    if (before_gone != NULL)
        before_gone();
    if (row->kind == REFERENCE) {
        put("unreferenced", number);
        put_number(row->target);
        put_text("\n");
    } else {
        put("freed", number);
        put_text(" 0\n");
    }
    if (row->kind == PLAIN || row->kind == STATE)
        free(row->label);
    *row = (struct row){0};
}

/* ---- The blocks of memory ---- */

extern void *__libc_malloc(size_t size);
extern void *__libc_realloc(void *block, size_t size);
extern void __libc_free(void *block);

static uint64_t making; /* the number that the next block is taken for, or 0 */

/* The last eight bytes of a block: the number of the object or the reference that it was taken for, or 0. */
static uint64_t *taken_for(void *block) {
    return (uint64_t *)((char *)block + malloc_usable_size(block) - sizeof(uint64_t));
}

void *malloc(size_t size) {
    void *block = __libc_malloc(size + sizeof(uint64_t));
    if (block != NULL) {
        *taken_for(block) = making;
        making = 0;
    }
    return block;
}

void *realloc(void *block, size_t size) {
    uint64_t number = block == NULL ? 0 : *taken_for(block);
    void *moved = __libc_realloc(block, size + sizeof(uint64_t));
    if (moved != NULL)
        *taken_for(moved) = number;
    return moved;
}

void free(void *block) {
    if (block != NULL && *taken_for(block) != 0)
        tell_gone(*taken_for(block));
    __libc_free(block);
}

/* A number for what a library makes next: the first block that it takes is that of the object, or the reference. */
static uint64_t begin(enum kind kind) {
    uint64_t number = next_number();
    rows[number].kind = kind;
    return making = number;
}

/* libtalloc makes what is below a request or its state object within the block of the request, if there is room. So
 * that it has a block of its own, it is made below the root, and then stolen. */
static bool has_pool(uint64_t number) {
    return number != 0 && (rows[number].kind == REQUEST || rows[number].kind == STATE);
}

static const char marker[] = "marker";

/* Makes the oldest child of a state object, which is freed last: its block tells that the state object goes. */
static void mark(uint64_t number) {
    rows[number].marked = true;
    making = number;
    talloc_steal(rows[number].object, talloc_named_const(root, 0, marker));
}

/* Below what to make an object that is to have this owner. */
static void *place_for(uint64_t owner) {
    void *object = owner_of(owner);
    need(owner == 0 || rows[owner].kind != ENTRY, "an entry owns nothing here");
    if (!has_pool(owner))
        return object;
    if (rows[owner].kind == STATE && !rows[owner].marked)
        mark(owner);
    return root;
}

/* What was begun is made, and gets its owner. Gives its number. */
static uint64_t finish(uint64_t owner, uint64_t number, void *object) {
    need(object != NULL, "the library doesn't make it");
    need(making == 0, "it has no block of its own");
    rows[number].object = object;
    if (has_pool(owner))
        talloc_steal(rows[owner].object, object);
    return number;
}

/* ---- The calls: each gives the number that is in its reply, if there is one ---- */

/* The numbers of a call in the order of its line, and its name. */
struct fields {
    uint64_t number[5];
    const char *name;
};

static uint64_t call_new(const struct fields *fields) {
    struct label *label = label_for(rows_length, fields->name);
    void *place = place_for(fields->number[0]);
    uint64_t number = begin(PLAIN);
    rows[number].label = label;
    return finish(fields->number[0], number, talloc_named_const(place, fields->number[1], label->text));
}

static uint64_t call_free(const struct fields *fields) {
    need(talloc_free(object_of(fields->number[0])) == 0, "libtalloc doesn't free it");
    return 0;
}

/* ---- The schedule ---- */

/* A call that can be done. A table of them ends with one that has no verb. */
struct call {
    const char *verb;
    int numbers; /* how many stand in its line */
    bool named;  /* whether a name stands after them */
    uint64_t (*run)(const struct fields *fields);
    const char *reply; /* or NULL where the call writes it */
    bool numbered;     /* whether a number stands after the reply */
};

static const struct call *known_calls;

static const struct call *call_named(const char *verb) {
    const struct call *call = known_calls;
    while (call->verb != NULL && (*verb != *call->verb || strcmp(verb, call->verb) != 0))
        call++;
    need(call->verb != NULL, "this call isn't done here");
    return call;
}

/* Cuts the text at its first space. Gives what follows it, or NULL where there is no space. */
static char *cut(char *text) {
    char *space = text == NULL ? NULL : strchr(text, ' ');
    if (space == NULL)
        return NULL;
    *space = '\0';
    return space + 1;
}

static uint64_t read_number(const char *text) {
    uint64_t number = 0;
    need(text != NULL && *text != '\0', "form");
    for (; *text != '\0'; text++) {
        need(*text >= '0' && *text <= '9', "form");
        number = 10 * number + (uint64_t)(*text - '0');
    }
    return number;
}

/* Does the call that the line spells after its first word, and replies to it. */
static void replay_call(char *verb) {
    char *rest = cut(verb);
    struct fields fields = {0};
    need(verb != NULL, "form");
    const struct call *call = call_named(verb);
    for (int i = 0; i < call->numbers; i++) {
        char *next = cut(rest);
        fields.number[i] = read_number(rest);
        rest = next;
    }
    need((rest != NULL) == call->named, "form");
    fields.name = rest;

    uint64_t number = call->run(&fields);
    if (call->reply == NULL)
        return;
    call->numbered ? put(call->reply, number) : put_text(call->reply);
    put_text("\n");
}

/* The next line without its LF, or NULL after the last one. It stays until the next call of this function. */
static char *next_line(void) {
    static char *line;
    static size_t room;
    ssize_t length = getline(&line, &room, stdin);
    if (length < 0)
        return NULL;
    line_number++;
    need(line[length - 1] == '\n', "form");
    line[length - 1] = '\0';
    return line;
}

static int replay(const struct call *known) {
    char *line = next_line();
    need(line != NULL && strcmp(line, "tv schedule 1 pool") == 0, "form");
    /* Objects without an owner are below an object that libtalloc calls the null context: the root. */
    talloc_enable_null_tracking();
    void *orphan = talloc_new(NULL);
    root = talloc_parent(orphan);
    talloc_free(orphan);

    known_calls = known;
    put_text("tv transcript 1\n");
    while ((line = next_line()) != NULL) {
        char *rest = cut(line);
        need(strcmp(line, "call") == 0, "form");
        replay_call(rest);
    }
    put_text("end quiet\n");
    write_out();
    return 0;
}
