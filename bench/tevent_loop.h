/* What tevent_replay.c reads from a schedule while libtevent works: what the routines do, what the time is, and which
 * descriptors are ready; and what it notes of the events meanwhile.
 *
 * libtevent asks the system for the time and for the descriptors by gettimeofday() and epoll_wait(). These are here, as
 * is epoll_ctl(), so that a turn of the loop does no call of the system, and doesn't sleep. */
#include <errno.h>
#include <sys/epoll.h>
#include <sys/time.h>

#include <tevent.h>

/* ---- Questions ---- */

/* Asks a question, some words and numbers. Gives the line that answers it; where there is none the transcript ends. */
static char *answer_to(const char *words, const uint64_t *numbers, int count) {
    char *line = next_line();
    put_text(line == NULL ? "end " : "ask ");
    put_text(words);
    for (int i = 0; i < count; i++)
        put_number(numbers[i]);
    put_text("\n");
    if (line == NULL) {
        write_out();
        _exit(0);
    }
    return line;
}

/* Asks a question whose answers begin with a certain word. Gives what follows it in the line, or NULL. */
static char *ask(const char *words, const uint64_t *numbers, int count, const char *verb) {
    char *line = answer_to(words, numbers, count), *rest = cut(line);
    need(strcmp(line, verb) == 0, "this answer isn't taken here");
    return rest;
}

/* ---- The routines ---- */

static bool something_came; /* in this turn */
static int routines_running;

/* Runs the routine in the row of the holder for an object: it is asked what it does, until it returns. */
static void run(const char *what, uint64_t number, uint64_t holder, uint64_t now, uint64_t flags) {
    uint64_t moment[] = {number, rows[holder].routine, rows[holder].user, now, flags, 0};
    something_came = true;
    put_text("fired ");
    put(what, number);
    put_number(moment[1]);
    put_text("\n");
    routines_running++;
    for (;; moment[5]++) {
        char *line = answer_to(what, moment, 6), *rest = cut(line);
        if (strcmp(line, "ret") == 0)
            break;
        need(strcmp(line, "act") == 0, "this answer isn't taken here");
        replay_call(rest);
    }
    routines_running--;
}

static uint64_t busy; /* the event whose handler runs, or 0 */
static void *busy_owner;

static void run_handler(const char *what, uint64_t number, uint64_t now, uint64_t flags) {
    busy = number;
    run(what, number, number, now, flags);
    busy = 0;
}

/* To be called before anything may be freed. */
static void note_owner(void) {
    if (busy != 0)
        busy_owner = talloc_parent(rows[busy].object);
}

/* The number of the root or of any object. It looks through all rows, for what seldom happens. */
static uint64_t number_at(const void *object) {
    uint64_t number = 1;
    if (object == root)
        return 0;
    while (number < rows_length && rows[number].object != object)
        number++;
    need(number < rows_length, "what has no number owns it");
    return number;
}

/* libtevent keeps an event whose handler runs from being freed, so that libtalloc hands it on to another owner. */
static void look_at_owner(void) {
    void *owner = busy == 0 ? NULL : talloc_parent(rows[busy].object);
    if (busy == 0 || owner == busy_owner)
        return;
    busy_owner = owner;
    put("moved", busy);
    put_number(number_at(owner));
    put_text("\n");
}

/* ---- The system ---- */

int gettimeofday(struct timeval *restrict time, void *restrict zone) {
    uint64_t now = read_number(ask("clock", NULL, 0, "clock"));
    (void)zone;
    time->tv_sec = (time_t)(now / 1000000);
    time->tv_usec = (suseconds_t)(now % 1000000);
    return 0;
}

#define DESCRIPTORS 1048576

struct descriptor {
    uint64_t place;             /* in the rotation: when it was added, or came last */
    struct epoll_event awaited; /* what libtevent waits for, and what it is told with it */
};

static struct descriptor descriptors[DESCRIPTORS];
static uint64_t last_place;
static bool waited; /* in this turn */

int epoll_ctl(int loop, int operation, int number, struct epoll_event *event) {
    struct descriptor *descriptor = &descriptors[number];
    (void)loop;
    if (operation == EPOLL_CTL_ADD)
        descriptor->place = ++last_place;
    descriptor->awaited = operation == EPOLL_CTL_DEL ? (struct epoll_event){0} : *event;
    return 0;
}

/* Reads a word FD:FLAGS. Gives what follows it in the line, or NULL where nothing does. */
static const char *read_ready(const char *word, struct descriptor **descriptor, uint32_t *flags) {
    uint64_t number = 0;
    for (; *word >= '0' && *word <= '9' && number < DESCRIPTORS; word++)
        number = 10 * number + (uint64_t)(*word - '0');
    need(number < DESCRIPTORS && word[0] == ':' && word[1] >= '1' && word[1] <= '3', "form");
    need(word[2] == ' ' || word[2] == '\0', "form");
    *descriptor = &descriptors[number];
    *flags = (word[1] != '2' ? EPOLLIN : 0) | (word[1] != '1' ? EPOLLOUT : 0);
    return word[2] == ' ' ? word + 3 : NULL;
}

/* Tells the first of the rotation that somebody waits for, as Linux does. Where some are ready that nobody waits for,
 * the wait is interrupted: libtevent would ask for the time again if it were over. */
int epoll_wait(int loop, struct epoll_event *event, int length, int milliseconds) {
    uint64_t limit = 1000 * (uint64_t)milliseconds;
    struct descriptor *first = NULL, *descriptor;
    const char *words = ask("wait", &limit, 1, "ready");
    bool some_ready = words != NULL;
    (void)loop, (void)length;
    waited = true;
    while (words != NULL) {
        uint32_t flags;
        words = read_ready(words, &descriptor, &flags);
        flags &= descriptor->awaited.events;
        if (flags != 0 && (first == NULL || descriptor->place < first->place)) {
            first = descriptor;
            *event = (struct epoll_event){flags, descriptor->awaited.data};
        }
    }
    if (first == NULL) {
        errno = EINTR;
        return some_ready ? -1 : 0;
    }
    first->place = ++last_place;
    return 1;
}

/* ---- What waits ---- */

static uint64_t pending;
static const void *handled; /* the timer or the immediate whose handler ran last, unless it waits anew */

/* While its handler runs, or later, libtevent traces it as removed, once or twice. */
static void count_pending(const void *event, enum tevent_event_trace_point point) {
    if (point == TEVENT_EVENT_TRACE_ATTACH) {
        pending++;
        handled = handled == event ? NULL : handled;
    } else if (handled != event) {
        pending--;
        handled = point == TEVENT_EVENT_TRACE_BEFORE_HANDLER ? event : handled;
    }
}

static void trace_timer(struct tevent_timer *timer, enum tevent_event_trace_point point, void *nothing) {
    (void)nothing;
    count_pending(timer, point);
}

static void trace_immediate(struct tevent_immediate *immediate, enum tevent_event_trace_point point, void *nothing) {
    (void)nothing;
    count_pending(immediate, point);
}

static void trace_descriptor(struct tevent_fd *event, enum tevent_event_trace_point point, void *nothing) {
    (void)event, (void)nothing;
    pending += point == TEVENT_EVENT_TRACE_ATTACH;
    pending -= point == TEVENT_EVENT_TRACE_DETACH;
}
