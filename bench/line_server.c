/* A line server over the real libtalloc and libtevent, which speaks the protocol of tvhost's line service over a Unix
 * socket, as a server of Samba's would be written. It is there to be measured beside `tvhost serve`.
 *     cc -O2 -o line_server bench/line_server.c -ltevent -ltalloc
 *     ./line_server PATH          until SIGTERM, and then tells what it took on the standard error
 *
 * A session is a talloc context: its descriptor event, its queue, its requests and all objects of its client go with it.
 * Objects are found by number in a hash table of their session. Numbers are taken as tvhost takes them, so a client
 * that is alone sees the same numbers from both.
 *
 * What differs from the protocol: a refused child goes to libtalloc's null context and not to the heir; there are no
 * limits on the number of objects; want of memory ends the program. */
#define _GNU_SOURCE
#include <errno.h>
#include <signal.h>
#include <stdbool.h>
#include <stddef.h>
#include <stdint.h>
#include <stdio.h>
#include <stdlib.h>
#include <string.h>
#include <sys/resource.h>
#include <sys/socket.h>
#include <sys/time.h>
#include <sys/un.h>
#include <unistd.h>

#include <talloc.h>
#include <tevent.h>

enum {
	READ_MOST = 4096,
	LINE_MOST = 1024,
	WRITE_MOST = 65536,
	NAME_MOST = 255,
	FIRST_ROUTINE = 16,
};
#define SIZE_END 0x10000000ull
#define SLEEP_MOST 1000000000000ull

struct service {
	struct tevent_context *ev;
	uint64_t next_number;
	uint32_t stubborn_left; /* how often routine 17 still refuses */
	uint64_t lines;
};

/* What is kept of an object beside its memory. libtalloc's name of the object is `name`, which leads back here. */
struct handle {
	struct session *session; /* NULL once it has left the session */
	void *object;
	uint64_t number;
	uint32_t routine;
	char name[];
};

struct bytes {
	uint8_t *at;
	size_t begin, end, room;
};

struct session {
	struct service *service;
	int sock;
	uint64_t number;
	struct tevent_fd *event;
	struct tevent_queue *queue;
	void *objects; /* of no size: what the client calls 0 */
	struct handle **table;
	size_t table_room, table_held;
	struct bytes unsent;
	uint8_t line[LINE_MOST]; /* the line that has begun */
	size_t line_length;
	bool dropping; /* the rest of a line that is too long */
	uint16_t flags;
};

static void need(bool holds)
{
	if (!holds) {
		fprintf(stderr, "no memory\n");
		_exit(6);
	}
}

/* ---- The objects of a session, by number ---- */

static size_t place_of(const struct session *s, uint64_t number)
{
	size_t at = number & (s->table_room - 1);
	while (s->table[at] != NULL && s->table[at]->number != number)
		at = (at + 1) & (s->table_room - 1);
	return at;
}

static void widen(struct session *s)
{
	struct handle **old = s->table;
	size_t room = s->table_room;
	s->table_room = room == 0 ? 16 : 2 * room;
	s->table = talloc_zero_array(s, struct handle *, s->table_room);
	need(s->table != NULL);
	for (size_t i = 0; i < room; i++)
		if (old[i] != NULL)
			s->table[place_of(s, old[i]->number)] = old[i];
	talloc_free(old);
}

static void hold(struct session *s, struct handle *h)
{
	if (2 * (s->table_held + 1) > s->table_room)
		widen(s);
	s->table[place_of(s, h->number)] = h;
	s->table_held++;
}

static void let_go(struct handle *h)
{
	struct session *s = h->session;
	if (s == NULL)
		return;
	h->session = NULL;
	s->table_held--;
	size_t mask = s->table_room - 1, hole = place_of(s, h->number);
	for (size_t at = (hole + 1) & mask; s->table[at] != NULL; at = (at + 1) & mask) {
		size_t home = s->table[at]->number & mask;
		if (((at - home) & mask) >= ((at - hole) & mask)) {
			s->table[hole] = s->table[at];
			hole = at;
		}
	}
	s->table[hole] = NULL;
}

static struct handle *handle_of(const void *object)
{
	return (struct handle *)(talloc_get_name(object) - offsetof(struct handle, name));
}

static struct handle *find(struct session *s, uint64_t number)
{
	return s->table_room == 0 ? NULL : s->table[place_of(s, number)];
}

/* ---- Destructors ---- */

static void *make(struct session *s, void *owner, size_t size, const char *name, size_t name_length);

/* What the routine does for the object. Gives 0 where it accepts. */
static int run_routine(struct handle *h)
{
	struct session *s = h->session;
	struct service *service;
	if (s == NULL)
		return 0;
	service = s->service;
	switch (h->routine) {
	case 17: /* refuses three times */
		if (service->stubborn_left == 0)
			return 0;
		service->stubborn_left--;
		return -1;
	case 18: /* frees the children first */
		talloc_free_children(h->object);
		return 0;
	case 19: /* goes to the root */
		let_go(h);
		talloc_steal(NULL, h->object);
		return -1;
	case 20: /* makes one more child */
		make(s, h->object, 0, "spawned", 7);
		return 0;
	default:
		return 0;
	}
}

static int object_goes(void *object)
{
	struct handle *h = handle_of(object);
	if (h->routine != 0 && run_routine(h) != 0)
		return -1;
	let_go(h);
	talloc_set_name_const(object, "gone");
	free(h);
	return 0;
}

static void *make(struct session *s, void *owner, size_t size, const char *name, size_t name_length)
{
	struct handle *h = malloc(sizeof *h + name_length + 1);
	need(h != NULL);
	memcpy(h->name, name, name_length);
	h->name[name_length] = '\0';
	h->session = s;
	h->routine = 0;
	h->number = s->service->next_number++;
	h->object = talloc_named_const(owner, size, h->name);
	need(h->object != NULL);
	talloc_set_destructor(h->object, object_goes);
	hold(s, h);
	return h->object;
}

/* ---- Replies ---- */

static void put(struct session *s, const void *bytes, size_t length)
{
	struct bytes *b = &s->unsent;
	if (b->room - b->end < length) {
		size_t held = b->end - b->begin;
		memmove(b->at, b->at + b->begin, held);
		b->begin = 0;
		b->end = held;
		if (b->room - held < length) {
			b->room = 2 * (b->room + length) + 1024;
			b->at = talloc_realloc(s, b->at, uint8_t, b->room);
			need(b->at != NULL);
		}
	}
	memcpy(b->at + b->end, bytes, length);
	b->end += length;
}

static size_t digits(char *end, uint64_t n)
{
	char *at = end;
	do {
		*--at = (char)('0' + n % 10);
		n /= 10;
	} while (n != 0);
	return (size_t)(end - at);
}

static void put_number(struct session *s, uint64_t n)
{
	char text[20];
	size_t length = digits(text + sizeof text, n);
	put(s, text + sizeof text - length, length);
}

static void reply_ok(struct session *s, uint64_t tag)
{
	put_number(s, tag);
	put(s, " ok\n", 4);
}

static void reply_number(struct session *s, uint64_t tag, uint64_t n)
{
	put_number(s, tag);
	put(s, " ", 1);
	put_number(s, n);
	put(s, "\n", 1);
}

static void reply_no(struct session *s, uint64_t tag, int why, const uint64_t *carried, int count)
{
	put_number(s, tag);
	put(s, " no ", 4);
	put_number(s, (uint64_t)why);
	for (int i = 0; i < count; i++) {
		put(s, " ", 1);
		put_number(s, carried[i]);
	}
	put(s, "\n", 1);
}

static size_t unsent(const struct session *s)
{
	return s->unsent.end - s->unsent.begin;
}

static void set_flags(struct session *s)
{
	uint16_t flags = (unsent(s) < WRITE_MOST ? TEVENT_FD_READ : 0) | (unsent(s) > 0 ? TEVENT_FD_WRITE : 0);
	if (flags != s->flags) {
		tevent_fd_set_flags(s->event, flags);
		s->flags = flags;
	}
}

/* ---- Sleeps and jobs ---- */

struct wait_state {
	struct session *session;
	uint64_t tag, us;
};

static struct timeval time_after(uint64_t us)
{
	return tevent_timeval_current_ofs((uint32_t)(us / 1000000), (uint32_t)(us % 1000000));
}

static void wait_done(struct tevent_req *req)
{
	struct wait_state *state = tevent_req_data(req, struct wait_state);
	struct session *s = state->session;
	uint64_t tag = state->tag, error;
	enum tevent_req_state how = TEVENT_REQ_DONE;
	bool failed = tevent_req_is_error(req, &how, &error) && how != TEVENT_REQ_TIMED_OUT;
	tevent_req_received(req);
	talloc_free(req);
	put_number(s, tag);
	if (failed) {
		put(s, " failed", 7);
		put(s, " ", 1);
		put_number(s, how);
		put(s, "\n", 1);
	} else {
		put(s, " ok\n", 4);
	}
	set_flags(s);
}

static struct tevent_req *wait_send(struct session *s, uint64_t tag, uint64_t us)
{
	struct wait_state *state;
	struct tevent_req *req = tevent_req_create(s, &state, struct wait_state);
	need(req != NULL);
	s->service->next_number += 2;
	*state = (struct wait_state){s, tag, us};
	tevent_req_set_callback(req, wait_done, NULL);
	return req;
}

static void sleep_line(struct session *s, uint64_t tag, uint64_t us)
{
	struct tevent_req *req = wait_send(s, tag, us);
	s->service->next_number++;
	need(tevent_req_set_endtime(req, s->service->ev, time_after(us)));
}

static void job_starts(struct tevent_req *req, void *nothing)
{
	struct wait_state *state = tevent_req_data(req, struct wait_state);
	struct service *service = state->session->service;
	(void)nothing;
	service->next_number++;
	if (!tevent_req_set_endtime(req, service->ev, time_after(state->us)))
		tevent_req_oom(req);
}

static void job_line(struct session *s, uint64_t tag, uint64_t us)
{
	struct tevent_req *req = wait_send(s, tag, us);
	s->service->next_number++;
	need(tevent_queue_add(s->queue, s->service->ev, req, job_starts, NULL));
}

/* ---- Lines ---- */

struct fields {
	uint64_t tag, n[2];
	struct handle *h[2]; /* for those that name objects; NULL for 0 */
	const char *name;
	size_t name_length;
};

static void *owner_of(struct session *s, const struct handle *h)
{
	return h == NULL ? s->objects : h->object;
}

static uint64_t owner_number(const struct session *s, const struct handle *h)
{
	return h == NULL ? s->number : h->number;
}

static void do_new(struct session *s, struct fields *f)
{
	if (f->n[1] >= SIZE_END) {
		reply_no(s, f->tag, 14, &f->n[1], 1);
		return;
	}
	void *object = make(s, owner_of(s, f->h[0]), f->n[1], f->name, f->name_length);
	reply_number(s, f->tag, handle_of(object)->number);
}

static void do_free(struct session *s, struct fields *f)
{
	void *object = f->h[0]->object;
	if (talloc_reference_count(object) > 0) {
		reply_no(s, f->tag, 4, f->n, 1);
		return;
	}
	if (talloc_free(object) != 0) {
		reply_no(s, f->tag, 5, (uint64_t[]){f->n[0], 1}, 2);
		return;
	}
	reply_ok(s, f->tag);
}

static void do_steal(struct session *s, struct fields *f)
{
	void *object = f->h[1]->object;
	for (void *at = owner_of(s, f->h[0]); at != s->objects; at = talloc_parent(at)) {
		if (at == object) {
			reply_no(s, f->tag, 7, (uint64_t[]){f->n[1], owner_number(s, f->h[0])}, 2);
			return;
		}
	}
	talloc_steal(owner_of(s, f->h[0]), object);
	reply_ok(s, f->tag);
}

static void do_reference(struct session *s, struct fields *f)
{
	need(talloc_reference(owner_of(s, f->h[0]), f->h[1]->object) != NULL);
	reply_number(s, f->tag, s->service->next_number++);
}

static void do_unlink(struct session *s, struct fields *f)
{
	void *owner = owner_of(s, f->h[0]), *object = f->h[1]->object;
	bool owns = talloc_parent(object) == owner;
	if (talloc_unlink(owner, object) == 0) {
		reply_ok(s, f->tag);
		return;
	}
	if (owns)
		reply_no(s, f->tag, 5, (uint64_t[]){f->n[1], 1}, 2);
	else
		reply_no(s, f->tag, 6, (uint64_t[]){f->n[1], owner_number(s, f->h[0])}, 2);
}

static void do_hook(struct session *s, struct fields *f)
{
	f->h[0]->routine = (uint32_t)f->n[1];
	reply_ok(s, f->tag);
}

static void do_unhook(struct session *s, struct fields *f)
{
	f->h[0]->routine = 0;
	reply_ok(s, f->tag);
}

static void do_parent(struct session *s, struct fields *f)
{
	void *owner = talloc_parent(f->h[0]->object);
	reply_number(s, f->tag, owner == s->objects ? 0 : handle_of(owner)->number);
}

static void do_total(struct session *s, struct fields *f)
{
	reply_number(s, f->tag, talloc_total_size(owner_of(s, f->h[0])));
}

static void do_sleep(struct session *s, struct fields *f)
{
	sleep_line(s, f->tag, f->n[0]);
}

static void do_job(struct session *s, struct fields *f)
{
	job_line(s, f->tag, f->n[0]);
}

/* Fields: P an owner, X an object, S a size, R a routine, U microseconds, N a name. */
static const struct verb {
	const char *word, *fields;
	void (*run)(struct session *s, struct fields *f);
} verbs[] = {
	{"new", "PSN", do_new}, {"free", "X", do_free}, {"steal", "PX", do_steal},
	{"reference", "PX", do_reference}, {"unlink", "PX", do_unlink}, {"hook", "XR", do_hook},
	{"unhook", "X", do_unhook}, {"parent", "X", do_parent}, {"total", "P", do_total},
	{"sleep", "U", do_sleep}, {"job", "U", do_job},
};

/* Reads a number without leading zeros. Gives the end of it, or NULL. */
static const char *read_number(const char *at, const char *end, uint64_t most, uint64_t *number)
{
	const char *first = at;
	uint64_t n = 0;
	for (; at < end && *at >= '0' && *at <= '9'; at++) {
		uint64_t digit = (uint64_t)(*at - '0');
		if (n > (UINT64_MAX - digit) / 10)
			return NULL;
		n = 10 * n + digit;
	}
	if (at == first || (*first == '0' && at - first > 1) || n > most)
		return NULL;
	*number = n;
	return at;
}

static bool read_name(const char *at, const char *end, struct fields *f)
{
	f->name = at;
	f->name_length = (size_t)(end - at);
	if (at == end || f->name_length > NAME_MOST)
		return false;
	for (; at < end; at++)
		if (*at < 0x21 || *at > 0x7e)
			return false;
	return true;
}

static bool read_fields(const char *kinds, const char *at, const char *end, struct fields *f)
{
	for (int i = 0; kinds[i] != '\0'; i++) {
		uint64_t most = kinds[i] == 'R' ? UINT32_MAX : kinds[i] == 'U' ? SLEEP_MOST : UINT64_MAX;
		if (at == end || *at++ != ' ')
			return false;
		if (kinds[i] == 'N')
			return read_name(at, end, f);
		at = read_number(at, end, most, &f->n[i]);
		if (at == NULL || (kinds[i] == 'R' && f->n[i] < FIRST_ROUTINE))
			return false;
	}
	return at == end;
}

/* Finds the objects of the fields. The first number that names none in this session is refused. */
static bool find_all(struct session *s, const char *kinds, struct fields *f)
{
	for (int i = 0; kinds[i] == 'P' || kinds[i] == 'X'; i++) {
		f->h[i] = kinds[i] == 'P' && f->n[i] == 0 ? NULL : find(s, f->n[i]);
		if (f->h[i] == NULL && (kinds[i] == 'X' || f->n[i] != 0)) {
			reply_no(s, f->tag, 1, &f->n[i], 1);
			return false;
		}
	}
	return true;
}

static void do_line(struct session *s, const char *line, size_t length)
{
	const char *end = line + length, *verb, *rest;
	struct fields f;
	s->service->lines++;
	verb = read_number(line, end, UINT32_MAX, &f.tag);
	if (verb == NULL || verb == end || *verb++ != ' ')
		goto form;
	rest = memchr(verb, ' ', (size_t)(end - verb));
	if (rest == NULL)
		goto form;
	for (size_t i = 0; i < sizeof verbs / sizeof *verbs; i++) {
		const struct verb *v = &verbs[i];
		size_t word = (size_t)(rest - verb);
		if (strncmp(v->word, verb, word) != 0 || v->word[word] != '\0')
			continue;
		if (!read_fields(v->fields, rest, end, &f))
			goto form;
		if (find_all(s, v->fields, &f))
			v->run(s, &f);
		return;
	}
form:
	put(s, "- form\n", 7);
}

/* A piece of a line without its LF. */
static void lengthen(struct session *s, const char *piece, size_t length)
{
	if (s->dropping)
		return;
	if (length > LINE_MOST - s->line_length) {
		put(s, "- long\n", 7);
		s->dropping = true;
		s->line_length = 0;
		return;
	}
	memcpy(s->line + s->line_length, piece, length);
	s->line_length += length;
}

static void take_bytes(struct session *s, const char *bytes, size_t length)
{
	const char *end = bytes + length, *lf;
	while ((lf = memchr(bytes, '\n', (size_t)(end - bytes))) != NULL) {
		if (s->line_length == 0 && !s->dropping && lf - bytes <= LINE_MOST) {
			do_line(s, bytes, (size_t)(lf - bytes));
		} else {
			lengthen(s, bytes, (size_t)(lf - bytes));
			if (!s->dropping)
				do_line(s, (char *)s->line, s->line_length);
			s->dropping = false;
			s->line_length = 0;
		}
		bytes = lf + 1;
	}
	lengthen(s, bytes, (size_t)(end - bytes));
}

/* ---- Connections ---- */

/* Reads once. False where the connection is over. */
static bool read_some(struct session *s)
{
	char bytes[READ_MOST];
	ssize_t got = read(s->sock, bytes, sizeof bytes);
	if (got > 0)
		take_bytes(s, bytes, (size_t)got);
	return got > 0 || (got < 0 && (errno == EAGAIN || errno == EINTR));
}

/* Writes once, where something is unsent. False where the connection is over. */
static bool write_some(struct session *s)
{
	size_t length = unsent(s) < WRITE_MOST ? unsent(s) : WRITE_MOST;
	if (length == 0)
		return true;
	ssize_t wrote = send(s->sock, s->unsent.at + s->unsent.begin, length, MSG_NOSIGNAL);
	if (wrote < 0)
		return errno == EAGAIN || errno == EINTR;
	s->unsent.begin += (size_t)wrote;
	if (s->unsent.begin == s->unsent.end)
		s->unsent.begin = s->unsent.end = 0;
	return true;
}

static void session_ready(struct tevent_context *ev, struct tevent_fd *event, uint16_t flags, void *private)
{
	struct session *s = talloc_get_type_abort(private, struct session);
	(void)ev, (void)event, (void)flags;
	if ((s->flags & TEVENT_FD_READ) && !read_some(s)) {
		talloc_free(s);
		return;
	}
	if (!write_some(s)) {
		talloc_free(s);
		return;
	}
	set_flags(s);
}

/* What is below a session goes with it: no object is to look for its place in the table then. */
static int session_goes(struct session *s)
{
	talloc_free(s->objects);
	return 0;
}

static int listener;

static void accept_one(struct tevent_context *ev, struct tevent_fd *event, uint16_t flags, void *private)
{
	struct service *service = talloc_get_type_abort(private, struct service);
	int sock = accept4(listener, NULL, NULL, SOCK_NONBLOCK | SOCK_CLOEXEC);
	(void)event, (void)flags;
	if (sock < 0)
		return;
	struct session *s = talloc_zero(service, struct session);
	need(s != NULL);
	s->service = service;
	s->sock = sock;
	s->number = service->next_number;
	service->next_number += 3;
	s->objects = talloc_named_const(s, 0, "objects");
	s->queue = tevent_queue_create(s, "jobs");
	s->event = tevent_add_fd(ev, s, sock, TEVENT_FD_READ, session_ready, s);
	need(s->objects != NULL && s->queue != NULL && s->event != NULL);
	tevent_fd_set_auto_close(s->event);
	s->flags = TEVENT_FD_READ;
	talloc_set_destructor(s, session_goes);
}

static int listen_at(const char *path)
{
	struct sockaddr_un address = {.sun_family = AF_UNIX};
	int sock = socket(AF_UNIX, SOCK_STREAM | SOCK_NONBLOCK | SOCK_CLOEXEC, 0);
	if (strlen(path) >= sizeof address.sun_path)
		return -1;
	strcpy(address.sun_path, path);
	unlink(path);
	if (bind(sock, (struct sockaddr *)&address, sizeof address) != 0 || listen(sock, 1024) != 0)
		return -1;
	return sock;
}

static void ends(struct tevent_context *ev, struct tevent_signal *event, int number, int count, void *info, void *private)
{
	struct service *service = talloc_get_type_abort(private, struct service);
	struct rusage used;
	(void)ev, (void)event, (void)number, (void)count, (void)info;
	getrusage(RUSAGE_SELF, &used);
	fprintf(stderr, "lines %llu user %ld.%06ld system %ld.%06ld memory %ld KiB\n", (unsigned long long)service->lines,
		used.ru_utime.tv_sec, used.ru_utime.tv_usec, used.ru_stime.tv_sec, used.ru_stime.tv_usec, used.ru_maxrss);
	_exit(0);
}

static void quiet(const char *message)
{
	(void)message;
}

int main(int argc, char **argv)
{
	struct service *service = talloc_zero(NULL, struct service);
	if (argc != 2)
		return 2;
	listener = listen_at(argv[1]);
	if (listener < 0) {
		perror("link fault");
		return 5;
	}
	need(service != NULL);
	talloc_set_log_fn(quiet);
	service->next_number = 3; /* 1 is the service, and 2 the listener's event */
	service->stubborn_left = 3;
	service->ev = tevent_context_init(service);
	need(service->ev != NULL);
	need(tevent_add_fd(service->ev, service, listener, TEVENT_FD_READ, accept_one, service) != NULL);
	need(tevent_add_signal(service->ev, service, SIGTERM, 0, ends, service) != NULL);
	return tevent_loop_wait(service->ev);
}
