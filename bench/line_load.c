/* Opens K connections to a line server at a Unix socket, sends N lines in pipelined batches, and checks each reply:
 *     cc -O2 -o line_load bench/line_load.c ; ./line_load PATH K N [LANES [PID]]
 * A batch is 16 lines for each lane (4 where it isn't given); a connection sends its next batch when all that is to be
 * replied at once to the one before has come. PID is the server's, whose processor time is read from /proc.
 *
 * The lines are those of a server's client: objects of two depths that are made, asked about, referred to, moved, and
 * freed with their destructors, a sleep and a job of no time, and one refusal. An object is used in a later batch than the
 * one that makes it, as its number is in the reply. The numbers that a server gives may be any. */
#define _GNU_SOURCE
#include <errno.h>
#include <stdarg.h>
#include <stdbool.h>
#include <stdint.h>
#include <stdio.h>
#include <stdlib.h>
#include <string.h>
#include <sys/epoll.h>
#include <sys/socket.h>
#include <sys/un.h>
#include <time.h>
#include <unistd.h>

enum { LINES = 16, NUMBERS = 3, TEXT = 1 << 16 };

/* What is expected of a reply: a number that is kept, or a certain text. */
struct expected {
	uint64_t tag;
	uint64_t *kept; /* where the number goes, or NULL */
	char text[44];
};

/* The numbers of a lane's objects: of the last two batches, and of the present one. */
struct lane {
	uint64_t request[3], buffer[2], note[2];
};

struct connection {
	int sock;
	uint64_t batches, tag, live; /* live: the bytes of all its objects */
	uint64_t late;               /* replies of sleeps and jobs that are still to come */
	struct lane *lanes;
	struct expected *expected;
	size_t expected_first, expected_last;
	char out[TEXT], in[TEXT];
	size_t out_first, out_last, in_last;
	bool over;
};

static uint64_t lanes = 4, checked, late_checked;

static void fail(const char *why, const char *what)
{
	fprintf(stderr, "load: %s: %s\n", why, what);
	exit(1);
}

static void send_line(struct connection *c, uint64_t *kept, const char *expected, const char *form, ...)
{
	va_list words;
	struct expected *e = &c->expected[c->expected_last];
	int length = snprintf(c->out + c->out_last, TEXT - c->out_last, "%llu ", (unsigned long long)++c->tag);
	c->out_last += (size_t)length;
	va_start(words, form);
	length = vsnprintf(c->out + c->out_last, TEXT - c->out_last, form, words);
	va_end(words);
	c->out_last += (size_t)length;
	if (c->out_last + 1 >= TEXT)
		fail("too many lanes", "");
	c->out[c->out_last++] = '\n';
	if (kept == NULL && expected == NULL) {
		c->late++; /* the tags of sleeps and jobs are the greatest two of each lane's batch */
		return;
	}
	e->tag = c->tag;
	e->kept = kept;
	snprintf(e->text, sizeof e->text, "%s", expected == NULL ? "" : expected);
	c->expected_last++;
}

static const char *number(uint64_t n)
{
	static char text[2][24];
	static int which;
	which ^= 1;
	snprintf(text[which], sizeof text[which], "%llu", (unsigned long long)n);
	return text[which];
}

#define LL(n) ((unsigned long long)(n))

/* One batch of a lane. What was made in the last batch is used, and what was made in the one before that goes. */
static void lane_batch(struct connection *c, struct lane *l, uint64_t batch)
{
	bool has_one = batch >= 1, has_two = batch >= 2;
	send_line(c, &l->request[0], NULL, "new 0 64 request");
	c->live += 64;
	if (has_one) {
		send_line(c, &l->buffer[0], NULL, "new %llu 512 buffer", LL(l->request[1]));
		send_line(c, &l->note[0], NULL, "new %llu 32 note", LL(l->request[1]));
		c->live += 544;
	}
	if (has_two) {
		unsigned long long request = l->request[2], buffer = l->buffer[1], note = l->note[1];
		send_line(c, NULL, "ok", "hook %llu 16", note);
		send_line(c, &l->request[2], NULL, "reference 0 %llu", buffer);
		send_line(c, NULL, "608", "total %llu", request);
		send_line(c, NULL, number(request), "parent %llu", note);
		send_line(c, NULL, "ok", "steal 0 %llu", note);
		send_line(c, NULL, "0", "parent %llu", note);
		send_line(c, NULL, "ok", "unlink 0 %llu", buffer);
		send_line(c, NULL, "ok", "free %llu", note);
		send_line(c, NULL, "ok", "free %llu", request);
		c->live -= 608;
	}
	send_line(c, NULL, number(c->live), "total 0");
	send_line(c, NULL, "no 1 0", "free 0");
	send_line(c, NULL, NULL, "sleep 0");
	send_line(c, NULL, NULL, "job 0");
}

static void next_batch(struct connection *c)
{
	c->expected_first = c->expected_last = 0;
	for (uint64_t i = 0; i < lanes; i++) {
		struct lane *l = &c->lanes[i];
		l->request[2] = l->request[1], l->request[1] = l->request[0];
		l->buffer[1] = l->buffer[0], l->note[1] = l->note[0];
		lane_batch(c, l, c->batches);
	}
	c->batches++;
}

/* A reply, without its LF. That of a sleep or a job may come at any time. */
static void check(struct connection *c, char *reply)
{
	char *rest;
	uint64_t tag = strtoull(reply, &rest, 10);
	struct expected *e = &c->expected[c->expected_first];
	if (*rest != ' ')
		fail("no tag", reply);
	rest++;
	if (c->expected_first == c->expected_last || tag != e->tag) {
		if (strcmp(rest, "ok") != 0 || c->late == 0)
			fail("not expected", reply);
		c->late--;
		late_checked++;
		return;
	}
	if (e->kept != NULL) {
		char *end;
		*e->kept = strtoull(rest, &end, 10);
		if (end == rest || *end != '\0' || *e->kept == 0)
			fail("no number", reply);
	} else if (strcmp(rest, e->text) != 0) {
		fprintf(stderr, "load: expected %llu %s\n", LL(tag), e->text);
		fail("another reply", reply);
	}
	c->expected_first++;
	checked++;
}

static void send_some(struct connection *c)
{
	while (c->out_first < c->out_last) {
		ssize_t sent = send(c->sock, c->out + c->out_first, c->out_last - c->out_first, MSG_NOSIGNAL);
		if (sent < 0 && errno == EAGAIN)
			return;
		if (sent <= 0)
			fail("send", strerror(errno));
		c->out_first += (size_t)sent;
	}
	c->out_first = c->out_last = 0;
}

static void read_some(struct connection *c)
{
	ssize_t got = read(c->sock, c->in + c->in_last, TEXT - c->in_last);
	char *at = c->in, *lf;
	if (got < 0 && errno == EAGAIN)
		return;
	if (got <= 0)
		fail("the server has closed", "");
	c->in_last += (size_t)got;
	while ((lf = memchr(at, '\n', (size_t)(c->in + c->in_last - at))) != NULL) {
		*lf = '\0';
		check(c, at);
		at = lf + 1;
	}
	c->in_last -= (size_t)(at - c->in);
	memmove(c->in, at, c->in_last);
}

static int connect_to(const char *path)
{
	struct sockaddr_un address = {.sun_family = AF_UNIX};
	strncpy(address.sun_path, path, sizeof address.sun_path - 1);
	for (int i = 0; i < 500; i++) {
		int sock = socket(AF_UNIX, SOCK_STREAM, 0);
		if (connect(sock, (struct sockaddr *)&address, sizeof address) == 0)
			return sock;
		close(sock);
		usleep(10000);
	}
	fail("connect", strerror(errno));
	return -1;
}

/* The nanoseconds that a process has run. */
static uint64_t run_time(const char *pid)
{
	char path[64];
	unsigned long long time = 0;
	snprintf(path, sizeof path, "/proc/%s/schedstat", pid);
	FILE *file = fopen(path, "r");
	if (file == NULL || fscanf(file, "%llu", &time) != 1)
		return 0;
	fclose(file);
	return time;
}

/* The resident memory of a process, in KiB. */
static long memory(const char *pid)
{
	char path[64], line[128];
	long kib = 0;
	snprintf(path, sizeof path, "/proc/%s/status", pid);
	FILE *file = fopen(path, "r");
	while (file != NULL && fgets(line, sizeof line, file) != NULL)
		sscanf(line, "VmRSS: %ld", &kib);
	if (file != NULL)
		fclose(file);
	return kib;
}

static double seconds(void)
{
	struct timespec now;
	clock_gettime(CLOCK_MONOTONIC, &now);
	return (double)now.tv_sec + 1e-9 * (double)now.tv_nsec;
}

int main(int argc, char **argv)
{
	if (argc < 4 || argc > 6) {
		fprintf(stderr, "usage: load PATH CONNECTIONS LINES [LANES [PID]]\n");
		return 2;
	}
	uint64_t many = strtoull(argv[2], NULL, 10), lines = strtoull(argv[3], NULL, 10);
	if (argc > 4)
		lanes = strtoull(argv[4], NULL, 10);
	const char *pid = argc > 5 ? argv[5] : NULL;
	uint64_t batches = lines / (many * lanes * LINES) + (lines % (many * lanes * LINES) != 0);
	struct connection **all = calloc(many, sizeof *all);
	int poll = epoll_create1(0);
	long memory_before = pid ? memory(pid) : 0;
	for (uint64_t i = 0; i < many; i++) {
		struct connection *c = all[i] = calloc(1, sizeof *c);
		c->lanes = calloc(lanes, sizeof *c->lanes);
		c->expected = calloc(lanes * LINES, sizeof *c->expected);
		c->sock = connect_to(argv[1]);
		struct epoll_event event = {EPOLLIN, {.ptr = c}};
		if (epoll_ctl(poll, EPOLL_CTL_ADD, c->sock, &event) != 0)
			fail("epoll", strerror(errno));
	}
	usleep(300000); /* so that all are accepted */
	uint64_t run_before = pid ? run_time(pid) : 0, sent_lines = 0, at_work = many;
	double begun = seconds();
	for (uint64_t i = 0; i < many; i++) {
		next_batch(all[i]);
		sent_lines += all[i]->tag;
		send_some(all[i]);
	}
	while (at_work > 0) {
		struct epoll_event events[64];
		int came = epoll_wait(poll, events, 64, 60000);
		if (came == 0)
			fail("nothing comes", "within a minute");
		for (int i = 0; i < came; i++) {
			struct connection *c = events[i].data.ptr;
			read_some(c);
			if (c->over || c->expected_first < c->expected_last)
				continue;
			if (c->batches < batches) {
				uint64_t before = c->tag;
				next_batch(c);
				sent_lines += c->tag - before;
				send_some(c);
			} else if (c->late == 0) {
				c->over = true;
				at_work--;
			}
		}
	}
	double took = seconds() - begun;
	printf("connections %llu lines %llu replies %llu late %llu seconds %.3f lines/s %.0f", LL(many), LL(sent_lines), LL(checked),
	       LL(late_checked), took, (double)sent_lines / took);
	if (pid != NULL) {
		double ns = (double)(run_time(pid) - run_before);
		printf(" server-cpu %.3f s, %.0f ns/line, memory %ld -> %ld KiB", ns / 1e9, ns / (double)sent_lines, memory_before, memory(pid));
	}
	printf("\n");
	return 0;
}
