/*
 * The machine of wf_show_gate under three locks, for comparison with the gate: each thread makes calls, and adds some octets to its
 * own sum at each.
 *
 *   locks mutex|spin|yield THREADS CALLS
 *
 * runs THREADS threads of CALLS calls each and prints the sum of their sums. `mutex` is POSIX's, `spin` a ticket lock whose waiters
 * spin, `yield` one whose waiters yield the processor after each look.
 */
#define _POSIX_C_SOURCE 200809L
#include <inttypes.h>
#include <pthread.h>
#include <sched.h>
#include <stdatomic.h>
#include <stdbool.h>
#include <stdint.h>
#include <stdio.h>
#include <stdlib.h>
#include <string.h>

enum { SUMS = 256, MOST_THREADS = 64, OCTETS = 1500 };

/* As in crates/wf_show_gate/src/counter.rt. */
struct counter {
	uint64_t sums[SUMS];
	uint32_t left;
};

static uint64_t step(struct counter *counter, uint32_t caller, uint32_t octets)
{
	uint64_t *sum = &counter->sums[caller % SUMS];

	if (counter->left > 0) {
		*sum += octets;
		counter->left--;
	}
	return *sum;
}

struct shared {
	pthread_mutex_t mutex;
	_Atomic uint64_t ticket;
	_Atomic uint64_t serving;
	struct counter counter;
};

struct worker {
	struct shared *shared;
	uint32_t number;
	uint32_t calls;
	uint64_t sum;
};

static void relax(void)
{
#if defined(__x86_64__) || defined(__i386__)
	__builtin_ia32_pause();
#endif
}

static uint64_t draw(struct shared *shared)
{
	return atomic_fetch_add_explicit(&shared->ticket, 1, memory_order_relaxed);
}

static bool is_served(struct shared *shared, uint64_t ticket)
{
	return atomic_load_explicit(&shared->serving, memory_order_acquire) == ticket;
}

static void serve_next(struct shared *shared, uint64_t ticket)
{
	atomic_store_explicit(&shared->serving, ticket + 1, memory_order_release);
}

static void *by_mutex(void *given)
{
	struct worker *worker = given;
	struct shared *shared = worker->shared;

	for (uint32_t call = 0; call < worker->calls; call++) {
		pthread_mutex_lock(&shared->mutex);
		worker->sum = step(&shared->counter, worker->number, call % OCTETS);
		pthread_mutex_unlock(&shared->mutex);
	}
	return NULL;
}

static void *by_spinning(void *given)
{
	struct worker *worker = given;
	struct shared *shared = worker->shared;

	for (uint32_t call = 0; call < worker->calls; call++) {
		uint64_t ticket = draw(shared);

		while (!is_served(shared, ticket))
			relax();
		worker->sum = step(&shared->counter, worker->number, call % OCTETS);
		serve_next(shared, ticket);
	}
	return NULL;
}

static void *by_yielding(void *given)
{
	struct worker *worker = given;
	struct shared *shared = worker->shared;

	for (uint32_t call = 0; call < worker->calls; call++) {
		uint64_t ticket = draw(shared);

		while (!is_served(shared, ticket))
			sched_yield();
		worker->sum = step(&shared->counter, worker->number, call % OCTETS);
		serve_next(shared, ticket);
	}
	return NULL;
}

static const struct {
	const char *name;
	void *(*run)(void *);
} WAYS[] = {{"mutex", by_mutex}, {"spin", by_spinning}, {"yield", by_yielding}};

static void *(*way_named(const char *name))(void *)
{
	for (size_t way = 0; way < sizeof(WAYS) / sizeof(WAYS[0]); way++)
		if (strcmp(WAYS[way].name, name) == 0)
			return WAYS[way].run;
	return NULL;
}

/* A number from 0 to `most`, or -1. */
static int64_t number_in(const char *word, int64_t most)
{
	char *end;
	long long number = strtoll(word, &end, 10);

	return end != word && *end == '\0' && number >= 0 && number <= most ? number : -1;
}

/* Runs the workers, and returns the sum of their sums. Ends the program if a thread cannot be made. */
static uint64_t run(void *(*way)(void *), struct shared *shared, uint32_t threads, uint32_t calls)
{
	static pthread_t made[MOST_THREADS];
	static struct worker workers[MOST_THREADS];
	uint64_t sum = 0;

	for (uint32_t k = 0; k < threads; k++) {
		workers[k] = (struct worker){.shared = shared, .number = k, .calls = calls};
		if (pthread_create(&made[k], NULL, way, &workers[k]) != 0) {
			fputs("locks: no thread\n", stderr);
			exit(1);
		}
	}
	for (uint32_t k = 0; k < threads; k++) {
		pthread_join(made[k], NULL);
		sum += workers[k].sum;
	}
	return sum;
}

int main(int count, char **words)
{
	static struct shared shared = {.mutex = PTHREAD_MUTEX_INITIALIZER};
	void *(*way)(void *) = count == 4 ? way_named(words[1]) : NULL;
	int64_t threads = count == 4 ? number_in(words[2], MOST_THREADS) : -1;
	int64_t calls = count == 4 ? number_in(words[3], UINT32_MAX / MOST_THREADS) : -1;

	if (way == NULL || threads < 1 || calls < 0) {
		fputs("usage: locks mutex|spin|yield THREADS CALLS\n", stderr);
		return 2;
	}
	shared.counter.left = (uint32_t)(threads * calls);
	printf("%" PRIu64 "\n", run(way, &shared, (uint32_t)threads, (uint32_t)calls));
	return 0;
}
