/*
 * nscd_cache.c: the cache. Each bucket is a list of few entries, of which the one that was asked for last is the first; where it is full
 * the last one makes room. One lock is enough: nobody waits or reads a file with it.
 */
#include <pthread.h>
#include <stdlib.h>
#include <string.h>
#include <time.h>

#include "nscd.h"
#include "nsc_files.h"

enum { BUCKETS = 211, BUCKET_MOST = 8 };

typedef struct entry {
	struct entry *next;
	nsc_call_t call;
	time_t ends; /* by the clock that nobody sets */
	char *line;  /* NULL where there is no such entry */
	char key[NSC_KEY_MAX];
} entry_t;

static struct {
	pthread_mutex_t lock;
	long positive, negative;
	unsigned generation; /* so often was something invalidated */
	entry_t *bucket[BUCKETS];
	nsc_counts_t counts[NSC_DATABASES];
} cache = { .lock = PTHREAD_MUTEX_INITIALIZER };

void cache_begin(long positive_seconds, long negative_seconds)
{
	cache.positive = positive_seconds;
	cache.negative = negative_seconds;
}

static time_t now(void)
{
	struct timespec time;

	(void)clock_gettime(CLOCK_MONOTONIC, &time);
	return time.tv_sec;
}

static entry_t **bucket_of(nsc_call_t call, const char *key)
{
	unsigned hash = (unsigned)call;

	for (; *key != '\0'; key++)
		hash = hash * 31 + (unsigned char)*key;
	return &cache.bucket[hash % BUCKETS];
}

static nsc_counts_t *counts_of(nsc_call_t call)
{
	return &cache.counts[nsc_database_of(call)];
}

/* Takes the entry out of its list. */
static void drop(entry_t **place)
{
	entry_t *entry = *place;

	*place = entry->next;
	counts_of(entry->call)->entries--;
	free(entry->line);
	free(entry);
}

/* The place of the entry with this key, or of the list's end. */
static entry_t **place_of(entry_t **place, nsc_call_t call, const char *key)
{
	while (*place != NULL && ((*place)->call != call || strcmp((*place)->key, key) != 0))
		place = &(*place)->next;
	return place;
}

cache_answer_t cache_get(nsc_call_t call, const char *key, char *line, size_t size, unsigned *generation)
{
	cache_answer_t answer = CACHE_MISS;
	entry_t **bucket, **place, *entry;

	(void)pthread_mutex_lock(&cache.lock);
	bucket = bucket_of(call, key);
	place = place_of(bucket, call, key);
	if (*place != NULL && (*place)->ends <= now()) {
		counts_of(call)->expired++;
		drop(place);
	} else if (*place != NULL && ((*place)->line == NULL || strlen((*place)->line) < size)) {
		entry = *place;
		*place = entry->next;
		entry->next = *bucket;
		*bucket = entry;
		answer = entry->line != NULL ? CACHE_HIT : CACHE_ABSENT;
		if (entry->line != NULL)
			(void)strcpy(line, entry->line);
	}
	counts_of(call)->hits += answer != CACHE_MISS;
	counts_of(call)->absent += answer == CACHE_ABSENT;
	counts_of(call)->misses += answer == CACHE_MISS;
	*generation = cache.generation;
	(void)pthread_mutex_unlock(&cache.lock);
	return answer;
}

static entry_t *new_entry(nsc_call_t call, const char *key, const char *line)
{
	entry_t *entry = calloc(1, sizeof(*entry));

	if (entry == NULL)
		return NULL;
	entry->call = call;
	(void)strncpy(entry->key, key, sizeof(entry->key) - 1);
	entry->ends = now() + (line != NULL ? cache.positive : cache.negative);
	if (line != NULL && (entry->line = strdup(line)) == NULL) {
		free(entry);
		return NULL;
	}
	return entry;
}

/* The entry is the first of its bucket. Another thread may have put the same one, and the bucket may be full. */
static void put_first(entry_t *entry)
{
	entry_t **bucket = bucket_of(entry->call, entry->key), **place = place_of(bucket, entry->call, entry->key);
	unsigned count = 0;

	if (*place != NULL)
		drop(place);
	entry->next = *bucket;
	*bucket = entry;
	counts_of(entry->call)->entries++;
	for (place = bucket; *place != NULL && count < BUCKET_MOST; place = &(*place)->next)
		count++;
	if (*place != NULL) {
		counts_of((*place)->call)->evicted++;
		drop(place);
	}
}

void cache_put(nsc_call_t call, const char *key, const char *line, unsigned generation)
{
	entry_t *entry = new_entry(call, key, line);

	if (entry == NULL)
		return;
	(void)pthread_mutex_lock(&cache.lock);
	if (generation == cache.generation) {
		put_first(entry);
		entry = NULL;
	}
	(void)pthread_mutex_unlock(&cache.lock);
	if (entry != NULL) {
		free(entry->line);
		free(entry);
	}
}

void cache_invalidate(nsc_database_t database)
{
	entry_t **place;
	unsigned i;

	(void)pthread_mutex_lock(&cache.lock);
	cache.generation++;
	for (i = 0; i < BUCKETS; i++) {
		place = &cache.bucket[i];
		while (*place != NULL) {
			if (nsc_database_of((*place)->call) == database)
				drop(place);
			else
				place = &(*place)->next;
		}
	}
	(void)pthread_mutex_unlock(&cache.lock);
}

void cache_count(nsc_counts_t counts[NSC_DATABASES])
{
	(void)pthread_mutex_lock(&cache.lock);
	(void)memcpy(counts, cache.counts, sizeof(cache.counts));
	(void)pthread_mutex_unlock(&cache.lock);
}
