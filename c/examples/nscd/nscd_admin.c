/* nscd_admin.c: nscd -g, -i and -K, which ask the daemon that runs. */
#include <errno.h>
#include <stdio.h>
#include <stdlib.h>
#include <string.h>

#include "nscd.h"
#include "nsc_client.h"
#include "nsc_files.h"

static const char *const status_text[] = {
	[NSC_SUCCESS] = "done", [NSC_NOTFOUND] = "no such database", [NSC_NOSERVER] = "not understood", [NSC_DENIED] = "permission denied",
};

/* The results are the caller's to free; NULL, and said, where there are none. */
static char *ask(nsc_call_t call, const char *key, size_t *size)
{
	char *results;
	int status = nsc_call(call, key, &results, size);

	if (status == NSC_SUCCESS)
		return results;
	if (status == -1) {
		(void)fprintf(stderr, "nscd: no nscd answers: %s\n", strerror(errno));
		return NULL;
	}
	(void)fprintf(stderr, "nscd: %s\n", (unsigned)status <= NSC_DENIED ? status_text[status] : "not understood");
	free(results);
	return NULL;
}

int admin_statistics(void)
{
	nsc_statistics_t statistics;
	const nsc_counts_t *counts;
	size_t size;
	int i;
	char *results = ask(NSC_STATISTICS, "", &size);

	if (results == NULL)
		return 1;
	if (size == sizeof(statistics))
		(void)memcpy(&statistics, results, size);
	free(results);
	if (size != sizeof(statistics)) {
		(void)fprintf(stderr, "nscd: not understood\n");
		return 1;
	}
	(void)printf("nscd %u: %u calls, %u at once at most, %u threads\n", statistics.pid, statistics.calls, statistics.busiest,
	    statistics.threads);
	for (i = 0; i < NSC_DATABASES; i++) {
		counts = &statistics.database[i];
		(void)printf("%s: %u entries, %u hits, %u of them of absent names, %u misses, %u expired, %u evicted\n", nsc_database_name[i],
		    counts->entries, counts->hits, counts->absent, counts->misses, counts->expired, counts->evicted);
	}
	return 0;
}

int admin_invalidate(const char *database)
{
	size_t size;
	char *results = ask(NSC_INVALIDATE, strcmp(database, "all") == 0 ? "" : database, &size);

	free(results);
	return results != NULL ? 0 : 1;
}

/* The daemon may have ended before its answer was there: then no further try finds one, and that is as well. */
int admin_shutdown(const char *folder)
{
	size_t size;
	char *results;
	int status = nsc_call(NSC_SHUTDOWN, "", &results, &size);

	if (status != -1)
		free(results);
	if (status == NSC_DENIED) {
		(void)fprintf(stderr, "nscd: %s\n", status_text[status]);
		return 1;
	}
	lock_wait(folder);
	return 0;
}
