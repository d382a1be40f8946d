/*
 * authd_rules.c: who may have what. A line of the configuration is NAME file|log WHO FILE, where WHO is all, a user's
 * name or a uid, and FILE is as seen from the folder. Of several lines with a name, the first that is for the user
 * counts. `#` begins a remark.
 */
#include <errno.h>
#include <pthread.h>
#include <pwd.h>
#include <stdio.h>
#include <stdlib.h>
#include <string.h>

#include "authd.h"

static struct {
	pthread_mutex_t lock;
	rule_t *rule;
	size_t count;
} rules = { .lock = PTHREAD_MUTEX_INITIALIZER };

static bool read_who(const char *who, rule_t *rule)
{
	char *end;
	unsigned long uid = strtoul(who, &end, 10);
	const struct passwd *entry;

	rule->is_for_all = strcmp(who, "all") == 0;
	rule->uid = (uid_t)uid;
	if (rule->is_for_all || (*who >= '0' && *who <= '9' && *end == '\0'))
		return true;
	entry = getpwnam(who);
	if (entry == NULL)
		return false;
	rule->uid = entry->pw_uid;
	return true;
}

/* 1 and a rule, 0 where the line has none, -1 where it makes no sense. */
static int read_rule(char *line, rule_t *rule)
{
	char kind[8], who[64], more[2];
	int words;

	line[strcspn(line, "#\n")] = '\0';
	(void)memset(rule, 0, sizeof(*rule));
	words = sscanf(line, "%31s %7s %63s %255s %1s", rule->name, kind, who, rule->file, more);
	if (words <= 0)
		return 0;
	if (words != 4)
		return -1;
	rule->is_log = strcmp(kind, "log") == 0;
	return (rule->is_log || strcmp(kind, "file") == 0) && read_who(who, rule) ? 1 : -1;
}

/* The number of the line that makes no sense, -1 and errno, or 0. */
static int read_rules(FILE *file, rule_t **rule, size_t *count)
{
	char *line = NULL;
	size_t size = 0;
	int number, found = 0;

	for (number = 1; found != -1 && getline(&line, &size, file) != -1; number++) {
		rule_t *more = realloc(*rule, (*count + 1) * sizeof(**rule));

		if (more == NULL) {
			free(line);
			return -1;
		}
		*rule = more;
		found = read_rule(line, &more[*count]);
		*count += found == 1;
	}
	free(line);
	return found == -1 ? number - 1 : ferror(file) ? -1 : 0;
}

int rules_load(const char *path)
{
	FILE *file = fopen(path, "re");
	rule_t *rule = NULL, *old;
	size_t count = 0;
	int wrong = -1;

	if (file != NULL) {
		wrong = read_rules(file, &rule, &count);
		(void)fclose(file);
	}
	if (wrong != 0) {
		if (wrong == -1)
			log_line("%s: %s", path, strerror(errno));
		else
			log_line("%s, line %d: not NAME file|log WHO FILE", path, wrong);
		free(rule);
		return -1;
	}
	(void)pthread_mutex_lock(&rules.lock);
	old = rules.rule;
	rules.rule = rule;
	rules.count = count;
	(void)pthread_mutex_unlock(&rules.lock);
	free(old);
	return 0;
}

auth_status_t rules_find(const char *name, uid_t uid, rule_t *rule)
{
	auth_status_t status = AUTH_UNKNOWN;
	size_t i;

	(void)pthread_mutex_lock(&rules.lock);
	for (i = 0; i < rules.count && status != AUTH_GRANTED; i++) {
		if (strcmp(rules.rule[i].name, name) != 0)
			continue;
		*rule = rules.rule[i];
		status = rule->is_for_all || rule->uid == uid ? AUTH_GRANTED : AUTH_DENIED;
	}
	(void)pthread_mutex_unlock(&rules.lock);
	return status;
}
