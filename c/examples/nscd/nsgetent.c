/*
 * nsgetent: prints entries of passwd and group, as nscd or the files have them; of names, and where a key is a number of that.
 *
 * usage: nsgetent [-v] [-n TIMES] [-d FOLDER] passwd|group KEY..
 *
 * -v says of each who answered, -n asks for all of them so many times and prints the last answers. Status 2 where one is not there.
 */
#include <errno.h>
#include <stdio.h>
#include <stdlib.h>
#include <string.h>
#include <unistd.h>

#include "nsc_client.h"

enum { ROOM_FIRST = 512, ROOM_MOST = 1 << 20 };

typedef struct {
	struct passwd passwd;
	struct group group;
	char *buffer;
	size_t size;
} found_t;

static void usage(void)
{
	(void)fprintf(stderr, "usage: nsgetent [-v] [-n TIMES] [-d FOLDER] passwd|group KEY..\n");
	exit(2);
}

/* 1, 0 where there is none, -1 and errno. */
static int look_up(bool is_passwd, const char *key, found_t *found)
{
	char *end;
	unsigned long id = strtoul(key, &end, 10);
	bool is_number = *key >= '0' && *key <= '9' && *end == '\0';
	struct passwd *passwd = NULL;
	struct group *group = NULL;
	int error;

	if (is_passwd && is_number)
		error = nsc_getpwuid_r((uid_t)id, &found->passwd, found->buffer, found->size, &passwd);
	else if (is_passwd)
		error = nsc_getpwnam_r(key, &found->passwd, found->buffer, found->size, &passwd);
	else if (is_number)
		error = nsc_getgrgid_r((gid_t)id, &found->group, found->buffer, found->size, &group);
	else
		error = nsc_getgrnam_r(key, &found->group, found->buffer, found->size, &group);
	errno = error;
	return error != 0 ? -1 : passwd != NULL || group != NULL;
}

/* With a buffer that grows until the entry fits. */
static int find(bool is_passwd, const char *key, found_t *found)
{
	for (;;) {
		int result;

		if (found->buffer == NULL) {
			found->buffer = malloc(found->size);
			if (found->buffer == NULL)
				return -1;
		}
		result = look_up(is_passwd, key, found);
		if (result != -1 || errno != ERANGE || found->size >= ROOM_MOST)
			return result;
		free(found->buffer);
		found->buffer = NULL;
		found->size *= 2;
	}
}

static void print(bool is_passwd, const found_t *found)
{
	const struct passwd *passwd = &found->passwd;
	char **member;

	if (is_passwd) {
		(void)printf("%s:%s:%u:%u:%s:%s:%s", passwd->pw_name, passwd->pw_passwd, (unsigned)passwd->pw_uid, (unsigned)passwd->pw_gid,
		    passwd->pw_gecos, passwd->pw_dir, passwd->pw_shell);
		return;
	}
	(void)printf("%s:%s:%u:", found->group.gr_name, found->group.gr_passwd, (unsigned)found->group.gr_gid);
	for (member = found->group.gr_mem; *member != NULL; member++)
		(void)printf("%s%s", member == found->group.gr_mem ? "" : ",", *member);
}

static int show(bool is_passwd, const char *key, bool is_verbose, bool is_last, found_t *found)
{
	const char *source;
	int result = find(is_passwd, key, found);

	if (result == -1) {
		(void)fprintf(stderr, "nsgetent: %s: %s\n", key, strerror(errno));
		return 1;
	}
	source = !is_verbose ? "" : nsc_was_cached() ? " (nscd)" : " (file)";
	if (result == 1 && is_last) {
		print(is_passwd, found);
		(void)printf("%s\n", source);
	} else if (result == 0 && is_last && is_verbose) {
		(void)printf("%s: no such entry%s\n", key, source);
	}
	return result == 1 ? 0 : 2;
}

int main(int argc, char **argv)
{
	found_t found = { .size = ROOM_FIRST };
	bool is_verbose = false, is_passwd;
	long times = 1, time;
	int option, i, status = 0;

	while ((option = getopt(argc, argv, "vn:d:")) != -1) {
		if (option == 'v')
			is_verbose = true;
		else if (option == 'n')
			times = strtol(optarg, NULL, 10);
		else if (option != 'd' || nsc_use_folder(optarg) != 0)
			usage();
	}
	if (argc - optind < 2)
		usage();
	is_passwd = strcmp(argv[optind], "passwd") == 0;
	if (!is_passwd && strcmp(argv[optind], "group") != 0)
		usage();
	for (time = 1; time <= times; time++) {
		for (i = optind + 1; i < argc; i++) {
			int result = show(is_passwd, argv[i], is_verbose, time == times, &found);

			status = result > status ? result : status;
		}
	}
	free(found.buffer);
	return status;
}
