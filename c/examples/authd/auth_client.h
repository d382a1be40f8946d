/* auth_client.h: files and logs that authd opens for its clients. */
#ifndef AUTH_CLIENT_H
#define AUTH_CLIENT_H

/* The folder of authd and of its door: /etc/authd where nothing else is said. Called before the first auth_open. */
int auth_use_folder(const char *folder);

/*
 * A descriptor of the resource, close-on-exec: of a file for reading, of a log for writing, a line or more at a time.
 * -1 and errno: ENOENT there is no such resource, EACCES it is not for this user, EBUSY this process has the log open,
 * ECONNREFUSED no authd answers, EINTR.
 */
int auth_open(const char *name);

#endif
