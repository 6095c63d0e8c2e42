/* A client of `refheap serve` in C, as one header: a session over a Unix socket. refheap_example.c shows all of it. (The heap as a library in one's own process
   is another thing: embed_c/refheap.h.)

   session_ask sends one line and reads its reply. It returns 0, or the number of a refusal (1 to 19, told in words by session_words), or SESSION_FAULT where a call on
   a file or a socket failed, or SESSION_GONE where the session is over. session_ahead sends any number of lines before it waits, and reads while it writes. */
#ifndef REFHEAP_SESSION_H
#define REFHEAP_SESSION_H

#include <errno.h>
#include <poll.h>
#include <stdarg.h>
#include <stdio.h>
#include <stdlib.h>
#include <string.h>
#include <sys/socket.h>
#include <sys/un.h>
#include <time.h>
#include <unistd.h>

enum { SESSION_FAULT = -1, SESSION_GONE = -2 };
enum { SESSION_LINE = 512, SESSION_REPLY = 8454 };

struct session {
    int socket;
    size_t start, end;              /* what was read and not given yet: unread[start..end] */
    char unread[4 * SESSION_REPLY];
    char reply[SESSION_REPLY];      /* the last reply, without its line end */
};

/* The words of a refusal. */
static inline const char *session_words(int number)
{
    static const char *const words[] = {
        "", "no memory", "heap full", "no such handle", "handles full", "wrong kind", "no such field", "wrong type", "null", "no such name", "names full", "busy",
        "closed", "no session", "numbers exhausted", "malformed", "too long", "not out", "queue empty", "resources full"};
    return number == SESSION_FAULT ? "fault" : number == SESSION_GONE ? "the session is over" : number >= 0 && number <= 19 ? words[number] : "unknown";
}

/* Connects; where nobody listens yet, tries again for so many milliseconds. 0, or SESSION_GONE. */
static inline int session_open(struct session *session, const char *path, int milliseconds)
{
    struct sockaddr_un address = {.sun_family = AF_UNIX};
    const struct timespec pause = {.tv_nsec = 10000000};
    session->start = session->end = 0;
    session->socket = -1;
    if (strlen(path) >= sizeof address.sun_path)
        return SESSION_GONE;
    strcpy(address.sun_path, path);
    for (;; milliseconds -= 10) {
        session->socket = socket(AF_UNIX, SOCK_STREAM | SOCK_CLOEXEC, 0);
        if (session->socket < 0 || connect(session->socket, (struct sockaddr *)&address, sizeof address) == 0)
            return session->socket < 0 ? SESSION_GONE : 0;
        close(session->socket);
        session->socket = -1;
        if ((errno != ENOENT && errno != ECONNREFUSED) || milliseconds <= 0)
            return SESSION_GONE;
        nanosleep(&pause, NULL);
    }
}

/* Takes a whole reply out of what was read. Whether there was one. */
static inline int session_take(struct session *session)
{
    char *from = session->unread + session->start, *end = memchr(from, '\n', session->end - session->start);
    if (end == NULL || end - from >= SESSION_REPLY)
        return 0;
    memcpy(session->reply, from, end - from);
    session->reply[end - from] = 0;
    session->start += end - from + 1;
    return 1;
}

/* Reads what has come. 0, or SESSION_GONE. */
static inline int session_receive(struct session *session)
{
    ssize_t count;
    memmove(session->unread, session->unread + session->start, session->end - session->start);
    session->end -= session->start;
    session->start = 0;
    do
        count = recv(session->socket, session->unread + session->end, sizeof session->unread - session->end, 0);
    while (count < 0 && errno == EINTR);
    if (count <= 0)
        return SESSION_GONE;
    session->end += count;
    return 0;
}

/* Sends these lines, each with its line end, and calls `each` with every reply, which has to be as many as there are lines. 0, or SESSION_GONE. */
static inline int session_ahead(struct session *session, const char *lines, size_t length, void (*each)(void *with, const char *reply), void *with)
{
    size_t due = 0, sent = 0;
    for (size_t at = 0; at < length; at++)
        due += lines[at] == '\n';
    while (due > 0) {
        struct pollfd ready = {.fd = session->socket, .events = POLLIN | (sent < length ? POLLOUT : 0)};
        if (poll(&ready, 1, -1) < 0 && errno != EINTR)
            return SESSION_GONE;
        if (ready.revents & POLLOUT) {
            ssize_t count = send(session->socket, lines + sent, length - sent, MSG_DONTWAIT | MSG_NOSIGNAL);
            if (count < 0 && errno != EAGAIN && errno != EINTR)
                sent = length;  /* The session is over; what was answered before can still be read. */
            sent += count > 0 ? count : 0;
        }
        if ((ready.revents & ~POLLOUT) && session_receive(session) != 0)
            return SESSION_GONE;
        for (; due > 0 && session_take(session); due--)
            each(with, session->reply);
    }
    return 0;
}

static inline void session_ignore(void *with, const char *reply)
{
    (void)with, (void)reply;
}

/* Sends one line, given as for printf, and leaves its reply in session->reply. */
static inline int session_ask(struct session *session, const char *format, ...)
{
    char line[SESSION_LINE + 2];
    va_list arguments;
    va_start(arguments, format);
    int length = vsnprintf(line, sizeof line - 1, format, arguments);
    va_end(arguments);
    if (length < 0 || length > SESSION_LINE)
        return 16;
    line[length] = '\n';
    if (session_ahead(session, line, length + 1, session_ignore, NULL) != 0)
        return SESSION_GONE;
    if (strncmp(session->reply, "! ", 2) == 0)
        return atoi(session->reply + 2);
    return strncmp(session->reply, "fault", 5) == 0 ? SESSION_FAULT : 0;
}

/* The number of the last reply: of `= h`, `int n` or `wrote n`. */
static inline long long session_number(const struct session *session)
{
    const char *space = strchr(session->reply, ' ');
    return space == NULL ? 0 : strtoll(space, NULL, 10);
}

/* Writes all of these bytes to a guard's file, 200 a line; a short write is continued. What session_ask returns. */
static inline int session_write_all(struct session *session, int guard, const unsigned char *data, size_t length)
{
    while (length > 0) {
        char digits[401];
        size_t count = length < 200 ? length : 200;
        for (size_t at = 0; at < count; at++)
            sprintf(digits + 2 * at, "%02x", data[at]);
        int answer = session_ask(session, "write %d %s", guard, digits);
        if (answer != 0)
            return answer;
        if ((count = session_number(session)) == 0)
            return SESSION_FAULT;
        data += count;
        length -= count;
    }
    return 0;
}

/* Says bye, and closes the connection. */
static inline void session_close(struct session *session)
{
    session_ask(session, "bye");
    close(session->socket);
    session->socket = -1;
}

#endif
