/* A session of a client in C with a server at PATH. cc -o example refheap_example.c && ./example PATH */
#include "refheap.h"

#define AHEAD 20000
#define BYTES 1000

static void count(void *with, const char *reply)
{
    *(int *)with += strcmp(reply, "yes") == 0;
}

/* The number that a line is answered, or the end of the program where it is refused. */
static int number(struct session *session, const char *line)
{
    int answer = session_ask(session, "%s", line);
    if (answer != 0) {
        fprintf(stderr, "%s: %s\n", line, session_words(answer));
        exit(1);
    }
    return (int)session_number(session);
}

static void array(struct session *session)
{
    int held = number(session, "array 1000"), thing = number(session, "new -");
    session_ask(session, "put %d 999 %d", held, thing);
    session_ask(session, "get %d 999", held);
    session_ask(session, "same %d %d", thing, (int)session_number(session));
    printf("an element of an array: %s\n", session->reply);
    session_ask(session, "drop %d", held);
}

static void ahead(struct session *session)
{
    static char lines[9 * AHEAD + 1];
    int replies = 0;
    for (int line = 0; line < AHEAD; line++)
        memcpy(lines + 9 * line, "same 0 0\n", 9);
    session_ahead(session, lines, 9 * AHEAD, count, &replies);
    printf("%d lines ahead, %d replies\n", AHEAD, replies);
}

static void file(struct session *session, const char *path)
{
    unsigned char bytes[BYTES], back[BYTES + 200];
    size_t got = 0;
    for (int at = 0; at < BYTES; at++)
        bytes[at] = (unsigned char)(at * 7);
    int answer = session_ask(session, "open w %s", path), guard = (int)session_number(session);
    answer = answer ? answer : session_write_all(session, guard, bytes, BYTES);
    answer = answer ? answer : session_ask(session, "close %d", guard);
    answer = answer ? answer : session_ask(session, "open r %s", path);
    guard = (int)session_number(session);
    while (answer == 0 && got <= BYTES && session_ask(session, "read %d 200", guard) == 0 && strncmp(session->reply, "data ", 5) == 0)
        for (const char *digits = session->reply + 5; *digits; digits += 2)
            sscanf(digits, "%2hhx", &back[got++]);
    printf("%d bytes written and read back: %s\n", BYTES, answer == 0 && got == BYTES && memcmp(bytes, back, BYTES) == 0 ? "yes" : session_words(answer));
    unlink(path);
}

static void collected(struct session *session)
{
    int thing = number(session, "new -");
    session_ask(session, "weak %d 0", thing);
    int weak = (int)session_number(session);
    session_ask(session, "drop %d", thing);
    session_ask(session, "gc");
    session_ask(session, "refers %d 0", weak);
    printf("dropped and collected: %s\n", session->reply);
}

int main(int count, char **words)
{
    static struct session session;
    char path[200];
    if (count != 2 || strlen(words[1]) > 107) {
        fprintf(stderr, "usage: %s PATH, the socket of a server\n", words[0]);
        return 2;
    }
    if (session_open(&session, words[1], 1000) != 0) {
        fprintf(stderr, "%s: nobody listens at %s\n", words[0], words[1]);
        return 1;
    }
    snprintf(path, sizeof path, "%s.example", words[1]);
    array(&session);
    ahead(&session);
    file(&session, path);
    collected(&session);
    printf("get 200 1: %s\n", session_words(session_ask(&session, "get 200 1")));
    session_ask(&session, "open r /nowhere/x");
    printf("open r /nowhere/x: %s\n", session.reply + strlen("fault "));
    session_close(&session);
    return 0;
}
