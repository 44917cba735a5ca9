/* What the kit's C functions do, which it has for x86-64 alone, for a program on another machine: the arguments, the environment,
 * errno, memory and buffers written in one call. The contracts of the kit's crates os and libc, which nothing proves, say what each
 * has to do. Only ./label links this file in. A program that needs another of those functions does not link, and the linker names it. */
#include <errno.h>
#include <stdlib.h>
#include <string.h>
#include <sys/socket.h>
#include <sys/types.h>
#include <sys/uio.h>

extern char **environ;
static size_t count;
static char **words;

/* The C library hands a constructor what it hands main. */
__attribute__((constructor)) static void keep(int argc, char **argv) {
    count = (size_t)argc;
    words = argv;
}

/* A text's length; -1 where there is none, -2 where it does not fit, and then the room is full. */
static ssize_t put(const char *text, unsigned char *to, size_t room) {
    if (!text) return -1;
    size_t length = strlen(text);
    memcpy(to, text, length < room ? length : room);
    return length > room ? -2 : (ssize_t)length;
}

size_t rattle_arg_count(void) { return count; }
ssize_t rattle_arg(size_t i, unsigned char *to, size_t room) { return put(i < count ? words[i] : 0, to, room); }
ssize_t rattle_env(const char *name, unsigned char *to, size_t room) { return put(getenv(name), to, room); }

ssize_t rattle_env_at(size_t i, unsigned char *to, size_t room) {
    for (size_t at = 0; environ && environ[at]; at++)
        if (at == i) return put(environ[at], to, room);
    return -1;
}

int rattle_errno(void) { return errno; }
void rattle_set_errno(int error) { errno = error; }

/* Whether there was memory, and where; of no bytes, as many as the alignment says are asked for, so that there is a place. */
struct tried {
    size_t ok;
    void *at;
};
static char nothing;

static struct tried tried(void *at) {
    struct tried it = {at != 0, at ? at : &nothing};
    return it;
}

struct tried rattle_alloc(size_t size, size_t align) { return tried(malloc(size ? size : align)); }

struct tried rattle_realloc(void *at, size_t kept, size_t size, size_t align) {
    (void)kept;
    return tried(realloc(at, size ? size : align));
}

void rattle_dealloc(void *at) { free(at); }

ssize_t rattle_write_parts(int fd, _Bool is_socket, void *a, size_t la, void *b, size_t lb, void *c, size_t lc, void *d, size_t ld) {
    struct iovec parts[4] = {{a, la}, {b, lb}, {c, lc}, {d, ld}};
    if (!is_socket) return writev(fd, parts, 4);
    struct msghdr message = {.msg_iov = parts, .msg_iovlen = 4};
    return sendmsg(fd, &message, MSG_NOSIGNAL);
}
