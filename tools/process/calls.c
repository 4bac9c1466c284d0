/* Stands before the program's calls of the C library, for run.py. With INTERRUPT the first call of that name fails as
   interrupted, and with BREAK each `send` fails for good. With STRANGER the first connect finds that another connection came to the port before it, which has sent
   some bytes and stays open. */
#define _GNU_SOURCE
#include <dlfcn.h>
#include <errno.h>
#include <stdlib.h>
#include <string.h>
#include <sys/socket.h>
#include <unistd.h>

static int is_interrupted(const char *name) {
  static int was;
  const char *chosen = getenv("INTERRUPT");
  if (was || !chosen || strcmp(chosen, name)) return 0;
  was = 1;
  errno = EINTR;
  return 1;
}

#define NEXT(name) ((__typeof__(&name))dlsym(RTLD_NEXT, #name))

ssize_t read(int fd, void *bytes, size_t len) { return is_interrupted("read") ? -1 : NEXT(read)(fd, bytes, len); }

ssize_t write(int fd, const void *bytes, size_t len) {
  return is_interrupted("write") ? -1 : NEXT(write)(fd, bytes, len);
}

ssize_t recv(int fd, void *bytes, size_t len, int flags) {
  return is_interrupted("recv") ? -1 : NEXT(recv)(fd, bytes, len, flags);
}

ssize_t send(int fd, const void *bytes, size_t len, int flags) {
  if (getenv("BREAK")) {
    errno = EPIPE;
    return -1;
  }
  return is_interrupted("send") ? -1 : NEXT(send)(fd, bytes, len, flags);
}

int accept4(int fd, struct sockaddr *from, socklen_t *len, int flags) {
  return is_interrupted("accept4") ? -1 : NEXT(accept4)(fd, from, len, flags);
}

int connect(int fd, const struct sockaddr *to, socklen_t len) {
  static int was;
  if (getenv("STRANGER") && !was) {
    was = 1;
    int stranger = socket(AF_INET, SOCK_STREAM, 0);
    if (stranger < 0 || NEXT(connect)(stranger, to, len) || NEXT(send)(stranger, "stranger", 8, 0) != 8) _exit(99);
  }
  return is_interrupted("connect") ? -1 : NEXT(connect)(fd, to, len);
}
