/* A target without a disk: how fast any target could be that keeps to the rules of `serve`, with the client of speed.c.
 *
 *   cc -O2 -o floor floor.c
 *   ./floor PORT [CLIENT [SEGMENT BURST DATA-IN]]
 *
 * CLIENT is `client` for client.c, or `libiscsi` for speed.c. SEGMENT and BURST are those of `serve`, and DATA-IN is how long a
 * Data-In is at most.
 *
 * It prints `listening`, and serves one connection after another on 127.0.0.1 until it is killed. It says in a login what
 * `serve` says to libiscsi (segments of 8,192 bytes, first bursts of 65,536, bursts of 262,144, immediate data, no initial
 * R2T), has the same window of eight commands, asks for the data of the first task alone, a burst at a time, and sends
 * Data-In in parts of 262,144 bytes, which is what libiscsi takes, and a response of its own behind them. It reads up to
 * a MiB at a time. The answers to what a read gave leave in one call, and sooner where more than 65,536 bytes wait.
 *
 * What a target has to do beyond that it leaves out: there is one buffer that holds what speed.c expects to read, whatever
 * the block, or for client.c a disk of 64 MiB that holds what its stage `f` writes. Data that are written stay where they
 * were read and are forgotten; nothing that comes is checked. So what
 * `serve` takes beyond it is its own work, and what it takes itself is the system's, the client's and the protocol's.
 */
#include <netinet/in.h>
#include <netinet/tcp.h>
#include <stdint.h>
#include <stdio.h>
#include <stdlib.h>
#include <string.h>
#include <sys/socket.h>
#include <sys/uio.h>
#include <unistd.h>

enum {
  HEADER = 48,
  READ = 1 << 20,        /* bytes of one read */
  MOST_WAITING = 65536,  /* bytes of answers that may wait until all of a read is taken */
  BLOCK = 512,           /* bytes */
  BLOCKS = 131072,       /* of the disk that there isn't */
  WINDOW = 8,
  HEADS = 256,           /* headers that may wait */
};

/* Bytes: of a write that come unasked, that one R2T asks for, of a segment to the target, and in one Data-In. */
static uint32_t first_burst = 65536, burst = 262144, segment_out = 8192, segment_in = 262144;

/* Whether client.c is served, which looks for the number of each block. */
static int has_numbers;

/* A command that isn't answered. */
struct task {
  uint8_t head[HEADER];
  uint32_t total, came, asked, r2ts; /* bytes of a write: of all, that came, that came unasked or were asked for; R2Ts */
};

struct session {
  int socket;
  uint32_t stat_sn, exp_cmd_sn;
  uint8_t head[HEADER]; /* of the PDU that comes: so much of it is there, and so much of its segment isn't */
  uint32_t filled, missing;
  struct task tasks[WINDOW + 1]; /* in their order, the first at `first` */
  uint32_t first, count;
  uint8_t heads[HEADS][HEADER]; /* what waits to be sent */
  struct iovec parts[2 * HEADS];
  uint32_t used, pieces;
  size_t waiting;
  int over;
};

static uint8_t incoming[READ], pattern[BLOCKS * BLOCK];

static void fail(const char *what) {
  perror(what);
  exit(1);
}

static void put(uint8_t *at, uint32_t n) {
  at[0] = n >> 24, at[1] = n >> 16, at[2] = n >> 8, at[3] = n;
}

static uint32_t get(const uint8_t *at) {
  return (uint32_t)at[0] << 24 | at[1] << 16 | at[2] << 8 | at[3];
}

static uint32_t padded(uint32_t len) {
  return (len + 3) & ~3u;
}

/* ---- What goes out */

/* Sends all that waits. */
static void flush(struct session *s) {
  struct iovec *part = s->parts;
  int left = s->pieces;
  while (left) {
    ssize_t n = writev(s->socket, part, left);
    if (n < 0) {
      s->over = 1;
      break;
    }
    while (left && (size_t)n >= part->iov_len) n -= part->iov_len, part++, left--;
    if (left) part->iov_base = (uint8_t *)part->iov_base + n, part->iov_len -= n;
  }
  s->used = s->pieces = s->waiting = 0;
}

/* A header for a task's tag, with the numbers of the moment; so many tasks aren't handled. The segment stays where it is. */
static uint8_t *answer(struct session *s, int opcode, int flags, const uint8_t *to, uint32_t unhandled, const void *segment,
                       uint32_t len) {
  if (s->used == HEADS) flush(s);
  uint8_t *head = s->heads[s->used++];
  memset(head, 0, HEADER);
  head[0] = opcode;
  head[1] = flags;
  put(head + 4, len);
  memcpy(head + 16, to + 16, 4);
  put(head + 28, s->exp_cmd_sn);
  put(head + 32, s->exp_cmd_sn + WINDOW - 1 - unhandled);
  s->parts[s->pieces++] = (struct iovec){head, HEADER};
  if (len) s->parts[s->pieces++] = (struct iovec){(void *)segment, len};
  s->waiting += HEADER + len;
  return head;
}

/* A header that takes a StatSN. */
static uint8_t *response(struct session *s, int opcode, int flags, const uint8_t *to, const void *segment, uint32_t len) {
  uint8_t *head = answer(s, opcode, flags, to, s->count, segment, len);
  put(head + 24, s->stat_sn++);
  return head;
}

/* ---- Commands. The first task counts no more among those that aren't handled once it is answered. */

/* Data, and the response behind them. */
static void give(struct session *s, const uint8_t *command, const uint8_t *data, uint32_t len) {
  uint32_t count = 0;
  for (uint32_t at = 0; at < len; at += segment_in, count++) {
    uint32_t part = len - at < segment_in ? len - at : segment_in;
    int ends = at + part == len || (at + part) % burst == 0;
    uint8_t *head = answer(s, 0x25, ends ? 0x80 : 0, command, s->count, data + at, part);
    put(head + 20, 0xffffffff);
    put(head + 36, count);
    put(head + 40, at);
  }
  uint8_t *head = response(s, 0x21, 0x80, command, NULL, 0);
  put(head + 36, count);
}

/* Blocks of a READ(10). */
static void give_blocks(struct session *s, const uint8_t *command) {
  const uint8_t *cdb = command + 32;
  uint32_t lba = has_numbers ? get(cdb + 2) : 0, blocks = cdb[7] << 8 | cdb[8];
  if (blocks > BLOCKS || lba > BLOCKS - blocks) fprintf(stderr, "a READ past the end\n"), exit(1);
  give(s, command, pattern + (size_t)BLOCK * lba, BLOCK * blocks);
}

/* A write with all its data is answered; else its next burst is asked for, where nothing is on its way. Says whether it
 * is done. */
static int take(struct session *s, struct task *task) {
  if (task->came == task->total) {
    s->first = (s->first + 1) % (WINDOW + 1), s->count--;
    give(s, task->head, NULL, 0);
    return 1;
  }
  if (task->came == task->asked) {
    uint32_t more = task->total - task->came < burst ? task->total - task->came : burst;
    uint8_t *head = answer(s, 0x31, 0x80, task->head, s->count, NULL, 0);
    memcpy(head + 8, task->head + 8, 8);
    put(head + 20, task->r2ts);
    put(head + 24, s->stat_sn);
    put(head + 36, task->r2ts++);
    put(head + 40, task->came);
    put(head + 44, more);
    task->asked += more;
  }
  return 0;
}

/* Does tasks in their order, up to a write that lacks data. */
static void work_off(struct session *s) {
  static const uint8_t capacity[8] = {0, (BLOCKS - 1) >> 16 & 255, (BLOCKS - 1) >> 8 & 255, (BLOCKS - 1) & 255, 0, 0, 2, 0};
  while (s->count) {
    struct task *task = &s->tasks[s->first];
    const uint8_t *cdb = task->head + 32;
    if (cdb[0] == 0x2a) {
      if (!take(s, task)) return;
      continue;
    }
    s->first = (s->first + 1) % (WINDOW + 1), s->count--;
    if (cdb[0] == 0x28) give_blocks(s, task->head);
    else if (cdb[0] == 0x25) give(s, task->head, capacity, sizeof capacity);
    else if (cdb[0] == 0x00) give(s, task->head, NULL, 0);
    else fprintf(stderr, "a command %02x\n", cdb[0]), exit(1);
  }
}

static void command(struct session *s, uint32_t len) {
  if (s->count > WINDOW) fprintf(stderr, "a command outside the window\n"), exit(1);
  struct task *task = &s->tasks[(s->first + s->count++) % (WINDOW + 1)];
  memcpy(task->head, s->head, HEADER);
  task->total = get(s->head + 20);
  task->came = len;
  task->r2ts = 0;
  /* F says that nothing comes unasked. */
  task->asked = s->head[1] & 0x80 ? len : task->total < first_burst ? task->total : first_burst;
  if (!(s->head[0] & 0x40)) s->exp_cmd_sn++;
  work_off(s);
}

static void data_out(struct session *s, uint32_t len) {
  for (uint32_t i = 0; i < s->count; i++) {
    struct task *task = &s->tasks[(s->first + i) % (WINDOW + 1)];
    if (memcmp(task->head + 16, s->head + 16, 4)) continue;
    task->came += len;
    if (s->head[1] & 0x80) task->asked = task->came;
    /* Before the sequence ends nothing changes. */
    if (s->head[1] & 0x80 && i == 0) work_off(s);
    return;
  }
}

/* What is said of the operational keys, with room for padding. */
static char operational[512];
static uint32_t operational_len;

static void prepare_text(void) {
  static const char keys[] =
      "HeaderDigest=None;DataDigest=None;InitialR2T=No;ImmediateData=Yes;MaxBurstLength=%u;FirstBurstLength=%u;"
      "DefaultTime2Wait=2;DefaultTime2Retain=0;MaxConnections=1;MaxOutstandingR2T=1;DataPDUInOrder=Yes;"
      "DataSequenceInOrder=Yes;ErrorRecoveryLevel=0;%sMaxRecvDataSegmentLength=%u;";
  const char *markers = has_numbers ? "" : "IFMarker=No;OFMarker=No;";
  operational_len = snprintf(operational, sizeof operational, keys, burst, first_burst, markers, segment_out);
  for (char *at = operational; (at = strchr(at, ';'));) *at++ = 0;
}

/* A login goes on to the stage that the client wants. What it offers is not read: libiscsi and client.c offer these keys. */
static void login(struct session *s) {
  /* Behind each are enough bytes of padding. */
  static const char security[] = "AuthMethod=None\0TargetPortalGroupTag=1\0\0\0";
  int full = (s->head[1] & 0x83) == 0x83;
  s->exp_cmd_sn = get(s->head + 24);
  const char *text = s->head[1] & 0x0c ? operational : security;
  uint32_t len = s->head[1] & 0x0c ? operational_len : sizeof security - 3;
  uint8_t *head = response(s, 0x23, s->head[1], s->head, text, padded(len));
  put(head + 4, len);
  memcpy(head + 8, s->head + 8, 6);
  head[15] = full;
}

/* ---- What comes in */

/* A PDU is whole. Its segment is gone. */
static void pdu(struct session *s) {
  uint32_t len = get(s->head + 4) & 0xffffff;
  switch (s->head[0] & 0x3f) {
    case 0x01: return command(s, len);
    case 0x05: return data_out(s, len);
    case 0x03: return login(s);
    case 0x06:
      s->exp_cmd_sn += !(s->head[0] & 0x40);
      response(s, 0x26, 0x80, s->head, NULL, 0);
      s->over = 1;
      return;
    default: fprintf(stderr, "a PDU %02x\n", s->head[0]), exit(1);
  }
}

/* Takes what a read gave. */
static void take_bytes(struct session *s, const uint8_t *at, size_t len) {
  while (len) {
    size_t n;
    if (s->filled < HEADER) {
      n = len < HEADER - s->filled ? len : HEADER - s->filled;
      memcpy(s->head + s->filled, at, n);
      s->filled += n;
      if (s->filled == HEADER) s->missing = padded(get(s->head + 4) & 0xffffff);
    } else {
      n = len < s->missing ? len : s->missing;
      s->missing -= n;
    }
    at += n, len -= n;
    if (s->filled < HEADER || s->missing) continue;
    pdu(s);
    s->filled = 0;
    if (s->waiting > MOST_WAITING) flush(s);
  }
}

static void serve(int socket) {
  struct session *s = calloc(1, sizeof *s);
  if (!s) fail("calloc");
  s->socket = socket;
  s->stat_sn = 1;
  while (!s->over) {
    ssize_t n = read(socket, incoming, READ);
    if (n <= 0) break;
    take_bytes(s, incoming, n);
    flush(s);
  }
  free(s);
  close(socket);
}

/* What is read: for client.c each block has its number, and the letter of the stage that writes it. */
static void prepare_blocks(void) {
  for (size_t i = 0; i < sizeof pattern; i++) pattern[i] = (has_numbers ? i % BLOCK : i) * 7 + 1;
  for (uint64_t lba = 0, letter = 'f'; has_numbers && lba < BLOCKS; lba++) {
    memcpy(pattern + BLOCK * lba, &lba, sizeof lba);
    memcpy(pattern + BLOCK * lba + sizeof lba, &letter, sizeof letter);
  }
}

int main(int argc, char **argv) {
  if (argc != 2 && argc != 3 && argc != 6) return 2;
  has_numbers = argc > 2 && !strcmp(argv[2], "client");
  if (argc == 6) segment_out = atoi(argv[3]), burst = atoi(argv[4]), segment_in = atoi(argv[5]);
  if (first_burst > burst) first_burst = burst;
  struct sockaddr_in address = {.sin_family = AF_INET, .sin_port = htons(atoi(argv[1])), .sin_addr = {htonl(INADDR_LOOPBACK)}};
  int listener = socket(AF_INET, SOCK_STREAM, 0), yes = 1;
  setsockopt(listener, SOL_SOCKET, SO_REUSEADDR, &yes, sizeof yes);
  if (bind(listener, (struct sockaddr *)&address, sizeof address) || listen(listener, 8)) fail("listen");
  prepare_blocks();
  prepare_text();
  puts("listening");
  fflush(stdout);
  for (;;) {
    int socket = accept(listener, NULL, NULL);
    if (socket < 0) fail("accept");
    setsockopt(socket, IPPROTO_TCP, TCP_NODELAY, &yes, sizeof yes);
    serve(socket);
  }
}
