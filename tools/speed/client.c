/* An initiator that measures any iSCSI target, over sockets alone: commands a second, and the target's processor time.
 *
 *   cc -O2 -o client client.c
 *   ./client 127.0.0.1 3260 iqn.2026-01.example:disk 0 --size 65536 --depth 8
 *
 * All that the disk holds at its places is overwritten. It logs in, keeps so many commands outstanding as the window
 * allows, and works through stages, which --do names by their letters:
 *
 *   f  fill: writes each place once        r  reads for --seconds what `f` wrote
 *   w  writes for --seconds                v  verify: reads each place once, as `w` and `f` left it
 *
 * A place is where one command begins: --from BLOCK, --places N and --stride BLOCKS say where they are. --step K takes
 * every K-th place in turn, so that neighbours don't follow each other. Several sessions share the places among them.
 * Each block has its number in it, and which stage wrote it. Of what is read each byte is looked at as it comes, and so
 * are the header numbers: StatSN, DataSN, R2TSN, offsets, lengths, residuals, status. The first one that is not so ends
 * the program with status 1 and a line. So it keeps nothing of what it reads, and has one buffer for all of it. With
 * --process the target's processor time and resident memory are those of this process, by /proc.
 */
#define _GNU_SOURCE /* sockets beside C11 */
#include <errno.h>
#include <getopt.h>
#include <netdb.h>
#include <netinet/in.h>
#include <netinet/tcp.h>
#include <poll.h>
#include <stdarg.h>
#include <stdint.h>
#include <stdio.h>
#include <stdlib.h>
#include <string.h>
#include <sys/resource.h>
#include <sys/socket.h>
#include <sys/uio.h>
#include <time.h>
#include <unistd.h>

enum {
  HEADER = 48,
  BLOCK = 512,
  READ = 1 << 18,       /* bytes of one read: as many as stay near the processor */
  TEXT = 8192,          /* bytes of the longest segment that is no data */
  HEADS = 256,          /* headers that may wait to be sent */
  MOST_DEPTH = 64,      /* a tag has its slot in the low 6 bits */
  MOST_SESSIONS = 256,
  PATIENCE = 30,        /* seconds without an answer */
  RESERVED = 0xffffffff /* the tag that is none */
};

/* Opcodes. */
enum {
  NOP_OUT = 0x00, SCSI_COMMAND = 0x01, LOGIN = 0x03, DATA_OUT = 0x05, LOGOUT = 0x06,
  NOP_IN = 0x20, SCSI_RESPONSE = 0x21, LOGIN_RESPONSE = 0x23, DATA_IN = 0x25, LOGOUT_RESPONSE = 0x26, R2T = 0x31
};
enum { FINAL = 0x80, IMMEDIATE = 0x40, READS = 0x40, WRITES = 0x20, SIMPLE = 1, RESIDUAL = 0x1e, HAS_STATUS = 1 };

/* A command that is not answered. */
struct task {
  uint32_t tag;            /* RESERVED where the slot is free */
  int writes;
  uint64_t lba, generation;
  uint32_t came, burst;    /* bytes of Data-In: of all, and since the last one with F */
  uint32_t sent, r2ts;     /* bytes sent or asked for; R2Ts */
  uint32_t data_ins;
  uint8_t *data;           /* of a write */
};

/* What is negotiated. */
struct numbers {
  uint32_t segment, burst, first_burst; /* bytes: of a segment to the target, of a burst, of what comes unasked */
  int waits_for_r2t, has_immediate;
};

struct session {
  int socket;
  struct numbers held;
  uint32_t cmd_sn, max_cmd_sn, stat_sn, serial;
  struct task tasks[MOST_DEPTH];
  uint32_t outstanding, most_outstanding;
  uint64_t first, places, issued, written; /* the places that are its own; commands of this stage; places of the last `w` */
  uint8_t head[HEADER];       /* of the PDU that comes: so much of it is there, and so much of its segment is not */
  uint32_t filled, missing, padding;
  struct task *data_of;       /* whose data they are */
  uint8_t text[TEXT];         /* a segment that is no data */
  uint32_t text_len;
  uint8_t heads[HEADS][HEADER]; /* what waits to be sent */
  struct iovec parts[3 * HEADS];
  uint32_t used, pieces;
  int is_ready, is_in, is_over;
};

/* The words. */
static struct {
  const char *host, *port, *target, *stages;
  uint32_t lun, size, depth, sessions, segment, burst, first_burst, process;
  uint64_t from, places, stride, step;
  double seconds;
  int has_16;
} words = {.stages = "frwv", .size = 4096, .depth = 1, .sessions = 1, .segment = 262144, .burst = 262144,
           .first_burst = 262144, .step = 1, .seconds = 1};

/* The stage at work: its letter, or i and o for login and logout. */
static struct {
  char kind;
  int writes;
  double end;      /* of `r` and `w` */
  uint64_t ended;  /* commands */
  /* Told and no more: tgt and istgt send Data-Ins past MaxBurstLength without F, and threads of istgt send R2Ts with a
   * StatSN that was used meanwhile. */
  uint64_t long_bursts, old_stat_sns;
} stage = {.kind = 'i'};

static struct session *sessions[MOST_SESSIONS];
static uint8_t incoming[READ], due_block[BLOCK];

/* ---- Numbers */

/* Ends the program with a line. */
static _Noreturn void stop(const char *format, ...) {
  va_list values;
  va_start(values, format);
  fprintf(stderr, "client, stage %c: ", stage.kind);
  vfprintf(stderr, format, values);
  fputc('\n', stderr);
  exit(1);
}

static _Noreturn void fail(const char *what) {
  if (errno) stop("%s: %s", what, strerror(errno));
  stop("%s", what);
}

static uint32_t get(const uint8_t *at) {
  return (uint32_t)at[0] << 24 | at[1] << 16 | at[2] << 8 | at[3];
}

static void put(uint8_t *at, uint32_t n) {
  at[0] = n >> 24, at[1] = n >> 16, at[2] = n >> 8, at[3] = n;
}

static uint32_t least(uint32_t a, uint32_t b) {
  return a < b ? a : b;
}

/* A header number that is not the one that is due ends the program. */
static void expect(const struct session *s, const char *what, uint32_t seen, uint32_t due) {
  if (seen != due) stop("PDU %02x, flags %02x: %s is %u in place of %u", s->head[0], s->head[1], what, seen, due);
}

/* What a target does against the standard, and on which nothing else depends. */
static void remark(uint64_t count, const char *what) {
  if (count) printf("against the standard: %llu %s\n", (unsigned long long)count, what);
}

static double now(void) {
  struct timespec t;
  clock_gettime(CLOCK_MONOTONIC, &t);
  return t.tv_sec + t.tv_nsec / 1e9;
}

/* Seconds of processor time that this program has taken. */
static double own_time(void) {
  struct rusage u;
  getrusage(RUSAGE_SELF, &u);
  return u.ru_utime.tv_sec + u.ru_stime.tv_sec + (u.ru_utime.tv_usec + u.ru_stime.tv_usec) / 1e6;
}

/* A file of the target's process, or nothing. */
static FILE *of_process(const char *name) {
  char path[64];
  if (!words.process) return NULL;
  snprintf(path, sizeof path, "/proc/%u/%s", words.process, name);
  FILE *file = fopen(path, "r");
  if (!file) fail(path);
  return file;
}

/* Seconds of processor time that the target has taken: the 14th and the 15th field, behind a name in brackets. */
static double target_time(void) {
  FILE *file = of_process("stat");
  unsigned long user = 0, kernel = 0;
  if (!file) return 0;
  if (fscanf(file, "%*d (%*[^)]) %*c %*d %*d %*d %*d %*d %*u %*u %*u %*u %*u %lu %lu", &user, &kernel) != 2) fail("stat");
  fclose(file);
  return (double)(user + kernel) / sysconf(_SC_CLK_TCK);
}

/* Kilobytes that the target has in memory. */
static unsigned long target_memory(void) {
  FILE *file = of_process("status");
  unsigned long kilobytes = 0;
  char line[256];
  if (!file) return 0;
  while (fgets(line, sizeof line, file) && sscanf(line, "VmRSS: %lu", &kilobytes) != 1);
  fclose(file);
  return kilobytes;
}

/* ---- What goes out */

static void flush(struct session *s) {
  struct iovec *part = s->parts;
  int left = s->pieces;
  while (left) {
    ssize_t n = writev(s->socket, part, left);
    if (n < 0 && errno == EINTR) continue;
    if (n < 0) fail("the target takes no more");
    while (left && (size_t)n >= part->iov_len) n -= part->iov_len, part++, left--;
    if (left) part->iov_base = (uint8_t *)part->iov_base + n, part->iov_len -= n;
  }
  s->used = s->pieces = 0;
}

/* A header with a segment, which stays where it is. Its numbers are those of the moment. */
static uint8_t *send_pdu(struct session *s, int opcode, int flags, uint32_t tag, const void *segment, uint32_t len) {
  static const uint8_t zeros[4];
  if (s->used == HEADS) flush(s);
  uint8_t *head = s->heads[s->used++];
  memset(head, 0, HEADER);
  head[0] = opcode;
  head[1] = flags;
  put(head + 4, len);
  put(head + 16, tag);
  put(head + 24, s->cmd_sn);
  put(head + 28, s->stat_sn);
  s->parts[s->pieces++] = (struct iovec){head, HEADER};
  if (len) s->parts[s->pieces++] = (struct iovec){(void *)segment, len};
  if (len % 4) s->parts[s->pieces++] = (struct iovec){(void *)zeros, 4 - len % 4};
  return head;
}

/* A burst of a write, as Data-Outs that the target takes. */
static void send_burst(struct session *s, struct task *task, uint32_t ttt, uint32_t len) {
  uint32_t data_sn = 0;
  while (len) {
    uint32_t part = least(len, s->held.segment);
    uint8_t *head = send_pdu(s, DATA_OUT, part == len ? FINAL : 0, task->tag, task->data + task->sent, part);
    head[9] = words.lun;
    put(head + 20, ttt);
    put(head + 24, 0); /* no CmdSN here */
    put(head + 36, data_sn++);
    put(head + 40, task->sent);
    task->sent += part, len -= part;
  }
}

/* ---- Blocks */

/* What says which block it is: its number, and the stage that wrote it. */
static void number_block(uint8_t *block, uint64_t lba, uint64_t generation) {
  memcpy(block, &lba, sizeof lba);
  memcpy(block + sizeof lba, &generation, sizeof generation);
}

static void fill_with_pattern(uint8_t *bytes, uint32_t len) {
  for (uint32_t i = 0; i < len; i++) bytes[i] = i % BLOCK * 7 + 1;
}

/* Data of a READ go on; they are looked at and forgotten. */
static void look_at_data(struct task *task, const uint8_t *at, uint32_t len) {
  while (len) {
    uint32_t in_block = task->came % BLOCK, part = least(len, BLOCK - in_block);
    uint64_t lba = task->lba + task->came / BLOCK;
    number_block(due_block, lba, task->generation);
    if (memcmp(at, due_block + in_block, part))
      stop("other bytes in block %llu than stage %c wrote", (unsigned long long)lba, (int)task->generation);
    task->came += part, at += part, len -= part;
  }
}

/* ---- Commands */

static void put_cdb(uint8_t *cdb, const struct task *task) {
  uint32_t blocks = words.size / BLOCK;
  if (words.has_16) {
    cdb[0] = task->writes ? 0x8a : 0x88;
    put(cdb + 2, task->lba >> 32);
    put(cdb + 6, task->lba);
    put(cdb + 10, blocks);
  } else {
    cdb[0] = task->writes ? 0x2a : 0x28;
    put(cdb + 2, task->lba);
    cdb[7] = blocks >> 8, cdb[8] = blocks;
  }
}

/* A free slot, with a tag that was not used of late. */
static struct task *new_task(struct session *s, int writes) {
  struct task *task = s->tasks;
  while (task->tag != RESERVED) task++;
  uint8_t *data = task->data;
  *task = (struct task){.tag = (s->serial++ & 0xffffff) << 6 | (task - s->tasks), .writes = writes, .data = data};
  if (++s->outstanding > s->most_outstanding) s->most_outstanding = s->outstanding;
  return task;
}

/* A WRITE, with as much unasked as was negotiated. */
static void send_write(struct session *s, struct task *task) {
  uint32_t unasked = s->held.waits_for_r2t ? 0 : least(words.size, s->held.first_burst);
  uint32_t with_it = s->held.has_immediate ? least(least(words.size, s->held.first_burst), s->held.segment) : 0;
  for (uint32_t i = 0; i < words.size / BLOCK; i++) number_block(task->data + i * BLOCK, task->lba + i, task->generation);
  int ends = unasked <= with_it;
  uint8_t *head = send_pdu(s, SCSI_COMMAND, (ends ? FINAL : 0) | WRITES | SIMPLE, task->tag, task->data, with_it);
  head[9] = words.lun;
  put(head + 20, words.size);
  put_cdb(head + 32, task);
  s->cmd_sn++;
  task->sent = with_it;
  if (!ends) send_burst(s, task, RESERVED, unasked - with_it);
}

static void send_read(struct session *s, struct task *task) {
  uint8_t *head = send_pdu(s, SCSI_COMMAND, FINAL | READS | SIMPLE, task->tag, NULL, 0);
  head[9] = words.lun;
  put(head + 20, words.size);
  put_cdb(head + 32, task);
  s->cmd_sn++;
}

/* Whether a session has no more to ask for in this stage. */
static int is_done(const struct session *s) {
  return stage.kind == 'f' || stage.kind == 'v' ? s->issued == s->places : now() >= stage.end;
}

/* As many commands as may be outstanding. */
static void issue(struct session *s) {
  while (s->outstanding < words.depth && (int32_t)(s->max_cmd_sn - s->cmd_sn) >= 0 && !is_done(s)) {
    uint64_t turn = s->issued++ % s->places;
    struct task *task = new_task(s, stage.writes);
    task->lba = words.from + (s->first + turn * words.step % s->places) * words.stride;
    task->generation = stage.kind == 'w' || (stage.kind == 'v' && turn < s->written) ? 'w' : 'f';
    stage.writes ? send_write(s, task) : send_read(s, task);
  }
  flush(s);
}

/* ---- What comes in */

/* The task that a PDU is for. */
static struct task *task_of(struct session *s) {
  uint32_t tag = get(s->head + 16);
  struct task *task = &s->tasks[tag % MOST_DEPTH];
  expect(s, "the tag", tag, task->tag);
  return task;
}

/* A PDU that has a StatSN of its own. */
static void take_stat_sn(struct session *s) {
  expect(s, "StatSN", get(s->head + 24), s->stat_sn);
  s->stat_sn++;
}

/* The window never shrinks. istgt counts an immediate logout. */
static void take_window(struct session *s) {
  uint32_t expected = get(s->head + 28), most = get(s->head + 32);
  int is_last = (s->head[0] & 0x3f) == LOGOUT_RESPONSE;
  expect(s, "ExpCmdSN above CmdSN", (int32_t)(expected - s->cmd_sn) > is_last, 0);
  if ((int32_t)(most - s->max_cmd_sn) > 0) s->max_cmd_sn = most;
}

/* A command ended well. */
static void finish(struct session *s, struct task *task) {
  expect(s, "the residual's flags", s->head[1] & RESIDUAL, 0);
  expect(s, "the residual", get(s->head + 44), 0);
  expect(s, "the status", s->head[3], 0);
  if (!task->writes) expect(s, "the length of the data", task->came, words.size);
  if (task->writes) expect(s, "the length that was asked for", task->sent, words.size);
  task->tag = RESERVED;
  s->outstanding--;
  stage.ended++;
}

/* The header of data. */
static void begin_data(struct session *s, uint32_t len) {
  struct task *task = s->data_of = task_of(s);
  expect(s, "a write's data", task->writes, 0);
  expect(s, "DataSN", get(s->head + 36), task->data_ins++);
  expect(s, "BufferOffset", get(s->head + 40), task->came);
  expect(s, "a segment that is too long", len > words.segment, 0);
  expect(s, "data past the end", task->came + len > words.size, 0);
  task->burst += len;
  if (task->burst > s->held.burst) stage.long_bursts++, task->burst = len;
  if (s->head[1] & FINAL) task->burst = 0;
}

static void end_data(struct session *s) {
  struct task *task = s->data_of;
  s->data_of = NULL;
  if (!(s->head[1] & HAS_STATUS)) return;
  take_stat_sn(s);
  expect(s, "F beside S", s->head[1] & FINAL, FINAL);
  finish(s, task);
}

/* The target asks for data of a write. */
static void answer_r2t(struct session *s) {
  struct task *task = task_of(s);
  uint32_t len = get(s->head + 44);
  if (get(s->head + 24) != s->stat_sn) stage.old_stat_sns++;
  expect(s, "a read's data", task->writes, 1);
  expect(s, "R2TSN", get(s->head + 36), task->r2ts++);
  expect(s, "BufferOffset", get(s->head + 40), task->sent);
  expect(s, "a length of the request that is wrong", len == 0 || len > s->held.burst || len > words.size - task->sent, 0);
  send_burst(s, task, get(s->head + 20), len);
}

/* A command is answered. TEST UNIT READY may find a condition first, which is cleared so. */
static void take_response(struct session *s) {
  struct task *task = task_of(s);
  take_stat_sn(s);
  expect(s, "the response", s->head[2], 0);
  if (!s->is_ready) {
    s->is_ready = s->head[3] == 0 ? 1 : -1;
    task->tag = RESERVED;
    s->outstanding--;
    return;
  }
  if (s->head[3]) stop("status %02x, sense %02x/%02x/%02x", s->head[3], s->text[4] & 15, s->text[14], s->text[15]);
  if (!task->writes) expect(s, "ExpDataSN", get(s->head + 36), task->data_ins);
  finish(s, task);
}

/* The target asks whether we are there. */
static void answer_ping(struct session *s) {
  uint32_t ttt = get(s->head + 20);
  if (ttt == RESERVED) return;
  uint8_t *head = send_pdu(s, NOP_OUT | IMMEDIATE, FINAL, RESERVED, NULL, 0);
  memcpy(head + 8, s->head + 8, 8);
  put(head + 20, ttt);
}

static void take_login(struct session *s);

/* A PDU is whole. */
static void end_pdu(struct session *s) {
  int opcode = s->head[0] & 0x3f;
  if (opcode == LOGIN_RESPONSE) return take_login(s);
  take_window(s);
  switch (opcode) {
    case DATA_IN: return end_data(s);
    case R2T: return answer_r2t(s);
    case SCSI_RESPONSE: return take_response(s);
    case NOP_IN: return answer_ping(s);
    case LOGOUT_RESPONSE:
      take_stat_sn(s);
      expect(s, "the response", s->head[2], 0);
      s->is_over = 1;
      return;
    default: expect(s, "the opcode", opcode, SCSI_RESPONSE);
  }
}

/* A header is whole. */
static void begin_pdu(struct session *s) {
  uint32_t len = get(s->head + 4) & 0xffffff;
  expect(s, "the length of additional headers", s->head[4], 0);
  s->missing = len;
  s->padding = -len % 4;
  s->text_len = 0;
  memset(s->text, 0, 16); /* as much as is looked at where nothing comes */
  if ((s->head[0] & 0x3f) == DATA_IN) begin_data(s, len);
  else expect(s, "a text that is too long", len >= TEXT, 0);
}

/* Bytes of a segment. */
static void take_segment(struct session *s, const uint8_t *at, uint32_t len) {
  if (s->data_of) return look_at_data(s->data_of, at, len);
  memcpy(s->text + s->text_len, at, len);
  s->text_len += len;
  s->text[s->text_len] = 0;
}

/* Takes what a read gave. */
static void take_bytes(struct session *s, const uint8_t *at, uint32_t len) {
  while (len) {
    uint32_t part;
    if (s->filled < HEADER) {
      part = least(len, HEADER - s->filled);
      memcpy(s->head + s->filled, at, part);
      s->filled += part;
      if (s->filled == HEADER) begin_pdu(s);
    } else if (s->missing) {
      part = least(len, s->missing);
      take_segment(s, at, part);
      s->missing -= part;
    } else {
      part = least(len, s->padding);
      s->padding -= part;
    }
    at += part, len -= part;
    if (s->filled < HEADER || s->missing || s->padding) continue;
    s->filled = 0;
    end_pdu(s);
  }
}

/* One read, and what comes of it. */
static void receive(struct session *s) {
  errno = 0;
  ssize_t n = read(s->socket, incoming, READ);
  if (n < 0 && errno == EINTR) return;
  if (n <= 0 && stage.kind == 'o') {
    s->is_over = 1;
    remark(1, "connection ended before the answer to its logout");
    return;
  }
  if (n <= 0) fail(n ? "nothing comes" : "the target has closed the connection");
  errno = 0;
  take_bytes(s, incoming, n);
}

/* ---- A session's begin and end */

/* The value of a key in the text that came, or nothing. */
static const char *value_of(const struct session *s, const char *key) {
  size_t len = strlen(key);
  const char *at = (const char *)s->text, *end = at + s->text_len;
  for (; at < end; at += strlen(at) + 1)
    if (!strncmp(at, key, len) && at[len] == '=') return at + len + 1;
  return NULL;
}

static uint32_t number_of(const struct session *s, const char *key, uint32_t otherwise) {
  const char *value = value_of(s, key);
  return value ? strtoul(value, NULL, 0) : otherwise;
}

static int yes_of(const struct session *s, const char *key, int otherwise) {
  const char *value = value_of(s, key);
  return value ? !strcmp(value, "Yes") : otherwise;
}

/* Digests are not sent, whatever the target says. */
static void need_none(const struct session *s, const char *key) {
  const char *value = value_of(s, key);
  if (value && strcmp(value, "None")) stop("%s=%s", key, value);
}

/* An answer to a login: what it says counts, and the next request is due unless it ends the login. */
static void take_login(struct session *s) {
  if (s->head[36]) stop("the login is refused: %02x%02x", s->head[36], s->head[37]);
  expect(s, "C", s->head[1] & 0x40, 0);
  need_none(s, "HeaderDigest");
  need_none(s, "DataDigest");
  s->stat_sn = get(s->head + 24) + 1;
  s->max_cmd_sn = get(s->head + 32);
  s->held.segment = number_of(s, "MaxRecvDataSegmentLength", s->held.segment);
  s->held.burst = number_of(s, "MaxBurstLength", s->held.burst);
  s->held.first_burst = number_of(s, "FirstBurstLength", s->held.first_burst);
  s->held.waits_for_r2t = yes_of(s, "InitialR2T", s->held.waits_for_r2t);
  s->held.has_immediate = yes_of(s, "ImmediateData", s->held.has_immediate);
  s->is_in = (s->head[1] & 0x83) == 0x83 ? 1 : -1;
}

/* The text of the first request. */
static uint32_t offer(char *text, size_t room) {
  int len = snprintf(text, room,
      "InitiatorName=iqn.2026-01.example:client%cTargetName=%s%cSessionType=Normal%cHeaderDigest=None%cDataDigest=None%c"
      "MaxRecvDataSegmentLength=%u%cMaxBurstLength=%u%cFirstBurstLength=%u%cInitialR2T=No%cImmediateData=Yes%c"
      "MaxOutstandingR2T=1%cMaxConnections=1%cDataPDUInOrder=Yes%cDataSequenceInOrder=Yes%cErrorRecoveryLevel=0%c"
      "DefaultTime2Wait=2%cDefaultTime2Retain=0%c",
      0, words.target, 0, 0, 0, 0, words.segment, 0, words.burst, 0, least(words.first_burst, words.burst), 0, 0, 0, 0, 0, 0,
      0, 0, 0, 0);
  return len;
}

/* Logs in, in the operational stage. Some targets want to be asked twice. */
static void log_in(struct session *s, uint32_t number) {
  char text[1024];
  uint32_t len = offer(text, sizeof text);
  /* Defaults of RFC 7143, for keys that are not answered. */
  s->held = (struct numbers){8192, least(words.burst, 262144), least(least(words.first_burst, words.burst), 65536), 1, 1};
  s->cmd_sn = 1;
  for (int turn = 0; turn < 8 && s->is_in != 1; turn++, len = 0) {
    uint8_t *head = send_pdu(s, LOGIN | IMMEDIATE, 0x87, 0, text, len);
    head[8] = 0x80;
    put(head + 9, (uint32_t)getpid() << 8);
    head[12] = number >> 8, head[13] = number;
    flush(s);
    for (s->is_in = 0; !s->is_in;) receive(s);
  }
  if (s->is_in != 1) fail("no end of the login");
  if (!number)
    printf("negotiated: %sR2T first, %simmediate data, bytes of a segment to the target %u, of a burst %u, of a first burst %u\n",
           s->held.waits_for_r2t ? "" : "no ", s->held.has_immediate ? "" : "no ", s->held.segment, s->held.burst,
           s->held.first_burst);
}

/* Has the disk say that it is ready, thrice at most. */
static void get_ready(struct session *s) {
  for (int turn = 0; turn < 3 && s->is_ready != 1; turn++) {
    struct task *task = new_task(s, 0);
    uint8_t *head = send_pdu(s, SCSI_COMMAND, FINAL | SIMPLE, task->tag, NULL, 0);
    head[9] = words.lun;
    s->cmd_sn++;
    flush(s);
    for (s->is_ready = 0; !s->is_ready;) receive(s);
  }
  if (s->is_ready != 1) fail("the disk is not ready");
}

static int connected(void) {
  struct addrinfo hints = {.ai_socktype = SOCK_STREAM}, *found;
  struct timeval patience = {.tv_sec = PATIENCE};
  int yes = 1;
  if (getaddrinfo(words.host, words.port, &hints, &found)) fail("no such host or port");
  int s = socket(found->ai_family, SOCK_STREAM, 0);
  if (s < 0 || connect(s, found->ai_addr, found->ai_addrlen)) fail("connect");
  setsockopt(s, IPPROTO_TCP, TCP_NODELAY, &yes, sizeof yes);
  setsockopt(s, SOL_SOCKET, SO_RCVTIMEO, &patience, sizeof patience);
  setsockopt(s, SOL_SOCKET, SO_SNDTIMEO, &patience, sizeof patience);
  freeaddrinfo(found);
  return s;
}

static struct session *begin(uint32_t number) {
  struct session *s = calloc(1, sizeof *s);
  if (!s) fail("no memory");
  s->socket = connected();
  s->places = words.places / words.sessions;
  s->first = number * s->places;
  for (uint32_t i = 0; i < MOST_DEPTH; i++) s->tasks[i].tag = RESERVED;
  for (uint32_t i = 0; i < words.depth; i++) {
    if (!(s->tasks[i].data = malloc(words.size))) fail("no memory");
    fill_with_pattern(s->tasks[i].data, words.size);
  }
  log_in(s, number);
  get_ready(s);
  return s;
}

static void end(struct session *s) {
  stage.kind = 'o';
  send_pdu(s, LOGOUT | IMMEDIATE, FINAL, 0, NULL, 0);
  flush(s);
  while (!s->is_over) receive(s);
  close(s->socket);
}

/* ---- Stages */

/* Goes on with each session that has something to say. A session alone waits in its read, one call for each answer. */
static void go_on(void) {
  struct pollfd polls[MOST_SESSIONS];
  for (uint32_t i = 0; i < words.sessions; i++)
    polls[i] = (struct pollfd){sessions[i]->outstanding ? sessions[i]->socket : -1, POLLIN, POLLIN};
  if (words.sessions > 1 && poll(polls, words.sessions, 1000 * PATIENCE) <= 0) fail("nothing comes");
  for (uint32_t i = 0; i < words.sessions; i++) {
    if (polls[i].fd < 0 || !polls[i].revents) continue;
    receive(sessions[i]);
    issue(sessions[i]);
  }
}

static int is_at_work(void) {
  for (uint32_t i = 0; i < words.sessions; i++)
    if (sessions[i]->outstanding) return 1;
  return 0;
}

static void tell(double took, double of_target, double of_client) {
  uint32_t outstanding = 0;
  for (uint32_t i = 0; i < words.sessions; i++)
    if (sessions[i]->most_outstanding > outstanding) outstanding = sessions[i]->most_outstanding;
  const char *name = stage.kind == 'f' ? "fill" : stage.kind == 'r' ? "read" : "write";
  double each = stage.ended ? 1e6 / stage.ended : 0, rate = stage.ended / took;
  printf("%s: %.1f commands/s, %.2f MB/s, ", name, rate, rate * words.size / 1e6);
  printf("%.2f us of the target, %.2f us of the client, %lu kB, ", of_target * each, of_client * each, target_memory());
  printf("%llu commands, %u outstanding\n", (unsigned long long)stage.ended, outstanding);
  remark(stage.long_bursts, "Data-Ins went past MaxBurstLength");
  remark(stage.old_stat_sns, "R2Ts had another StatSN than is due");
}

static void run(char kind) {
  stage.kind = kind;
  stage.writes = kind == 'f' || kind == 'w';
  stage.ended = stage.long_bursts = stage.old_stat_sns = 0;
  double of_target = target_time(), of_client = own_time(), began = now();
  stage.end = began + words.seconds;
  for (uint32_t i = 0; i < words.sessions; i++) {
    sessions[i]->issued = sessions[i]->most_outstanding = 0;
    issue(sessions[i]);
  }
  while (is_at_work()) go_on();
  double took = now() - began;
  if (kind != 'v') tell(took, target_time() - of_target, own_time() - of_client);
  /* What was filled anew is of that stage alone. */
  for (uint32_t i = 0; i < words.sessions; i++) {
    if (!is_done(sessions[i])) fail("the target's window stays shut");
    if (stage.writes) sessions[i]->written = kind == 'w' ? sessions[i]->issued : 0;
  }
}

/* ---- Words */

static uint64_t largest_divisor(uint64_t a, uint64_t b) {
  return b ? largest_divisor(b, a % b) : a;
}

/* What follows from the words, and what can't be. */
static void complete(void) {
  if (!words.stride) words.stride = words.size / BLOCK;
  if (!words.places) words.places = 65536 / words.stride;
  if (!words.size || words.size % BLOCK || words.stride < words.size / BLOCK) fail("no such size or stride");
  if (!words.depth || words.depth > MOST_DEPTH || words.lun > 255) fail("1 to 64 commands, LUN 0 to 255");
  if (!words.sessions || words.sessions > MOST_SESSIONS) fail("1 to 256 sessions");
  if (words.places / words.sessions < words.depth) fail("fewer places than commands at a time");
  /* Every place has its turn. */
  while (largest_divisor(words.step, words.places / words.sessions) != 1) words.step++;
  words.has_16 = words.from + words.places * words.stride > 0xffffffff || words.size / BLOCK > 0xffff;
  fill_with_pattern(due_block, BLOCK);
}

static void read_words(int argc, char **argv) {
  static const struct option options[] = {
      {"size", 1, 0, 's'}, {"depth", 1, 0, 'd'}, {"sessions", 1, 0, 'n'}, {"segment", 1, 0, 'g'}, {"burst", 1, 0, 'b'},
      {"first-burst", 1, 0, 'i'}, {"from", 1, 0, 'f'}, {"places", 1, 0, 'p'}, {"stride", 1, 0, 't'}, {"step", 1, 0, 'k'},
      {"seconds", 1, 0, 'c'}, {"process", 1, 0, 'o'}, {"do", 1, 0, 'a'}, {0, 0, 0, 0}};
  for (int c; (c = getopt_long(argc, argv, "", options, NULL)) != -1;) {
    unsigned long long n = optarg ? strtoull(optarg, NULL, 0) : 0;
    switch (c) {
      case 's': words.size = n; break;
      case 'd': words.depth = n; break;
      case 'n': words.sessions = n; break;
      case 'g': words.segment = n; break;
      case 'b': words.burst = n; break;
      case 'i': words.first_burst = n; break;
      case 'f': words.from = n; break;
      case 'p': words.places = n; break;
      case 't': words.stride = n; break;
      case 'k': words.step = n; break;
      case 'c': words.seconds = atof(optarg); break;
      case 'o': words.process = n; break;
      case 'a': words.stages = optarg; break;
      default: exit(2);
    }
  }
  if (argc - optind != 4) fail("HOST PORT TARGET LUN [options], which stand at the top of client.c");
  words.host = argv[optind], words.port = argv[optind + 1], words.target = argv[optind + 2];
  words.lun = atoi(argv[optind + 3]);
  complete();
}

int main(int argc, char **argv) {
  read_words(argc, argv);
  for (uint32_t i = 0; i < words.sessions; i++) sessions[i] = begin(i);
  for (const char *kind = words.stages; *kind; kind++) {
    if (!strchr("frwv", *kind)) fail("a stage is f, r, w or v");
    run(*kind);
  }
  for (uint32_t i = 0; i < words.sessions; i++) end(sessions[i]);
  return 0;
}
