/* Reads and writes a LUN of an iSCSI target, each command of so many bytes, with so many commands outstanding (1 if not
 * said), and looks at what it reads. All that the LUN holds is overwritten. It stands on libiscsi (of Debian:
 * libiscsi-dev):
 *
 *   cc -O2 -o speed speed.c -liscsi
 *   ./speed iscsi://127.0.0.1:3260/iqn.2026-01.example:disk/0 65536 3 8
 */
#include <iscsi/iscsi.h>
#include <iscsi/scsi-lowlevel.h>
#include <poll.h>
#include <stdio.h>
#include <stdlib.h>
#include <string.h>
#include <time.h>

struct run {
  struct iscsi_context *context;
  int lun, writes, outstanding;
  unsigned size, each, blocks, lba;
  unsigned char *bytes;
  long done, most;
  double end;
};

static double now(void) {
  struct timespec t;
  clock_gettime(CLOCK_MONOTONIC, &t);
  return t.tv_sec + t.tv_nsec / 1e9;
}

static void fail(const char *what, struct iscsi_context *c) {
  fprintf(stderr, "%s: %s\n", what, iscsi_get_error(c));
  exit(1);
}

static void issue(struct run *r);

/* A command ended: the next one goes out, until there were enough or the time is over. */
static void finished(struct iscsi_context *c, int status, void *data, void *private_data) {
  struct run *r = private_data;
  struct scsi_task *task = data;
  if (status != SCSI_STATUS_GOOD) fail("command", c);
  if (!r->writes && (task->datain.size != (int)r->size || memcmp(task->datain.data, r->bytes, r->size))) fail("other bytes", c);
  scsi_free_scsi_task(task);
  r->done++;
  r->outstanding--;
  if (r->most ? r->done + r->outstanding < r->most : now() < r->end) issue(r);
}

static void issue(struct run *r) {
  struct scsi_task *task =
      r->writes ? iscsi_write10_task(r->context, r->lun, r->lba, r->bytes, r->size, 512, 0, 0, 0, 0, 0, finished, r)
                : iscsi_read10_task(r->context, r->lun, r->lba, r->size, 512, 0, 0, 0, 0, 0, finished, r);
  if (!task) fail("command", r->context);
  r->outstanding++;
  r->lba = r->lba + 2 * r->each <= r->blocks ? r->lba + r->each : 0;
}

/* Commands of one kind, so many at a time: `most` of them, or as many as end in so many seconds. Gives the seconds. */
static double many(struct run *r, int writes, int depth, long most, double seconds) {
  double start = now();
  r->writes = writes;
  r->lba = 0;
  r->done = 0;
  r->most = most;
  r->end = start + seconds;
  for (int i = 0; i < depth && (!most || i < most); i++) issue(r);
  while (r->outstanding) {
    struct pollfd p = {iscsi_get_fd(r->context), iscsi_which_events(r->context), 0};
    if (poll(&p, 1, 5000) <= 0 || iscsi_service(r->context, p.revents)) fail("service", r->context);
  }
  return now() - start;
}

int main(int argc, char **argv) {
  if (argc != 4 && argc != 5) return 2;
  struct run r = {.size = atoi(argv[2])};
  double seconds = atof(argv[3]);
  int depth = argc == 5 ? atoi(argv[4]) : 1;
  struct iscsi_context *c = r.context = iscsi_create_context("iqn.2026-01.example:host");
  struct iscsi_url *url = iscsi_parse_full_url(c, argv[1]);
  if (!url) fail("url", c);
  iscsi_set_session_type(c, ISCSI_SESSION_NORMAL);
  iscsi_set_header_digest(c, ISCSI_HEADER_DIGEST_NONE);
  iscsi_set_targetname(c, url->target);
  if (iscsi_full_connect_sync(c, url->portal, url->lun)) fail("connect", c);
  struct scsi_task *task = iscsi_readcapacity10_sync(c, url->lun, 0, 0);
  if (!task || task->status) fail("capacity", c);
  struct scsi_readcapacity10 *capacity = scsi_datain_unmarshall(task);
  if (capacity->block_size != 512) fail("block size", c);
  r.lun = url->lun;
  r.each = r.size / 512;
  r.blocks = capacity->lba + 1;
  scsi_free_scsi_task(task);
  r.bytes = malloc(r.size);
  for (unsigned i = 0; i < r.size; i++) r.bytes[i] = i * 7 + 1;
  /* Each block is written first, so that what is read is there. */
  many(&r, 1, depth, r.blocks / r.each, 0);
  for (int writes = 0; writes < 2; writes++) {
    double took = many(&r, writes, depth, 0, seconds);
    printf("%s %u, %d outstanding: %.0f IOPS %.1f MB/s\n", writes ? "write" : "read", r.size, depth, r.done / took, r.done * (double)r.size / took / 1e6);
  }
  iscsi_logout_sync(c);
  iscsi_destroy_context(c);
  return 0;
}
