/* Does requests at a LUN of an iSCSI target one at a time, and looks at what comes of each: as many as are said, of the
 * kind that is said. `reads` are READs of one block, `mix` is a TEST UNIT READY, a WRITE of one block and a READ of it in
 * turn. Each block read has to hold the byte that is said. It writes the seconds from the first request to the last, and
 * stands on libiscsi (of Debian: libiscsi-dev):
 *
 *   cc -O2 -o again again.c -liscsi
 *   ./again iscsi://127.0.0.1:3260/iqn.2026-01.example:disk/1 reads 100000 0
 */
#include <iscsi/iscsi.h>
#include <iscsi/scsi-lowlevel.h>
#include <stdio.h>
#include <stdlib.h>
#include <string.h>
#include <time.h>

/* How many blocks are gone through. */
#define BLOCKS 4096

static double now(void) {
  struct timespec t;
  clock_gettime(CLOCK_MONOTONIC, &t);
  return t.tv_sec + t.tv_nsec / 1e9;
}

static void fail(const char *what, struct iscsi_context *c) {
  fprintf(stderr, "%s: %s\n", what, iscsi_get_error(c));
  exit(1);
}

/* A request ended as it has to, with these bytes, if it has some. */
static void look(struct iscsi_context *c, struct scsi_task *task, const unsigned char *bytes, int size) {
  if (!task || task->status != SCSI_STATUS_GOOD) fail("command", c);
  if (task->datain.size != size || (size && memcmp(task->datain.data, bytes, size))) fail("other bytes", c);
  scsi_free_scsi_task(task);
}

int main(int argc, char **argv) {
  if (argc != 5) return 2;
  struct iscsi_context *c = iscsi_create_context("iqn.2026-01.example:host");
  struct iscsi_url *url = iscsi_parse_full_url(c, argv[1]);
  if (!url) fail("url", c);
  int is_mix = !strcmp(argv[2], "mix"), lun = url->lun;
  long count = atol(argv[3]);
  unsigned char block[512];
  memset(block, atoi(argv[4]), sizeof block);
  iscsi_set_session_type(c, ISCSI_SESSION_NORMAL);
  iscsi_set_header_digest(c, ISCSI_HEADER_DIGEST_NONE);
  iscsi_set_targetname(c, url->target);
  if (iscsi_full_connect_sync(c, url->portal, lun)) fail("connect", c);
  double began = now();
  for (long i = 0; i < count; i++) {
    unsigned lba = (is_mix ? i / 3 : i) % BLOCKS;
    if (is_mix && i % 3 == 0)
      look(c, iscsi_testunitready_sync(c, lun), block, 0);
    else if (is_mix && i % 3 == 1)
      look(c, iscsi_write10_sync(c, lun, lba, block, 512, 512, 0, 0, 0, 0, 0), block, 0);
    else
      look(c, iscsi_read10_sync(c, lun, lba, 512, 512, 0, 0, 0, 0, 0), block, 512);
  }
  printf("%.6f\n", now() - began);
  iscsi_logout_sync(c);
  iscsi_destroy_context(c);
  return 0;
}
