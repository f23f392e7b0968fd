/* Eight threads, each with handles of its own, and handles that go from thread to thread:
 *
 *     threads BASE BUNDLE CONFLICT
 */
#include "dm.h"

#include <pthread.h>
#include <stdio.h>
#include <stdlib.h>
#include <string.h>

#define THREADS 8
#define ROUNDS 20
#define ROOM (1 << 16)

typedef struct text {
  uint8_t *at;
  size_t len;
} text;

static text base, bundle, conflict;
static const dm_limits limits = DM_LIMITS_STANDARD;

static void stop(const char *why) {
  fprintf(stderr, "threads: %s\n", why);
  exit(1);
}

static text load(const char *name) {
  FILE *file = fopen(name, "rb");
  text made = {malloc(ROOM), 0};
  if (!file || !made.at)
    stop(name);
  made.len = fread(made.at, 1, ROOM, file);
  fclose(file);
  return made;
}

static void takes(dm_repo *repo, text it, dm_status wanted) {
  dm_verdict verdict;
  if (dm_repo_take(repo, it.at, it.len, &limits, DM_REFUSE, &verdict) != wanted)
    stop("another verdict");
}

/* The work of a thread: takes into its own handle, and ends the one that it was given. */
static void *work(void *given) {
  dm_repo *handed = given;
  uint8_t *out = malloc(ROOM), *other = malloc(ROOM);
  size_t len = 0, again = 0;
  for (int round = 0; round < ROUNDS; round++) {
    dm_repo own = DM_REPO_INIT;
    if (dm_repo_new(&own) != DM_OK)
      stop("no repository");
    takes(&own, base, DM_OK);
    takes(&own, conflict, DM_NO);
    takes(&own, bundle, DM_OK);
    if (dm_repo_bundle(&own, out, ROOM, &len) != DM_OK || dm_repo_bundle(handed, other, ROOM, &again) != DM_OK)
      stop("no bundle");
    if (len != again || memcmp(out, other, len) != 0)
      stop("another repository than the one that was handed over");
    dm_repo_free(&own);
  }
  dm_repo_free(handed);
  free(out);
  free(other);
  return NULL;
}

int main(int count, char **words) {
  if (count != 4)
    stop("BASE BUNDLE CONFLICT");
  base = load(words[1]), bundle = load(words[2]), conflict = load(words[3]);
  dm_repo handed[THREADS];
  pthread_t threads[THREADS];
  for (int at = 0; at < THREADS; at++) {
    const dm_repo empty = DM_REPO_INIT;
    handed[at] = empty;
    if (dm_repo_new(&handed[at]) != DM_OK)
      stop("no repository");
    takes(&handed[at], base, DM_OK);
    takes(&handed[at], bundle, DM_OK);
    if (pthread_create(&threads[at], NULL, work, &handed[at]) != 0)
      stop("no thread");
  }
  for (int at = 0; at < THREADS; at++)
    pthread_join(threads[at], NULL);
  printf("threads: %d threads, %d repositories each\n", THREADS, ROUNDS);
  return 0;
}
