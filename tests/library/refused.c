/* Makes each call with each of its allocations refused in turn, alone and with all after it:
 *
 *     refused BASE BUNDLE CONFLICT THEIRS
 *
 * The answer is DM_NO_MEMORY, and all is as it was, or the one with ample memory. It is linked with `--wrap` of malloc and realloc.
 */
#include "dm.h"

#include <stdio.h>
#include <stdlib.h>
#include <string.h>

#define ROOM (1 << 20)
#define MARK 0xa5

static long grown, first, last;

void *__real_malloc(size_t size);
void *__real_realloc(void *block, size_t size);
void *__wrap_malloc(size_t size);
void *__wrap_realloc(void *block, size_t size);

static bool is_refused(void) {
  grown++;
  return grown >= first && grown <= last;
}

void *__wrap_malloc(size_t size) { return is_refused() ? NULL : __real_malloc(size); }

void *__wrap_realloc(void *block, size_t size) { return is_refused() ? NULL : __real_realloc(block, size); }

typedef struct text {
  uint8_t *at;
  size_t len;
} text;

static text base, bundle, conflict, theirs, none = {(uint8_t *)"hello", 5}, path = {(uint8_t *)"./recipes/pancakes.txt", 22};
static const char replacing[] =
    "New patches:\n\n[a\np**20240101000000] {\naddfile ./a\nhunk ./a 1\n+x y\nreplace ./a [a-z] x z\n}\n\nContext:\n\n";
static const dm_limits standard = DM_LIMITS_STANDARD;

static void stop(const char *name, const char *why) {
  fprintf(stderr, "refused: %s: %s\n", name, why);
  exit(1);
}

static text load(const char *name) {
  FILE *file = fopen(name, "rb");
  text made = {__real_malloc(ROOM), 0};
  if (!file || !made.at)
    stop(name, "can't be read");
  made.len = fread(made.at, 1, ROOM, file);
  fclose(file);
  return made;
}

/* What a call answers: its status, and all that it may write. */
typedef struct answer {
  dm_status status;
  size_t needed;
  dm_verdict verdict;
  uint8_t out[ROOM];
} answer;

static const dm_verdict mark = {9, 9, 9, 9, 9, 9, 9};

typedef void action(dm_repo *repo, answer *to);

static void check(dm_repo *repo, answer *to) {
  (void)repo;
  to->status = dm_check(bundle.at, bundle.len, &standard, to->out, ROOM, &to->needed, &to->verdict);
}
static void check_none(dm_repo *repo, answer *to) {
  (void)repo;
  to->status = dm_check(none.at, none.len, &standard, to->out, ROOM, &to->needed, &to->verdict);
}
static void line(dm_repo *repo, answer *to) {
  (void)repo;
  const dm_verdict verdict = {DM_REFUSED, DM_REFUSAL_CONFLICTS, 0, 0, 0, 1, 1};
  to->status = dm_verdict_line(&verdict, to->out, ROOM, &to->needed);
}
static void make(dm_repo *repo, answer *to) {
  dm_repo other = DM_REPO_INIT;
  (void)repo;
  to->status = dm_repo_new(&other);
  if (other.holds != (to->status == DM_OK))
    stop("dm_repo_new", "the handle is another than its status");
  dm_repo_free(&other);
}
static void take(dm_repo *repo, answer *to) { to->status = dm_repo_take(repo, bundle.at, bundle.len, &standard, DM_REFUSE, &to->verdict); }
static void refuse(dm_repo *repo, answer *to) {
  to->status = dm_repo_take(repo, conflict.at, conflict.len, &standard, DM_REFUSE, &to->verdict);
}
static void skip(dm_repo *repo, answer *to) { to->status = dm_repo_take(repo, conflict.at, conflict.len, &standard, DM_SKIP, &to->verdict); }
static void take_none(dm_repo *repo, answer *to) { to->status = dm_repo_take(repo, none.at, none.len, &standard, DM_SKIP, &to->verdict); }
static void take_replace(dm_repo *repo, answer *to) {
  dm_limits all = DM_LIMITS_STANDARD;
  all.kinds = DM_KINDS_ALL;
  to->status = dm_repo_take(repo, (const uint8_t *)replacing, sizeof replacing - 1, &all, DM_REFUSE, &to->verdict);
}
static void len(dm_repo *repo, answer *to) { to->status = dm_repo_len(repo, &to->needed); }
static void name(dm_repo *repo, answer *to) { to->status = dm_repo_name(repo, 1, to->out, ROOM, &to->needed); }
static void context(dm_repo *repo, answer *to) { to->status = dm_repo_context(repo, to->out, ROOM, &to->needed); }
static void listing(dm_repo *repo, answer *to) { to->status = dm_repo_listing(repo, to->out, ROOM, &to->needed); }
static void file(dm_repo *repo, answer *to) { to->status = dm_repo_file(repo, path.at, path.len, to->out, ROOM, &to->needed); }
static void whole(dm_repo *repo, answer *to) { to->status = dm_repo_bundle(repo, to->out, ROOM, &to->needed); }
static void send(dm_repo *repo, answer *to) {
  to->status = dm_repo_send(repo, theirs.at, theirs.len, &standard, false, to->out, ROOM, &to->needed, &to->verdict);
}
static void send_minimal(dm_repo *repo, answer *to) {
  to->status = dm_repo_send(repo, theirs.at, theirs.len, &standard, true, to->out, ROOM, &to->needed, &to->verdict);
}
static void send_none(dm_repo *repo, answer *to) {
  to->status = dm_repo_send(repo, none.at, none.len, &standard, true, to->out, ROOM, &to->needed, &to->verdict);
}
static void explain(dm_repo *repo, answer *to) {
  const dm_verdict verdict = {DM_REFUSED, DM_REFUSAL_CONFLICTS, 0, 0, 0, 1, 1};
  to->status = dm_repo_explain(repo, conflict.at, conflict.len, &standard, DM_REFUSE, &verdict, to->out, ROOM, &to->needed);
}
static void explain_none(dm_repo *repo, answer *to) {
  const dm_verdict verdict = {DM_MALFORMED, DM_FAULT_NO_NEW_PATCHES, 0, 0, 5, 0, 0};
  to->status = dm_repo_explain(repo, none.at, none.len, &standard, DM_REFUSE, &verdict, to->out, ROOM, &to->needed);
}
static void version(dm_repo *repo, answer *to) {
  (void)repo;
  to->status = dm_version(to->out, ROOM, &to->needed);
}

typedef struct row {
  const char *name;
  action *call;
  bool changes;
  dm_status ample;
} row;

static const row rows[] = {
    {"dm_check", check, false, DM_OK},
    {"dm_check, no bundle", check_none, false, DM_NO},
    {"dm_verdict_line", line, false, DM_OK},
    {"dm_repo_new", make, false, DM_OK},
    {"dm_repo_take", take, true, DM_OK},
    {"dm_repo_take, a conflict", refuse, false, DM_NO},
    {"dm_repo_take, skipping", skip, true, DM_OK},
    {"dm_repo_take, no bundle", take_none, false, DM_NO},
    {"dm_repo_take, a replace", take_replace, true, DM_OK},
    {"dm_repo_len", len, false, DM_OK},
    {"dm_repo_name", name, false, DM_OK},
    {"dm_repo_context", context, false, DM_OK},
    {"dm_repo_listing", listing, false, DM_OK},
    {"dm_repo_file", file, false, DM_OK},
    {"dm_repo_bundle", whole, false, DM_OK},
    {"dm_repo_send", send, false, DM_OK},
    {"dm_repo_send, minimal", send_minimal, false, DM_OK},
    {"dm_repo_send, no names", send_none, false, DM_NO},
    {"dm_repo_explain", explain, false, DM_OK},
    {"dm_repo_explain, no bundle", explain_none, false, DM_OK},
    {"dm_version", version, false, DM_OK},
};

static answer ample, found, untouched, held, after;

static void clear(answer *it) {
  memset(it->out, MARK, ROOM);
  it->needed = 77;
  it->verdict = mark;
  it->status = 77;
}

static void begin(dm_repo *repo) {
  dm_verdict verdict;
  dm_repo made = DM_REPO_INIT;
  *repo = made;
  if (dm_repo_new(repo) != DM_OK || dm_repo_take(repo, base.at, base.len, &standard, DM_REFUSE, &verdict) != DM_OK)
    stop("the base", "isn't taken");
}

static void look(const dm_repo *repo, answer *to) {
  clear(to);
  to->status = dm_repo_bundle(repo, to->out, ROOM, &to->needed);
}

static bool is_same(const answer *one, const answer *other) {
  return one->status == other->status && one->needed == other->needed && memcmp(&one->verdict, &other->verdict, sizeof mark) == 0 &&
         memcmp(one->out, other->out, ROOM) == 0;
}

/* Refuses the allocations from this one on, or this one alone; tells whether one was. */
static bool refuses(const row *it, long number, bool alone, long *no_memory) {
  dm_repo repo;
  begin(&repo);
  look(&repo, &held);
  clear(&found);
  grown = 0, first = number, last = alone ? number : 1L << 60;
  it->call(&repo, &found);
  bool refused = grown >= first;
  first = 0, last = -1;
  if (found.status == DM_NO_MEMORY) {
    found.status = untouched.status;
    if (!is_same(&found, &untouched))
      stop(it->name, "out of memory, but something was written");
    look(&repo, &after);
    if (!is_same(&held, &after))
      stop(it->name, "out of memory, but the repository has changed");
    ++*no_memory;
    clear(&found);
    it->call(&repo, &found);
  }
  if (!is_same(&found, &ample))
    stop(it->name, "another answer than with ample memory");
  dm_repo_free(&repo);
  return refused;
}

int main(int count, char **words) {
  if (count != 5)
    stop("refused", "BASE BUNDLE CONFLICT THEIRS");
  base = load(words[1]), bundle = load(words[2]), conflict = load(words[3]), theirs = load(words[4]);
  last = -1;
  clear(&untouched);
  for (size_t at = 0; at < sizeof rows / sizeof *rows; at++) {
    const row *it = &rows[at];
    dm_repo repo;
    begin(&repo);
    look(&repo, &held);
    clear(&ample);
    grown = 0;
    it->call(&repo, &ample);
    long allocations = grown, no_memory = 0, number = 1;
    look(&repo, &after);
    if (ample.status != it->ample || is_same(&held, &after) == it->changes)
      stop(it->name, "another answer than was to be");
    dm_repo_free(&repo);
    while (refuses(it, number, true, &no_memory) | refuses(it, number, false, &no_memory))
      number++;
    if (allocations > 0 && no_memory == 0)
      stop(it->name, "no answer is that memory ran out");
    printf("refused: %s: %ld allocations, %ld answers that memory ran out\n", it->name, allocations, no_memory);
  }
  return 0;
}
