/* Calls the library at random, and looks at each answer:
 *
 *     fuzz CALLS SEED BUNDLE..
 *
 * Texts are the bundles, cut, joined, with bytes that changed. Each text and each room ends at a page that nobody may touch, so a byte
 * read or written past it ends the program. A room is too small, just enough, or larger; what isn't written has to stay as it was.
 */
#define _DEFAULT_SOURCE
#include "dm.h"

#include <stdio.h>
#include <stdlib.h>
#include <string.h>
#include <sys/mman.h>
#include <unistd.h>

#define MARK 0xa5

static uint64_t state;

static uint64_t next(void) {
  state ^= state << 13;
  state ^= state >> 7;
  return state ^= state << 17;
}

static size_t below(size_t most) { return (size_t)(next() % most); }

static void stop(const char *why, long number) {
  fprintf(stderr, "fuzz: %s: answer %ld\n", why, number);
  exit(1);
}

/* Memory that ends at a page that nobody may touch. */
typedef struct fence {
  uint8_t *end;
  size_t most;
} fence;

static fence fenced(size_t most) {
  size_t page = (size_t)sysconf(_SC_PAGESIZE), whole = (most + page - 1) / page * page;
  uint8_t *at = mmap(NULL, whole + page, PROT_READ | PROT_WRITE, MAP_PRIVATE | MAP_ANONYMOUS, -1, 0);
  if (at == MAP_FAILED || mprotect(at + whole, page, PROT_NONE) != 0)
    stop("no memory", 0);
  fence made = {at + whole, whole};
  return made;
}

typedef struct text {
  const uint8_t *at;
  size_t len;
} text;

static text bundles[64];
static size_t bundle_count;
static fence input, room, other_room;

static void load(const char *name) {
  FILE *file = fopen(name, "rb");
  uint8_t *bytes = malloc(1 << 16);
  if (!file || !bytes || bundle_count == 64)
    stop(name, 0);
  text made = {bytes, fread(bytes, 1, 1 << 16, file)};
  bundles[bundle_count++] = made;
  fclose(file);
}

/* A text before the fence: mostly a bundle with something wrong. */
static text random_text(void) {
  uint8_t *work = input.end - input.most;
  size_t len = 0;
  for (size_t parts = 1 + (below(4) == 0); parts > 0; parts--) {
    text from = bundles[below(bundle_count)];
    size_t begin = below(8) ? 0 : below(from.len), end = below(4) ? from.len : begin + below(from.len - begin + 1);
    memcpy(work + len, from.at + begin, end - begin);
    len += end - begin;
  }
  for (size_t changes = below(3) ? 0 : 1 + below(3); changes > 0 && len > 0; changes--)
    work[below(len)] = (uint8_t)(below(2) ? next() : (uint64_t) "\n[]{}<>* \\./0+-"[below(15)]);
  memmove(input.end - len, work, len);
  text made = {input.end - len, len};
  return made;
}

static dm_limits random_limits(void) {
  dm_limits limits = DM_LIMITS_STANDARD;
  if (below(4) == 0)
    limits.bytes = below(4096);
  if (below(8) == 0)
    limits.patches = below(3);
  if (below(8) == 0)
    limits.prims = below(3);
  if (below(8) == 0)
    limits.replaces = below(3);
  limits.kinds = below(16) ? (uint32_t)below(2) : (uint32_t)next();
  return limits;
}

/* What a call is given. */
typedef struct call {
  int which;
  dm_repo *repo;
  text text;
  dm_limits limits;
  uint32_t policy;
  bool minimal;
  size_t place;
  dm_verdict verdict;
} call;

enum { CHECK, LINE, NAME, CONTEXT, LISTING, FILE_OF, BUNDLE, SEND, EXPLAIN, VERSION, GIVING };

static dm_status give(call *it, uint8_t *out, size_t cap, size_t *needed) {
  switch (it->which) {
  case CHECK:
    return dm_check(it->text.at, it->text.len, &it->limits, out, cap, needed, &it->verdict);
  case LINE:
    return dm_verdict_line(&it->verdict, out, cap, needed);
  case NAME:
    return dm_repo_name(it->repo, it->place, out, cap, needed);
  case CONTEXT:
    return dm_repo_context(it->repo, out, cap, needed);
  case LISTING:
    return dm_repo_listing(it->repo, out, cap, needed);
  case FILE_OF:
    return dm_repo_file(it->repo, it->text.at, it->text.len, out, cap, needed);
  case BUNDLE:
    return dm_repo_bundle(it->repo, out, cap, needed);
  case SEND:
    return dm_repo_send(it->repo, it->text.at, it->text.len, &it->limits, it->minimal, out, cap, needed, &it->verdict);
  case EXPLAIN:
    return dm_repo_explain(it->repo, it->text.at, it->text.len, &it->limits, it->policy, &it->verdict, out, cap, needed);
  default:
    return dm_version(out, cap, needed);
  }
}

static bool is_left(const uint8_t *from, const uint8_t *to) {
  for (; from < to; from++)
    if (*from != MARK)
      return false;
  return true;
}

/* Whether a call that answered so gave a text. */
static bool gave(const call *it, dm_status status) { return status == DM_OK || (status == DM_NO && it->which == CHECK); }

/* Makes a call that gives a text with three rooms, and compares what it answers. */
static dm_status ask(call *it) {
  size_t cap = below(2) ? below(200) : room.most, needed = 7, again = 7;
  uint8_t *out = room.end - cap;
  memset(out, MARK, cap);
  dm_status status = give(it, out, cap, &needed);
  if (status == DM_SHORT ? needed <= cap || !is_left(out, room.end) : gave(it, status) && (needed > cap || !is_left(out + needed, room.end)))
    stop("the length of a text, or a byte past it", it->which);
  if (status != DM_SHORT && !gave(it, status)) {
    if (needed != 7 || !is_left(out, room.end))
      stop("no text, but something was written", it->which);
    return status;
  }
  if (needed > other_room.most)
    stop("a text of unlikely length", (long)needed);
  uint8_t *exact = other_room.end - needed;
  dm_status second = give(it, exact, needed, &again);
  if (again != needed || !gave(it, second) || (status != DM_SHORT && (second != status || memcmp(exact, out, needed) != 0)))
    stop("another answer in a room that is just enough", it->which);
  memset(exact, MARK, needed);
  if (needed > 0 && (give(it, exact + 1, needed - 1, &again) != DM_SHORT || again != needed || !is_left(exact, other_room.end)))
    stop("a room that is one byte too small", it->which);
  return second;
}

static void take(call *it) {
  size_t before = 0, after = 0;
  dm_verdict was = {9, 9, 9, 9, 9, 9, 9}, verdict = was;
  dm_status counted = dm_repo_len(it->repo, &before);
  dm_status status = dm_repo_take(it->repo, it->text.at, it->text.len, &it->limits, it->policy, &verdict);
  if (dm_repo_len(it->repo, &after) != counted || (status != DM_OK && after != before))
    stop("the repository has changed", (long)status);
  if (status == DM_OK) {
    if (verdict.kind > DM_NOTHING_NEW || after != before + verdict.taken || (verdict.kind == DM_TAKEN_SOME) != (verdict.skipped > 0))
      stop("the count of patches", (long)verdict.kind);
  } else if (status == DM_NO) {
    if (verdict.kind != DM_MALFORMED && verdict.kind != DM_REFUSED)
      stop("a verdict that is none of a refusal", (long)verdict.kind);
  } else if (memcmp(&verdict, &was, sizeof was) != 0) {
    stop("a verdict without an answer", (long)status);
  }
  bool in_order = it->policy <= DM_SKIP && it->limits.kinds <= DM_KINDS_ALL;
  if (counted == DM_OK ? (status == DM_BAD_NUMBER) == in_order : status == DM_OK || status == DM_NO)
    stop("numbers, or no repository", (long)status);
  if (status == DM_OK || status == DM_NO) {
    it->verdict = verdict;
    it->which = LINE;
    if (ask(it) != DM_OK)
      stop("no line of a verdict", (long)verdict.kind);
    it->which = EXPLAIN;
    status = ask(it);
    if (status != DM_OK && status != DM_NONE)
      stop("no explanation of a verdict", (long)status);
  }
}

static void look(call *it, long *tally) {
  dm_status status = ask(it);
  bool needs_repo = it->which >= NAME && it->which <= EXPLAIN, reads_numbers = it->which == SEND || it->which == EXPLAIN;
  if (needs_repo && !reads_numbers && (status == DM_NO_REPO) == it->repo->holds)
    stop("a repository, or none", it->which);
  if (status == DM_BAD_NUMBER && !reads_numbers && it->which != CHECK && it->which != LINE)
    stop("bad numbers without numbers", it->which);
  tally[status]++;
}

int main(int count, char **words) {
  if (count < 4)
    stop("fuzz CALLS SEED BUNDLE..", 0);
  long calls = atol(words[1]), tally[16] = {0};
  state = strtoull(words[2], NULL, 10) * 2 + 0x9e3779b97f4a7c15u;
  input = fenced(1 << 18);
  room = fenced(1 << 16);
  other_room = fenced(1 << 24);
  for (int at = 3; at < count; at++)
    load(words[at]);
  dm_repo repos[4] = {DM_REPO_INIT, DM_REPO_INIT, DM_REPO_INIT, DM_REPO_INIT};
  for (long number = 0; number < calls; number++) {
    call it = {(int)below(GIVING + 8), &repos[below(4)], random_text(), random_limits(), (uint32_t)below(2), below(2), below(6), {0, 0, 0, 0, 0, 0, 0}};
    dm_verdict verdict = {(uint32_t)below(6), (uint32_t)below(20), below(3), below(3), below(90), below(3), below(3)};
    it.verdict = verdict;
    if (below(16) == 0)
      it.policy = (uint32_t)next();
    if (below(200) == 0 && dm_repo_free(it.repo) != DM_OK)
      stop("a handle isn't freed", 0);
    if (below(20) == 0 && dm_repo_new(it.repo) != DM_OK && !it.repo->holds)
      stop("no repository is made", 0);
    if (it.which == FILE_OF && below(2)) {
      it.text.len = below(it.text.len + 1) % 12;
      it.text.at = input.end - it.text.len;
    }
    if (it.which >= GIVING)
      take(&it);
    else
      look(&it, tally);
  }
  for (int at = 0; at < 4; at++)
    dm_repo_free(&repos[at]);
  printf("fuzz: %ld calls of seed %s; of those that give a text: %ld ok, %ld none, %ld no, %ld bad numbers, %ld no repository\n", calls,
         words[2], tally[DM_OK], tally[DM_NONE], tally[DM_NO], tally[DM_BAD_NUMBER], tally[DM_NO_REPO]);
  return 0;
}
