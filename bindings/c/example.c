/* Reads and merges bundles by the library, and prints what `dm check` and `dm apply` print:
 *
 *     example check [--all-kinds] [FILE]
 *     example apply [--all-kinds] [--skip] [--bundle] [--quiet] [--base FILE | --repository FILE] [FILE..]
 *
 * Without a FILE, or with `-`, it reads standard input. The exit status is that of `dm`.
 *
 *     cc example.c $(pkg-config --cflags --libs dm) -o example
 */
#include "dm.h"

#include <stdio.h>
#include <stdlib.h>
#include <string.h>

/* A text, and the room that it has. */
typedef struct text {
  uint8_t *bytes;
  size_t cap;
  size_t len;
} text;

static void fail(const char *why, const char *what) {
  fprintf(stderr, "dm: %s%s\n", why, what);
  exit(2);
}

static text with_room(size_t cap) {
  text made = {malloc(cap), cap, 0};
  if (!made.bytes)
    fail("no memory", "");
  return made;
}

/* After a call that gives a text: whether to call again, as the room was too small. There is enough now. */
static bool again(text *it, dm_status status) {
  if (status == DM_NO_MEMORY)
    fail("no memory", "");
  if (status != DM_SHORT)
    return false;
  free(it->bytes);
  size_t len = it->len;
  *it = with_room(len);
  return true;
}

static text read_whole(const char *name) {
  FILE *file = strcmp(name, "-") == 0 ? stdin : fopen(name, "rb");
  if (!file)
    fail("cannot read ", name);
  text it = with_room(65536);
  size_t more;
  while ((more = fread(it.bytes + it.len, 1, it.cap - it.len, file)) > 0) {
    it.len += more;
    if (it.len == it.cap) {
      it.bytes = realloc(it.bytes, it.cap *= 2);
      if (!it.bytes)
        fail("no memory", "");
    }
  }
  if (ferror(file))
    fail("cannot read ", name);
  if (file != stdin)
    fclose(file);
  return it;
}

static void print(text it) {
  if (fwrite(it.bytes, 1, it.len, stdout) != it.len)
    fail("cannot write output", "");
  free(it.bytes);
}

static text line_of(const dm_verdict *verdict) {
  text line = with_room(64);
  while (again(&line, dm_verdict_line(verdict, line.bytes, line.cap, &line.len)))
    ;
  return line;
}

static int check(const char *name, const dm_limits *limits) {
  text bundle = read_whole(name), out = with_room(4096);
  dm_verdict verdict;
  dm_status status;
  do
    status = dm_check(bundle.bytes, bundle.len, limits, out.bytes, out.cap, &out.len, &verdict);
  while (again(&out, status));
  free(bundle.bytes);
  print(out);
  return status == DM_OK ? 0 : 1;
}

static dm_verdict take(dm_repo *repo, const char *name, const dm_limits *limits, uint32_t policy) {
  text bundle = read_whole(name);
  dm_verdict verdict;
  if (dm_repo_take(repo, bundle.bytes, bundle.len, limits, policy, &verdict) == DM_NO_MEMORY)
    fail("no memory", "");
  free(bundle.bytes);
  return verdict;
}

static void begin_with(dm_repo *repo, const char *name, const dm_limits *limits) {
  dm_verdict verdict = take(repo, name, limits, DM_REFUSE);
  if (verdict.kind == DM_MALFORMED || verdict.kind == DM_REFUSED) {
    text line = line_of(&verdict);
    fprintf(stderr, "dm: base %.*s", (int)line.len, (const char *)line.bytes);
    exit(2);
  }
}

static void print_repository(const dm_repo *repo, bool as_bundle) {
  text out = with_room(4096);
  dm_status status;
  do
    status = as_bundle ? dm_repo_bundle(repo, out.bytes, out.cap, &out.len) : dm_repo_listing(repo, out.bytes, out.cap, &out.len);
  while (again(&out, status));
  print(out);
}

int main(int count, char **words) {
  dm_limits standard = DM_LIMITS_STANDARD, own = DM_LIMITS_OWN;
  const char *base = NULL, *repository = NULL;
  bool as_bundle = false, quiet = false;
  uint32_t policy = DM_REFUSE;
  int at = 2;
  for (; at < count && words[at][0] == '-' && words[at][1]; at++) {
    if (strcmp(words[at], "--all-kinds") == 0)
      standard.kinds = own.kinds = DM_KINDS_ALL;
    else if (strcmp(words[at], "--skip") == 0)
      policy = DM_SKIP;
    else if (strcmp(words[at], "--bundle") == 0)
      as_bundle = true;
    else if (strcmp(words[at], "--quiet") == 0)
      quiet = true;
    else if (strcmp(words[at], "--base") == 0 && at + 1 < count)
      base = words[++at];
    else if (strcmp(words[at], "--repository") == 0 && at + 1 < count)
      repository = words[++at];
    else
      fail("a wrong word: ", words[at]);
  }
  if (count > 1 && strcmp(words[1], "check") == 0)
    return check(at < count ? words[at] : "-", &standard);
  if (count < 2 || strcmp(words[1], "apply") != 0)
    fail("example check or example apply", "");

  dm_repo repo = DM_REPO_INIT;
  if (dm_repo_new(&repo) != DM_OK)
    fail("no memory", "");
  if (base || repository)
    begin_with(&repo, base ? base : repository, base ? &standard : &own);
  int answer = 0;
  do {
    dm_verdict verdict = take(&repo, at < count ? words[at] : "-", &standard, policy);
    print(line_of(&verdict));
    if (verdict.kind != DM_TAKEN && verdict.kind != DM_NOTHING_NEW)
      answer = 1;
  } while (++at < count);
  if (!quiet)
    print_repository(&repo, as_bundle);
  dm_repo_free(&repo);
  return answer;
}
