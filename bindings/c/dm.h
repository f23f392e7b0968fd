/* dm.h: the library of Pasturepast for C. Every call is proved to do what is said here, as long as the caller keeps its part:
 *
 * - A pointer to a struct or to bytes points to that much memory, which nothing else reads or writes during the call. It is never
 *   null, not even with a length of 0. What two parameters point to doesn't overlap.
 * - A dm_repo is begun with DM_REPO_INIT, made by dm_repo_new, and ended by dm_repo_free. Its fields belong to the library. It isn't
 *   copied, nor in memory that can't be written: a call that takes it as const takes the repository out and puts it back. So it is
 *   used on one thread at a time by these calls too (several handles may be used on several threads).
 *
 * Calls that give a text take `out`, room for `cap` bytes, and `needed`. DM_OK: the text has *needed bytes and stands at `out`.
 * DM_SHORT: it has *needed bytes, which is more than `cap`, and nothing is written. In any other case both stay as they were.
 *
 * Texts are bytes without an end mark. The library opens no file, starts no thread and has nothing global.
 */
#ifndef DM_H
#define DM_H

#include <stdbool.h>
#include <stddef.h>
#include <stdint.h>

#ifdef __cplusplus
extern "C" {
#endif

typedef uint32_t dm_status;

#define DM_OK 0u         /* done */
#define DM_SHORT 1u      /* the room is too small: *needed says how much it takes */
#define DM_NO_MEMORY 2u  /* an allocation failed; nothing was changed */
#define DM_NONE 3u       /* there is none: no patch at this place, no file at this path, nothing to explain */
#define DM_NO 4u         /* the answer is no; the verdict tells why */
#define DM_BAD_NUMBER 5u /* a policy, kinds or verdict whose numbers aren't those below; nothing was changed */
#define DM_NO_REPO 6u    /* the handle holds no repository (dm_repo_new: it holds one already) */

/* How much of a text is read. */
typedef struct dm_limits {
  size_t bytes;    /* the most bytes of a text */
  size_t patches;  /* the most new patches of a bundle */
  size_t prims;    /* the most primitives of a patch */
  size_t replaces; /* the most replaces of a bundle; a replace walks over a whole file */
  uint32_t kinds;  /* DM_KINDS_SIX or DM_KINDS_ALL */
} dm_limits;

#define DM_KINDS_SIX 0u /* addfile, rmfile, adddir, rmdir, move, hunk */
#define DM_KINDS_ALL 1u /* those six, binary, replace and changepref */

/* Initializers: dm_limits limits = DM_LIMITS_STANDARD; */
#define DM_LIMITS_STANDARD {4194304, 1000, 10000, 500, DM_KINDS_SIX}            /* for a text of somebody else */
#define DM_LIMITS_OWN {1073741824, 100000, 1000000, 100000000000, DM_KINDS_SIX} /* for a repository of one's own */

/* Policies. */
#define DM_REFUSE 0u /* a conflict refuses the bundle */
#define DM_SKIP 1u   /* patches that conflict, and those that depend on them, are skipped */

/* What became of a text. Fields that a kind doesn't name are 0. Places count from 0. */
typedef struct dm_verdict {
  uint32_t kind;  /* DM_TAKEN .. DM_REFUSED */
  uint32_t why;   /* DM_MALFORMED: a DM_FAULT_..; DM_REFUSED: a DM_REFUSAL_.. */
  size_t taken;   /* DM_TAKEN, DM_TAKEN_SOME: so many patches */
  size_t skipped; /* DM_TAKEN_SOME: so many others */
  size_t at;      /* DM_MALFORMED: the byte */
  size_t place;   /* DM_REFUSED: the places in the order in which the line prints them */
  size_t other;
} dm_verdict;

/* Kinds of verdicts. */
#define DM_TAKEN 0u       /* all new patches were appended */
#define DM_TAKEN_SOME 1u  /* some were, others were skipped */
#define DM_NOTHING_NEW 2u /* the repository has them all */
#define DM_MALFORMED 3u   /* the text is no bundle, or isn't read within these limits */
#define DM_REFUSED 4u     /* the bundle can't be merged */

/* What is wrong with a text. */
#define DM_FAULT_TOO_LARGE 0u       /* more bytes than the limits have */
#define DM_FAULT_NO_NEW_PATCHES 1u  /* no line is the heading of a bundle */
#define DM_FAULT_BAD_INFO 2u        /* no patch info where one was due */
#define DM_FAULT_INVERTED 3u        /* the patch info of an inverted patch */
#define DM_FAULT_BAD_DEPENDS 4u     /* in angle brackets: neither a patch info nor the closing bracket */
#define DM_FAULT_BAD_PATCH 5u       /* in braces: neither a primitive nor the closing brace */
#define DM_FAULT_UNSUPPORTED 6u     /* a primitive that isn't read, or a nested brace or parenthesis */
#define DM_FAULT_BAD_PATH 7u        /* no path where one was due */
#define DM_FAULT_BAD_NUMBER 8u      /* no line number behind a hunk's path */
#define DM_FAULT_EMPTY_HUNK 9u      /* a hunk without lines */
#define DM_FAULT_UNCLOSED 10u       /* the text ends in braces */
#define DM_FAULT_NO_CONTEXT 11u     /* neither a patch nor the context where one was due */
#define DM_FAULT_DOUBLED 12u        /* a new patch that was there before */
#define DM_FAULT_TOO_MANY 13u       /* more patches, primitives or replaces than the limits have */
#define DM_FAULT_NO_MEMORY 14u      /* in no verdict of a call: the status is DM_NO_MEMORY */
#define DM_FAULT_BAD_HEX 15u        /* no hex where a binary's content was due */
#define DM_FAULT_BAD_PREFERENCE 16u /* no name, or no values, behind changepref */
#define DM_FAULT_BAD_TOKENS 17u     /* no set in brackets, or no two tokens of it, behind a replace's path */

/* Why a bundle isn't taken. In brackets what `place` and `other` are. */
#define DM_REFUSAL_MISSING_CONTEXT 0u    /* the context names what isn't held (in the context) */
#define DM_REFUSAL_MISSING_DEPENDENCY 1u /* so does a new patch (the new patch, in its dependencies) */
#define DM_REFUSAL_CONTEXT_DEPENDS 2u    /* a patch of the context depends on one that isn't in it (both held) */
#define DM_REFUSAL_HELD_DEPENDS 3u       /* a new patch is held, and depends on one that isn't (both new) */
#define DM_REFUSAL_DOES_NOT_FIT 4u       /* a new patch doesn't apply to the context's tree (the new patch) */
#define DM_REFUSAL_CONFLICTS 5u          /* a new patch conflicts with a held one (the new, the held) */
#define DM_REFUSAL_FULL 6u               /* a path of more than 32 names, or more than 100,000 patches */
#define DM_REFUSAL_NO_MEMORY 7u          /* in no verdict of a call: the status is DM_NO_MEMORY */

/* A repository in memory. */
typedef struct dm_repo {
  bool holds;
  void *inner;
} dm_repo;

#define DM_REPO_INIT {false, 0}

/* What `dm check` prints: the canonical text of a bundle. DM_NO: it is none, *verdict is DM_MALFORMED, and the text given is its line.
 * In any other case *verdict stays as it was. */
dm_status dm_check(const uint8_t *text, size_t len, const dm_limits *limits, uint8_t *out, size_t cap, size_t *needed,
                   dm_verdict *verdict);

/* The line that `dm` prints for a verdict, with its newline. DM_BAD_NUMBER: no verdict of a call has these numbers. */
dm_status dm_verdict_line(const dm_verdict *verdict, uint8_t *out, size_t cap, size_t *needed);

/* An empty repository. DM_NO_REPO where the handle holds one already. */
dm_status dm_repo_new(dm_repo *repo);

/* Frees it; the handle is then as DM_REPO_INIT. DM_OK too where it holds none. */
dm_status dm_repo_free(dm_repo *repo);

/* Takes a bundle. DM_OK: the verdict is DM_TAKEN, DM_TAKEN_SOME or DM_NOTHING_NEW. DM_NO: it is DM_MALFORMED or DM_REFUSED, and the
 * repository is as it was. In any other case the repository and *verdict are as they were. */
dm_status dm_repo_take(dm_repo *repo, const uint8_t *text, size_t len, const dm_limits *limits, uint32_t policy, dm_verdict *verdict);

/* How many patches it has. */
dm_status dm_repo_len(const dm_repo *repo, size_t *count);

/* The patch info at this place; the oldest is 0. DM_NONE: there is none. */
dm_status dm_repo_name(const dm_repo *repo, size_t place, uint8_t *out, size_t cap, size_t *needed);

/* Its names, as `dm log --context` prints them. */
dm_status dm_repo_context(const dm_repo *repo, uint8_t *out, size_t cap, size_t *needed);

/* Its tree, as `dm apply` lists it. */
dm_status dm_repo_listing(const dm_repo *repo, uint8_t *out, size_t cap, size_t *needed);

/* A file's content. The path is as the listing has it: ./a/b. DM_NONE: there is no such file. A call goes through the listing. */
dm_status dm_repo_file(const dm_repo *repo, const uint8_t *path, size_t len, uint8_t *out, size_t cap, size_t *needed);

/* All its patches as one bundle, as `dm apply --bundle` prints it. */
dm_status dm_repo_bundle(const dm_repo *repo, uint8_t *out, size_t cap, size_t *needed);

/* The bundle for somebody who tells these names (a bundle, or a context), with its hash, as `dm send` prints it. `limits` are those of
 * the names; what is sent has none, so look at its length and its patches where the other side reads within the standard ones.
 * `minimal`: its context names only what the patches need. DM_NO: *verdict tells why not. DM_NONE: they have all. */
dm_status dm_repo_send(const dm_repo *repo, const uint8_t *theirs, size_t len, const dm_limits *limits, bool minimal, uint8_t *out,
                       size_t cap, size_t *needed, dm_verdict *verdict);

/* What `--explain` says of a verdict of dm_repo_take (`repo` is the repository after it) or dm_check. Why patches were skipped isn't
 * told. DM_NONE: there is nothing to explain. */
dm_status dm_repo_explain(const dm_repo *repo, const uint8_t *text, size_t len, const dm_limits *limits, uint32_t policy,
                          const dm_verdict *verdict, uint8_t *out, size_t cap, size_t *needed);

/* The version, as `dm --version` has it behind the name: 0.2.0 */
dm_status dm_version(uint8_t *out, size_t cap, size_t *needed);

#ifdef __cplusplus
}
#endif
#endif
