/*
 * hs_check.h: judges whether a verdict proves that a replica of a committee broke a voting rule of chained HotStuff.
 *
 * Version 0.9.0. It is what the program hs_check does (docs/hs_check.md), for programs that have both texts in memory. The formats are
 * those of docs/FORMATS.md, the numbers those of docs/REFUSALS.md, which never change. What an accepted verdict means
 * is said in docs/PROMISES.md, and that the call keeps it is proved.
 *
 * Link with it, as ./install puts it: cc program.c $(pkg-config --cflags --libs hs_check). The archive that lies in the repository is
 * called libhs_check_c.a: cc program.c -lhs_check_c. For a language that loads libraries ./install makes libhs_check.so.0, or
 *
 *     cc -shared -o libhs_check.so -Wl,--whole-archive libhs_check.a -Wl,--no-whole-archive
 *
 * It is built for Linux on x86-64, for processors of x86-64-v2 unless `rt lib --cpu=..` or `./install --cpu=..` named
 * another. Unlike the programs it does not look whether it runs on such a one.
 */
#ifndef HS_CHECK_H
#define HS_CHECK_H

#include <stddef.h>
#include <stdint.h>

#ifdef __cplusplus
extern "C" {
#endif

/* The lengths of texts that can be accepted, in bytes. Every other length is refused. */
enum {
    HS_DOUBLE_VOTE_LEN = 3025,    /* a verdict of rule 1 */
    HS_LOCK_VIOLATION_LEN = 3277, /* a verdict of rule 2 */
    HS_COMMITTEE_MIN_LEN = 232,   /* a committee of 4 replicas that count once: 8, and 56 for each */
    HS_COMMITTEE_MAX_LEN = 7200   /* one of 31 replicas that may have several keys: 8, and 232 for each */
};

/* As much room as each name of an answer needs, in bytes. */
enum { HS_NAME_LEN = 14 };

/* The rules that may be broken. */
enum {
    HS_DOUBLE_VOTE = 1,   /* two votes for different blocks in one view */
    HS_LOCK_VIOLATION = 2 /* a vote against the lock that an earlier vote took */
};

/* What hs_check answers. */
enum {
    HS_ACCEPTED = 0,

    /* The verdict is refused: the first of these whose case holds. */
    HS_REFUSED_SHORT = 1,           /* it has fewer than 39 bytes */
    HS_REFUSED_MAGIC = 2,           /* it does not begin with HSX2 */
    HS_REFUSED_KIND = 3,            /* its kind is neither 1 nor 2 */
    HS_REFUSED_LENGTH = 4,          /* it has not as many bytes as its kind asks for */
    HS_REFUSED_CHAIN = 5,           /* its chain id is not the committee's */
    HS_REFUSED_REPLICA = 6,         /* the committee has no such replica */
    HS_REFUSED_KEY_NUMBER = 11,     /* one of its votes names a key that the replica has not */
    HS_REFUSED_HEADER_MISMATCH = 7, /* of kind 2: a header can't be read, or is not the one that the votes ask for */
    HS_REFUSED_NO_RULE_BROKEN = 8,  /* its votes do not break the rule of its kind */
    HS_REFUSED_SIGNATURE_E = 9,     /* the first vote's signature does not verify under its key */
    HS_REFUSED_SIGNATURE_W = 10,    /* the second vote's signature does not verify under its key */

    /* The committee is refused, whatever the verdict: the first of these whose case holds. */
    HS_COMMITTEE_LENGTH = -1,   /* it has fewer than 8 bytes, or not as many as its replicas ask for */
    HS_COMMITTEE_MAGIC = -2,    /* it begins with neither HSC1, HSC2 nor HSC3 */
    HS_COMMITTEE_SIZE = -3,     /* it has a number of replicas that is not allowed */
    HS_COMMITTEE_KEY_COUNT = -7, /* a replica has no key, more than four, or bytes behind its keys */
    HS_COMMITTEE_KEY = -4,      /* a replica's key is none */
    HS_COMMITTEE_SAME_KEY = -5, /* one key stands twice */
    HS_COMMITTEE_WEIGHT = -6    /* a replica has the weight 0 */
};

/* What an accepted verdict proves. */
struct hs_finding {
    uint64_t view;    /* the view of the later vote */
    uint32_t replica; /* the number of the replica that broke a rule, below 31 */
    uint32_t rule;    /* the rule that it broke: HS_DOUBLE_VOTE or HS_LOCK_VIOLATION */
};

/* What a committee's file says. */
struct hs_shown_committee {
    uint64_t total;    /* how much all replicas count together */
    uint64_t quorum;   /* how much a quorum counts */
    uint32_t n;        /* how many replicas there are */
    uint32_t weighted; /* 1 where the format has weights (HSC2, HSC3), else 0 */
    uint8_t chain[32]; /* the id of its chain, to compare with the one that you were told */
};

/*
 * Judges a verdict under a committee, both as the bytes of their files. Answers HS_ACCEPTED, and then *finding says
 * what the verdict proves; else the number of a refusal, and then *finding is left as it was.
 *
 * Take your own copy of the committee's file, never one that came with the verdict: whoever made the file can have put
 * keys of their own in it.
 *
 * A length is that of the memory at its pointer: no byte behind it is read. The pointer to a text of length 0 may be
 * NULL; no other pointer may be. The two texts may be one, but finding may lie in neither.
 *
 * The call writes nothing but *finding and keeps nothing: so any number of threads may call it at once, each with a
 * finding of its own, also on the same texts, as long as no thread writes to these. It takes no memory but the stack,
 * of which 96 KB are enough, waits for nothing, and does no input or output. It costs two signature checks at the most,
 * mostly some 9,000 SHA-256 compressions together, and never more than some 17,000.
 */
#ifdef __GNUC__
__attribute__((nonnull(5)))
#endif
int hs_check(const uint8_t *committee, size_t committee_len, const uint8_t *verdict, size_t verdict_len,
             struct hs_finding *finding);

/*
 * Says what stands in a committee's file, as its bytes. Answers HS_ACCEPTED, and then *shown says it; else one of the
 * numbers of a refused committee, and then *shown is left as it was. Of the text, the memory, threads and the stack
 * holds what is said of hs_check.
 */
#ifdef __GNUC__
__attribute__((nonnull(3)))
#endif
int hs_committee(const uint8_t *committee, size_t committee_len, struct hs_shown_committee *shown);

/*
 * Writes the name of what hs_check or hs_committee answered, as "SignatureE", to the front of name: letters alone, with no NUL behind
 * them. Answers how many bytes it wrote, HS_NAME_LEN at the most; or 0, and then name is left as it was, where the answer is a number
 * that they never answer, or len is too little. The pointer may be NULL where len is 0.
 */
size_t hs_check_name(int answer, uint8_t *name, size_t len);

/* Writes the version of the library, as "0.9.0", in the same way. */
size_t hs_check_version(uint8_t *version, size_t len);

#ifdef __cplusplus
}
#endif

#endif
