/* Toastlagoon's functions for C, C++ and whatever calls like C.
 *
 *     uint8_t window[TL_REGISTER_SIZE] = {0}, board[TL_BOARD_SIZE];              // an empty register: all zeros
 *     uint32_t answer = tl_register_report(window, sizeof window, engine, record, sizeof record);
 *     if (answer != TL_OK) fprintf(stderr, "%s\n", tl_answer_name(answer));      // refused: no byte has changed
 *     uint32_t length = tl_board(TL_MANAGER, window, sizeof window, board, sizeof board); // 0 for an empty board
 *     if (length == TL_MALFORMED_REGISTER || length == TL_OUTPUT_TOO_SMALL) return 1;
 *     fwrite(board, 1, length, stdout);
 *
 * The library is target/staticlib/libtoastlagoon.a, made by `build library`, for x86-64-v2 (a processor with POPCNT, SSSE3, SSE4.1
 * and SSE4.2); `package` makes a shared one of it. It allocates nothing, keeps nothing between calls, and of other
 * libraries needs only the C library's memcpy, memmove, memset and memcmp.
 *
 * Every function takes any bytes and any numbers and is proved to return what docs/REFERENCE.md says of them
 * (crates/toastlagoon/src/lib.rt has the contracts, docs/OPERATION.md says how to run it). What the caller owes is what C cannot
 * say:
 *
 * - Memory. A slice is two arguments, a pointer and a length in bytes, and that many bytes can be read there (and written, where
 *   it is not const). The pointer is never null, not even for a length of 0: there any valid pointer will do, the address of some
 *   byte of the caller's. An array of a fixed size is a pointer alone, with room for all of it. What one call may write overlaps
 *   nothing else that is passed to the same call. Nothing needs to be aligned.
 * - A bool is 0 or 1.
 * - The floating-point environment that a thread begins with: rounding to nearest, no flush to zero and no denormals as zero
 *   (MXCSR 1f80 but for its flags), no exception unmasked. Another changes chi-squares, and so which fixes are refused, and the
 *   result of tl_horizontal_sigma.
 * - Stack: 48 KB for tl_decide, tl_decide_any and tl_register_join, 112 KB for tl_board, tl_register_map, tl_register_fixes and
 *   each function of a track, 144 KB for tl_register_preview, 8 KB for tl_register_session, 4 KB for each other function (a KB is
 *   1,024 bytes). bench/stack measures it; seen were up to 14 KB for a decision of up to 32 items and 44 KB for one of more, 68 KB
 *   for a board, a map or the fixes of a board, 104 KB for a preview and 37 KB for a join, which have a register there, up to 17 KB
 *   for a report to a track, 29 KB for a conviction there and 47 KB for a summary, which have a shelf there, 4 KB for a session, and
 *   up to 2 KB for the others.
 *   What a dynamic linker takes at a first call is not in these: bind names at the start (-Wl,-z,now).
 * - Threads: any number of them may call at once, as long as no two calls have memory in common that one of them may write. A
 *   register or a track that several threads use needs the caller's lock.
 *
 * Numbers in memory are little-endian, a covariance's f64 too (in the text of a session they are written with the highest digit
 * first). A function that refuses returns one of the numbers below and changes no byte. */
#ifndef TOASTLAGOON_H
#define TOASTLAGOON_H

#include <stdbool.h>
#include <stddef.h>
#include <stdint.h>

#ifdef __cplusplus
extern "C" {
#endif

/* ---- version of this header and of the library that comes with it
 *
 * With major 0 every change of the minor number may change names, layouts, answers and texts: rooms that are to show the same board
 * have the same minor number. A change of the patch number adds names and changes nothing that was there, but that a number that is
 * new as an answer gets its words in tl_answer_text. */

#define TL_VERSION_MAJOR 0
#define TL_VERSION_MINOR 12
#define TL_VERSION_PATCH 3
#define TL_VERSION (TL_VERSION_MAJOR * 1000000 + TL_VERSION_MINOR * 1000 + TL_VERSION_PATCH)
#define TL_VERSION_TEXT TL_VERSION_JOINED(TL_VERSION_MAJOR, TL_VERSION_MINOR, TL_VERSION_PATCH) /* "0.12.3" */
#define TL_VERSION_JOINED(major, minor, patch) TL_VERSION_QUOTED(major, minor, patch)
#define TL_VERSION_QUOTED(major, minor, patch) #major "." #minor "." #patch

/* The version of the library that is linked, as TL_VERSION has it: a program that was compiled with this header wants
 * tl_version() / 1000 == TL_VERSION / 1000, and has all names of the header where tl_version() >= TL_VERSION. */
uint32_t tl_version(void);

/* ---- answers */

#define TL_OK 0
#define TL_MALFORMED_REGISTER 1 /* the memory is not a well-formed register */
#define TL_MALFORMED_TRACK 1    /* the memory is not a well-formed track, or the shelf is none beside it */
#define TL_ENGINE_OVER_31 2
#define TL_MALFORMED_RECORD 3
#define TL_ENGINE_CONVICTED 4
#define TL_FULL 5               /* not held yet, and there is no place left; of a join: both together hold more than there are places */
#define TL_MODEL_DISPUTED 7     /* the summaries of a cited model disagree, or are of another spec: in a track, or in the register of tl_register_inputs */
#define TL_BAD_ITEMS 8          /* over 96 items, no whole number of items, a malformed item, or two of one identity */
#define TL_BAD_SUMMARY 9        /* a model over 63, or inputs that are not of 32 bytes */
#define TL_OUTPUT_TOO_SMALL 10  /* under TL_BOARD_SIZE bytes for a board or a preview, TL_LISTING_SIZE for a listing, TL_FIXES_SIZE for fixes,
                                   TL_SESSION_SIZE for a session's answers, TL_REGISTER_SIZE for what is lacking */
#define TL_BAD_LINE 11          /* a line of a session is not the one that is due; tl_session_reason says which */
#define TL_SESSION_TOO_LONG 12  /* over TL_MAX_SESSION bytes */
#define TL_SHELF_FULL 13        /* the fix has to wait, and TL_MAX_WAITING wait already */
#define TL_MAP_TOO_SMALL 14     /* under TL_MAP_SIZE bytes for a map */
#define TL_UNKNOWN_DESK 15      /* the desk is none of TL_CREW, TL_ANALYST and TL_MANAGER; all 32 bits count */
#define TL_NO_RIGHT 16          /* the desk may not do this */
#define TL_BAD_LENGTH 17        /* what is turned, or the output, is not of TL_REGISTER_SIZE bytes */

/* What a report did to a track. */
#define TL_CHANGED 20   /* a fix of its identity stands in the transmission that it joined, or is first in the one that it opened;
                           or the transmission that it joined has another first fix than before */
#define TL_CONTESTED 21 /* a smaller fix disagrees with it, and it is kept among the refused */
#define TL_DUPLICATE 22 /* its identity was held in the one transmission that it is tied to, and gained the signer */
#define TL_DROPPED 23   /* it is not kept */
#define TL_WAITING 24   /* there is no summary of a model that the record cites: in a track, where it waits on the shelf and the track is as it was, or in the
                           register of tl_register_inputs */

/* Outcomes of tl_agreement, and of nothing else. Answers above have the same numbers; tl_answer_name does not name these. */
#define TL_INSIDE 0       /* the chi-square is at most the limit: the two agree */
#define TL_OUTSIDE 1      /* the chi-square is above the limit: they disagree */
#define TL_UNMEASURABLE 2 /* there is no chi-square: they count as disagreeing */

/* The outcome of tl_record_fault, and of nothing else: the first check that bytes fail, in the order in which a record's fields stand. */
#define TL_FAULT_NONE 0            /* they are a record */
#define TL_FAULT_LENGTH 1          /* not TL_RECORD_SIZE bytes */
#define TL_FAULT_HEIGHT_FLAG 2     /* neither 0 nor 1 */
#define TL_FAULT_HEIGHT_ROOM 3     /* no height, and its bytes are not zero */
#define TL_FAULT_MESSAGE_LENGTH 4  /* neither TL_SHORT_MESSAGE nor TL_LONG_MESSAGE */
#define TL_FAULT_MESSAGE_ROOM 5    /* bytes behind the message are not zero */
#define TL_FAULT_NO_TAG 6
#define TL_FAULT_TOO_MANY_TAGS 7   /* over TL_MAX_TAGS */
#define TL_FAULT_USED_MASK 8       /* a bit at or above the number of tags */
#define TL_FAULT_TAG_ORDER 9       /* not strictly ascending */
#define TL_FAULT_TAG_ROOM 10       /* bytes behind the tags are not zero */
#define TL_FAULT_TOO_MANY_MODELS 11 /* over TL_MAX_CITED */
#define TL_FAULT_MODEL 12          /* over TL_MAX_MODEL */
#define TL_FAULT_MODEL_ROOM 13     /* bytes behind the models are not zero */

/* What an answer says, in words. Not for the outcomes of tl_agreement, and not for the lengths that tl_board, tl_register_preview,
 * tl_register_map, tl_register_fixes, tl_register_session, tl_session_reason and tl_track_listing return: a length can be any number
 * but those of their refusals. The text is part of the program that includes this header, not of the library; tl_answer_text has the
 * same words for languages that read no header. */
static inline const char *tl_answer_name(uint32_t answer) {
    switch (answer) {
    case TL_OK: return "done";
    case TL_MALFORMED_REGISTER: return "not a well-formed register, track or shelf";
    case TL_ENGINE_OVER_31: return "engine over 31";
    case TL_MALFORMED_RECORD: return "malformed record";
    case TL_ENGINE_CONVICTED: return "engine convicted";
    case TL_FULL: return "full";
    case TL_MODEL_DISPUTED: return "model disputed or of another spec";
    case TL_BAD_ITEMS: return "bad items";
    case TL_BAD_SUMMARY: return "bad summary";
    case TL_OUTPUT_TOO_SMALL: return "output too small";
    case TL_BAD_LINE: return "session with a bad line";
    case TL_SESSION_TOO_LONG: return "session too long";
    case TL_SHELF_FULL: return "shelf full";
    case TL_MAP_TOO_SMALL: return "output too small for a map";
    case TL_UNKNOWN_DESK: return "unknown desk";
    case TL_NO_RIGHT: return "desk lacks the right";
    case TL_BAD_LENGTH: return "not the length of a register";
    case TL_CHANGED: return "changed";
    case TL_CONTESTED: return "contested";
    case TL_DUPLICATE: return "duplicate";
    case TL_DROPPED: return "dropped";
    case TL_WAITING: return "waiting";
    default: return "no answer of the library";
    }
}

/* Writes these words to the start of out, without a zero byte at their end, and returns their length. Where out_len is less than
 * that, nothing is written and the same length is returned; TL_ANSWER_TEXT_SIZE bytes are always enough. Bytes past the words stay
 * as found. */
#define TL_ANSWER_TEXT_SIZE 48
uint32_t tl_answer_text(uint32_t answer, uint8_t *out, size_t out_len);

/* ---- desks
 *
 * Who calls for a register's conviction, preview or board, as far as he says so: the library believes the number and does not ask who
 * the caller is. It is asked before all else. */

#define TL_CREW 0    /* its board has the ranked lines alone, under headers that give only the transmission's number */
#define TL_ANALYST 1 /* the full board, and the preview of a conviction */
#define TL_MANAGER 2 /* everything: a manager alone convicts */

/* ---- limits */

#define TL_MAX_ENGINE 31
#define TL_MAX_MODEL 63
#define TL_MAX_TAGS 24         /* of a record */
#define TL_MAX_CITED 4         /* models that a record cites */
#define TL_MAX_ITEMS 96        /* of a decision */
#define TL_MAX_RECORDS 96      /* different ones of a register */
#define TL_MAX_SUMMARIES 256   /* different ones of a register; pairs of engine and model of a track */
#define TL_MAX_TRANSMISSIONS 8 /* of a track, and of a board */
#define TL_MAX_STANDING 5      /* fixes that stand in a transmission of a track */
#define TL_MAX_REFUSED 4       /* refused fixes that a transmission of a track keeps */
#define TL_MAX_WAITING 64      /* fixes that wait beside a track */
#define TL_MAX_SESSION 65536   /* bytes of a session */

/* ---- layouts
 *
 * Offsets in bytes, each that of the field before it and its size. */

#define TL_HASH_SIZE 32
#define TL_INPUTS_SIZE TL_HASH_SIZE
#define TL_IDENTITY_SIZE TL_HASH_SIZE
#define TL_SIGNERS_SIZE 4 /* u32, bit n for engine n */
#define TL_SHORT_MESSAGE 7
#define TL_LONG_MESSAGE 14
#define TL_TAG_SIZE 8
#define TL_F64_SIZE 8

/* A record: what an engine reports. Unused bytes are zero. */
#define TL_RECORD_TIME_AT 0                                           /* u64, nanoseconds */
#define TL_RECORD_LAT_AT (TL_RECORD_TIME_AT + 8)                      /* i32, 1e-7 degree */
#define TL_RECORD_LON_AT (TL_RECORD_LAT_AT + 4)                       /* i32, 1e-7 degree */
#define TL_RECORD_HAS_HEIGHT_AT (TL_RECORD_LON_AT + 4)                /* u8, 0 or 1 */
#define TL_RECORD_HEIGHT_AT (TL_RECORD_HAS_HEIGHT_AT + 1)             /* i32, millimetres; 0 without the flag */
#define TL_RECORD_MESSAGE_LENGTH_AT (TL_RECORD_HEIGHT_AT + 4)         /* u8, TL_SHORT_MESSAGE or TL_LONG_MESSAGE */
#define TL_RECORD_MESSAGE_AT (TL_RECORD_MESSAGE_LENGTH_AT + 1)
#define TL_RECORD_TAG_COUNT_AT (TL_RECORD_MESSAGE_AT + TL_LONG_MESSAGE) /* u8, 1 to TL_MAX_TAGS */
#define TL_RECORD_USED_AT (TL_RECORD_TAG_COUNT_AT + 1)                /* u32: bit i is the i-th tag in ascending order, from 0 */
#define TL_RECORD_TAGS_AT (TL_RECORD_USED_AT + 4)                     /* u64 each, strictly ascending */
#define TL_RECORD_MODEL_COUNT_AT (TL_RECORD_TAGS_AT + TL_MAX_TAGS * TL_TAG_SIZE) /* u8, 0 to TL_MAX_CITED */
#define TL_RECORD_MODELS_AT (TL_RECORD_MODEL_COUNT_AT + 1)            /* u8 each, at most TL_MAX_MODEL, in any order */
#define TL_RECORD_SPEC_AT (TL_RECORD_MODELS_AT + TL_MAX_CITED)        /* u16 */
#define TL_RECORD_XX_AT (TL_RECORD_SPEC_AT + 2)                       /* covariance, six f64 of m^2; x east, y north, z up */
#define TL_RECORD_XY_AT (TL_RECORD_XX_AT + TL_F64_SIZE)
#define TL_RECORD_XZ_AT (TL_RECORD_XY_AT + TL_F64_SIZE)
#define TL_RECORD_YY_AT (TL_RECORD_XZ_AT + TL_F64_SIZE)
#define TL_RECORD_YZ_AT (TL_RECORD_YY_AT + TL_F64_SIZE)
#define TL_RECORD_ZZ_AT (TL_RECORD_YZ_AT + TL_F64_SIZE)
#define TL_RECORD_SIZE (TL_RECORD_ZZ_AT + TL_F64_SIZE)                /* 288 */

/* A summary: what an engine says of a model. */
#define TL_SUMMARY_ENGINE_AT 0                                        /* u8 */
#define TL_SUMMARY_MODEL_AT (TL_SUMMARY_ENGINE_AT + 1)                /* u8 */
#define TL_SUMMARY_SPEC_AT (TL_SUMMARY_MODEL_AT + 1)                  /* u16 */
#define TL_SUMMARY_INPUTS_AT (TL_SUMMARY_SPEC_AT + 2)
#define TL_SUMMARY_SIZE (TL_SUMMARY_INPUTS_AT + TL_INPUTS_SIZE)       /* 36 */

/* A record that a register holds, with the engines that reported it. */
#define TL_HELD_RECORD_AT 0
#define TL_HELD_SIGNERS_AT (TL_HELD_RECORD_AT + TL_RECORD_SIZE)
#define TL_HELD_SIZE (TL_HELD_SIGNERS_AT + TL_SIGNERS_SIZE)           /* 292 */

/* A register. A fresh one is all zeros. Used places come first and ascend in byte order. */
#define TL_REGISTER_CONVICTED_AT 0                                    /* u32, bit n for engine n */
#define TL_REGISTER_SUMMARY_COUNT_AT (TL_REGISTER_CONVICTED_AT + 4)   /* u16, at most TL_MAX_SUMMARIES */
#define TL_REGISTER_RECORD_COUNT_AT (TL_REGISTER_SUMMARY_COUNT_AT + 2) /* u16, at most TL_MAX_RECORDS */
#define TL_REGISTER_SUMMARIES_AT (TL_REGISTER_RECORD_COUNT_AT + 2)
#define TL_REGISTER_RECORDS_AT (TL_REGISTER_SUMMARIES_AT + TL_MAX_SUMMARIES * TL_SUMMARY_SIZE)
#define TL_REGISTER_SIZE (TL_REGISTER_RECORDS_AT + TL_MAX_RECORDS * TL_HELD_SIZE) /* 37,256 */

/* A fix of a track: a record, the engines that reported it, the model inputs that it was checked under. */
#define TL_FIX_RECORD_AT 0
#define TL_FIX_SIGNERS_AT (TL_FIX_RECORD_AT + TL_RECORD_SIZE)
#define TL_FIX_INPUTS_AT (TL_FIX_SIGNERS_AT + TL_SIGNERS_SIZE)
#define TL_FIX_SIZE (TL_FIX_INPUTS_AT + TL_INPUTS_SIZE)               /* 324 */

/* A refused fix of a track, the identity that it is refused against, and the chi-square between them: positive infinity where
 * there is none (TL_UNMEASURABLE). */
#define TL_REFUSED_FIX_AT 0
#define TL_REFUSED_AGAINST_AT (TL_REFUSED_FIX_AT + TL_FIX_SIZE)
#define TL_REFUSED_CHI2_AT (TL_REFUSED_AGAINST_AT + TL_IDENTITY_SIZE) /* f64 */
#define TL_REFUSED_SIZE (TL_REFUSED_CHI2_AT + TL_F64_SIZE)            /* 364 */

/* A transmission of a track. */
#define TL_TRANSMISSION_FIX_COUNT_AT 0                                /* u8, 1 to TL_MAX_STANDING */
#define TL_TRANSMISSION_REFUSED_COUNT_AT (TL_TRANSMISSION_FIX_COUNT_AT + 1) /* u8, 0 to TL_MAX_REFUSED */
#define TL_TRANSMISSION_FIXES_AT (TL_TRANSMISSION_REFUSED_COUNT_AT + 1)
#define TL_TRANSMISSION_REFUSED_AT (TL_TRANSMISSION_FIXES_AT + TL_MAX_STANDING * TL_FIX_SIZE)
#define TL_TRANSMISSION_SIZE (TL_TRANSMISSION_REFUSED_AT + TL_MAX_REFUSED * TL_REFUSED_SIZE) /* 3,078 */

/* A track. A fresh one is all zeros. The byte before the contested count is zero. */
#define TL_TRACK_CONVICTED_AT 0                                       /* u32, bit n for engine n */
#define TL_TRACK_SUMMARY_COUNT_AT (TL_TRACK_CONVICTED_AT + 4)         /* u16, at most TL_MAX_SUMMARIES */
#define TL_TRACK_TRANSMISSION_COUNT_AT (TL_TRACK_SUMMARY_COUNT_AT + 2) /* u8, at most TL_MAX_TRANSMISSIONS */
#define TL_TRACK_CONTESTED_AT (TL_TRACK_TRANSMISSION_COUNT_AT + 1 + 1) /* u64 */
#define TL_TRACK_SUMMARIES_AT (TL_TRACK_CONTESTED_AT + 8)
#define TL_TRACK_TRANSMISSIONS_AT (TL_TRACK_SUMMARIES_AT + TL_MAX_SUMMARIES * TL_SUMMARY_SIZE)
#define TL_TRACK_SIZE (TL_TRACK_TRANSMISSIONS_AT + TL_MAX_TRANSMISSIONS * TL_TRANSMISSION_SIZE) /* 33,856 */

/* A fix that waits: the model that it waits for, the engine that reported it, and the record. */
#define TL_WAITING_MODEL_AT 0                                         /* u8 */
#define TL_WAITING_ENGINE_AT (TL_WAITING_MODEL_AT + 1)                /* u8 */
#define TL_WAITING_RECORD_AT (TL_WAITING_ENGINE_AT + 1)
#define TL_WAITING_SIZE (TL_WAITING_RECORD_AT + TL_RECORD_SIZE)       /* 290 */

/* The shelf beside a track. A fresh one is all zeros. */
#define TL_SHELF_COUNT_AT 0                                           /* u8, at most TL_MAX_WAITING */
#define TL_SHELF_PLACES_AT (TL_SHELF_COUNT_AT + 1)
#define TL_SHELF_SIZE (TL_SHELF_PLACES_AT + TL_MAX_WAITING * TL_WAITING_SIZE) /* 18,561 */

/* An item of a decision. It is malformed exactly where its record is; so an item of zeros is malformed. */
#define TL_ITEM_RECORD_AT 0
#define TL_ITEM_INPUTS_AT (TL_ITEM_RECORD_AT + TL_RECORD_SIZE)
#define TL_ITEM_IDENTITY_AT (TL_ITEM_INPUTS_AT + TL_INPUTS_SIZE)
#define TL_ITEM_STANDING_AT (TL_ITEM_IDENTITY_AT + TL_IDENTITY_SIZE)  /* u64, the greater ranks first */
#define TL_ITEM_CONSISTENT_AT (TL_ITEM_STANDING_AT + 8)               /* u8; an item whose byte is zero refuses nobody */
#define TL_ITEM_PREFERRED_AT (TL_ITEM_CONSISTENT_AT + 1)              /* u8, zero or not */
#define TL_ITEM_VERIFIED_AT (TL_ITEM_PREFERRED_AT + 1)                /* u8, TL_PASSED, TL_FAILED, else unjudged */
#define TL_ITEM_SIZE (TL_ITEM_VERIFIED_AT + 1)                        /* 363 */
#define TL_UNJUDGED 0
#define TL_PASSED 1
#define TL_FAILED 2

/* A refusal in the answer of a decision. Where there is no chi-square between the two (TL_UNMEASURABLE), its bytes are zero: look
 * at TL_REFUSAL_MEASURED_AT before them. */
#define TL_REFUSAL_INDEX_AT 0                                         /* u8, the refused item */
#define TL_REFUSAL_AGAINST_AT (TL_REFUSAL_INDEX_AT + 1)               /* u8, the item that it is refused against */
#define TL_REFUSAL_SUPERSEDED_AT (TL_REFUSAL_AGAINST_AT + 1)          /* u8, 1 if that one supersedes it, 0 if it is contested */
#define TL_REFUSAL_MEASURED_AT (TL_REFUSAL_SUPERSEDED_AT + 1)         /* u8, 1 if there is a chi-square, 0 if there is none */
#define TL_REFUSAL_CHI2_AT (TL_REFUSAL_MEASURED_AT + 1)               /* f64, between the two; zero where there is none */
#define TL_REFUSAL_SIZE (TL_REFUSAL_CHI2_AT + TL_F64_SIZE)            /* 12 */

/* The answer of a decision. Ranked: a count u8, and that many indices u8, the first in rank first. Dominated and refusals: the
 * same, ascending. Unused bytes are zero. */
#define TL_RANKED_AT 0
#define TL_DOMINATED_AT (TL_RANKED_AT + 1 + TL_MAX_ITEMS)
#define TL_REFUSALS_AT (TL_DOMINATED_AT + 1 + TL_MAX_ITEMS)
#define TL_ANSWER_SIZE (TL_REFUSALS_AT + 1 + TL_MAX_ITEMS * TL_REFUSAL_SIZE) /* 1,347 */

/* A fix of a board, as tl_register_fixes writes it: one for each line of the full board. Where there is no chi-square its bytes are
 * zero: look at TL_SHOWN_MEASURED_AT before them. */
#define TL_SHOWN_NUMBER_AT 0                                          /* u8, of its transmission, from 1 */
#define TL_SHOWN_ROLE_AT (TL_SHOWN_NUMBER_AT + 1)                     /* u8, TL_RANKED, TL_DOMINATED or TL_REFUSED */
#define TL_SHOWN_PLACE_AT (TL_SHOWN_ROLE_AT + 1)                      /* u8, of the record that represents it, in the register, from 0 */
#define TL_SHOWN_AGAINST_AT (TL_SHOWN_PLACE_AT + 1)                   /* u8, the fix, by its index here, that it is refused against; else itself */
#define TL_SHOWN_SIGNERS_AT (TL_SHOWN_AGAINST_AT + 1)                 /* u32, bit n for engine n */
#define TL_SHOWN_IDENTITY_AT (TL_SHOWN_SIGNERS_AT + 4)
#define TL_SHOWN_MEASURED_AT (TL_SHOWN_IDENTITY_AT + TL_IDENTITY_SIZE) /* u8, 1 if it is refused with a chi-square, else 0 */
#define TL_SHOWN_CHI2_AT (TL_SHOWN_MEASURED_AT + 1)                   /* f64, between the two; zero where there is none */
#define TL_SHOWN_SIZE (TL_SHOWN_CHI2_AT + TL_F64_SIZE)                /* 49 */
#define TL_RANKED 0
#define TL_DOMINATED 1
#define TL_REFUSED 2

/* The size of the output of tl_register_fixes: a board has at most TL_MAX_RECORDS fixes. */
#define TL_FIXES_SIZE (TL_MAX_RECORDS * TL_SHOWN_SIZE)                /* 4,704 */

/* The size of the output of a board, and of a listing: every one fits. */
#define TL_BOARD_SIZE 16384
#define TL_MIN_LENGTH 112     /* the least length of a full board or a preview that is not empty */
#define TL_MIN_CREW_LENGTH 81 /* and of a crew's board */
#define TL_LISTING_SIZE TL_BOARD_SIZE

/* The size of the output of a map: every one fits. */
#define TL_MAP_SIZE 4096
#define TL_MIN_MAP_LENGTH 42   /* the least length of a map: of no points */
#define TL_MAX_MAP_LENGTH 1473 /* the greatest: of 8 points, with everything at its widest */

/* The sizes of the outputs of a session: of the answers, each of which is shorter than its operation, and of a reason. */
#define TL_SESSION_SIZE TL_MAX_SESSION
#define TL_ANSWER_LINE_SIZE 9 /* of the line of each answer, `answer=N` with N of one digit and a line feed */
#define TL_REASON_SIZE 512

/* ---- functions */

/* The BLAKE2s-256 hash (RFC 7693, no key) of any bytes. Returns TL_OK. */
uint32_t tl_blake2s256(const uint8_t *input, size_t input_len, uint8_t out[TL_HASH_SIZE]);

/* The square root, rounded to nearest as IEEE 754 has it. NaN for NaN and for a negative number. */
double tl_root(double x);

/* The horizontal deviation in metres of a covariance. */
double tl_horizontal_sigma(double xx, double xy, double xz, double yy, double yz, double zz);

/* Whether a larger fix lies within a smaller one's uncertainty. The first ten arguments are the smaller fix's position, height and
 * covariance, the next ten the larger one's; a height counts only where its flag is set. Returns TL_INSIDE and writes a *chi2 <=
 * *limit, or TL_OUTSIDE and writes a *chi2 > *limit: the chi-square that is written is never NaN and never infinite. Returns
 * TL_UNMEASURABLE, and leaves *chi2 and *limit as found, where the smaller fix's covariance has no Cholesky factor (one of zeros
 * has none), or the sum is not finite, be it infinite or NaN. This does not measure how far the two fixes lie from each other;
 * often it means that the smaller fix's covariance is of no use. */
uint32_t tl_agreement(int32_t lat, int32_t lon, bool has_height, int32_t height, double xx, double xy, double xz, double yy,
                      double yz, double zz, int32_t lat2, int32_t lon2, bool has_height2, int32_t height2, double xx2, double xy2,
                      double xz2, double yy2, double yz2, double zz2, double *chi2, double *limit);

/* Writes the record that says this: transmit time in nanoseconds, latitude and longitude in 1e-7 degree, the height in millimetres
 * where has_height is set, the message, the tags, the mask of used tags, the models that it cites, its spec, and its covariance xx,
 * xy, xz, yy, yz, zz in m^2, of which each number's bits are kept. Where has_height is not set, height is not looked at. Lengths of
 * tags are in tags and not in bytes; tags and covariance are aligned as their type is. Returns TL_OK, or TL_MALFORMED_RECORD where no record says
 * this: the message has neither TL_SHORT_MESSAGE nor TL_LONG_MESSAGE bytes, there is no tag or over TL_MAX_TAGS, tags do not ascend
 * strictly, a bit of used is set at or above their number, there are over TL_MAX_CITED models, or one is over TL_MAX_MODEL. */
uint32_t tl_record_write(uint64_t time, int32_t lat, int32_t lon, bool has_height, int32_t height, const uint8_t *message,
                         size_t message_len, const uint64_t *tags, size_t tags_len, uint32_t used, const uint8_t *models,
                         size_t models_len, uint16_t spec, const double covariance[6], uint8_t out[TL_RECORD_SIZE]);

/* What a record says, by name. What is not named is zero: so no height, and no models. */
typedef struct {
    uint64_t time;          /* nanoseconds */
    int32_t lat, lon;       /* 1e-7 degree */
    bool has_height;
    int32_t height;         /* millimetres */
    const uint8_t *message; /* TL_SHORT_MESSAGE or TL_LONG_MESSAGE bytes */
    size_t message_len;
    const uint64_t *tags;   /* strictly ascending */
    size_t tags_len;        /* 1 to TL_MAX_TAGS */
    uint32_t used;          /* bit i for the i-th tag */
    const uint8_t *models;  /* each at most TL_MAX_MODEL; may be null where there are none */
    size_t models_len;      /* 0 to TL_MAX_CITED */
    uint16_t spec;
    double covariance[6];   /* xx, xy, xz, yy, yz, zz, m^2 */
} tl_fields;

/* tl_record_write of fields that have names:
 *
 *     tl_fields fields = {.time = now, .lat = 481372700, .lon = 115820000, .message = message, .message_len = TL_SHORT_MESSAGE,
 *                         .tags = tags, .tags_len = 2, .used = 3, .covariance = {100, 0, 0, 100, 0, 100}};
 *     if (tl_record_of(&fields, record) != TL_OK) return 1; */
static inline uint32_t tl_record_of(const tl_fields *fields, uint8_t record[TL_RECORD_SIZE]) {
    static const uint8_t no_models[1] = {0};
    return tl_record_write(fields->time, fields->lat, fields->lon, fields->has_height, fields->height, fields->message,
                           fields->message_len, fields->tags, fields->tags_len, fields->used,
                           fields->models_len == 0 ? no_models : fields->models, fields->models_len, fields->spec,
                           fields->covariance, record);
}

/* Why bytes are no record: returns TL_FAULT_NONE where they are one, or the number of the first check that they fail. */
uint32_t tl_record_fault(const uint8_t *record, size_t record_len);

/* Writes the identity of a record that has these model inputs, as a decision wants it of an item and a fix is known by it. Returns
 * TL_OK or TL_MALFORMED_RECORD. */
uint32_t tl_record_identity(const uint8_t *record, size_t record_len, const uint8_t inputs[TL_INPUTS_SIZE],
                            uint8_t out[TL_IDENTITY_SIZE]);

/* Writes the model inputs that a record has by a register's summaries; the record need not be held there. Returns TL_OK, or the first
 * that holds of TL_MALFORMED_REGISTER, TL_MALFORMED_RECORD, TL_WAITING (a model that it cites has no summary), TL_MODEL_DISPUTED (one
 * is disputed, or of another spec than the record's). A record that a register holds counts on its board exactly where this is
 * TL_OK; else it is withheld, and this says why. */
uint32_t tl_register_inputs(const uint8_t *memory, size_t memory_len, const uint8_t *record, size_t record_len,
                            uint8_t out[TL_INPUTS_SIZE]);

/* Which of one transmission's fixes stand, in rank, which are dominated and which are refused. The items follow each other without
 * a gap. Returns TL_OK and fills the answer, or TL_BAD_ITEMS and leaves it. */
uint32_t tl_decide(const uint8_t *items, size_t items_len, uint8_t answer[TL_ANSWER_SIZE]);

/* The same decision, for a caller whose items have no fixed order: the dominated and the refusals are in ascending identity (bytes
 * compared from the first on), where tl_decide has them by ascending index. The indices are those of the items as they are passed.
 * So the same items in any two orders have one answer, by the items that its indices stand for. */
uint32_t tl_decide_any(const uint8_t *items, size_t items_len, uint8_t answer[TL_ANSWER_SIZE]);

/* Reports a record for an engine: it is put in with its signer, or gains the signer where it is held already. A record that cites
 * a model without an agreed summary is held and TL_OK is returned too; it is on no board until the model is agreed. Returns TL_OK,
 * or the first that holds of TL_MALFORMED_REGISTER, TL_ENGINE_OVER_31, TL_MALFORMED_RECORD, TL_ENGINE_CONVICTED, TL_FULL. */
uint32_t tl_register_report(uint8_t *memory, size_t memory_len, uint32_t engine, const uint8_t *record, size_t record_len);

/* Puts in what an engine says of a model: its spec and the hash of its inputs. Returns TL_OK, or the first that holds of
 * TL_MALFORMED_REGISTER, TL_ENGINE_OVER_31, TL_BAD_SUMMARY, TL_ENGINE_CONVICTED, TL_FULL. */
uint32_t tl_register_summary(uint8_t *memory, size_t memory_len, uint32_t engine, uint32_t model, uint16_t spec,
                             const uint8_t *inputs, size_t inputs_len);

/* Convicts an engine: its summaries are removed, its signature is removed from every record, and so is a record that has no signer
 * left. A manager alone may. Returns TL_OK, also for an engine that is convicted already, or the first that holds of TL_UNKNOWN_DESK,
 * TL_NO_RIGHT, TL_MALFORMED_REGISTER, TL_ENGINE_OVER_31. */
uint32_t tl_register_conviction(uint32_t desk, uint8_t *memory, size_t memory_len, uint32_t engine);

/* Joins what another register holds to a register of the same aircraft and window: the convicted engines of both, and of both the
 * summaries and the records, each record with the signers that it has in either, without what convicted engines said and signed.
 * Returns TL_OK, or the first that holds of TL_MALFORMED_REGISTER (either of the two), TL_FULL: together, without what either convicts,
 * they hold more than TL_MAX_RECORDS records or TL_MAX_SUMMARIES summaries. It makes no difference which of the two is joined to
 * which, nor, as long as no join is refused, in which order several are joined, nor how often. A refused join keeps the other's
 * convictions back, which count for boards and make room for reports, summaries and joins of other registers: a register of the
 * other's first 4 bytes and zeros has these alone, and joining that is never refused as full. The same join is refused again until
 * another engine is convicted. The two do not overlap. */
uint32_t tl_register_join(uint8_t *memory, size_t memory_len, const uint8_t *other, size_t other_len);

/* Writes what another register holds and this one does not to the first TL_REGISTER_SIZE bytes of out. That is a register too: all
 * zeros exactly where joining the other is answered TL_OK and changes nothing; and joining it to this one, also later, is joining the
 * other as it was. Returns TL_OK, or the first that holds of TL_MALFORMED_REGISTER (either of the two), TL_OUTPUT_TOO_SMALL (under
 * TL_REGISTER_SIZE bytes). Bytes past it, and all bytes of a refused call, stay as found. Both registers are only read, and may be
 * one memory. */
uint32_t tl_register_lacks(const uint8_t *memory, size_t memory_len, const uint8_t *other, size_t other_len, uint8_t *out,
                           size_t out_len);

/* Computes the board of a register in the form of a desk, writes it to the start of out, and returns the length: 0 for an empty board,
 * else greater than every refusal's number; or the first that holds of TL_UNKNOWN_DESK, TL_MALFORMED_REGISTER, TL_OUTPUT_TOO_SMALL. An
 * analyst and a manager get the full board, a crew its ranked lines alone, under headers `transmission=N`. The text has no zero byte at
 * its end. Bytes past the length, and all bytes of a refused call, stay as found. Every board fits TL_BOARD_SIZE bytes. Registers that
 * hold the same records, signers and summaries have the same board, and registers whose full boards have the same ranked lines under
 * the same numbers give a crew the same bytes. */
uint32_t tl_board(uint32_t desk, const uint8_t *memory, size_t memory_len, uint8_t *out, size_t out_len);

/* Computes the board of a register as it would be if an engine were convicted, and only reads the register: it writes what
 * tl_board writes to a manager after a manager's tl_register_conviction on a copy. An analyst and a manager may. Returns the length, as
 * tl_board does; or the first that holds of TL_UNKNOWN_DESK, TL_NO_RIGHT, TL_MALFORMED_REGISTER, TL_ENGINE_OVER_31,
 * TL_OUTPUT_TOO_SMALL. The preview of an engine that is convicted already is the present board. If the engine is convicted next,
 * tl_board writes what was previewed. Bytes past the length, and all bytes of a refused call, stay as found. */
uint32_t tl_register_preview(uint32_t desk, const uint8_t *memory, size_t memory_len, uint32_t engine, uint8_t *out,
                             size_t out_len);

/* Writes the map of a register to the start of out, and returns its length, which is greater than every refusal's number; or the
 * first that holds of TL_MALFORMED_REGISTER, TL_MAP_TOO_SMALL. A map is a FeatureCollection of GeoJSON (RFC 7946) in one line of
 * ASCII, with no line feed and no zero byte at its end: a Point for the first ranked fix of each transmission that the board
 * shows, the oldest first, at longitude, latitude and, where the fix has one, height. Degrees have seven decimals and metres
 * three, so that no digit of the record is lost. A fix beyond 180 degrees of longitude or 90 of latitude has no point, and no other
 * fix of its transmission takes its place; where none is left, there are no features. Bytes past the length, and all bytes of a
 * refused call, stay as found. Every map fits TL_MAP_SIZE bytes. The register is only read. Registers that hold the same records,
 * signers and summaries have the same map. */
uint32_t tl_register_map(const uint8_t *memory, size_t memory_len, uint8_t *out, size_t out_len);

/* Writes the fixes of a register's board, TL_SHOWN_SIZE bytes for each line of the full board and in the order of the lines. Returns how
 * many bytes were written, TL_SHOWN_SIZE for each fix: 0 where nothing is shown, else greater than every refusal's number; or the first
 * that holds of TL_MALFORMED_REGISTER, TL_OUTPUT_TOO_SMALL (under TL_FIXES_SIZE bytes). Bytes past those, and in a refused call all,
 * stay as found. The register is only read. */
uint32_t tl_register_fixes(const uint8_t *memory, size_t memory_len, uint8_t *out, size_t out_len);

/* Performs the operations of a session, a text of lines (docs/REFERENCE.md, 'Session'), on a register, as a manager does: the same
 * calls as tl_register_report, tl_register_summary and tl_register_conviction, from the first to the last. Writes a line `answer=N`
 * with a line feed for each operation to the start of out, and returns the length of these: TL_ANSWER_LINE_SIZE for each. An
 * operation that the register refuses has its answer there, and the next ones are performed all the same. Or returns the first that
 * holds of TL_MALFORMED_REGISTER, TL_SESSION_TOO_LONG, TL_BAD_LINE, TL_OUTPUT_TOO_SMALL (under TL_SESSION_SIZE bytes): then no
 * operation is performed. No length is one of these numbers. Bytes past the length, and all bytes of a refused call, stay as found. On a
 * register of zeros, these lines and then the board at TL_MANAGER, or `transmissions=0` and a line feed where it is empty, are what
 * the program session prints. */
uint32_t tl_register_session(uint8_t *memory, size_t memory_len, const uint8_t *input, size_t input_len, uint8_t *out, size_t out_len);

/* Writes why a session is refused to the start of out, a sentence that ends with a line feed, and returns its length. It reads no
 * register: 0 where the session itself is not refused, also where tl_register_session returned another refusal. It says of the first
 * bad line its number, what is due there and what was found. Bytes past it stay as found. */
uint32_t tl_session_reason(const uint8_t *input, size_t input_len, uint8_t out[TL_REASON_SIZE]);

/* Writes the bytes of a register, or any other TL_REGISTER_SIZE bytes, so that like bytes of its places are together, for an archive
 * that packs them: after the first TL_REGISTER_RECORDS_AT bytes, which are copied, comes the first byte of each of the 96 places (a
 * record and its signers, 292 bytes, in use or not), then the second byte of each, and so on. So byte j of place i is at
 * TL_REGISTER_RECORDS_AT + 96 j + i. Nothing is asked of what the bytes mean. Returns TL_OK, or TL_BAD_LENGTH and leaves out. */
uint32_t tl_register_columns(const uint8_t *in, size_t in_len, uint8_t *out, size_t out_len);

/* Undoes tl_register_columns, and is undone by it: on any bytes of that length. Returns as it does. */
uint32_t tl_register_uncolumns(const uint8_t *in, size_t in_len, uint8_t *out, size_t out_len);

/* A track is what the merge of sky-commons/tally holds of one aircraft, decided report by report: it depends on the order of the
 * calls, as a register does not. Beside it lies its shelf: the fixes that came before a summary of each model that they cite. A shelf
 * is one of a track: where an engine that reported a fix on it is convicted there, or the model that a fix waits for has a summary
 * there, both are refused as TL_MALFORMED_TRACK. */

/* Reports a record for an engine into a track. Where a model that it cites has no summary, the fix goes to the end of the shelf and
 * waits for the first such model, in its order. Returns TL_CHANGED, TL_CONTESTED, TL_DUPLICATE, TL_DROPPED or TL_WAITING, or the
 * first that holds of TL_MALFORMED_TRACK, TL_ENGINE_OVER_31, TL_MALFORMED_RECORD, TL_ENGINE_CONVICTED, TL_SHELF_FULL,
 * TL_MODEL_DISPUTED. */
uint32_t tl_track_report(uint8_t *memory, size_t memory_len, uint8_t *shelf, size_t shelf_len, uint32_t engine, const uint8_t *record,
                         size_t record_len);

/* Puts in what an engine says of a model, in the place of what it said before. Where the model is disputed now and was not, the
 * fixes whose models no longer say what they were checked under are removed; if any is, every transmission is decided again.
 * Then the fixes that waited for the model leave the shelf and are tried, in its order, as if they were reported now: each is merged,
 * or waits at the shelf's end for the next model that is missing, or is gone where TL_MODEL_DISPUTED would be returned.
 * Returns TL_OK, or the first that holds of TL_MALFORMED_TRACK, TL_ENGINE_OVER_31, TL_BAD_SUMMARY, TL_ENGINE_CONVICTED, TL_FULL. */
uint32_t tl_track_summary(uint8_t *memory, size_t memory_len, uint8_t *shelf, size_t shelf_len, uint32_t engine, uint32_t model,
                          uint16_t spec, const uint8_t *inputs, size_t inputs_len);

/* Convicts an engine: its summaries and signatures are removed, so are the fixes whose models no longer say what they were checked
 * under, every transmission is decided again, and its fixes that wait are thrown out. Returns TL_OK, also for an engine that is
 * convicted already, or the first that holds of TL_MALFORMED_TRACK, TL_ENGINE_OVER_31. */
uint32_t tl_track_conviction(uint8_t *memory, size_t memory_len, uint8_t *shelf, size_t shelf_len, uint32_t engine);

/* Writes the listing of a track to the start of out and returns the length, which is greater than both numbers below; or the
 * first that holds of TL_MALFORMED_TRACK, TL_OUTPUT_TOO_SMALL. The text has no zero byte at its end. Bytes past the length, and
 * all bytes of a refused call, stay as found. */
uint32_t tl_track_listing(const uint8_t *memory, size_t memory_len, uint8_t *out, size_t out_len);

#ifdef __cplusplus
}
#endif

#endif
