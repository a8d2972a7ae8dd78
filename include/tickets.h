/* The ticket service's C interface. C11; link with libtickets (x86-64 Linux; `pkg-config --cflags --libs tickets`).
 *
 * A service is made with tickets_fresh, gets its accounts by tickets_edit, and answers requests by tickets_request; tickets_write_request writes
 * a request's bytes. What the service holds is read with tickets_account, tickets_held, tickets_record_at and tickets_ticket_at, and tickets_save and
 * tickets_load take it through a restart.
 *
 * Memory. Every function takes any bytes and any words: it never reads or writes outside what it is given, and it always ends. A pointer must
 * be valid for its whole length and must not be NULL, not even where the length is 0. What a call writes must not overlap what it reads, nor
 * what else it writes. No function allocates, and none keeps a pointer.
 *
 * Threads. The functions keep no state of their own and use no locks, so calls on separate memory may run at the same time. Two calls on the same
 * service may run at the same time only where both take its words as `const`; in every other case the caller lets one end before the next
 * begins.
 *
 * Stack. A call takes some 1 KB at most, but for tickets_descent, which takes some 30 bytes more for each step: at most nine steps in a
 * service that only these functions wrote, and at most 511, some 16 KB, in words that no calls make.
 *
 * Byte order. Records, requests and saved services are bytes, the same on every machine: their numbers are big-endian. The words of a service are
 * numbers of the machine that holds them. To keep a service, or to take it to another machine, save it; do not write its words out.
 *
 * Numbers such as R6.2 are those of the rules in docs/RULES.md. */
#ifndef TICKETS_H
#define TICKETS_H

#include <stddef.h>
#include <stdint.h>

#ifdef __cplusplus
extern "C" {
#endif

/* The version of this header and of its library: 10000 for the major, 100 for the minor number. The major number is that of the shared library's
 * name, libtickets.so.1, and rises where a call, a record, a request or a saved service changes; with the minor number something is added. */
#define TICKETS_VERSION 10000
#define TICKETS_VERSION_TEXT "1.0.0"

/* The version of the library that the program runs with; it should have the major number of TICKETS_VERSION. */
uint32_t tickets_version(void);

/* The error numbers (R6.8), under their names in RFC 4120, section 7.5.9. 0 is no error. */
enum {
    TICKETS_KDC_ERR_C_PRINCIPAL_UNKNOWN = 6,
    TICKETS_KDC_ERR_S_PRINCIPAL_UNKNOWN = 7,
    TICKETS_KDC_ERR_PRINCIPAL_NOT_UNIQUE = 8,
    TICKETS_KDC_ERR_NEVER_VALID = 11,
    TICKETS_KDC_ERR_POLICY = 12,
    TICKETS_KDC_ERR_BADOPTION = 13,
    TICKETS_KDC_ERR_CLIENT_REVOKED = 18,
    TICKETS_KDC_ERR_SERVER_NOMATCH = 26,
    TICKETS_KDC_ERR_SVC_UNAVAILABLE = 29,
    TICKETS_KRB_AP_ERR_TKT_EXPIRED = 32,
    TICKETS_KRB_AP_ERR_TKT_NYV = 33,
    TICKETS_KRB_AP_ERR_NOT_US = 35,
    TICKETS_KRB_AP_ERR_MODIFIED = 41,
    TICKETS_KRB_ERR_RESPONSE_TOO_BIG = 52,
    TICKETS_KRB_ERR_GENERIC = 60,
    TICKETS_KRB_ERR_FIELD_TOOLONG = 61
};

/* The name of an error number in RFC 4120, as "KDC_ERR_BADOPTION" for 13; "KDC_ERR_NONE" for 0, and NULL for a number that no call answers. */
static inline const char *tickets_error_name(uint32_t error)
{
    switch (error) {
    case 0: return "KDC_ERR_NONE";
    case TICKETS_KDC_ERR_C_PRINCIPAL_UNKNOWN: return "KDC_ERR_C_PRINCIPAL_UNKNOWN";
    case TICKETS_KDC_ERR_S_PRINCIPAL_UNKNOWN: return "KDC_ERR_S_PRINCIPAL_UNKNOWN";
    case TICKETS_KDC_ERR_PRINCIPAL_NOT_UNIQUE: return "KDC_ERR_PRINCIPAL_NOT_UNIQUE";
    case TICKETS_KDC_ERR_NEVER_VALID: return "KDC_ERR_NEVER_VALID";
    case TICKETS_KDC_ERR_POLICY: return "KDC_ERR_POLICY";
    case TICKETS_KDC_ERR_BADOPTION: return "KDC_ERR_BADOPTION";
    case TICKETS_KDC_ERR_CLIENT_REVOKED: return "KDC_ERR_CLIENT_REVOKED";
    case TICKETS_KDC_ERR_SERVER_NOMATCH: return "KDC_ERR_SERVER_NOMATCH";
    case TICKETS_KDC_ERR_SVC_UNAVAILABLE: return "KDC_ERR_SVC_UNAVAILABLE";
    case TICKETS_KRB_AP_ERR_TKT_EXPIRED: return "KRB_AP_ERR_TKT_EXPIRED";
    case TICKETS_KRB_AP_ERR_TKT_NYV: return "KRB_AP_ERR_TKT_NYV";
    case TICKETS_KRB_AP_ERR_NOT_US: return "KRB_AP_ERR_NOT_US";
    case TICKETS_KRB_AP_ERR_MODIFIED: return "KRB_AP_ERR_MODIFIED";
    case TICKETS_KRB_ERR_RESPONSE_TOO_BIG: return "KRB_ERR_RESPONSE_TOO_BIG";
    case TICKETS_KRB_ERR_GENERIC: return "KRB_ERR_GENERIC";
    case TICKETS_KRB_ERR_FIELD_TOOLONG: return "KRB_ERR_FIELD_TOOLONG";
    default: return NULL;
    }
}

/* The fewest bytes that the output of a request has to have: those of the longest ticket record (R3.3). */
enum { TICKETS_LONGEST_RECORD = 31 };

/* The bytes of the longest name of an account (R2.5), and how many accounts there are, numbered from 0 on (R2.1). */
enum { TICKETS_LONGEST_NAME = 24, TICKETS_ACCOUNT_LIMIT = 64 };

/* How many tickets a ledger has places for, and how many accounts the longest trail has (R7.1, R3.2). */
enum { TICKETS_TICKET_LIMIT = 512, TICKETS_TRAIL_LIMIT = 8 };

/* What a call answers. Where `error` is 0 the call was granted and `value` is its result. Beside an error nothing was granted, and `value` is
 * 0 and stands for nothing: it is not ticket 0, not a length, and not a count. So look at `error` first. */
typedef struct {
    uint32_t error;
    uint32_t value;
} tickets_answer;

/* ---- The service (R2, R4 to R7).
 *
 * The caller lends the service's memory, two arrays of words, to each call. A service begins with tickets_fresh or tickets_load; after that only the
 * functions below write to it, one at a time. Its words may be copied in memory as they are; they have no pointers. Any
 * other words are safe too: they stand for some accounts and some tickets (R1.3, foreign state). */

/* The number of the words' layout. tickets_save writes it, and tickets_load refuses any other. Words that were copied out under another number are
 * not to be read by these functions: they would be taken for other accounts and other tickets. */
#define TICKETS_LAYOUT 3

/* The layout's number of the library that the program runs with. */
uint32_t tickets_layout(void);

/* How many words the accounts have: a header of 8, which are free, and 8 for each of 64 accounts, of which the last two are free. */
#define TICKETS_ACCOUNTS 520

/* How many words the ledger has: a header of 8, of which the first is the count of tickets, the second the next number (R5.10) and the others
 * are free; 128 with the tickets' numbers, four in a word; and 4 for each of 512 places. */
#define TICKETS_LEDGER 2184

/* The memory of one service, 21632 bytes. Free words are 0 in a fresh service, and no call reads or writes them otherwise. */
typedef struct {
    uint64_t accounts[TICKETS_ACCOUNTS];
    uint64_t ledger[TICKETS_LEDGER];
} tickets_service;

/* How many bytes a saved service has (R7.8). */
#define TICKETS_SAVED 21664

/* The flags of an account (R2.2). */
enum {
    TICKETS_FLAG_DISABLED = 1,
    TICKETS_FLAG_BARRED = 2,   /* DelegationNotAllowed: while it stands nobody hops in this account's name (R5.7) */
    TICKETS_FLAG_TRUSTED = 4,  /* TrustedToAuthenticationForDelegation */
    TICKETS_FLAG_SERVICE = 8
};

/* Makes a fresh service: no account is set, no ticket is held, and the next number is 0 (R7.2). All words are written, whatever they held. */
void tickets_fresh(uint64_t *accounts, uint64_t *ledger);

/* Sets account `number`, 0 to 63, whole (R2.8). The name is the `name_len` bytes at `name`, with no zero byte at its end: 1 to 24 bytes, each
 * 0x21 to 0x7E without 0x40 (R2.5). `flags` are those above, together. `send` and `receive` are sets of accounts, bit n for account n: where
 * the account may hop to, and from whom it takes hops (R2.3); bits of accounts that are not set are good too. `lifetime` is in seconds. The
 * ledger is not touched.
 *
 *   0    the account is set. The first edit of a number fixes its name.
 *   60   (TICKETS_KRB_ERR_GENERIC) the number is above 63, the name is not such a name, or the flags are above 15.
 *   12   (TICKETS_KDC_ERR_POLICY) the account is set and has another name, if only in the case of a letter.
 *   8    (TICKETS_KDC_ERR_PRINCIPAL_NOT_UNIQUE) another account's name matches, with ASCII letter case ignored.
 *
 * The first of these checks that fails answers, and the accounts are then as before (R2.9). */
uint32_t tickets_edit(uint64_t *accounts, uint32_t number, const uint8_t *name, size_t name_len, uint32_t flags, uint64_t send,
                      uint64_t receive, uint32_t lifetime);

/* What tickets_find_name answers where no account's name matches: no account has this number. */
enum { TICKETS_NO_ACCOUNT = 64 };

/* The number, 0 to 63, of the account that the `name_len` bytes at `name` stand for, or TICKETS_NO_ACCOUNT (R2.11). A name matches an account's
 * where its length is the same and each byte is, with ASCII letter case ignored (R2.6). Any bytes may be asked for: no account has a name of 0
 * bytes or of more than 24, and a zero byte is a byte of the name. If several accounts match, which no calls bring about, it is the lowest. A
 * disabled account is found too. The accounts are only read. */
uint32_t tickets_find_name(const uint64_t *accounts, const uint8_t *name, size_t name_len);

/* Answers the request of `request_len` bytes at `request` (R4), at the clock reading `clock`, in seconds. For an initial
 * ticket (kind 1) the caller has checked the user's password before (R1.1). Whatever it answers, a request leaves the accounts' words as they
 * are; they are lent to be written all the same, as those of the ledger are.
 *
 * error 0: granted (R7.3). `value` is the length of the new ticket's record, 17 to 31; the record stands at the start of `output`, the
 * output's further bytes are as before, the ticket is the ledger's last, and its number is one more than that of the grant before (R5.10).
 * `output_len` has to be TICKETS_LONGEST_RECORD at least, whatever the ticket.
 *
 * Any other error: nothing was granted. The ledger and the output are as before, and the `value` 0 is not a length and not ticket 0. The
 * first check that fails answers, in this order (R6.2):
 *
 *   60                  the request is unreadable (see tickets_read_request)
 *   52                  `output_len` is under TICKETS_LONGEST_RECORD
 *   41, 35, 33, 32, 18  the TGT: not held, or not as it is held; not an initial ticket; its start is more than 300 seconds after `clock`; its
 *                       end is `clock` or earlier; its client is disabled
 *   41, 33, 32, 26, 18  the evidence: not held, or not as it is held; its start is more than 300 seconds after `clock`; its end is `clock` or
 *                       earlier; its service is not the TGT's client, or it has none; its client is disabled
 *   7                   the service that is named is unknown, disabled or without TICKETS_FLAG_SERVICE; for kind 3, which names none, the
 *                       TGT's client is without that flag
 *   6, 18               the user that is named is unknown; the user is disabled
 *   13                  kind 4: the evidence's client has TICKETS_FLAG_BARRED, whatever it had when the evidence was granted; the option
 *                       CNAME-IN-ADDL-TKT is missing; or neither route is open
 *   61                  kind 4: the evidence's trail has eight accounts already
 *   11                  the ticket would end no later than `clock`
 *   29                  the ledger holds 512 tickets, which tickets_clear can help; or ticket 65535 was given, and no number is left */
tickets_answer tickets_request(uint64_t *accounts, uint64_t *ledger, const uint8_t *request, size_t request_len, uint32_t clock,
                               uint8_t *output, size_t output_len);

/* Takes every ticket whose end is `clock` or earlier out of the ledger, and answers how many those were, 0 to 512 (R7.6). It is never refused.
 * The tickets that stay close up in their order, and the places behind them serve later grants. What went is not held any more: a request
 * that presents it is answered 41, and so is its descent. Whatever a ticket that stays rests on stays too, since it ends no earlier. Numbers
 * go on rising: none is given twice. The accounts' words are as before; they are lent to be written all the same.
 *
 * Of the ledger's words it changes the count, the places from the first that goes on up to the last one held, and the numbers of these;
 * places set free have 0 in all their words. */
uint32_t tickets_clear(uint64_t *accounts, uint64_t *ledger, uint32_t clock);

/* The descent of ticket `number`: how many steps back it is to its initial ticket, from a delegated ticket to its evidence, from a direct
 * or self-issued one to its TGT (R7.4).
 *
 *   error 0: `value` is the steps, 0 for an initial ticket.
 *   41 (TICKETS_KRB_AP_ERR_MODIFIED): the ledger has no ticket of that number, or has it no longer; or a back number on the way is not held or
 *   does not fall, which does not happen for a ticket that tickets_request granted.
 *
 * It recurses at most once for each step. A ticket that calls made has at most nine steps (R9.2). Words that no calls make have at most 511,
 * which take some 16 KB of stack. */
tickets_answer tickets_descent(const uint64_t *ledger, uint32_t number);

/* The day total: the seconds from start to end of each ticket in the ledger, added up. A ticket whose end is not later than its start
 * counts 0 (R7.5). */
uint64_t tickets_day_total(const uint64_t *ledger);

/* ---- Reading a service. These calls write nothing to it. */

/* The places of `fields` that tickets_account fills. */
enum {
    TICKETS_ACCOUNT_SET,          /* 1 where the account is set, 0 where it never was */
    TICKETS_ACCOUNT_FLAGS,        /* the flags above that stand; TICKETS_FLAG_DISABLED alone where the account is not set */
    TICKETS_ACCOUNT_SEND,         /* the send set, bit n for account n */
    TICKETS_ACCOUNT_RECEIVE,      /* the receive set, bit n for account n */
    TICKETS_ACCOUNT_LIFETIME,     /* in seconds */
    TICKETS_ACCOUNT_NAME_LENGTH,  /* the bytes of the name, 1 to 24; 0 where the account is not set */
    TICKETS_ACCOUNT_FIELDS        /* how many places there are: 6 */
};

/* Account `number` (R2.13): its numbers to `fields`, which has TICKETS_ACCOUNT_FIELDS places, and its name to `name`, which has
 * TICKETS_LONGEST_NAME bytes. The bytes behind the name are 0; a name of 24 bytes has none behind it, so go by the length.
 *
 *   0    all of `fields` and `name` is set, for an account that was never set too.
 *   60   (TICKETS_KRB_ERR_GENERIC) the number is above 63. `fields` and `name` are as before. */
uint32_t tickets_account(const uint64_t *accounts, uint32_t number, uint64_t *fields, uint8_t *name);

/* How many tickets the ledger holds, 0 to TICKETS_TICKET_LIMIT (R7.7). They stand at the places from 0 on, in the order of their grants. A place is
 * not a number: a ticket keeps its number, and moves to a lower place where a clearing takes out others before it. */
uint32_t tickets_held(const uint64_t *ledger);

/* The record of the ticket at `place`, to the start of `output` (R7.7); it is what tickets_request put out at its grant.
 *
 *   error 0    `value` is the record's length, 17 to 31. The output's further bytes are as before.
 *   error 41   (TICKETS_KRB_AP_ERR_MODIFIED) `place` is not below tickets_held.
 *   error 60   (TICKETS_KRB_ERR_GENERIC) the ticket has no record, which happens only in words that no calls make.
 *   error 52   (TICKETS_KRB_ERR_RESPONSE_TOO_BIG) `output_len` is under TICKETS_LONGEST_RECORD.
 *
 * The first of these that holds answers, and the output is then as before. */
tickets_answer tickets_record_at(const uint64_t *ledger, uint32_t place, uint8_t *output, size_t output_len);

/* The places of `fields` that tickets_ticket_at fills; the first ten have the bits of a record's map as their numbers (R3.2). */
enum {
    TICKETS_TICKET_NUMBER,
    TICKETS_TICKET_FLAGS,         /* TICKETS_TKT_FLG_FORWARDABLE, TICKETS_TKT_FLG_INITIAL */
    TICKETS_TICKET_CLIENT,        /* the account that the ticket speaks for */
    TICKETS_TICKET_SERVICE,       /* the account that the ticket is for; 0 and no account for an initial ticket, so look at the origin first */
    TICKETS_TICKET_START,         /* in seconds */
    TICKETS_TICKET_END,           /* in seconds */
    TICKETS_TICKET_TGT,           /* the number of the TGT that it was granted on, 0 for an initial ticket */
    TICKETS_TICKET_EVIDENCE,      /* the number of its evidence, 0 for any but a delegated ticket */
    TICKETS_TICKET_TRAIL_LENGTH,  /* how many accounts the trail has, 1 to 8; 0 for any but a delegated ticket */
    TICKETS_TICKET_BARRED,        /* 1 where it has the barred mark, else 0 */
    TICKETS_TICKET_ORIGIN,        /* the kind of request that made it: TICKETS_KIND_INITIAL to TICKETS_KIND_S4U2PROXY, for a delegated ticket */
    TICKETS_TICKET_TRAIL,         /* the first of eight places: the accounts of the trail, the earliest first; what calls store has 0 behind them */
    TICKETS_TICKET_FIELDS = TICKETS_TICKET_TRAIL + TICKETS_TRAIL_LIMIT  /* how many places there are: 19 */
};

/* The ticket at `place` in numbers, to `fields`, which has TICKETS_TICKET_FIELDS places (R7.7).
 *
 *   0    all of `fields` is set.
 *   41   (TICKETS_KRB_AP_ERR_MODIFIED) `place` is not below tickets_held. `fields` is as before. */
uint32_t tickets_ticket_at(const uint64_t *ledger, uint32_t place, uint64_t *fields);

/* ---- Saving and loading a service.
 *
 * A saved service is a magic, the layout's number, all words, and a check sum, big-endian (R7.8). It is no secret and not signed: who can write
 * the bytes can make any service of them. The check sum is there for accidents: where one or two bytes of a saved service are altered,
 * wherever they stand, tickets_load answers 60 (R7.10). */

/* Saves the service to the start of `output`. Any words can be saved.
 *
 *   error 0    `value` is TICKETS_SAVED. The output's further bytes are as before.
 *   error 52   (TICKETS_KRB_ERR_RESPONSE_TOO_BIG) `output_len` is under TICKETS_SAVED. The output is as before. */
tickets_answer tickets_save(const uint64_t *accounts, const uint64_t *ledger, uint8_t *output, size_t output_len);

/* Makes the service the one that was saved as the `saved_len` bytes at `saved`, word for word (R7.9). All words are written, whatever they held.
 *
 *   0    loaded.
 *   60   (TICKETS_KRB_ERR_GENERIC) these are not the bytes of a saved service: a byte is missing, left over or altered, or the layout is
 *        another. All words are as before. */
uint32_t tickets_load(uint64_t *accounts, uint64_t *ledger, const uint8_t *saved, size_t saved_len);

/* ---- The same over a tickets_service. */

static inline void tickets_service_fresh(tickets_service *service)
{
    tickets_fresh(service->accounts, service->ledger);
}

static inline uint32_t tickets_service_edit(tickets_service *service, uint32_t number, const uint8_t *name, size_t name_len, uint32_t flags,
                                            uint64_t send, uint64_t receive, uint32_t lifetime)
{
    return tickets_edit(service->accounts, number, name, name_len, flags, send, receive, lifetime);
}

static inline uint32_t tickets_service_find_name(const tickets_service *service, const uint8_t *name, size_t name_len)
{
    return tickets_find_name(service->accounts, name, name_len);
}

static inline tickets_answer tickets_service_request(tickets_service *service, const uint8_t *request, size_t request_len, uint32_t clock,
                                                     uint8_t *output, size_t output_len)
{
    return tickets_request(service->accounts, service->ledger, request, request_len, clock, output, output_len);
}

static inline uint32_t tickets_service_clear(tickets_service *service, uint32_t clock)
{
    return tickets_clear(service->accounts, service->ledger, clock);
}

static inline tickets_answer tickets_service_descent(const tickets_service *service, uint32_t number)
{
    return tickets_descent(service->ledger, number);
}

static inline uint64_t tickets_service_day_total(const tickets_service *service)
{
    return tickets_day_total(service->ledger);
}

static inline uint32_t tickets_service_account(const tickets_service *service, uint32_t number, uint64_t *fields, uint8_t *name)
{
    return tickets_account(service->accounts, number, fields, name);
}

static inline uint32_t tickets_service_held(const tickets_service *service)
{
    return tickets_held(service->ledger);
}

static inline tickets_answer tickets_service_record_at(const tickets_service *service, uint32_t place, uint8_t *output, size_t output_len)
{
    return tickets_record_at(service->ledger, place, output, output_len);
}

static inline uint32_t tickets_service_ticket_at(const tickets_service *service, uint32_t place, uint64_t *fields)
{
    return tickets_ticket_at(service->ledger, place, fields);
}

static inline tickets_answer tickets_service_save(const tickets_service *service, uint8_t *output, size_t output_len)
{
    return tickets_save(service->accounts, service->ledger, output, output_len);
}

static inline uint32_t tickets_service_load(tickets_service *service, const uint8_t *saved, size_t saved_len)
{
    return tickets_load(service->accounts, service->ledger, saved, saved_len);
}

/* ---- Names, eight bytes at a time (R2.12). */

/* 1 where all eight pairs of bytes of two words match, else 0. Two bytes match where they are equal, or where they are ASCII letters that
 * differ in 0x20 alone: `A` and `a` do, 0x40 and 0x60 do not. Byte i of a word is the one at the bits 8i to 8i + 7. */
uint32_t tickets_words_match(uint64_t a, uint64_t b);

/* ---- Requests (R4). */

/* The kinds of request (R4.2). */
enum {
    TICKETS_KIND_INITIAL = 1,
    TICKETS_KIND_DIRECT = 2,
    TICKETS_KIND_S4U2SELF = 3,
    TICKETS_KIND_S4U2PROXY = 4
};

/* The options of a request (R4.4), under their names in RFC 4120, section 5.4.1, and MS-SFU 2.2.3. All other bits are ignored. */
enum {
    TICKETS_KDC_OPT_FORWARDABLE = 0x40000000,       /* kinds 1 to 3: the ticket is asked to be forwardable */
    TICKETS_KDC_OPT_CNAME_IN_ADDL_TKT = 0x00020000  /* kind 4, where it must be set */
};

/* The PAC option of a request (R4.4), under its name in MS-SFU 2.2.5. */
enum { TICKETS_PAC_OPT_RESOURCE_BASED_CONSTRAINED_DELEGATION = 0x10000000 };

/* The flags of a ticket (R3.4), under their names in RFC 4120, section 2. */
enum {
    TICKETS_TKT_FLG_FORWARDABLE = 0x40000000,
    TICKETS_TKT_FLG_INITIAL = 0x00400000
};

/* The optional fields of a request, by their bits in its map (R4.1). */
enum {
    TICKETS_FIELD_OPTIONS = 0x02,      /* kinds 1 to 3; kind 4 always has it */
    TICKETS_FIELD_PAC_OPTIONS = 0x04,  /* kind 4 */
    TICKETS_FIELD_TILL = 0x08          /* all kinds */
};

/* The bytes of the longest request: kind 4 with all its fields, two records of 31 bytes and a name of 255. */
enum { TICKETS_LONGEST_REQUEST = 335 };

/* Writes the request that has these parts to the start of `output` (R4.8). `fields` says which optional fields stand, of those above together;
 * what the kind needs stands in any case. A part whose field does not stand has to be empty: a number 0, a length 0 (with a pointer that is not
 * NULL).
 *
 *   kind 1  TICKETS_KIND_INITIAL    user; options and till where they stand
 *   kind 2  TICKETS_KIND_DIRECT     tgt, service; options and till where they stand
 *   kind 3  TICKETS_KIND_S4U2SELF   tgt, user; options and till where they stand
 *   kind 4  TICKETS_KIND_S4U2PROXY  options, tgt, evidence, service; PAC options and till where they stand
 *
 * `tgt` and `evidence` are ticket records, as tickets_request puts them out; `user` and `service` are names, without a zero byte at their end. What
 * it writes tickets_read_request reads, and gives the same parts; and of the parts of a request that tickets_read_request takes it writes the
 * same bytes (R4.9).
 *
 *   error 0    `value` is the length of the request. The output's further bytes are as before.
 *   error 60   (TICKETS_KRB_ERR_GENERIC) no readable request has these parts: another kind, an optional field that the kind does not have, a
 *              part whose field does not stand, a name of more than 255 bytes, or a TGT or evidence that is no ticket record.
 *   error 52   (TICKETS_KRB_ERR_RESPONSE_TOO_BIG) `output_len` is under the length of this request; TICKETS_LONGEST_REQUEST is enough for any.
 *
 * The first of these that holds answers, and the output is then as before. */
tickets_answer tickets_write_request(uint32_t kind, uint32_t options, uint32_t pac_options, uint32_t till, const uint8_t *tgt, size_t tgt_len,
                                     const uint8_t *evidence, size_t evidence_len, const uint8_t *user, size_t user_len,
                                     const uint8_t *service, size_t service_len, uint32_t fields, uint8_t *output, size_t output_len);

/* ---- The record layer's readers and writer (R3, R4). */

/* Reads the ticket record of `record_len` bytes at `record`, and writes the ticket's record to the start of `output` (R3.5, R3.7).
 *
 *   error 0    the record was readable. `value` is its length, 17 to 31, and that many bytes at `output` are the same as those at
 *              `record`. The output's further bytes are as before.
 *   error 60   (TICKETS_KRB_ERR_GENERIC) the bytes are no ticket record: another map, a byte missing or left over, or a trail of none
 *              or of more than eight accounts. The output is as before.
 *   error 52   (TICKETS_KRB_ERR_RESPONSE_TOO_BIG) the record was readable, and `output_len` is under TICKETS_LONGEST_RECORD, whatever
 *              the length of this record. The output is as before. */
tickets_answer tickets_rewrite(const uint8_t *record, size_t record_len, uint8_t *output, size_t output_len);

/* The places of `fields` that tickets_read_request fills. */
enum {
    TICKETS_REQUEST_KIND,            /* 1 initial, 2 direct, 3 S4U2self, 4 S4U2proxy (R4.2) */
    TICKETS_REQUEST_OPTIONS,         /* 0 where there are none */
    TICKETS_REQUEST_PAC_OPTIONS,     /* 0 where there are none */
    TICKETS_REQUEST_TILL,            /* in seconds; 0 is no wish */
    TICKETS_REQUEST_TGT,             /* the number of the TGT, 0 where there is none (kind 1) */
    TICKETS_REQUEST_EVIDENCE,        /* the number of the evidence ticket, 0 where there is none (kinds 1 to 3) */
    TICKETS_REQUEST_USER_AT,         /* where in the request the user's name starts, 0 where there is none (kinds 2 and 4) */
    TICKETS_REQUEST_USER_LENGTH,     /* the bytes of the user's name, 0 to 255 */
    TICKETS_REQUEST_SERVICE_AT,      /* where in the request the service's name starts, 0 where there is none (kinds 1 and 3) */
    TICKETS_REQUEST_SERVICE_LENGTH,  /* the bytes of the service's name, 0 to 255 */
    TICKETS_REQUEST_FIELDS           /* how many places there are: 10 */
};

/* Reads the request of `request_len` bytes at `request` (R4.3), and puts its numbers to `fields`, which has TICKETS_REQUEST_FIELDS places.
 * The names stay where they are, in the request's bytes, and need not end in a zero byte.
 *
 *   0    the request was readable, and all of `fields` is set.
 *   60   (TICKETS_KRB_ERR_GENERIC) it was not: a map that is not of its kind, a kind other than 1 to 4, a byte missing or left over,
 *        or a TGT or evidence that is no ticket record. `fields` is as before. */
uint32_t tickets_read_request(const uint8_t *request, size_t request_len, uint64_t *fields);

#ifdef __cplusplus
}
#endif

#endif
