/* The morning of R11.3, with the names of R11.8 before W1, the bar of R11.7 before W3, and after W4 what R11.10 reads back, a restart (R7.8,
 * R7.9) and the clearing of R11.5, over include/tickets.h: by the calls over a tickets_service, and again by the plain calls; then names
 * alike, the words of R11.8, the requests of R11.9, the saved service of R11.11, and the names of the errors (R6.8). Every answer is compared
 * with what the rules give. Prints the four lines of the morning; a difference goes to standard error, and ends the program with 1. */
#include <stdio.h>
#include <stdlib.h>
#include <string.h>

#include "tickets.h"

/* What an output holds before a call, and how many bytes it has. */
enum { UNTOUCHED = 0xEE, OUTPUT = 40 };

/* The records of the morning: ticket 0 of W1, ticket 1 of W2, ticket 2 of W3; and ticket 3 of W1 after the clearing. */
static const uint8_t TICKET_0[] = {0x00, 0x37, 0x00, 0x00, 0x00, 0x40, 0x00, 0x00, 0x01, 0x00, 0x00, 0x03, 0xe8, 0x00, 0x00, 0x90, 0x88};
static const uint8_t TICKET_1[] = {0x04, 0x7f, 0x00, 0x01, 0x40, 0x00, 0x00, 0x00, 0x00, 0x01,
                                   0x00, 0x00, 0x03, 0xf2, 0x00, 0x00, 0x90, 0x88, 0x00, 0x00};
static const uint8_t TICKET_2[] = {0x01, 0xff, 0x00, 0x02, 0x40, 0x00, 0x00, 0x00, 0x00, 0x02, 0x00, 0x00,
                                   0x03, 0xfc, 0x00, 0x00, 0x90, 0x88, 0x00, 0x00, 0x00, 0x01, 0x01, 0x01};
static const uint8_t TICKET_3[] = {0x00, 0x37, 0x00, 0x03, 0x00, 0x40, 0x00, 0x00, 0x01, 0x00, 0x00, 0x03, 0xe8, 0x00, 0x00, 0x90, 0x88};

/* The bytes of W1 to W3 (R11.3). */
static const uint8_t W1[] = {0x00, 0x41, 0x01, 0x03, 'w', 'e', 'b'};
static const uint8_t W2[] = {0x00, 0x51, 0x03, 0x11, 0x00, 0x37, 0x00, 0x00, 0x00, 0x40, 0x00, 0x00, 0x01,
                             0x00, 0x00, 0x03, 0xe8, 0x00, 0x00, 0x90, 0x88, 0x04, 't',  'e',  'c',  'h'};
static const uint8_t W3[] = {0x00, 0xb3, 0x04, 0x00, 0x02, 0x00, 0x00, 0x11, 0x00, 0x37, 0x00, 0x00, 0x00, 0x40, 0x00, 0x00, 0x01, 0x00,
                             0x00, 0x03, 0xe8, 0x00, 0x00, 0x90, 0x88, 0x14, 0x04, 0x7f, 0x00, 0x01, 0x40, 0x00, 0x00, 0x00, 0x00, 0x01,
                             0x00, 0x00, 0x03, 0xf2, 0x00, 0x00, 0x90, 0x88, 0x00, 0x00, 0x05, 's',  't',  'o',  'r',  'e'};

/* The seconds of the three tickets together: 36000, 35990 and 35980. */
enum { DAY_TOTAL = 107970 };

/* A request's bytes. */
typedef struct {
    uint8_t bytes[TICKETS_LONGEST_REQUEST];
    size_t length;
} request;

/* A part of a request: bytes that are lent. */
typedef struct {
    const void *bytes;
    size_t length;
} part;

/* The parts of a request, as tickets_write_request is given them. */
typedef struct {
    uint32_t kind, options, pac_options, till;
    part tgt, evidence, user, service;
    uint32_t fields;
} parts;

/* No part: a length of 0, with a pointer that is not NULL. */
#define NONE {"", 0}
#define NAME(text) {text, sizeof text - 1}
#define RECORD(bytes) {bytes, sizeof bytes}

/* The calls that the morning makes, by the service's functions or by the plain ones. */
typedef struct {
    void (*fresh)(tickets_service *service);
    uint32_t (*edit)(tickets_service *service, uint32_t number, const uint8_t *name, size_t name_len, uint32_t flags, uint64_t send,
                     uint64_t receive, uint32_t lifetime);
    uint32_t (*find_name)(const tickets_service *service, const uint8_t *name, size_t name_len);
    tickets_answer (*request)(tickets_service *service, const uint8_t *request, size_t request_len, uint32_t clock, uint8_t *output,
                              size_t output_len);
    uint32_t (*clear)(tickets_service *service, uint32_t clock);
    tickets_answer (*descent)(const tickets_service *service, uint32_t number);
    uint64_t (*day_total)(const tickets_service *service);
    uint32_t (*account)(const tickets_service *service, uint32_t number, uint64_t *fields, uint8_t *name);
    uint32_t (*held)(const tickets_service *service);
    tickets_answer (*record_at)(const tickets_service *service, uint32_t place, uint8_t *output, size_t output_len);
    uint32_t (*ticket_at)(const tickets_service *service, uint32_t place, uint64_t *fields);
    tickets_answer (*save)(const tickets_service *service, uint8_t *output, size_t output_len);
    uint32_t (*load)(tickets_service *service, const uint8_t *saved, size_t saved_len);
} calls;

static void plain_fresh(tickets_service *service)
{
    tickets_fresh(service->accounts, service->ledger);
}

static uint32_t plain_edit(tickets_service *service, uint32_t number, const uint8_t *name, size_t name_len, uint32_t flags, uint64_t send,
                           uint64_t receive, uint32_t lifetime)
{
    return tickets_edit(service->accounts, number, name, name_len, flags, send, receive, lifetime);
}

static uint32_t plain_find_name(const tickets_service *service, const uint8_t *name, size_t name_len)
{
    return tickets_find_name(service->accounts, name, name_len);
}

static tickets_answer plain_request(tickets_service *service, const uint8_t *bytes, size_t length, uint32_t clock, uint8_t *output,
                                    size_t output_len)
{
    return tickets_request(service->accounts, service->ledger, bytes, length, clock, output, output_len);
}

static uint32_t plain_clear(tickets_service *service, uint32_t clock)
{
    return tickets_clear(service->accounts, service->ledger, clock);
}

static tickets_answer plain_descent(const tickets_service *service, uint32_t number)
{
    return tickets_descent(service->ledger, number);
}

static uint64_t plain_day_total(const tickets_service *service)
{
    return tickets_day_total(service->ledger);
}

static uint32_t plain_account(const tickets_service *service, uint32_t number, uint64_t *fields, uint8_t *name)
{
    return tickets_account(service->accounts, number, fields, name);
}

static uint32_t plain_held(const tickets_service *service)
{
    return tickets_held(service->ledger);
}

static tickets_answer plain_record_at(const tickets_service *service, uint32_t place, uint8_t *output, size_t output_len)
{
    return tickets_record_at(service->ledger, place, output, output_len);
}

static uint32_t plain_ticket_at(const tickets_service *service, uint32_t place, uint64_t *fields)
{
    return tickets_ticket_at(service->ledger, place, fields);
}

static tickets_answer plain_save(const tickets_service *service, uint8_t *output, size_t output_len)
{
    return tickets_save(service->accounts, service->ledger, output, output_len);
}

static uint32_t plain_load(tickets_service *service, const uint8_t *saved, size_t saved_len)
{
    return tickets_load(service->accounts, service->ledger, saved, saved_len);
}

static const calls OVER_SERVICE = {tickets_service_fresh,     tickets_service_edit,      tickets_service_find_name, tickets_service_request,
                                   tickets_service_clear,     tickets_service_descent,   tickets_service_day_total, tickets_service_account,
                                   tickets_service_held,      tickets_service_record_at, tickets_service_ticket_at, tickets_service_save,
                                   tickets_service_load};
static const calls PLAIN = {plain_fresh,     plain_edit,    plain_find_name, plain_request,   plain_clear, plain_descent, plain_day_total,
                            plain_account,   plain_held,    plain_record_at, plain_ticket_at, plain_save,  plain_load};

/* Ends the program unless the condition holds. */
static void expect(int holds, const char *what)
{
    if (!holds) {
        fprintf(stderr, "morning: %s\n", what);
        exit(1);
    }
}

/* Writes the request of these parts to an output of this length. */
static tickets_answer write_to(const parts *given, uint8_t *output, size_t output_len)
{
    return tickets_write_request(given->kind, given->options, given->pac_options, given->till, given->tgt.bytes, given->tgt.length,
                                 given->evidence.bytes, given->evidence.length, given->user.bytes, given->user.length,
                                 given->service.bytes, given->service.length, given->fields, output, output_len);
}

/* The request of these parts. */
static request written(const parts *given)
{
    request made;
    tickets_answer answer = write_to(given, made.bytes, sizeof made.bytes);
    expect(answer.error == 0, "a request is written");
    made.length = answer.value;
    return made;
}

/* W1: kind 1 for `web`. */
static const parts INITIAL = {TICKETS_KIND_INITIAL, 0, 0, 0, NONE, NONE, NAME("web"), NONE, 0};

/* W2: with ticket 0, kind 3 for `tech`. */
static const parts S4U2SELF = {TICKETS_KIND_S4U2SELF, 0, 0, 0, RECORD(TICKET_0), NONE, NAME("tech"), NONE, 0};

/* W3 and W4: with ticket 0 as TGT and ticket 1 as evidence, kind 4 to `store`. */
static const parts S4U2PROXY = {
    TICKETS_KIND_S4U2PROXY, TICKETS_KDC_OPT_CNAME_IN_ADDL_TKT, 0, 0, RECORD(TICKET_0), RECORD(TICKET_1), NONE, NAME("store"), 0};

/* `tech`, with these flags. */
static void set_tech(const calls *by, tickets_service *service, uint32_t flags)
{
    expect(by->edit(service, 0, (const uint8_t *)"tech", 4, flags, 0, 0, 36000) == 0, "the edit of tech");
}

/* `web`, with these flags beside its own. */
static void set_web(const calls *by, tickets_service *service, uint32_t flags)
{
    flags |= TICKETS_FLAG_TRUSTED | TICKETS_FLAG_SERVICE;
    expect(by->edit(service, 1, (const uint8_t *)"web", 3, flags, 0x4, 0, 36000) == 0, "the edit of web");
}

/* The three accounts of the morning. */
static void set_accounts(const calls *by, tickets_service *service)
{
    set_tech(by, service, 0);
    set_web(by, service, 0);
    expect(by->edit(service, 2, (const uint8_t *)"store", 5, TICKETS_FLAG_SERVICE, 0, 0, 36000) == 0, "the edit of store");
    tickets_service before = *service;
    expect(by->edit(service, 3, (const uint8_t *)"WEB", 3, 0, 0, 0, 1) == TICKETS_KDC_ERR_PRINCIPAL_NOT_UNIQUE, "3 named WEB");
    expect(by->edit(service, 1, (const uint8_t *)"www", 3, 0, 0, 0, 1) == TICKETS_KDC_ERR_POLICY, "1 named www");
    expect(by->edit(service, 64, (const uint8_t *)"new", 3, 0, 0, 0, 1) == TICKETS_KRB_ERR_GENERIC, "number 64");
    expect(memcmp(&before, service, sizeof before) == 0, "an edit that is refused leaves the service as before");
}

/* Finds a name, which has to stand for the account of this number. */
static void found(const calls *by, const tickets_service *service, const char *name, size_t length, uint32_t number)
{
    expect(by->find_name(service, (const uint8_t *)name, length) == number, "the account found");
}

/* The names of R11.8, among them one of an account that is disabled meanwhile; and the service is as before. */
static void find_names(const calls *by, tickets_service *service)
{
    static const struct {
        const char *name;
        size_t length;
        uint32_t number;
    } names[] = {{"tech", 4, 0},
                 {"web", 3, 1},
                 {"store", 5, 2},
                 {"WEB", 3, 1},
                 {"wEb", 3, 1},
                 {"we", 2, TICKETS_NO_ACCOUNT},
                 {"webs", 4, TICKETS_NO_ACCOUNT},
                 {"web\0", 4, TICKETS_NO_ACCOUNT},
                 {"\0web", 4, TICKETS_NO_ACCOUNT},
                 {"", 0, TICKETS_NO_ACCOUNT},
                 {"wdb", 3, TICKETS_NO_ACCOUNT},
                 {"xeb", 3, TICKETS_NO_ACCOUNT},
                 {"wea", 3, TICKETS_NO_ACCOUNT}};
    tickets_service before = *service;
    for (size_t i = 0; i < sizeof names / sizeof names[0]; i++) {
        found(by, service, names[i].name, names[i].length, names[i].number);
    }
    set_web(by, service, TICKETS_FLAG_DISABLED);
    found(by, service, "web", 3, 1);
    set_web(by, service, 0);
    expect(memcmp(&before, service, sizeof before) == 0, "finds leave the service as before");
}

/* The last letters of 26 names, small and in capitals. */
static const char SMALL[] = "abcdefghijklmnopqrstuvwxyz";
static const char CAPITALS[] = "ABCDEFGHIJKLMNOPQRSTUVWXYZ";

/* Names of this length that differ in the last byte only: each finds its own account, in capitals too. */
static void find_alike(const calls *by, tickets_service *service, size_t length)
{
    char small[] = "recorder-ward-cardiology";
    char capitals[] = "RECORDER-WARD-CARDIOLOGY";
    by->fresh(service);
    for (uint32_t number = 0; number < 26; number++) {
        small[length - 1] = SMALL[number];
        expect(by->edit(service, number, (const uint8_t *)small, length, 0, 0, 0, 1) == 0, "the edit of a name like others");
    }
    for (uint32_t number = 0; number < 26; number++) {
        small[length - 1] = SMALL[number];
        capitals[length - 1] = CAPITALS[number];
        found(by, service, small, length, number);
        found(by, service, capitals, length, number);
    }
    small[length - 1] = '1';
    found(by, service, small, length, TICKETS_NO_ACCOUNT);
}

/* Compares two words that differ in one byte, at each of its places; the answer has to be this one. */
static void compare_bytes(uint64_t one, uint64_t other, uint32_t match)
{
    for (unsigned at = 0; at < 64; at += 8) {
        expect(tickets_words_match(one << at, other << at) == match, "words that differ at one place");
    }
}

/* The words of R11.8. */
static void compare_words(void)
{
    expect(tickets_words_match(0x2000000000626557, 0x2000000000426577) == 1, "words that match");
    compare_bytes(0x40, 0x60, 0);
    compare_bytes(0x5b, 0x7b, 0);
    compare_bytes(0xc1, 0xe1, 0);
    compare_bytes(0x00, 0x20, 0);
    compare_bytes(0x41, 0x61, 1);
    compare_bytes(0x5a, 0x7a, 1);
}

/* Prints the line of a request: kind, error, record. */
static void print_line(unsigned kind, tickets_answer answer, const uint8_t *output)
{
    printf("%u %u ", kind, (unsigned)answer.error);
    for (uint32_t i = 0; i < answer.value; i++) {
        printf("%02x", (unsigned)output[i]);
    }
    printf(answer.error == 0 ? "\n" : "-\n");
}

/* Makes a request, which has to be granted with this record and to leave the further bytes of the output. */
static void granted(const calls *by, tickets_service *service, const uint8_t *bytes, size_t length, uint32_t clock, const uint8_t *record,
                    size_t record_len, int print)
{
    uint8_t output[OUTPUT];
    memset(output, UNTOUCHED, sizeof output);
    tickets_answer answer = by->request(service, bytes, length, clock, output, sizeof output);
    expect(answer.error == 0 && answer.value == record_len, "a grant and the record's length");
    expect(memcmp(output, record, record_len) == 0, "the record");
    for (size_t i = record_len; i < sizeof output; i++) {
        expect(output[i] == UNTOUCHED, "the output's further bytes");
    }
    if (print) {
        print_line(bytes[2], answer, output);
    }
}

/* Makes a request, which has to be refused with this number and to leave the output and the service as before. */
static void refused(const calls *by, tickets_service *service, const uint8_t *bytes, size_t length, uint32_t clock, size_t output_len,
                    uint32_t error, int print)
{
    uint8_t output[OUTPUT];
    memset(output, UNTOUCHED, sizeof output);
    tickets_service before = *service;
    tickets_answer answer = by->request(service, bytes, length, clock, output, output_len);
    expect(answer.error == error && answer.value == 0, "a refusal and its number");
    expect(memcmp(&before, service, sizeof before) == 0, "a refusal leaves the service as before");
    for (size_t i = 0; i < sizeof output; i++) {
        expect(output[i] == UNTOUCHED, "a refusal leaves the output as before");
    }
    if (print) {
        print_line(bytes[2], answer, output);
    }
}

/* The hop is refused while `tech`, its client, is barred; once the bar is lifted, the service is as before. */
static void bar(const calls *by, tickets_service *service, const request *hop)
{
    tickets_service before = *service;
    set_tech(by, service, TICKETS_FLAG_BARRED);
    refused(by, service, hop->bytes, hop->length, 1020, OUTPUT, TICKETS_KDC_ERR_BADOPTION, 0);
    set_tech(by, service, 0);
    expect(memcmp(&before, service, sizeof before) == 0, "a bar that is lifted leaves the service as before");
}

/* The descent of each ticket, of a number that is not held, and the day total. */
static void look_back(const calls *by, const tickets_service *service)
{
    for (uint32_t number = 0; number < 3; number++) {
        tickets_answer steps = by->descent(service, number);
        expect(steps.error == 0 && steps.value == number, "the steps back");
    }
    tickets_answer none = by->descent(service, 3);
    expect(none.error == TICKETS_KRB_AP_ERR_MODIFIED && none.value == 0, "the descent of a number that is not held");
    expect(by->day_total(service) == DAY_TOTAL, "the day total");
}

/* The three tickets end at 37000: none goes a second before, and all go then. */
static void clear_out(const calls *by, tickets_service *service)
{
    tickets_service before = *service;
    expect(by->clear(service, 36999) == 0, "a clearing before the tickets' end");
    expect(memcmp(&before, service, sizeof before) == 0, "a clearing that takes none out leaves the service as before");
    expect(by->clear(service, 37000) == 3, "a clearing at the tickets' end");
    expect(memcmp(before.accounts, service->accounts, sizeof before.accounts) == 0, "a clearing leaves the accounts as before");
    expect(by->clear(service, 37000) == 0, "a second clearing");
    tickets_answer none = by->descent(service, 0);
    expect(none.error == TICKETS_KRB_AP_ERR_MODIFIED && none.value == 0, "the descent of a ticket that went");
    expect(by->day_total(service) == 0, "the day total of an empty ledger");
}

/* The numbers of account `number`, and its name with zeros behind it. */
static void account_is(const calls *by, const tickets_service *service, uint32_t number, const uint64_t *expected, const char *name)
{
    uint64_t fields[TICKETS_ACCOUNT_FIELDS];
    uint8_t bytes[TICKETS_LONGEST_NAME];
    uint8_t padded[TICKETS_LONGEST_NAME] = {0};
    memcpy(padded, name, strlen(name));
    expect(by->account(service, number, fields, bytes) == 0, "an account is read");
    expect(memcmp(fields, expected, sizeof fields) == 0, "an account's numbers");
    expect(memcmp(bytes, padded, sizeof bytes) == 0, "an account's name");
}

/* The numbers of an account that was never set. */
static const uint64_t UNSET[TICKETS_ACCOUNT_FIELDS] = {0, TICKETS_FLAG_DISABLED, 0, 0, 0, 0};

/* Accounts 1, 3 and 64 (R11.10). */
static void read_accounts(const calls *by, const tickets_service *service)
{
    static const uint64_t web[TICKETS_ACCOUNT_FIELDS] = {1, 12, 0x4, 0, 36000, 3};
    account_is(by, service, 1, web, "web");
    account_is(by, service, 3, UNSET, "");
    uint64_t fields[TICKETS_ACCOUNT_FIELDS];
    uint8_t bytes[TICKETS_LONGEST_NAME];
    memset(fields, UNTOUCHED, sizeof fields);
    memset(bytes, UNTOUCHED, sizeof bytes);
    expect(by->account(service, 64, fields, bytes) == TICKETS_KRB_ERR_GENERIC, "account 64");
    expect(fields[TICKETS_ACCOUNT_SET] != 0 && bytes[0] == UNTOUCHED, "a refusal leaves numbers and name");
}

/* The record at a place. */
static void record_is(const calls *by, const tickets_service *service, uint32_t place, const uint8_t *record, size_t length)
{
    uint8_t output[OUTPUT];
    memset(output, UNTOUCHED, sizeof output);
    tickets_answer answer = by->record_at(service, place, output, sizeof output);
    expect(answer.error == 0 && answer.value == length, "the length of a record that is read back");
    expect(memcmp(output, record, length) == 0 && output[length] == UNTOUCHED, "a record that is read back");
    answer = by->record_at(service, place, output, TICKETS_LONGEST_RECORD - 1);
    expect(answer.error == TICKETS_KRB_ERR_RESPONSE_TOO_BIG && answer.value == 0, "a record without room");
}

/* The three tickets by their places, the third in numbers too, and a place that is not held (R11.10). */
static void read_tickets(const calls *by, const tickets_service *service)
{
    static const uint64_t third[TICKETS_TICKET_FIELDS] = {2, 0x40000000, 0, 2, 1020, 37000, 0, 1, 1, 0, TICKETS_KIND_S4U2PROXY, 1};
    uint64_t fields[TICKETS_TICKET_FIELDS];
    expect(by->held(service) == 3, "how many tickets are held");
    record_is(by, service, 0, TICKET_0, sizeof TICKET_0);
    record_is(by, service, 1, TICKET_1, sizeof TICKET_1);
    record_is(by, service, 2, TICKET_2, sizeof TICKET_2);
    expect(by->ticket_at(service, 2, fields) == 0, "a ticket is read");
    expect(memcmp(fields, third, sizeof fields) == 0, "a ticket's numbers");
    expect(by->ticket_at(service, 3, fields) == TICKETS_KRB_AP_ERR_MODIFIED, "a place that is not held");
    expect(memcmp(fields, third, sizeof fields) == 0, "a refusal leaves the numbers");
    expect(by->record_at(service, 3, (uint8_t *)fields, sizeof fields).error == TICKETS_KRB_AP_ERR_MODIFIED, "the record of such a place");
}

/* Bytes of a saved service that have to be refused and to leave the service as before. */
static void not_loaded(const calls *by, tickets_service *service, const uint8_t *saved, size_t length)
{
    tickets_service before = *service;
    expect(by->load(service, saved, length) == TICKETS_KRB_ERR_GENERIC, "bytes that were not saved");
    expect(memcmp(&before, service, sizeof before) == 0, "a loading that is refused leaves the service as before");
}

/* Saves the service, loses it, and loads it again; what was damaged on the way is refused. */
static void restart(const calls *by, tickets_service *service)
{
    static uint8_t saved[TICKETS_SAVED + 1];
    tickets_service before = *service;
    saved[TICKETS_SAVED] = UNTOUCHED;
    expect(by->save(service, saved, TICKETS_SAVED - 1).error == TICKETS_KRB_ERR_RESPONSE_TOO_BIG, "a saving without room");
    tickets_answer answer = by->save(service, saved, sizeof saved);
    expect(answer.error == 0 && answer.value == TICKETS_SAVED && saved[TICKETS_SAVED] == UNTOUCHED, "a saving");
    memset(service, UNTOUCHED, sizeof *service);
    not_loaded(by, service, saved, sizeof saved);
    not_loaded(by, service, saved, TICKETS_SAVED - 1);
    saved[5000] ^= 1;
    not_loaded(by, service, saved, TICKETS_SAVED);
    saved[5000] ^= 1;
    expect(by->load(service, saved, TICKETS_SAVED) == 0, "a loading");
    expect(memcmp(&before, service, sizeof before) == 0, "what is loaded is what was saved");
}

/* The morning from a service whose words are not 0, with the names before W1 and the bar before W3, to W4; then what is read back, a restart,
 * the clearing, the requests with tickets that went, and W1 once more. */
static void morning(const calls *by, tickets_service *service, int print)
{
    request first = written(&INITIAL);
    request second = written(&S4U2SELF);
    request third = written(&S4U2PROXY);
    memset(service, UNTOUCHED, sizeof *service);
    by->fresh(service);
    expect(by->day_total(service) == 0, "the day total of a fresh service");
    set_accounts(by, service);
    find_names(by, service);
    granted(by, service, first.bytes, first.length, 1000, TICKET_0, sizeof TICKET_0, print);
    refused(by, service, second.bytes, second.length, 699, OUTPUT, TICKETS_KRB_AP_ERR_TKT_NYV, 0);
    granted(by, service, second.bytes, second.length, 1010, TICKET_1, sizeof TICKET_1, print);
    refused(by, service, third.bytes, third.length, 709, OUTPUT, TICKETS_KRB_AP_ERR_TKT_NYV, 0);
    refused(by, service, third.bytes, third.length, 1020, TICKETS_LONGEST_RECORD - 1, TICKETS_KRB_ERR_RESPONSE_TOO_BIG, 0);
    refused(by, service, third.bytes, third.length - 1, 1020, OUTPUT, TICKETS_KRB_ERR_GENERIC, 0);
    bar(by, service, &third);
    granted(by, service, third.bytes, third.length, 1020, TICKET_2, sizeof TICKET_2, print);
    refused(by, service, third.bytes, third.length, 37000, OUTPUT, TICKETS_KRB_AP_ERR_TKT_EXPIRED, print);
    look_back(by, service);
    read_accounts(by, service);
    read_tickets(by, service);
    restart(by, service);
    look_back(by, service);
    clear_out(by, service);
    expect(by->held(service) == 0, "no ticket is held after the clearing");
    refused(by, service, second.bytes, second.length, 1010, OUTPUT, TICKETS_KRB_AP_ERR_MODIFIED, 0);
    refused(by, service, third.bytes, third.length, 1020, OUTPUT, TICKETS_KRB_AP_ERR_MODIFIED, 0);
    granted(by, service, first.bytes, first.length, 1000, TICKET_3, sizeof TICKET_3, 0);
}

/* Parts that are written to an output of 256 bytes as these bytes, and the further bytes stay. */
static void writes(const parts *given, const void *bytes, size_t length)
{
    uint8_t output[256];
    memset(output, UNTOUCHED, sizeof output);
    tickets_answer answer = write_to(given, output, sizeof output);
    expect(answer.error == 0 && answer.value == length, "the length of a request that is written");
    expect(memcmp(output, bytes, length) == 0 && output[length] == UNTOUCHED, "a request that is written");
}

/* Parts that are refused with this number, with an output of this length, which stays. */
static void not_written(const parts *given, size_t output_len, uint32_t error)
{
    uint8_t output[256];
    memset(output, UNTOUCHED, sizeof output);
    tickets_answer answer = write_to(given, output, output_len);
    expect(answer.error == error && answer.value == 0, "parts that are refused");
    for (size_t i = 0; i < sizeof output; i++) {
        expect(output[i] == UNTOUCHED, "a refusal leaves the output as before");
    }
}

/* What R11.9 says is written. */
static void write_requests(void)
{
    static const parts with_bit = {TICKETS_KIND_S4U2PROXY, TICKETS_KDC_OPT_CNAME_IN_ADDL_TKT, 0, 0, RECORD(TICKET_0), RECORD(TICKET_1), NONE,
                                   NAME("store"), TICKETS_FIELD_OPTIONS};
    static const parts till = {TICKETS_KIND_INITIAL, 0, 0, 1000, NONE, NONE, NAME("web"), NONE, TICKETS_FIELD_TILL};
    static const parts no_wish = {TICKETS_KIND_INITIAL, 0, 0, 0, NONE, NONE, NAME("web"), NONE, TICKETS_FIELD_TILL};
    static const parts no_user = {TICKETS_KIND_INITIAL, 0, 0, 0, NONE, NONE, NONE, NONE, 0};
    uint8_t output[7];
    writes(&INITIAL, W1, sizeof W1);
    writes(&S4U2SELF, W2, sizeof W2);
    writes(&S4U2PROXY, W3, sizeof W3);
    writes(&with_bit, W3, sizeof W3);
    writes(&till, "\x00\x49\x01\x00\x00\x03\xe8\x03web", 11);
    writes(&no_wish, "\x00\x49\x01\x00\x00\x00\x00\x03web", 11);
    writes(&no_user, "\x00\x41\x01\x00", 4);
    tickets_answer answer = write_to(&INITIAL, output, sizeof output);
    expect(answer.error == 0 && answer.value == sizeof output, "an output exactly as long");
    not_written(&INITIAL, sizeof output - 1, TICKETS_KRB_ERR_RESPONSE_TOO_BIG);
}

/* What R11.9 says is not. */
static void refuse_parts(void)
{
    static const uint8_t name[256] = {0};
    static const parts refused[] = {
        {TICKETS_KIND_INITIAL, 0, 0, 1000, NONE, NONE, NAME("web"), NONE, 0},
        {TICKETS_KIND_INITIAL, 0, 0, 0, NONE, NONE, NAME("web"), NAME("store"), 0},
        {TICKETS_KIND_INITIAL, 0, 0, 0, NONE, NONE, NAME("web"), NONE, TICKETS_FIELD_PAC_OPTIONS},
        {0, 0, 0, 0, NONE, NONE, NAME("web"), NONE, 0},
        {5, 0, 0, 0, NONE, NONE, NAME("web"), NONE, 0},
        {257, 0, 0, 0, NONE, NONE, NAME("web"), NONE, 0},
        {TICKETS_KIND_INITIAL, 0, 0, 0, NONE, NONE, RECORD(name), NONE, 0},
        {TICKETS_KIND_S4U2SELF, 0, 0, 0, {TICKET_0, sizeof TICKET_0 - 1}, NONE, NAME("tech"), NONE, 0},
    };
    static const parts long_name = {TICKETS_KIND_INITIAL, 0, 0, 0, NONE, NONE, {name, 255}, NONE, 0};
    for (size_t i = 0; i < sizeof refused / sizeof refused[0]; i++) {
        not_written(&refused[i], 256, TICKETS_KRB_ERR_GENERIC);
        not_written(&refused[i], 0, TICKETS_KRB_ERR_GENERIC);
    }
    not_written(&long_name, 256, TICKETS_KRB_ERR_RESPONSE_TOO_BIG);
}

/* A fresh service, saved (R11.11): its bytes, and what of them is refused. */
static void save_fresh(const calls *by, tickets_service *service)
{
    static uint8_t expected[TICKETS_SAVED + 1];
    static uint8_t saved[TICKETS_SAVED];
    memset(expected, 0, sizeof expected);
    memcpy(expected, "\x89TICKETS\0\0\0\0\0\0\0\x03", 16);
    memcpy(expected + TICKETS_SAVED - 16, "\0\0\0\0\0\0\x02\xa3\0\0\0\0\0\0\x0b\x41", 16);
    by->fresh(service);
    expect(by->save(service, saved, sizeof saved).error == 0, "a fresh service is saved");
    expect(memcmp(saved, expected, sizeof saved) == 0, "the bytes of a fresh service");
    set_accounts(by, service);
    not_loaded(by, service, expected, TICKETS_SAVED + 1);
    not_loaded(by, service, expected, TICKETS_SAVED - 1);
    saved[16] = 0x01;
    not_loaded(by, service, saved, sizeof saved);
    saved[TICKETS_SAVED - 1] = 0x42;
    not_loaded(by, service, saved, sizeof saved);
    saved[16] = 0x00;
    not_loaded(by, service, saved, sizeof saved);
    expect(by->load(service, expected, TICKETS_SAVED) == 0, "a fresh service is loaded");
    account_is(by, service, 0, UNSET, "");
}

/* The names of all error numbers (R6.8), and that no other number has one. */
static void name_errors(void)
{
    static const struct {
        uint32_t number;
        const char *name;
    } errors[] = {{0, "KDC_ERR_NONE"},
                  {6, "KDC_ERR_C_PRINCIPAL_UNKNOWN"},
                  {7, "KDC_ERR_S_PRINCIPAL_UNKNOWN"},
                  {8, "KDC_ERR_PRINCIPAL_NOT_UNIQUE"},
                  {11, "KDC_ERR_NEVER_VALID"},
                  {12, "KDC_ERR_POLICY"},
                  {13, "KDC_ERR_BADOPTION"},
                  {18, "KDC_ERR_CLIENT_REVOKED"},
                  {26, "KDC_ERR_SERVER_NOMATCH"},
                  {29, "KDC_ERR_SVC_UNAVAILABLE"},
                  {32, "KRB_AP_ERR_TKT_EXPIRED"},
                  {33, "KRB_AP_ERR_TKT_NYV"},
                  {35, "KRB_AP_ERR_NOT_US"},
                  {41, "KRB_AP_ERR_MODIFIED"},
                  {52, "KRB_ERR_RESPONSE_TOO_BIG"},
                  {60, "KRB_ERR_GENERIC"},
                  {61, "KRB_ERR_FIELD_TOOLONG"}};
    size_t next = 0;
    for (uint32_t number = 0; number < 1000; number++) {
        const char *name = tickets_error_name(number);
        if (next < sizeof errors / sizeof errors[0] && errors[next].number == number) {
            expect(name != NULL && strcmp(name, errors[next].name) == 0, "the name of an error");
            next++;
        } else {
            expect(name == NULL, "a number that no call answers has no name");
        }
    }
}

int main(void)
{
    static tickets_service one;
    static tickets_service other;
    expect(sizeof one == 21632, "the memory of a service");
    expect(tickets_version() == TICKETS_VERSION && tickets_layout() == TICKETS_LAYOUT, "the version and the layout");
    morning(&OVER_SERVICE, &one, 1);
    morning(&PLAIN, &other, 0);
    expect(memcmp(&one, &other, sizeof one) == 0, "the same words by either way");
    static const size_t lengths[] = {1, 7, 8, 9, 24};
    for (size_t i = 0; i < sizeof lengths / sizeof lengths[0]; i++) {
        find_alike(&OVER_SERVICE, &one, lengths[i]);
        find_alike(&PLAIN, &other, lengths[i]);
    }
    compare_words();
    write_requests();
    refuse_parts();
    save_fresh(&OVER_SERVICE, &one);
    save_fresh(&PLAIN, &other);
    name_errors();
    return 0;
}
