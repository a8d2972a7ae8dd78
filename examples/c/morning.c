/* A tour of the library: a scorer, `tech`, works at a scoring page, `web`, which fetches a study from where it is kept, `store`, in the scorer's
 * name (R11.3). Then the service is saved, loaded into other memory, and cleared. Prints who acted for whom; where an answer is not the one
 * that is expected, a line on standard error says which, and the program ends with 1. */
#include <inttypes.h>
#include <stdio.h>
#include <stdlib.h>
#include <string.h>

#include <tickets.h>

/* A ticket's record, as it was put out. */
typedef struct {
    uint8_t bytes[TICKETS_LONGEST_RECORD];
    size_t length;
} record;

/* An account's name, with room for a zero byte at its end. */
typedef struct {
    char text[TICKETS_LONGEST_NAME + 1];
} name;

/* The parts of a request; those that its kind does not have are empty. */
typedef struct {
    uint32_t kind;
    uint32_t options;
    const record *tgt;
    const record *evidence;
    const char *user;
    const char *service;
} parts;

static void expect(int holds, const char *what)
{
    if (!holds) {
        fprintf(stderr, "morning: not as expected: %s\n", what);
        exit(1);
    }
}

/* ---- Accounts and requests. */

static void set_account(tickets_service *service, uint32_t number, const char *name, uint32_t flags, uint64_t send)
{
    const uint32_t lifetime = 36000;
    uint32_t error = tickets_service_edit(service, number, (const uint8_t *)name, strlen(name), flags, send, 0, lifetime);
    expect(error == 0, name);
}

/* Writes the request, asks for it at a clock reading, and gives the error number; 0 where the record was put to `granted`. */
static uint32_t ask(tickets_service *service, parts asked, uint32_t clock, record *granted)
{
    const record none = {{0}, 0};
    const record *tgt = asked.tgt ? asked.tgt : &none;
    const record *evidence = asked.evidence ? asked.evidence : &none;
    const char *user = asked.user ? asked.user : "";
    const char *named = asked.service ? asked.service : "";
    uint8_t request[TICKETS_LONGEST_REQUEST];

    tickets_answer written = tickets_write_request(asked.kind, asked.options, 0, 0, tgt->bytes, tgt->length, evidence->bytes,
                                                   evidence->length, (const uint8_t *)user, strlen(user), (const uint8_t *)named,
                                                   strlen(named), 0, request, sizeof request);
    expect(written.error == 0, "the writing of a request");
    tickets_answer answer = tickets_service_request(service, request, written.value, clock, granted->bytes, sizeof granted->bytes);
    granted->length = answer.value;
    return answer.error;
}

/* ---- What the service holds, in words. */

/* The name of an account, with a zero byte at its end. */
static name name_of(const tickets_service *service, uint64_t account)
{
    name found = {{0}};
    uint64_t fields[TICKETS_ACCOUNT_FIELDS];
    expect(tickets_service_account(service, (uint32_t)account, fields, (uint8_t *)found.text) == 0, "an account");
    return found;
}

/* A delegated ticket: who asked for it is the last account of its trail. */
static void print_delegated(const tickets_service *service, const uint64_t *ticket)
{
    const uint64_t *trail = ticket + TICKETS_TICKET_TRAIL;
    uint64_t length = ticket[TICKETS_TICKET_TRAIL_LENGTH];
    expect(length >= 1 && length <= TICKETS_TRAIL_LIMIT, "a trail");
    printf("%s for %s, to %s", name_of(service, trail[length - 1]).text, name_of(service, ticket[TICKETS_TICKET_CLIENT]).text,
           name_of(service, ticket[TICKETS_TICKET_SERVICE]).text);
    for (uint64_t i = 0; i < length; i++)
        printf(", via %s", name_of(service, trail[i]).text);
}

/* Prints a line on the ticket at a place: its number, who acts for whom, and until when. */
static void print_ticket(const tickets_service *service, uint32_t place)
{
    uint64_t ticket[TICKETS_TICKET_FIELDS];
    expect(tickets_service_ticket_at(service, place, ticket) == 0, "a ticket");
    name client = name_of(service, ticket[TICKETS_TICKET_CLIENT]);
    name to = name_of(service, ticket[TICKETS_TICKET_SERVICE]);

    printf("%" PRIu64 "  ", ticket[TICKETS_TICKET_NUMBER]);
    switch (ticket[TICKETS_TICKET_ORIGIN]) {
    case TICKETS_KIND_INITIAL: printf("%s signed on", client.text); break;
    case TICKETS_KIND_DIRECT: printf("%s to %s", client.text, to.text); break;
    case TICKETS_KIND_S4U2SELF: printf("%s for %s, to itself", to.text, client.text); break;
    default: print_delegated(service, ticket);
    }
    printf(", until %" PRIu64 "\n", ticket[TICKETS_TICKET_END]);
}

/* Asks, expects a grant, and prints the new ticket, which is the ledger's last. */
static record granted(tickets_service *service, parts asked, uint32_t clock)
{
    record made;
    expect(ask(service, asked, clock, &made) == 0, "a grant");
    printf("at %" PRIu32 " granted: ", clock);
    print_ticket(service, tickets_service_held(service) - 1);
    return made;
}

static void print_held(const tickets_service *service)
{
    printf("held: %" PRIu32 " tickets, %" PRIu64 " seconds\n", tickets_service_held(service), tickets_service_day_total(service));
}

/* ---- The tour. */

/* The library that is loaded has to have the header's major number and its layout. */
static void check_library(void)
{
    expect(tickets_version() / 10000 == TICKETS_VERSION / 10000, "the library's version");
    expect(tickets_layout() == TICKETS_LAYOUT, "the library's layout");
}

/* W1 to W4; gives the page's TGT. */
static record morning(tickets_service *service)
{
    tickets_service_fresh(service);
    set_account(service, 0, "tech", 0, 0);
    set_account(service, 1, "web", TICKETS_FLAG_TRUSTED | TICKETS_FLAG_SERVICE, UINT64_C(1) << 2);
    set_account(service, 2, "store", TICKETS_FLAG_SERVICE, 0);

    record tgt = granted(service, (parts){.kind = TICKETS_KIND_INITIAL, .user = "web"}, 1000);
    record evidence = granted(service, (parts){.kind = TICKETS_KIND_S4U2SELF, .tgt = &tgt, .user = "tech"}, 1010);
    parts hop = {.kind = TICKETS_KIND_S4U2PROXY, .options = TICKETS_KDC_OPT_CNAME_IN_ADDL_TKT, .tgt = &tgt, .evidence = &evidence,
                 .service = "store"};
    granted(service, hop, 1020);

    record none;
    uint32_t error = ask(service, hop, 37000, &none);
    expect(error == TICKETS_KRB_AP_ERR_TKT_EXPIRED, "a refusal at the TGT's end");
    printf("at 37000 refused: %s (%" PRIu32 ")\n", tickets_error_name(error), error);
    print_held(service);
    return tgt;
}

/* Saves one service and makes the other the same. */
static void save_and_load(const tickets_service *from, tickets_service *to)
{
    uint8_t *saved = malloc(TICKETS_SAVED);
    expect(saved != NULL, "memory");
    tickets_answer answer = tickets_service_save(from, saved, TICKETS_SAVED);
    expect(answer.error == 0, "a save");
    printf("saved: %" PRIu32 " bytes\n", answer.value);
    expect(tickets_service_load(to, saved, answer.value) == 0, "a load");
    free(saved);

    expect(tickets_service_held(to) == tickets_service_held(from), "what is held after a load");
    puts("loaded, and held again:");
    for (uint32_t place = 0; place < tickets_service_held(to); place++)
        print_ticket(to, place);
}

int main(void)
{
    tickets_service first, second;
    check_library();
    record tgt = morning(&first);
    save_and_load(&first, &second);
    granted(&second, (parts){.kind = TICKETS_KIND_DIRECT, .tgt = &tgt, .service = "store"}, 36999);
    uint32_t held = tickets_service_held(&second), cleared = tickets_service_clear(&second, 37000);
    expect(cleared == held, "a clearing of all tickets");
    printf("cleared at 37000: %" PRIu32 " tickets\n", cleared);
    print_held(&second);
    return fflush(stdout) == 0 ? 0 : 1;
}
