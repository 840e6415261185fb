// A short night at a telescope. A setup is admitted under one driver, the driver is swapped at midnight, and the call is
// refused with 13: the mount stays still until the setup is begun again under the new driver.
#include "vaskelbi.h"
#include <inttypes.h>
#include <stdio.h>
#include <stdlib.h>

// The drivers count angles up to 12 and up to 24 hours.
enum { DOMAIN = 7, FIRST = 100, ANCHOR = 30, ANGLE = 31, OLD_DRIVER = 12, NEW_DRIVER = 24, HOURS = 6 };

static vaskelbi_registry registry;
static vaskelbi_answer out;

// Ends the night on a refusal that the story has no place for.
static void accepted(uint64_t status) {
    if (status != VASKELBI_ACCEPTED) {
        printf("refused: %" PRIu64 "\n", status);
        exit(1);
    }
}

static uint64_t call(vaskelbi_invocation i) {
    return vaskelbi_call(&registry, i.domain, i.id, i.generation, i.revision, i.argument, &out);
}

static vaskelbi_invocation begin_and_admit(uint64_t id, uint64_t argument) {
    accepted(vaskelbi_begin(&registry, id, &out));
    vaskelbi_ticket t = out.ticket;
    printf("setup begins, generation %" PRIu64 "\n", t.generation);
    accepted(vaskelbi_admit(&registry, t.domain, t.id, t.generation, t.kind, argument, &out));
    printf("setup admitted: slew to %" PRIu64 " h\n", out.invocation.argument);
    return out.invocation;
}

int main(void) {
    const vaskelbi_realms realms = {.edition = VASKELBI_FIRST_EDITION}; // every key in realm 0
    const uint64_t none[1] = {0}, provisions[] = {ANGLE};
    vaskelbi_open(&registry, DOMAIN, FIRST);
    accepted(vaskelbi_register(&registry, ANCHOR, 0, OLD_DRIVER, &realms, VASKELBI_REALM_NUMBERS(0), none, 0, provisions, 1, &out));
    uint64_t id = out.number[0];
    printf("evening: driver %d is registered, id %" PRIu64 "\n", OLD_DRIVER, id);
    vaskelbi_invocation invocation = begin_and_admit(id, HOURS);

    accepted(vaskelbi_replace(&registry, id, NEW_DRIVER, &out));
    printf("midnight: driver %" PRIu64 " goes, driver %d comes\n", out.number[0], NEW_DRIVER);
    uint64_t refusal = call(invocation);
    if (refusal != VASKELBI_STALE) return 1;
    printf("the call is refused with %" PRIu64 ", the mount stays still\n", refusal);

    accepted(vaskelbi_fail(&registry, id));
    accepted(vaskelbi_finish(&registry, id));
    invocation = begin_and_admit(id, HOURS);
    accepted(call(invocation));
    printf("the call is accepted: driver %" PRIu64 " slews to %" PRIu64 " h\n", out.receipt.payload, out.receipt.argument);
    accepted(vaskelbi_offer(&registry, id, ANGLE, 0, out.receipt.argument));
    accepted(vaskelbi_ready(&registry, id));
    accepted(vaskelbi_visible(&registry, ANGLE, 0, &out));
    printf("the driver is ready, its angle is %" PRIu64 " h\n", out.number[0]);

    static uint8_t text[1024];
    accepted(vaskelbi_write_text(&registry, text, sizeof text, &out));
    printf("the registry as text:\n%.*s", (int)out.number[0], (const char *)text);
    return 0;
}
