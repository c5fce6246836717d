/* The thin coil: a strike, a later choice, and the strike withdrawn. An engine that put back what the strike had removed would show (6, 3)
 * at the end. */
#include "belaykeel.h"

#include <stdio.h>
#include <string.h>

static uint32_t rows[BELAYKEEL_ROWS_WORDS];
static uint32_t memory[BELAYKEEL_MEMORY_WORDS];
static uint32_t offers[BELAYKEEL_OFFERS_WORDS];
static const uint8_t order[] = {0, 1};
static const uint32_t selected = 3; /* both fields */

#define GIVEN sheet, len, BELAYKEEL_SAC_1, order, sizeof order
#define LENT offers, BELAYKEEL_OFFERS_WORDS, rows, BELAYKEEL_ROWS_WORDS, memory, BELAYKEEL_MEMORY_WORDS

static void print(const char *call, uint32_t number)
{
    if (number != BELAYKEEL_ACCEPTED)
        printf("%s: refused %u\n", call, (unsigned)number);
    else
        printf("%s: (%u, %u)\n", call, (unsigned)offers[0], (unsigned)offers[1]);
}

/* What the session holds: how many events, the mask of selected fields, and each event as kind field/position. */
static void print_session(const belaykeel_session *session)
{
    printf("  count %u, selected %u, events:", (unsigned)session->count, (unsigned)session->selected);
    for (uint32_t k = 0; k < session->count && k < BELAYKEEL_EVENTS; k++) {
        const belaykeel_event *event = &session->events[k];
        printf(" %u %u/%u", (unsigned)event->kind, (unsigned)event->field, (unsigned)event->position);
    }
    printf("\n");
}

/* The sheet as a list of numbers. */
static void print_numbers(const uint8_t *sheet, size_t len)
{
    static uint32_t numbers[BELAYKEEL_SHEET_NUMBERS];
    belaykeel_answer answer = belaykeel_read(sheet, len, numbers, BELAYKEEL_SHEET_NUMBERS);
    printf("read %zu bytes: number %u, length %zu:", len, (unsigned)answer.number, answer.length);
    for (size_t k = 0; k < answer.length; k++)
        printf(" %u", (unsigned)numbers[k]);
    printf("\n");
}

int main(int argc, char **argv)
{
    static uint8_t sheet[BELAYKEEL_SHEET_BYTES + 1];
    FILE *file = argc == 2 ? fopen(argv[1], "rb") : NULL;
    if (!file) {
        fprintf(stderr, "usage: thin_coil SHEET-FILE, a sheet of two fields\n");
        return 2;
    }
    size_t len = fread(sheet, 1, sizeof sheet, file);
    fclose(file);

    print_numbers(sheet, len);
    print_numbers(sheet, len / 2);

    belaykeel_session session;
    memset(&session, 0xff, sizeof session); /* open does not read it */
    print("show before open", belaykeel_show(&session, GIVEN, LENT));
    print("open", belaykeel_open(&session, GIVEN, selected, LENT));
    print_session(&session);
    print("strike 0/2", belaykeel_strike(&session, GIVEN, 0, 2, LENT));
    print_session(&session);
    print("choose 1/1", belaykeel_choose(&session, GIVEN, 1, 1, LENT));
    print("choose 1/0", belaykeel_choose(&session, GIVEN, 1, 0, LENT));
    print("withdraw the strike", belaykeel_withdraw_strike(&session, GIVEN, 0, 2, LENT));
    print_session(&session);
    print("back", belaykeel_back(&session, GIVEN, LENT));
    print("coil on", belaykeel_coil_on(&session, GIVEN, LENT));
    print("back", belaykeel_back(&session, GIVEN, LENT));
    print("withdraw the choice", belaykeel_withdraw_choice(&session, GIVEN, 1, 0, LENT));
    return 0;
}
