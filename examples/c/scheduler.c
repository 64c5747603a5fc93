/*
 * A scheduler in C: the charges and fees of one gas day, a flat-rate customer's month, and then
 * every function of keldrava.h at the ends of each argument's type and limit, with its refusals.
 */
#include <inttypes.h>
#include <stddef.h>
#include <stdio.h>
#include <string.h>

#include "keldrava.h"

/* The library lays its answers out as below; a compiler that does otherwise stops here. */
_Static_assert(sizeof(keldrava_answer) == 16 && offsetof(keldrava_answer, value) == 8,
               "layout of keldrava_answer");
_Static_assert(sizeof(keldrava_date_answer) == 16 && offsetof(keldrava_date_answer, day) == 12,
               "layout of keldrava_date_answer");

#define LENGTH(array) (sizeof(array) / sizeof((array)[0]))

enum { MOST_ARGUMENTS = 7 };

static void print_answer(keldrava_answer answer)
{
    if (answer.status == KELDRAVA_OK)
        printf("%" PRIu64 "\n", answer.value);
    else
        printf("refused by %" PRIu32 "\n", answer.status);
}

/* A charge in MJ, and its fee in forints with three decimals. */
static void print_charge(const char *what, keldrava_answer charge, keldrava_answer fee)
{
    printf("%-24s %6" PRIu64 " MJ %6" PRIu64 ".%03" PRIu64 " Ft\n",
           what, charge.value, fee.value / 1000, fee.value % 1000);
}

static void print_day(uint64_t number, uint64_t rate)
{
    static const struct {
        const char *trader;
        uint64_t nominated, actual;
    } nominations[] = {
        {"Aranka, nomination", 1000, 1120},
        {"Berta, nomination", 1000, 1121},
        {"Csilla, nomination", 64000, 50000},
    };
    keldrava_date_answer date = keldrava_date_of_day(number);

    printf("Gas day %" PRIu64 ", %04" PRIu32 "-%02" PRIu32 "-%02" PRIu32 ", %" PRIu64
           " thousandths of a forint for each MJ\n",
           number, date.year, date.month, date.day, rate);
    for (size_t i = 0; i < LENGTH(nominations); i++)
        print_charge(nominations[i].trader,
                     keldrava_nomination_charge(nominations[i].nominated, nominations[i].actual),
                     keldrava_nomination_fee(nominations[i].nominated, nominations[i].actual,
                                             rate));
    print_charge("Aranka, balance", keldrava_balance_charge(5049, 4948),
                 keldrava_balance_fee(5049, 4948, rate));
    print_charge("Berta, surplus, offers",
                 keldrava_offered_balance_charge(10000, 9000, 400, 300, 900, 900),
                 keldrava_offered_balance_fee(10000, 9000, 400, 300, 900, 900, rate));
    print_charge("Csilla, deficit, offers",
                 keldrava_offered_balance_charge(9000, 10000, 900, 900, 150, 100),
                 keldrava_offered_balance_fee(9000, 10000, 900, 900, 150, 100, rate));
}

/* The days of a flat-rate customer's month, and their sum. */
static void print_month(uint64_t litres, uint64_t year, uint64_t month)
{
    uint64_t sum = 0;
    uint64_t day = 1;
    keldrava_answer answer = keldrava_flat_rate_day(litres, year, month, day);

    printf("\nFlat rate of %" PRIu64 " litres in %04" PRIu64 "-%02" PRIu64 "\n",
           litres, year, month);
    while (answer.status == KELDRAVA_OK) {
        printf("%2" PRIu64 " %" PRIu64 "\n", day, answer.value);
        sum += answer.value;
        day++;
        answer = keldrava_flat_rate_day(litres, year, month, day);
    }
    printf("sum %" PRIu64 "\n", sum);
}

static keldrava_answer nomination_charge(const uint64_t *a)
{
    return keldrava_nomination_charge(a[0], a[1]);
}

static keldrava_answer nomination_fee(const uint64_t *a)
{
    return keldrava_nomination_fee(a[0], a[1], a[2]);
}

static keldrava_answer balance_charge(const uint64_t *a)
{
    return keldrava_balance_charge(a[0], a[1]);
}

static keldrava_answer balance_fee(const uint64_t *a)
{
    return keldrava_balance_fee(a[0], a[1], a[2]);
}

static keldrava_answer offered_balance_charge(const uint64_t *a)
{
    return keldrava_offered_balance_charge(a[0], a[1], a[2], a[3], a[4], a[5]);
}

static keldrava_answer offered_balance_fee(const uint64_t *a)
{
    return keldrava_offered_balance_fee(a[0], a[1], a[2], a[3], a[4], a[5], a[6]);
}

static keldrava_answer day_number(const uint64_t *a)
{
    return keldrava_day_number(a[0], a[1], a[2]);
}

/* The date as one number, so that it prints as the others do: 20091001 for 1 October 2009. */
static keldrava_answer date_of_day(const uint64_t *a)
{
    keldrava_date_answer date = keldrava_date_of_day(a[0]);
    uint64_t number = (uint64_t)date.year * 10000 + date.month * 100 + date.day;
    keldrava_answer answer = {date.status, number};

    return answer;
}

static keldrava_answer flat_rate_day(const uint64_t *a)
{
    return keldrava_flat_rate_day(a[0], a[1], a[2], a[3]);
}

/* A function, arguments that it accepts, and the largest that it accepts in each place. */
struct call {
    const char *name;
    keldrava_answer (*make)(const uint64_t *);
    size_t count;
    uint64_t accepted[MOST_ARGUMENTS];
    uint64_t largest[MOST_ARGUMENTS];
};

#define MJ KELDRAVA_MOST_MJ

static const struct call calls[] = {
    {"nomination_charge", nomination_charge, 2, {1000, 1121}, {MJ, MJ}},
    {"nomination_fee", nomination_fee, 3, {1000, 1121, 250}, {MJ, MJ, KELDRAVA_MOST_RATE}},
    {"balance_charge", balance_charge, 2, {5049, 4948}, {MJ, MJ}},
    {"balance_fee", balance_fee, 3, {5049, 4948, 250}, {MJ, MJ, KELDRAVA_MOST_RATE}},
    {"offered_balance_charge", offered_balance_charge, 6,
     {10000, 9000, 400, 300, 20, 10}, {MJ, MJ, MJ, MJ, MJ, MJ}},
    {"offered_balance_fee", offered_balance_fee, 7,
     {10000, 9000, 400, 300, 20, 10, 250}, {MJ, MJ, MJ, MJ, MJ, MJ, KELDRAVA_MOST_RATE}},
    {"day_number", day_number, 3, {2009, 10, 1}, {2099, 12, 31}},
    {"date_of_day", date_of_day, 1, {3561}, {KELDRAVA_LAST_DAY}},
    {"flat_rate_day", flat_rate_day, 4,
     {1000000, 2009, 10, 1}, {KELDRAVA_MOST_LITRES, 2099, 12, 31}},
};

static void print_call(const struct call *call, const uint64_t *arguments)
{
    printf("%s(", call->name);
    for (size_t i = 0; i < call->count; i++)
        printf("%s%" PRIu64, i == 0 ? "" : ", ", arguments[i]);
    printf(") ");
    print_answer(call->make(arguments));
}

static void print_all_at(const struct call *call, uint64_t number)
{
    uint64_t arguments[MOST_ARGUMENTS];

    for (size_t i = 0; i < call->count; i++)
        arguments[i] = number;
    print_call(call, arguments);
}

/*
 * Each argument in turn at the ends of its type and at its limit, with the others as accepted; then
 * all together.
 */
static void print_ends(const struct call *call)
{
    uint64_t arguments[MOST_ARGUMENTS];

    printf("\n");
    print_call(call, call->accepted);
    for (size_t i = 0; i < call->count; i++) {
        const uint64_t ends[] = {0, call->largest[i], call->largest[i] + 1, UINT64_MAX};

        memcpy(arguments, call->accepted, sizeof arguments);
        for (size_t k = 0; k < LENGTH(ends); k++) {
            arguments[i] = ends[k];
            print_call(call, arguments);
        }
    }
    print_call(call, call->largest);
    print_all_at(call, 0);
    print_all_at(call, UINT64_MAX);
}

int main(void)
{
    keldrava_answer today = keldrava_day_number(2009, 10, 1);

    if (today.status != KELDRAVA_OK)
        return 1;
    print_day(today.value, 250);
    print_month(1000003, 2008, 2);
    for (size_t i = 0; i < LENGTH(calls); i++)
        print_ends(&calls[i]);
    return 0;
}
