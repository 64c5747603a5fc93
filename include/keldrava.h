/*
 * Deviation charges, their fees and the calendar of the station ledger, for C and C++.
 *
 * Every function takes plain numbers, returns its answer by value, keeps nothing and touches no
 * memory of the caller's, so that it may be called from any thread at any time. No number can break
 * a function: what the rules do not allow is refused.
 *
 * Each answer begins with a status: 0 (KELDRAVA_OK), or the number of the refusal, and then all
 * else in it is 0.
 *
 *     KELDRAVA_LITRES       6   more than 1,000,000,000 litres
 *     KELDRAVA_NO_SUCH_DAY  9   a date that is no day from 1 January 2000 to 31 December 2099,
 *                               or a day number above 36,524
 *     KELDRAVA_ENERGY      10   a quantity above 1,000,000,000,000 MJ, or a rate above 1,000,000
 *
 * Every argument is a uint64_t. C turns an integer of any other type into one by well-defined rules
 * that never make a bad number good: a negative one becomes larger than every limit, and is
 * refused.
 *
 * docs/CHARGES.md and docs/CALENDAR.md have the rules. Link with libcapi.a (docs/C-INTERFACE.md has
 * the command).
 */
#ifndef KELDRAVA_H
#define KELDRAVA_H

#include <stdint.h>

#ifdef __cplusplus
extern "C" {
#endif

/* The statuses that these functions return. */
#define KELDRAVA_OK 0u
#define KELDRAVA_LITRES 6u
#define KELDRAVA_NO_SUCH_DAY 9u
#define KELDRAVA_ENERGY 10u

/* The limits of the arguments: each is the largest number that is accepted. */
#define KELDRAVA_MOST_MJ UINT64_C(1000000000000)
#define KELDRAVA_MOST_RATE UINT64_C(1000000)
#define KELDRAVA_MOST_LITRES UINT64_C(1000000000)
#define KELDRAVA_LAST_DAY UINT64_C(36524)

/* A status, and a value, which is 0 unless the status is KELDRAVA_OK. */
typedef struct keldrava_answer {
    uint32_t status;
    uint64_t value;
} keldrava_answer;

/* A status, and a date, which is 0, 0, 0 unless the status is KELDRAVA_OK. */
typedef struct keldrava_date_answer {
    uint32_t status;
    uint32_t year;
    uint32_t month;
    uint32_t day;
} keldrava_date_answer;

/*
 * Charges, in whole MJ. Each quantity is in MJ, 0 to KELDRAVA_MOST_MJ; else the call is refused by
 * KELDRAVA_ENERGY. A charge is the deviation beyond what is tolerated: 0 exactly where the
 * deviation is at most that, and never more than the deviation.
 */

/*
 * Nomination: the deviation is |actual - nominated|, and 12 per cent of nominated, rounded down,
 * are tolerated.
 */
keldrava_answer keldrava_nomination_charge(uint64_t nominated, uint64_t actual);

/*
 * Balance without offers: the deviation is |source - consumption|, and 2 per cent of source,
 * rounded down, are tolerated.
 */
keldrava_answer keldrava_balance_charge(uint64_t source, uint64_t consumption);

/*
 * Balance with offers: as without, and what is tolerated is the larger of those 2 per cent and the
 * offers that the balance may use. A surplus (source not below consumption) uses the negative
 * offers, a deficit the positive ones; of each direction HEG and HEGO are added.
 */
keldrava_answer keldrava_offered_balance_charge(uint64_t source, uint64_t consumption,
                                                uint64_t negative_heg, uint64_t negative_hego,
                                                uint64_t positive_heg, uint64_t positive_hego);

/*
 * Fees, in thousandths of a forint: the charge by the same rule, times the rate. The rate is in
 * thousandths of a forint for each MJ, 0 to KELDRAVA_MOST_RATE; else the call is refused by
 * KELDRAVA_ENERGY. A fee is at most 10 to the power of 18.
 */

keldrava_answer keldrava_nomination_fee(uint64_t nominated, uint64_t actual, uint64_t rate);

keldrava_answer keldrava_balance_fee(uint64_t source, uint64_t consumption, uint64_t rate);

keldrava_answer keldrava_offered_balance_fee(uint64_t source, uint64_t consumption,
                                             uint64_t negative_heg, uint64_t negative_hego,
                                             uint64_t positive_heg, uint64_t positive_hego,
                                             uint64_t rate);

/*
 * The calendar: day 0 is 1 January 2000 and day KELDRAVA_LAST_DAY is 31 December 2099. The two
 * functions are each the other's inverse over this whole range.
 */

/*
 * The number of a day. The year is 2000 to 2099, the month 1 (January) to 12, the day 1 to the
 * length of that month; else the call is refused by KELDRAVA_NO_SUCH_DAY.
 */
keldrava_answer keldrava_day_number(uint64_t year, uint64_t month, uint64_t day);

/*
 * The date of a day number, 0 to KELDRAVA_LAST_DAY; else the call is refused by
 * KELDRAVA_NO_SUCH_DAY.
 */
keldrava_date_answer keldrava_date_of_day(uint64_t number);

/*
 * The litres of one day of a flat-rate customer, given those of the whole month: 0 to
 * KELDRAVA_MOST_LITRES, else the call is refused by KELDRAVA_LITRES; and then a date as above, else
 * it is refused by KELDRAVA_NO_SUCH_DAY. The days of a month sum to its litres, and no two of them
 * differ by more than one litre.
 */
keldrava_answer keldrava_flat_rate_day(uint64_t litres, uint64_t year, uint64_t month,
                                       uint64_t day);

#ifdef __cplusplus
}
#endif

#endif
