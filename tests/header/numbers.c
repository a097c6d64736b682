/* The numbers of host/settlement.h are those of the specification. Nothing is run: it compiles, or a number differs. */
#include "settlement.h"

/* This test is of the version that has several price lists. */
_Static_assert(SETTLEMENT_VERSION == 3, "read what has changed");

#define IS(name, number) _Static_assert(SETTLEMENT_##name == (number), #name)

IS(MAX_BOXES, 16);
IS(MAX_GROCERS, 255);
IS(MAX_OFFERS, 500);
IS(MAX_TALLIES, 1000);
IS(MAX_LISTS, 7);
IS(MAX_WIDTH, 8);
IS(MAX_FILE, 102 * 512);
IS(CODE, 1 + 10);
IS(MAX_PRICES, 8 * 500);
IS(MAX_KNOWN, 8 * 16 * 500);
IS(MAX_WORKING, 8 * (255 + 1000));
IS(MAX_STATEMENT, 8 * 255);
IS(SIZES, 6);
IS(REPORT, 3);
IS(MAX_MESSAGES, 480);
IS(MAX_STEPS, 992);

IS(ACCEPTED, 0);
IS(BAD_LENGTH, 1);
IS(DAMAGED, 2);
IS(NOT_DUE, 3);
IS(BAD_HEADER, 4);
IS(SPARE_BYTE, 5);
IS(BAD_FIELD, 6);
IS(SHARED_NUMBER, 7);
IS(UNKNOWN_CODE, 8);
IS(COUNTED_TWICE, 9);
IS(SHORT, 20);
IS(OUT_OF_RANGE, 21);
IS(BAD_KIND, 22);
IS(BAD_BOXES, 23);
IS(EMPTY_MESSAGE, 24);
IS(ALREADY_DONE, 25);
IS(NOT_READY, 26);

IS(SEND_PRICES, 1);
IS(SWEEP_OWN, 2);
IS(RECEIVE_PRICES, 3);
IS(SEND_TOTALS, 4);
IS(ADD_OWN_TOTALS, 5);
IS(RECEIVE_TOTALS, 6);
