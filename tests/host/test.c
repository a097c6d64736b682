/* The settlement library, called from C and held to the model. */
#include "groups.h"

static void all_groups(void)
{
    check_reader();
    check_step();
    check_step_tables();
    check_lists();
    check_run();
    check_cases();
    check_bags();
    check_early();
    check_packed();
    check_price_lists();
    check_box_prices();
}

int main(int argc, char **argv) { return run_tests(argc, argv, all_groups); }
