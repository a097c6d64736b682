/* The calls of entries.h, called from C and held to a model. */
#include "call_groups.h"

static void all_groups(void)
{
    check_writer();
    check_messages();
    check_books();
    check_desk();
    check_late();
    check_edits();
    check_trials();
    check_store();
    check_forecast();
}

int main(int argc, char **argv) { return run_tests(argc, argv, all_groups); }
