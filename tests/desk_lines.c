/*
 * Lines typed at the desk (examples/desk), at the limits of what it takes, each with the answer expected. A line that is
 * refused must not change a byte of the desk.
 */
#include "desk_lines/parts.h"
#include "support/checks.h"
#include "typing/folder.h"

int main(void)
{
    enter_folder();
    check_lines();
    check_sheets();
    check_rows();
    check_fills();
    check_reading();
    check_nodes();
    check_names();
    check_questions();
    check_plain();
    check_changes();
    check_ranges();
    check_ways();
    check_cards();
    check_refusals();
    leave_folder();
    return finish_checks();
}
