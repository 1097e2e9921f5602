#include "tests.h"

#include <stdio.h>

/* The lowest mark by its definition. */
static void test_marks(void)
{
    unsigned marks, place;

    for (marks = 0; marks < 256; marks++) {
        for (place = 0; place < 8 && !(marks >> place & 1); place++)
            ;
        CHECK_NUMBER(panelrights_lowest_mark((uint8_t)marks), place);
    }
}

int main(void)
{
    test_names();
    test_machine();
    test_recipes();
    test_forms();
    test_agreement();
    test_explaining();
    test_reasons();
    test_records();
    test_reading();
    test_files();
    test_writing();
    test_blocks();
    test_marks();
    test_edges();
    printf("%lu checks\n", checks());
    return 0;
}
