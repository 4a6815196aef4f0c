/* The tests of the C form. The argument is the text of the cases. The last line is 'N passed, M failed'. */
#include <stdio.h>

#include "check.h"
#include "header.h"

static void header_tests(void) {
    const char *wrong;
    test_begin();
    wrong = header_wrong();
    check(wrong == NULL, "not as docs/C-FORM.md says: %s", wrong ? wrong : "");
    test_end("the header's names and accessors");
}

int main(int argc, char **argv) {
    if (argc != 2) {
        printf("usage: tests CASES\n0 passed, 1 failed\n");
        return 1;
    }
    fences_up();
    header_tests();
    length_tests();
    long_length_tests();
    record_tests();
    image_tests();
    reason_tests();
    case_tests(argv[1]);
    return tests_counted();
}
