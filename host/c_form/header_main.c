/* header.c as a program of its own: exit status 0, or what is wrong. Compiled as C and as C++. */
#include <stdio.h>

#include "header.h"

int main(void) {
    const char *wrong = header_wrong();
    if (wrong) {
        printf("not as docs/C-FORM.md says: %s\n", wrong);
    }
    return wrong ? 1 : 0;
}
