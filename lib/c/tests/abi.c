/* Prints the size of each public struct and the place of each field of it, as lib/c/tests/abi.txt has them. abi.inc is made of that file. A
 * field that the file lacks moves `reserved`, the last field of each output struct. */
#include <stdio.h>
#include <stddef.h>
#include "vt220.h"

#define SIZE(type) printf(#type " %zu\n", sizeof(type));
#define FIELD(type, field) printf(#type "." #field " %zu %zu\n", offsetof(type, field), sizeof(((type *)0)->field));

int main(void) {
#include "abi.inc"
    return 0;
}
