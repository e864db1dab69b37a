#include "desk.h"

#include <string.h>

enum { CODE = 6 }; /* bytes of a code */

#define FI0103 'F', 'I', '0', '1', '0', '3'
#define LW0101 'L', 'W', '0', '1', '0', '1'
#define TX0101 'T', 'X', '0', '1', '0', '1'
#define TX0103 'T', 'X', '0', '1', '0', '3'
#define TX0104 'T', 'X', '0', '1', '0', '4'
#define TX0105 'T', 'X', '0', '1', '0', '5'
#define TX0106 'T', 'X', '0', '1', '0', '6'
#define TX0107 'T', 'X', '0', '1', '0', '7'

const uint8_t desk_m8_codes[DESK_M8_CODES] = {
    FI0103, /* 20 */
    TX0101, /* 21 */
    FI0103, /* 22 */
    TX0104, /* 23 */
    TX0103, /* 24 */
    TX0106, /* 25 */
    TX0106, /* 26 */
    TX0106, /* 27 */
    LW0101, /* 28 */
    TX0107, /* 29 */
    FI0103, /* 30 */
    TX0107, /* 31 */
    TX0105, /* 32 */
    FI0103, /* 33 */
    FI0103, /* 34 */
    FI0103, /* 35 */
};

/* The codes of docs/M8-CODES.md, in its words. */
static const struct { char code[CODE + 1]; const char *meaning; } meanings[] = {
    {"FO0101", "invalid file format"},
    {"FI0101", "file submitted twice"},
    {"FI0102", "the sum of the amounts is not the control total"},
    {"FI0103", "format fault in a T record"},
    {"BE0101", "the account holder has given no right to submit"},
    {"BL0101", "fault of a bulk (a group of payments)"},
    {"LW0101", "no route can be found"},
    {"TX0101", "the account number in the order is not that of the account to be charged"},
    {"TX0102", "type of payment not permitted"},
    {"TX0103", "form of the charges not permitted"},
    {"TX0104", "kind of payment in the order not admitted"},
    {"TX0105", "currency not permitted"},
    {"TX0106", "details of the payee's bank not correct"},
    {"TX0107", "details of the payee missing, or in a transfer the payee's account number"},
    {"TX0201", "maximum number of faulty transactions reached"},
};

const char *desk_m8_meaning(const uint8_t *code)
{
    for (size_t i = 0; i < sizeof meanings / sizeof meanings[0]; i++)
        if (memcmp(meanings[i].code, code, CODE) == 0)
            return meanings[i].meaning;
    return NULL;
}
