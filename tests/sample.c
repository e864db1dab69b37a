#include "sample.h"

#include <string.h>

const char annex_ii[ANNEX_II_BYTES + 1] =
    "AFEGALDZAOAGGQARAMAWAZETAUBSBHBDBBBZBMBTBOBABWBRBNBIKYCLCNCRCWDO"
    "DJCISVECERSZFKFOFJPFGAGMGEGHGIGLGBGTGGGNGYHTHNHKINIDIQIMILJMJPYE"
    "JEJOKHCMCACVKZQAKEKGCOCDXKKWLALSLBLYMOMGMWMYMVMLMAMUMXMDMNMEMZNA"
    "NPNZNIANNENGMKOMPKPWPAPGPYPEPHPRCGRWRUSBZMWSSASNRSSCSLZWSGSOSJLK"
    "SHKNZAKRSSSRTJTWTZTHTGTOTTTDTNTRTMTCUGUAUYUSUZVUAEVNBYCF";
const char annex_i[ANNEX_I_BYTES + 1] = "ARBOBRCLCRDOSVECGTGBHNCACOMXNIPAPYPEPRUYUSVE";

size_t file_bytes(size_t payments) { return 256 + payments * 768 + 256; }

uint64_t next_random(uint64_t *state)
{
    uint64_t z = (*state += 0x9E3779B97F4A7C15u);
    z = (z ^ (z >> 30)) * 0xBF58476D1CE4E5B9u;
    z = (z ^ (z >> 27)) * 0x94D049BB133111EBu;
    return z ^ (z >> 31);
}

void put(uint8_t *at, const char *text) { memcpy(at, text, strlen(text)); }

void put_number(uint8_t *at, int width, uint64_t number)
{
    for (int i = width; i-- > 0; number /= 10)
        at[i] = (uint8_t)('0' + number % 10);
}

void sample_q(uint8_t *q)
{
    memset(q, ' ', 256);
    put(q, "0256Q50400042");
    put(q + 13, "0000000012");              /* Q4 */
    put(q + 23, "STADTKASSE MUSTERSTADT");  /* Q5, four lines */
    put(q + 58, "ABT. LOEHNE");
    put(q + 93, "RATHAUSPLATZ 1");
    put(q + 128, "12345 MUSTERSTADT");
    put(q + 163, "24022907240229N0000000000");
}

/* T8, T9a, T9b: the bank of a transfer's payee. */
static void sample_bank(uint8_t *t, payment_kind kind, const char *country)
{
    if (kind == CODE_AND_BANK) {
        put(t + 53, "SC123456");
        put(t + 67, "FIRST BANK OF COMMERCE");
        put(t + 137, "HARBOUR STREET 12");
    } else {
        put(t + 53, "ABCDDEFF");
    }
    if (kind != BIC_ALONE)
        memcpy(t + 64, country, 2);
}

void sample_t(uint8_t *t, payment_kind kind, const char *country, uint64_t euros, unsigned cents)
{
    memset(t, ' ', 768);
    put(t, "0768T50400042EUR0012345678");
    put(t + 26, "00000000000000   0000000000");                      /* T5, T6, T7a, T7b */
    if (kind != CHEQUE) {
        sample_bank(t, kind, country);
        put(t + 420, "/GB29NWBK60161331926819");                     /* T12 */
    }
    memcpy(t + 207, country, 2);                                     /* T10a */
    put(t + 210, "MARIA EXAMPLE");                                   /* T10b, four lines */
    put(t + 245, "SECOND LINE");
    put(t + 280, "LONG ROAD 7");
    put(t + 315, "SOMEWHERE");
    put(t + 455, "EUR");
    put_number(t + 458, 14, euros);
    put_number(t + 472, 2, cents);
    put(t + 474, "0");
    put(t + 475, "SALARY FEBRUARY 2024");                            /* T15 */
    put(t + 615, "00000000");                                        /* T16 to T19 */
    put(t + 648, kind == CHEQUE ? "0020" : "0000");                  /* T21, T22 */
    put(t + 652, "REFERENCE 000001");                                /* T23 */
    put(t + 714, "0");
    put(t + 766, "00");
}

uint64_t euros_of(const uint8_t *file, size_t payments)
{
    uint64_t euros = 0;
    for (size_t p = 0; p < payments; p++) {
        uint64_t amount = 0;
        for (int i = 458; i <= 471; i++)
            amount = amount * 10 + (uint64_t)(file[256 + p * 768 + i] - '0');
        euros += amount;
    }
    return euros;
}

void sample_z(uint8_t *file, size_t payments)
{
    uint8_t *z = file + 256 + payments * 768;
    memset(z, ' ', 256);
    put(z, "0256Z");
    put_number(z + 5, 15, euros_of(file, payments));
    put_number(z + 20, 15, payments);
}
