/* Whether this header is that of the library: each struct is as long in both, each status of the header has a text, and
 * no two have one. Prints what does not fit, and the version of the library, and ends with 1 where something does not. */
#include "fe2o3_sasl.h"

#include <stdio.h>
#include <string.h>

static int same(const struct fe2o3_text *one, const struct fe2o3_text *other)
{
    return one->bytes_len == other->bytes_len && memcmp(one->bytes, other->bytes, one->bytes_len) == 0;
}

/* How many statuses below this one have its text, where it has one. */
static int shared(uint32_t status, const struct fe2o3_text *unknown)
{
    struct fe2o3_text text = FE2O3_TEXT_INIT, other = FE2O3_TEXT_INIT;
    int found = 0;
    fe2o3_status_text(status, &text);
    for (uint32_t below = 0; below < status && !same(&text, unknown); below++) {
        fe2o3_status_text(below, &other);
        if (same(&text, &other)) {
            printf("statuses %u and %u have one text\n", (unsigned)below, (unsigned)status);
            found++;
        }
    }
    return found;
}

int main(void)
{
    const size_t sizes[] = {sizeof(struct fe2o3_login), sizeof(struct fe2o3_scram_client),
        sizeof(struct fe2o3_scram_keys), sizeof(struct fe2o3_scram_server), sizeof(struct fe2o3_scram_record),
        sizeof(struct fe2o3_connection), sizeof(struct fe2o3_sasl_login), sizeof(struct fe2o3_sasl_client),
        sizeof(struct fe2o3_sasl_frame_view), sizeof(struct fe2o3_sasl_server_config), sizeof(struct fe2o3_sasl_server),
        sizeof(struct fe2o3_scram_rules)};
    const uint32_t structs = sizeof sizes / sizeof sizes[0];
    const uint32_t statuses[] = {FE2O3_OK, FE2O3_OUT_OF_MEMORY, FE2O3_ROOM_TOO_SMALL, FE2O3_NO_KEYS,
        FE2O3_CLIENT_UTF8_ERROR, FE2O3_CLIENT_SERVER_SIGNATURE_MISMATCH, FE2O3_SERVER_UTF8_ERROR,
        FE2O3_SERVER_AUTHENTICATION_FAILED, FE2O3_RECORD_PARTS_MISMATCH, FE2O3_RECORD_KEY_LENGTH_MISMATCH,
        FE2O3_SERVER_ERROR, FE2O3_CHANNEL_DATA_LENGTH, FE2O3_NO_SUCH_CHANNEL, FE2O3_EMPTY_PASSWORD};
    struct fe2o3_text unknown = FE2O3_TEXT_INIT, text = FE2O3_TEXT_INIT;
    uint32_t version = fe2o3_version();
    int differences = 0;

    for (uint32_t which = 0; which <= structs; which++) {
        size_t wanted = which < structs ? sizes[which] : 0;
        if (fe2o3_size(which) != wanted) {
            printf("struct %u: %lu bytes there, %lu here\n", (unsigned)which, (unsigned long)fe2o3_size(which),
                (unsigned long)wanted);
            differences++;
        }
    }
    fe2o3_status_text(UINT32_MAX, &unknown);
    for (size_t place = 0; place < sizeof statuses / sizeof statuses[0]; place++) {
        fe2o3_status_text(statuses[place], &text);
        /* (its length counts the zero at its end) */
        if (text.bytes_len == 0 || memchr(text.bytes, 0, text.bytes_len) != text.bytes + text.bytes_len - 1
            || strcmp((const char *)text.bytes, (const char *)unknown.bytes) == 0) {
            printf("status %u has no text\n", (unsigned)statuses[place]);
            differences++;
        }
    }
    for (uint32_t status = 0; status < 256; status++)
        differences += shared(status, &unknown);
    printf("version %u.%u.%u\n", (unsigned)(version / 10000), (unsigned)(version / 100 % 100),
        (unsigned)(version % 100));
    return differences != 0;
}
