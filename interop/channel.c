/* Sockets of the loopback, and base64 lines over them. */
#define _POSIX_C_SOURCE 200112L
#include "channel.h"

#include <arpa/inet.h>
#include <netinet/in.h>
#include <stdlib.h>
#include <string.h>
#include <sys/socket.h>
#include <unistd.h>

static const char digits[] = "ABCDEFGHIJKLMNOPQRSTUVWXYZabcdefghijklmnopqrstuvwxyz0123456789+/";

void write_base64(FILE *out, const struct text *text)
{
    size_t at;
    for (at = 0; at < text->len; at += 3) {
        size_t left = text->len - at;
        unsigned long group = (unsigned long)text->bytes[at] << 16;
        group |= left > 1 ? (unsigned long)text->bytes[at + 1] << 8 : 0;
        group |= left > 2 ? (unsigned long)text->bytes[at + 2] : 0;
        fputc(digits[group >> 18 & 63], out);
        fputc(digits[group >> 12 & 63], out);
        fputc(left > 1 ? digits[group >> 6 & 63] : '=', out);
        fputc(left > 2 ? digits[group & 63] : '=', out);
    }
    fputc('\n', out);
    fflush(out);
}

int read_base64(const char *line, struct text *text)
{
    unsigned long group = 0;
    int bits = 0;
    text->len = 0;
    for (; *line != '\0' && *line != '='; line++) {
        const char *digit = strchr(digits, *line);
        if (digit == NULL || text->len == sizeof text->bytes)
            return 0;
        group = (group << 6 | (unsigned long)(digit - digits)) & 0xffffff;
        bits += 6;
        if (bits >= 8) {
            bits -= 8;
            text->bytes[text->len++] = (uint8_t)(group >> bits & 255);
        }
    }
    return 1;
}

int read_line(FILE *in, char *line, size_t room)
{
    if (fgets(line, (int)room, in) == NULL)
        return 0;
    line[strcspn(line, "\r\n")] = '\0';
    return 1;
}

uint32_t read_message(FILE *in, struct text *message)
{
    char line[4096];
    return read_line(in, line, sizeof line) && read_base64(line, message) ? FE2O3_OK : OTHER_SIDE_ENDED;
}

int random_bytes(uint8_t *bytes, size_t len)
{
    FILE *source = fopen("/dev/urandom", "rb");
    size_t read = source == NULL ? 0 : fread(bytes, 1, len, source);
    if (source != NULL)
        fclose(source);
    return read == len;
}

int loopback(const char *port, int listens)
{
    struct sockaddr_in address;
    const struct sockaddr *where = (const struct sockaddr *)&address;
    int channel = socket(AF_INET, SOCK_STREAM, 0), failed;
    memset(&address, 0, sizeof address);
    address.sin_family = AF_INET;
    address.sin_addr.s_addr = htonl(INADDR_LOOPBACK);
    address.sin_port = htons((uint16_t)atoi(port));
    if (channel < 0)
        return -1;
    if (listens)
        failed = bind(channel, where, sizeof address) != 0 || listen(channel, 8) != 0;
    else
        failed = connect(channel, where, sizeof address) != 0;
    if (failed)
        close(channel);
    return failed ? -1 : channel;
}
