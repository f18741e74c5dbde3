/*
 * The layout of every struct, and every function called from C: the screen lines of document 01, of a file sent, of one
 * that its sender suspects in part, and of a doubtful ledger that is too short. The readers and the console
 * print nothing.
 */
#include "../cobnutter.h"

#include <stdio.h>
#include <string.h>

#define SIZE(type, n) _Static_assert(sizeof(type) == (n), #type)
#define AT(type, field, n) _Static_assert(offsetof(type, field) == (n), #type "." #field)

SIZE(cob_channel, 24);
AT(cob_channel, state, 0);
AT(cob_channel, held, 1);
AT(cob_channel, next, 8);
AT(cob_channel, left, 16);

SIZE(cob_transfer, 2600);
AT(cob_transfer, len, 0);
AT(cob_transfer, pairs, 8);
AT(cob_transfer, count, 16);
AT(cob_transfer, fault, 24);
AT(cob_transfer, on, 32);
AT(cob_transfer, heads, 40);
AT(cob_transfer, channels, 1064);

SIZE(cob_started, 2608);
AT(cob_started, transfer, 0);
AT(cob_started, refused, 2600);

SIZE(cob_received, 2616);
AT(cob_received, transfer, 0);
AT(cob_received, taken, 2600);
AT(cob_received, verdict, 2608);
AT(cob_received, refused, 2609);

SIZE(cob_screen, 56);
AT(cob_screen, ended, 0);
AT(cob_screen, count, 8);
AT(cob_screen, fault, 16);
AT(cob_screen, on, 24);
AT(cob_screen, bytes, 32);
AT(cob_screen, doubtful, 40);
AT(cob_screen, verdict, 48);
AT(cob_screen, refused, 49);

SIZE(cob_written, 16);
AT(cob_written, length, 0);
AT(cob_written, refused, 8);

SIZE(cob_sender, 536);
AT(cob_sender, len, 0);
AT(cob_sender, count, 8);
AT(cob_sender, size, 16);
AT(cob_sender, given, 24);

SIZE(cob_begun, 544);
AT(cob_begun, sender, 0);
AT(cob_begun, refused, 536);

SIZE(cob_sent, 552);
AT(cob_sent, sender, 0);
AT(cob_sent, length, 536);
AT(cob_sent, refused, 544);

SIZE(cob_fields, 24);
AT(cob_fields, length, 0);
AT(cob_fields, third, 8);
AT(cob_fields, descriptor, 16);
AT(cob_fields, is_eodc, 17);
AT(cob_fields, refused, 18);

SIZE(cob_command, 24);
AT(cob_command, from, 0);
AT(cob_command, to, 8);
AT(cob_command, verb, 16);
AT(cob_command, refused, 17);

SIZE(cob_reply, 2);
AT(cob_reply, digit, 0);
AT(cob_reply, refused, 1);

SIZE(cob_list, 16);
AT(cob_list, count, 0);
AT(cob_list, refused, 8);

SIZE(cob_found, 24);
AT(cob_found, value, 0);
AT(cob_found, next, 8);
AT(cob_found, found, 16);

SIZE(cob_loaded_for, 16);
AT(cob_loaded_for, length, 0);
AT(cob_loaded_for, refused, 8);

SIZE(cob_console, 3);
AT(cob_console, mode_e, 0);
AT(cob_console, endpoint, 1);
AT(cob_console, running, 2);

SIZE(cob_console_answer, 8);
AT(cob_console_answer, console, 0);
AT(cob_console_answer, code, 4);
AT(cob_console_answer, suspect, 6);

static cob_transfer transfer;
static uint8_t file[8];
static uint64_t claimed[2], doubtful[2];

static int start(void)
{
    cob_started started = cob_start(sizeof file, claimed, 2, doubtful, 2);
    transfer = started.transfer;
    return started.refused == 0 && claimed[1] == 0 && doubtful[1] == 0;
}

static cob_screen shown(void)
{
    return cob_shown(transfer, claimed, 2, doubtful, 2);
}

/* A piece on a channel, then the screen line. */
static int piece(uint64_t channel, const uint8_t *bytes, size_t length)
{
    uint8_t line[COB_SCREEN_LINE];
    cob_received received =
        cob_receive(transfer, channel, bytes, length, file, sizeof file, claimed, 2, doubtful, 2);
    transfer = received.transfer;
    cob_written screen = cob_screen_line(transfer, claimed, 2, doubtful, 2, line, sizeof line);
    fwrite(line, 1, screen.length, stdout);
    return received.refused == 0 && received.taken == length && received.verdict == shown().verdict;
}

static int block(uint64_t channel, uint8_t descriptor, uint64_t third, const char *payload)
{
    uint8_t bytes[COB_HEADER_LENGTH + sizeof file];
    size_t length = strlen(payload);
    cob_written header = cob_header_write(descriptor, length, third, bytes, sizeof bytes);
    memcpy(bytes + header.length, payload, length);
    return header.refused == 0 && piece(channel, bytes, header.length + length);
}

#define TEXT(s) (const uint8_t *)(s), sizeof(s) - 1
#define SENT "321dialp"

static cob_sender sender;

/* All blocks of a channel, into the transfer. */
static int send_channel(uint64_t channel)
{
    uint8_t out[COB_HEADER_LENGTH + 3];
    cob_sent sent = cob_sender_next(sender, channel, 2, 3, TEXT(SENT), out, sizeof out);
    while (sent.refused == 0 && piece(channel, out, sent.length))
        sent = cob_sender_next(sent.sender, channel, 2, 3, TEXT(SENT), out, sizeof out);
    sender = sent.sender;
    return sent.refused == 74;
}

static int sending(void)
{
    uint8_t out[COB_HEADER_LENGTH];
    cob_begun begun = cob_sender_begin(sizeof file, 2, 3);
    sender = begun.sender;
    return start() && begun.refused == 0 && cob_sender_begin(sizeof file, 65, 3).refused == 71 &&
           cob_sender_next(sender, 0, 2, 4, TEXT(SENT), out, sizeof out).refused == 71 &&
           cob_sender_next(sender, 2, 2, 3, TEXT(SENT), out, sizeof out).refused == 73 &&
           cob_sender_next(sender, 0, 2, 3, TEXT(SENT), out, sizeof out).refused == 55 && send_channel(1) &&
           send_channel(0) && sender.given[0] == 3 && sender.given[1] == 2 && memcmp(file, SENT, sizeof file) == 0;
}

static int control(void)
{
    static const char hosts[] = "10,0,0,1,0,20 192,0,2,1,19,137";
    uint64_t list[COB_HOST_LIMIT];
    uint64_t second = (uint64_t)0xc0000201 << 16 | 0x1389;
    cob_command command = cob_line_read(TEXT("retr a b \r\n"));
    cob_list read = cob_hosts_read(TEXT(hosts), list, COB_HOST_LIMIT);
    cob_found found = cob_host_at(TEXT(hosts), 14);
    return command.refused == 0 && command.verb == 5 && command.from == 5 && command.to == 9 &&
           cob_line_read(TEXT("PASV \r\n")).refused == 35 && cob_reply_class(226).digit == 2 &&
           cob_reply_class(600).refused == 36 && read.refused == 0 && read.count == 2 && list[1] == second &&
           found.found == 1 && found.value == second && found.next == sizeof hosts - 1 &&
           cob_host_at(TEXT("10,0,0,1,4,0"), 0).found == 1 && cob_host_at(TEXT("10,0,0,1,0,0"), 0).found == 0 &&
           cob_host_at(TEXT("010,0,0,1,4,0"), 0).found == 0 &&
           cob_hosts_read(TEXT("10,0,0,1,4,0 10,0,0,1,04,0"), list, COB_HOST_LIMIT).refused == 41 && list[0] == 0;
}

static int forms(void)
{
    uint64_t from[4], to[2];
    uint8_t out[32];
    cob_fields fields = cob_header_read(TEXT("\x08\0\0\0\0\0\0\0\x05\0\0\0\0\0\0\x01\0"));
    int read = cob_ranges_read(TEXT("60-89,0-59,5-5"), from, 4);
    cob_written text = cob_ranges_write(from, 4, out, sizeof out);
    int same = text.length == 4 && memcmp(out, "0-89", 4) == 0;
    cob_written saved = cob_saved_write(from, 4, out, sizeof out);
    return fields.refused == 0 && fields.descriptor == 8 && fields.is_eodc == 0 && fields.length == 5 &&
           fields.third == 256 && read == 0 && same && saved.length == 22 &&
           cob_saved_read(out, saved.length, to, 2) == 0 && to[0] == 0 && to[1] == 90;
}

/* Bytes 0 to 89 of a file of 100, as kind 1, as kind 2 and back. */
static int kinds(void)
{
    static const uint64_t ranges[] = {0, 90};
    uint64_t to[] = {7, 7};
    uint8_t one[22], two[30], back[22];
    cob_written saved = cob_saved_write(ranges, 2, one, sizeof one);
    cob_written converted = cob_saved_to_2(100, one, sizeof one, two, sizeof two);
    cob_loaded_for loaded = cob_saved2_read(two, sizeof two, to, 2);
    cob_written again = cob_saved_to_1(two, sizeof two, back, sizeof back);
    return saved.length == 22 && converted.refused == 0 && converted.length == 30 && two[4] == 2 && two[6] == 100 &&
           two[22] == 90 && loaded.refused == 0 && loaded.length == 100 && to[0] == 0 && to[1] == 90 &&
           again.length == 22 && memcmp(one, back, sizeof one) == 0 && cob_saved_read(two, sizeof two, to, 2) == 62 &&
           cob_saved2_read(one, sizeof one, to, 2).refused == 62 && cob_saved2_read(two, 13, to, 2).refused == 61 &&
           cob_saved2_read(TEXT("\x09\0\0\0\x02\0\0\0\0\0\0\0\0"), to, 2).refused == 63 &&
           cob_saved2_read(two, sizeof two, to, 0).refused == 64 &&
           cob_saved2_read(two, sizeof two, to, 1).refused == 53 &&
           cob_saved_to_2(89, one, sizeof one, two, sizeof two).refused == 65 &&
           cob_saved_to_2(90, one, sizeof one, two, 29).refused == 55 &&
           cob_saved_to_1(one, sizeof one, back, sizeof back).refused == 62;
}

static int shows(uint8_t verdict, uint64_t ended, uint64_t count, uint64_t bytes, uint64_t doubted)
{
    cob_screen s = shown();
    return s.refused == 0 && s.verdict == verdict && s.ended == ended && s.count == count && s.fault == 0 &&
           s.on == 0 && s.bytes == bytes && s.doubtful == doubted;
}

/* One payload of two with bit 32. */
static int suspected(void)
{
    return start() && block(0, 32, 0, "p") && block(1, 8, 1, "laid123") && shows(COB_GUESS, 1, 0, 8, 1) &&
           block(0, 72, 2, "") && shows(COB_SUSPECT, 2, 2, 8, 1);
}

/* A range for which the doubtful ledger alone has no pair: its payload is not taken, and neither ledger changes. */
static int broken(void)
{
    int taken = start() && block(5, 32, 0, "a") && block(5, 0, 1, "b");
    int fault = !block(5, 32, 2, "c");
    cob_screen s = shown();
    return taken && fault && s.verdict == COB_BROKEN && s.fault == 18 && s.on == 5 && s.bytes == 2 &&
           s.doubtful == 1 && claimed[1] == 2 && doubtful[1] == 1;
}

/* A doubtful range that is inside no claimed one, and lengths that differ. */
static int refused(void)
{
    static const cob_screen none = {.refused = 1};
    doubtful[1] = 9;
    cob_screen s = shown();
    return memcmp(&s, &none, offsetof(cob_screen, refused) + 1) == 0 &&
           cob_receive(transfer, 0, TEXT(""), file, sizeof file, claimed, 2, doubtful, 2).refused == 1 &&
           cob_start(sizeof file, claimed, 2, doubtful, 0).refused == 5 && claimed[1] == 2 && doubtful[1] == 9;
}

/* A line, or the end of the transfer where there is none: what is answered, and the console after it. */
static const struct step {
    const char *line;
    uint8_t verdict;
    cob_console_answer answer;
} steps[] = {
    {"SPAS\r\n", 0, {{0, COB_NO_ENDPOINT, 0}, 503, 0}},
    {"SPOR x\r\n", 0, {{0, COB_NO_ENDPOINT, 0}, 503, 0}},
    {"MODE E \r\n", 0, {{0, COB_NO_ENDPOINT, 0}, 504, 0}},
    {"MODE e\r\n", 0, {{1, COB_NO_ENDPOINT, 0}, 200, 0}},
    {"SPOR x\r\n", 0, {{1, COB_NO_ENDPOINT, 0}, 501, 0}},
    {"SPAS\r\n", 0, {{1, COB_LISTENING, 0}, 229, 0}},
    {"RETR a\r\n", 0, {{1, COB_LISTENING, 0}, 503, 0}},
    {"REST 0-9,x\r\n", 0, {{1, COB_LISTENING, 0}, 501, 0}},
    {"REST 0-9\r\n", 0, {{1, COB_LISTENING, 0}, 350, 0}},
    {"STOR a\r\n", 0, {{1, COB_LISTENING, 1}, 150, 0}},
    {"PASV\r\n", 0, {{1, COB_LISTENING, 1}, 503, 0}},
    {"PASV", 0, {{1, COB_LISTENING, 1}, 500, 0}},
    {"PASV x\r\n", 0, {{1, COB_LISTENING, 1}, 501, 0}},
    {0, COB_GUESS, {{1, COB_LISTENING, 1}, 0, 0}},
    {0, COB_SUSPECT, {{1, COB_NO_ENDPOINT, 0}, 226, 1}},
    {0, COB_RESULT, {{1, COB_NO_ENDPOINT, 0}, 0, 0}},
    {"PORT 127,0,0,1,4,0 127,0,0,1,4,1\r\n", 0, {{1, COB_NO_ENDPOINT, 0}, 501, 0}},
    {"PORT 127,0,0,1,4,0\r\n", 0, {{1, COB_CONNECTING, 0}, 200, 0}},
    {"ERET a\r\n", 0, {{1, COB_CONNECTING, 1}, 150, 0}},
    {0, 4, {{1, COB_CONNECTING, 1}, 0, 0}},
    {0, COB_BROKEN, {{1, COB_NO_ENDPOINT, 0}, 426, 0}},
};

static int same(cob_console_answer a, cob_console_answer b)
{
    return a.console.mode_e == b.console.mode_e && a.console.endpoint == b.console.endpoint &&
           a.console.running == b.console.running && a.code == b.code && a.suspect == b.suspect;
}

/* Two transfers with the commands around them, and a state of numbers that the library never hands out. */
static int console(void)
{
    cob_console desk = {0, COB_NO_ENDPOINT, 0}, odd = {200, 200, 200};
    cob_console_answer taken = {{1, COB_NO_ENDPOINT, 1}, 503, 0};
    for (size_t i = 0; i < sizeof steps / sizeof *steps; i++) {
        const char *line = steps[i].line;
        cob_console_answer answer = line ? cob_console_line(desk, (const uint8_t *)line, strlen(line))
                                         : cob_console_end(desk, steps[i].verdict);
        if (!same(answer, steps[i].answer))
            return 0;
        desk = answer.console;
    }
    return same(cob_console_line(odd, TEXT("OPTS x\r\n")), taken);
}

int main(void)
{
    int good = start() && block(0, 0, 0, "plai") && block(1, 8, 4, "d123") && block(0, 72, 2, "") &&
               memcmp(file, "plaid123", sizeof file) == 0 && shows(COB_RESULT, 2, 2, sizeof file, 0);
    return good && sending() && suspected() && broken() && refused() && control() && forms() && kinds() &&
                   console()
               ? 0
               : 1;
}
