/*
 * Both sides of GridFTP's extended block mode (MODE E), receiving and sending, over functions that are proved to answer
 * as defined. Link libhost.a, which `host/build` writes; it needs nothing but the C library.
 *
 * Memory. The host owns everything. A run of bytes or numbers is a pointer and how many there are. A pointer is never
 * null, not even with the length 0, and numbers are aligned as uint64_t is. What is lent to one call may not overlap,
 * unless all of it is const. Nothing is kept: a call is done with what it was lent when it returns. No call allocates,
 * blocks, or touches anything else, so calls on different memory may run at the same time. A call takes less than 64 kB
 * of stack.
 *
 * A transfer goes in by value and the answer holds the next one, which takes its place:
 *
 *     cob_received r = cob_receive(t, channel, piece, piece_len, file, file_len, claimed, claimed_len, doubtful,
 *                                  doubtful_len);
 *     t = r.transfer;
 *
 * The file has as many bytes (F) as were named at the start. Two ledgers of one length are lent with it. The claimed one
 * has the ranges that headers announced, the doubtful one those of them that the sender suspects of errors (bit 32).
 * Each has 2R numbers for R ranges, an even number, at most COB_LEDGER_LIMIT, and holds pairs of start and end, end not
 * counted, ascending, with zeros after them. Each may need as many pairs as the sender has blocks, and never more;
 * ranges that touch become one, so mostly fewer are enough.
 *
 * Transfer, file and ledgers belong together: cob_receive tests that they fit, and refuses with 1 where they do not;
 * cob_screen_line and cob_shown test the same without the file.
 *
 * A channel is a number below COB_CHANNELS that the host gives to one data connection; its pieces come in order. A
 * sender counts the connections of each listener apart, so a host keeps one transfer for each listener. Where a channel
 * ends, less than the piece may be taken: the rest belongs to the next transfer on that cached connection. A cached
 * connection that the sender closes (descriptor 4) is not fed into the next transfer.
 *
 * A sender goes in by value too, and the answer holds the next one. It is begun with the file's length, a count of
 * channels, 1 to COB_CHANNELS, and a block size, 1 to COB_BLOCK_LIMIT. Each call for the next block is handed the same
 * count and size and lent the same file, unchanged until all is sent. It writes a header and the bytes of its block;
 * COB_HEADER_LENGTH + size bytes are always enough. After its last block each channel gets its ending, and after that
 * its calls are refused with 74. The blocks of one channel go out on one connection in their order; between channels
 * any order is good.
 *
 * Numbers. `refused` is 0 where a call is not refused. In every answer a field that means nothing in a case is 0.
 *
 *      1  transfer, file and ledgers do not fit, or a ledger that is to be written breaks its rule
 *      2  channel 64 or above                       3  the verdict is not GUESS
 *      4  a piece that has bytes, but the channel   5  start: ledgers of unequal lengths, of an odd length, or above
 *         has ended                                    COB_LEDGER_LIMIT
 *     21  a header does not have 17 bytes
 *     31  line above 2,048 bytes                   32  no CR LF at the end
 *     33  a byte outside 32 to 126                 34  verb
 *     35  argument missing, or not allowed         36  reply code outside 100 to 599
 *     41  host-port malformed or empty             42  more than 64 host-ports
 *     43  list of fewer than 64 entries
 *     51  range malformed                          52  the ranges so far, merged, need more pairs than the ledger has
 *     53  ledger length odd or above the limit     54  an empty ledger has no text
 *     55  too few bytes lent for the whole output
 *     61  saved ledger cut short, wrong length     62  another kind of record than was asked for
 *     63  file length or pairs not whole, or       64  more pairs than the ledger has
 *         pairs against the rule                   65  an end above the file length
 *     71  count or size out of range or not the sender's, another file length, or a sender that no calls give
 *     73  channel at or above the count            74  the channel's ending is written already
 *
 * A peer's fault is no refusal: the call is answered, the verdict is COB_BROKEN, and cob_shown has the number and the
 * channel. The header reader and writer refuse with 11, 12, 13 and 15 too.
 *
 *     11  descriptor with bit 1 or 2               12  descriptor with bit 128 or 16
 *     13  descriptor whose bits don't go together  14  a second count of end markers
 *     15  count 0, above 64, or below the channels in use
 *     16  payload past the file's end              17  payload shares a byte with another
 *     18  a ledger lacks a pair for the payload    19  a channel more than was counted
 *
 * By 17 or 18 neither ledger changes, even where one of them has a pair left.
 *
 * By 1 to 5, 21 to 36, 43, 53 to 74, and the header writer's 11, 12, 13 and 15 nothing that was lent changes. By 41 and 42
 * the whole list becomes 0, by 51 and 52 the whole ledger.
 */
#ifndef COBNUTTER_H
#define COBNUTTER_H

#include <stddef.h>
#include <stdint.h>

#ifdef __cplusplus
extern "C" {
#endif

#define COB_CHANNELS 64
/* The most entries of each ledger. */
#define COB_LEDGER_LIMIT 8192
#define COB_HEADER_LENGTH 17
/* The most bytes of the file in one block that is sent. */
#define COB_BLOCK_LIMIT 65536
/* The fewest entries of a list for host-ports, and the most host-ports of a text. */
#define COB_HOST_LIMIT 64
/* More bytes than any screen line has. */
#define COB_SCREEN_LINE 96

/* The verdicts. */
#define COB_GUESS 0
#define COB_RESULT 1
#define COB_BROKEN 2
/* As final as COB_RESULT, with bytes in doubtful ranges. */
#define COB_SUSPECT 3

/* A console's endpoint: none; one that the peer connects to (PASV, SPAS); one of the peer (PORT, SPOR). */
#define COB_NO_ENDPOINT 0
#define COB_LISTENING 1
#define COB_CONNECTING 2

/* ---- one transfer */

/*
 * The first version of this header had one ledger. These three have other symbols now, so that an object compiled with
 * that header does not link, instead of lending one ledger where two are read.
 */
#define cob_start cob2_start
#define cob_receive cob2_receive
#define cob_screen_line cob2_screen_line

/*
 * The fields of cob_channel and cob_transfer are the library's own: a host holds a transfer and hands it on as it is.
 * They are listed because it goes by value. What they say is asked with cob_shown.
 */
typedef struct cob_channel {
    uint8_t state; /* 0 unused, 1 in a header, 2 in a payload, 3 in the last payload, 4 ended */
    uint8_t held;  /* header bytes held, 0 unless in a header */
    uint64_t next; /* the payload's next place, 0 unless in one */
    uint64_t left; /* the payload's bytes still to come, 0 unless in one */
} cob_channel;

typedef struct cob_transfer {
    uint64_t len;        /* F */
    uint64_t pairs;      /* R */
    uint64_t count;      /* of end markers, 0 while unknown */
    uint64_t fault;      /* 0 where there is none */
    uint64_t on;         /* the fault's channel */
    uint8_t heads[1024]; /* held header bytes, 16 for each channel */
    cob_channel channels[COB_CHANNELS];
} cob_transfer;

typedef struct cob_started {
    cob_transfer transfer; /* of 0 bytes and 0 pairs where it is refused */
    uint8_t refused;
} cob_started;

typedef struct cob_received {
    cob_transfer transfer;
    size_t taken;    /* bytes of the piece */
    uint8_t verdict; /* by that transfer and the doubtful ledger, also where the call is refused */
    uint8_t refused;
} cob_received;

/* What the screen line says, as numbers. */
typedef struct cob_screen {
    uint64_t ended;    /* channels that have ended */
    uint64_t count;    /* of end markers, 0 while unknown */
    uint64_t fault;    /* 0 where there is none */
    uint64_t on;       /* the fault's channel */
    uint64_t bytes;    /* payload bytes stored since the start */
    uint64_t doubtful; /* bytes that the doubtful ranges hold, under every verdict */
    uint8_t verdict;
    uint8_t refused;
} cob_screen;

/* What every writer answers. */
typedef struct cob_written {
    size_t length; /* bytes written; those after them are unchanged */
    uint8_t refused;
} cob_written;

/* Zeroes both ledgers. */
cob_started cob_start(uint64_t len, uint64_t *claimed, size_t claimed_len, uint64_t *doubtful, size_t doubtful_len);

cob_received cob_receive(cob_transfer transfer, uint64_t channel, const uint8_t *piece, size_t piece_len,
                         uint8_t *file, size_t file_len, uint64_t *claimed, size_t claimed_len, uint64_t *doubtful,
                         size_t doubtful_len);

/* Refuses with 1 alone. */
cob_screen cob_shown(cob_transfer transfer, const uint64_t *claimed, size_t claimed_len, const uint64_t *doubtful,
                     size_t doubtful_len);

/* Ends with LF, and has no 0 after it. Refuses with 1, then 55. */
cob_written cob_screen_line(cob_transfer transfer, const uint64_t *claimed, size_t claimed_len,
                            const uint64_t *doubtful, size_t doubtful_len, uint8_t *out, size_t out_len);

/* ---- sending a file */

typedef struct cob_sender {
    uint64_t len;                 /* the file's length */
    uint64_t count;               /* of channels */
    uint64_t size;                /* of a block */
    uint64_t given[COB_CHANNELS]; /* blocks that each channel was given, its ending counted as one */
} cob_sender;

typedef struct cob_begun {
    cob_sender sender; /* all 0 where it is refused */
    uint8_t refused;
} cob_begun;

typedef struct cob_sent {
    cob_sender sender; /* as it was handed in where it is refused */
    size_t length;     /* bytes written; those after them are unchanged */
    uint8_t refused;
} cob_sent;

/* Refuses with 71 alone. */
cob_begun cob_sender_begin(uint64_t len, uint64_t count, uint64_t size);

/* Block k of the file goes on channel k mod count. Refuses with 71, 73, 74 and 55, in this order. */
cob_sent cob_sender_next(cob_sender sender, uint64_t channel, uint64_t count, uint64_t size, const uint8_t *file,
                         size_t file_len, uint8_t *out, size_t out_len);

/* ---- block headers */

typedef struct cob_fields {
    uint64_t length; /* of the payload, 0 with EODC */
    uint64_t third;  /* the offset, or the count of end markers with EODC */
    uint8_t descriptor;
    uint8_t is_eodc; /* 1 with EODC (bit 64), else 0 */
    uint8_t refused;
} cob_fields;

cob_fields cob_header_read(const uint8_t *bytes, size_t bytes_len);

/* With EODC the length is ignored, and 0 is written. */
cob_written cob_header_write(uint8_t descriptor, uint64_t length, uint64_t third, uint8_t *out, size_t out_len);

/* ---- the control channel */

typedef struct cob_command {
    size_t from; /* the argument's first place in the line, and the place after its last */
    size_t to;
    uint8_t verb; /* 1 to 12: MODE PASV PORT REST RETR STOR SPAS SPOR ERET ESTO SBUF OPTS */
    uint8_t refused;
} cob_command;

typedef struct cob_reply {
    uint8_t digit; /* 1 preliminary, 2 completion, 3 intermediate, 4 transient, 5 permanent */
    uint8_t refused;
} cob_reply;

typedef struct cob_list {
    size_t count; /* of host-ports */
    uint8_t refused;
} cob_list;

typedef struct cob_found {
    uint64_t value; /* address * 65,536 + port */
    size_t next;    /* the place after it */
    uint8_t found;  /* 1 where a host-port is at the place, else 0 */
} cob_found;

typedef struct cob_loaded_for {
    /* The length of the file that the ledger is for. */
    uint64_t length;
    uint8_t refused;
} cob_loaded_for;

/*
 * A console's state, which begins as all 0. The answer holds the next one, which takes its place. Every number means
 * something, so a host can hand over any.
 */
typedef struct cob_console {
    uint8_t mode_e;   /* MODE E was asked for: 1, or any number but 0 */
    uint8_t endpoint; /* COB_LISTENING, COB_CONNECTING; any other number: no endpoint */
    uint8_t running;  /* a transfer is running: 1, or any number but 0 */
} cob_console;

typedef struct cob_console_answer {
    cob_console console;
    uint16_t code;   /* the reply code, 0 where there is none to send */
    uint8_t suspect; /* 1 where the word SUSPECT goes with it, else 0 */
} cob_console_answer;

/* The line with its CR LF. */
cob_command cob_line_read(const uint8_t *line, size_t line_len);

cob_reply cob_reply_class(uint16_t code);

/* Fills the list; entries that hold no host-port become 0. Malformed (41) are a number with a leading zero, which a lone 0
 * is not, and port 0. */
cob_list cob_hosts_read(const uint8_t *text, size_t text_len, uint64_t *list, size_t list_len);

/* The host-port that begins at one place, for a host that walks a text; what stands before the place is not looked at. */
cob_found cob_host_at(const uint8_t *text, size_t text_len, size_t at);

/*
 * The code for a line, CR LF included. From 500 on it is a refusal, by which nothing changes. The host listens, connects,
 * receives and sends, and reads the arguments with cob_hosts_read and cob_ranges_read; for the ranges of a REST that got 350, a ledger of
 * 1,020 entries is always enough.
 */
cob_console_answer cob_console_line(cob_console console, const uint8_t *line, size_t line_len);

/*
 * The code for the end of the transfer with that verdict. With none running, and under COB_GUESS or a number that is no
 * verdict, the code is 0 and nothing changes. A host that gives up on a transfer hands over COB_BROKEN. Of one that it sent
 * it hands over COB_RESULT where every channel was given its ending, and else COB_BROKEN.
 */
cob_console_answer cob_console_end(cob_console console, uint8_t verdict);

/* ---- ledgers as text and as saved bytes; where a reader answers a number, it is that of the refusal, or 0 */

/* Range lists, both ends counted. */
uint8_t cob_ranges_read(const uint8_t *text, size_t text_len, uint64_t *ledger, size_t ledger_len);

cob_written cob_ranges_write(const uint64_t *ledger, size_t ledger_len, uint8_t *out, size_t out_len);

/* Saved ledgers of kind 1, which have start and end of each range: 6 bytes, and 16 for each range. */
uint8_t cob_saved_read(const uint8_t *bytes, size_t bytes_len, uint64_t *ledger, size_t ledger_len);

cob_written cob_saved_write(const uint64_t *ledger, size_t ledger_len, uint8_t *out, size_t out_len);

/* Of kind 2, which have the length of the file, then start and length of each range: 14 bytes, and 16 for each range. */
cob_loaded_for cob_saved2_read(const uint8_t *bytes, size_t bytes_len, uint64_t *ledger, size_t ledger_len);

/* Kind 1 as kind 2, for a file of that length: 8 bytes more. No ledger is lent, and there may be any number of ranges. */
cob_written cob_saved_to_2(uint64_t file_len, const uint8_t *bytes, size_t bytes_len, uint8_t *out, size_t out_len);

/* Kind 2 as kind 1: 8 bytes less. */
cob_written cob_saved_to_1(const uint8_t *bytes, size_t bytes_len, uint8_t *out, size_t out_len);

#ifdef __cplusplus
}
#endif

#endif
