/* Banshorra: a MADCAP server on a campus file. Link target/staticlib/libembed.a (`tools/built embed_c`); x86-64, nothing besides libc.

   Every function ends, for any octets, and reads and writes only within the lengths it is given. None keeps a pointer or has state of its
   own: all that passes from call to call is the campus file. Calls on different files may run at the same time.
   No pointer is NULL, not even with length 0. What a function writes overlaps nothing else that it is given. A call takes less than 128 KiB
   of stack: give a thread that calls 256 KiB at least.
   The scopes' names, the releases that are remembered and the offers that are held are the campus file's last three sections, so no function
   is given any. A GETINFO whose option 5 names 9 is sent, for each scope, the name chosen by the client's house and the language that it asks
   for, or none. A RELEASE that is one of the last four of its house and is sent again less than 300 seconds later draws its ACK again. An OFFER
   is held for thirty seconds at most, so that the file has to be kept after it as after an ACK.
   "Document 01" is the campus's paper, "document 02" that of its changes; numbers of more than one octet stand high octet first in files,
   datagrams and lists. */
#ifndef BANSHORRA_H
#define BANSHORRA_H

#include <stddef.h>
#include <stdint.h>

#ifdef __cplusplus
extern "C" {
#endif

#define BANSHORRA_FILE_ROOM 32768    /* the longest campus file, and the least buffer for one that is served */
#define BANSHORRA_REPLY_ROOM 512     /* the least reply buffer; no reply is longer */
#define BANSHORRA_BOARD_ROOM 1100    /* the least buffer for the board's text */
#define BANSHORRA_ANSWER_ROOM 518    /* what a replay needs free before it answers a call */
#define BANSHORRA_OCCUPANCY_ROOM 544 /* the occupancy board, and the least buffer for it */
#define BANSHORRA_LIST_ROOM 2297     /* enough for the list of those dropped in a salvage */
#define BANSHORRA_VERDICT_SIZE 75    /* a verdict */

/* Outcomes of a call (document 01's table). The first that holds counts. */
enum {
    BANSHORRA_REPLY = 0,         /* a reply, to be sent to the client */
    BANSHORRA_BOOK_UNSOUND = 1,  /* never here: an unsound file is refused, 21 */
    BANSHORRA_NO_REPLY_ROOM = 2, /* reply buffer below 512 octets */
    BANSHORRA_NO_HOUSE = 3,      /* client address in no house */
    BANSHORRA_BAD_HEADER = 4,    /* datagram length, version, family, or type not 1, 3, 4, 7, 8 */
    BANSHORRA_BAD_OPTIONS = 5,   /* options break the layout, length, repeat, End or Lease Identifier rules */
    BANSHORRA_FEATURE = 6,       /* a feature is required; none is supported */
    BANSHORRA_OTHER_SERVER = 7,  /* a REQUEST to another server */
    BANSHORRA_ERROR = 8          /* a DISCOVER or GETINFO that draws an error */
};

/* Refusals. */
enum {
    BANSHORRA_WRONG_FORM = 20,      /* campus file: layout, order, names, excess octets, or above 32,768 octets */
    BANSHORRA_UNSOUND = 21,         /* campus file: well formed, but not sound */
    BANSHORRA_SHORT_FILE_ROOM = 23, /* the file's buffer is below 32,768 octets, the occupancy board's below 544, or a salvage's too short */
    BANSHORRA_CUT_OFF = 24,         /* a call's record is cut off */
    BANSHORRA_SETTINGS = 25,        /* campus file to be salvaged: the settings alone are unsound */
    BANSHORRA_SHORT_ANSWERS = 27,   /* fewer than 518 octets are left for the next answer */
    BANSHORRA_FILE_LENGTH = 28      /* the file's length is above its buffer's */
};

/* What a verdict's reply is. */
enum {
    BANSHORRA_NOTHING = 0,     /* none: a discard */
    BANSHORRA_OFFER = 1,       /* an OFFER */
    BANSHORRA_LEASE_ACK = 2,   /* the ACK to a REQUEST or RENEW, with the lease */
    BANSHORRA_RELEASE_ACK = 3, /* the ACK to a RELEASE */
    BANSHORRA_INFO_ACK = 4,    /* the ACK to a GETINFO */
    BANSHORRA_NAK = 5          /* a NAK */
};

/* Whether a campus file is accepted: 0, or refusal 20 or 21. */
uint8_t banshorra_check(const uint8_t *file, size_t file_length);

/* The text that the program `board` prints for a campus file, `refused 20` and `refused 21` too: it stands in `text`, without a closing
   NUL, octets past it untouched. Returns its length; 0, and nothing written, where text_room is below 1,100. */
size_t banshorra_board(const uint8_t *file, size_t file_length, uint8_t *text, size_t text_room);

/* The occupancy board of a campus file: who has each address, by how many leases and holds, and what each house holds. It is 544 octets, in the
   order of the file's scopes, always four of them: for each of 64 offsets the owning house(1; from 1, 0 for none) and the number of leases and
   holds on the address(1), whatever their periods; then the holdings of eight houses(1 each). What the campus hasn't is 0: scopes, offsets from a
   scope's size on, houses. Octet 136 * (scope - 1) + 2 * offset is an owner, the next its count; 136 * (scope - 1) + 128 + (house - 1) is a holding.
   What has ended or lapsed by the file's clock is gone from it; that clock moves with calls alone.
   Returns 0; or 20 or 21 for a refused file, and then 23 where board_room is below 544. A refusal writes nothing; octets past the 544th are
   untouched. */
uint8_t banshorra_occupancy(const uint8_t *file, size_t file_length, uint8_t *board, size_t board_room);

/* Serves one datagram on the campus file in the first *file_length octets of a buffer of file_room octets.
   client: the IPv4 address it came from, as a number (10.0.1.5 is 0x0A000105). time: now, in whole seconds since 1970.
   Returns the outcome, 0 to 8. The reply stands in `reply` and its length in *reply_length, which is 0 for a discard; the file afterwards
   stands in the buffer and its length in *file_length. Octets past the reply and past the file are untouched.
   With discard 5 *fault_offset is the octet of the datagram, counted from 0, at which the first option stands that breaks a rule (of a repeat the
   later; one to three octets left over count as one), or datagram_length where End or option 3 is missing. It is 0 with every other number.
   *count is how many of the house's records were compared to find the identifier: for each lookup the place of the match, counted from 1 in order of
   ending, or else all of its leases and holds. There are at most two lookups of at most 16. It is 0 with discards 1 to 7, with a GETINFO and with a
   RELEASE sent again.
   Or a refusal, tested in the order 23, 28, 20, 21, which changes nothing but *reply_length, *fault_offset and *count, which are 0. */
uint8_t banshorra_serve(uint8_t *file, size_t file_room, size_t *file_length, const uint8_t *datagram, size_t datagram_length,
                        uint32_t client, uint32_t time, uint8_t *reply, size_t reply_room, size_t *reply_length, size_t *fault_offset,
                        size_t *count);

/* banshorra_serve in two halves, for those who want to know what becomes of a datagram and have no reply room to lend: the first decides, the
   second writes the reply from what the first has given. With a reply room of 512 octets or more the two do what banshorra_serve does.

   The first half: judges one datagram on the campus file in the first *file_length octets of a buffer of file_room octets, as banshorra_serve
   does. Returns the outcome, 0 to 8, but never 1 or 2; the verdict stands in `verdict`, and the file afterwards in the buffer and its length in
   *file_length. Who only looks on lends a copy of the file.
   Or a refusal, 23, 28, 20, 21 as above, which changes nothing, the verdict neither.

   A verdict is BANSHORRA_VERDICT_SIZE octets, numbers high octet first:
        0  outcome(1), which is also returned
        1  what the reply is(1), as above; other numbers count as none
        2  a NAK's error(1)
        3  scope(1), counted from 1, of an OFFER or a lease
        4  with discard 5 the octet of the datagram(2) that *fault_offset has above; else 0
        6  the client's house(1), counted from 0, of a message that gets a reply
        7  transaction id(4)
       11  start(4) and
       15  end(4) of an OFFER or a lease
       19  its addresses(8): bit a of the number stands for the scope's lowest address plus a
       27  whether the client sent option 12(1; 0 or 1)
       28  whether option 5 names 9, the scope list(1), and
       29  11, the time(1)
       30  whether there is option 8, a language(1),
       31  its length(2) and
       33  its octets(8), the first ones of a longer one, which no name has
       41  the Lease Identifier's length(1) and
       42  its octets(32)
       74  how many records were compared(1), as *count above
   Octets past a length are 0. What a reply doesn't need is of no account: of a NAK the scope, for instance. A discard has 0 in all but outcome and
   offset, except that 8 has what the message said, transaction id, options 12, 5 and 8, identifier, and its count. */
uint8_t banshorra_judge(uint8_t *file, size_t file_room, size_t *file_length, const uint8_t *datagram, size_t datagram_length,
                        uint32_t client, uint32_t time, uint8_t verdict[BANSHORRA_VERDICT_SIZE]);

/* The second half: writes the reply to a verdict, from the campus file as the first half left it. Returns, tested in this order: 2 where
   reply_room is below 512, also for a discard; 20 or 21 for a refused file; a discard's number, with *fault_offset and *count as above; or 0, and the
   reply stands in `reply`, its length in *reply_length and the verdict's count in *count. All three numbers are 0 with whatever else is returned, and
   then nothing is written. Octets past the reply are untouched.
   For octets that banshorra_judge did not give, or did not give with this file, the answer may be anything: an outcome 0 to 8, with a reply of at
   most 512 octets that may be no message, with any offset up to 65,535 and any count up to 255. No octet past the 512th is touched even so. */
uint8_t banshorra_reply(const uint8_t *file, size_t file_length, const uint8_t verdict[BANSHORRA_VERDICT_SIZE], uint8_t *reply,
                        size_t reply_room, size_t *reply_length, size_t *fault_offset, size_t *count);

/* Serves a list of calls, one after the other, with the file read once and written once.
   A call is time(4), client address(4), reply room length(2), datagram length(2), the datagram; a reply room length above 512 counts as 512.
   An answer is outcome(1), the offset that it carries(2) and the count(1) as above, reply length(2), the reply.
   Returns 0 where all calls are answered; 24 where the next call's record is cut off, or else 27 where fewer than 518 octets are left for the
   next answer. In all three *calls_used octets of the calls are answered, *answers_filled octets of answers filled, octets past them untouched,
   and the file afterwards stands in the buffer; after 27 go on from there with another buffer.
   Or a refusal of the file, 23, 28, 20, 21 as above, which changes nothing but *calls_used and *answers_filled, which are 0. */
uint8_t banshorra_replay(uint8_t *file, size_t file_room, size_t *file_length, const uint8_t *calls, size_t calls_length, size_t *calls_used,
                         uint8_t *answers, size_t answers_room, size_t *answers_filled);

/* What can be kept of a campus file that is refused as 21: each lease, then each hold, then each release that leaves the book sound together with
   those already kept. The new file stands in `room` and its length in *room_length; all else in it is as it was, and it is always accepted and never
   longer. The list of those dropped stands in `list` and its length in *list_length: their count(2), then for each its kind(1; 1 lease, 2 hold, 3
   release), its place in its section as it was(1; from 1) and the first rule that it breaks(1; 1, 2 or 7 to 18). A sound file comes back as it was,
   with count 0. Octets past both are untouched.
   Returns 0; or 20 for a wrong form, 25 where the settings alone are unsound, and then 23 where one of the rooms is too short. These write nothing,
   and both lengths are 0. A room_size of file_length and a list_size of BANSHORRA_LIST_ROOM are always enough. */
uint8_t banshorra_salvage(const uint8_t *file, size_t file_length, uint8_t *room, size_t room_size, size_t *room_length, uint8_t *list,
                          size_t list_size, size_t *list_length);

#ifdef __cplusplus
}
#endif

#endif
