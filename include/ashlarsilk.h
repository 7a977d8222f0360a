/*
 * Ashlarsilk: a receiver library for Miracast over infrastructure. The calls of libashlarsilk.a for hosts in C and C++.
 *
 * It reads and writes connection messages, steps the sink's session, reads and writes the value of the cursor limits parameter, and puts the
 * cursor picture together from its packets. Sockets, the DTLS handshake, the PIN's computation, RTSP and video are the host's.
 *
 * Every call takes any bytes, any numbers and any record, and ends. It answers with a status: 0 for accepted, otherwise one refusal number.
 * A refusal leaves every lent byte as it was, except that ASHLARSILK_UNEXPECTED_EVENT closes an open session.
 *
 * What the host must care for:
 *
 * - A pointer is followed by the number of bytes lent there. These bytes must be readable, and writable where the pointer is not to const.
 * - A pointer must not be NULL, even where the length is 0: give the address of anything then.
 * - Bytes that a call may write must not overlap other bytes lent to the same call. Bytes that it only reads may overlap each other.
 * - During a call nobody else writes the lent bytes, or reads those that the call may write.
 * - The calls keep no state, and no pointer after they return. So any thread may call at any time, with its own buffers.
 *
 * A record is a buffer of bytes that the host keeps and lends; its layout is given below. Numbers in it are little-endian:
 * the least significant byte first. A flag is one byte, 0 for no and any other for yes, written as 1. A session's step and the calls of the
 * cursor stream write a record only where they change what it says. A record lent with fewer bytes than its layout has is refused with
 * ASHLARSILK_NO_ROOM, before anything else is looked at; the bytes after the layout are left alone. Any bytes may stand in a record.
 */
#ifndef ASHLARSILK_H
#define ASHLARSILK_H

#include <stdbool.h>
#include <stddef.h>
#include <stdint.h>

#ifdef __cplusplus
extern "C" {
#endif

/* Statuses: accepted, and the refusal numbers. */
enum ashlarsilk_status {
    /* accepted */
    ASHLARSILK_ACCEPTED = 0,
    /* the bytes end before the fixed header or the declared size */
    ASHLARSILK_TRUNCATED = 1,
    /* declared size below the header, not 7 for a position, or bytes left over after it */
    ASHLARSILK_WRONG_SIZE = 2,
    /* Version not 1; of a cursor packet's RTP fields, first byte not 80 hex or second not 0 */
    ASHLARSILK_WRONG_HEADER = 3,
    /* unknown command, message type or session event, or a packet type not taken by the call */
    ASHLARSILK_UNKNOWN_KIND = 4,
    /* fewer than 3 bytes left for a TLV, or its value runs past the message */
    ASHLARSILK_TLV_TRUNCATED = 5,
    /* TLV length wrong for its type */
    ASHLARSILK_TLV_LENGTH = 6,
    /* a TLV for the second time */
    ASHLARSILK_TLV_REPEATED = 7,
    /* unknown TLV, one foreign to the command, or one missing */
    ASHLARSILK_TLV_UNEXPECTED = 8,
    /* negative offset, or offset plus data beyond the total */
    ASHLARSILK_OUTSIDE_IMAGE = 9,
    /* output shorter than needed, or total above 262,144 or above the lent picture or marks; a record shorter than its layout; a message's
       Source ID of 1 to 15 bytes */
    ASHLARSILK_NO_ROOM = 10,
    /* sequence number not newer */
    ASHLARSILK_NOT_NEWER = 11,
    /* total differs from the opened picture's */
    ASHLARSILK_TOTAL_DIFFERS = 12,
    /* a filled place would get another byte, or a second start differs in its own fields */
    ASHLARSILK_CONFLICT = 13,
    /* unexpected in this session state */
    ASHLARSILK_UNEXPECTED_EVENT = 14,
    /* message from another source */
    ASHLARSILK_OTHER_SOURCE = 15,
    /* text not of the grammar */
    ASHLARSILK_NOT_GRAMMAR = 16,
    /* opened picture's total above 262,144 or above the lent picture or marks */
    ASHLARSILK_IMAGE_NOT_HELD = 17,
    /* a record that can't be written: a place or length outside the lent bytes, a value of wrong length, no such command, TLVs not those of
       its command, a declared size above 65,535 */
    ASHLARSILK_NOT_WRITABLE = 18
};

/* Answers. */

/* The status, and the place of a refusal: the first byte of the TLV at fault for 5 to 8, the number of bytes of the whole message where a TLV is
   missing, otherwise 0. */
typedef struct ashlarsilk_answer {
    uint8_t status;
    size_t place;
} ashlarsilk_answer;

/* The status of a writer, and the number of bytes written; 0 where it refused. */
typedef struct ashlarsilk_written {
    uint8_t status;
    size_t size;
} ashlarsilk_written;

/* The status of a step of the session, whether the host is to check the PIN, and the place of a refusal as above. */
typedef struct ashlarsilk_stepped {
    uint8_t status;
    bool check;
    size_t place;
} ashlarsilk_stepped;

/* The status, and a number asked for; 0 where there is none. */
typedef struct ashlarsilk_number {
    uint8_t status;
    uint16_t value;
} ashlarsilk_number;

/* The status, and the answer to a question; no where it is refused. */
typedef struct ashlarsilk_yes {
    uint8_t status;
    bool yes;
} ashlarsilk_yes;

/* Numbers in a record, the least significant byte first; those of messages and packets are big-endian, and not for these functions. The bytes
   from the place on must be there. */

static inline uint16_t ashlarsilk_u16_at(const uint8_t *bytes, size_t place)
{
    return (uint16_t)(bytes[place] | (unsigned)bytes[place + 1] << 8);
}

static inline uint32_t ashlarsilk_u32_at(const uint8_t *bytes, size_t place)
{
    return ashlarsilk_u16_at(bytes, place) | (uint32_t)ashlarsilk_u16_at(bytes, place + 2) << 16;
}

/* Two's complement. */
static inline int16_t ashlarsilk_i16_at(const uint8_t *bytes, size_t place)
{
    int32_t number = ashlarsilk_u16_at(bytes, place);
    return (int16_t)(number < 32768 ? number : number - 65536);
}

static inline void ashlarsilk_put_u16(uint8_t *bytes, size_t place, uint16_t number)
{
    bytes[place] = (uint8_t)(number & 255);
    bytes[place + 1] = (uint8_t)(number >> 8);
}

static inline void ashlarsilk_put_u32(uint8_t *bytes, size_t place, uint32_t number)
{
    ashlarsilk_put_u16(bytes, place, (uint16_t)(number & 65535));
    ashlarsilk_put_u16(bytes, place + 2, (uint16_t)(number >> 16));
}

/*
 * Connection messages.
 *
 * The record of a message:
 *
 *   place  bytes
 *       0      1  the command
 *       1      9  Friendly Name        a field: whether it is there (1), the place (4) and the length (4) of its value in the message's bytes
 *      10      9  RTSP Port
 *      19      9  Source ID
 *      28      9  Security Token
 *      37      9  Security Options
 *      46      9  PIN Challenge
 *      55      9  PIN Response Reason
 *
 * Where a value is not there its place and length are not looked at.
 */
enum {
    ASHLARSILK_MESSAGE_LENGTH = 64,
    ASHLARSILK_MESSAGE_COMMAND = 0,
    ASHLARSILK_MESSAGE_FRIENDLY_NAME = 1,
    ASHLARSILK_MESSAGE_RTSP_PORT = 10,
    ASHLARSILK_MESSAGE_SOURCE_ID = 19,
    ASHLARSILK_MESSAGE_SECURITY_TOKEN = 28,
    ASHLARSILK_MESSAGE_SECURITY_OPTIONS = 37,
    ASHLARSILK_MESSAGE_PIN_CHALLENGE = 46,
    ASHLARSILK_MESSAGE_PIN_REASON = 55,
    /* Inside a field. */
    ASHLARSILK_FIELD_PRESENT = 0,
    ASHLARSILK_FIELD_PLACE = 1,
    ASHLARSILK_FIELD_VALUE_LENGTH = 5,
    /* The bytes of a Source ID. */
    ASHLARSILK_SOURCE_ID_LENGTH = 16
};

/* Commands. */
enum ashlarsilk_command {
    ASHLARSILK_SOURCE_READY = 1,
    ASHLARSILK_STOP_PROJECTION = 2,
    ASHLARSILK_SECURITY_HANDSHAKE = 3,
    ASHLARSILK_SESSION_REQUEST = 4,
    ASHLARSILK_PIN_CHALLENGE = 5,
    ASHLARSILK_PIN_RESPONSE = 6
};

/* Whether a field is there; `field` is one of the places ASHLARSILK_MESSAGE_FRIENDLY_NAME to ASHLARSILK_MESSAGE_PIN_REASON. */
static inline bool ashlarsilk_field_present(const uint8_t *record, size_t field)
{
    return record[field + ASHLARSILK_FIELD_PRESENT] != 0;
}

/* The place of a field's value in the message's bytes. */
static inline uint32_t ashlarsilk_field_place(const uint8_t *record, size_t field)
{
    return ashlarsilk_u32_at(record, field + ASHLARSILK_FIELD_PLACE);
}

/* The number of bytes of a field's value. */
static inline uint32_t ashlarsilk_field_length(const uint8_t *record, size_t field)
{
    return ashlarsilk_u32_at(record, field + ASHLARSILK_FIELD_VALUE_LENGTH);
}

/* Says that a field is there, and where its value stands. */
static inline void ashlarsilk_set_field(uint8_t *record, size_t field, uint32_t place, uint32_t length)
{
    record[field + ASHLARSILK_FIELD_PRESENT] = 1;
    ashlarsilk_put_u32(record, field + ASHLARSILK_FIELD_PLACE, place);
    ashlarsilk_put_u32(record, field + ASHLARSILK_FIELD_VALUE_LENGTH, length);
}

/*
 * Reads a message, which is all of `bytes`. Answers 0 or the refusal, 1 to 8, with its place; 10 for a short record. Changes `record`, where it
 * accepts: the message's record.
 */
ashlarsilk_answer ashlarsilk_message_read(const uint8_t *bytes, size_t bytes_length, uint8_t *record, size_t record_length);

/*
 * Writes the message of a record, TLVs by rising type; its values are taken from `bytes`. Answers 0 and the number of bytes written, or the
 * refusal: 10 for a short record, 18, then 10 where `out` is shorter than needed. Changes `out`, where it accepts: the bytes of the message, and
 * none after them.
 */
ashlarsilk_written ashlarsilk_message_write(const uint8_t *bytes, size_t bytes_length, const uint8_t *record, size_t record_length,
                                            uint8_t *out, size_t out_length);

/*
 * The RTSP port of a record, with the bytes that it was read from. Answers 0 and the port, or 0 where there is none; a byte past the end counts
 * as 0. Refusal: 10 for a short record. Changes nothing.
 */
ashlarsilk_number ashlarsilk_message_rtsp_port(const uint8_t *bytes, size_t bytes_length, const uint8_t *record, size_t record_length);

/*
 * The option byte of a record, the first of its Security Options, with the bytes that it was read from. Answers 0 and the byte, or 0 where there
 * is none; a byte past the end counts as 0. Refusal: 10 for a short record. Changes nothing.
 */
ashlarsilk_number ashlarsilk_message_security_options(const uint8_t *bytes, size_t bytes_length, const uint8_t *record,
                                                      size_t record_length);

/*
 * Whether a record has a Source ID whose 16 bytes lie within `bytes`, which are those that it was read from. Refusal: 10 for a short record, or
 * an `id` of fewer than 16 bytes. Changes the first 16 bytes of `id`, where the answer is yes: the Source ID.
 */
ashlarsilk_yes ashlarsilk_message_source_id(const uint8_t *bytes, size_t bytes_length, const uint8_t *record, size_t record_length,
                                            uint8_t *id, size_t id_length);

/*
 * The sink's session.
 *
 * The record of a session:
 *
 *   place  bytes
 *       0      1  the state: 0 Waiting, 1 Handshake, 2 PinWait, 3 ReadyWait, 4 Projecting, any other Closed (written as 5)
 *       1      1  the options
 *       2      1  whether a Source ID is kept
 *       3     16  the Source ID; where none is kept, not looked at
 */
enum {
    ASHLARSILK_SESSION_LENGTH = 19,
    ASHLARSILK_SESSION_STATE = 0,
    ASHLARSILK_SESSION_OPTIONS = 1,
    ASHLARSILK_SESSION_SOURCE_KEPT = 2,
    ASHLARSILK_SESSION_SOURCE_ID = 3
};

enum ashlarsilk_state {
    ASHLARSILK_WAITING = 0,
    ASHLARSILK_HANDSHAKE = 1,
    ASHLARSILK_PIN_WAIT = 2,
    ASHLARSILK_READY_WAIT = 3,
    ASHLARSILK_PROJECTING = 4,
    ASHLARSILK_CLOSED = 5
};

/* Events are the six commands, and four from the host. */
enum ashlarsilk_event {
    ASHLARSILK_HANDSHAKE_DONE = 7,
    ASHLARSILK_PIN_RIGHT = 8,
    ASHLARSILK_PIN_WRONG = 9,
    ASHLARSILK_CONNECTION_LOST = 10
};

/* The session of a new connection: Waiting, options 0, no Source ID. Answers 0, or 10 for a short record. Changes `record`, where it accepts. */
uint8_t ashlarsilk_session_fresh(uint8_t *record, size_t record_length);

/*
 * A step with an event. `source` is looked at only with a message, `options` only with a Session Request: with a message (1 to 6) `source` has no
 * bytes where it carries no Source ID, else the Source ID in its first 16; with any other event it may have any number of bytes. Answers 0 and
 * whether the host is to check the PIN, or the refusal: 10 for a short record, 4, 10 for a message with a `source` of 1 to 15 bytes, 15, 14.
 * Changes `record`, where it accepts and the session after the step is another one than before: it is then written, each flag and state in its
 * usual form; else each byte stays. 14 puts the state of an open session to Closed and changes nothing else.
 */
ashlarsilk_stepped ashlarsilk_session_step(uint8_t *record, size_t record_length, uint8_t event, const uint8_t *source,
                                           size_t source_length, uint8_t options);

/*
 * A step with a message, which is all of `bytes`. Answers as a step does, or the reader's refusal, 1 to 8, with its place, which leaves the session
 * as it is. Changes `record` as a step does.
 */
ashlarsilk_stepped ashlarsilk_session_message(uint8_t *record, size_t record_length, const uint8_t *bytes, size_t bytes_length);

/*
 * The value of the cursor limits parameter.
 *
 * The record of a value:
 *
 *   place  bytes
 *       0      1  whether the sink supports the extension; where it doesn't, the rest is not looked at, and written as 0
 *       1      1  whether it can do the XOR operation
 *       2      2  the largest width
 *       4      2  the largest height
 *       6      2  the UDP port
 */
enum {
    ASHLARSILK_LIMITS_LENGTH = 8,
    ASHLARSILK_LIMITS_SUPPORTED = 0,
    ASHLARSILK_LIMITS_XOR = 1,
    ASHLARSILK_LIMITS_WIDTH = 2,
    ASHLARSILK_LIMITS_HEIGHT = 4,
    ASHLARSILK_LIMITS_PORT = 6,
    /* The most bytes of a written value; it has no zero byte at its end. */
    ASHLARSILK_LIMITS_LONGEST_TEXT = 19
};

/* Reads a value, which is all of `text`. Answers 0 or the refusal: 10 for a short record, 16. Changes `record`, where it accepts. */
ashlarsilk_answer ashlarsilk_limits_read(const uint8_t *text, size_t text_length, uint8_t *record, size_t record_length);

/*
 * Writes the value of a record. Answers 0 and the number of bytes written, 4 or 19, or the refusal 10 for a short record or where `out` is
 * shorter than needed. Changes `out`, where it accepts: the bytes of the value, and none after them.
 */
ashlarsilk_written ashlarsilk_limits_write(const uint8_t *record, size_t record_length, uint8_t *out, size_t out_length);

/*
 * The cursor stream.
 *
 * Of a packet's RTP header the first two bytes must be 80 hex and 0, else 3, and the next two are the sequence number. Timestamp and SSRC, bytes 4
 * to 11, are looked at by no call.
 *
 * The record of the pointer:
 *
 *   place  bytes
 *       0      1  whether a position is known; where it isn't, the rest is not looked at
 *       1      2  the sequence number of the packet that set it
 *       3      2  x, two's complement
 *       5      2  y, two's complement
 *
 * The record of the opened picture:
 *
 *   place  bytes
 *       0      1  whether a picture is opened; where none is, the rest is not looked at
 *       1      2  its id
 *       3      4  its total
 *       7      2  the sequence number of the packet that opened it
 *       9      1  whether a start was seen; where none was, the rest is not looked at
 *      10      1  the start's image type
 *      11      2  the start's hot spot, x
 *      13      2  and y
 *
 * Beside it the host lends the picture itself, `image`, and `marks`, one byte a place: zero means empty, else filled. 262,144 bytes each hold
 * every picture. Bytes and marks at or beyond the total are never changed.
 */
enum {
    ASHLARSILK_POINTER_LENGTH = 7,
    ASHLARSILK_POINTER_KNOWN = 0,
    ASHLARSILK_POINTER_SEQUENCE = 1,
    ASHLARSILK_POINTER_X = 3,
    ASHLARSILK_POINTER_Y = 5,
    ASHLARSILK_PICTURE_LENGTH = 15,
    ASHLARSILK_PICTURE_OPENED = 0,
    ASHLARSILK_PICTURE_ID = 1,
    ASHLARSILK_PICTURE_TOTAL = 3,
    ASHLARSILK_PICTURE_SEQUENCE = 7,
    ASHLARSILK_PICTURE_START_SEEN = 9,
    ASHLARSILK_PICTURE_IMAGE_TYPE = 10,
    ASHLARSILK_PICTURE_HOT_X = 11,
    ASHLARSILK_PICTURE_HOT_Y = 13
};
#define ASHLARSILK_LARGEST_PICTURE 262144L

/* The pointer whose position is not known. Answers 0, or 10 for a short record. Changes `pointer`, where it accepts. */
uint8_t ashlarsilk_pointer_fresh(uint8_t *pointer, size_t pointer_length);

/* The record without an opened picture. Answers 0, or 10 for a short record. Changes `picture`, where it accepts. */
uint8_t ashlarsilk_picture_fresh(uint8_t *picture, size_t picture_length);

/*
 * Takes a position packet (type 1). Answers 0 or the refusal: 10 for a short record, 1 to 4, 11. Changes `pointer`, where it accepts: the
 * packet's position and sequence number.
 */
ashlarsilk_answer ashlarsilk_cursor_position(uint8_t *pointer, size_t pointer_length, const uint8_t *packet, size_t packet_length);

/*
 * Takes a start (type 2) or a continuation (type 3). Answers 0 or the refusal: 10 for a short record, 17, 1 to 4, 9, 10, then 12 and 13 for a
 * fragment of the opened picture, 11 for one of another. Where it accepts it changes
 *   `image`    the fragment's data, at its offset,
 *   `marks`    each of the fragment's places to 1; where the fragment opens a picture, first all places of that picture to 0,
 *   `picture`  the picture that the fragment opened, and the start's own fields,
 *   `pointer`  the start's position and sequence number, if that is newer.
 * A record is written only where it changes: a continuation leaves each byte of `pointer`, and a fragment that neither opens a picture nor is its
 * first start each byte of `picture`.
 */
ashlarsilk_answer ashlarsilk_cursor_store(uint8_t *pointer, size_t pointer_length, uint8_t *picture, size_t picture_length,
                                          const uint8_t *packet, size_t packet_length, uint8_t *image, size_t image_length,
                                          uint8_t *marks, size_t marks_length);

/*
 * Whether the opened picture is complete: a start was seen and every place is filled; no where no picture is opened. Refusal: 10 for a short
 * record, 17. Changes nothing.
 */
ashlarsilk_yes ashlarsilk_cursor_complete(const uint8_t *picture, size_t picture_length, const uint8_t *image, size_t image_length,
                                          const uint8_t *marks, size_t marks_length);

#ifdef __cplusplus
}
#endif

#endif
