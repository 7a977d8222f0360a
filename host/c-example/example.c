/*
 * The calls of libashlarsilk.a from C: a message, a session, a cursor limits value, the pointer, a picture whose fragments come out of order, and
 * refusals. From the repository's root:
 *
 *   cc -std=c99 -Wall -Wextra -Werror -pedantic -I include -o example host/c-example/example.c crates/ashlarsilk/out/libashlarsilk.a
 */
#include <ashlarsilk.h>

#include <stdio.h>
#include <string.h>

/* A Source Ready: the name "A", the RTSP port 1C44 hex, a Source ID of sixteen bytes 07. */
static const uint8_t source_ready[33] = {
    0x00, 0x21, 0x01, 0x01, 0x00, 0x00, 0x02, 0x41, 0x00, 0x02, 0x00, 0x02, 0x1C, 0x44, 0x03, 0x00, 0x10,
    7,    7,    7,    7,    7,    7,    7,    7,    7,    7,    7,    7,    7,    7,    7,    7};

static const char *const states[] = {"Waiting", "Handshake", "PinWait", "ReadyWait", "Projecting", "Closed"};

static void show_refusal(const char *what, uint8_t status, size_t place)
{
    printf("%s: refused with %u at place %lu\n", what, (unsigned)status, (unsigned long)place);
}

static void read_message(void)
{
    uint8_t record[ASHLARSILK_MESSAGE_LENGTH];
    uint8_t id[ASHLARSILK_SOURCE_ID_LENGTH];
    uint8_t out[40];
    ashlarsilk_answer answer = ashlarsilk_message_read(source_ready, sizeof source_ready, record, sizeof record);
    ashlarsilk_number port;
    ashlarsilk_written written;

    if (answer.status != ASHLARSILK_ACCEPTED) {
        show_refusal("message", answer.status, answer.place);
        return;
    }
    port = ashlarsilk_message_rtsp_port(source_ready, sizeof source_ready, record, sizeof record);
    printf("message: command %u, port %u\n", (unsigned)record[ASHLARSILK_MESSAGE_COMMAND], (unsigned)port.value);
    printf("message: name at place %lu, %lu bytes\n",
           (unsigned long)ashlarsilk_field_place(record, ASHLARSILK_MESSAGE_FRIENDLY_NAME),
           (unsigned long)ashlarsilk_field_length(record, ASHLARSILK_MESSAGE_FRIENDLY_NAME));
    if (ashlarsilk_message_source_id(source_ready, sizeof source_ready, record, sizeof record, id, sizeof id).yes)
        printf("message: source %02X to %02X\n", (unsigned)id[0], (unsigned)id[15]);
    written = ashlarsilk_message_write(source_ready, sizeof source_ready, record, sizeof record, out, sizeof out);
    printf("message: written, %lu bytes, %s\n", (unsigned long)written.size,
           memcmp(out, source_ready, sizeof source_ready) == 0 ? "the same" : "others");
}

static void write_message(void)
{
    static const uint8_t token[4] = {0x16, 0xFE, 0xFD, 0x00};
    uint8_t record[ASHLARSILK_MESSAGE_LENGTH] = {0};
    uint8_t out[16];
    ashlarsilk_written written;
    size_t k;

    record[ASHLARSILK_MESSAGE_COMMAND] = ASHLARSILK_SECURITY_HANDSHAKE;
    ashlarsilk_set_field(record, ASHLARSILK_MESSAGE_SECURITY_TOKEN, 0, sizeof token);
    written = ashlarsilk_message_write(token, sizeof token, record, sizeof record, out, sizeof out);
    printf("handshake:");
    for (k = 0; k < written.size; k++)
        printf(" %02X", (unsigned)out[k]);
    printf("\n");
}

static void refuse_message(void)
{
    /* The same message without its port, Size 001C: the RTSP Port is missing. */
    uint8_t without_port[28];
    uint8_t record[ASHLARSILK_MESSAGE_LENGTH];
    ashlarsilk_answer answer;

    memcpy(without_port, source_ready, 9);
    memcpy(without_port + 9, source_ready + 14, 19);
    without_port[1] = 0x1C;
    answer = ashlarsilk_message_read(without_port, sizeof without_port, record, sizeof record);
    show_refusal("message without port", answer.status, answer.place);
}

static void step(uint8_t *session, uint8_t event, const uint8_t *source, size_t source_length, uint8_t options)
{
    ashlarsilk_stepped stepped =
        ashlarsilk_session_step(session, ASHLARSILK_SESSION_LENGTH, event, source, source_length, options);
    printf("session: event %u, status %u, %s%s\n", (unsigned)event, (unsigned)stepped.status,
           states[session[ASHLARSILK_SESSION_STATE]], stepped.check ? ", check the PIN" : "");
}

static void run_session(void)
{
    static const uint8_t none[1] = {0};
    uint8_t session[ASHLARSILK_SESSION_LENGTH];
    uint8_t ours[16], other[16];
    ashlarsilk_stepped stepped;

    memset(ours, 7, sizeof ours);
    memset(other, 8, sizeof other);
    ashlarsilk_session_fresh(session, sizeof session);
    step(session, ASHLARSILK_SESSION_REQUEST, ours, sizeof ours, 0x03);
    step(session, ASHLARSILK_HANDSHAKE_DONE, none, 0, 0);
    step(session, ASHLARSILK_PIN_CHALLENGE, other, sizeof other, 0);
    step(session, ASHLARSILK_PIN_CHALLENGE, ours, sizeof ours, 0);
    step(session, ASHLARSILK_PIN_RIGHT, none, 0, 0);
    stepped = ashlarsilk_session_message(session, sizeof session, source_ready, sizeof source_ready);
    printf("session: message, status %u, %s\n", (unsigned)stepped.status, states[session[ASHLARSILK_SESSION_STATE]]);
    step(session, ASHLARSILK_HANDSHAKE_DONE, none, 0, 0);
}

static void read_limits(const char *text)
{
    uint8_t record[ASHLARSILK_LIMITS_LENGTH];
    uint8_t out[ASHLARSILK_LIMITS_LONGEST_TEXT];
    ashlarsilk_written written;
    ashlarsilk_answer answer = ashlarsilk_limits_read((const uint8_t *)text, strlen(text), record, sizeof record);

    if (answer.status != ASHLARSILK_ACCEPTED) {
        show_refusal("limits", answer.status, answer.place);
        return;
    }
    printf("limits: xor %u, width %u, height %u, port %u\n", (unsigned)record[ASHLARSILK_LIMITS_XOR],
           (unsigned)ashlarsilk_u16_at(record, ASHLARSILK_LIMITS_WIDTH),
           (unsigned)ashlarsilk_u16_at(record, ASHLARSILK_LIMITS_HEIGHT),
           (unsigned)ashlarsilk_u16_at(record, ASHLARSILK_LIMITS_PORT));
    written = ashlarsilk_limits_write(record, sizeof record, out, sizeof out);
    printf("limits: written as %.*s\n", (int)written.size, (const char *)out);
}

static void move_pointer(void)
{
    /* Sequence number 5, position -2, 10. */
    static const uint8_t packet[19] = {0x80, 0, 0, 5, 0, 0, 0, 0, 0, 0, 0, 0, 1, 0, 7, 0xFF, 0xFE, 0x00, 0x0A};
    uint8_t pointer[ASHLARSILK_POINTER_LENGTH];
    ashlarsilk_answer answer;

    ashlarsilk_pointer_fresh(pointer, sizeof pointer);
    answer = ashlarsilk_cursor_position(pointer, sizeof pointer, packet, sizeof packet);
    printf("pointer: status %u, at %d, %d\n", (unsigned)answer.status, (int)ashlarsilk_i16_at(pointer, ASHLARSILK_POINTER_X),
           (int)ashlarsilk_i16_at(pointer, ASHLARSILK_POINTER_Y));
    answer = ashlarsilk_cursor_position(pointer, sizeof pointer, packet, sizeof packet);
    show_refusal("pointer again", answer.status, answer.place);
}

/* What a host keeps for the cursor stream. */
static uint8_t pointer_record[ASHLARSILK_POINTER_LENGTH];
static uint8_t picture_record[ASHLARSILK_PICTURE_LENGTH];
static uint8_t image[ASHLARSILK_LARGEST_PICTURE];
static uint8_t marks[ASHLARSILK_LARGEST_PICTURE];

static void store(const char *what, const uint8_t *packet, size_t length)
{
    ashlarsilk_answer answer = ashlarsilk_cursor_store(pointer_record, sizeof pointer_record, picture_record, sizeof picture_record,
                                                       packet, length, image, sizeof image, marks, sizeof marks);
    ashlarsilk_yes complete = ashlarsilk_cursor_complete(picture_record, sizeof picture_record, image, sizeof image, marks, sizeof marks);
    printf("%s: status %u, complete: %s\n", what, (unsigned)answer.status, complete.yes ? "yes" : "no");
}

static void assemble_picture(void)
{
    /* Picture 9 has the eight bytes "cursor!!". Sequence number 3 carries those from offset 4 on, and comes first. */
    static const uint8_t continuation[29] = {0x80, 0, 0, 3, 0, 0, 0, 0, 0, 0, 0, 0, 3,   0,   17,
                                             0,    0, 0, 8, 0, 9, 0, 0, 0, 4, 'o', 'r', '!', '!'};
    /* Sequence number 2 is the start, with the position 12, 10, image type 1 and the hot spot 3, 4. */
    static const uint8_t start[34] = {0x80, 0, 0, 2,  0, 0,  0, 0, 0, 0, 0, 0,   2,   0,   22, 0, 0,
                                      0,    8, 0, 9,  0, 12, 0, 10, 1, 0, 3, 0,  4,   'c', 'u', 'r', 's'};
    uint8_t damaged[29];

    ashlarsilk_pointer_fresh(pointer_record, sizeof pointer_record);
    ashlarsilk_picture_fresh(picture_record, sizeof picture_record);
    store("continuation", continuation, sizeof continuation);
    store("start", start, sizeof start);
    printf("picture %u: %.8s, hot spot %u, %u\n", (unsigned)ashlarsilk_u16_at(picture_record, ASHLARSILK_PICTURE_ID),
           (const char *)image, (unsigned)ashlarsilk_u16_at(picture_record, ASHLARSILK_PICTURE_HOT_X),
           (unsigned)ashlarsilk_u16_at(picture_record, ASHLARSILK_PICTURE_HOT_Y));
    store("continuation again", continuation, sizeof continuation);

    memcpy(damaged, continuation, sizeof damaged);
    damaged[28] = '?';
    store("another byte for a filled place", damaged, sizeof damaged);
    printf("picture %u: %.8s\n", (unsigned)ashlarsilk_u16_at(picture_record, ASHLARSILK_PICTURE_ID), (const char *)image);
}

int main(void)
{
    read_message();
    write_message();
    refuse_message();
    run_session();
    read_limits("FULL 0100 00a0 c351");
    read_limits("full 0x0200 0x0200 50001");
    move_pointer();
    assemble_picture();
    return 0;
}
