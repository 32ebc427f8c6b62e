/* Runs our static library in a process of its own, for a machine whose processor the archive is not compiled for: the worker is built for the
   archive's processor, x86-64, and runs under an emulator. It takes the frames of compare/src/frame.rs, board_frame.rs and trace_frame.rs on standard
   input and writes the replies to standard output, until the input ends. It needs no C library: two system calls, which the archive may name too, and
   the memory functions that compilers call. */

/* The toolchain's compiler comes without headers. */
typedef __SIZE_TYPE__ size_t;
typedef __UINTPTR_TYPE__ uintptr_t;
typedef __UINT32_TYPE__ uint32_t;
typedef __UINT16_TYPE__ uint16_t;
typedef __UINT8_TYPE__ uint8_t;

uint32_t pit_channel_fresh(uint8_t *record, size_t record_len);
uint32_t pit_channel_operation(uint8_t *record, size_t record_len, uint8_t *answer, size_t answer_len,
                               uint8_t code, uint8_t number, uint8_t setting);
uint32_t pit_board_new(uint8_t *board, size_t board_len, uint8_t model, uint32_t divisor);
uint32_t pit_board_operation(uint8_t *board, size_t board_len, uint8_t *events, size_t events_len, uint8_t *answer, size_t answer_len,
                             size_t place, uint8_t code, uint16_t target, uint32_t number);
uint32_t pit_replay(const uint8_t *trace, size_t trace_len, uint8_t *out, size_t out_len, uint8_t *answer, size_t answer_len);
uint32_t pit_answers(const uint8_t *trace, size_t trace_len, uint8_t *out, size_t out_len, uint8_t *answer, size_t answer_len);
uint32_t pit_replay_from(const uint8_t *trace, size_t trace_len, uint8_t *out, size_t out_len, uint8_t *answer, size_t answer_len,
                         uint32_t checkpoint);
uint32_t pit_check(const uint8_t *trace, size_t trace_len, uint8_t *out, size_t out_len, uint8_t *answer, size_t answer_len);
uint32_t pit_mark(const uint8_t *trace, size_t trace_len, uint8_t *out, size_t out_len, uint8_t *answer, size_t answer_len);

/* The functions by the first byte of a frame, and the places in each kind of frame. */
enum { FRESH, OPERATION, BOARD_NEW, BOARD_OPERATION, REPLAY, ANSWERS, REPLAY_FROM, CHECK, MARK };
enum { CHANNEL_FRAME = 80, RECORD = 8, ANSWER = 56 };
enum { BOARD_FRAME = 240, BOARD = 24, EVENTS = 144, BOARD_ANSWER = 208 };
enum { TRACE_HEAD = 32, PAST_OUT = 16, TRACE_ANSWER_ROOM = 32 };

void *memcpy(void *to, const void *from, size_t n)
{
    for (size_t i = 0; i < n; i++)
        ((uint8_t *)to)[i] = ((const uint8_t *)from)[i];
    return to;
}

void *memmove(void *to, const void *from, size_t n)
{
    if ((uintptr_t)to <= (uintptr_t)from)
        return memcpy(to, from, n);
    while (n--)
        ((uint8_t *)to)[n] = ((const uint8_t *)from)[n];
    return to;
}

void *memset(void *to, int byte, size_t n)
{
    for (size_t i = 0; i < n; i++)
        ((uint8_t *)to)[i] = (uint8_t)byte;
    return to;
}

int memcmp(const void *one, const void *other, size_t n)
{
    for (size_t i = 0; i < n; i++)
        if (((const uint8_t *)one)[i] != ((const uint8_t *)other)[i])
            return ((const uint8_t *)one)[i] - ((const uint8_t *)other)[i];
    return 0;
}

int bcmp(const void *one, const void *other, size_t n)
{
    return memcmp(one, other, n);
}

static long call(long number, long a, long b, long c)
{
    long result;
    __asm__ volatile("syscall" : "=a"(result) : "a"(number), "D"(a), "S"(b), "d"(c) : "rcx", "r11", "memory");
    return result;
}

long read(int file, void *bytes, size_t n)
{
    return call(0, file, (long)bytes, (long)n);
}

long write(int file, const void *bytes, size_t n)
{
    return call(1, file, (long)bytes, (long)n);
}

static void stop(long status)
{
    for (;;)
        call(60, status, 0, 0);
}

static uint32_t number_at(const uint8_t *bytes)
{
    return (uint32_t)bytes[0] | (uint32_t)bytes[1] << 8 | (uint32_t)bytes[2] << 16 | (uint32_t)bytes[3] << 24;
}

static void put_number(uint8_t *bytes, uint32_t number)
{
    for (int i = 0; i < 4; i++)
        bytes[i] = (uint8_t)(number >> (8 * i));
}

static void serve_channel(uint8_t *frame)
{
    uint32_t status;
    if (frame[0] == FRESH)
        status = pit_channel_fresh(frame + RECORD, frame[1]);
    else
        status = pit_channel_operation(frame + RECORD, frame[1], frame + ANSWER, frame[2], frame[3], frame[4], frame[5]);
    put_number(frame, status);
}

static void serve_board(uint8_t *frame)
{
    uint32_t status, number = number_at(frame + 8);
    uint16_t target = (uint16_t)(frame[6] | frame[7] << 8);
    size_t place = (size_t)number_at(frame + 16) | (size_t)number_at(frame + 20) << 32;
    if (frame[0] == BOARD_NEW)
        status = pit_board_new(frame + BOARD, frame[1], frame[4], number);
    else
        status = pit_board_operation(frame + BOARD, frame[1], frame + EVENTS, frame[2], frame + BOARD_ANSWER, frame[3],
                                     place, frame[4], target, number);
    put_number(frame + 12, status);
}

static void serve_trace(uint8_t *frame)
{
    size_t trace_len = number_at(frame + 4), out_len = number_at(frame + 8), answer_len = number_at(frame + 12);
    uint8_t *trace = frame + TRACE_HEAD, *out = trace + trace_len, *answer = out + out_len + PAST_OUT;
    uint32_t status;
    switch (frame[0]) {
    case REPLAY:
        status = pit_replay(trace, trace_len, out, out_len, answer, answer_len);
        break;
    case ANSWERS:
        status = pit_answers(trace, trace_len, out, out_len, answer, answer_len);
        break;
    case REPLAY_FROM:
        status = pit_replay_from(trace, trace_len, out, out_len, answer, answer_len, number_at(frame + 20));
        break;
    case CHECK:
        status = pit_check(trace, trace_len, out, out_len, answer, answer_len);
        break;
    default:
        status = pit_mark(trace, trace_len, out, out_len, answer, answer_len);
    }
    put_number(frame + 16, status);
}

/* How long the frame is that begins here, of which so many bytes are there; 0 where that cannot be said yet. */
static size_t frame_len(const uint8_t *frame, size_t have)
{
    if (have == 0)
        return 0;
    if (frame[0] <= OPERATION)
        return CHANNEL_FRAME;
    if (frame[0] <= BOARD_OPERATION)
        return BOARD_FRAME;
    if (have < TRACE_HEAD)
        return 0;
    return TRACE_HEAD + (size_t)number_at(frame + 4) + (size_t)number_at(frame + 8) + PAST_OUT + TRACE_ANSWER_ROOM;
}

static void serve(uint8_t *frame)
{
    if (frame[0] <= OPERATION)
        serve_channel(frame);
    else if (frame[0] <= BOARD_OPERATION)
        serve_board(frame);
    else
        serve_trace(frame);
}

static void write_all(const uint8_t *bytes, size_t n)
{
    while (n > 0) {
        long written = write(1, bytes, n);
        if (written <= 0)
            stop(1);
        bytes += written;
        n -= (size_t)written;
    }
}

/* More than the longest frame: a trace of 4,097 operations or one of 4,096 with its checkpoints, with room for its lines. */
static uint8_t frames[1 << 19];

/* Serves the whole frames at the front and hands back how many bytes they have. */
static size_t serve_whole(size_t have)
{
    size_t at = 0;
    for (;;) {
        size_t len = frame_len(frames + at, have - at);
        if (len > sizeof frames)
            stop(1);
        if (len == 0 || len > have - at)
            return at;
        serve(frames + at);
        at += len;
    }
}

void worker(void)
{
    size_t have = 0;
    for (;;) {
        long more = read(0, frames + have, sizeof frames - have);
        if (more <= 0)
            stop(more == 0 && have == 0 ? 0 : 1);
        have += (size_t)more;
        size_t whole = serve_whole(have);
        write_all(frames, whole);
        memmove(frames, frames + whole, have - whole);
        have -= whole;
    }
}

/* The stack is as the kernel leaves it; a call makes it as the processor's convention asks. */
__asm__(".globl _start\n_start:\n    xor %ebp, %ebp\n    and $-16, %rsp\n    call worker\n");
