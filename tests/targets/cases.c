/* Answers cases (tests/README.md, "cases/") through the header, on any processor and without a C library: reads lines `OP ARGUMENTS` or `OP ARGUMENTS => ANSWER`
 * and writes each again with the archive's answer. So where the answers that were read are right, what is written is what was read, byte for byte. Every call is
 * made twice, over opposite fillings of all that is lent, between guards, as tests/archive.rs does. A byte that changed where it may not, and an answer that
 * depends on a filling, are written as a line `fault ...` and end the program with status 1, as does a line that cannot be read. */
#include "hervantyu.h"
#include "io.h"

enum { GUARD = 16, LINE = 1 << 21, ANSWER = 1 << 19, IMAGE = 1 << 20, ARENA = 1 << 21, WORDS = 4096 };

/* ---- Text ---- */

static char input[1 << 16], output[1 << 16];
static size_t input_at, input_length, output_length;
static char line[LINE], answers[2][ANSWER];
static char *answer;
static size_t line_length, answer_length;

static void flush(void)
{
    if (output_length > 0)
        write_output(output, output_length);
    output_length = 0;
}

static void write_text(const char *text, size_t length)
{
    for (size_t i = 0; i < length; i++) {
        if (output_length == sizeof output)
            flush();
        output[output_length++] = text[i];
    }
}

static size_t length_of(const char *text)
{
    size_t length = 0;
    while (text[length] != 0)
        length++;
    return length;
}

/* The program ends here: the fault, and the front of the line that it came with. */
static _Noreturn void fault(const char *what)
{
    write_text("fault ", 6);
    write_text(what, length_of(what));
    write_text(": ", 2);
    write_text(line, line_length < 200 ? line_length : 200);
    write_text("\n", 1);
    flush();
    end_program(1);
}

/* Reads a line without its end; 0 where there is none. A line has to end with a newline. */
static int read_line(void)
{
    for (line_length = 0;; line_length++) {
        if (input_at == input_length) {
            input_at = 0;
            input_length = read_input(input, sizeof input);
            if (input_length == 0 && line_length == 0)
                return 0;
            if (input_length == 0)
                fault("a line without its end");
        }
        char letter = input[input_at++];
        if (letter == '\n')
            return 1;
        if (line_length == LINE - 1)
            fault("a line that is too long");
        line[line_length] = letter;
    }
}

static void put(const char *text)
{
    for (; *text != 0; text++) {
        if (answer_length == ANSWER)
            fault("an answer that is too long");
        answer[answer_length++] = *text;
    }
}

/* Without a division of 64 bits, which is a function of the compiler's library on 32-bit processors. */
static void put_number(uint64_t number)
{
    static const uint64_t tens[] = {UINT64_C(10000000000000000000), UINT64_C(1000000000000000000), UINT64_C(100000000000000000), UINT64_C(10000000000000000),
                                    UINT64_C(1000000000000000), UINT64_C(100000000000000), UINT64_C(10000000000000), UINT64_C(1000000000000),
                                    UINT64_C(100000000000), UINT64_C(10000000000), 1000000000, 100000000, 10000000, 1000000, 100000, 10000, 1000, 100, 10, 1};
    int begun = 0;
    for (size_t i = 0; i < sizeof tens / sizeof *tens; i++) {
        char digit[2] = {'0', 0};
        for (; number >= tens[i]; number -= tens[i])
            digit[0]++;
        begun |= digit[0] != '0' || tens[i] == 1;
        if (begun)
            put(digit);
    }
}

static void put_signed(int64_t number)
{
    put(number < 0 ? "-" : "");
    put_number(number < 0 ? 0 - (uint64_t)number : (uint64_t)number);
}

static void put_byte(uint8_t byte)
{
    const char text[3] = {"0123456789abcdef"[byte >> 4], "0123456789abcdef"[byte & 15], 0};
    put(text);
}

/* ---- The question's words ---- */

static const char *words[WORDS + 1];
static int word_count;

/* Cuts the question of the line into words; gives its length. */
static size_t split_line(void)
{
    size_t length = line_length;
    for (size_t i = 0; i + 4 <= line_length && length == line_length; i++)
        if (line[i] == ' ' && line[i + 1] == '=' && line[i + 2] == '>' && line[i + 3] == ' ')
            length = i;
    word_count = 0;
    for (size_t i = 0; i < length; i++) {
        if (line[i] == ' ')
            continue;
        if (i == 0 || line[i - 1] == ' ') {
            if (word_count == WORDS)
                fault("too many words");
            words[word_count++] = line + i;
        }
    }
    words[word_count] = line + length;
    return length;
}

/* Reads a number and what stands behind it, which has to be the given letter or the end of the word. */
static uint64_t number_at(const char **at, char behind)
{
    uint64_t number = 0;
    if (**at < '0' || **at > '9')
        fault("not a number");
    for (; **at >= '0' && **at <= '9'; ++*at)
        number = number * 10 + (uint64_t)(**at - '0');
    if (**at != behind)
        fault("not a number");
    ++*at;
    return number;
}

/* A word that is a number alone. A line ends with a blank here: see answer_line. */
static uint64_t number_of(int word)
{
    const char *at = words[word];
    return number_at(&at, ' ');
}

static uint8_t image[IMAGE];

static unsigned digit_of(char letter)
{
    if (letter >= '0' && letter <= '9')
        return (unsigned)(letter - '0');
    if (letter < 'a' || letter > 'f')
        fault("not an image");
    return (unsigned)(letter - 'a' + 10);
}

/* Bytes in hex go to image; gives their count. */
static size_t bytes_at(const char *at)
{
    size_t length = 0;
    if (at[0] == '-' && at[1] == ' ')
        return 0;
    for (; *at != ' '; at += 2) {
        if (length == IMAGE)
            fault("an image that is too long");
        image[length++] = (uint8_t)(digit_of(at[0]) << 4 | digit_of(at[1]));
    }
    return length;
}

/* The bytes of a word. */
static size_t bytes_of(int word)
{
    return bytes_at(words[word]);
}

/* ---- What is lent: bytes or numbers between guards, and how all was before the call ---- */

struct lent {
    uint8_t *now, *before;
    size_t unit, front, length;
};

static uint64_t arena[ARENA / 8];
static size_t arena_used;

static uint8_t *take(size_t length)
{
    uint8_t *at = (uint8_t *)arena + arena_used;
    arena_used += (length + 7) / 8 * 8;
    if (arena_used > ARENA)
        fault("no room for what is lent");
    return at;
}

/* From now on all is to be as it is now. */
static void keep(const struct lent *lent)
{
    for (size_t i = 0; i < lent->length; i++)
        lent->before[i] = lent->now[i];
}

/* Lends a content, or filling; one of the two fillings puts bytes at an odd address. */
static struct lent lend(const void *content, size_t unit, size_t count, uint8_t filling)
{
    struct lent lent = {.unit = unit, .front = (GUARD + (filling & 1)) * unit};
    const uint8_t *bytes = content;
    lent.length = lent.front + (count + GUARD) * unit;
    lent.now = take(lent.length);
    lent.before = take(lent.length);
    for (size_t i = 0; i < lent.length; i++)
        lent.now[i] = filling;
    if (content)
        for (size_t i = 0; i < count * unit; i++)
            lent.now[lent.front + i] = bytes[i];
    keep(&lent);
    return lent;
}

static void *pointer(const struct lent *lent)
{
    return lent->now + lent->front;
}

static uint64_t wide(const struct lent *lent, size_t index)
{
    return ((const uint64_t *)pointer(lent))[index];
}

static uint32_t narrow(const struct lent *lent, size_t index)
{
    return ((const uint32_t *)pointer(lent))[index];
}

/* All is as it was, but for so many units at the front of the content. */
static void demand_kept(const struct lent *lent, size_t written, const char *what)
{
    for (size_t i = 0; i < lent->length; i++)
        if (lent->now[i] != lent->before[i] && (i < lent->front || i >= lent->front + written * lent->unit))
            fault(what);
}

/* ---- The operations; the words are those behind the operation's name ---- */

/* Where a refusal is: its place and, for that of an image, the byte offset behind it. */
static void put_refused(uint32_t number, const uint64_t *where, size_t count)
{
    put("refused ");
    put_number(number);
    for (size_t i = 0; i < count; i++) {
        put(" ");
        put_number(where[i]);
    }
}

static void demand_where(uint32_t number, const struct lent *where, size_t count)
{
    demand_kept(where, count, "written beside where the refusal is");
    for (size_t i = 0; i < count; i++)
        if (number == 0 && wide(where, i) != 0)
            fault("nothing is refused, but its place or offset is not 0");
}

static void put_start(const struct lent *start)
{
    for (size_t i = 0; i < 4; i++) {
        put(i ? " " : "");
        put_number(wide(start, i));
    }
}

/* A dispatcher's answer with the state after it. */
static void put_step(uint32_t number, const uint64_t where[2], const struct lent *state, const struct lent *start)
{
    demand_kept(state, HV_DISPATCHER_NUMBERS, "the state is written beside it");
    demand_kept(start, number ? 0 : 4, "the start changed where it is to be kept");
    if (number) {
        put_refused(number, where, 2);
    } else {
        put("start ");
        put_start(start);
    }
    put(" state ");
    for (size_t i = 0; i < HV_DISPATCHER_NUMBERS; i++) {
        put(i ? "," : "");
        put_number(narrow(state, i));
    }
}

static void judge_set(uint8_t filling)
{
    uint64_t n = number_of(1);
    struct lent tasks = lend(NULL, 4, 64, filling), place = lend(NULL, 8, 1, filling);
    struct lent hyperperiod = lend(NULL, 4, 1, filling), jobs = lend(NULL, 4, 1, filling);
    uint32_t *numbers = pointer(&tasks), number;
    if (n > UINT32_MAX || word_count - 2 > 16)
        fault("not a set");
    for (size_t i = 0; i < 4 * (n < 16 ? n : 16); i++)
        numbers[i] = 0;
    for (int i = 2; i < word_count; i++) {
        const char *at = words[i];
        for (int k = 0; k < 4; k++)
            numbers[4 * (i - 2) + k] = (uint32_t)number_at(&at, k < 3 ? ',' : ' ');
    }
    keep(&tasks);
    number = hv_judge_set((uint32_t)n, numbers, pointer(&place), pointer(&hyperperiod), pointer(&jobs));
    demand_kept(&tasks, 0, "the tasks changed");
    demand_kept(&hyperperiod, !number, "the hyperperiod changed where it is to be kept");
    demand_kept(&jobs, !number, "the jobs changed where they are to be kept");
    demand_where(number, &place, 1);
    if (number) {
        put_refused(number, pointer(&place), 1);
        return;
    }
    put("ok ");
    put_number(narrow(&hyperperiod, 0));
    put(" ");
    put_number(narrow(&jobs, 0));
}

static void check(uint8_t filling, uint32_t (*function)(const uint8_t *restrict, uint64_t, uint64_t *restrict))
{
    size_t length = bytes_of(1);
    struct lent bytes = lend(image, 1, length, filling), where = lend(NULL, 8, 2, filling);
    uint32_t number = function(pointer(&bytes), length, pointer(&where));
    demand_kept(&bytes, 0, "the image changed");
    demand_where(number, &where, 2);
    if (number)
        put_refused(number, pointer(&where), 2);
    else
        put("ok");
}

static void put_bytes(const uint8_t *bytes, size_t count)
{
    put(count ? "" : "-");
    for (size_t i = 0; i < count; i++)
        put_byte(bytes[i]);
}

/* What deriving or rebuilding gave, in an output of so many bytes. */
static void put_made(uint32_t number, uint64_t room, const struct lent *out, const struct lent *where, const struct lent *made)
{
    uint64_t written = number ? 0 : wide(made, 0);
    demand_kept(made, !number, "the length changed where it is to be kept");
    if (written > room)
        fault("the length is above the room");
    demand_kept(out, (size_t)written, "the output changed where it is to be kept");
    demand_where(number, where, 2);
    if (number) {
        put_refused(number, pointer(where), 2);
        return;
    }
    put("ok ");
    put_number(written);
    put(" ");
    put_bytes(pointer(out), (size_t)written);
}

static void turn(uint8_t filling,
                 uint32_t (*function)(const uint8_t *restrict, uint64_t, uint8_t *restrict, uint64_t, uint64_t *restrict, uint64_t *restrict))
{
    uint64_t room = number_of(1);
    size_t length = bytes_of(2);
    if (room > ARENA)
        fault("no room for what is lent");
    struct lent bytes = lend(image, 1, length, filling), out = lend(NULL, 1, (size_t)room, filling);
    struct lent where = lend(NULL, 8, 2, filling), made = lend(NULL, 8, 1, filling);
    uint32_t number = function(pointer(&bytes), length, pointer(&out), room, pointer(&where), pointer(&made));
    demand_kept(&bytes, 0, "the image changed");
    put_made(number, room, &out, &where, &made);
}

static void figures(uint8_t filling)
{
    uint64_t room = number_of(1);
    size_t length = bytes_of(2);
    if (room > ARENA / 8)
        fault("no room for what is lent");
    struct lent bytes = lend(image, 1, length, filling), stored = lend(NULL, 8, (size_t)room, filling);
    struct lent where = lend(NULL, 8, 2, filling), count = lend(NULL, 8, 1, filling), used = lend(NULL, 8, 1, filling);
    uint32_t number = hv_figures(pointer(&bytes), length, pointer(&stored), room, pointer(&where), pointer(&count), pointer(&used));
    uint64_t written = number ? 0 : wide(&count, 0);
    demand_kept(&bytes, 0, "the images changed");
    demand_kept(&count, !number, "the count changed where it is to be kept");
    demand_kept(&used, !number, "the image's length changed where it is to be kept");
    if (written > room)
        fault("the count is above the room");
    demand_kept(&stored, (size_t)written, "the figures changed where they are to be kept");
    demand_where(number, &where, 2);
    if (number) {
        put_refused(number, pointer(&where), 2);
        return;
    }
    put("ok ");
    put_number(written);
    put(" ");
    put_number(wide(&used, 0));
    for (size_t i = 0; i < written; i++) {
        put(" ");
        put_signed((int64_t)wide(&stored, i));
    }
}

static void begin(uint8_t filling)
{
    size_t length = bytes_of(1);
    struct lent state = lend(NULL, 4, HV_DISPATCHER_NUMBERS, filling), bytes = lend(image, 1, length, filling);
    struct lent start = lend(NULL, 8, 4, filling), where = lend(NULL, 8, 2, filling);
    uint32_t number = hv_begin(pointer(&state), pointer(&bytes), length, pointer(&start), pointer(&where));
    demand_kept(&bytes, 0, "the image changed");
    demand_where(number, &where, 2);
    put_step(number, pointer(&where), &state, &start);
}

/* Going on has no place and no offset: both are 0. */
static const uint64_t nowhere[2];

static void go(uint8_t filling)
{
    uint32_t before[HV_DISPATCHER_NUMBERS];
    size_t length = bytes_of(1);
    const char *at = words[2];
    for (size_t i = 0; i < HV_DISPATCHER_NUMBERS; i++)
        before[i] = (uint32_t)number_at(&at, i + 1 < HV_DISPATCHER_NUMBERS ? ',' : ' ');
    struct lent state = lend(before, 4, HV_DISPATCHER_NUMBERS, filling), bytes = lend(image, 1, length, filling), start = lend(NULL, 8, 4, filling);
    uint32_t number = hv_go_on(pointer(&state), pointer(&bytes), length, number_of(3), pointer(&start));
    demand_kept(&bytes, 0, "the image changed");
    put_step(number, nowhere, &state, &start);
}

/* A beginning and going on after it, each job reporting start + C; the first refusal ends the run. */
static void run(uint8_t filling)
{
    uint64_t count = number_of(1);
    size_t length = bytes_of(2);
    struct lent state = lend(NULL, 4, HV_DISPATCHER_NUMBERS, filling), bytes = lend(image, 1, length, filling);
    struct lent start = lend(NULL, 8, 4, filling), where = lend(NULL, 8, 2, filling);
    struct hv_dispatcher *dispatcher = pointer(&state);
    uint32_t number = hv_begin(dispatcher, pointer(&bytes), length, pointer(&start), pointer(&where));
    demand_where(number, &where, 2);
    const uint64_t *told = pointer(&where);
    for (uint64_t i = 1;; i++) {
        demand_kept(&bytes, 0, "the image changed");
        demand_kept(&state, HV_DISPATCHER_NUMBERS, "the state is written beside it");
        demand_kept(&start, 4, "the start is written beside it");
        if (number) {
            put_refused(number, told, 2);
            break;
        }
        put_start(&start);
        if (i >= count)
            break;
        put("|");
        told = nowhere;
        number = hv_go_on(dispatcher, pointer(&bytes), length, wide(&start, 3) + dispatcher->tasks[wide(&start, 0) & 15][1], pointer(&start));
    }
}

/* ---- The intake: a row of calls on one buffer, each a word ---- */

/* A fragment is lent; where it is taken, the buffer is to have it behind the count, and all else as it was. */
static void take_fragment(const struct lent *state, const struct lent *buffer, uint64_t length, const char *text, uint8_t filling)
{
    size_t size = bytes_at(text);
    struct lent fragment = lend(image, 1, size, filling);
    uint64_t count = wide(state, 1);
    uint32_t number = hv_intake_take(pointer(state), pointer(buffer), length, pointer(&fragment), size);
    demand_kept(&fragment, 0, "the fragment changed");
    if (number) {
        put_refused(number, nowhere, 2);
        return;
    }
    if (count > length || size > length - count)
        fault("a fragment is taken that does not fit");
    for (size_t i = 0; i < size; i++)
        buffer->before[buffer->front + count + i] = image[i];
    put("taken");
}

static void close_intake(const struct lent *state, const struct lent *buffer, uint64_t length, uint8_t filling)
{
    struct lent where = lend(NULL, 8, 2, filling), made = lend(NULL, 8, 1, filling);
    uint32_t number = hv_intake_close(pointer(state), pointer(buffer), length, pointer(&where), pointer(&made));
    demand_kept(&made, !number, "the length changed where it is to be kept");
    demand_where(number, &where, 2);
    if (number) {
        put_refused(number, pointer(&where), 2);
        return;
    }
    put("ok ");
    put_number(wide(&made, 0));
}

static void rebuild_intake(const struct lent *state, const struct lent *buffer, uint64_t length, uint64_t room, uint8_t filling)
{
    struct lent out = lend(NULL, 1, (size_t)room, filling), where = lend(NULL, 8, 2, filling), made = lend(NULL, 8, 1, filling);
    uint32_t number = hv_intake_rebuild(pointer(state), pointer(buffer), length, pointer(&out), room, pointer(&where), pointer(&made));
    put_made(number, room, &out, &where, &made);
}

/* The caller itself puts a number into the intake: open is the first, count the second. */
static void forge(const struct lent *state, size_t index, const char *text)
{
    ((uint64_t *)pointer(state))[index] = number_at(&text, ' ');
    put("forged");
}

static void intake_call(const struct lent *state, const struct lent *buffer, uint64_t length, uint64_t room, const char *word, uint8_t filling)
{
    if (word[0] != 'f' && word[0] != 'n' && word[0] != 'o' && word[1] != ' ')
        fault("no such call of an intake");
    switch (word[0]) {
    case 'b':
        hv_intake_begin(pointer(state));
        put("begun");
        break;
    case 'f':
        take_fragment(state, buffer, length, word + 1, filling);
        break;
    case 'c':
        close_intake(state, buffer, length, filling);
        break;
    case 'r':
        rebuild_intake(state, buffer, length, room, filling);
        break;
    case 'o':
    case 'n':
        forge(state, word[0] == 'n', word + 1);
        break;
    default:
        fault("no such call of an intake");
    }
}

/* The buffer's bytes are A5 at first. What a call alone is lent is taken back behind it. */
static void intake(uint8_t filling)
{
    uint64_t length = number_of(1), room = number_of(2);
    if (length > ARENA || room > ARENA)
        fault("no room for what is lent");
    struct lent state = lend(NULL, 8, 2, filling), buffer = lend(NULL, 1, (size_t)length, filling);
    uint8_t *bytes = pointer(&buffer);
    for (size_t i = 0; i < length; i++)
        bytes[i] = 0xA5;
    keep(&buffer);
    hv_intake_begin(pointer(&state));
    for (int i = 3; i < word_count; i++) {
        size_t used = arena_used;
        intake_call(&state, &buffer, length, room, words[i], filling);
        demand_kept(&state, 2, "written beside the intake");
        demand_kept(&buffer, 0, "the buffer is not as it was, or not with the fragment alone");
        arena_used = used;
        put(" [");
        put_number(wide(&state, 0));
        put(",");
        put_number(wide(&state, 1));
        put("]|");
    }
    put("buffer ");
    put_bytes(bytes, (size_t)length);
}

/* ---- The program ---- */

/* Whether the line's first word is this operation, with so many words behind it. */
static int is(const char *operation, int behind)
{
    size_t length = length_of(operation);
    for (size_t i = 0; i < length; i++)
        if (words[0][i] != operation[i])
            return 0;
    if (words[0][length] != ' ')
        return 0;
    if (behind >= 0 && word_count != 1 + behind)
        fault("another number of words");
    return 1;
}

static void ask(uint8_t filling)
{
    arena_used = 0;
    answer_length = 0;
    if (is("set", -1) && word_count > 1)
        judge_set(filling);
    else if (is("check1", 1))
        check(filling, hv_check_timetable);
    else if (is("check2", 1))
        check(filling, hv_check_tables);
    else if (is("derive", 2))
        turn(filling, hv_derive);
    else if (is("rebuild", 2))
        turn(filling, hv_rebuild);
    else if (is("figures", 2))
        figures(filling);
    else if (is("begin", 1))
        begin(filling);
    else if (is("go", 3))
        go(filling);
    else if (is("run", 2))
        run(filling);
    else if (is("intake", -1) && word_count > 2)
        intake(filling);
    else
        fault("no such operation");
}

static void answer_line(void)
{
    size_t question = split_line(), first;
    line[question] = ' '; /* so that every word ends with a blank */
    if (word_count == 0)
        fault("a line without a word");
    answer = answers[0];
    ask(0x5A);
    first = answer_length;
    answer = answers[1];
    ask(0xA5);
    int same = first == answer_length;
    for (size_t i = 0; same && i < first; i++)
        same = answers[0][i] == answers[1][i];
    if (!same)
        fault("the answer depends on what the buffers held");
    write_text(line, question);
    write_text(" => ", 4);
    write_text(answer, answer_length);
    write_text("\n", 1);
}

void begin_program(void)
{
    while (read_line())
        answer_line();
    flush();
    end_program(0);
}
