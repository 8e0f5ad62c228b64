/* Follows a trace of the twin (`linked trace`, see src/trace.rs) on standard input: does every deed on
   the exports of libboard_c.a, and after every call compares the answer, every word of the area and
   the guard words around it with what the trace says. It takes no header, the board's neither: what is
   used of C's library is declared here, so that a compiler without headers builds it for any machine. */

typedef unsigned long word;
typedef struct { word number, ended, age; } board_answer;
typedef struct { word yes, at, len; } board_place;

board_answer board_make(word *area, word words, word form, word n, word c, const word *record, word len);
board_answer board_begin_read(word *area, word words, word reader);
board_answer board_begin_write(word *area, word words, const word *record, word len);
board_answer board_step(word *area, word words, word process);
board_place board_show(const word *area, word words, word reader);
word board_words(word form, word n, word c);

long read(int from, void *to, word bytes);
int printf(const char *format, ...);
void exit(int status);

enum { MAKE, READ, WRITE, STEP, SHOW, WORDS, LEND, ALTER, FILL };
enum { GUARDS = 8, ROOM = 34400, BUFFER = 8192 };
static const word GUARD = 0x677561726420776f;

static word lent[GUARDS + ROOM + GUARDS], expected[GUARDS + ROOM + GUARDS];
static word given[ROOM], length, calls;
static word *const area = lent + GUARDS;

static void stop(const char *what) {
    printf("after %lu calls: %s\n", calls, what);
    exit(1);
}

/* The next word of the trace; 0 if it has ended. */
static int next(word *to) {
    static word buffer[BUFFER];
    static word bytes, used;
    if (used + 8 > bytes) {
        bytes = 0;
        used = 0;
        while (bytes == 0 || bytes % 8 != 0) {
            long more = read(0, (char *)buffer + bytes, sizeof buffer - bytes);
            if (more < 0) stop("the trace cannot be read");
            if (more == 0 && bytes != 0) stop("the trace ends inside a word");
            if (more == 0) return 0;
            bytes += more;
        }
    }
    *to = buffer[used / 8];
    used += 8;
    return 1;
}

static word wanted(void) {
    word value;
    if (!next(&value)) stop("the trace ends inside a deed");
    return value;
}

static board_answer act(word kind, word count) {
    board_answer answer = {0, 0, 0};
    board_place place;
    switch (kind) {
    case MAKE: return board_make(area, length, given[0], given[1], given[2], given + 3, count - 3);
    case READ: return board_begin_read(area, length, given[0]);
    case WRITE: return board_begin_write(area, length, given, count);
    case STEP: return board_step(area, length, given[0]);
    case SHOW:
        place = board_show(area, length, given[0]);
        return (board_answer){place.yes, place.at, place.len};
    case WORDS: answer.number = board_words(given[0], given[1], given[2]); break;
    case LEND:
        length = given[0];
        if (length > ROOM) stop("the trace lends too many words");
        for (word i = length; i < ROOM + GUARDS; i++) area[i] = expected[GUARDS + i] = GUARD;
        break;
    case ALTER: area[given[0]] = expected[GUARDS + given[0]] = given[1]; break;
    case FILL:
        for (word i = 0; i < count; i++) area[i] = expected[GUARDS + i] = given[i];
        break;
    default: stop("the trace has an unknown deed");
    }
    return answer;
}

/* What the twin answered and changed follows a call in the trace. */
static void compare(board_answer answer) {
    word number = wanted(), ended = wanted(), age = wanted(), changes = wanted();
    calls++;
    if (answer.number != number || answer.ended != ended || answer.age != age) stop("another answer");
    while (changes-- > 0) {
        word place = wanted();
        if (place >= length) stop("the trace changes a word that is not lent");
        expected[GUARDS + place] = wanted();
    }
    word differ = 0;
    for (word i = 0; i < GUARDS + length + GUARDS; i++) differ |= lent[i] ^ expected[i];
    if (differ != 0) stop("another word in the area, or a guard word changed");
}

int main(void) {
    word kind;
    for (word i = 0; i < GUARDS + ROOM + GUARDS; i++) lent[i] = expected[i] = GUARD;
    while (next(&kind)) {
        word count = wanted();
        if (count > ROOM) stop("the trace has a deed of too many words");
        for (word i = 0; i < count; i++) given[i] = wanted();
        board_answer answer = act(kind, count);
        if (kind <= WORDS) compare(answer);
    }
    printf("%lu calls: the library gave the twin's answers and words\n", calls);
    return 0;
}
