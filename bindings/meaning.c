/* Holds the names and macros of eveglome.h to their meaning: makes every row of meaning.table, whose path it is given, and asks that every name has a row and
   every operation a name. Writes what is wrong, with the name, and then ends with 1. */
#include "eveglome.h"
#include <stdio.h>
#include <stdlib.h>
#include <string.h>

/* A name, the number that the header gives it, and whether a row shows it. */
struct name {
    const char *text;
    size_t number;
    int shown;
};

#define NAME(text) {#text, EVEGLOME_##text, 0}
#define LAST {NULL, 0, 0}

static struct name places[] = {
    NAME(ADDRESS), NAME(POINTER), NAME(X), NAME(Y), NAME(STATE), NAME(MODE), NAME(SCALE), NAME(INTENSITY), NAME(PEN_ENABLE), NAME(PEN_HOLD),
    NAME(PEN_SENSE), NAME(BLINK), NAME(IDLE), NAME(BUTTONS), NAME(HIT_1), NAME(HIT_2), NAME(INTERNAL_STOP_FLAG), NAME(EXTERNAL_STOP_FLAG),
    NAME(VERTICAL_EDGE_FLAG), NAME(HORIZONTAL_EDGE_FLAG), NAME(PEN_FLAG), NAME(MANUAL_INTERRUPT_FLAG), NAME(CONDITIONS), NAME(RUNNING),
    NAME(STOP_REQUEST), NAME(HELD), NAME(HELD_WORD), NAME(CASE), NAME(CODE_SIZE), NAME(STARTING_ADDRESS), NAME(MOTION), NAME(LINE_MINUS_Y),
    NAME(LINE_MINUS_X), NAME(LINE_MAGNITUDE_Y), NAME(LINE_MAGNITUDE_X), NAME(LINE_MOVES), NAME(LINE_DONE), NAME(LINE_LIT), NAME(LINE_ESCAPE),
    NAME(LINE_LAST_WORD), NAME(BYTES_WORD), NAME(BYTES_SIDE), NAME(BYTES_MOVES_LEFT), NAME(BYTES_LAST_WORD), NAME(CHARACTER_WORD), NAME(CHARACTER_SIZE),
    NAME(CHARACTER_SIDE), NAME(CHARACTER_STAGE), NAME(ROUTINE_KIND), NAME(ROUTINE_NEXT), NAME(ROUTINE_BYTES_WORD), NAME(ROUTINE_BYTES_SIDE),
    NAME(ROUTINE_BYTES_MOVES_LEFT), NAME(ROUTINE_BYTES_LAST_WORD), NAME(ROUTINE_LINE_MINUS_Y), NAME(ROUTINE_LINE_MINUS_X), NAME(ROUTINE_LINE_MAGNITUDE_Y),
    NAME(ROUTINE_LINE_MAGNITUDE_X), NAME(ROUTINE_LINE_MOVES), NAME(ROUTINE_LINE_DONE), NAME(ROUTINE_LINE_LIT), NAME(ROUTINE_LINE_ESCAPE),
    NAME(ROUTINE_LINE_LAST_WORD), LAST};

static struct name loans[] = {NAME(FILE_LOW), NAME(FILE_HIGH), NAME(LIST_LOW), NAME(LIST_HIGH), LAST};

static struct name answers[] = {NAME(ENDING), NAME(WORD), NAME(BEATS), NAME(POINTS), NAME(FENCE_ADDRESS), LAST};

static struct name listing_answers[] = {NAME(LISTING_REFUSAL), NAME(LISTING_LINE), NAME(LISTING_LENGTH), LAST};

static struct name endings[] = {
    NAME(DONE), NAME(MEMORY_LENGTH), NAME(BUDGET_TOO_LARGE), NAME(BAD_LOAN), NAME(REGISTERS_OUT_OF_RANGE), NAME(UNKNOWN_OPERATION),
    NAME(OPERAND_OUT_OF_RANGE), NAME(LINE_NOT_IN_FORM), NAME(NOT_RUNNING), NAME(BUDGET_SPENT), NAME(INTERNAL_STOP), NAME(EXTERNAL_STOP), NAME(EDGE),
    NAME(UNUSABLE_MODE), NAME(FETCH_OUTSIDE_LOAN), NAME(WIDE_WORD), NAME(POINTS_FULL), NAME(WRITE_OUTSIDE_LOAN), NAME(TEXT_TOO_SHORT),
    NAME(WIDE_WORD_IN_RANGE), LAST};

static struct name operations[] = {
    NAME(START), NAME(SET_POINTER), NAME(SET_CONDITIONS), NAME(RESUME), NAME(CLEAR), NAME(ASK_TO_STOP), NAME(PEN_LIGHT), NAME(PRESS_BUTTON),
    NAME(CLEAR_GROUP), NAME(MANUAL_INTERRUPT_ON), NAME(MANUAL_INTERRUPT_OFF), NAME(IDLE_ON), NAME(READ_POINTER), NAME(READ_X), NAME(READ_Y),
    NAME(READ_ADDRESS), NAME(READ_STATUS_1), NAME(READ_STATUS_2), NAME(READ_BUTTONS), NAME(SET_GENERATOR), NAME(READ_GENERATOR), LAST};

/* What a call is lent. Each list has room to spare, so that a place with a wrong number stays inside it. */
enum { SPARE = 64, ROOM = 8, TEXT = 1024, PARTS = 64, OPERATIONS = 1024, WORDS = 4096 };
static uint16_t registers[EVEGLOME_ROW + SPARE];
static uint16_t loan[EVEGLOME_LOAN + SPARE];
static uint16_t memory[EVEGLOME_MEMORY + SPARE];
static uint64_t points[ROOM];
static uint32_t answer[EVEGLOME_ANSWER + SPARE];
static uint8_t text_list[TEXT];
static uint32_t listing_answer[EVEGLOME_LISTING_ANSWER + SPARE];
static size_t memory_length, points_length, text_length;

/* The row that is made, and whether anything was wrong. */
static unsigned line;
static char shown[TEXT];
static int wrong;

static void table_fault(const char *what, const char *text) {
    printf("line %u of the table: %s: %s\n", line, what, text);
    exit(2);
}

static size_t number_of(const char *text) {
    char *end;
    unsigned long number = strtoul(text, &end, 0);
    if (end == text || *end) table_fault("no number", text);
    return (size_t)number;
}

static struct name *find(struct name *names, const char *text) {
    for (; names->text; names++)
        if (strcmp(names->text, text) == 0) return names;
    return NULL;
}

/* Cuts the text at the first mark and answers what stood before it; then the text is what stands behind it, or null. */
static char *cut(char **text, char mark) {
    char *start = *text, *at = strchr(start, mark);
    *text = at ? at + 1 : NULL;
    if (at) *at = 0;
    return start;
}

/* The words between blanks: how many there are. */
static size_t split(char *text, char *parts[PARTS]) {
    size_t count = 0;
    while (text) {
        char *part = cut(&text, ' ');
        if (*part == 0) continue;
        if (count == PARTS) table_fault("too long", part);
        parts[count++] = part;
    }
    return count;
}

static void set(char *setting) {
    char *text = setting, *key = cut(&text, '=');
    size_t number = number_of(text ? text : "");
    struct name *name;
    if (*key == '@') {
        size_t address = number_of(key + 1);
        if (address >= EVEGLOME_MEMORY) table_fault("no such address", key);
        memory[address] = (uint16_t)number;
    } else if (strcmp(key, "memory") == 0 && number <= EVEGLOME_MEMORY + SPARE)
        memory_length = number;
    else if (strcmp(key, "room") == 0 && number <= ROOM)
        points_length = number;
    else if (strcmp(key, "text") == 0 && number <= TEXT)
        text_length = number;
    else if ((name = find(places, key)))
        registers[name->number] = (uint16_t)number;
    else if ((name = find(loans, key)))
        loan[name->number] = (uint16_t)number;
    else
        table_fault("cannot be set", key);
}

/* Whether an entry of the point list is the point of the table, x,y,intensity,blink,word: by the sum of 02, No. 5, and by each of its parts. */
static int is_point(uint64_t entry, char *text) {
    static const unsigned shifts[] = {0, 10, 20, 23, 24};
    const unsigned parts[] = {EVEGLOME_POINT_X(entry), EVEGLOME_POINT_Y(entry), EVEGLOME_POINT_INTENSITY(entry), EVEGLOME_POINT_BLINK(entry),
                              EVEGLOME_POINT_LAST_WORD(entry)};
    uint64_t sum = 0;
    int same = 1;
    for (size_t i = 0; i < 5; i++) {
        if (!text) table_fault("no point in", shown);
        uint64_t part = number_of(cut(&text, ','));
        same &= parts[i] == part;
        sum += part << shifts[i];
    }
    return same && entry == sum;
}

static size_t ending_of(const char *text) {
    struct name *name = find(endings, text);
    if (!name) table_fault("no ending", text);
    return name->number;
}

/* An operation of the table: a name, or a number. */
static uint32_t operation_of(const char *text) {
    struct name *name = find(operations, text);
    return (uint32_t)(name ? name->number : number_of(text));
}

/* The text that these parts are, a space between two: | is a newline, and - alone no text. Answers its length. */
static size_t text_of(char *parts[], size_t count, uint8_t bytes[TEXT]) {
    size_t length = 0;
    if (count == 1 && strcmp(parts[0], "-") == 0) return 0;
    for (size_t i = 0; i < count; i++) {
        if (i > 0) bytes[length++] = ' ';
        for (const char *at = parts[i]; *at; at++) bytes[length++] = (uint8_t)(*at == '|' ? '\n' : *at);
    }
    return length;
}

/* An ending of the table, and the number behind its @, or 0. */
static size_t ending_and(char *part, size_t *behind) {
    size_t ending = ending_of(cut(&part, '@'));
    *behind = part ? number_of(part) : 0;
    return ending;
}

/* A listing or a reading, whose parts before "gives" are so many. */
static void call_listing(const char *clause, char *parts[], size_t count, size_t told) {
    size_t refusal = EVEGLOME_DONE, refused_line = 0, length = 0;
    static uint8_t bytes[TEXT];
    uint32_t numbers[4];
    int right = 1, listing = strcmp(parts[0], "list") == 0;
    if (told < 5 || (listing ? told > 5 : told < 6 || told + 2 != count)) table_fault("no listing", clause);
    for (size_t i = 0; i < 4; i++) numbers[i] = (uint32_t)number_of(parts[i + 1]);

    if (listing) {
        if (*parts[told + 1] >= 'A')
            refusal = ending_and(parts[told + 1], &refused_line);
        else
            length = text_of(parts + told + 1, count - told - 1, bytes);
        eveglome_list(memory, memory_length, numbers[0], numbers[1], numbers[2], numbers[3], text_list, text_length, listing_answer);
        right = memcmp(text_list, bytes, length) == 0;
    } else {
        refusal = ending_and(parts[told + 1], &refused_line);
        eveglome_read(bytes, text_of(parts + 5, told - 5, bytes), memory, memory_length, numbers[0], numbers[1], numbers[2], numbers[3], listing_answer);
    }

    right &= listing_answer[EVEGLOME_LISTING_REFUSAL] == refusal && listing_answer[EVEGLOME_LISTING_LINE] == refused_line &&
             listing_answer[EVEGLOME_LISTING_LENGTH] == length;
    if (right) return;
    printf("line %u, %s: \"%s\", but it gave refusal %lu, line %lu, length %lu\n", line, shown, clause,
           (unsigned long)listing_answer[EVEGLOME_LISTING_REFUSAL], (unsigned long)listing_answer[EVEGLOME_LISTING_LINE],
           (unsigned long)listing_answer[EVEGLOME_LISTING_LENGTH]);
    wrong = 1;
}

static void call(const char *clause, char *parts[], size_t count) {
    size_t told = 0, ending = EVEGLOME_DONE, word = 0, beats = 0, lit = 0, address = 0;
    int right = 1;
    while (told < count && strcmp(parts[told], "gives") != 0) told++;
    if (told == 0 || told + 1 >= count) table_fault("no call", clause);
    if (strcmp(parts[0], "list") == 0 || strcmp(parts[0], "read") == 0) {
        call_listing(clause, parts, count, told);
        return;
    }
    if (told > 2) table_fault("no call", clause);

    if (strcmp(parts[0], "run") == 0) {
        if (told != 2 || count < 5) table_fault("no run", clause);
        ending = ending_and(parts[told + 1], &address);
        beats = number_of(parts[told + 2]);
        lit = count - (told + 3);
        eveglome_run(registers, loan, memory, memory_length, points, points_length, (uint32_t)number_of(parts[1]), answer);
        for (size_t i = 0; i < lit && i < ROOM; i++) right &= is_point(points[i], parts[told + 3 + i]);
    } else {
        if (told + 2 != count) table_fault("no operation", clause);
        if (*parts[told + 1] >= '0' && *parts[told + 1] <= '9')
            word = number_of(parts[told + 1]);
        else
            ending = ending_of(parts[told + 1]);
        eveglome_operate(registers, operation_of(parts[0]), told == 2 ? (uint32_t)number_of(parts[1]) : 0, answer);
    }

    right &= answer[EVEGLOME_ENDING] == ending && answer[EVEGLOME_WORD] == word && answer[EVEGLOME_BEATS] == beats && answer[EVEGLOME_POINTS] == lit &&
             answer[EVEGLOME_FENCE_ADDRESS] == address;
    if (right) return;
    printf("line %u, %s: \"%s\", but it gave ending %lu, address %lo octal, word %lo octal, beats %lu, points %lu", line, shown, clause,
           (unsigned long)answer[EVEGLOME_ENDING], (unsigned long)answer[EVEGLOME_FENCE_ADDRESS], (unsigned long)answer[EVEGLOME_WORD],
           (unsigned long)answer[EVEGLOME_BEATS], (unsigned long)answer[EVEGLOME_POINTS]);
    for (size_t i = 0; i < answer[EVEGLOME_POINTS] && i < ROOM; i++)
        printf(" %u,%u,%u,%u,%#o", EVEGLOME_POINT_X(points[i]), EVEGLOME_POINT_Y(points[i]), EVEGLOME_POINT_INTENSITY(points[i]),
               EVEGLOME_POINT_BLINK(points[i]), EVEGLOME_POINT_LAST_WORD(points[i]));
    printf("\n");
    wrong = 1;
}

static void make_row(char *text) {
    char *names = cut(&text, ':'), *parts[PARTS];
    strcpy(shown, names);
    for (size_t i = 0, count = split(names, parts); i < count; i++) {
        struct name *lists[] = {places, loans, answers, listing_answers, endings, operations}, *name = NULL;
        for (size_t list = 0; list < 6 && !name; list++) name = find(lists[list], parts[i]);
        if (!name) table_fault("no such name", parts[i]);
        name->shown = 1;
    }

    eveglome_fresh(registers);
    memset(loan, 0, sizeof loan);
    loan[EVEGLOME_FILE_HIGH] = loan[EVEGLOME_LIST_HIGH] = EVEGLOME_MEMORY;
    memset(memory, 0, sizeof memory);
    memory_length = EVEGLOME_MEMORY;
    points_length = ROOM;
    text_length = TEXT;
    while (text) {
        char *clause = cut(&text, ';'), whole[TEXT];
        clause += strspn(clause, " ");
        strcpy(whole, clause);
        size_t count = split(clause, parts);
        if (count > 0 && strchr(parts[0], '='))
            for (size_t i = 0; i < count; i++) set(parts[i]);
        else
            call(whole, parts, count);
    }
}

/* Every name has a row, and the names have every number below the count. */
static void ask_for_rows(const struct name *names, size_t count, const char *counted) {
    for (size_t i = 0; names[i].text; i++)
        if (!names[i].shown) {
            printf("%s: no row shows it\n", names[i].text);
            wrong = 1;
        }
    for (size_t number = 0; number < count; number++) {
        size_t i = 0;
        while (names[i].text && names[i].number != number) i++;
        if (!names[i].text) {
            printf("%s: there are %lu places, but none of the names is place %lu\n", counted, (unsigned long)count, (unsigned long)number);
            wrong = 1;
        }
    }
    for (size_t i = 0; count > 0 && names[i].text; i++)
        if (names[i].number >= count) {
            printf("%s: there are %lu places, but %s is place %lu\n", counted, (unsigned long)count, names[i].text, (unsigned long)names[i].number);
            wrong = 1;
        }
}

/* Every operation that is not refused as unknown has a name. */
static void ask_for_operations(void) {
    for (size_t number = 0; number < OPERATIONS; number++) {
        size_t i = 0;
        eveglome_fresh(registers);
        eveglome_operate(registers, (uint32_t)number, 0, answer);
        while (operations[i].text && operations[i].number != number) i++;
        if ((answer[EVEGLOME_ENDING] == EVEGLOME_UNKNOWN_OPERATION) == !operations[i].text) continue;
        printf("operation %lu: it is %s\n", (unsigned long)number, operations[i].text ? "unknown, but has a name" : "known, but has no name");
        wrong = 1;
    }
}

/* Fresh registers, the answer of a read of them and that of an empty listing are all 0: as many numbers as are written over a list of other numbers. */
static void count_places(void) {
    size_t row = 0, told = 0, listed = 0;
    memset(registers, 0xff, sizeof registers);
    memset(answer, 0xff, sizeof answer);
    memset(listing_answer, 0xff, sizeof listing_answer);
    eveglome_fresh(registers);
    eveglome_operate(registers, 20, 0, answer);
    eveglome_list(memory, EVEGLOME_MEMORY, 0, 0, 0, 0, text_list, 0, listing_answer);
    while (row < EVEGLOME_ROW + SPARE && registers[row] == 0) row++;
    while (told < EVEGLOME_ANSWER + SPARE && answer[told] == 0) told++;
    while (listed < EVEGLOME_LISTING_ANSWER + SPARE && listing_answer[listed] == 0) listed++;
    if (row != EVEGLOME_ROW || told != EVEGLOME_ANSWER || listed != EVEGLOME_LISTING_ANSWER) {
        printf("ROW, ANSWER, LISTING_ANSWER: a row has %lu numbers, an answer %lu, that of a listing %lu\n", (unsigned long)row, (unsigned long)told,
               (unsigned long)listed);
        wrong = 1;
    }
}

/* No word has a longer line than in control state, in which mnemonics stand: so many bytes for each word of memory are room for any listing. */
static void measure_lines(void) {
    size_t longest = 0;
    for (size_t word = 0; word < WORDS; word++) {
        memory[0] = (uint16_t)word;
        eveglome_list(memory, EVEGLOME_MEMORY, 0, 1, 0, 0, text_list, TEXT, listing_answer);
        if (listing_answer[EVEGLOME_LISTING_LENGTH] > longest) longest = listing_answer[EVEGLOME_LISTING_LENGTH];
    }
    if (longest * EVEGLOME_MEMORY != EVEGLOME_LONGEST_LISTING) {
        printf("LONGEST_LISTING: the longest line has %lu bytes, so a listing up to %lu\n", (unsigned long)longest, (unsigned long)(longest * EVEGLOME_MEMORY));
        wrong = 1;
    }
}

int main(int count, char **arguments) {
    static char text[TEXT];
    FILE *table = count == 2 ? fopen(arguments[1], "r") : NULL;
    if (!table) {
        printf("usage: meaning TABLE\n");
        return 2;
    }
    count_places();
    measure_lines();
    while (fgets(text, sizeof text, table)) {
        char *end = strchr(text, '\n');
        line++;
        if (!end) table_fault("too long, or unfinished", text);
        *end = 0;
        if (*text && *text != '#') make_row(text);
    }
    fclose(table);
    ask_for_rows(places, EVEGLOME_ROW, "ROW");
    ask_for_rows(loans, EVEGLOME_LOAN, "LOAN");
    ask_for_rows(answers, EVEGLOME_ANSWER, "ANSWER");
    ask_for_rows(listing_answers, EVEGLOME_LISTING_ANSWER, "LISTING_ANSWER");
    ask_for_rows(endings, 0, "endings");
    ask_for_rows(operations, 0, "operations");
    ask_for_operations();
    return wrong;
}
