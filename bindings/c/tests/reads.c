/* Replays the stored texts and compares with the stored answers; then calls the reader by hand. */
#define _POSIX_C_SOURCE 200809L
#include "lent.h"

#include <stdlib.h>
#include <string.h>

static void print_cells(FILE *answer, const char *word, const struct lent *lent, size_t count)
{
    fputs(word, answer);
    for (size_t i = 0; i < count && i < cell_count(lent); i++)
        fprintf(answer, " %x", cells(lent)[i]);
    fputc('\n', answer);
}

/* Reads a text into cells that are all ones, and prints the answer in the notation of the stored ones. */
static void print_read(FILE *answer, const void *text, size_t length, struct sizes5 sizes, unsigned long place)
{
    struct lent bytes = lend_copy(text, length);
    struct cells5 lent = lend_cells(sizes);
    vumneath_network net = read_lent(&bytes, &lent);
    check_left(net, &lent, place);
    if (net.refused) {
        fprintf(answer, "refused=%u\n", net.refused);
    } else {
        fprintf(answer, "counts %u %u %u %u\n", net.inputs, net.gates, net.pins, net.outputs);
        print_cells(answer, "gates", &lent.gates, (size_t)net.gates * VUMNEATH_GATE_CELLS);
        print_cells(answer, "pins", &lent.pins, net.pins);
        print_cells(answer, "outputs", &lent.outputs, net.outputs);
    }
    check(length == 0 || memcmp(bytes.part, text, length) == 0, "the text is unchanged", place);
    take_back_cells(&lent, place);
    take_back(&bytes, place);
}

/* Compares what was printed with the stored answers from a place on; the answer is the place behind. */
static size_t compare(const struct lent *answers, size_t at, const char *printed, size_t length, const char *what, unsigned long place)
{
    bool same = at + length <= answers->bytes && memcmp(answers->part + at, printed, length) == 0;
    check(same, what, place);
    return at + length;
}

/* Reads one stored text; every second one with a cell more of each kind, as the stored answers were made. */
static size_t replay_text(const struct lent *answers, size_t at, const uint8_t *text, size_t length, unsigned long number)
{
    char *printed;
    size_t size;
    FILE *answer = open_memstream(&printed, &size);
    fprintf(answer, "text %lu\n", number);
    print_read(answer, text, length, number % 2 ? one_more : enough, number);
    fclose(answer);
    at = compare(answers, answer_start(answers, "text", number, at), printed, size, "the reader's stored answer", number);
    free(printed);
    return at;
}

/* The list's last answers: the text of no bytes, each time with one slice a cell short; a text too long, with no cells at all. */
static void replay_short(const struct lent *answers)
{
    struct sizes5 short_by_one[] = { enough, enough, enough, enough, enough };
    short_by_one[0].gates--;
    short_by_one[1].pins--;
    short_by_one[2].outputs--;
    short_by_one[3].work_gates--;
    short_by_one[4].work_pins--;
    static const struct sizes5 none = { 0, 0, 0, 0, 0 };
    static const uint8_t longest[VUMNEATH_MAX_TEXT + 1];
    char *printed;
    size_t size;
    FILE *answer = open_memstream(&printed, &size);
    fputs("short\n", answer);
    for (size_t i = 0; i < 5; i++)
        print_read(answer, "", 0, short_by_one[i], i);
    print_read(answer, longest, sizeof longest, none, 5);
    fclose(answer);
    compare(answers, answers->bytes - size, printed, size, "the reader's stored answers for too few cells", 0);
    free(printed);
}

void replay_reads(const char *texts, const char *stored, unsigned long step)
{
    struct lent list = load(texts), answers = load(stored);
    size_t at = 0, answer = 0;
    unsigned long count = next_word(&list, &at), taken = 0;
    for (unsigned long i = 0; i < count; i++) {
        size_t length = next_word(&list, &at);
        if (i % step == 0) {
            answer = replay_text(&answers, answer, list.part + at, length, i);
            taken++;
        }
        at += length;
    }
    check(at == list.bytes, "the list of texts was read to its end", at);
    replay_short(&answers);
    take_back(&list, count);
    take_back(&answers, count);
    printf("reading: %lu of %lu stored texts, and 6 with too few cells\n", taken, count);
}

static const char good[] = ".model m\n.inputs a b c\n.outputs y q\n.names a b c y\n11- 1\n0-1 1\n.latch y q 0\n.names q\\\n d\n0 0\n.end\n";

/* Every beginning of a good text, and every byte of it changed. */
static void call_damaged(void)
{
    static const char others[] = { '\0', '\n', ' ', '\\', '#', '.', '1', '2', 'a', '\x80' };
    char damaged[sizeof good];
    size_t length = sizeof good - 1;
    check(read_checked(good, length, enough, 0) == 0, "a good text is read", 0);
    for (size_t i = 0; i < length; i++)
        read_checked(good, i, enough, i);
    for (size_t i = 0; i < length * sizeof others; i++) {
        memcpy(damaged, good, length);
        damaged[i / sizeof others] = others[i % sizeof others];
        uint32_t refused = read_checked(damaged, length, one_more, i);
        check((refused == VUMNEATH_REFUSED_HIGH_BYTE) == (others[i % sizeof others] == '\x80'), "3 exactly for a byte over 127", i);
    }
}

/* As many bytes of text as there may be, and one more; with all cells, and with one slice a cell short. */
static void call_longest(char filler)
{
    char *text = malloc(VUMNEATH_MAX_TEXT + 1);
    struct sizes5 too_few = enough;
    too_few.work_pins--;
    memset(text, filler, VUMNEATH_MAX_TEXT + 1);
    uint32_t wanted = filler == '.' ? VUMNEATH_REFUSED_UNSUPPORTED : 0;
    check(read_checked(text, VUMNEATH_MAX_TEXT, enough, 0) == wanted, "the longest text is read", (unsigned char)filler);
    check(read_checked(text, VUMNEATH_MAX_TEXT + 1, enough, 0) == VUMNEATH_REFUSED_TEXT_TOO_LONG, "a byte more is 2", (unsigned char)filler);
    check(read_checked(text, VUMNEATH_MAX_TEXT, too_few, 0) == VUMNEATH_REFUSED_TOO_FEW_CELLS, "too few cells are 1", (unsigned char)filler);
    free(text);
}

/* Inputs, or gates without pins, up to a limit and one over. */
static uint32_t many(const char *before, const char *each, unsigned count)
{
    char *text;
    size_t size;
    FILE *stream = open_memstream(&text, &size);
    fputs(before, stream);
    for (unsigned i = 0; i < count; i++)
        fprintf(stream, each, i);
    fclose(stream);
    uint32_t refused = read_checked(text, size, enough, count);
    free(text);
    return refused;
}

/* One cover of so many inputs and one line: twice as many pins, and four more. */
static uint32_t wide(unsigned inputs)
{
    char *text = malloc(VUMNEATH_MAX_TEXT);
    size_t length = (size_t)sprintf(text, ".inputs a\n.outputs y\n.names%*s y\n%*s 1\n", 2 * (int)inputs, "", (int)inputs, "");
    char *names = strstr(text, ".names") + 6, *columns = strstr(names, "y\n") + 2;
    for (unsigned i = 0; i < inputs; i++) {
        names[2 * i + 1] = 'a';
        columns[i] = '1';
    }
    uint32_t refused = read_checked(text, length, enough, inputs);
    free(text);
    return refused;
}

static void call_largest(void)
{
    check(many(".inputs", " n%u", 256) == 0, "256 inputs", 0);
    check(many(".inputs", " n%u", 257) == VUMNEATH_REFUSED_SIZE_PASSED, "257 inputs", 0);
    check(many(".inputs a\n.outputs", " a", 256) == 0, "256 outputs", 0);
    check(many(".inputs a\n.outputs", " a", 257) == VUMNEATH_REFUSED_SIZE_PASSED, "257 outputs", 0);
    check(many("", ".names n%u\n", 1024) == 0, "1,024 gates", 0);
    check(many("", ".names n%u\n", 1025) == VUMNEATH_REFUSED_SIZE_PASSED, "1,025 gates", 0);
    check(wide(8190) == 0, "16,384 pins", 0);
    check(wide(8191) == VUMNEATH_REFUSED_SIZE_PASSED, "16,386 pins", 0);
}

static void call_null(void)
{
    const struct lent no_text = { NULL, NULL, 0 };
    const struct cells5 no_cells = { no_text, no_text, no_text, no_text, no_text };
    vumneath_network net = read_lent(&no_text, &no_cells);
    check(net.refused == VUMNEATH_REFUSED_TOO_FEW_CELLS, "null pointers of length 0 are too few cells", 0);
    struct cells5 lent = lend_cells(enough);
    net = read_lent(&no_text, &lent);
    check(net.refused == 0 && net.inputs == 0 && net.gates == 0, "a null text of length 0 is the empty netlist", 0);
    check_left(net, &lent, 0);
    take_back_cells(&lent, 0);
}

void call_reads(void)
{
    static const char fillers[] = { ' ', '\n', '\\', '#', '1', '.', 'a' };
    unsigned long before = checks;
    call_null();
    call_damaged();
    for (size_t i = 0; i < sizeof fillers; i++)
        call_longest(fillers[i]);
    call_largest();
    printf("reading by hand: %lu checks\n", checks - before);
}
