/* SPDX-License-Identifier: Apache-2.0 */
/* Carries out each row of texts of rows (docs/PLAN.md, "Rows") by the calls alone, and compares what they write with
 * the row's answer. Of rows that are refused, those are run whose fault is an image's or an argument's; the others,
 * which are of the text of a plan, are passed over. Call it with the files of rows. */
#include "test.h"

#define SKETCHES 4096
#define PLAN (1 << 24)

static uint8_t out[HLL_IMAGE_MAX(21)];
static bytes stack[SKETCHES];
static size_t height;
static int is_as_read;      /* whether the last sketch is an image as it was read, and not as this library writes it */
static long ran, passed_over;

static void push(const uint8_t *image, size_t len)
{
    need(height < SKETCHES, "room for the sketches of a row");
    stack[height] = with_room(len);
    memcpy(stack[height++].at, image, len);
}

static void drop(size_t count)
{
    while (count-- > 0)
        free(stack[--height].at);
}

/* What a call wrote takes the place of the last sketches. */
static hll_status replace(hll_status status, size_t count, size_t size)
{
    if (status == HLL_OK) {
        drop(count);
        push(out, size);
        is_as_read = 0;
    }
    return status;
}

static hll_status run_image(const char *digits, size_t count)
{
    bytes image = of_digits(digits, count);
    hll_status status;
    need(image.at != NULL, "the digits of an image");
    status = hll_image_check(image.at, image.len);
    if (status == HLL_OK)
        push(image.at, image.len);
    is_as_read = 1;
    free(image.at);
    return status;
}

static hll_status run_union(size_t count, uint8_t lg_max_k, uint8_t width)
{
    size_t *ends, len = 0, size = 0, failed = 0, i;
    bytes joined;
    hll_status status;
    if (count > height)     /* the line is refused, for another number */
        count = height;
    ends = malloc((count + 1) * sizeof *ends);
    need(ends != NULL, "memory for a union");
    for (i = 0; i < count; i++)
        ends[i] = len += stack[height - count + i].len;
    joined = with_room(len);
    for (i = 0; i < count; i++)
        memcpy(joined.at + ends[i] - stack[height - count + i].len, stack[height - count + i].at,
               stack[height - count + i].len);
    status = hll_images_union(lg_max_k, width, joined.at, len, ends, count, out, sizeof out, &size, &failed);
    free(joined.at);
    free(ends);
    return replace(status, count, size);
}

/* Numbers that don't fit the type of an argument can't be passed; such a line is not carried out. */
static int fits(const unsigned long *numbers, const char *word)
{
    int is_coupon = strcmp(word, "coupon") == 0, is_union = strcmp(word, "union") == 0;
    return (is_coupon || is_union || numbers[0] < 256) && numbers[1] < 256 && numbers[2] < 256;
}

/* Carries out a line; 200 where that can't be done by a call. */
static hll_status run_line(char *line)
{
    unsigned long numbers[3] = {0, 0, 0};
    char word[8] = "";
    size_t size = 0;
    hll_status status;
    bytes last;
    if (strncmp(line, "image ", 6) == 0)
        return run_image(line + 6, strlen(line + 6));
    if (sscanf(line, "%7s %lu %lu %lu", word, &numbers[0], &numbers[1], &numbers[2]) < 2 || !fits(numbers, word))
        return 200;
    if (strcmp(word, "union") == 0)
        return run_union(numbers[0], (uint8_t)numbers[1], (uint8_t)numbers[2]);
    if (strcmp(word, "new") == 0) {
        status = hll_image_new((uint8_t)numbers[0], (uint8_t)numbers[1], out, sizeof out, &size);
        return replace(status, 0, size);
    }
    need(height > 0, "a sketch for a line");
    last = stack[height - 1];
    if (strcmp(word, "coupon") == 0) {
        status = hll_image_add_coupon(last.at, last.len, (uint32_t)numbers[0], (uint8_t)numbers[1], out, sizeof out,
                                      &size);
    } else {
        need(strcmp(word, "fold") == 0, "a line of a known kind");
        status = hll_image_fold(last.at, last.len, (uint8_t)numbers[0], out, sizeof out, &size);
    }
    return replace(status, 1, size);
}

/* Carries out the lines of a plan in turn; the first status that is not HLL_OK, and its line. */
static hll_status run_plan(char *plan, unsigned long *number)
{
    char *line = plan;
    *number = 0;
    while (line != NULL && *line != '\0') {
        char *end = strchr(line, '\n'), *next = end ? end + 1 : NULL;
        hll_status status = HLL_OK;
        ++*number;
        if (end != NULL) {
            *end = '\0';
            if (end > line && end[-1] == '\r')
                end[-1] = '\0';
        }
        if (*line != '\0' && *line != '#')
            status = run_line(line);
        if (status != HLL_OK)
            return status;
        line = next;
    }
    return HLL_OK;
}

/* The sketch that is left, as it is written. */
static bytes outcome(void)
{
    bytes image = stack[0];
    if (is_as_read) {
        hll_info info;
        size_t size = 0;
        CHECK(hll_image_info(image.at, image.len, &info, sizeof info) == HLL_OK, "the info of an image");
        CHECK(hll_image_convert(image.at, image.len, info.width, out, sizeof out, &size) == HLL_OK, "an image again");
        image.at = out;
        image.len = size;
    }
    return image;
}

/* The width that byte 7 of an image says. */
#define WIDTH_OF(image) ((uint8_t)(4 + ((image)[7] >> 2 & 3) * 2))

/* The answer of a row, with its estimator fields set where they are 0, as the calls write it; the program hll_merge leaves them. */
static bytes with_words(const char *digits)
{
    bytes plain = of_hex(digits), image = with_room(plain.len);
    size_t size = 0;
    CHECK(hll_image_convert(plain.at, plain.len, WIDTH_OF(plain.at), image.at, image.len, &size) == HLL_OK
              && size == plain.len, "the answer of a row, written again");
    free(plain.at);
    return image;
}

/* A row that prints an image. */
static void run_answered(char *plan, const char *answer)
{
    unsigned long number;
    hll_status status = run_plan(plan, &number);
    bytes wanted = with_words(answer + 2), image;
    CHECK(status == HLL_OK, "line %lu: %s; wanted %.40s", number, hll_reason(status), answer);
    CHECK(height == 1, "%d sketches are left", (int)height);
    if (status == HLL_OK && height == 1) {
        image = outcome();
        CHECK(image.len == wanted.len && memcmp(image.at, wanted.at, image.len) == 0, "other bytes than %.60s", answer);
    }
    free(wanted.at);
    ran++;
}

/* A row that is refused in a line, for these words; whether it was run. */
static int run_refused(char *plan, unsigned long line, const char *words)
{
    int is_image = strncmp(words, "image ", 6) == 0;
    unsigned long number;
    hll_status status;
    if (!is_image && strcmp(words, "range") != 0 && strcmp(words, "fold") != 0)
        return 0;
    status = run_plan(plan, &number);
    if (status == 200)
        return 0;
    CHECK(number == line, "refused in line %lu, not %lu", number, line);
    CHECK(strcmp(hll_reason(status), is_image ? words + 6 : "argument") == 0, "%s, not %s", hll_reason(status), words);
    return 1;
}

/* Runs a row of a plan and its answer. */
static void run_row(char *plan, char *answer)
{
    unsigned long line = 0;
    int at = 0;
    if (*answer == '=' || *answer == '+') {
        run_answered(plan, answer);
    } else {
        need(sscanf(answer, "! line %lu: %n", &line, &at) == 1 && at > 0, answer);
        if (run_refused(plan, line, answer + at))
            ran++;
        else
            passed_over++;
    }
    drop(height);
}

/* Puts a line of a plan, in which a backslash and two digits are a byte, at a place; its length. */
static size_t unescape(char *to, const char *line)
{
    char *start = to;
    for (; *line != '\0'; line++)
        if (*line == '\\') {
            *to++ = (char)(digit(line[1]) * 16 + digit(line[2]));
            line += 2;
        } else {
            *to++ = *line;
        }
    *to = '\0';
    return (size_t)(to - start);
}

/* Runs the rows of a file: an empty line ends a row, a line that begins with two strokes is a note. */
static void run_file(FILE *rows)
{
    static char line[PLAN], answer[PLAN], plan[PLAN];
    size_t len = 0, lines = 0;
    char *got;
    do {
        got = fgets(line, sizeof line, rows);
        if (got != NULL)
            line[strcspn(line, "\n")] = '\0';
        if (got != NULL && strncmp(line, "//", 2) == 0)
            continue;
        if (got != NULL && *line != '\0') {
            if (strchr("=+!", *line) != NULL) {
                strcpy(answer, line);
            } else {
                need(len + strlen(line) + 2 < PLAN, "room for a plan");
                if (lines++ > 0)
                    plan[len++] = '\n';
                len += unescape(plan + len, line);
            }
        } else if (*answer != '\0') {
            plan[len] = '\0';
            run_row(plan, answer);
            len = lines = 0;
            *answer = '\0';
        }
    } while (got != NULL);
}

int main(int argc, char **argv)
{
    int i;
    for (i = 1; i < argc; i++) {
        FILE *rows = fopen(argv[i], "r");
        need(rows != NULL, argv[i]);
        run_file(rows);
        fclose(rows);
    }
    printf("%ld rows were run, %ld of the text alone were passed over\n", ran, passed_over);
    CHECK(ran > (argc > 2 ? 1000 : 100), "so few rows");
    return finish("rows by the calls alone");
}
