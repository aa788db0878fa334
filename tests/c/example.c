/* Calls the library from C: lowers a tree, puts trees in order, reads, lists and counts a module, checks its heights, finds a function's code, runs it to a place. */
#include "rulketoos.h"

#include <stdio.h>
#include <string.h>

/* the empty script, and its module */
static const uint8_t tree[] = {0, 0, 0, 3, 1, 0, 0};
static const uint8_t module[] = {
    0, 0, 0, 30, 2, 0, 1, 8, '_', '_', 'm', 'a', 'i', 'n', '_', '_',
    0, 0, 0, 1, 0, 0, 0, 0, 0, 0, 0, 0, 1, 33, 0, 0, 0, 0};

/* `while True: break`, and its module: True, JumpIfFalse 2, Jump 1, Jump -4, Return */
static const uint8_t loop_tree[] = {0, 0, 0, 8, 1, 0, 1, 7, 2, 0, 1, 0};
static const uint8_t loop_module[] = {
    0, 0, 0, 46, 2, 0, 1, 8, '_', '_', 'm', 'a', 'i', 'n', '_', '_',
    0, 0, 0, 1, 0, 0, 0, 0, 0, 0, 1, 0, 5, 3, 29, 0, 0, 0, 2, 28, 0, 0, 0, 1,
    28, 255, 255, 255, 252, 33, 0, 0, 0, 0};

/* `__for_iter_2__`, the name of a loop's iterator */
static const uint8_t iterator_tree[] = {
    0, 0, 0, 20, 1, 0, 1, 3, 6, 14, '_', '_', 'f', 'o', 'r', '_', 'i', 't', 'e', 'r', '_', '2', '_', '_'};

static uint32_t area1[RULKETOOS_AREA];
static uint32_t area2[RULKETOOS_AREA];
static uint32_t reach_area[RULKETOOS_REACH_AREA];
static uint8_t out[1024];

static int failures;

static void expect(int good, const char *what)
{
    printf("%s %s\n", good ? "ok" : "FAILED", what);
    failures += !good;
}

/* whether each of n bytes, or of n numbers, is this one */
static int all_bytes(const uint8_t *bytes, size_t n, uint8_t x)
{
    while (n > 0 && bytes[n - 1] == x)
        n--;
    return n == 0;
}

static int all_numbers(const uint32_t *numbers, size_t n, uint32_t x)
{
    while (n > 0 && numbers[n - 1] == x)
        n--;
    return n == 0;
}

static int areas_are(uint32_t x)
{
    return all_numbers(area1, RULKETOOS_AREA, x) && all_numbers(area2, RULKETOOS_AREA, x);
}

/* a lowering of a tree */
typedef uint64_t lowering(const uint8_t *tree, size_t tree_len, uint32_t limits,
                          uint32_t *area1, size_t area1_len, uint32_t *area2, size_t area2_len,
                          uint8_t *out, size_t out_len);

/* which of the two is asked */
static lowering *asked = rulketoos_lower;

/* lowers with sevens in the areas and nines in the output */
static uint64_t lower_by(uint32_t limits, const uint8_t *bytes, size_t size, size_t area, size_t room)
{
    for (size_t i = 0; i < RULKETOOS_AREA; i++)
        area1[i] = area2[i] = 7;
    memset(out, 9, sizeof out);
    return asked(bytes, size, limits, area1, RULKETOOS_AREA, area2, area, out, room);
}

static uint64_t lower(const uint8_t *bytes, size_t size, size_t area, size_t room)
{
    return lower_by(RULKETOOS_OFFICE, bytes, size, area, room);
}

static void lowers(void)
{
    uint64_t answer = lower(tree, sizeof tree, RULKETOOS_AREA, sizeof out);
    expect(answer == RULKETOOS_WROTE + sizeof module, "the empty tree is lowered");
    expect(memcmp(out, module, sizeof module) == 0, "its module is there");
    expect(all_bytes(out + sizeof module, sizeof out - sizeof module, 9), "the rest of the output is untouched");
    expect(areas_are(0), "the areas are zero");

    answer = lower(loop_tree, sizeof loop_tree, RULKETOOS_AREA, sizeof out);
    expect(answer == RULKETOOS_WROTE + sizeof loop_module, "a loop is lowered");
    expect(memcmp(out, loop_module, sizeof loop_module) == 0, "its module is there");
    expect(rulketoos_read(out, answer - RULKETOOS_WROTE) == 0, "the reader accepts it");
    answer = lower(loop_tree, sizeof loop_tree, RULKETOOS_AREA, sizeof loop_module);
    expect(answer == RULKETOOS_WROTE + sizeof loop_module, "an output of just that length is enough");

    answer = lower(loop_tree, sizeof loop_tree, RULKETOOS_AREA, sizeof loop_module - 1);
    expect(answer == 16, "a shorter output is refused by 16");
    expect(all_bytes(out, sizeof out, 9) && areas_are(0), "the output is as it was, the areas are zero");
    answer = lower(loop_tree, sizeof loop_tree - 1, RULKETOOS_AREA, sizeof out);
    expect(answer == 3, "a tree that is cut isn't lowered, by 3");
    expect(all_bytes(out, sizeof out, 9) && areas_are(0), "the output is as it was, the areas are zero");
    answer = lower(tree, sizeof tree, RULKETOOS_AREA - 1, sizeof out);
    expect(answer == 1, "a short area is refused by 1");
    expect(all_bytes(out, sizeof out, 9) && areas_are(7), "the output and the areas are as they were");
}

/* the listing and the count sheet of the loop */
static const char listing[] =
    "PAGE      1                                         \n"
    "    0     0 True                                    \n"
    "    0     1 JumpIfFalse                        2    \n"
    "    0     2 Jump                               1    \n"
    "    0     3 Jump                              -4    \n"
    "    0     4 Return                                  \n";

static const char sheet[] =
    "    0      5      1      0              \n"
    "TOTAL      5      1      0              \n";

/* a call that writes a text of a module */
typedef uint64_t text_call(const uint8_t *module, size_t module_len, uint8_t *out, size_t out_len);

/* the loop's text by that call, in outputs that are long enough and one byte short */
static void writes(text_call *call, const char *text, uint64_t short_by)
{
    size_t size = strlen(text);
    memset(out, 9, sizeof out);
    uint64_t answer = call(loop_module, sizeof loop_module, out, sizeof out);
    expect(answer == RULKETOOS_WROTE + size, "a text of a module is written");
    expect(memcmp(out, text, size) == 0, "it is there");
    expect(all_bytes(out + size, sizeof out - size, 9), "the rest of the output is untouched");
    memset(out, 9, sizeof out);
    answer = call(loop_module, sizeof loop_module, out, size - 1);
    expect(answer == short_by, "a shorter output is refused by 31, or by 32");
    expect(all_bytes(out, sizeof out, 9), "the output is as it was");
    answer = call(loop_module, sizeof loop_module - 1, out, sizeof out);
    expect(answer == 17, "a module that is cut has no text, by 17");
}

/* the heights of a module, with sevens in the area */
static uint32_t heights(const uint8_t *bytes, size_t size, size_t area)
{
    for (size_t i = 0; i < RULKETOOS_HEIGHTS_AREA; i++)
        reach_area[i] = 7;
    return rulketoos_heights(bytes, size, reach_area, area);
}

static void checks_heights(void)
{
    uint8_t low[sizeof loop_module];
    expect(heights(loop_module, sizeof loop_module, RULKETOOS_HEIGHTS_AREA) == 0, "the heights of a lowered module hold");
    expect(all_numbers(reach_area, RULKETOOS_HEIGHTS_AREA, 0), "the area is zero");
    uint64_t at = (rulketoos_code(loop_module, sizeof loop_module, 0) >> 32) - 4;
    expect(loop_module[at] == 0 && loop_module[at + 1] == 1, "its number is 1");
    memcpy(low, loop_module, sizeof low);
    low[at + 1] = 0;
    expect(heights(low, sizeof low, RULKETOOS_HEIGHTS_AREA) == 37, "a number that is too low is refused by 37");
    expect(heights(low, sizeof low, RULKETOOS_HEIGHTS_AREA - 1) == 1, "a short area is refused by 1");
    expect(all_numbers(reach_area, RULKETOOS_HEIGHTS_AREA, 7), "the area is as it was");
}

/* a place of the loop, with sevens in the area and nines in the answers */
static uint64_t reach(uint64_t place, size_t area, size_t room)
{
    for (size_t i = 0; i < RULKETOOS_REACH_AREA; i++)
        reach_area[i] = 7;
    memset(out, 9, sizeof out);
    return rulketoos_reach(loop_module, sizeof loop_module, 0, place, reach_area, area, out, room);
}

static void reaches(void)
{
    uint64_t answer = reach(2, RULKETOOS_REACH_AREA, sizeof out);
    expect(answer == RULKETOOS_WROTE + 1 && out[0] == 1, "a yes brings the run to place 2");
    expect(all_bytes(out + 1, sizeof out - 1, 9), "the rest of the answers is untouched");
    expect(all_numbers(reach_area, RULKETOOS_REACH_AREA, 0), "the area is zero");
    answer = reach(3, RULKETOOS_REACH_AREA, 1);
    expect(answer == RULKETOOS_NONE, "nothing brings a run to place 3: the loop is left before it");
    expect(all_bytes(out, sizeof out, 9), "the answers are as they were");
    expect(reach(5, RULKETOOS_REACH_AREA, 0) == 34, "there is no place 5");
    expect(reach(3, RULKETOOS_REACH_AREA, 0) == 35, "room for fewer answers than questions is refused by 35");
    expect(all_numbers(reach_area, RULKETOOS_REACH_AREA, 0), "the area is zero");
    expect(reach(9, RULKETOOS_REACH_AREA - 1, 0) == 1, "a short area is refused by 1");
    expect(all_numbers(reach_area, RULKETOOS_REACH_AREA, 7), "the area is as it was");
}

/* `None`, `pass` and `None`, `return None`, `break` */
static const uint8_t none_tree[] = {0, 0, 0, 5, 1, 0, 1, 3, 0};
static const uint8_t passed_tree[] = {0, 0, 0, 6, 1, 0, 2, 2, 3, 0};
static const uint8_t return_tree[] = {0, 0, 0, 5, 1, 0, 1, 4, 0};
static const uint8_t break_tree[] = {0, 0, 0, 4, 1, 0, 1, 0};

/* which comes first, with sevens in the areas */
static uint64_t order(const uint8_t *first, size_t first_len, const uint8_t *second, size_t second_len, size_t area)
{
    for (size_t i = 0; i < RULKETOOS_AREA; i++)
        area1[i] = area2[i] = 7;
    return rulketoos_order(first, first_len, second, second_len, RULKETOOS_OFFICE, area1, RULKETOOS_AREA, area2, area);
}

static void orders(void)
{
    uint64_t answer = order(none_tree, sizeof none_tree, passed_tree, sizeof passed_tree, RULKETOOS_AREA);
    expect(answer == RULKETOOS_WROTE + 1, "a pass makes no difference");
    expect(areas_are(0), "the areas are zero");
    answer = order(none_tree, sizeof none_tree, return_tree, sizeof return_tree, RULKETOOS_AREA);
    expect(answer == RULKETOOS_WROTE, "a lower byte comes first");
    answer = order(return_tree, sizeof return_tree, passed_tree, sizeof passed_tree, RULKETOOS_AREA);
    expect(answer == RULKETOOS_WROTE + 2, "and a higher one after");
    answer = order(none_tree, sizeof none_tree, tree, sizeof tree, RULKETOOS_AREA);
    expect(answer == RULKETOOS_WROTE + 2, "a shorter rest comes first");
    answer = order(break_tree, sizeof break_tree, tree, sizeof tree - 1, RULKETOOS_AREA);
    expect(answer == 9, "the first tree's refusal comes first");
    answer = order(tree, sizeof tree, break_tree, sizeof break_tree - 1, RULKETOOS_AREA);
    expect(answer == 3 && areas_are(0), "then the second's");
    answer = order(break_tree, sizeof break_tree, tree, sizeof tree, RULKETOOS_AREA - 1);
    expect(answer == 1 && areas_are(7), "a short area is refused by 1, and left");
}

/* `None`, `break`, `break` */
static const uint8_t breaks_tree[] = {0, 0, 0, 7, 1, 0, 3, 3, 0, 0, 0};

/* a tree cut down, with sevens in the areas and nines in the output */
static uint64_t cut(const uint8_t *bytes, size_t size, size_t area, size_t room)
{
    for (size_t i = 0; i < RULKETOOS_AREA; i++)
        area1[i] = area2[i] = 7;
    memset(out, 9, sizeof out);
    return rulketoos_cut(bytes, size, RULKETOOS_OFFICE, area1, RULKETOOS_AREA, area2, area, out, room);
}

static void cuts(void)
{
    const size_t size = sizeof breaks_tree;
    uint64_t answer = cut(breaks_tree, size, RULKETOOS_AREA, size);
    expect(answer == RULKETOOS_WROTE + sizeof break_tree, "one statement is enough");
    expect(memcmp(out, break_tree, sizeof break_tree) == 0, "it is the break");
    expect(all_bytes(out + sizeof break_tree, sizeof out - sizeof break_tree, 9), "the rest of the output is untouched");
    expect(areas_are(0), "the areas are zero");
    answer = cut(tree, sizeof tree, RULKETOOS_AREA, sizeof out);
    expect(answer == RULKETOOS_NOT_REFUSED, "the empty tree isn't refused");
    expect(all_bytes(out, sizeof out, 9) && areas_are(0), "the output is as it was, the areas are zero");
    expect(cut(breaks_tree, size, RULKETOOS_AREA, size - 1) == 38, "an output shorter than the whole tree is refused by 38");
    expect(cut(breaks_tree, size - 1, RULKETOOS_AREA, size) == 3, "a tree that is cut off is refused by 3");
    expect(all_bytes(out, sizeof out, 9) && areas_are(0), "the output is as it was, the areas are zero");
    answer = cut(breaks_tree, size, RULKETOOS_AREA - 1, 0);
    expect(answer == 1 && areas_are(7), "a short area is refused by 1, and left");
}

/* so many times `def f(): pass` without the pass: with main one function more */
static size_t defs(uint8_t *bytes, size_t count)
{
    static const uint8_t def[] = {9, 1, 'f', 0, 0, 0, 0};
    const size_t size = 7 + count * sizeof def;
    const uint8_t head[] = {0, 0, (uint8_t)((size - 4) >> 8), (uint8_t)(size - 4), 1, 0, (uint8_t)count};
    memcpy(bytes, head, sizeof head);
    for (size_t i = 0; i < count; i++)
        memcpy(bytes + sizeof head + i * sizeof def, def, sizeof def);
    return size;
}

/* 64 functions and 65, at the office and at the console, which takes 64 */
static void limits(void)
{
    uint8_t bytes[512];
    uint8_t office[sizeof out];
    size_t size = defs(bytes, 63);
    uint64_t answer = lower_by(RULKETOOS_OFFICE, bytes, size, RULKETOOS_AREA, sizeof out);
    expect(answer > RULKETOOS_WROTE, "the office takes 64 functions");
    memcpy(office, out, sizeof out);
    expect(lower_by(RULKETOOS_CONSOLE, bytes, size, RULKETOOS_AREA, sizeof out) == answer, "the console takes them too");
    expect(memcmp(office, out, sizeof out) == 0, "with the very same bytes");

    size = defs(bytes, 64);
    answer = lower_by(RULKETOOS_OFFICE, bytes, size, RULKETOOS_AREA, sizeof out);
    expect(answer > RULKETOOS_WROTE, "the office takes 65");
    static const uint32_t numbers[] = {RULKETOOS_CONSOLE, 2, 256, UINT32_C(1) << 31, UINT32_MAX};
    for (size_t i = 0; i < sizeof numbers / sizeof *numbers; i++) {
        answer = lower_by(numbers[i], bytes, size, RULKETOOS_AREA, sizeof out);
        expect(answer == 15, "every number but 0 is the console, which refuses them by 15");
        expect(all_bytes(out, sizeof out, 9) && areas_are(0), "the output is as it was, the areas are zero");
    }
    answer = lower_by(RULKETOOS_OFFICE, bytes, size, RULKETOOS_AREA, 64);
    expect(answer == 16, "an output that is too short is 16 at the office");
    answer = lower_by(RULKETOOS_CONSOLE, bytes, size, RULKETOOS_AREA, 64);
    expect(answer == 15, "and 15 at the console already");

    uint8_t few[512];
    size_t all = defs(few, 64);
    size = defs(bytes, 70);
    answer = rulketoos_cut(bytes, size, RULKETOOS_CONSOLE, area1, RULKETOOS_AREA, area2, RULKETOOS_AREA, out, sizeof out);
    expect(answer == RULKETOOS_WROTE + all, "of 70 functions more than main the console's cut keeps 64");
    expect(memcmp(out, few, all) == 0, "the first ones");
}

int main(void)
{
    uint8_t events[4] = {9, 9, 9, 9};
    uint64_t numbers[RULKETOOS_NUMBERS] = {7, 7, 7, 7};

    expect(rulketoos_check(tree, sizeof tree) == 0, "the empty tree is accepted");
    expect(rulketoos_check(tree, 6) == 3, "a tree that is cut is refused by 3");
    expect(rulketoos_check(iterator_tree, sizeof iterator_tree) == 33, "the name of an iterator is refused by 33");
    lowers();
    limits();
    asked = rulketoos_lower_measured;
    lowers();
    limits();
    orders();
    cuts();
    expect(rulketoos_read(module, sizeof module) == 0, "the module is accepted");
    expect(rulketoos_read(module, sizeof module - 1) == 17, "a module that is cut is refused by 17");
    writes(rulketoos_list, listing, 31);
    writes(rulketoos_count_sheet, sheet, 32);
    checks_heights();
    reaches();

    uint64_t code = rulketoos_code(module, sizeof module, 0);
    expect(code >> 32 == 29 && (uint32_t)code == 1, "the code of function 0 is one byte at 29");
    expect(module[code >> 32] == 33, "it is Return");
    expect(rulketoos_code(module, sizeof module, 1) == 22, "there is no function 1");

    uint32_t answer = rulketoos_run(module, sizeof module, 0, NULL, 0, 10, events, sizeof events, numbers, RULKETOOS_NUMBERS);
    expect(answer == 0, "the run is accepted");
    expect(numbers[RULKETOOS_ENDING] == 1 && numbers[RULKETOOS_STEPS] == 1, "it returns after one step");
    expect(numbers[RULKETOOS_USED] == 0 && numbers[RULKETOOS_BYTES] == 1, "no answer used, one byte of events");
    expect(memcmp(events, "\x21\x09\x09\x09", 4) == 0, "the event is there and the rest is untouched");

    static const uint8_t two[] = {2};
    answer = rulketoos_run(module, sizeof module, 0, two, 1, 10, events, sizeof events, numbers, RULKETOOS_NUMBERS);
    expect(answer == 23, "an answer of 2 is refused by 23");
    expect(numbers[0] + numbers[1] + numbers[2] + numbers[3] == 0, "its counts are 0");
    return failures != 0;
}
