#include "parts.h"
#include "talk.h"

#include <string.h>

/* Fills that settle some questions and leave others, by both ways of asking. */
static void check_settled(void)
{
    START("sheet hangs lamp", "sheet store lamp", "hangs 201", "hangs m1", "store m2");
    says("fill m1 202", "m1 is now 202, in 1 cell");
    says("take back", "m1 stands again, in 1 cell");
    type("ask in(hangs, v0) 201");
    says("fill m1 202", "m1 is now 202, in 1 cell\nno question became settled, and no verdict was unsettled");
    says("take back", "m1 stands again, in 1 cell\nno verdict changed");
    type("ask in(hangs, v0) 202 unlisted");
    type("ask and(in(hangs, v0), not(in(store, v0))) 201");
    type("ask in(store, v0) 202");
    says("fill m1 m2", "m1 is now m2, in 1 cell\nno question became settled, and no verdict was unsettled");
    says("fill m2 202", "m2 is now 202, in 2 cells\n"
                        "became settled: in(hangs, v0) 202 unlisted: true, 3 looks; before: unknown, 3 looks\n"
                        "became settled: and(in(hangs, v0), not(in(store, v0))) 201: true, 4 looks; before: unknown, 4 "
                        "looks\nbecame settled: in(store, v0) 202: true, 2 looks; before: unknown, 2 looks\n"
                        "no verdict was unsettled");
    says("take back", "m2 stands again, in 2 cells\n"
                      "changed: in(hangs, v0) 202 unlisted: unknown, 3 looks; before: true, 3 looks\n"
                      "changed: and(in(hangs, v0), not(in(store, v0))) 201: unknown, 4 looks; before: true, 4 looks\n"
                      "changed: in(store, v0) 202: unknown, 2 looks; before: true, 2 looks");
    says("take back", "m1 stands again, in 1 cell\nno verdict changed");
    says("store 202", "store has 2 rows\nchanged: in(store, v0) 202: true, 3 looks; before: unknown, 2 looks");
    says("store 203", "store has 3 rows");
}

/* The row asked about is filled too, by each fill since it was asked, and gets its mark again. */
static void check_rows_filled(void)
{
    START("sheet hangs lamp", "hangs m1", "hangs m2");
    type("ask in(hangs, v0) m1");
    says("fill m1 5", "m1 is now 5, in 1 cell\nno question became settled, and no verdict was unsettled");
    says("questions", "asked, plain: in(hangs, v0) 5 (asked of m1): true, 2 looks");
    type("ask equal(v0, v1) 5 m2");
    says("fill m2 5", "m2 is now 5, in 1 cell\n"
                      "became settled: equal(v0, v1) 5 5 (asked of 5 m2): true, 1 look; before: unknown, 1 look\n"
                      "no verdict was unsettled");
    says("take back", "m2 stands again, in 1 cell\n"
                      "changed: equal(v0, v1) 5 m2: unknown, 1 look; before: true, 1 look");
    says("take back", "m1 stands again, in 1 cell\nno verdict changed");
    says("questions", "asked, plain: in(hangs, v0) m1: true, 2 looks\n"
                      "asked, plain: equal(v0, v1) 5 m2: unknown, 1 look");
    says("fill m1 m2", "m1 is now m2, in 1 cell\nno question became settled, and no verdict was unsettled");
    says("fill m2 5", "m2 is now 5, in 2 cells\n"
                      "became settled: equal(v0, v1) 5 5 (asked of 5 m2): true, 1 look; before: unknown, 1 look\n"
                      "no verdict was unsettled");
    says("questions", "asked, plain: in(hangs, v0) 5 (asked of m1): true, 2 looks\n"
                      "asked, plain: equal(v0, v1) 5 5 (asked of 5 m2): true, 1 look");
    type("ask in(hangs, v0) 5");
    type("take back");
    type("take back");
    says("questions", "asked, plain: in(hangs, v0) m1: true, 2 looks\n"
                      "asked, plain: equal(v0, v1) 5 m2: unknown, 1 look\n"
                      "asked, plain: in(hangs, v0) 5: unknown, 3 looks");
}

/* A mark that is filled, and then written again: each row has the fills that came after it was asked, and no others. */
static void check_mark_again(void)
{
    START("sheet hangs lamp", "hangs m1", "ask equal(v0, 5) m1", "fill m1 5", "hangs m1");
    says("ask equal(v0, 6) m1", "unknown, 1 look: some way to ink the marks makes it false");
    says("fill m1 6", "m1 is now 6, in 1 cell\n"
                      "became settled: equal(v0, 6) 6 (asked of m1): true, 1 look; before: unknown, 1 look\n"
                      "no verdict was unsettled");
    says("questions", "asked, plain: equal(v0, 5) 5 (asked of m1): true, 1 look\n"
                      "asked, plain: equal(v0, 6) 6 (asked of m1): true, 1 look");
    says("take back", "m1 stands again, in 1 cell\n"
                      "changed: equal(v0, 6) m1: unknown, 1 look; before: true, 1 look");
    says("take back", "m1 stands again, in 1 cell\n"
                      "changed: equal(v0, 5) m1: unknown, 1 look; before: true, 1 look");
    says("fill m1 6", "m1 is now 6, in 2 cells\n"
                      "became settled: equal(v0, 5) 6 (asked of m1): false, 1 look; before: unknown, 1 look\n"
                      "became settled: equal(v0, 6) 6 (asked of m1): true, 1 look; before: unknown, 1 look\n"
                      "no verdict was unsettled");
}

/*
 * The same row typed again after a fill of its mark is another row, and two are followed. It is the same if the fills
 * have led back to what was typed, and then it is followed as from the first time on.
 */
static void check_row_again(void)
{
    START("sheet hangs lamp", "hangs m1", "ask in(hangs, v0) m1", "fill m1 5");
    says("ask in(hangs, v0) m1", "unknown, 2 looks: some way to ink the marks makes it false");
    says("questions", "asked, plain: in(hangs, v0) 5 (asked of m1): true, 2 looks\n"
                      "asked, plain: in(hangs, v0) m1: unknown, 2 looks");
    type("ask equal(v0, 5) 7");
    says("take back", "m1 stands again, in 1 cell\n"
                      "changed: in(hangs, v0) m1: true, 2 looks; before: unknown, 2 looks");
    says("questions", "asked, plain: in(hangs, v0) m1: true, 2 looks\nasked, plain: equal(v0, 5) 7: false, 1 look");
    START("sheet hangs lamp", "hangs m1", "ask in(hangs, v0) m1", "fill m1 m2", "fill m2 m1", "ask in(hangs, v0) m1");
    says("questions", "asked, plain: in(hangs, v0) m1: true, 2 looks");
    says("take back", "m2 stands again, in 1 cell\nno verdict changed");
    says("questions", "asked, plain: in(hangs, v0) m2 (asked of m1): true, 2 looks");
}

/* A question that was within its allowance, and is no longer after a fill was taken back or a row entered. */
static void check_allowance_spent(void)
{
    START("sheet hangs lamp", "hangs m1", "hangs 5", "fill m1 5");
    says("ask in(hangs, v0) 5 within 2", "true, 2 looks: it stays so however the marks are filled in");
    says("take back", "m1 stands again, in 1 cell\n"
                      "changed: in(hangs, v0) 5 within 2: refused 46; before: true, 2 looks");
    says("questions", "asked, plain: in(hangs, v0) 5 within 2: refused 46");
    says("hangs 5", "hangs has 3 rows");
    says("fill m1 6", "m1 is now 6, in 1 cell\nno question became settled, and no verdict was unsettled");
    says("take back", "m1 stands again, in 1 cell\nno verdict changed");
    says("fill m1 5", "m1 is now 5, in 1 cell\n"
                      "now within its allowance: in(hangs, v0) 5 within 2: true, 2 looks; before: refused 46\n"
                      "no verdict was unsettled");
    START("sheet hangs lamp", "hangs 5");
    says("ask in(hangs, v0) 6 within 2 unlisted", "false, 2 looks: it stays so however the marks are filled in");
    says("hangs m1",
         "hangs has 2 rows\nchanged: in(hangs, v0) 6 within 2 unlisted: refused 46; before: false, 2 looks");
    says("hangs 7", "hangs has 3 rows");
    says("fill m1 6", "m1 is now 6, in 1 cell\nno question became settled, and no verdict was unsettled");
}

/* A question of a mark, after which a fill settles it by fewer looks. */
static void check_fewer_looks(void)
{
    START("sheet hangs lamp", "hangs m1", "hangs 5", "ask in(hangs, v0) 5", "ask every(x, equal(x, 7))");
    says("fill m1 5", "m1 is now 5, in 1 cell\nno question became settled, and no verdict was unsettled");
    says("questions", "asked, plain: in(hangs, v0) 5: true, 2 looks\nasked: every(x, equal(x, 7)): false, 1 look");
    says("take back", "m1 stands again, in 1 cell\nno verdict changed");
    says("questions", "asked, plain: in(hangs, v0) 5: true, 3 looks\nasked: every(x, equal(x, 7)): false, 2 looks");
}

#define NOW_7     "m1 is now 7, in 1 cell\n"
#define SIX_FALSE ": in(hangs, v0) 6: false, 3 looks; before: "
#define SETTLED   "became settled: in(hangs, v0) 8: false, 3 looks; before: unknown, 3 looks"
#define AND_NONE  "\nno verdict was unsettled"

/* What the desk says after a fill is worked out: after forged answers it reports what the rules say cannot happen. */
static void check_forged(void)
{
    static const struct {
        struct answer forged; /* of the first question */
        const char *fill;
        const char *answer;
    } cases[] = {
        {{0, PLOTASK_TRUE, 3}, "fill m1 7", NOW_7 "UNSETTLED" SIX_FALSE "true, 3 looks\n" SETTLED},
        {{0, PLOTASK_TRUE, 1}, "fill m1 7", NOW_7 "UNSETTLED" SIX_FALSE "true, 1 look\n" SETTLED},
        {{0, PLOTASK_TRUE, 9}, "fill m1 7", NOW_7 "UNSETTLED" SIX_FALSE "true, 9 looks\n" SETTLED},
        {{0, PLOTASK_FALSE, 3},
         "fill m1 6",
         "m1 is now 6, in 1 cell\nUNSETTLED: in(hangs, v0) 6: true, 2 looks; before: false, 3 looks\n" SETTLED},
        {{0, PLOTASK_UNKNOWN, 2},
         "fill m1 7",
         NOW_7 "TAKES MORE LOOKS" SIX_FALSE "unknown, 2 looks\n" SETTLED AND_NONE},
        {{0, PLOTASK_FALSE, 2}, "fill m1 7", NOW_7 "TAKES MORE LOOKS" SIX_FALSE "false, 2 looks\n" SETTLED AND_NONE},
        {{46, 0, 0}, "fill m1 7", NOW_7 "now within its allowance" SIX_FALSE "refused 46\n" SETTLED AND_NONE},
        {{0, PLOTASK_UNKNOWN, 9}, "fill m1 7", NOW_7 "became settled" SIX_FALSE "unknown, 9 looks\n" SETTLED AND_NONE},
        {{0, PLOTASK_FALSE, 9}, "fill m1 7", NOW_7 SETTLED AND_NONE},
    };

    for (size_t i = 0; i < COUNT_OF(cases); i++) {
        START("sheet hangs lamp", "hangs m1", "hangs 5");
        type("ask in(hangs, v0) 6");
        type("ask in(hangs, v0) 5");
        type("ask in(hangs, v0) 8");
        desk.asked[0].answer = cases[i].forged;
        says(cases[i].fill, cases[i].answer);
    }
}

/* The same, where nothing became settled beside it. */
static void check_forged_alone(void)
{
    START("sheet hangs lamp", "hangs m1", "hangs 5", "ask in(hangs, v0) 5");
    desk.asked[0].answer.truth = PLOTASK_FALSE;
    says("fill m1 6", "m1 is now 6, in 1 cell\nUNSETTLED: in(hangs, v0) 5: true, 3 looks; before: false, 3 looks");
    desk.asked[0].answer.looks = 2;
    type("hangs m1");
    desk.asked[0].answer.looks = 2;
    says("fill m1 6",
         "m1 is now 6, in 1 cell\nTAKES MORE LOOKS: in(hangs, v0) 5: true, 3 looks; before: true, 2 looks\n"
         "no verdict was unsettled");
    type("hangs m1");
    desk.asked[0].allowance = 0;
    says("fill m1 6", "m1 is now 6, in 1 cell\nUNSETTLED: in(hangs, v0) 5 within 0: refused 46; before: true, 3 looks");
    START("sheet hangs lamp", "hangs m1", "ask in(hangs, v0) 5");
    desk.asked[0].allowance = 1;
    says("fill m1 5",
         "m1 is now 5, in 1 cell\nUNSETTLED: in(hangs, v0) 5 within 1: refused 46; before: unknown, 2 looks");
}

void check_changes(void)
{
    check_settled();
    check_rows_filled();
    check_mark_again();
    check_row_again();
    check_allowance_spent();
    check_fewer_looks();
    check_forged();
    check_forged_alone();
}
