#include "refusal.h"
#include "plotask.h"

const char *meaning(uint32_t refusal)
{
    switch (refusal) {
    case PLOTASK_INPUT_TOO_LONG:
        return "the program's input has more than 16384 bytes";
    case PLOTASK_CUT_SHORT:
        return "the card ends too soon";
    case PLOTASK_BAD_RELATION_COUNT:
        return "a plot has 1 to 8 sheets";
    case PLOTASK_BAD_ARITY:
        return "a sheet has 1 to 6 columns";
    case PLOTASK_NO_SUCH_RELATION:
        return "a row names a sheet that the plot lacks";
    case PLOTASK_BIT_BEYOND_ARITY:
        return "a bit of the card stands for a column that the sheet lacks";
    case PLOTASK_NOT_A_CELL:
        return "no cell: a value is 0 to 999999, a mark m1 to m200";
    case PLOTASK_NULLS_EXHAUSTED:
        return "a blank would need a mark above m200";
    case PLOTASK_BYTES_LEFT_OVER:
        return "bytes follow the card's last row";
    case PLOTASK_BAD_QUERY_LENGTH:
        return "a question has 1 to 100 nodes: each in, equal, not, and, or, some, every is one";
    case PLOTASK_BAD_NODE:
        return "no term: a value is 0 to 999999, a variable v0 to v15, and a mark stands in rows only";
    case PLOTASK_BAD_CHILD:
        return "a node of the question is out of place";
    case PLOTASK_UNBOUND_VARIABLE:
        return "a variable above v15, or one without a value";
    case PLOTASK_NO_SUCH_QUERY_RELATION:
        return "the question names a sheet that the plot lacks";
    case PLOTASK_BAD_CANDIDATE:
        return "the row asked has more than 6 cells, or one that is no cell: a value is 0 to 999999, a mark m1 to m200";
    case PLOTASK_WRONG_ROW_LENGTH:
        return "the row has more or fewer cells than its sheet has columns";
    case PLOTASK_NO_SUCH_NULL:
        return "the mark to fill is not m1 to m200";
    case PLOTASK_UNSOUND:
        return "the plot is not sound: it needs a sheet first";
    case PLOTASK_NO_ROOM:
        return "the plot is full: it has 4096 words, and a row takes one and one for each cell";
    case PLOTASK_NULL_ABSENT:
        return "the mark stands in no cell of the plot";
    case PLOTASK_OUTPUT_TOO_SHORT:
        return "there is too little room for the card or the census";
    case PLOTASK_BUFFER_TOO_SHORT:
        return "the working list is shorter than the plot's cells and the question's values together";
    case PLOTASK_BUDGET_SPENT:
        return "the question takes more looks than its allowance";
    case PLOTASK_LOG_TOO_SHORT:
        return "the log has no room to note this fill; save and load start a fresh one";
    case PLOTASK_LOG_EMPTY:
        return "there is no fill to take back; rows are not taken back";
    case PLOTASK_BAD_LOG:
        return "the log's last note does not fit the plot";
    default:
        return NULL;
    }
}

bool refuse_number(struct line *line, size_t at, uint32_t refusal)
{
    const char *text = meaning(refusal);

    return refuse(line, at, refusal, "%s", text ? text : "a number without a meaning");
}
