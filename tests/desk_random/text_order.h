/* The order of a question's text: a node, then its left child with all that is below it, then its right one. */
#ifndef TEXT_ORDER_H
#define TEXT_ORDER_H

#include "generators/generate.h"

/* Writes a query again, with its nodes numbered in the order of its text. */
void order_as_text(const struct any_query *query, struct any_query *ordered);

#endif
