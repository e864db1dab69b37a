#include "reader.h"

#include "compare/lent.h"

/* Each cut is lent in memory of its own, which the next one gets too: a reader that holds on to a cut reads another. */
static desk_reader fed(desk_reader reader, const uint8_t *bytes, const plain_step *s)
{
    return desk_reader_feed(reader, lent_cut(bytes, s->length), s->length, s->transfer, s->nt, s->cheque, s->nc);
}

desk_answer desk_read_in_steps(uint32_t page, const uint8_t *bytes, const plain_step *steps, size_t steps_n)
{
    desk_read now = {.reader = desk_reader_new(page)};
    for (const plain_step *s = steps; s < steps + steps_n; s++) {
        if (s->is_end)
            now = desk_reader_end(now.reader, s->taken, s->taken_n);
        else
            now.reader = fed(now.reader, bytes, s);
        bytes += s->length;
    }
    return now.answer;
}
