/* All that is known of one dump. */
#include "shot.h"
#include <string.h>
#include "screen.h"

void shot_judge(struct shot *s, bool all_faults) {
    readings_ask(&s->readings, &s->dump);
    if (s->dump.source == WORDS_ALONE)
        s->refusal = judge(&s->dump, s->dump.words);
    else
        s->refusal = screen_draw(&s->dump, s->dump.words, &s->picture);
    if (s->refusal)
        faults_find(&s->faults, &s->dump, all_faults);
}

void shot_take(struct shot *s, const struct bytes *b, bool all_faults) {
    s->bytes = b->length;
    s->refusal = dump_take(&s->dump, b);
    if (!s->refusal)
        shot_judge(s, all_faults);
}

void shot_compare(struct shot *s, const struct bytes *golden, uint32_t tolerance) {
    if (!s->picture.colours)
        return;
    s->golden_error = picture_take(&s->golden, golden, &s->picture);
    if (s->golden_error)
        return;
    s->compared = true;
    compare(&s->comparison, &s->golden, &s->picture, tolerance);
    if (s->comparison.differ)
        compare_neighbours(&s->comparison, &s->dump, &s->golden);
}

int shot_status(const struct shot *s) {
    if (s->error || s->golden_error)
        return 2;
    return s->refusal || (s->compared && !comparison_equal(&s->comparison));
}

void shot_free(struct shot *s) {
    dump_free(&s->dump);
    picture_free(&s->picture);
    picture_free(&s->golden);
}
