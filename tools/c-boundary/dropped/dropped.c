/*
 * Calls whose answers are not used, one call a line, of every function of the
 * header. It is compiled as C and as C++ and never run: under -Werror each line
 * but those of magnetar_start and magnetar_dispatcher_start must be an error.
 */
#include "magnetar_cpu.h"

void drop(const uint32_t *program, uint64_t *words, uint64_t *cursor, uint8_t *line)
{
    magnetar_expand(program, 0, words, 0, words, 0, words);
    magnetar_is_expansion(words, 0);
    magnetar_start(words, 0, cursor);
    magnetar_segment(words, 0, cursor, 0, words, 0);
    magnetar_padding(words, 0, cursor, 0, words, 0);
    magnetar_execute(words, 0, words, 0, 0, words, 0, cursor, words, words);
    magnetar_same(cursor, cursor);
    magnetar_index_build(words, 0, words, 0);
    magnetar_index_add(words, 0, 0, words, 0);
    magnetar_report(words, 0, words, 0, line, 0, words);
    magnetar_dispatcher_start(0, words);
    magnetar_dispatcher_add(words, 0, 0);
    magnetar_dispatcher_turn(words, words, words);
    magnetar_cursor_words();
}
