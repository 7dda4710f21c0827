/*
 * Imports texts that stand where a read or write too far ends the program.
 *
 *     import_client        reads cases (text, name, buffer) from standard input and prints number, place and, in
 *                          hexadecimal, the buffer for each.
 *     import_client stack  reads one case and prints how many bytes of stack a thread needs for both import calls and
 *                          the four of a position.
 *
 * The rows of a case are those of cases.h. Text and name stand once right before a page that may not be touched and
 * once right behind one; the buffer too, and after a refusal the call is made again with the buffer closed for writing.
 */
#include "rooms.h"
#include "stack.h"

#include <spargolutta.h>

struct import {
    struct bytes text, name, sheet;
    uint32_t number;
    size_t place;
};

static void call(struct import *i)
{
    struct bytes t = i->text, n = i->name, s = i->sheet;
    i->place = spg_import_place(t.at, t.length, 7, 1, n.at, n.length, -314159, 271828, 577215, s.length);
    i->number = spg_import_number(t.at, t.length, 7, 1, n.at, n.length, -314159, 271828, 577215, s.at, s.length);
}

static void *all_calls(void *argument)
{
    call(argument);
    int32_t lon = 236206135, lat = 379420215;
    require(spg_point_number(lon, lat) == SPG_DONE, "position refused");
    require(spg_point_x(lon, lat) > 0 && spg_point_y(lon, lat) > 0 && spg_point_z(lon, lat) > 0, "no position");
    return NULL;
}

static bool read_import(struct import *i)
{
    return read_row(&i->text) && read_row(&i->name) && read_row(&i->sheet);
}

/* The case at the start or at the end of its rooms. */
static struct import placed(uint8_t *rooms[3], const struct import *from, bool at_end)
{
    struct import i = *from;
    i.text = lend(rooms[0], from->text, at_end);
    i.name = lend(rooms[1], from->name, at_end);
    i.sheet = lend(rooms[2], from->sheet, at_end);
    protect(rooms[2], ROOM, PROT_READ | PROT_WRITE);
    call(&i);
    protect(rooms[2], ROOM, PROT_READ);
    if (i.number != SPG_DONE)
        call(&i);
    return i;
}

static void import_cases(struct import *from)
{
    static uint8_t sheet_of_first[ROOM];
    uint8_t *rooms[3] = {guarded_room(), guarded_room(), guarded_room()};
    while (read_import(from)) {
        struct import first = placed(rooms, from, false);
        memcpy(sheet_of_first, first.sheet.at, first.sheet.length);
        struct import last = placed(rooms, from, true);
        require(first.number == last.number && first.place == last.place, "the answer depends on where bytes stand");
        require(memcmp(sheet_of_first, last.sheet.at, last.sheet.length) == 0, "the sheet does");
        printf("%u %zu ", (unsigned)last.number, last.place);
        for (size_t k = 0; k < last.sheet.length; k++)
            printf("%02x", last.sheet.at[k]);
        putchar('\n');
    }
}

int main(int argc, char **argv)
{
    static uint8_t text[ROOM], name[ROOM], sheet[ROOM];
    struct import from = {.text = {text, 0}, .name = {name, 0}, .sheet = {sheet, 0}};
    if (argc == 2 && strcmp(argv[1], "stack") == 0) {
        require(read_import(&from), "no case");
        printf("%zu\n", stack_needed(all_calls, &from));
        require(from.number == SPG_DONE, "the text is refused");
    } else {
        import_cases(&from);
    }
    return 0;
}
