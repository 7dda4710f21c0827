/* The arguments of a round, and GeoJSON texts. */
#include "inputs.h"

static struct zone left, right;
static uint8_t book[400000], queries[3000 * SPG_POINT_SIZE], candidates[200 * SPG_POINT_SIZE], text[40000], name[128];
static uint8_t degrees[1000 * 8];

static uint8_t *put_words(uint8_t *to, const char *words)
{
    while (*words != '\0')
        *to++ = (uint8_t)*words++;
    return to;
}

/* Ten-millionths of a degree as a decimal number, sometimes with fewer decimals or none. */
static uint8_t *put_degrees(uint8_t *to, int32_t value)
{
    uint32_t size = value < 0 ? 0u - (uint32_t)value : (uint32_t)value, digits = 0, left_over = size % 10000000;
    uint8_t reversed[10];
    if (value < 0)
        *to++ = '-';
    for (uint32_t whole = size / 10000000; whole != 0 || digits == 0; whole /= 10)
        reversed[digits++] = (uint8_t)('0' + whole % 10);
    while (digits > 0)
        *to++ = reversed[--digits];
    if (left_over == 0 && one_in(2))
        return to;
    *to++ = '.';
    for (uint32_t unit = 1000000; unit != 0; unit /= 10)
        *to++ = (uint8_t)('0' + left_over / unit % 10);
    return to;
}

static int32_t clipped(int64_t value, int32_t most)
{
    return (int32_t)(value > most && !one_in(9) ? most : value);
}

/* A Polygon of a few positions or of many, good or nearly so. */
size_t make_text(uint8_t *start)
{
    static const char odd[] = "{}[]\",:.0123456789-+eE \tPolygn";
    uint32_t count = one_in(8) ? 70 : 3 + below(6), width = one_in(4) ? 12000000 : 4000000;
    int32_t longitude[70], latitude[70], west = within(-1800000000, 1800000000), south = within(-900000000, 900000000);
    int spaced = one_in(2);
    uint8_t *to = put_words(start, spaced ? " { \"type\" : \"Polygon\" ,\n\"coordinates\" : [ [ "
                                          : "{\"type\":\"Polygon\",\"coordinates\":[[");
    size_t length;
    for (uint32_t i = 0; i < count; i++) {
        longitude[i] = clipped((int64_t)west + below(width), 1800000000);
        latitude[i] = clipped((int64_t)south + below(width), 900000000);
    }
    for (uint32_t i = 0; i <= count; i++) {
        to = put_words(to, i == 0 ? "[" : ",[");
        to = put_degrees(to, longitude[i % count] + (i == count && one_in(20)));
        to = put_words(to, spaced ? " , " : ",");
        to = put_words(put_degrees(to, latitude[i % count]), "]");
    }
    length = (size_t)(put_words(to, "]]}") - start);
    if (one_in(3))
        start[below((uint32_t)length)] = (uint8_t)odd[below(sizeof odd - 1)];
    return one_in(6) ? below((uint32_t)length + 1) : length;
}

/* Any, past the end of the scale, or about a multiple of 45 degrees. */
int32_t make_longitude(void)
{
    if (one_in(30))
        return within(INT32_MIN, INT32_MAX);
    return one_in(4) ? within(-4, 4) * 450000000 + within(-1, 1) : within(-1850000000, 1850000000);
}

int32_t make_latitude(void)
{
    return one_in(4) ? within(-2, 2) * 450000000 + within(-1, 1) : within(-950000000, 950000000);
}

static size_t put_points(uint8_t *to, size_t count, const struct zone *zone)
{
    for (size_t i = 0; i < count; i++) {
        struct point p = near_zone(zone);
        spg_put_point(to + SPG_POINT_SIZE * i, p.x, p.y, p.z);
    }
    return SPG_POINT_SIZE * count;
}

/* Both sheets in turn, some of them; sometimes more of them than a book may have. */
static size_t make_book(void)
{
    uint32_t count = one_in(12) ? 60 + below(8) : below(5);
    size_t length = 0;
    for (uint32_t i = 0; i < count; i++) {
        const struct zone *zone = one_in(2) ? &left : &right;
        if (length + zone->sheet_len > sizeof book || (count > 5 && zone->sheet_len > 2000))
            continue;
        for (size_t k = 0; k < zone->sheet_len; k++)
            book[length++] = zone->sheet[k];
    }
    return length;
}

/* About the length that is needed: just so, longer, or too short. */
static size_t room_for(size_t needed)
{
    if (one_in(9))
        return below((uint32_t)needed + 1);
    return needed + (one_in(2) ? 0 : below(40));
}

/* NULL for what has no bytes, now and then. */
static const uint8_t *lent(const uint8_t *bytes, size_t length)
{
    return length == 0 && one_in(2) ? NULL : bytes;
}

static void make_degrees(struct inputs *in)
{
    size_t count = one_in(9) ? below(1000) : below(20);
    for (size_t i = 0; i < count; i++) {
        spg_put_number(degrees + 8 * i, (uint32_t)make_longitude());
        spg_put_number(degrees + 8 * i + 4, (uint32_t)make_latitude());
    }
    in->degrees_len = 8 * count - (count > 0 && one_in(20) ? below(8) : 0);
    in->degrees = lent(degrees, in->degrees_len);
    in->points_room = room_for(SPG_POINT_SIZE * count);
}

static void make_lists(struct inputs *in)
{
    size_t count = !one_in(3) ? below(20) : one_in(8) ? 500 + below(2400) : 128 + below(60);
    make_degrees(in);
    in->queries_len = put_points(queries, count, &left) + (one_in(30) ? below(12) : 0);
    in->queries = lent(queries, in->queries_len);
    in->results_room = room_for((one_in(3) ? 2 : 1) * SPG_POINT_SIZE * count);
    in->candidates_len = put_points(candidates, count % 200, &left) + one_in(30);
    in->candidates = lent(candidates, in->candidates_len);
    in->vertices = left.vertices;
    in->vertices_len = SPG_POINT_SIZE * left.count - (one_in(40) ? below(37) : 0);
    in->vertices_room = room_for(SPG_POINT_SIZE * left.count);
}

static void make_parts(struct inputs *in)
{
    in->zone = (uint32_t)random_number();
    in->charset = one_in(30) ? below(9) : 1 + below(3);
    in->grid = one_in(30) ? (one_in(2) ? below(5) : (uint32_t)random_number()) : left.grid;
    in->name_len = one_in(20) ? below(124) : 1 + below(9);
    for (size_t i = 0; i < in->name_len; i++)
        name[i] = (uint8_t)random_number();
    in->name = lent(name, in->name_len);
    in->known_x = left.known.x, in->known_y = left.known.y, in->known_z = left.known.z;
    in->second_x = left.second.x, in->second_y = left.second.y, in->second_z = left.second.z;
    in->sheet_room = room_for(left.sheet_len + in->name_len);
    in->text_len = make_text(text);
    in->text = lent(text, in->text_len);
    in->text_room = below(80);
    in->room = below(200);
}

void make_inputs(struct inputs *in)
{
    make_zone(&left);
    if (one_in(2))
        redraw_zone(&right, &left);
    else
        make_zone(&right);
    /* Rings of thousands of vertices that differ are compared for seconds. */
    if (left.count > 700 && right.count > 700)
        redraw_zone(&right, &left);
    in->sheet = in->left = lent(left.sheet, left.sheet_len);
    in->sheet_len = in->left_len = left.sheet_len;
    in->right = lent(right.sheet, right.sheet_len);
    in->right_len = right.sheet_len;
    in->book_len = make_book();
    in->book = lent(book, in->book_len);
    make_lists(in);
    make_parts(in);
}

void make_numbers(struct inputs *in)
{
    struct point p = near_zone(&left);
    in->x = p.x, in->y = p.y, in->z = p.z;
    in->at = below((uint32_t)in->book_len + 3);
    in->longitude = make_longitude();
    in->latitude = make_latitude();
    in->number = one_in(9) ? (uint32_t)random_number() : below(70);
}
