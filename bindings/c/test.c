/* The calls from C: rows of the probe table (docs/RULES.md), a refusal of each
 * call that has any, and what stays as it was (9). Prints what differs; exits 1. */
#include "pigeonmast.h"
#include <stdio.h>
#include <string.h>

static int differ;

/* Every number here is known to the last bit, so != is what is meant. */
static void same(int line, const char *what, size_t k, double got, double wanted)
{
    if (got != wanted) {
        printf("bindings/c/test.c:%d: %s [%zu] is %g, not %g\n", line, what, k, got, wanted);
        differ = 1;
    }
}

#define ANSWERS(call, number) same(__LINE__, #call, 0, call, number)
#define HOLDS(list, ...)                                                            \
    for (size_t k = 0; k < sizeof((double[]){__VA_ARGS__}) / sizeof(double); k++) \
    same(__LINE__, #list, k, (double)(list)[k], ((double[]){__VA_ARGS__})[k])

int main(void)
{
    const double t[12] = {0, 0, 0, 1, 0, 0, 0, 1, 0, 0, 0, 1}, unit[6] = {0, 0, 0, 1, 1, 1};
    const double p2[6] = {0.25, 0.25, 1, 0, 0, -1}, p3[6] = {0.25, 0.25, -1, 0, 0, 1};
    const double rays[12] = {17, 1, 1, 0, 0, -1, 25, 1, 1, 0, 0, -1}; /* P11, P12 */
    const double spot[6] = {0.25, 0.5, 1, 0, 0, -1}, third = 1 / 3.0; /* u and v of their own */
    double mesh[60] = {0}, boxes[54], numbers[9] = {9}, times[7] = {9, 9, 9, 9, 9, 9, 9};
    uint32_t index[6] = {9, 9, 9, 9, 9, 9}, links[27];
    const uint32_t materials[5] = {30, 31, 32, 33, 34};
    uint64_t told[5], places[11] = {9, 9, 9, 9, 9, 9, 9, 9, 9, 9, 9}, at[1] = {9};

    for (size_t k = 0; k < 5; k++) { /* P10 */
        double *v = mesh + 12 * k, s = 16.0 * (double)k;
        v[0] = v[6] = s, v[3] = s + 3, v[7] = 3, v[11] = 1;
    }
    ANSWERS(pigeonmast_abi(), PIGEONMAST_ABI);
    ANSWERS(pigeonmast_build(mesh, 60, index, 4, boxes, 0, links, 0, told), PIGEONMAST_INDEX_ROOM);
    ANSWERS(pigeonmast_build(mesh, 60, index, 5, boxes, 54, links, 26, told), PIGEONMAST_NODE_ROOM);
    HOLDS(told, 9, 0);
    HOLDS(index, 9);
    ANSWERS(pigeonmast_build(mesh, 60, index, 6, boxes, 54, links, 27, told), 0);
    HOLDS(told, 3, 2);
    HOLDS(index, 0, 1, 3, 4, 2, 9);
    HOLDS(boxes, 0, 0, 0, 67, 3, 0, 0, 0, 0, 19, 3, 0, 32, 0, 0, 67, 3, 0);
    HOLDS(links, 1, 0, 0, 0, 2, 1, 2, 3, 1);

#define OF(given) mesh, 60, materials, given, index, 5, boxes, 18, links, 9
#define TREE OF(5)
    ANSWERS(pigeonmast_walk(TREE, mesh + 12, numbers, told), PIGEONMAST_RAY_NOT_ADMITTED); /* a direction of 19 */
    HOLDS(told, 0, 0, 0, 0, 0);
    HOLDS(numbers, 9);
    ANSWERS(pigeonmast_walk(OF(4), mesh + 12, numbers, told), PIGEONMAST_MATERIAL_LIST); /* before the ray */
    HOLDS(told, 0, 0, 0, 0, 0);
    ANSWERS(pigeonmast_walk(TREE, rays, numbers, told), PIGEONMAST_HIT);
    HOLDS(told, 1, 1, 3, 2, 31);
    HOLDS(numbers, 1, 17, 1, 0, 0, 0, 1, third, third);
    ANSWERS(pigeonmast_walk(TREE, rays + 6, numbers, told), 0);
    HOLDS(told, 0, 0, 3, 0, 0);
    ANSWERS(pigeonmast_sky(OF(4), rays, 11, times, 0, places, 0, at), PIGEONMAST_MATERIAL_LIST);
    ANSWERS(pigeonmast_sky(TREE, rays, 11, times, 0, places, 0, at), PIGEONMAST_RAY_NUMBERS);
    ANSWERS(pigeonmast_sky(TREE, rays, 12, times, 5, places, 11, at), PIGEONMAST_ANSWER_ROOM);
    ANSWERS(pigeonmast_sky(TREE, rays, 12, times, 7, places, 9, at), PIGEONMAST_ANSWER_ROOM);
    HOLDS(times, 9, 9, 9, 9, 9, 9, 9);
    ANSWERS(pigeonmast_sky(TREE, rays, 12, times, 7, places, 11, at), 0);
    HOLDS(at, 0);
    HOLDS(times, 1, third, third, 0, 0, 0, 9);
    HOLDS(places, PIGEONMAST_HIT, 1, 3, 2, 31, 0, 0, 3, 0, 0, 9);

#define ONE t, 12, materials, 1, index, 1, unit, 6, links + 6, 3
    ANSWERS(pigeonmast_walk(ONE, p2, numbers, told), PIGEONMAST_BAD_NODE);
    links[6] = 0, links[7] = 1;
    ANSWERS(pigeonmast_walk(ONE, p2, numbers, told), PIGEONMAST_HIT);
    HOLDS(told, 0, 1, 1, 1, 30);
    HOLDS(numbers, 1, 0.25, 0.25, 0, 0, 0, 1, 0.25, 0.25);
    ANSWERS(pigeonmast_walk(ONE, spot, numbers, told), PIGEONMAST_HIT);
    HOLDS(numbers, 1, 0.25, 0.5, 0, 0, 0, 1, 0.25, 0.5);
    ANSWERS(pigeonmast_sky(ONE, spot, 6, times, 3, places, 5, at), 0);
    HOLDS(times, 1, 0.25, 0.5, 0, 0, 0, 9);
    ANSWERS(pigeonmast_triangle(t, p3, numbers), 1);
    HOLDS(numbers, 1, 0.25, 0.25, 0, 0, 0, -1, 0.25, 0.25);
    ANSWERS(pigeonmast_triangle(t, spot, numbers), 2);
    HOLDS(numbers, 1, 0.25, 0.5, 0, 0, 0, 1, 0.25, 0.5);
    ANSWERS(pigeonmast_triangle(t, rays, numbers), 0);
    ANSWERS(pigeonmast_slab(unit, p2, times), 1);
    HOLDS(times, 0, 1);
    ANSWERS(pigeonmast_slab(unit, rays, times), 0);

    /* A6: the root, a triangle of corners, the normals of a mesh. */
    double made[12] = {9, 9, 9, 9, 9, 9, 9, 9, 9, 9, 9, 9};
    ANSWERS(pigeonmast_root(2), 1.4142135623730951);
    ANSWERS(1 / pigeonmast_root(-0.0), -1 / 0.0);
    ANSWERS(pigeonmast_root(1 / 0.0), 1 / 0.0);
    ANSWERS(pigeonmast_root(5e-324), 0x1p-537);
    ANSWERS(pigeonmast_root(-1) != pigeonmast_root(-1), 1);
    const double none = pigeonmast_root(-1); /* the NaN of rule F7 */
    memcpy(told, &none, sizeof none);
    HOLDS(told, 0x7ff8000000000000);
    pigeonmast_new(mesh + 12, made);
    HOLDS(made, 16, 0, 0, 19, 0, 0, 16, 3, 0, 0, 0, 1);
    const double line[9] = {0, 0, 0, 1, 1, 1, 2, 2, 2};
    pigeonmast_new(line, made);
    HOLDS(made, 0, 0, 0, 1, 1, 1, 2, 2, 2, 0, 1, 0);
    mesh[9 + 12] = mesh[10 + 12] = mesh[11 + 12] = 0, mesh[11] = 0.5;
    ANSWERS(pigeonmast_normals(mesh, 59, at), 1);
    mesh[9 + 36] = 3;
    ANSWERS(pigeonmast_normals(mesh, 60, at), 5);
    HOLDS(at, 3);
    HOLDS(mesh, 0, 0, 0, 3, 0, 0, 0, 3, 0, 0, 0, 0.5);
    mesh[9 + 36] = 0;
    ANSWERS(pigeonmast_normals(mesh, 60, at), 0);
    HOLDS(at, 0);
    HOLDS(mesh, 0, 0, 0, 3, 0, 0, 0, 3, 0, 0, 0, 1, 16, 0, 0, 19, 0, 0, 16, 3, 0, 0, 0, 1);

    /* A14: the watts of a sky, and the share of watts that were added. */
    const uint32_t weights[3] = {600, 400, 50};
    const double three[18] = {17, 1, 1, 0, 0, -1, 25, 1, 1, 0, 0, -1, 17, 1, 1, 0, 0, -3}; /* P11, P12, refused 7 */
    double spots[9] = {9};
    uint64_t report[6] = {9, 9, 9, 9, 9, 9}, room[15] = {9}, share[2];
#define WATTS(n, m, k) pigeonmast_watts(TREE, three, n, weights, m, spots, k, room, 15, report, at)
    ANSWERS(WATTS(17, 2, 0), PIGEONMAST_RAY_NUMBERS);
    ANSWERS(WATTS(18, 2, 2), PIGEONMAST_ANSWER_ROOM);
    ANSWERS(WATTS(18, 2, 9), PIGEONMAST_WEIGHTS_DIFFER);
    HOLDS(report, 9, 9, 9, 9, 9, 9);
    HOLDS(spots, 9);
    HOLDS(room, 9);
    HOLDS(at, 0);
    at[0] = 9;
    ANSWERS(WATTS(18, 3, 9), 0);
    HOLDS(report, 600, 400, 50, 1050, 3, 5);
    HOLDS(spots, 1);
    HOLDS(room, PIGEONMAST_HIT, 1, 3, 2, 31, 0, 0, 3, 0, 0, PIGEONMAST_RAY_NOT_ADMITTED, 0, 0, 0, 0);
    HOLDS(at, 0);
    ANSWERS(pigeonmast_share(0, 0, share), 0);
    HOLDS(share, 0, 1);
    ANSWERS(pigeonmast_share(UINT64_MAX, UINT64_MAX, share), 0);
    HOLDS(share, 1, 2);
    ANSWERS(pigeonmast_share(UINT64_MAX, 1, share), 0);
    HOLDS(share, 0, 0);

    /* A8: the row is accepted; a leaf that ends too early, and room that is short. */
#define LISTS mesh, 60, index, 5, boxes, 18, links, 9
    uint32_t work[9] = {7, 7, 7, 7, 7, 7, 7, 7, 7};
    ANSWERS(pigeonmast_build(mesh, 60, index, 6, boxes, 54, links, 27, told), 0);
    ANSWERS(pigeonmast_accept(LISTS, work, 7, told), PIGEONMAST_ROOM_TOO_SHORT);
    HOLDS(told, 0, 0);
    HOLDS(work, 7, 7, 7, 7, 7, 7, 7, 7, 7);
    ANSWERS(pigeonmast_accept(LISTS, work, 9, told), 0);
    HOLDS(told, 0, 0);
    HOLDS(work, 0, 0, 0, 0, 0, 0, 0, 0, 0);
    links[4] = 1, work[8] = 7;
    ANSWERS(pigeonmast_accept(LISTS, work, 9, told), PIGEONMAST_CONDITION_BROKEN);
    HOLDS(told, 4, 1);
    HOLDS(work, 0, 0, 0, 0, 0, 0, 0, 0, 0);

    /* A4: a mesh written as STL and read back; a header and attributes that are not zero. */
    uint8_t file[286];
    double back[25];
    uint32_t kinds[3] = {9, 9, 9};
    for (size_t k = 0; k < sizeof file; k++)
        file[k] = 9;
    for (size_t k = 0; k < 25; k++)
        back[k] = 9;
    mesh[12] = -0.0, mesh[13] = 0x1p-149;
    ANSWERS(pigeonmast_write_stl(mesh, 23, file, 286, at), PIGEONMAST_TRIANGLE_NUMBERS);
    ANSWERS(pigeonmast_write_stl(mesh, 24, file, 183, at), PIGEONMAST_ROOM_TOO_SHORT);
    mesh[14] = 0x1p-150;
    ANSWERS(pigeonmast_write_stl(mesh, 24, file, 286, at), PIGEONMAST_NOT_SINGLE);
    HOLDS(at, 1);
    HOLDS(file, 9);
    mesh[14] = 0;
    ANSWERS(pigeonmast_write_stl(mesh, 24, file, 286, at), 0);
    HOLDS(at, 184);
    HOLDS(file + 80, 2, 0, 0, 0, 0, 0, 0, 0, 0, 0, 0, 0, 0, 0, 128, 63); /* the count, then the normal 0, 0, 1 */
    HOLDS(file + 184, 9);
    file[0] = 's', file[133] = 7;
    ANSWERS(pigeonmast_read_stl(file, 183, back, 25, kinds, 3, at), PIGEONMAST_FILE_LENGTH);
    ANSWERS(pigeonmast_read_stl(file, 184, back, 23, kinds, 3, at), PIGEONMAST_ROOM_TOO_SHORT);
    ANSWERS(pigeonmast_read_stl(file, 184, back, 24, kinds, 1, at), PIGEONMAST_ROOM_TOO_SHORT);
    HOLDS(back, 9);
    HOLDS(kinds, 9);
    ANSWERS(pigeonmast_read_stl(file, 184, back, 25, kinds, 3, at), 0);
    HOLDS(at, 2);
    HOLDS(kinds, 0, 0, 9);
    HOLDS(back, 0, 0, 0, 3, 0, 0, 0, 3, 0, 0, 0, 1, 0, 0x1p-149, 0, 19, 0, 0, 16, 3, 0, 0, 0, 1, 9);
    ANSWERS(1 / back[12], -1 / 0.0);
    return differ;
}
