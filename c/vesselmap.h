/* The library for C: one function for each call. docs/CALLS.md says what each answers, and the contracts in
 * crates/capi are what is proved. `rt lib` in crates/capi writes crates/capi/out/libcapi.a, which needs memcpy and
 * memset from outside and nothing else.
 *
 * A slice is a pointer and a length. The pointer is not null, and has so many elements behind it that may be read,
 * and written if it is not const; a slice that is written overlaps no other. With the length 0 nothing is read.
 *
 * An answer has the number 0. Any other number is a refusal's, 1 to 17, with its place; then every value is 0 and
 * nothing lent was written. */
#ifndef VESSELMAP_H
#define VESSELMAP_H

#include <stddef.h>
#include <stdint.h>

#ifdef __cplusplus
extern "C" {
#endif

/* ---- what is lent */

typedef struct {
    size_t r0, r1, r2;
} vm_axes;

typedef struct {
    size_t i, j, k;
} vm_cell;

typedef struct {
    float x, y, z, scale, reciprocal;
} vm_placement;

/* ---- what is answered */

typedef struct {
    uint8_t number;
    size_t place;
} vm_verdict;

typedef struct {
    uint8_t number;
    size_t place;
    vm_axes axes;
    vm_placement placement;
} vm_sized;

typedef struct {
    uint8_t number;
    size_t place;
    size_t scans, left;
} vm_filled;

/* Of an edit, the labels that changed; of boxes, the cells; of a run, the bytes written. */
typedef struct {
    uint8_t number;
    size_t place;
    size_t count;
} vm_counted;

typedef struct {
    uint8_t number;
    size_t place;
    size_t cells, pairs;
} vm_listed;

typedef struct {
    uint8_t number;
    size_t place;
    size_t first, count;
} vm_planned;

typedef struct {
    uint8_t number;
    size_t place;
    size_t first, second;
} vm_parted;

typedef struct {
    uint8_t number;
    size_t place;
    vm_axes axes;
    size_t outside, inside, surface, left, scans;
} vm_summarized;

/* A slice of a lent list: where it begins there, and how long it is. */
typedef struct {
    size_t start, length;
} vm_slice;

/* ---- the grid, the walls, the inside */

vm_sized vm_size_by_cell(const float *points, size_t points_len, float size);
vm_sized vm_size_by_resolution(const float *points, size_t points_len, uint32_t resolution);
vm_verdict vm_mark(const float *points, size_t points_len, const uint32_t *triangles, size_t triangles_len,
                   vm_axes r, vm_placement placement, uint8_t *labels, size_t labels_len);
vm_filled vm_fill_surface(uint8_t *labels, size_t labels_len, vm_axes r);
vm_filled vm_fill_flood(uint8_t *labels, size_t labels_len, vm_axes r);
vm_filled vm_fill_cavities(uint8_t *labels, size_t labels_len, vm_axes r);

/* ---- edits */

vm_counted vm_open_cell(uint8_t *labels, size_t labels_len, vm_axes r, vm_cell c);
vm_counted vm_close_cell(uint8_t *labels, size_t labels_len, vm_axes r, vm_cell c);

/* ---- lists: a record is six numbers, i, j, k, 1 for a wall or 0, range start, range end */

vm_listed vm_list_cells(const uint8_t *labels, size_t labels_len, vm_axes r, uint32_t *records, size_t records_len);
vm_listed vm_list_pairs(const float *points, size_t points_len, const uint32_t *triangles, size_t triangles_len,
                        vm_axes r, vm_placement placement, const uint8_t *labels, size_t labels_len, uint32_t *records,
                        size_t records_len, uint32_t *list, size_t list_len);
vm_verdict vm_check_range(const uint32_t *list, size_t list_len, uint32_t start, uint32_t end);
vm_slice vm_list_slice(const uint32_t *list, size_t list_len, uint32_t start, uint32_t end);

/* ---- parts, planes, boxes */

vm_verdict vm_classify(const uint32_t *entries, size_t entries_len, const uint32_t *ends, size_t ends_len,
                       size_t count, uint32_t *classes, size_t classes_len);
vm_planned vm_planes(vm_placement placement, size_t axis, size_t low, size_t high, size_t best, size_t step, float *ds,
                     size_t ds_len);
vm_parted vm_split(const float *points, size_t points_len, size_t axis, float d, float *above, size_t above_len,
                   float *below, size_t below_len);
vm_counted vm_boxes(const uint8_t *labels, size_t labels_len, vm_axes r, vm_placement placement, uint8_t label,
                    float *points, size_t points_len, uint32_t *triangles, size_t triangles_len);

/* ---- the program, over bytes; 256 bytes hold every text */

vm_summarized vm_summarize(const uint8_t *input, size_t input_len);
vm_counted vm_run(const uint8_t *input, size_t input_len, uint8_t *output, size_t output_len);

#ifdef __cplusplus
}
#endif

#endif
