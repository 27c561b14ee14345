/* Tries each function of vesselmap.h once, on 01's sample of three points and two triangles and on its cube of 5 by
 * 5 by 5 cells, and says what differs. c/check builds and runs it. */
#include "vesselmap.h"

#include <stdio.h>
#include <string.h>

static int differ = 0;

static void expect(const char *what, size_t got, size_t wanted) {
    if (got != wanted) {
        printf("%s: %zu, and not %zu\n", what, got, wanted);
        differ++;
    }
}

static size_t with_label(const uint8_t *labels, size_t n, uint8_t label) {
    size_t count = 0;
    for (size_t i = 0; i < n; i++) {
        count += labels[i] == label;
    }
    return count;
}

static const float points[9] = {0, 0, 0, 2, 2, 2, 0.5f, 0, 0};
static const uint32_t triangles[6] = {2, 2, 2, 0, 0, 0};

static void map_and_list(void) {
    vm_sized grid = vm_size_by_cell(points, 9, 1);
    expect("number of a size", grid.number, 0);
    expect("cells along i", grid.axes.r0, 3);
    expect("resolution 1", vm_size_by_resolution(points, 9, 1).number, 6);

    uint8_t labels[27];
    expect("marking", vm_mark(points, 9, triangles, 6, grid.axes, grid.placement, labels, 27).number, 0);
    expect("walls", with_label(labels, 27, 8), 2);
    vm_filled filled = vm_fill_flood(labels, 27, grid.axes);
    expect("scans", filled.scans, 2);
    expect("outside", with_label(labels, 27, 6), 25);

    uint32_t records[12], list[3];
    expect("cells listed", vm_list_cells(labels, 27, grid.axes, records, 12).cells, 2);
    vm_listed listed =
        vm_list_pairs(points, 9, triangles, 6, grid.axes, grid.placement, labels, 27, records, 12, list, 3);
    expect("pairs", listed.pairs, 3);
    expect("end of the first range", records[5], 2);
    expect("a range past the list", vm_check_range(list, 3, 2, 4).number, 15);
    expect("length of a slice", vm_list_slice(list, 3, 0, 2).length, 2);

    float corners[48];
    uint32_t faces[72];
    expect("boxes", vm_boxes(labels, 27, grid.axes, grid.placement, 8, corners, 48, faces, 72).count, 2);
    float ds[3];
    expect("planes", vm_planes(grid.placement, 0, 0, 2, 1, 1, ds, 3).count, 3);
    float above[9], below[9];
    vm_parted parted = vm_split(points, 9, 0, -0.5f, above, 9, below, 9);
    expect("points above", parted.first, 2);
    expect("points below", parted.second, 2);
    uint32_t ends[2] = {2, 3}, classes[2];
    expect("classes", vm_classify(list, 3, ends, 2, 2, classes, 2).number, 0);
    expect("a triangle of two parts", classes[0], 4294967295u);
}

static void open_and_close(void) {
    vm_axes r = {5, 5, 5};
    uint8_t labels[125];
    for (size_t n = 0; n < 125; n++) {
        size_t i = n % 5, j = n / 5 % 5, k = n / 25;
        int near = 1 <= i && i <= 3 && 1 <= j && j <= 3 && 1 <= k && k <= 3;
        labels[n] = near && n != 62 ? 8 : 0;
    }
    uint8_t marks[125];
    memcpy(marks, labels, 125);
    expect("surface only", vm_fill_surface(marks, 125, r).scans, 0);
    memcpy(marks, labels, 125);
    expect("scans with cavities", vm_fill_cavities(marks, 125, r).scans, 5);
    expect("number of a flood", vm_fill_flood(labels, 125, r).number, 0);
    vm_cell hatch = {1, 2, 2}, centre = {2, 2, 2};
    expect("opened", vm_open_cell(labels, 125, r, hatch).count, 2);
    expect("closed", vm_close_cell(labels, 125, r, hatch).count, 2);
    expect("opening the centre", vm_open_cell(labels, 125, r, centre).number, 13);
}

static void run(void) {
    static const uint8_t input[80] =
        "Vh\0\1\0\0\x80\x3f"
        "Vp\0\0\0\0\0\0\0\0\0\0\0\0"
        "Vp\0\0\0\x40\0\0\0\x40\0\0\0\x40"
        "Vp\0\0\0\x3f\0\0\0\0\0\0\0\0"
        "Vt\2\0\0\0\2\0\0\0\2\0\0\0"
        "Vt\0\0\0\0\0\0\0\0\0\0\0\0"
        "Vz";
    vm_summarized said = vm_summarize(input, 80);
    expect("outside of a summary", said.outside, 25);
    expect("scans of a summary", said.scans, 2);
    vm_summarized cut = vm_summarize(input, 79);
    expect("number of a cut input", cut.number, 17);
    expect("place of a cut input", cut.place, 78);
    uint8_t output[256];
    vm_counted written = vm_run(input, 80, output, 256);
    fwrite(output, 1, written.count, stdout);
}

int main(void) {
    map_and_list();
    open_and_close();
    run();
    return differ != 0;
}
