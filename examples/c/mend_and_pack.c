/*
 * A tool on a host for a damaged page: mends it, prints what was removed, and packs what is left into a new page.
 *
 *   mend_and_pack INPUT [OUTPUT]
 *
 * INPUT is 8 bytes of B, little-endian, then the page, as the program listing takes it. OUTPUT gets the same of the new page. It links
 * libpotterbeam_pages.a alone: no page is read or written by anything but mender and packer.
 */
#include <inttypes.h>
#include <stdio.h>

#include "potterbeam_pages.h"

#define BASE_BYTES 8

/* Reads B and the page from a file of exactly that length. */
static bool load(const char *name, uint8_t base[BASE_BYTES], pbeam_page_t *page)
{
    FILE *file = fopen(name, "rb");
    bool whole;
    if (file == NULL)
        return false;
    whole = fread(base, 1, BASE_BYTES, file) == BASE_BYTES && fread(page->bytes, 1, sizeof page->bytes, file) == sizeof page->bytes &&
            fgetc(file) == EOF;
    return fclose(file) == 0 && whole;
}

static bool store(const char *name, const uint8_t base[BASE_BYTES], const pbeam_page_t *page)
{
    FILE *file = fopen(name, "wb");
    bool whole;
    if (file == NULL)
        return false;
    whole = fwrite(base, 1, BASE_BYTES, file) == BASE_BYTES && fwrite(page->bytes, 1, sizeof page->bytes, file) == sizeof page->bytes;
    return fclose(file) == 0 && whole;
}

static void print_part(const char *name, bool changed)
{
    printf("  %-9s %s\n", name, changed ? "taken out" : "kept");
}

int main(int argc, char **argv)
{
    static pbeam_page_t page, packed;
    uint8_t bytes[BASE_BYTES];
    uint64_t base;
    pbeam_changes_t changes;
    pbeam_packing_t packing;
    int32_t code;

    if (argc != 2 && argc != 3) {
        printf("usage: mend_and_pack INPUT [OUTPUT]\n");
        return 2;
    }
    if (!load(argv[1], bytes, &page)) {
        printf("the input cannot be read, or is not 8 bytes of B and a page of 4,096\n");
        return 1;
    }
    base = pbeam_get64(bytes);
    printf("page at 0x%" PRIx64 "\n", base);

    /* Mended in place. A page whose place or version is wrong cannot be mended. */
    code = pbeam_manifest_mend(&page, base, &changes);
    printf("mend: %s\n", pbeam_mend_text(code));
    if (code != PBEAM_MEND_DONE)
        return 1;
    print_part("padding", changes.padding);
    print_part("platform", changes.plat_data);
    print_part("dram", changes.dram);
    print_part("console", changes.console);
    print_part("ncoh", changes.ncoh);
    print_part("coh", changes.coh);

    /* What was removed is still in the page, but nothing points at it: the packed page does not have it. A page of minor 5 or above
     * is mended and not packed. */
    packing = pbeam_manifest_pack(&page, base, &packed);
    printf("pack: %s\n", pbeam_pack_text(packing));
    if (packing != PBEAM_PACKED)
        packed = page;
    if (argc == 3 && !store(argv[2], bytes, &packed)) {
        printf("the output cannot be written\n");
        return 1;
    }
    return 0;
}
