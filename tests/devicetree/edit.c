/*
 * Edits a blob by libfdt, as tests/devicetree/make has it done.
 *
 *   edit pack IN OUT     fdt_pack: moves the blocks together, and keeps their bytes
 *   edit nops IN OUT     writes FDT_NOP over two properties and a node of several-nodes.dtb
 */
#include <libfdt.h>
#include <stdio.h>
#include <stdlib.h>
#include <string.h>

#define MOST_BYTES 0x200000

static char blob[MOST_BYTES];

static void give_up(const char *what)
{
    fprintf(stderr, "edit: %s\n", what);
    exit(1);
}

static void expect_0(const char *what, int answer)
{
    if (answer != 0) {
        fprintf(stderr, "edit: %s: %s\n", what, fdt_strerror(answer));
        exit(1);
    }
}

static void read_blob(const char *name)
{
    FILE *file = fopen(name, "rb");
    if (file == NULL) {
        give_up("the blob cannot be read");
    }
    const size_t length = fread(blob, 1, sizeof blob, file);
    fclose(file);
    expect_0(name, fdt_check_full(blob, length));
}

static void write_blob(const char *name)
{
    FILE *file = fopen(name, "wb");
    if (file == NULL || fwrite(blob, 1, fdt_totalsize(blob), file) != fdt_totalsize(blob) || fclose(file) != 0) {
        give_up("the blob cannot be written");
    }
}

/* The memory node at 0 is none without its device_type. */
static void write_nops(void)
{
    expect_0("model", fdt_nop_property(blob, 0, "model"));
    expect_0("cpus", fdt_nop_node(blob, fdt_path_offset(blob, "/cpus")));
    expect_0("device_type", fdt_nop_property(blob, fdt_path_offset(blob, "/memory@0"), "device_type"));
}

int main(int argc, char **argv)
{
    if (argc != 4) {
        give_up("usage: edit pack|nops IN OUT");
    }
    read_blob(argv[2]);
    if (strcmp(argv[1], "pack") == 0) {
        expect_0("fdt_pack", fdt_pack(blob));
    } else {
        write_nops();
    }
    write_blob(argv[3]);
    return 0;
}
