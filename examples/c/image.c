/*
 * A table is saved in a file as an image, with a text, and loaded again. Damage is refused. A full table
 * grows on the way. An archive replaces its file as a whole: see docs/GUIDE.md.
 */
#include "table.h"

#include <string.h>

static const char text[] = "modem, stamp in days";

/* An image in memory. */
struct image {
    uint32_t *words;
    size_t len;
};

/* The image of a table. */
static struct image make_image(const struct table *t) {
    const struct mouldgrey_header *h = &t->header;
    const size_t text_len = strlen(text);
    uint64_t len;
    struct image image;
    check("image size", mouldgrey_image_size(h, text_len, &len));
    image.len = (size_t)len;
    image.words = (uint32_t *)words(image.len, sizeof *image.words);
    check("write image", mouldgrey_write_image(h, t->rows, t->rows_len, t->sorts, t->sorts_len, t->pending,
                                               t->pending_len, (const uint8_t *)text, text_len, image.words,
                                               image.len, &len));
    printf("image: %u words\n", (unsigned)len);
    return image;
}

/* Ends the program if a file cannot be written or read. */
static void need(int condition) {
    if (!condition) {
        fprintf(stderr, "the file cannot be written or read\n");
        exit(1);
    }
}

/* Writes the image to a file and reads it again. */
static void pass_through_file(struct image *image) {
    FILE *file = tmpfile();
    need(file != NULL);
    need(fwrite(image->words, sizeof *image->words, image->len, file) == image->len);
    const long bytes = ftell(file);
    need(bytes >= 0);
    printf("file: %ld bytes\n", bytes);
    /* A length that is no multiple of four is that of no image. */
    need(bytes % 4 == 0);
    memset(image->words, 0, image->len * sizeof *image->words);
    rewind(file);
    need(fread(image->words, sizeof *image->words, image->len, file) == image->len);
    fclose(file);
}

/* Checks the image and prints its numbers, or why it is refused. */
static void print_image(const struct image *image) {
    struct mouldgrey_header header;
    const uint32_t number = mouldgrey_check_image(image->words, image->len, &header);
    if (number != MOULDGREY_ACCEPTED) {
        printf("check: %s\n", mouldgrey_refusal_text(number));
        return;
    }
    printf("check: %u rows, %u pending words, capacity %u\n", (unsigned)header.rows, (unsigned)header.pending,
           (unsigned)header.capacity);
}

static void print_text(const struct image *image) {
    uint8_t bytes[MOULDGREY_LONGEST_TEXT];
    uint64_t len;
    check("text", mouldgrey_read_image_text(image->words, image->len, bytes, sizeof bytes, &len));
    printf("text: %.*s\n", (int)len, (const char *)bytes);
}

/* Reads the image into a table of this capacity, with room for staging. */
static void load(const struct image *image, uint32_t capacity, struct table *t) {
    struct mouldgrey_header h;
    check("check image", mouldgrey_check_image(image->words, image->len, &h));
    const struct mouldgrey_opening opening = {h.columns, h.keys, h.sort, h.rule, capacity, h.generation};
    table_open(t, opening, h.pending + 64);
    check("read image",
          mouldgrey_read_image(image->words, image->len, capacity, &t->header, t->rows, t->rows_len, t->keys,
                               t->keys_len, t->sorts, t->sorts_len, t->pending, t->pending_len));
}

int main(void) {
    struct table small, large;
    const struct mouldgrey_opening opening = {2, 1, 1, MOULDGREY_TAKE_NEW, 2, 5};
    const uint32_t rows[3][2] = {{7, 10}, {8, 10}, {9, 11}};
    table_open(&small, opening, 64);
    table_insert(&small, rows[0]);
    table_insert(&small, rows[1]);
    table_merge(&small);
    /* What is staged is saved too. */
    table_insert(&small, rows[2]);
    struct image image = make_image(&small);
    table_close(&small);

    pass_through_file(&image);
    print_image(&image);
    print_text(&image);

    /* One bit of a cell is changed, and changed back. */
    image.words[20] ^= 1;
    print_image(&image);
    image.words[20] ^= 1;
    /* A word is missing. */
    const struct image cut = {image.words, image.len - 1};
    print_image(&cut);

    /* The table is full: it is loaded with a larger capacity. */
    load(&image, 4, &large);
    table_merge(&large);
    table_print(&large);
    free(image.words);
    table_close(&large);
    return 0;
}
