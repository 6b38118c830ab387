/*
 * mudtable - build the table of ./thing.json at the site of ./site.txt
 *
 * A missing file counts as empty. Writes the answer's number, a tab and the
 * number of lines, then the lines themselves; then asks the table for one flow
 * and says what the verdict is, on standard error, so that standard output is
 * the same as that of the repository's own program.
 */
#include <stdio.h>
#include <string.h>

#include "mirokdeul.h"

/*
 * One byte more than is ever taken: a longer file is read as far as that, and
 * refused for its length.
 */
static uint8_t file[MIROKDEUL_FILE_MAX + 1];
static uint8_t site[MIROKDEUL_SITE_MAX + 1];
static uint8_t reply[MIROKDEUL_REPLY_LEN];
static uint64_t work[MIROKDEUL_WORK_LEN];

/* Reads a file into a buffer; 0 bytes where there is none or it cannot be read. */
static size_t read_file(const char *name, uint8_t *buffer, size_t size)
{
	FILE *stream = fopen(name, "rb");
	size_t length;

	if (!stream)
		return 0;
	length = fread(buffer, 1, size, stream);
	fclose(stream);
	return length;
}

/* The table's text ends at its first zero. There always is one. */
static size_t text_length(const uint8_t *table)
{
	const uint8_t *end = memchr(table, 0, MIROKDEUL_REPLY_LEN);

	return end ? (size_t)(end - table) : MIROKDEUL_REPLY_LEN;
}

/* Asks whether the device may open a connection to 198.51.100.8, TCP port 443. */
static void ask(void)
{
	const uint32_t address = 0xc6336408;
	const uint16_t remote_port = 443, device_port = 50000;
	uint8_t verdict = mirokdeul_verdict(reply, sizeof(reply),
					    MIROKDEUL_FROM_DEVICE, 6,
					    MIROKDEUL_DEVICE_OPENED, address,
					    remote_port, device_port);

	switch (verdict) {
	case MIROKDEUL_ACCEPT:
		fputs("TCP to 198.51.100.8 port 443: accept\n", stderr);
		break;
	case MIROKDEUL_DROP:
		fputs("TCP to 198.51.100.8 port 443: drop\n", stderr);
		break;
	default:
		fprintf(stderr, "no verdict: %u\n", verdict);
		break;
	}
}

int main(void)
{
	size_t file_len = read_file("thing.json", file, sizeof(file));
	size_t site_len = read_file("site.txt", site, sizeof(site));
	size_t count;
	uint8_t number;

	if (mirokdeul_work_len() != MIROKDEUL_WORK_LEN) {
		fputs("header and library do not belong together\n", stderr);
		return 2;
	}
	number = mirokdeul_build(file, file_len, site, site_len,
				 reply, sizeof(reply), work, MIROKDEUL_WORK_LEN,
				 &count);
	printf("%u\t%zu\n", number, count);
	fwrite(reply, 1, text_length(reply), stdout);
	if (number == MIROKDEUL_TAKEN)
		ask();
	return number == MIROKDEUL_TAKEN ? 0 : 1;
}
