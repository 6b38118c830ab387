/*
 * mirokdeul.h - a MUD file and a site table, made into a packet filter table
 *
 * The library takes a MUD file (RFC 8520, JSON) and a table of what its names
 * stand for at a site, and gives the one canonical table of the flows that are
 * accepted. A second function says whether a stored table accepts a flow.
 *
 * What holds for every function here:
 *
 *  - The caller owns all memory. The library allocates nothing, keeps no
 *    pointer after a call, has no state and no global variables. Calls may run
 *    at the same time in any number of threads, as long as no two of them share
 *    a buffer that one of them writes.
 *  - A buffer is a pointer and a length. The pointer must not be NULL, even
 *    where the length is 0: any address does then, and nothing is read or
 *    written through it. It must be aligned for its type.
 *  - The buffers that a call writes must not overlap each other or the ones
 *    that it reads. Those that it only reads may be the same.
 *  - Every call returns, whatever the bytes are; none reads or writes outside
 *    the lengths given, and none ends the program.
 *
 * The library is linked as a static archive, for x86-64 Linux.
 */
#ifndef MIROKDEUL_H
#define MIROKDEUL_H

#include <stddef.h>
#include <stdint.h>

#ifdef __cplusplus
extern "C" {
#endif

/* The one length of a reply buffer and of a stored table, in bytes: 512 * 72. */
#define MIROKDEUL_REPLY_LEN 36864

/* The one length of a work buffer, in words of uint64_t: 130,320 bytes. */
#define MIROKDEUL_WORK_LEN 16290

/* The longest file and site table that are not refused for their length alone. */
#define MIROKDEUL_FILE_MAX 32768
#define MIROKDEUL_SITE_MAX 8192

/* The most lines of a table, and the most bytes of a line, its LF included. */
#define MIROKDEUL_LINES_MAX 512
#define MIROKDEUL_LINE_MAX 70

/*
 * The answers of mirokdeul_build(). The lowest number that holds is given; each
 * is judged only when no lower one holds.
 */
enum mirokdeul_answer {
	MIROKDEUL_TAKEN = 0,		/* the table was written */
	MIROKDEUL_BUFFERS = 1,		/* a reply or work buffer of a wrong length */
	MIROKDEUL_SITE_TOO_LONG = 2,	/* site table over 8,192 bytes or 64 LF */
	MIROKDEUL_SITE_MALFORMED = 3,	/* site table malformed */
	MIROKDEUL_FILE_TOO_LONG = 4,	/* file over 32,768 bytes */
	MIROKDEUL_NOT_JSON = 5,		/* not UTF-8, or not JSON at most 16 deep */
	MIROKDEUL_REPEATED_OR_LONE = 6,	/* a repeated member name, or a lone
					 * surrogate escape */
	MIROKDEUL_HEADER = 7,		/* outermost value or header members */
	MIROKDEUL_LISTS = 8,		/* policies, lists, types, names */
	MIROKDEUL_UNLISTED = 9,		/* a match member that is not listed */
	MIROKDEUL_ENTRY = 10,		/* any other breach in matches or actions */
	MIROKDEUL_TOO_MANY_ENTRIES = 11, /* more than 64 entries are read */
	MIROKDEUL_TOO_MANY_LINES = 12	/* the table has over 512 lines */
};

/* The answers of mirokdeul_verdict(). */
enum mirokdeul_verdict_answer {
	MIROKDEUL_DROP = 0,		/* the flow is not in the table */
	MIROKDEUL_ACCEPT = 1,		/* the flow is in the table */
	MIROKDEUL_NOT_A_TABLE = 13,	/* the stored bytes are not a table */
	MIROKDEUL_NOT_A_FLOW = 14	/* the six numbers are not a flow */
};

/* Directions and openers of flows. */
#define MIROKDEUL_FROM_DEVICE 0
#define MIROKDEUL_TO_DEVICE 1
#define MIROKDEUL_DEVICE_OPENED 0
#define MIROKDEUL_REMOTE_OPENED 1

/**
 * mirokdeul_build - build the table of a MUD file at a site
 * @file:	the MUD file; only read
 * @file_len:	its length in bytes, which may be 0
 * @site:	the site table; only read
 * @site_len:	its length in bytes, which may be 0
 * @reply:	where the table goes; what it holds before does not matter
 * @reply_len:	its length in bytes, MIROKDEUL_REPLY_LEN
 * @work:	room to work in; what it holds before does not matter
 * @work_len:	its length in words of uint64_t (not bytes), MIROKDEUL_WORK_LEN
 * @count:	where the number of lines goes
 *
 * At return:
 *
 *  - for MIROKDEUL_TAKEN, @reply has the table's lines, each ended by LF, then
 *    zeros to its end, and *@count is the number of lines (0 to 512);
 *  - for every other answer, each of the @reply_len bytes of @reply is zero and
 *    *@count is 0;
 *  - each of the @work_len words of @work is zero, in every case.
 *
 * A buffer of a wrong length is written as well, as far as it goes: it is zeros
 * at return, and the answer is MIROKDEUL_BUFFERS.
 *
 * A line is six ranges parted by tabs: direction, protocol, opener, remote
 * address, remote port, device port. A range is low-high, both ends given.
 *
 * Return: a number of enum mirokdeul_answer, 0 to 12.
 */
uint8_t mirokdeul_build(const uint8_t *file, size_t file_len,
			const uint8_t *site, size_t site_len,
			uint8_t *reply, size_t reply_len,
			uint64_t *work, size_t work_len,
			size_t *count);

/**
 * mirokdeul_verdict - ask a stored table for a flow
 * @stored:	the table as mirokdeul_build() wrote it; only read
 * @stored_len:	its length in bytes; any but MIROKDEUL_REPLY_LEN is no table
 * @direction:	0 from the device, 1 to it
 * @protocol:	the protocol number of the IPv4 header
 * @opener:	who opened a TCP connection: 0 the device, 1 the remote; 0 for
 *		every other protocol
 * @address:	the remote's address as a number in the machine's byte order,
 *		so 192.0.2.53 is 0xc0000235
 * @remote_port: the remote's port, in the machine's byte order; 0 unless the
 *		protocol is 6 or 17
 * @device_port: the device's port, likewise. Mind the order of the two ports:
 *		they go by end and not by source and destination
 *
 * The stored bytes are judged first: the answer is MIROKDEUL_NOT_A_TABLE for
 * them whatever the flow is. Nothing is written.
 *
 * Return: a number of enum mirokdeul_verdict_answer: 0, 1, 13 or 14.
 */
uint8_t mirokdeul_verdict(const uint8_t *stored, size_t stored_len,
			  uint8_t direction, uint8_t protocol, uint8_t opener,
			  uint32_t address,
			  uint16_t remote_port, uint16_t device_port);

/**
 * mirokdeul_work_len - the length of a work buffer, as the linked library has it
 *
 * For callers that want to be sure that header and archive belong together.
 *
 * Return: MIROKDEUL_WORK_LEN, in words of uint64_t.
 */
size_t mirokdeul_work_len(void);

#ifdef __cplusplus
}
#endif

#endif /* MIROKDEUL_H */
