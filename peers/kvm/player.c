/* /init of the outer machine: plays the lines of /operations on its own KVM, and prints an answer for each line that
 * has one. steps.py writes the lines and reads the answers; all numbers in lines are hexadecimal.
 *
 *   T text              printed as it stands
 *   M n, K n            a new machine with n processors; K keeps the memory
 *   P address bytes     a write of memory, Z address length: zeros
 *   D address length    the words that aren't zero, one a line, and then `.`
 *   W offset value      a register of the translator written by userspace; G offset: read
 *   r v offset value    the same of a redistributor of processor v, 32 bits; g v offset: read
 *   w v size address value      a write by the inner guest on processor v; l v size address: a read
 *   S device event      a signal; A v: an acknowledgement by the inner guest; N: each processor goes in and out once
 *   V, X, Q             tables saved, tables restored, pending tables saved
 *   B v low high        the INTIDs from low to high whose bit is set in the pending table of processor v
 *   F t wait call       a call of thread t, 0 to 3, so many ticks after its last: S, W or V as above, `w v
 *                       address value` (8 bytes), or `L address`, a look at 64 bytes of memory
 *   H                   the threads make their calls beside each other; `F t begin end answer` tells each, with ticks
 */
#include "machine.h"
#include "threads.h"
#include <inttypes.h>
#include <fcntl.h>
#include <stdio.h>
#include <stdlib.h>
#include <string.h>
#include <sys/mount.h>
#include <sys/reboot.h>
#include <sys/stat.h>
#include <sys/utsname.h>
#include <unistd.h>

static uint64_t field[4];
static int fields;

static void answer(const char *letter, int failed, uint64_t value)
{
	if (failed)
		printf("%s error %d\n", letter, failed);
	else
		printf("%s %" PRIx64 "\n", letter, value);
}

/* A write of bytes, given by their digits. */
static void poke(uint64_t address, const char *digits)
{
	uint64_t length = strcspn(digits, "\n") / 2;
	uint8_t *at = memory_at(address, length);
	for (uint64_t i = 0; at && i < length; i++) {
		char two[3] = { digits[2 * i], digits[2 * i + 1], 0 };
		at[i] = strtoul(two, 0, 16);
	}
	if (!at) printf("! poke outside %" PRIx64 "\n", address);
}

static void dump(uint64_t address, uint64_t length)
{
	uint8_t *at = memory_at(address, length);
	for (uint64_t i = 0; at && i + 8 <= length; i += 8) {
		uint64_t word;
		memcpy(&word, at + i, 8);
		if (word) printf("D %" PRIx64 " %" PRIx64 "\n", address + i, word);
	}
	puts(".");
}

static void bits(int v, uint64_t low, uint64_t high)
{
	uint32_t half[2] = { 0, 0 };
	redistributor_read(v, 0x78, &half[0]);
	redistributor_read(v, 0x7c, &half[1]);
	uint64_t table = ((uint64_t)half[1] << 32 | half[0]) & 0x000fffffffff0000ull;
	const uint8_t *at = memory_at(table, high / 8 + 1);
	printf("B");
	for (uint64_t i = low; at && i <= high; i++)
		if (at[i / 8] >> (i % 8) & 1) printf(" %" PRIx64, i);
	puts("");
}

/* Registers, by userspace and by the inner guest. */
static int play_register(char letter)
{
	uint64_t value = 0;
	uint32_t half = 0;
	int failed;
	switch (letter) {
	case 'W':
		failed = its_write(field[0], field[1]);
		if (failed) printf("! W %" PRIx64 " error %d\n", field[0], failed);
		return 1;
	case 'G':
		failed = its_read(field[0], &value);
		answer("G", failed, value);
		return 1;
	case 'r':
		failed = redistributor_write(field[0], field[1], field[2]);
		if (failed) printf("! r %" PRIx64 " error %d\n", field[1], failed);
		return 1;
	case 'g':
		failed = redistributor_read(field[0], field[1], &half);
		answer("g", failed, half);
		return 1;
	case 'w':
		failed = ask(field[0], field[1] == 8 ? WRITE64 : WRITE32, field[2], field[3], &value);
		if (failed) printf("! w %" PRIx64 " error %d\n", field[2], failed);
		return 1;
	case 'l':
		failed = ask(field[0], field[1] == 8 ? READ64 : READ32, field[2], 0, &value);
		answer("l", failed, value);
		return 1;
	}
	return 0;
}

static void play_line(char *line)
{
	uint64_t value = 0;
	int failed;
	fields = sscanf(line + 1, "%" SCNx64 " %" SCNx64 " %" SCNx64 " %" SCNx64, &field[0], &field[1], &field[2], &field[3]);
	if (play_register(line[0])) return;
	switch (line[0]) {
	case 'T': fputs(line, stdout); fflush(stdout); break;
	case 'M':
	case 'K': machine_make(field[0], line[0] == 'K'); break;
	case 'P': poke(field[0], strchr(line + 2, ' ') + 1); break;
	case 'Z': if (memory_at(field[0], field[1])) memset(memory_at(field[0], field[1]), 0, field[1]); break;
	case 'D': dump(field[0], field[1]); break;
	case 'S': printf("S %d\n", signal_event(field[0], field[1])); break;
	case 'A':
		failed = acknowledge(field[0], &value);
		answer("A", failed, value);
		break;
	case 'N': visit(-1); break;
	case 'V': printf("V %d\n", save_tables()); break;
	case 'X': printf("X %d\n", restore_tables()); break;
	case 'Q': printf("Q %d\n", save_pending()); break;
	case 'B': bits(field[0], field[1], field[2]); break;
	case 'F': thread_takes(line + 1); break;
	case 'H': threads_go(); break;
	default: printf("! line %s", line);
	}
}

static void begin(void)
{
	static char buffer[1 << 16];
	struct utsname name;
	mkdir("/dev", 0755);
	mount("devices", "/dev", "devtmpfs", 0, 0);
	int console = open("/dev/ttyAMA0", O_RDWR);
	for (int fd = 0; fd < 3 && console >= 0; fd++) dup2(console, fd);
	setvbuf(stdout, buffer, _IOFBF, sizeof buffer);
	uname(&name);
	printf("# %s %s\n", name.release, name.version);
}

int main(void)
{
	static char line[1 << 14];
	begin();
	FILE *operations = fopen("/operations", "r");
	if (!machine_open() && operations)
		while (fgets(line, sizeof line, operations)) play_line(line);
	puts("# end");
	fflush(stdout);
	sleep(1);
	for (;;) reboot(RB_POWER_OFF);
}
