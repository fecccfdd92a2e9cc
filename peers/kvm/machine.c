#include "machine.h"
#include <errno.h>
#include <fcntl.h>
#include <linux/kvm.h>
#include <stdio.h>
#include <string.h>
#include <sys/ioctl.h>
#include <sys/mman.h>
#include <unistd.h>

#define CODE 0x40000000ull
#define CODE_LENGTH 4096
#define MAILBOX 0x0a000000ull
#define PROGRAM_COUNTER 0x6030000000100040ull

extern const uint8_t guest_code[], guest_code_end[]; /* guest.S */

static int kvm, vm = -1, gic, its, processors, run_length;
static uint8_t *memory, *code;
static struct {
	int fd, waits; /* waits: it asked the mailbox what to do, and has no answer yet */
	struct kvm_run *run;
} processor[MOST_PROCESSORS];

static int complain(const char *what)
{
	printf("! %s: %s\n", what, strerror(errno));
	return errno ? errno : EIO;
}

static uint8_t *room(uint64_t length)
{
	return mmap(0, length, PROT_READ | PROT_WRITE, MAP_PRIVATE | MAP_ANONYMOUS, -1, 0);
}

int machine_open(void)
{
	kvm = open("/dev/kvm", O_RDWR);
	if (kvm < 0) return complain("/dev/kvm");
	run_length = ioctl(kvm, KVM_GET_VCPU_MMAP_SIZE, 0);
	code = room(CODE_LENGTH);
	memory = room(MEMORY_LENGTH);
	memcpy(code, guest_code, guest_code_end - guest_code);
	__builtin___clear_cache((char *)code, (char *)code + CODE_LENGTH);
	return 0;
}

static int attribute(int fd, unsigned long request, uint32_t group, uint64_t number, void *value)
{
	struct kvm_device_attr attr = { .group = group, .attr = number, .addr = (uint64_t)value };
	return ioctl(fd, request, &attr) ? errno : 0;
}

static int set(int fd, uint32_t group, uint64_t number, void *value)
{
	return attribute(fd, KVM_SET_DEVICE_ATTR, group, number, value);
}

static int get(int fd, uint32_t group, uint64_t number, void *value)
{
	return attribute(fd, KVM_GET_DEVICE_ATTR, group, number, value);
}

static void end_machine(void)
{
	if (vm < 0) return;
	for (int v = 0; v < processors; v++) {
		munmap(processor[v].run, run_length);
		close(processor[v].fd);
	}
	close(its);
	close(gic);
	close(vm);
	vm = -1;
}

static int add_memory(uint32_t slot, uint64_t address, uint64_t length, uint8_t *at)
{
	struct kvm_userspace_memory_region region = { slot, 0, address, length, (uint64_t)at };
	return ioctl(vm, KVM_SET_USER_MEMORY_REGION, &region);
}

static int add_processor(int v, const struct kvm_vcpu_init *target)
{
	struct kvm_vcpu_init init = *target;
	uint64_t start = CODE;
	struct kvm_one_reg pc = { PROGRAM_COUNTER, (uint64_t)&start };
	int fd = ioctl(vm, KVM_CREATE_VCPU, v);
	if (fd < 0 || ioctl(fd, KVM_ARM_VCPU_INIT, &init) || ioctl(fd, KVM_SET_ONE_REG, &pc)) return -1;
	processor[v].fd = fd;
	processor[v].waits = 0;
	processor[v].run = mmap(0, run_length, PROT_READ | PROT_WRITE, MAP_SHARED, fd, 0);
	return 0;
}

static int add_device(uint32_t type)
{
	struct kvm_create_device device = { type, 0, 0 };
	return ioctl(vm, KVM_CREATE_DEVICE, &device) ? -1 : (int)device.fd;
}

static int add_controllers(void)
{
	uint64_t distributor = 0x08000000, frame = ITS_FRAME;
	uint64_t region = (uint64_t)processors << 52 | REDISTRIBUTORS;
	uint32_t interrupts = 64, enable_group_1 = 0x12;
	gic = add_device(KVM_DEV_TYPE_ARM_VGIC_V3);
	if (gic < 0 || set(gic, KVM_DEV_ARM_VGIC_GRP_ADDR, KVM_VGIC_V3_ADDR_TYPE_DIST, &distributor) ||
	    set(gic, KVM_DEV_ARM_VGIC_GRP_ADDR, KVM_VGIC_V3_ADDR_TYPE_REDIST_REGION, &region) ||
	    set(gic, KVM_DEV_ARM_VGIC_GRP_NR_IRQS, 0, &interrupts) ||
	    set(gic, KVM_DEV_ARM_VGIC_GRP_CTRL, KVM_DEV_ARM_VGIC_CTRL_INIT, 0))
		return -1;
	its = add_device(KVM_DEV_TYPE_ARM_VGIC_ITS);
	if (its < 0 || set(its, KVM_DEV_ARM_VGIC_GRP_ADDR, KVM_VGIC_ITS_ADDR_TYPE, &frame) ||
	    set(its, KVM_DEV_ARM_VGIC_GRP_CTRL, KVM_DEV_ARM_VGIC_CTRL_INIT, 0))
		return -1;
	return set(gic, KVM_DEV_ARM_VGIC_GRP_DIST_REGS, 0, &enable_group_1);
}

int machine_make(int number, int keep)
{
	struct kvm_vcpu_init target;
	end_machine();
	if (!keep) {
		munmap(memory, MEMORY_LENGTH);
		memory = room(MEMORY_LENGTH);
	}
	processors = number;
	vm = ioctl(kvm, KVM_CREATE_VM, 0);
	if (vm < 0 || add_memory(0, MEMORY, MEMORY_LENGTH, memory) || add_memory(1, CODE, CODE_LENGTH, code) ||
	    ioctl(vm, KVM_ARM_PREFERRED_TARGET, &target))
		return complain("machine");
	for (int v = 0; v < processors; v++)
		if (add_processor(v, &target)) return complain("processor");
	return add_controllers() ? complain("gic") : 0;
}

int machine_processors(void)
{
	return processors;
}

int its_write(uint32_t offset, uint64_t value)
{
	return set(its, KVM_DEV_ARM_VGIC_GRP_ITS_REGS, offset, &value);
}

int its_read(uint32_t offset, uint64_t *value)
{
	*value = 0;
	return get(its, KVM_DEV_ARM_VGIC_GRP_ITS_REGS, offset, value);
}

int redistributor_write(int v, uint32_t offset, uint32_t value)
{
	return set(gic, KVM_DEV_ARM_VGIC_GRP_REDIST_REGS, (uint64_t)v << 32 | offset, &value);
}

int redistributor_read(int v, uint32_t offset, uint32_t *value)
{
	*value = 0;
	return get(gic, KVM_DEV_ARM_VGIC_GRP_REDIST_REGS, (uint64_t)v << 32 | offset, value);
}

int save_tables(void)
{
	return set(its, KVM_DEV_ARM_VGIC_GRP_CTRL, KVM_DEV_ARM_ITS_SAVE_TABLES, 0);
}

int restore_tables(void)
{
	return set(its, KVM_DEV_ARM_VGIC_GRP_CTRL, KVM_DEV_ARM_ITS_RESTORE_TABLES, 0);
}

int save_pending(void)
{
	return set(gic, KVM_DEV_ARM_VGIC_GRP_CTRL, KVM_DEV_ARM_VGIC_SAVE_PENDING_TABLES, 0);
}

int signal_event(uint32_t device, uint32_t event)
{
	struct kvm_msi message = { .address_lo = ITS_FRAME + 0x10040, .data = event,
				   .flags = KVM_MSI_VALID_DEVID, .devid = device };
	int delivered = ioctl(vm, KVM_SIGNAL_MSI, &message);
	return delivered < 0 ? -errno : delivered;
}

/* Until the processor next goes out to the mailbox. */
static int run_to_mailbox(int v)
{
	struct kvm_run *run = processor[v].run;
	int failed;
	do {
		failed = ioctl(processor[v].fd, KVM_RUN, 0);
	} while (failed && errno == EINTR);
	if (failed) return complain("run");
	if (run->exit_reason == KVM_EXIT_MMIO && run->mmio.phys_addr - MAILBOX < 32) return 0;
	errno = EIO;
	printf("! exit %u at %llx\n", run->exit_reason, run->exit_reason == KVM_EXIT_MMIO ? run->mmio.phys_addr : 0);
	return EIO;
}

int ask(int v, int what, uint64_t address, uint64_t value, uint64_t *result)
{
	struct kvm_run *run = processor[v].run;
	uint64_t answers[3] = { what, address, value };
	int failed = 0;
	*result = 0;
	if (!processor[v].waits) failed = run_to_mailbox(v);
	processor[v].waits = 1;
	if (!failed) memcpy(run->mmio.data, &answers[0], sizeof run->mmio.data);
	while (!failed && !(failed = run_to_mailbox(v))) {
		uint64_t place = (run->mmio.phys_addr - MAILBOX) / 8;
		if (run->mmio.is_write)
			memcpy(result, run->mmio.data, sizeof *result);
		else if (place == 0)
			return 0;
		else
			memcpy(run->mmio.data, &answers[place], sizeof run->mmio.data);
	}
	return failed;
}

int visit(int but)
{
	uint64_t none;
	int failed = 0;
	for (int v = 0; v < processors && !failed; v++)
		if (v != but) failed = ask(v, NOTHING, 0, 0, &none);
	return failed;
}

int acknowledge(int v, uint64_t *intid)
{
	int failed = visit(v);
	return failed ? failed : ask(v, ACKNOWLEDGE, 0, 0, intid);
}

uint8_t *memory_at(uint64_t address, uint64_t length)
{
	uint64_t offset = address - MEMORY;
	return offset < MEMORY_LENGTH && length <= MEMORY_LENGTH - offset ? memory + offset : 0;
}
