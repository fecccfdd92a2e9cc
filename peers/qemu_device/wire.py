#!/usr/bin/env python3
"""Puts the device into a tree of QEMU 7.2 or of a later one, beside QEMU's own ITS.

usage: wire.py QEMU_SOURCE ARCHIVE [--watch]

ARCHIVE is libits_c.a. The device is a folder of its own, hw/intc/bacciledru. To QEMU's files lines are added, at
places that are found by a name in the line before or after; none is taken out but the one that makes the machine's
ITS. A place that isn't there ends this, with nothing written. A second run changes nothing. With --watch, for 7.2,
the linker sends the calls of the library through watch.c, which records them, and some of QEMU's through watch_cpu.c
and written_pages.c.
"""
import argparse
import os
import re
import shutil

HERE = os.path.dirname(os.path.abspath(__file__))
TOP = os.path.join(HERE, "..", "..")
WATCHED = ["gicv3_its_init_mmio", "define_arm_cp_regs_with_opaque_len",
           "memory_global_after_dirty_log_sync"]
# What the machine is built with: `virt`, and devices and bridges that send their interrupts through the ITS.
PARTS = ["ARM_VIRT", "ARM_V7M", "GENERIC_LOADER", "IVSHMEM_DEVICE", "NVME_PCI", "PCIE_PORT",
         "VIRTIO_BLK", "VIRTIO_NET", "VIRTIO_PCI", "VIRTIO_RNG"]

FIELDS = """
    /* An ITS that keeps the LPIs of the redistributors itself */
    const struct GICv3LPIOps *lpi_ops;
    DeviceState *lpi_its;
"""
READ = """    if (gicv3_lpi_read(cs, offset, data, size)) {
        return MEMTX_OK;
    }

"""
WRITE = """    if (gicv3_lpi_write(cs, offset, data, size)) {
        return MEMTX_OK;
    }

"""
UPDATE = """    if (cs->gic->lpi_ops) {
        return;
    }

"""
ACKNOWLEDGE = """    if (gicv3_lpi_acknowledge(cs, irq, level)) {
        return;
    }

"""
PROPERTY = """static char *virt_get_its_device(Object *obj, Error **errp)
{
    return g_strdup(VIRT_MACHINE(obj)->its_device);
}

static void virt_set_its_device(Object *obj, const char *value, Error **errp)
{
    VirtMachineState *vms = VIRT_MACHINE(obj);
    ObjectClass *class = module_object_class_by_name(value);

    if (!object_class_dynamic_cast(class, "arm-gicv3-its-common") ||
        object_class_is_abstract(class)) {
        error_setg(errp, "'%s' is no type of an ITS", value);
        return;
    }
    g_free(vms->its_device);
    vms->its_device = g_strdup(value);
}

"""
REGISTERED = """    object_class_property_add_str(oc, "its-device", virt_get_its_device,
                                  virt_set_its_device);
    object_class_property_set_description(oc, "its-device",
                                          "Set the type of the ITS of an "
                                          "emulated GIC");

"""
MADE = """    dev = qdev_new(vms->its_device && !strcmp(its_class_name(), "arm-gicv3-its") ?
                   vms->its_device : its_class_name());
"""
EVENTS = """
# bacciledru
bacciledru_read(uint64_t offset, uint64_t value, unsigned size) "offset 0x%" PRIx64 " value 0x%" PRIx64 " size %u"
bacciledru_write(uint64_t offset, uint64_t value, unsigned size) "offset 0x%" PRIx64 " value 0x%" PRIx64 " size %u"
bacciledru_lpi_register(int vcpu, uint64_t offset, uint64_t value) "processor %d offset 0x%" PRIx64 " value 0x%" PRIx64
bacciledru_step(uint64_t place, uint32_t op, uint32_t outcome, uint32_t reason) "at 0x%" PRIx64 " command 0x%x outcome %u reason %u"
bacciledru_slice(int count, int64_t ns, int taken) "commands %d ns %" PRId64 " ended by %d"
bacciledru_signal(uint32_t device, uint32_t event, uint32_t cause, uint32_t vcpu, uint32_t intid) "device 0x%x event %u cause %u processor %u intid %u"
bacciledru_acknowledge(int vcpu, int intid, uint32_t taken) "processor %d intid %d taken %u"
bacciledru_made(int source, size_t windows, unsigned fills) "source %d windows %zu fills %u"
bacciledru_saved(uint64_t tables) "tables %" PRIu64
bacciledru_not_saved(const char *reason) "%s"
"""


class Tree:
    """Files of a tree, written once all changes were found to have a place."""

    def __init__(self, root):
        self.root = root
        self.texts = {}

    def text(self, path):
        if path not in self.texts:
            with open(os.path.join(self.root, path)) as f:
                self.texts[path] = f.read()
        return self.texts[path]

    def put(self, path, pattern, new, after=False, number=0):
        """Puts lines before the line that the pattern is found in, or after it: `number` says which, from 0."""
        text = self.text(path)
        if new in text:
            return
        found = list(re.finditer(rf"^.*(?:{pattern}).*\n", text, re.M))
        if len(found) <= number:
            raise SystemExit(f"wire.py: {path} has no place for this: {pattern}")
        at = found[number].end() if after else found[number].start()
        self.texts[path] = text[:at] + new + text[at:]

    def replace(self, path, pattern, new):
        text = self.text(path)
        if new not in text:
            changed, count = re.subn(rf"^.*(?:{pattern}).*\n", lambda _: new, text, flags=re.M)
            if count != 1:
                raise SystemExit(f"wire.py: {path} has {count} places for this: {pattern}")
            self.texts[path] = changed

    def write(self):
        for path, text in self.texts.items():
            write(os.path.join(self.root, path), text)


def write(path, text):
    """Writes a file that isn't so already: what is written anew is configured anew."""
    if os.path.exists(path):
        with open(path) as f:
            if f.read() == text:
                return
    with open(path, "w") as f:
        f.write(text)


def at_body(tree, path, function, new):
    """Puts lines after the declarations of a function, which an empty line ends."""
    text = tree.text(path)
    found = re.search(rf"^void {function}\([^)]*\)\n{{\n(?:.+\n)*\n", text, re.M)
    if not found:
        raise SystemExit(f"wire.py: {path} has no function {function}")
    if not text.startswith(new, found.end()):
        tree.texts[path] = text[:found.end()] + new + text[found.end():]


def redistributor(tree):
    path = "hw/intc/arm_gicv3_redist.c"
    tree.put("include/hw/intc/arm_gicv3_common.h", r"GPtrArray \*itslist;", FIELDS, after=True)
    tree.put("include/hw/intc/arm_gicv3_common.h", r"typedef struct GICv3CPUState GICv3CPUState;",
             "typedef struct GICv3LPIOps GICv3LPIOps;\n", after=True)
    tree.put(path, r'#include "gicv3_internal.h"', '#include "arm_gicv3_lpi_ops.h"\n', after=True)
    tree.put(path, r"cs = &s->cpu\[cpuidx\];", "\n" + READ.rstrip("\n") + "\n", after=True, number=0)
    tree.put(path, r"cs = &s->cpu\[cpuidx\];", "\n" + WRITE.rstrip("\n") + "\n", after=True, number=1)
    at_body(tree, path, "gicv3_redist_update_lpi_only", UPDATE)
    at_body(tree, path, "gicv3_redist_lpi_pending", ACKNOWLEDGE)


def machine(tree):
    path = "hw/arm/virt.c"
    tree.put("include/hw/arm/virt.h", r"bool tcg_its;", "    char *its_device;\n", after=True)
    tree.put(path, r"static bool virt_get_its\(", PROPERTY)
    tree.put(path, r'object_class_property_add_bool\(oc, "its"', REGISTERED)
    tree.replace(path, r"qdev_new\((itsclass|its_class_name\(\))\);", MADE)


def build_lines(name, gic, watch):
    lines = ["bacciledru = declare_dependency(link_args: [meson.current_source_dir() / 'libits_c.a'])",
             f"{name}.add(when: 'CONFIG_{gic}', if_true: [files(",
             *(f"  '{it}'," for it in sorted(os.listdir(os.path.join(HERE, "device"))) if it.endswith(".c")),
             "), bacciledru])"]
    if watch:
        with open(os.path.join(HERE, "watch.c")) as f:
            words = WATCHED + re.findall(r"^REAL\((its_\w+)\);", f.read(), re.M)
        lines += ["watch = declare_dependency(link_args: [", *(f"  '-Wl,--wrap={it}'," for it in words), "])",
                  f"{name}.add(when: 'CONFIG_{gic}', if_true: [files('watch.c'), watch])",
                  f"specific_ss.add(when: 'CONFIG_{gic}', if_true: files('watch_cpu.c', 'written_pages.c'))"]
    return "\n".join(lines) + "\n"


def copy(source, target):
    with open(source) as f:
        write(target, f.read())


def main():
    parser = argparse.ArgumentParser()
    parser.add_argument("tree")
    parser.add_argument("archive")
    parser.add_argument("--watch", action="store_true")
    args = parser.parse_args()
    tree = Tree(args.tree)
    redistributor(tree)
    machine(tree)
    build = tree.text("hw/intc/meson.build")
    tree.texts["hw/intc/meson.build"] = build if "bacciledru" in build else build + "subdir('bacciledru')\n"
    events = tree.text("hw/intc/trace-events")
    tree.texts["hw/intc/trace-events"] = events if "bacciledru" in events else events + EVENTS
    tree.write()
    folder = os.path.join(args.tree, "hw", "intc", "bacciledru")
    os.makedirs(folder, exist_ok=True)
    for name in os.listdir(os.path.join(HERE, "device")):
        copy(os.path.join(HERE, "device", name), os.path.join(folder, name))
    os.replace(os.path.join(folder, "arm_gicv3_lpi_ops.h"), os.path.join(folder, "..", "arm_gicv3_lpi_ops.h"))
    for name in ["watch.c", "watch_cpu.c", "written_pages.c"] if args.watch else []:
        copy(os.path.join(HERE, name), os.path.join(folder, name))
    copy(os.path.join(TOP, "include", "its.h"), os.path.join(folder, "its.h"))
    shutil.copy2(args.archive, os.path.join(folder, "libits_c.a"))
    name = "system_ss" if "system_ss" in build else "softmmu_ss"
    gic = "ARM_GICV3_TCG" if "ARM_GICV3_TCG" in build else "ARM_GICV3"
    write(os.path.join(folder, "meson.build"), build_lines(name, gic, args.watch))
    write(os.path.join(args.tree, "configs", "devices", "aarch64-softmmu", "its.mak"),
          "".join(f"CONFIG_{it}=y\n" for it in [gic, *PARTS]))


main()
