/*
 * Where the QEMU of Debian 12 (7.2) and later ones name one thing differently.
 *
 * SPDX-License-Identifier: MIT OR Apache-2.0
 */
#ifndef BACCILEDRU_COMPAT_H
#define BACCILEDRU_COMPAT_H

#include "qapi/error.h"
#if __has_include("system/memory.h")
#include "system/memory.h"
#else
#include "exec/memory.h"
#endif
#if __has_include("system/runstate.h")
#include "system/runstate.h"
#else
#include "sysemu/runstate.h"
#endif
#if __has_include("hw/core/qdev-properties.h")
#include "hw/core/qdev-properties.h"
#else
#include "hw/qdev-properties.h"
#endif

#if QEMU_VERSION_MAJOR >= 10
#include "migration/misc.h"
#define PROPERTIES_END
#define OF_PROPERTIES const
#define set_reset device_class_set_legacy_reset
#else
#include "monitor/monitor.h"
#include "migration/migration.h"
#include "migration/qemu-file.h"
#define PROPERTIES_END DEFINE_PROP_END_OF_LIST(),
#define OF_PROPERTIES
#define set_reset(class, function) ((class)->reset = (function))
#endif

/* Since 10.1 what a class is made from is constant. */
#if QEMU_VERSION_MAJOR > 10 || (QEMU_VERSION_MAJOR == 10 && QEMU_VERSION_MINOR >= 1)
#define OF_CLASS const
#else
#define OF_CLASS
#endif

/* A migration that is under way fails, and `info migrate` shows the reason. */
static inline void fail_migration(const Error *reason)
{
#if QEMU_VERSION_MAJOR >= 10
    if (migration_is_running()) {
        migration_file_set_error(-EINVAL, error_copy(reason));
    }
#else
    MigrationState *migration = migrate_get_current();

    if (!migration_is_setup_or_active(migration->state)) {
        return;
    }
    migrate_set_error(migration, reason);
    WITH_QEMU_LOCK_GUARD(&migration->qemu_file_lock) {
        if (migration->to_dst_file) {
            qemu_file_set_error(migration->to_dst_file, -EINVAL);
        }
    }
#endif
}

#endif
