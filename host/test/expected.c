/* Document 01's rules for what becomes of a device, said once more in C. */
#include "test/expected.h"

#include "bus/addresses.h"
#include "bus/frames.h"
#include "bus/pins.h"
#include "test/tested.h"

struct pod_device after_clocks(struct pod_device device, uint32_t clocks)
{
    struct pod_controller *controller = &device.controller;
    struct pod_operation *active =
        controller->inner.kind != POD_OPERATION_NONE ? &controller->inner : &controller->outer;
    if (active->kind != POD_OPERATION_NONE && active->state != POD_STATE_SUSPENDED) {
        active->left -= clocks;
        if (active->state == POD_STATE_PAUSING) {
            active->pause -= clocks;
        }
    }
    device.frame.kind = POD_FRAME_NONE;
    return device;
}

struct pod_device after_reset(const struct pod_device *device)
{
    struct pod_device reset = fresh_device(device->part, device->straps, device->times);
    const struct pod_operation *both[] = { &device->controller.outer, &device->controller.inner };
    uint32_t marks = device->controller.marks;
    for (size_t i = 0; i < 2; i++) {
        if (both[i]->kind != POD_OPERATION_NONE) {
            marks |= 1u << block_of(both[i]->address);
        }
    }
    reset.controller.marks = (uint16_t)marks;
    return reset;
}

/* Document 01's six rows by nine columns; running and pausing stand twice, once for each kind of operation. */
static char action_of(enum condition condition, uint32_t command)
{
    static const char *const rows[CONDITIONS] = {
        [IS_READY] = "ASGCPE---",      [PROGRAM_RUNS] = "-S----Z--",  [ERASE_RUNS] = "-S----Z--",
        [PROGRAM_PAUSES] = "---------", [ERASE_PAUSES] = "---------",  [PROGRAM_RESTS] = "ASG----R-",
        [ERASE_RESTS] = "ASG-P--R-",   [PROGRAM_IN_ERASE] = "-S-------",
    };
    enum { COLUMNS = 8 };
    static const uint8_t columns[COLUMNS][2] = {
        { COMMAND_ARRAY, COMMAND_ARRAY },
        { COMMAND_STATUS, COMMAND_STATUS },
        { COMMAND_SIGNATURE, COMMAND_SIGNATURE_TOO },
        { COMMAND_CLEAR, COMMAND_CLEAR },
        { COMMAND_PROGRAM, COMMAND_PROGRAM_TOO },
        { COMMAND_ERASE, COMMAND_ERASE },
        { COMMAND_SUSPEND, COMMAND_SUSPEND },
        { COMMAND_RESUME, COMMAND_RESUME },
    };
    size_t column = 0;
    while (column < COLUMNS && columns[column][0] != command && columns[column][1] != command) {
        column++;
    }
    return rows[condition][column];
}

struct pod_device after_command(struct pod_device device, enum condition condition, uint32_t command)
{
    struct pod_controller *controller = &device.controller;
    switch (action_of(condition, command)) {
    case 'A':
        controller->mode = POD_MODE_ARRAY;
        break;
    case 'S':
        controller->mode = POD_MODE_STATUS;
        break;
    case 'G':
        controller->mode = POD_MODE_SIGNATURE;
        break;
    case 'C':
        controller->errors = 0;
        break;
    case 'P':
        controller->setup = POD_SETUP_PROGRAM;
        controller->mode = POD_MODE_STATUS;
        break;
    case 'E':
        controller->setup = POD_SETUP_ERASE;
        controller->mode = POD_MODE_STATUS;
        break;
    case 'Z':
        controller->outer.state = POD_STATE_PAUSING;
        controller->outer.pause = in_clocks(controller->outer.times.pause);
        break;
    case 'R':
        controller->outer.state = POD_STATE_RUNNING;
        controller->mode = POD_MODE_STATUS;
        break;
    default:
        break;
    }
    return device;
}

/* The bits that the array write ending a setup sets: those of the first test that fails, or 0. */
static uint8_t judged(const struct pod_device *device, uint16_t sample, uint32_t block, uint32_t data)
{
    const struct pod_controller *controller = &device->controller;
    const unsigned pin = block == POD_BLOCKS - 1 ? POD_SAMPLE_TBL : POD_SAMPLE_WP;
    if (controller->setup == POD_SETUP_ERASE && data != COMMAND_RESUME) {
        return POD_STATUS_PROGRAM | POD_STATUS_ERASE;
    }
    if (sample_voltage(sample) == POD_VOLTAGE_LOCKOUT) {
        return POD_STATUS_VOLTAGE;
    }
    if (!sample_has(sample, pin) || (device->locks[block] & POD_LOCK_WRITE) != 0) {
        return POD_STATUS_PROTECTED;
    }
    if (controller->outer.kind != POD_OPERATION_NONE && block == block_of(controller->outer.address)) {
        return POD_STATUS_PROGRAM;
    }
    return 0;
}

struct pod_device after_setup(struct pod_device device, uint16_t sample, uint32_t place, uint32_t data)
{
    struct pod_controller *controller = &device.controller;
    const bool program = controller->setup == POD_SETUP_PROGRAM;
    const uint8_t bits = judged(&device, sample, block_of(place), data);
    controller->setup = POD_SETUP_NONE;
    controller->errors |= bits;
    if (bits != 0) {
        return device;
    }
    struct pod_operation *next =
        controller->outer.kind == POD_OPERATION_NONE ? &controller->outer : &controller->inner;
    *next = (struct pod_operation){ .kind = program ? POD_OPERATION_PROGRAM : POD_OPERATION_ERASE,
                                    .state = POD_STATE_RUNNING,
                                    .data = (uint8_t)data,
                                    .address = place,
                                    .slices = POD_SLICES,
                                    .left = in_clocks(program ? device.times.program : device.times.slice),
                                    .times = device.times };
    return device;
}

enum { ARRAY = false, LOCK = true };

const struct written writes[WRITES] = {
    { "signature mode", IS_READY, POD_SETUP_NONE, ARRAY, 0, COMMAND_SIGNATURE },
    { "clear status", IS_READY, POD_SETUP_NONE, ARRAY, 0x12345, COMMAND_CLEAR },
    { "program setup", IS_READY, POD_SETUP_NONE, ARRAY, 0, COMMAND_PROGRAM },
    { "erase setup", IS_READY, POD_SETUP_NONE, ARRAY, 0, COMMAND_ERASE },
    { "program accepted", IS_READY, POD_SETUP_PROGRAM, ARRAY, 0x23456, 0x0F },
    { "erase accepted", IS_READY, POD_SETUP_ERASE, ARRAY, 0x23456, COMMAND_RESUME },
    { "erase not confirmed", IS_READY, POD_SETUP_ERASE, ARRAY, 0, 0x00 },
    { "program into a locked block", IS_READY, POD_SETUP_PROGRAM, ARRAY, 0, 0x00 },
    { "lock register", IS_READY, POD_SETUP_NONE, LOCK, 0, 0x06 },
    { "lock register beside a setup", IS_READY, POD_SETUP_ERASE, LOCK, 0, 0x07 },
    { "lock register while an erase runs", ERASE_RUNS, POD_SETUP_NONE, LOCK, 7, 0x04 },
    { "suspend of a program", PROGRAM_RUNS, POD_SETUP_NONE, ARRAY, 0, COMMAND_SUSPEND },
    { "suspend of an erase", ERASE_RUNS, POD_SETUP_NONE, ARRAY, 0, COMMAND_SUSPEND },
    { "status mode while an erase runs", ERASE_RUNS, POD_SETUP_NONE, ARRAY, 0, COMMAND_STATUS },
    { "resume of a program", PROGRAM_RESTS, POD_SETUP_NONE, ARRAY, 0, COMMAND_RESUME },
    { "resume of an erase", ERASE_RESTS, POD_SETUP_NONE, ARRAY, 0, COMMAND_RESUME },
    { "program inside a suspended erase", ERASE_RESTS, POD_SETUP_PROGRAM, ARRAY, 0x20000, 0x33 },
    { "program into the suspended block", ERASE_RESTS, POD_SETUP_PROGRAM, ARRAY, 0x7ABCD, 0x33 },
    { "status mode inside a suspended erase", PROGRAM_IN_ERASE, POD_SETUP_NONE, ARRAY, 0, COMMAND_STATUS },
};

uint32_t written_address(const struct written *written)
{
    return written->lock ? in_lock(written->place) : in_array(written->place);
}

struct pod_device before_write(const struct written *written)
{
    struct pod_device device = device_in(written->condition);
    device.locks[2] = device.locks[7] = 0;
    device.controller.setup = written->setup;
    device.controller.errors = POD_STATUS_PROTECTED;
    device.controller.mode = written->data == COMMAND_SIGNATURE ? POD_MODE_ARRAY : POD_MODE_SIGNATURE;
    return device;
}

/* The device as that write leaves it. */
static struct pod_device after_write(const struct written *written, struct pod_device device)
{
    if (!written->lock) {
        return written->setup != POD_SETUP_NONE ? after_setup(device, POD_SAMPLE_IDLE, written->place, written->data)
                                                : after_command(device, written->condition, written->data);
    }
    uint8_t *lock = &device.locks[written->place];
    if ((*lock & POD_LOCK_DOWN) == 0) {
        *lock = written->data & 7;
    }
    return device;
}

struct pod_device during_write(const struct written *written, struct pod_device device, uint32_t clocks)
{
    if (clocks < FRAME_CLOCK_ACT) {
        return after_clocks(device, clocks);
    }
    return after_clocks(after_write(written, after_clocks(device, FRAME_CLOCK_ACT)), clocks - FRAME_CLOCK_ACT);
}
