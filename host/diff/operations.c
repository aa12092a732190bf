/* Reads, writes and commands somewhere, and what begins an operation. */
#include "diff/operations.h"

#include "bus/addresses.h"
#include "bus/commands.h"
#include "diff/choices.h"
#include "diff/random.h"
#include "diff/sides.h"
#include "diff/traffic.h"
#include "pod.h"

void command(uint8_t byte)
{
    send_write(some_array_address(), byte, 30);
}

void read_something(void)
{
    send_read(one_in(3) ? some_register() : some_array_address(), 12);
}

void write_register(void)
{
    static const uint8_t values[] = { 0x00, 0x00, 0x00, 0x01, 0x04, 0x05, 0x00, 0xF8 };
    const uint8_t value = values[rnd(sizeof values)];
    const uint8_t byte = one_in(6) ? rnd_byte() : value;
    send_write(some_register(), byte, 12);
}

/* Lets a block be written, mostly. */
static void prepare(uint32_t block)
{
    if (!one_in(6)) {
        good_pins();
    }
    if (!one_in(8) && (model.locks[block] & POD_LOCK_WRITE) != 0) {
        const uint32_t address = lock_address(model.part, model.straps, block);
        send_write(address, one_in(10) ? POD_LOCK_DOWN : one_in(8) ? POD_LOCK_READ : 0, 40);
    }
}

/* What may come between a setup and the write that ends it. */
static void between(void)
{
    switch (rnd(8)) {
    case 0:
        read_something();
        break;
    case 1:
        write_register();
        break;
    case 2:
        idle(rnd(6));
        break;
    case 3:
        change_pins();
        break;
    default:
        break;
    }
}

static void end_setup(uint32_t block, uint32_t offset, uint8_t byte)
{
    send_write(some_address_of(block * POD_BLOCK_BYTES + offset), byte, 30);
}

void begin_program(uint32_t block)
{
    prepare(block);
    command(one_in(3) ? COMMAND_PROGRAM_TOO : COMMAND_PROGRAM);
    between();
    const uint32_t offset = one_in(3) ? rnd(POD_BLOCK_BYTES) : rnd(16);
    const uint8_t byte = one_in(4) ? some_command() : rnd_byte();
    end_setup(block, offset, byte);
}

void begin_erase(uint32_t block)
{
    prepare(block);
    command(COMMAND_ERASE);
    between();
    const uint32_t offset = rnd(POD_BLOCK_BYTES);
    const uint8_t byte = one_in(10) ? some_command() : COMMAND_RESUME;
    end_setup(block, offset, byte);
}
