/* Moves: what the host of a trace does next, by the condition that the model is in. */
#include "diff/moves.h"

#include "bus/commands.h"
#include "bus/frames.h"
#include "diff/calls.h"
#include "diff/choices.h"
#include "diff/condition.h"
#include "diff/elsewhere.h"
#include "diff/operations.h"
#include "diff/random.h"
#include "diff/settle.h"
#include "diff/sides.h"
#include "diff/trace.h"
#include "diff/traffic.h"
#include "diff/waits.h"

#include <stdbool.h>

static void move_ready(void)
{
    const uint32_t roll = rnd(10);
    if (roll < 6) {
        begin_program(some_block());
    } else if (roll < 9) {
        begin_erase(some_block());
    } else {
        idle(1 + rnd(40));
    }
}

/* Asks for a pause that ends within three clocks of the operation's own end. */
static void pause_to_meet_end(void)
{
    const uint32_t left = operation_left(&model);
    const uint32_t pause = model.erasing ? model.erase.pause_clocks : model.program.pause_clocks;
    if (model.condition == RUNNING && left > pause + FRAME_CLOCK_ACT) {
        wait_for(left + 3 - rnd(7) - pause - FRAME_CLOCK_ACT);
    }
    command(COMMAND_SUSPEND);
    if (model.condition == PAUSING) {
        idle(operation_left(&model) < trace.patience ? operation_left(&model) + 2 : 0);
    }
}

static void move_busy(void)
{
    const bool inside = model.condition == PROGRAM_INSIDE;
    uint32_t left = 0;
    if (inside && one_in(2)) {
        command(some_command());
        return;
    }
    switch (rnd(11)) {
    case 0:
    case 1:
    case 2:
        if (one_in(2)) {
            approach(FRAME_CLOCK_ACT);
        }
        command(model.condition == PAUSING && one_in(2) ? COMMAND_RESUME : COMMAND_SUSPEND);
        break;
    case 3:
    case 4:
        approach(FRAME_CLOCK_SYNC);
        send_read(some_array_address(), 30);
        break;
    case 5:
        approach(FRAME_CLOCK_ACT);
        command(some_command());
        break;
    case 6:
        if (one_in(inside ? 2 : 4)) {
            approach(1);
            reset_device();
        }
        break;
    case 7:
        approach(FRAME_CLOCK_ACT);
        settle_in_frame();
        break;
    case 8:
        left = distance();
        wait_for(left + rnd(4));
        break;
    case 10:
        pause_to_meet_end();
        break;
    default:
        idle(1 + rnd(20));
        break;
    }
}

static void move_suspended(void)
{
    const bool erase = model.condition == ERASE_SUSPENDED;
    switch (rnd(10)) {
    case 0:
    case 1:
    case 2:
        command(COMMAND_RESUME);
        break;
    case 3:
    case 4:
    case 5:
        if (erase) {
            begin_program(one_in(4) ? model.erase.block : some_block());
        } else {
            command(some_command());
        }
        break;
    case 6:
        command(COMMAND_ARRAY);
        send_read(some_address_of(erase ? model.erase.next - rnd(2) : model.program.address), 30);
        break;
    case 7:
        if (one_in(5)) {
            reset_device();
        } else {
            write_register();
        }
        break;
    case 8:
        idle(rnd(80));
        break;
    default:
        command(some_command());
        break;
    }
}

/* A read or a write anywhere, with something wrong about it. */
static void send_something_odd(void)
{
    const uint32_t address = one_in(2) ? some_register() : some_array_address();
    const bool write = one_in(2);
    const uint8_t byte = some_command();
    if (write) {
        send_write(address, byte, 1);
    } else {
        send_read(address, 1);
    }
}

void move(void)
{
    const uint32_t roll = rnd(1000);
    if (roll < 8) {
        reset_device();
    } else if (roll < 60) {
        call_aside();
    } else if (roll < 100) {
        change_pins();
    } else if (roll < 108) {
        garbage();
    } else if (roll < 230) {
        read_something();
    } else if (roll < 280) {
        write_register();
    } else if (roll < 340) {
        command(some_command());
    } else if (roll < 380) {
        send_something_odd();
    } else if (roll < 420) {
        settle();
    } else if (roll < 440) {
        settle_in_frame();
    } else if (roll < 470) {
        if (!trace.runnable) {
            send_elsewhere();
        }
    } else if (model.condition == READY) {
        move_ready();
    } else if (is_busy(&model)) {
        move_busy();
    } else {
        move_suspended();
    }
}
