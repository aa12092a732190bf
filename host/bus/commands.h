/* The bytes that the part takes for commands. */
#ifndef BUS_COMMANDS_H
#define BUS_COMMANDS_H

enum {
    COMMAND_ARRAY = 0xFF,
    COMMAND_STATUS = 0x70,
    COMMAND_SIGNATURE = 0x90,
    COMMAND_SIGNATURE_TOO = 0x98,
    COMMAND_CLEAR = 0x50,
    COMMAND_PROGRAM = 0x40,
    COMMAND_PROGRAM_TOO = 0x10,
    COMMAND_ERASE = 0x20,
    COMMAND_SUSPEND = 0xB0,
    COMMAND_RESUME = 0xD0 /* behind an erase setup it confirms the erase */
};

#endif
