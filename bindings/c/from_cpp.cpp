// Shows that vcd.h serves C++ too: reads one command and writes it anew. Its status is 0 if both are done.
#include "vcd.h"
#include "vcd.h"

int main() {
    static const uint8_t input[] = {'#', '7', '\n'};
    uint64_t cursor[VCD_CURSOR] = VCD_CURSOR_START, writer[VCD_WRITER] = VCD_WRITER_START, record[VCD_RECORD] = {}, count = VCD_NONE;
    uint8_t out[sizeof(input)] = {};
    if (vcd_next(input, sizeof(input), cursor, VCD_CURSOR, record, VCD_RECORD) != VCD_OK) {
        return 1;
    }
    if (vcd_command(writer, VCD_WRITER, input, sizeof(input), record, VCD_RECORD, out, sizeof(out), &count) != VCD_OK) {
        return 1;
    }
    return !(record[VCD_RECORD_KIND] == VCD_KIND_TIME && count == sizeof(input) && out[1] == '7');
}
