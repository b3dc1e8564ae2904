// Answers requests for disassembled instructions and for memory, in the format of the debug adapter protocol.
"use strict";

const WORD = 4;

// So many instructions from an address on, some before it where the offset is below 0: what stands outside of the text is told as invalid.
function disassembled({ listing, table, logic, program }, { memoryReference, offset, instructionOffset, instructionCount }) {
    const { rows } = listing, address = Number(memoryReference) + offset;
    const first = rows.findIndex((it) => it.address + WORD * it.words > address), from = (first < 0 ? rows.length : first) + instructionOffset;
    return Array.from({ length: instructionCount }, (_, i) => {
        const row = rows[from + i];
        if (row === undefined) return { address: logic.hex(address + WORD * (instructionOffset + i)), instruction: "", presentationHint: "invalid" };
        const place = logic.placeAt(table, row.address, listing), path = place && program.pathOf(place.file);
        const at = path ? { location: { name: place.file, path }, line: place.line } : {};
        return { address: logic.hex(row.address), instruction: row.text, ...(row.labels[0] ? { symbol: row.labels[0] } : {}), ...at };
    });
}

// Bytes of memory, up to the first that cannot be read.
async function memory({ state, logic }, { memoryReference, offset, count }) {
    const from = (Number(memoryReference) || 0) + offset, first = from - (((from % WORD) + WORD) % WORD);
    const addresses = Array.from({ length: Math.ceil((from + count - first) / WORD) }, (_, i) => first + WORD * i);
    const words = await state.settled(() => addresses.map((it) => state.peek(it)));
    const known = words.findIndex((it) => typeof it !== "number"), all = Buffer.alloc(WORD * (known < 0 ? words.length : known));
    words.slice(0, all.length / WORD).forEach((it, i) => all.writeUInt32LE(it, WORD * i));
    const bytes = all.subarray(from - first, from - first + count);
    return { address: logic.hex(from), data: bytes.toString("base64"), unreadableBytes: count - bytes.length };
}

module.exports = { disassembled, memory };
