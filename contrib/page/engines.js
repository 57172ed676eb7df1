'use strict';
// The engines of mctpctl, from the WebAssembly module that is made of the proved crates.
const engines = (() => {
    // How a run ended, as crates/needleoat_page has it: done, refused, no memory for it, or too small a room.
    const DONE = 0;
    const REFUSED = 1;
    const NOT_RUN = 3;
    const NO_ROOM = 4;

    const PAGE = 65536;
    const ENDING_BYTES = 32;

    // By its name as for `--binding`, the number of the frames that stand on the lines; packets where it has none.
    const BINDINGS = { '': 0, i2c: 1, i3c: 2, serial: 3 };
    const SHOWS = ['show', 'decode'];

    // Whether this browser runs modules whose memory has addresses of 64 bits: a module that has one page of it.
    function isSupported() {
        const module = [0x00, 0x61, 0x73, 0x6d, 0x01, 0x00, 0x00, 0x00, 0x05, 0x03, 0x01, 0x04, 0x01];
        return typeof WebAssembly === 'object' && WebAssembly.validate(Uint8Array.from(module));
    }

    const notRun = () => ({ status: NOT_RUN, text: '', fault: '', more: '' });

    // The module with fresh memory: the place of the input in it, and of what a call has to say, for which there is so
    // much room. Nothing where the browser gives no memory.
    function prepared(module, input, room) {
        const { exports } = new WebAssembly.Instance(module, {});
        const ending = exports.memory.buffer.byteLength;
        const pages = Math.ceil((ENDING_BYTES + input.length + room) / PAGE);
        try {
            exports.memory.grow(BigInt(pages));
        } catch (fault) {
            if (fault instanceof RangeError) return undefined;
            throw fault;
        }
        const at = ending + ENDING_BYTES;
        new Uint8Array(exports.memory.buffer, at, input.length).set(input);
        return { exports, ending, at, room: at + input.length };
    }

    // What the memory has at this place, as text.
    function textAt(memory, place, length) {
        return new TextDecoder().decode(new Uint8Array(memory.buffer, place, length));
    }

    // Runs an engine over an input, a text or bytes. `more` is what `--explain` adds.
    function call(module, name, input, binding = '') {
        const bytes = typeof input === 'string' ? new TextEncoder().encode(input) : input;
        const frames = SHOWS.includes(name) ? [BINDINGS[binding]] : [];
        for (let room = PAGE + 4 * bytes.length; ; ) {
            const made = prepared(module, bytes, room);
            if (!made) return notRun();
            const { exports, ending } = made;
            const places = [made.at, bytes.length, made.room, room].map(BigInt);
            exports[`needleoat_page_${name}`](BigInt(ending), ...frames, ...places);
            const numbers = new DataView(exports.memory.buffer);
            const [status, ...lengths] = [0, 8, 16, 24].map((at) => Number(numbers.getBigUint64(ending + at, true)));
            const [text, fault, more] = lengths;
            if (status === NOT_RUN) return notRun();
            if (status !== NO_ROOM) {
                const { memory } = exports;
                return {
                    status,
                    text: textAt(memory, made.room, text),
                    fault: textAt(memory, made.room + text, fault),
                    more: textAt(memory, made.room + text + fault, more),
                };
            }
            room = text + fault + more;
        }
    }

    // The number of the line of a schedule that made its run untimely, counted from 0: the last one of the least lines
    // whose run is not timely. Nothing where it is timely.
    function untimelyLine(module, front, lines) {
        const isUntimely = (count) => {
            const ended = call(module, 'run', front + lines.slice(0, count).join('\n'));
            return ended.status === DONE && ended.text.endsWith('\ntimely: no\n');
        };
        if (!isUntimely(lines.length)) return undefined;
        let timely = 0;
        let untimely = lines.length;
        while (untimely - timely > 1) {
            const middle = (timely + untimely) >> 1;
            if (isUntimely(middle)) untimely = middle;
            else timely = middle;
        }
        return untimely - 1;
    }

    return { call, untimelyLine, isSupported, DONE, REFUSED, NOT_RUN };
})();
