'use strict';
// The MCTP packets of a pcap or pcapng file as a capture: as `contrib/pcap read` writes it.
const pcaps = (() => {
    const SECOND = 10n ** 9n;
    const MILLISECOND = 10n ** 6n;
    const MICROSECOND = 10n ** 3n;
    const LAST_MOMENT = 4n * 10n ** 15n * MILLISECOND;
    const PROTOCOL_MCTP = 0x00fa;

    // By link type: the length of the cooked header, and where the protocol number stands in it.
    const COOKED = { 113: [16, 14], 276: [20, 0] };

    // The first four bytes of a pcap file, highest first: whether its numbers have the lowest byte first, and the unit
    // of its times in nanoseconds.
    const MAGICS = {
        0xd4c3b2a1: [true, MICROSECOND],
        0xa1b2c3d4: [false, MICROSECOND],
        0x4d3cb2a1: [true, 1n],
        0xa1b23c4d: [false, 1n],
    };
    const SECTION = 0x0a0d0d0a;
    const SECTION_ORDERS = { 0x4d3c2b1a: true, 0x1a2b3c4d: false };
    const INTERFACE = 1;
    const SIMPLE_PACKET = 3;
    const OLD_PACKET = 2;
    const PACKET = 6;
    const OPTION_END = 0;
    const OPTION_RESOLUTION = 9;
    const OPTION_OFFSET = 14;
    const LONGEST_FRAME = 262144;
    const LONGEST_BLOCK = 16777216;

    // What is wrong with a file.
    class Refused extends Error {}

    const isPcap = (bytes) => {
        if (bytes.length < 4) return false;
        const first = new DataView(bytes.buffer, bytes.byteOffset).getUint32(0);
        return first === SECTION || Object.hasOwn(MAGICS, first);
    };

    // Takes numbers and bytes off the front of bytes.
    class Taker {
        constructor(bytes, isLowFirst = true) {
            this.bytes = bytes;
            this.view = new DataView(bytes.buffer, bytes.byteOffset, bytes.length);
            this.isLowFirst = isLowFirst;
            this.place = 0;
        }

        get isAtEnd() {
            return this.place >= this.bytes.length;
        }

        skip(count) {
            if (this.place + count > this.bytes.length) throw new Refused('the file breaks off');
            this.place += count;
            return this.place - count;
        }

        take(count) {
            const at = this.skip(count);
            return this.bytes.subarray(at, at + count);
        }

        half() {
            return this.view.getUint16(this.skip(2), this.isLowFirst);
        }

        word() {
            return this.view.getUint32(this.skip(4), this.isLowFirst);
        }

        highFirst() {
            return this.view.getUint32(this.skip(4));
        }

        long() {
            return this.view.getBigInt64(this.skip(8), this.isLowFirst);
        }
    }

    // The link type, the time, the whole length and the bytes of each frame of a pcap file.
    function* pcapFrames(file) {
        const [isLowFirst, unit] = MAGICS[file.highFirst()];
        file.isLowFirst = isLowFirst;
        file.skip(16);
        const link = file.word() & 0xffff;
        if (!COOKED[link]) throw new Refused(`link type ${link} is neither 113 nor 276`);
        while (!file.isAtEnd) {
            const seconds = BigInt(file.word());
            const parts = BigInt(file.word());
            const length = file.word();
            const whole = file.word();
            if (length > LONGEST_FRAME) throw new Refused(`a packet of ${length} bytes is too long`);
            yield { link, time: seconds * SECOND + parts * unit, whole, frame: file.take(length) };
        }
    }

    // The kind and the body of each block of a pcapng file.
    function* blocks(file) {
        while (!file.isAtEnd) {
            const begin = file.place;
            if (file.highFirst() === SECTION) {
                file.skip(4);
                const order = file.highFirst();
                if (!Object.hasOwn(SECTION_ORDERS, order)) {
                    throw new Refused('a section of a pcapng file has no byte order');
                }
                file.isLowFirst = SECTION_ORDERS[order];
            }
            file.place = begin;
            const kind = file.word();
            const length = file.word();
            const least = kind === SECTION ? 16 : 12;
            if (length % 4 || length < least || length > LONGEST_BLOCK) {
                throw new Refused(`a block of a pcapng file cannot have ${length} bytes`);
            }
            const body = file.take(length - 12);
            if (file.word() !== length) throw new Refused('the two lengths of a block of a pcapng file differ');
            yield { kind, body: new Taker(body, file.isLowFirst) };
        }
    }

    // What a block says of an interface: its link type, what to add to its times in seconds, the ticks of a second.
    function interfaceOf(body) {
        const link = body.half();
        let offset = 0n;
        let ticks = 10n ** 6n;
        body.skip(6);
        while (!body.isAtEnd) {
            const code = body.half();
            const length = body.half();
            const value = new Taker(body.take(length), body.isLowFirst);
            if (code === OPTION_END) break;
            if (code === OPTION_RESOLUTION) {
                const power = BigInt(value.take(1)[0]);
                ticks = power >= 128n ? 2n ** (power - 128n) : 10n ** power;
            }
            if (code === OPTION_OFFSET) offset = value.long();
            body.place = Math.min(body.place + (-length & 3), body.bytes.length);
        }
        return { link, offset, ticks };
    }

    // As pcapFrames, of a packet's block.
    function packetOf(kind, body, interfaces) {
        const number = kind === OLD_PACKET ? body.half() : body.word();
        body.place = 4;
        const high = BigInt(body.word());
        const low = BigInt(body.word());
        const length = body.word();
        const whole = body.word();
        if (number >= interfaces.length) throw new Refused('a packet of a pcapng file has no interface');
        const { link, offset, ticks } = interfaces[number];
        const time = offset * SECOND + (high << 32n | low) * SECOND / ticks;
        return { link, time, whole, frame: body.take(length) };
    }

    // As pcapFrames, of a pcapng file.
    function* pcapngFrames(file, note) {
        let interfaces = [];
        for (const { kind, body } of blocks(file)) {
            if (kind === SECTION) {
                interfaces = [];
                body.skip(4);
                if (body.half() !== 1) throw new Refused('a section of a pcapng file has another version than 1');
            } else if (kind === INTERFACE) {
                interfaces.push(interfaceOf(body));
            } else if (kind === SIMPLE_PACKET) {
                note('packets without a time (simple packet blocks) left out');
            } else if (kind === OLD_PACKET || kind === PACKET) {
                yield packetOf(kind, body, interfaces);
            }
        }
    }

    // The MCTP packet of a frame; nothing where it has another protocol.
    function mctpPacket({ link, whole, frame }) {
        const [header, place] = COOKED[link];
        const isMctp = frame[place] === PROTOCOL_MCTP >> 8 && frame[place + 1] === (PROTOCOL_MCTP & 0xff);
        if (frame.length < header || (isMctp && frame.length < whole)) throw new Refused('a packet is cut short');
        return isMctp ? frame.subarray(header) : undefined;
    }

    const inHex = (bytes) => Array.from(bytes, (byte) => byte.toString(16).padStart(2, '0')).join('');

    // The line of a packet, after a comment with what its time has beyond milliseconds.
    function captureText(time, packet) {
        const fraction = time % MILLISECOND;
        const micros = String(fraction / MICROSECOND).padStart(3, '0');
        const digits = fraction % MICROSECOND ? String(fraction).padStart(6, '0') : micros;
        const comment = fraction ? `#+ 0.${digits} ms\n` : '';
        return `${comment}${`${time / MILLISECOND} ${inHex(packet)}`.trimEnd()}\n`;
    }

    // Reads frames one by one into lines, and notes what is left out or moved.
    class Reader {
        lines = [];
        notes = new Map();
        latest = 0n;

        note(what) {
            this.notes.set(what, (this.notes.get(what) ?? 0) + 1);
        }

        take(found) {
            if (!COOKED[found.link]) {
                this.note('packets of other link types than 113 and 276 left out');
                return;
            }
            const packet = mctpPacket(found);
            if (!packet) {
                this.note('packets of other protocols left out');
                return;
            }
            if (found.time < 0n || found.time > LAST_MOMENT) {
                throw new Refused("a packet's time is before 1970 or past the last moment");
            }
            const isBack = found.time / MILLISECOND < this.latest / MILLISECOND;
            if (isBack) this.note('packets whose time went back, moved to the greatest time so far');
            const time = isBack ? this.latest : found.time;
            if (time > this.latest) this.latest = time;
            this.lines.push(captureText(time, packet));
        }
    }

    // The capture, what was left out or moved, each with how often, and the fault that ended it, if there was one.
    function read(bytes) {
        const file = new Taker(bytes);
        const reader = new Reader();
        let fault;
        try {
            if (!isPcap(bytes)) throw new Refused('neither a pcap nor a pcapng file');
            const isPcapng = new DataView(bytes.buffer, bytes.byteOffset).getUint32(0) === SECTION;
            const frames = isPcapng ? pcapngFrames(file, (what) => reader.note(what)) : pcapFrames(file);
            for (const frame of frames) reader.take(frame);
        } catch (refusal) {
            if (!(refusal instanceof Refused)) throw refusal;
            fault = refusal.message;
        }
        const notes = [...reader.notes].map(([what, count]) => `${what}: ${count}`);
        return { text: reader.lines.join(''), notes, fault };
    }

    return { isPcap, read };
})();
