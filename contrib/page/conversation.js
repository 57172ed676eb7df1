'use strict';
// The packets of a capture, each followed by those of its answer, as one capture.
const conversations = (() => {
    const END = 0x40; // in the flags of a packet: the last one of its message

    function joined(capture, output) {
        const answers = output.split('\n');
        const made = [];
        for (const line of capture.split('\n')) {
            const moment = /^ *(\d+)/.exec(line)?.[1];
            if (moment === undefined || answers.length < 2) continue;
            made.push(line);
            for (let isLast = false; !isLast && answers.length > 1; ) {
                const answer = answers.shift();
                const isPacket = /^[0-9a-f]+$/.test(answer);
                if (isPacket) made.push(`${moment} ${answer}`);
                isLast = !isPacket || (parseInt(answer.slice(6, 8), 16) & END) !== 0;
            }
        }
        return made.join('\n');
    }

    return { joined };
})();
