'use strict';
// Changes of a schedule's text. Lines are counted from 0. Each change gives the new text, and where the line stands
// that was changed.
const schedules = (() => {
    const STEP = /^( *at +)([0-9]{1,16})(.*)$/s;

    const momentOf = (line) => {
        const found = STEP.exec(line);
        return found ? Number(found[2]) : undefined;
    };
    const withMoment = (line, moment) => line.replace(STEP, (_, at, old, rest) => `${at}${moment}${rest}`);

    // The text with a line at this place.
    function inserted(lines, place, line) {
        return { text: [...lines.slice(0, place), line, ...lines.slice(place)].join('\n'), line: place };
    }

    // Lets a packet arrive after the step on another line, and at this moment.
    function moved(text, line, after, moment) {
        const lines = text.split('\n');
        const [step] = lines.splice(line, 1);
        return inserted(lines, (after >= line ? after - 1 : after) + 1, withMoment(step, moment));
    }

    // Lets a packet arrive at this moment: behind all other steps that are not later, and never before line `sent`.
    function atMoment(text, line, sent, moment) {
        const lines = text.split('\n');
        const least = Math.max(moment, momentOf(lines[sent]) ?? 0);
        let after = sent;
        lines.forEach((other, place) => {
            const its = momentOf(other);
            if (place !== line && place > sent && its !== undefined && its <= least) after = place;
        });
        return moved(text, line, after, least);
    }

    // Loses the packet that arrives by this line.
    function lost(text, line) {
        const lines = text.split('\n');
        lines.splice(line, 1);
        return { text: lines.join('\n'), line: undefined };
    }

    // Lets the packet that arrives by this line arrive once more.
    function twice(text, line) {
        const lines = text.split('\n');
        return inserted(lines, line + 1, lines[line]);
    }

    // Lets a packet arrive that was lost: right behind line `sent`, at its moment. `words` name the packet.
    function found(text, sent, words) {
        const lines = text.split('\n');
        const end = lines[sent].endsWith('\r') ? '\r' : '';
        return inserted(lines, sent + 1, `at ${momentOf(lines[sent])} ${words}${end}`);
    }

    return { moved, atMoment, lost, twice, found };
})();
