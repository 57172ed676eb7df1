'use strict';
// A run as a ladder diagram: as contrib/ladder draws it, mark for mark.
const ladder = (() => {
    const { isLost } = ladderRun;
    const ROW = 32;
    const TOP = 56;
    const GAP = 440;
    const MARGIN = 16;
    const LETTER = 7;
    const BAR = 7;
    const NEAR = 12;
    const PASSES = 3;
    const STYLE = `
text { font: 12px sans-serif; fill: #222; stroke: #fff; stroke-width: 3px; paint-order: stroke; }
.name { font-weight: bold; }
.mid { text-anchor: middle; }
.end { text-anchor: end; }
.moment, .nothing text { fill: #666; }
.rule { stroke: #eee; }
.life { stroke: #444; stroke-width: 1.5; }
.shaft, .cross { stroke: #1f4e79; stroke-width: 1.4; fill: none; }
.head { fill: #1f4e79; }
.copy .shaft { stroke: #9a9a9a; }
.copy .head { fill: #9a9a9a; }
.copy text { fill: #777; }
.reply.busy .shaft { stroke-dasharray: 6 4; }
.lost .cross { stroke: #b3261e; stroke-width: 2; }
.lost .fate, .dropped .fate { fill: #b3261e; }
.restart rect { fill: #f3d9a4; }
.restart line { stroke: #8a5a00; stroke-width: 4; }
.sense circle { fill: #2e7d32; }
`;
    const SIGNS = { '&': '&amp;', '<': '&lt;', '>': '&gt;', '"': '&quot;', "'": '&#x27;' };
    const escaped = (text) => text.replace(/[&<>"']/g, (sign) => SIGNS[sign]);
    const pixels = (value) => value.toFixed(1).replace(/\.0$/, '');
    const longest = (texts) => Math.max(0, ...texts.map((text) => text.length));
    const shortened = (text, most) => (text.length <= most ? text : `${text.slice(0, most - 2).trimEnd()}..`);
    const labelOf = (arrow) => shortened(arrow.label, isLost(arrow) ? 34 : 54);
    const isRequest = (arrow) => arrow.sending.kind === 'request';

    function tag(name, content, attributes) {
        const said = Object.entries(attributes).map(([key, value]) => {
            return ` ${key}="${escaped(typeof value === 'string' ? value : pixels(value))}"`;
        });
        return content ? `<${name}${said.join('')}>${content}</${name}>` : `<${name}${said.join('')}/>`;
    }

    const wordsAt = (x, y, text, more = {}) => tag('text', escaped(text), { x, y, ...more });

    // Where the columns and the rows of the picture are.
    class Sheet {
        constructor({ run, arrows, marks }) {
            const fates = (kind) => arrows.filter((arrow) => arrow.sending.kind === kind).map((arrow) => arrow.fate);
            const left = [...fates('reply'), ...marks.filter((mark) => mark.eid !== null).map((mark) => mark.text)];
            const right = [...fates('request'), ...marks.filter((mark) => mark.eid === null).map((mark) => mark.text)];
            const last = run.steps.slice(-1).map((step) => String(step.moment));
            this.moments = MARGIN + longest(last) * (LETTER + 1);
            const spacing = Math.max(longest(left), 14) * LETTER + 2 * MARGIN;
            const columnOf = (eid, place) => [eid, this.moments + (place + 1) * spacing];
            this.columns = new Map(run.requesters.map(columnOf));
            this.last = this.columns.size ? Math.max(...this.columns.values()) : this.moments + spacing;
            this.device = this.last + GAP;
            this.width = this.device + Math.max(longest(right), 8) * LETTER + 2 * MARGIN;
            this.setRows(run.steps, arrows);
        }

        // A step has a row for each packet that it sends.
        setRows(steps, arrows) {
            const slots = new Map();
            for (const { sending } of arrows) {
                slots.set(sending.place, Math.max(slots.get(sending.place) ?? 1, sending.slot + 1));
            }
            this.heights = [];
            let y = TOP;
            for (const step of steps) {
                this.heights.push(y);
                y += ROW * (slots.get(step.place) ?? 1);
            }
            this.bottom = y;
            this.height = y + 2 * MARGIN;
        }

        // Where an arrow begins and ends.
        lineOf(arrow, owners) {
            const { sending } = arrow;
            const x = this.columns.get(owners[sending.request]);
            const y = this.heights[sending.place];
            const come = this.heights[arrow.place];
            const [start, end, broken] = isRequest(arrow)
                ? [[x, y + ROW * sending.slot], [this.device, come], this.last + 0.55 * GAP]
                : [[this.device, y + 5 + 4 * Math.min(arrow.packet, 5)], [x, come], this.last + 0.45 * GAP];
            return [start, isLost(arrow) ? [broken, start[1] + 12] : end];
        }
    }

    // A line that takes room, and counts for so much where another runs into it.
    class Stroke {
        constructor(ends, room, weight = 1) {
            [this.left, this.right] = [...ends].sort((a, b) => a[0] - b[0] || a[1] - b[1]);
            this.room = room;
            this.weight = weight;
            this.slope = (this.right[1] - this.left[1]) / (this.right[0] - this.left[0]);
        }

        height(x) {
            return this.left[1] + this.slope * (x - this.left[0]);
        }

        isNear(x, y) {
            const isBeside = this.left[0] - 4 <= x && x <= this.right[0] + 4;
            return isBeside && Math.abs(this.height(x) - y) < this.room;
        }

        // At how many of seven places this runs into the others, by their weights.
        clashes(others) {
            let count = 0;
            for (let share = 0; share < 7; share++) {
                const x = this.left[0] + share / 6 * (this.right[0] - this.left[0]);
                const y = this.height(x);
                for (const other of others) if (other.isNear(x, y)) count += other.weight;
            }
            return count;
        }
    }

    // The word 'lost' beside a broken arrow's end, as a stroke that labels have to keep off.
    function lostStrokes(sheet, arrow, owners) {
        if (!isLost(arrow)) return [];
        const [, end] = sheet.lineOf(arrow, owners);
        const side = isRequest(arrow) ? 1 : -1;
        return [new Stroke([[end[0] - side * 6, end[1]], [end[0] + side * 40, end[1]]], 13, 3)];
    }

    // The label of an arrow as a stroke, with its middle at x.
    function labelStroke(line, arrow, x) {
        const stretch = Math.hypot(1, line.slope);
        const half = labelOf(arrow).length * LETTER / 2 / stretch;
        return new Stroke([x - half, x + half].map((at) => [at, line.height(at) - 8 * stretch]), 14, 3);
    }

    // The places for an arrow's label, the one that is wanted most first.
    function candidates(sheet, line, arrow) {
        const whole = isRequest(arrow) ? 0.6 : 0.3;
        const broken = isRequest(arrow) ? 0.27 : 0.73;
        const wanted = sheet.last + (isLost(arrow) ? broken : whole) * GAP;
        const half = labelOf(arrow).length * LETTER / 2 / Math.hypot(1, line.slope);
        const low = Math.max(line.left[0], sheet.last) + 8 + half;
        const high = Math.max(low, line.right[0] - 12 - half);
        const others = Array.from({ length: 9 }, (_, step) => low + step / 8 * (high - low));
        const all = [Math.min(Math.max(wanted, low), high), ...others];
        return all.sort((a, b) => Math.abs(a - wanted) - Math.abs(b - wanted));
    }

    // The numbers of the arrows beside this one, and itself.
    function nearTo(number, count) {
        const first = Math.max(0, number - NEAR);
        return Array.from({ length: Math.min(count, number + NEAR + 1) - first }, (_, place) => first + place);
    }

    // A place for the label of each arrow, along it, where it runs into as little as may be.
    function placesOf(sheet, arrows, owners) {
        const lines = arrows.map((arrow) => new Stroke(sheet.lineOf(arrow, owners), 10));
        const lost = arrows.map((arrow) => lostStrokes(sheet, arrow, owners));
        const labels = arrows.map(() => []);
        const places = arrows.map(() => 0);
        const settle = (arrow, number) => {
            const near = nearTo(number, lines.length);
            const apart = near.filter((other) => other !== number);
            const others = [apart.map((other) => lines[other]), near.flatMap((other) => lost[other])];
            others.push(apart.flatMap((other) => labels[other]));
            let fewest = Infinity;
            for (const x of candidates(sheet, lines[number], arrow)) {
                const tried = labelStroke(lines[number], arrow, x);
                const clashes = tried.clashes(others.flat());
                if (clashes < fewest) [places[number], labels[number], fewest] = [x, [tried], clashes];
                if (!clashes) break;
            }
        };
        for (let pass = 0; pass < PASSES; pass++) arrows.forEach(settle);
        return { lines, places };
    }

    function headOf(start, end) {
        const length = Math.hypot(end[0] - start[0], end[1] - start[1]);
        const x = (end[0] - start[0]) / length;
        const y = (end[1] - start[1]) / length;
        const back = [end[0] - 10 * x, end[1] - 10 * y];
        const corners = [end, [back[0] - 4 * y, back[1] + 4 * x], [back[0] + 4 * y, back[1] - 4 * x]];
        const path = corners.map(([a, b]) => `${pixels(a)} ${pixels(b)}`).join('L');
        return tag('path', '', { class: 'head', d: `M${path}Z` });
    }

    function crossAt([x, y]) {
        const stroke = (side) => {
            return `M${pixels(x - 5)} ${pixels(y - side * 5)}L${pixels(x + 5)} ${pixels(y + side * 5)}`;
        };
        return tag('path', '', { class: 'cross', d: stroke(1) + stroke(-1) });
    }

    function fateOf(arrow, [x, y]) {
        if (!arrow.fate) return '';
        const away = isLost(arrow) ? 10 : 14;
        const isRight = isRequest(arrow);
        return wordsAt(isRight ? x + away : x - away, y + 4, arrow.fate, { class: isRight ? 'fate' : 'fate end' });
    }

    function arrowsOf(sheet, arrows, run) {
        const { lines, places } = placesOf(sheet, arrows, run.owners);
        return arrows.map((arrow, number) => {
            const [start, end] = sheet.lineOf(arrow, run.owners);
            const x = places[number];
            const angle = Math.atan(lines[number].slope) * (180 / Math.PI);
            const transform = `translate(${pixels(x)} ${pixels(lines[number].height(x))}) rotate(${pixels(angle)})`;
            const inside = [
                tag('line', '', { class: 'shaft', x1: start[0], y1: start[1], x2: end[0], y2: end[1] }),
                isLost(arrow) ? crossAt(end) : headOf(start, end),
                wordsAt(0, -4, labelOf(arrow), { class: 'label mid', transform }),
                fateOf(arrow, end),
            ];
            const said = {
                class: [arrow.sending.kind, ...arrow.words].join(' '),
                'data-request': String(arrow.sending.request),
                'data-moment': String(run.steps[arrow.place].moment),
            };
            if (!isRequest(arrow)) said['data-packet'] = String(arrow.packet);
            return tag('g', inside.join(''), said);
        });
    }

    function momentsOf(sheet, run) {
        const made = [wordsAt(sheet.moments, TOP - 24, 'ms', { class: 'moment end' })];
        let last = null;
        for (const step of run.steps) {
            if (step.moment === last) continue;
            const y = sheet.heights[step.place];
            last = step.moment;
            made.push(tag('line', '', { class: 'rule', x1: sheet.moments + 6, y1: y, x2: sheet.device, y2: y }));
            made.push(wordsAt(sheet.moments, y + 4, String(step.moment), { class: 'moment end' }));
        }
        return made;
    }

    // A bar over the device's line from a restart to the end of the busy time.
    function restartOf(sheet, mark, run) {
        const { moment } = run.steps[mark.place];
        const x = sheet.device;
        const y = sheet.heights[mark.place];
        const found = run.steps.findIndex((step) => step.moment >= moment + run.keep);
        const bottom = found >= 0 ? sheet.heights[found] - ROW / 2 : sheet.bottom;
        const inside = [
            tag('rect', '', { x: x - BAR, y, width: 2 * BAR, height: bottom - y }),
            tag('line', '', { x1: x - 2 * BAR, y1: y, x2: x + 2 * BAR, y2: y }),
            wordsAt(x + 2 * BAR + 6, y + 4, mark.text),
        ];
        return tag('g', inside.join(''), { class: 'restart', 'data-moment': String(moment) });
    }

    function markOf(sheet, mark, run) {
        if (mark.kind === 'restart') return restartOf(sheet, mark, run);
        const y = sheet.heights[mark.place];
        const isOfRequester = mark.eid !== null;
        const said = isOfRequester
            ? wordsAt(sheet.columns.get(mark.eid) - 14, y + 4, mark.text, { class: 'end' })
            : wordsAt(sheet.device + 14, y + 4, mark.text);
        const dot = mark.kind === 'sense' ? tag('circle', '', { cx: sheet.device, cy: y, r: 5 }) : '';
        const moment = String(run.steps[mark.place].moment);
        return tag('g', dot + said, { class: mark.kind, 'data-moment': moment });
    }

    // The lines of the ends, with their names.
    function endsOf(sheet, run) {
        const requesters = [...sheet.columns].map(([eid, x]) => [x, `requester ${eid}`]);
        return [...requesters, [sheet.device, `device ${run.eid}`]].flatMap(([x, name]) => [
            tag('line', '', { class: 'life', x1: x, y1: TOP - 16, x2: x, y2: sheet.bottom }),
            wordsAt(x, TOP - 24, name, { class: 'name mid' }),
        ]);
    }

    // A run as SVG, with the heights of the rows of its steps.
    function drawn(picture) {
        const { run, arrows, marks } = picture;
        const sheet = new Sheet(picture);
        const [width, height] = [pixels(sheet.width), pixels(sheet.height)];
        const box = `width="${width}" height="${height}" viewBox="0 0 ${width} ${height}"`;
        const marksOf = (isWanted) => marks.filter(isWanted).map((mark) => markOf(sheet, mark, run));
        const parts = [
            `<svg xmlns="http://www.w3.org/2000/svg" ${box}>`,
            tag('title', escaped(`A run of device ${run.eid}; ${run.timely}`), {}),
            `<style>${STYLE}</style>`,
            tag('rect', '', { width: '100%', height: '100%', fill: '#fff' }),
            ...momentsOf(sheet, run),
            ...marksOf((mark) => mark.kind === 'restart'),
            ...endsOf(sheet, run),
            ...arrowsOf(sheet, arrows, run),
            ...marksOf((mark) => mark.kind !== 'restart'),
            wordsAt(sheet.moments, sheet.bottom + MARGIN + 4, run.timely, { class: 'timely name' }),
            '</svg>',
        ];
        return { svg: `${parts.join('\n')}\n`, heights: sheet.heights };
    }

    // The run of this input, with what it wrote, as SVG.
    const draw = (input, output) => drawn(ladderRun.trace(input, output)).svg;

    return { draw, drawn, ROW };
})();
