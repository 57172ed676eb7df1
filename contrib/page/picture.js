'use strict';
// The ladder of a run, whose packets can be dragged, lost and sent twice. Each change is one of the schedule's text.
const pictures = (() => {
    const SVG = 'http://www.w3.org/2000/svg';
    const CLICK = 6; // pixels: a pointer that moves less clicks
    const BEYOND = 100; // milliseconds for each row below the last step
    const MOST_STEPS = 500; // that are drawn

    const element = (name, attributes) => {
        const made = document.createElementNS(SVG, name);
        for (const [key, value] of Object.entries(attributes)) made.setAttribute(key, value);
        return made;
    };

    class Picture {
        #place;
        #panel;
        #change;
        #picture;
        #heights = [];
        #groups = [];
        #chosen;

        // Where it is drawn, the controls of a packet by their names, and what takes a change of the schedule's text.
        constructor(place, panel, change) {
            this.#place = place;
            this.#panel = panel;
            this.#change = change;
            panel.earlier.addEventListener('click', () => this.#step(-1));
            panel.later.addEventListener('click', () => this.#step(1));
            panel.lose.addEventListener('click', () => this.#lose());
            panel.repeat.addEventListener('click', () => this.#repeat());
            panel.recover.addEventListener('click', () => this.#recover());
            panel.moment.addEventListener('change', () => this.#setMoment(Number(panel.moment.value)));
        }

        clear() {
            this.#place.replaceChildren();
            this.#panel.whole.hidden = true;
            this.#groups = [];
        }

        // Says something in the picture's place.
        say(words) {
            this.clear();
            const said = document.createElement('p');
            said.textContent = words;
            this.#place.replaceChildren(said);
        }

        // Draws a run. The packet that comes by `line` of the schedule is chosen, and has the keys where it had them.
        show(input, output, line) {
            const hadKeys = this.#place.contains(document.activeElement);
            const picture = ladderRun.trace(input, output);
            if (picture.run.steps.length > MOST_STEPS) {
                this.say(`A run of ${picture.run.steps.length} steps is not drawn: at most ${MOST_STEPS} are.`);
                return;
            }
            const { svg, heights } = ladder.drawn(picture);
            this.#picture = picture;
            this.#heights = heights;
            this.#place.innerHTML = svg;
            this.#groups = [...this.#place.querySelectorAll('g.request, g.reply')];
            this.#groups.forEach((group, number) => this.#prepare(group, picture.arrows[number]));
            this.#choose(line === undefined ? undefined : this.#arrowAt(line), hadKeys);
        }

        // Marks the packet that made the run untimely, which comes by this line.
        markUntimely(line) {
            this.#groups[this.#picture?.arrows.indexOf(this.#arrowAt(line))]?.classList.add('untimely');
        }

        // The step that brings a packet.
        stepOf(arrow) {
            return this.#picture.run.steps[arrow.place];
        }

        // The picture of the run that is drawn, as ladderRun has it.
        get run() {
            return this.#picture?.run;
        }

        #arrowAt(line) {
            const isIt = (arrow) => !ladderRun.isLost(arrow) && this.stepOf(arrow).line === line;
            return this.#picture?.arrows.find(isIt);
        }

        #prepare(group, arrow) {
            const shaft = group.querySelector('.shaft');
            const ends = Object.fromEntries(['x1', 'y1', 'x2', 'y2'].map((key) => [key, shaft.getAttribute(key)]));
            group.prepend(element('line', { class: 'reach', ...ends }));
            group.setAttribute('tabindex', '0');
            group.setAttribute('role', 'button');
            group.setAttribute('aria-label', this.#nameOf(arrow));
            group.addEventListener('pointerdown', (event) => this.#press(event, group, arrow));
            group.addEventListener('keydown', (event) => this.#key(event, arrow));
            group.addEventListener('focus', () => this.#choose(arrow));
        }

        #nameOf(arrow) {
            const { request, kind } = arrow.sending;
            const what = kind === 'request' ? `Request ${request}` : `Answer to request ${request}`;
            const how = ladderRun.isLost(arrow) ? 'lost' : `comes at ${this.stepOf(arrow).moment} ms`;
            return `${what}, ${arrow.label}${arrow.fate && how !== 'lost' ? `, ${arrow.fate}` : ''}, ${how}`;
        }

        // Shows the controls of a packet, or none.
        #choose(arrow, takesKeys = false) {
            this.#chosen = arrow;
            const number = arrow ? this.#picture.arrows.indexOf(arrow) : -1;
            this.#groups.forEach((group, place) => group.classList.toggle('chosen', place === number));
            this.#panel.whole.hidden = !arrow;
            if (!arrow) return;
            const isLost = ladderRun.isLost(arrow);
            this.#panel.name.textContent = this.#nameOf(arrow);
            this.#panel.moment.value = this.stepOf(arrow).moment;
            this.#panel.recover.hidden = !isLost;
            for (const key of ['arrives', 'earlier', 'later', 'lose', 'repeat']) this.#panel[key].hidden = isLost;
            if (takesKeys) this.#groups[number].focus({ preventScroll: true });
        }

        #key(event, arrow) {
            const isLost = ladderRun.isLost(arrow);
            const tasks = {
                ArrowDown: () => this.#step(1),
                ArrowUp: () => this.#step(-1),
                Delete: () => this.#lose(),
                Backspace: () => this.#lose(),
                d: () => this.#repeat(),
                Enter: () => (isLost ? this.#recover() : this.#panel.moment.focus()),
            };
            const task = tasks[event.key];
            if (!task || event.ctrlKey || event.metaKey || event.altKey) return;
            event.preventDefault();
            this.#chosen = arrow;
            task();
        }

        // A press chooses the packet; a drag lets it come later or earlier.
        #press(event, group, arrow) {
            if (event.button !== 0) return;
            event.preventDefault();
            group.focus({ preventScroll: true });
            this.#choose(arrow);
            if (ladderRun.isLost(arrow)) return;
            group.setPointerCapture(event.pointerId);
            const guide = element('line', { class: 'guide' });
            const start = event.clientY;
            let target;
            const drag = (move) => {
                target = Math.abs(move.clientY - start) < CLICK ? undefined : this.#targetOf(move, arrow);
                this.#guideTo(guide, target);
            };
            const end = (last) => {
                group.removeEventListener('pointermove', drag);
                group.removeEventListener('pointerup', end);
                group.removeEventListener('pointercancel', end);
                guide.remove();
                if (last.type === 'pointerup' && target) this.#moveTo(arrow, target);
            };
            group.addEventListener('pointermove', drag);
            group.addEventListener('pointerup', end);
            group.addEventListener('pointercancel', end);
        }

        #guideTo(guide, target) {
            const svg = this.#place.querySelector('svg');
            if (!target) {
                guide.remove();
                return;
            }
            svg.append(guide);
            const ends = { x1: 0, x2: svg.viewBox.baseVal.width, y1: target.y, y2: target.y };
            for (const [key, value] of Object.entries(ends)) guide.setAttribute(key, value);
        }

        // The step behind which a packet comes that is dropped where the pointer is, and the moment.
        #targetOf(event, arrow) {
            const svg = this.#place.querySelector('svg');
            const { y } = new DOMPoint(event.clientX, event.clientY).matrixTransform(svg.getScreenCTM().inverse());
            return this.#targetAt(y, arrow);
        }

        #targetAt(y, arrow) {
            const { steps } = this.#picture.run;
            const last = this.#heights.length - 1;
            const rows = Math.round((y - this.#heights[last]) / ladder.ROW);
            if (rows > 0) {
                const moment = steps[last].moment + rows * BEYOND;
                return { after: last, moment, y: this.#heights[last] + rows * ladder.ROW };
            }
            const above = this.#heights.filter((height) => height - ladder.ROW / 2 <= y).length - 1;
            const after = Math.max(arrow.sending.place, above);
            return { after, moment: steps[after].moment, y: this.#heights[after] };
        }

        #moveTo(arrow, { after, moment }) {
            const { line } = this.stepOf(arrow);
            if (after === arrow.place && moment === this.stepOf(arrow).moment) return;
            this.#change((text) => schedules.moved(text, line, this.#picture.run.steps[after].line, moment));
        }

        // One step later or earlier.
        #step(count) {
            const arrow = this.#chosen;
            if (!arrow || ladderRun.isLost(arrow)) return;
            const { steps } = this.#picture.run;
            const last = steps.length - 1;
            if (count > 0 && arrow.place === last) {
                this.#setMoment(steps[last].moment + BEYOND);
                return;
            }
            const after = count > 0 ? arrow.place + 1 : Math.max(arrow.sending.place, arrow.place - 2);
            this.#moveTo(arrow, { after, moment: steps[after].moment });
        }

        #setMoment(moment) {
            const arrow = this.#chosen;
            if (!arrow || !Number.isSafeInteger(moment) || moment < 0) return;
            const sent = this.#picture.run.steps[arrow.sending.place].line;
            this.#change((text) => schedules.atMoment(text, this.stepOf(arrow).line, sent, moment));
        }

        #lose() {
            const arrow = this.#chosen;
            if (!arrow || ladderRun.isLost(arrow)) return;
            this.#change((text) => schedules.lost(text, this.stepOf(arrow).line));
        }

        #repeat() {
            const arrow = this.#chosen;
            if (!arrow || ladderRun.isLost(arrow)) return;
            this.#change((text) => schedules.twice(text, this.stepOf(arrow).line));
        }

        #recover() {
            const arrow = this.#chosen;
            if (!arrow || !ladderRun.isLost(arrow)) return;
            const { request, kind, label } = arrow.sending;
            const reply = label === 'not ready' ? `busy ${request}` : `rep ${request} 0`;
            const words = kind === 'request' ? `req ${request}` : reply;
            this.#change((text) => schedules.found(text, this.stepOf(arrow).line, words));
        }
    }

    return { Picture };
})();
