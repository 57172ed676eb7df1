'use strict';
// A run, read from its input and what `mctpctl run` wrote, and which of its sendings came when: as
// contrib/ladder_run.py reads it.
const ladderRun = (() => {
    const NUMBER = '[0-9]{1,16}';
    const NUMBERS = `(?: ${NUMBER})+`;
    const HANDED = 'partial|answered|drop [A-Za-z]+|nothing';
    const REQUESTER = `requester ${NUMBER} timeout ${NUMBER} tries ${NUMBER}`;

    // By the kind of a step: the words after it, and what may have come of it.
    const STEPS = {
        open: [`${NUMBER}(?: [-a-z0-9]+)+`, `opened ${NUMBER}|tag in use|id in use`],
        tick: [NUMBER, `again${NUMBERS}(?: gave up${NUMBERS})?|gave up${NUMBERS}|nothing due`],
        req: [NUMBER, 'fresh changed|fresh unchanged|copy|busy|nothing'],
        rep: [`${NUMBER} ${NUMBER}`, HANDED],
        busy: [NUMBER, HANDED],
        sense: [`${NUMBER} -?${NUMBER}`, 'set|no such sensor|out of size'],
        restart: ['', 'restarted'],
    };

    // What is wrong with an input or its output.
    class Refused extends Error {}

    const isWhole = (pattern, text) => new RegExp(`^(?:${pattern})$`).test(text);
    const wordsOf = (text) => text.split(/\s+/).filter((word) => word);
    const misfit = (number) => new Refused(`line ${number} of the output is of another run`);

    // What stands before and after the first `mark` of a text.
    function split(text, mark) {
        const at = text.indexOf(mark);
        return at < 0 ? [text, ''] : [text.slice(0, at), text.slice(at + mark.length)];
    }

    // The number that a description has on its line `key = N`.
    function described(description, key, least, most) {
        const line = new RegExp(`^[ \\t]*["']?${key}["']?[ \\t]*=[ \\t]*\\+?(\\w+)[ \\t]*(?:#.*)?\\r?$`, 'm');
        const found = line.exec(description);
        const number = found ? Number(found[1].replaceAll('_', '')) : -1;
        if (!(least <= number && number <= most)) {
            throw new Refused(`the device description has no line '${key} = N'`);
        }
        return number;
    }

    // The step that these words say, which stand on this line; nothing where they say none.
    function stepOf(said, place, line) {
        const [at, moment, kind, ...words] = said;
        const isStep = at === 'at' && Object.hasOwn(STEPS, kind ?? '') && isWhole(NUMBER, moment);
        if (!isStep || !isWhole(STEPS[kind][0], words.join(' '))) return undefined;
        return { place, line, moment: Number(moment), kind, words, outcome: '' };
    }

    // The requesters and the steps of a schedule; each step has the number of its line, from 0.
    function readSchedule(lines) {
        const requesters = [];
        const steps = [];
        lines.forEach((text, line) => {
            const said = text.replace(/\r$/, '').split(' ').filter((word) => word);
            if (!said.length || said[0].startsWith('#')) return;
            if (isWhole(REQUESTER, said.join(' '))) {
                requesters.push(Number(said[1]));
                return;
            }
            const step = stepOf(said, steps.length, line);
            if (!step) throw new Refused(`line ${line + 1} of the schedule is not understood`);
            steps.push(step);
        });
        return { requesters, steps };
    }

    function readRun(input, output) {
        const all = input.split('\n');
        const divider = all.findIndex((line) => line.replace(/\r$/, '') === '%%');
        if (divider < 0) throw new Refused('the schedule has no line %%');
        const description = all.slice(0, divider).join('\n');
        const eid = described(description, 'eid', 8, 254);
        const keep = described(description, 'keep_ms', 1, 60000);
        const { requesters, steps } = readSchedule(all.slice(divider + 1));
        const lines = output.replace(/\n$/, '').split('\n');
        const owners = [];
        for (const step of steps) {
            const [moment, outcome] = split(lines[step.place] ?? '', ' ');
            if (moment !== String(step.moment) || !isWhole(STEPS[step.kind][1], outcome)) throw misfit(step.place + 1);
            step.outcome = outcome;
            if (outcome.startsWith('opened ')) owners.push(Number(step.words[0]));
        }
        return { eid, keep, requesters, steps, owners, timely: lines[lines.length - 1] };
    }

    // The sendings of a request, of its answers, or of the refusals of it, and which of their packets have come.
    class Flow {
        sendings = [];
        waiting = new Map();
        lookedAt = new Map();

        // The latest sending of which this packet has not come, or the latest of all; and whether it is a repeat.
        deliver(packet) {
            if (!this.waiting.has(packet)) this.waiting.set(packet, []);
            const waiting = this.waiting.get(packet);
            waiting.push(...this.sendings.slice(this.lookedAt.get(packet) ?? 0));
            this.lookedAt.set(packet, this.sendings.length);
            const isRepeat = !waiting.length;
            const sending = isRepeat ? this.sendings[this.sendings.length - 1] : waiting.pop();
            sending.hasCome = true;
            return [sending, isRepeat];
        }
    }

    // The flow that a map keeps for a number.
    function flowOf(map, number) {
        if (!map.has(number)) map.set(number, new Flow());
        return map.get(number);
    }

    const isLost = (arrow) => arrow.words.includes('lost');

    // Whether a step brings a packet of an answer that has several.
    function isOfSeveral(step) {
        if (step.kind !== 'rep' || step.outcome === 'nothing') return false;
        return Number(step.words[1]) > 0 || step.outcome === 'partial';
    }

    // Goes through the steps of a run, and notes each sending and each arrow.
    class Tracer {
        arrows = [];
        marks = [];
        sendings = [];
        requests = [];
        answers = new Map();
        refusals = new Map();

        constructor(run) {
            this.run = run;
            this.inParts = new Set(run.steps.filter(isOfSeveral).map((step) => Number(step.words[0])));
        }

        trace() {
            for (const step of this.run.steps) this[step.kind](step);
            for (const sending of this.sendings.filter((sending) => !sending.hasCome)) {
                const label = this.numbered(sending.request, sending.label);
                const words = [...sending.words, 'lost'];
                this.arrows.push({ sending, place: sending.place, packet: 0, label, fate: 'lost', words });
            }
            this.arrows.sort((a, b) => a.place - b.place || isLost(a) - isLost(b));
            return { run: this.run, arrows: this.arrows, marks: this.marks };
        }

        // A label with its request's number, where there are several requests.
        numbered(request, label) {
            return this.run.owners.length > 1 ? `${request}: ${label}` : label;
        }

        mark(step, kind, text, eid = null) {
            this.marks.push({ kind, place: step.place, text, eid });
        }

        send(flow, sending) {
            flow.sendings.push(sending);
            this.sendings.push(sending);
        }

        arrive(step, [sending, isRepeat], packet, said, fate, words) {
            const label = this.numbered(sending.request, said) + (isRepeat ? ' (repeat)' : '');
            const all = isRepeat ? [...words, 'repeat'] : words;
            this.arrows.push({ sending, place: step.place, packet, label, fate, words: all });
        }

        // The request that a tick names.
        requestOf(step, word) {
            const number = Number(word);
            const isOwn = number < this.requests.length && this.run.owners[number] === Number(step.words[0]);
            if (!isOwn) throw misfit(step.place + 1);
            return this.requests[number];
        }

        open(step) {
            const command = step.words.slice(1).join(' ');
            if (!step.outcome.startsWith('opened ')) {
                this.mark(step, 'note', `${command}: ${step.outcome}`, Number(step.words[0]));
                return;
            }
            const request = this.requests.length;
            this.requests.push(new Flow());
            const { place } = step;
            this.send(this.requests[request], { kind: 'request', request, place, label: command, words: [], slot: 0 });
        }

        tick(step) {
            const eid = Number(step.words[0]);
            if (step.outcome === 'nothing due') {
                this.mark(step, 'nothing', step.outcome, eid);
                return;
            }
            const [again, givenUp] = split(step.outcome, 'gave up');
            wordsOf(again).slice(1).forEach((word, slot) => {
                const flow = this.requestOf(step, word);
                const { place } = step;
                this.send(flow, { kind: 'request', request: Number(word), place, label: 'again', words: [], slot });
            });
            wordsOf(givenUp).forEach((word) => this.requestOf(step, word));
            if (givenUp) this.mark(step, 'note', `gave up${givenUp}`, eid);
        }

        req(step) {
            const number = Number(step.words[0]);
            const isKnown = number < this.requests.length;
            if ((step.outcome === 'nothing') === isKnown) throw misfit(step.place + 1);
            if (!isKnown) {
                this.mark(step, 'nothing', `req ${number}: nothing`);
                return;
            }
            const words = ['copy', 'busy'].includes(step.outcome) ? [step.outcome] : [];
            const come = this.requests[number].deliver(0);
            const fate = step.outcome === 'fresh changed' ? 'performed' : step.outcome;
            this.arrive(step, come, 0, come[0].label, fate, words);
            this.giveAnswer(step, number, words);
        }

        // A request that came has an answer, which is sent.
        giveAnswer(step, request, words) {
            const isBusy = words.includes('busy');
            if (!isBusy && !words.includes('copy')) this.answers.set(request, new Flow());
            const flow = flowOf(isBusy ? this.refusals : this.answers, request);
            const label = isBusy ? 'not ready' : 'answer';
            this.send(flow, { kind: 'reply', request, place: step.place, label, words, slot: 0 });
        }

        rep(step) {
            this.answer(step, this.answers, Number(step.words[1]));
        }

        busy(step) {
            this.answer(step, this.refusals, 0);
        }

        answer(step, flows, packet) {
            const request = Number(step.words[0]);
            if (step.outcome === 'nothing') {
                this.mark(step, 'nothing', `${step.kind} ${step.words.join(' ')}: nothing`);
                return;
            }
            if (!flows.has(request)) throw misfit(step.place + 1);
            const come = flows.get(request).deliver(packet);
            const [sending] = come;
            const isPart = sending.label === 'answer' && this.inParts.has(request);
            const name = isPart ? `packet ${packet}` : sending.label;
            const isDropped = step.outcome.startsWith('drop ');
            const taken = name === 'answer' ? step.outcome : `${name}, ${step.outcome}`;
            const words = isDropped ? [...sending.words, 'dropped'] : [...sending.words];
            this.arrive(step, come, packet, isDropped ? name : taken, isDropped ? step.outcome : '', words);
        }

        sense(step) {
            const told = step.outcome === 'set' ? '' : `: ${step.outcome}`;
            this.mark(step, 'sense', `sense ${step.words.join(' ')}${told}`);
        }

        restart(step) {
            this.mark(step, 'restart', `restart: not ready until ${step.moment + this.run.keep}`);
        }
    }

    // The run of this input and its output, its arrows in the order in which they are drawn, and its marks.
    const trace = (input, output) => new Tracer(readRun(input, output)).trace();

    return { trace, isLost, Refused };
})();
