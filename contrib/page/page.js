'use strict';
// What the page does with what is typed, dropped, clicked and dragged.
(() => {
    const MOST_TYPED = 262144; // characters: a longer file is not put into the field
    const MOST_BYTES = 67108864; // of a file that is read
    const LONG_LINK = 8000; // characters
    const QUIET = 300; // milliseconds before work that is under way is shown
    const BYTES_A_MILLISECOND = 2000; // that an engine takes in, until a run has told

    const at = (id) => document.getElementById(id);
    const tabs = [...document.querySelectorAll('[role=tab]')];
    const TITLES = {
        show: ['Capture: on each line a moment in milliseconds, and bytes in hex', 'The packets, and what they say'],
        answer: ['Capture: on each line a moment in milliseconds, and a packet in hex', 'What the device does'],
        run: ['Schedule: the requesters, and what happens on the bus', 'What came of each step, and the end'],
    };
    const NO_MEMORY = 'There was not enough memory for this run. Nothing of what you typed is lost.';

    const BROKEN_LINK = 'The link is broken: an example stands here in its place.';

    const lines = new fields.Field(at('lines'), at('lines-fault'));
    const device = new fields.Field(at('device'), at('device-fault'));
    const output = new outputs.Output(at('text'), at('rest'), at('more'), at('rest-note'));
    let computer;
    let kind = 'run';
    let large; // a file that is too long for the field: its name and its bytes
    let turn = 0; // of the latest input
    let rate = BYTES_A_MILLISECOND;
    const undone = []; // the schedules before the changes in the picture

    const panel = { whole: at('packet'), name: at('packet-name'), arrives: at('packet-arrives') };
    for (const id of ['earlier', 'later', 'lose', 'repeat', 'recover']) panel[id] = at(id);
    panel.moment = at('packet-moment');
    const picture = new pictures.Picture(at('picture'), panel, change);

    // The description and what follows its divider. Only `answer` and `run` have a device.
    function partsOf(text, wanted) {
        const found = wanted === 'show' ? null : /^%%\r?(?:\n|$)/m.exec(text);
        return found ? [text.slice(0, found.index), text.slice(found.index + found[0].length)] : ['', text];
    }

    // The description as it stands in front of the lines.
    function front() {
        if (kind === 'show') return '';
        const text = device.text;
        return `${text}${text === '' || text.endsWith('\n') ? '' : '\n'}%%\n`;
    }

    // The whole input: a text, or bytes where there is a large file.
    function input() {
        if (!large) return front() + lines.text;
        const before = new TextEncoder().encode(front());
        const whole = new Uint8Array(before.length + large.bytes.length);
        whole.set(before);
        whole.set(large.bytes, before.length);
        return whole;
    }

    function fill(description, text) {
        device.text = description;
        lines.text = text;
        for (const id of ['lines', 'device']) at(id).scrollTop = 0;
        undone.length = 0;
        at('undo').disabled = true;
        closeLarge();
    }

    function closeLarge() {
        large = undefined;
        at('large').hidden = true;
        at('typed').hidden = false;
    }

    function chooseExample() {
        fill(...partsOf(DATA.examples[kind][at('example').value], kind));
        at('file-note').textContent = '';
        return show();
    }

    // Turns to a task, without its input.
    function turnTo(next) {
        kind = next;
        for (const tab of tabs) {
            const isChosen = tab.dataset.kind === kind;
            tab.setAttribute('aria-selected', String(isChosen));
            tab.tabIndex = isChosen ? 0 : -1;
            if (isChosen) at('work').setAttribute('aria-labelledby', tab.id);
        }
        at('example').replaceChildren(...Object.keys(DATA.examples[kind]).map((name) => new Option(name)));
        for (const id of ['frames', 'named']) at(id).hidden = kind !== 'show';
        at('described').hidden = kind === 'show';
        at('drawn').hidden = kind !== 'run';
        at('conversation').hidden = kind !== 'answer';
        at('linked').hidden = true;
        [at('what').textContent, at('said').textContent] = TITLES[kind];
    }

    // Runs a job, and shows that it is under way where it takes long. Throws computers.Stopped where it was stopped.
    async function compute(job, size) {
        const begin = performance.now();
        const wanted = size / rate;
        const tell = () => {
            const passed = performance.now() - begin;
            at('under-way').hidden = false;
            at('progress').value = Math.min(0.97, passed / wanted);
            const seconds = `${(passed / 1000).toFixed(0)} s of about ${Math.ceil(wanted / 1000)} s`;
            at('under-way-words').textContent = `${size.toLocaleString('en')} bytes under way, ${seconds}`;
        };
        const quiet = setTimeout(tell, QUIET);
        const told = setInterval(() => performance.now() - begin > QUIET && tell(), QUIET);
        try {
            const { result, took } = await computer.run(job);
            if (took > QUIET) rate = size / took;
            return { result, took };
        } finally {
            clearTimeout(quiet);
            clearInterval(told);
            at('under-way').hidden = true;
        }
    }

    const setBusy = (isBusy) => at('work').setAttribute('aria-busy', String(isBusy));

    // Shows what comes of the input. `line` is that of the packet that the picture has chosen.
    async function show(line) {
        turn += 1;
        const mine = turn;
        setBusy(true);
        if (computer.isBusy) computer.stop();
        const text = input();
        const name = kind === 'show' && at('by-name').checked ? 'decode' : kind;
        try {
            const { result, took } = await compute({ name, input: text, binding: at('binding').value }, text.length);
            if (mine !== turn) return;
            say(result);
            output.text = result.text;
            at('took').textContent = `Computed in ${took.toFixed(1)} ms.`;
            if (kind === 'run') await showRun(text, result, line, mine);
            if (kind === 'answer') await showConversation(result, mine);
        } catch (fault) {
            if (mine === turn) stopped(fault);
        }
        if (mine === turn) setBusy(false);
    }

    // The work was stopped, or broke off.
    function stopped(fault) {
        const words = fault instanceof computers.Stopped ? 'Stopped.' : `The engines broke off: ${fault.message}`;
        say({ status: engines.NOT_RUN, fault: '', more: '' }, words);
        output.text = '';
        picture.clear();
    }

    // Says how a run ended: its fault, beside the line that was refused, and the warnings.
    function say({ status, fault, more }, words = NO_MEMORY) {
        lines.clear();
        device.clear();
        const told = more.split('\n').filter((text) => text);
        const before = front().split('\n').length - 1;
        const ofField = (text) => text.replace(/^((?:warning: )?)input line (\d+)/, (whole, opening, number) => {
            return Number(number) > before ? `${opening}line ${number - before}` : whole;
        });
        const warnings = told.filter((text) => text.startsWith('warning: ')).map(ofField);
        const [explained = ''] = told.filter((text) => !text.startsWith('warning: '));
        at('fault').textContent = status === engines.NOT_RUN ? words : fault && `Refused: ${fault}`;
        at('warnings').replaceChildren(...warnings.map((text) => {
            const item = document.createElement('li');
            item.textContent = text;
            return item;
        }));
        if (fault) markFault(fault, explained, before);
    }

    function markFault(fault, explained, before) {
        const ofInput = /^input line (\d+): (.*)$/s.exec(explained);
        const ofDevice = /^device: /.test(fault) && /^line (\d+), /.exec(explained);
        const ofLine = /^line (\d+): /.exec(fault);
        if (ofDevice) {
            at('described').open = true;
            device.mark(Number(ofDevice[1]), explained);
        } else if (ofLine || ofInput) {
            const number = ofLine ? Number(ofLine[1]) : ofInput[1] - before;
            const words = `Line ${number}: ${ofInput ? ofInput[2] : fault}`;
            if (large) at('lines-fault').textContent = words;
            else lines.mark(number, words);
        } else if (explained) {
            at('fault').textContent += `: ${explained}`;
        }
    }

    // Draws a run, and says what the guarantee says of it.
    async function showRun(text, { status, text: written }, line, mine) {
        at('guarantee').textContent = '';
        if (status !== engines.DONE) {
            picture.clear();
            return;
        }
        if (typeof text === 'string') drawRun(text, written, line);
        else picture.say('The run of a file of this size is not drawn.');
        if (written.endsWith('\ntimely: yes\n') || written === 'timely: yes\n') {
            at('guarantee').textContent = guarantees.ofTimely();
            return;
        }
        at('guarantee').textContent = guarantees.ofUntimely();
        if (typeof text !== 'string') return;
        const job = { name: 'untimely', front: front(), lines: lines.text.split('\n') };
        const { result: found } = await compute(job, text.length * Math.ceil(Math.log2(job.lines.length + 1)));
        if (mine !== turn || found === undefined) return;
        at('guarantee').textContent = guarantees.ofUntimely(picture.run, found, job.lines[found]);
        picture.markUntimely(found);
    }

    function drawRun(text, written, line) {
        try {
            picture.show(text, written, line);
        } catch (fault) {
            if (!(fault instanceof ladderRun.Refused)) throw fault;
            picture.say(`This run is not drawn: ${fault.message}.`);
        }
    }

    // Shows the packets of a capture with those of the answers, decoded.
    async function showConversation({ text }, mine) {
        const capture = large ? '' : conversations.joined(lines.text, text);
        const { result } = await compute({ name: 'decode', input: capture, binding: '' }, capture.length);
        if (mine !== turn) return;
        at('decoded').textContent = large ? 'This is not shown for a file of this size.' : result.text;
    }

    // Takes a change of the schedule by the picture.
    function change(made) {
        const old = lines.text;
        const changed = made(old);
        if (changed.text === old) return;
        undone.push(old);
        lines.text = changed.text;
        at('undo').disabled = false;
        show(changed.line);
    }

    function undo() {
        const old = undone.pop();
        if (old === undefined) return;
        at('undo').disabled = undone.length === 0;
        lines.text = old;
        show();
    }

    // Takes a file: a pcap file, an input with a description, a description, or a capture.
    async function open(file) {
        if (!file) return;
        setBusy(true);
        at('file-note').textContent = '';
        if (file.size > MOST_BYTES) {
            at('file-note').textContent = `${file.name} is too long: at most ${MOST_BYTES} bytes are read.`;
            setBusy(false);
            return;
        }
        const bytes = new Uint8Array(await file.arrayBuffer());
        if (!pcaps.isPcap(bytes)) {
            at('file-note').textContent = file.name;
            take(file.name, bytes);
            return;
        }
        const { text, notes, fault } = pcaps.read(bytes);
        const broken = fault === undefined ? [] : [`it is refused, since ${fault}; what stands before that is here`];
        at('file-note').textContent = [file.name, ...notes, ...broken].join('; ');
        take(file.name, new TextEncoder().encode(text));
    }

    function take(name, bytes) {
        const isLarge = bytes.length > MOST_TYPED;
        const text = new TextDecoder().decode(isLarge ? bytes.subarray(0, MOST_TYPED) : bytes);
        const isDivided = /^%%\r?$/m.test(text);
        if (name.endsWith('.toml') && !isDivided && !isLarge) {
            if (kind === 'show') turnTo('answer');
            device.text = text;
            at('described').open = true;
            show();
            return;
        }
        const isSchedule = /^ *(?:at|requester) /m.test(text);
        if (isDivided || isSchedule) turnTo(isSchedule ? 'run' : 'answer');
        else if (kind === 'run') turnTo('show');
        const [description, rest] = partsOf(text, kind);
        fill(isDivided ? description : device.text, isLarge ? '' : rest);
        if (isLarge) takeLarge(name, isDivided ? bytes.subarray(lengthOf(text, rest)) : bytes);
        show();
    }

    // How many bytes stand in front of the rest of a text.
    const lengthOf = (text, rest) => new TextEncoder().encode(text.slice(0, text.length - rest.length)).length;

    function takeLarge(name, bytes) {
        large = { name, bytes };
        const size = bytes.length.toLocaleString('en');
        at('large-name').textContent = `${name}: ${size} bytes, too many to be shown here. They are read as they are.`;
        at('large').hidden = false;
        at('typed').hidden = true;
    }

    // Puts what is typed into a link.
    async function makeLink() {
        at('linked').hidden = false;
        if (large) {
            at('address').value = '';
            at('linked-note').textContent = 'A file of this size has no place in a link.';
            return;
        }
        const typed = { kind, device: device.text, lines: lines.text, binding: at('binding').value };
        const fragment = await links.fragmentOf({ ...typed, isByName: at('by-name').checked });
        at('address').value = location.href.split('#')[0] + fragment;
        at('address').select();
        const isLong = fragment.length > LONG_LINK;
        const long = `It has ${fragment.length.toLocaleString('en')} characters: many programs cut such a link off.`;
        at('linked-note').textContent = isLong ? long : 'Who opens the page by it sees the same.';
    }

    // Opens what the fragment of the address carries; else an example.
    async function openLink() {
        const typed = await links.read(location.hash).catch(() => ({ isBroken: true }));
        turnTo(Object.hasOwn(TITLES, typed.kind ?? '') ? typed.kind : 'run');
        if (typed.lines === undefined) {
            await chooseExample();
            if (typed.isBroken) at('file-note').textContent = BROKEN_LINK;
            return undefined;
        }
        fill(typed.device, typed.lines);
        at('binding').value = typed.binding;
        at('by-name').checked = typed.isByName;
        at('described').open = kind !== 'show' && typed.device.length < 400;
        return show();
    }

    function turnByKey(event) {
        const step = { ArrowRight: 1, ArrowLeft: -1 }[event.key];
        if (!step) return;
        const next = tabs[(tabs.indexOf(event.target) + step + tabs.length) % tabs.length];
        next.focus();
        next.click();
    }

    function listen() {
        for (const tab of tabs) {
            tab.addEventListener('click', () => {
                turnTo(tab.dataset.kind);
                chooseExample();
            });
            tab.addEventListener('keydown', turnByKey);
        }
        at('example').addEventListener('change', chooseExample);
        for (const id of ['binding', 'by-name']) at(id).addEventListener('change', () => show());
        for (const id of ['lines', 'device']) at(id).addEventListener('input', () => show());
        at('undo').addEventListener('click', undo);
        at('stop').addEventListener('click', () => computer.stop());
        at('save').addEventListener('click', () => outputs.save(output.text, `${kind}.txt`));
        at('link').addEventListener('click', makeLink);
        at('close').addEventListener('click', () => {
            closeLarge();
            show();
        });
        at('file').addEventListener('change', () => open(at('file').files[0]));
        listenToDrops();
        addEventListener('hashchange', openLink);
    }

    function listenToDrops() {
        const over = (isOver) => (event) => {
            if (!event.dataTransfer.types.includes('Files')) return;
            event.preventDefault();
            document.body.classList.toggle('over', isOver);
        };
        addEventListener('dragover', over(true));
        addEventListener('dragleave', over(false));
        addEventListener('drop', (event) => {
            over(false)(event);
            open(event.dataTransfer.files[0]);
        });
    }

    async function begin() {
        if (engines.isSupported()) {
            computer = new computers.Computer(WebAssembly.compile(links.toBytes(DATA.module)), DATA.worker);
            listen();
            await openLink();
            performance.mark('shown');
        } else {
            at('unsupported').hidden = false;
        }
        document.documentElement.dataset.ready = 'yes';
    }

    begin();
})();
