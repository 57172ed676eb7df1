'use strict';
// What the guarantee says of a run, in words.
const guarantees = (() => {
    const WHOLE = [
        'The guarantee holds: the device did what performing each request that arrived once does, in the order of',
        'their first arrivals, and each answer that a requester took is the one to its own request.',
    ].join(' ');
    const NOTHING = 'The guarantee says nothing of this run.';

    const ofTimely = () => `timely: yes. ${WHOLE}`;

    // Why a packet made a run untimely: one of the three ways in which a run can be.
    function reasonOf(run, step) {
        if (step.kind !== 'req') return 'its requester had used the tag of the request again by then';
        const opened = run.steps.filter((other) => other.outcome.startsWith('opened '))[Number(step.words[0])];
        const passed = step.moment - opened.moment;
        if (passed < run.keep) return 'it came again past the window of its first arrival';
        return `it came ${passed} ms after the request was opened, and the keeping time is ${run.keep} ms`;
    }

    // `line` is the first, counted from 0, with which the run is untimely, where that is known.
    function ofUntimely(run, line, text) {
        if (line === undefined) return `timely: no. ${NOTHING}`;
        const step = run?.steps.find((other) => other.line === line);
        const why = step ? `: ${reasonOf(run, step)}` : '';
        return `timely: no, from line ${line + 1}, '${text.trim()}'${why}. ${NOTHING}`;
    }

    return { ofTimely, ofUntimely };
})();
