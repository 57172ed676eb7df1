'use strict';
// What runs the engines beside the page, which stays usable meanwhile. The first message is the module.
let module;

function done(job) {
    if (job.name === 'untimely') return engines.untimelyLine(module, job.front, job.lines);
    return engines.call(module, job.name, job.input, job.binding);
}

onmessage = ({ data }) => {
    if (!module) {
        module = data;
        return;
    }
    const begin = performance.now();
    try {
        const result = done(data);
        postMessage({ number: data.number, result, took: performance.now() - begin });
    } catch (fault) {
        postMessage({ number: data.number, fault: String(fault) });
    }
};
