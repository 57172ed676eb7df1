'use strict';
// Hands work to the worker, and takes what it has made of it.
const computers = (() => {
    // The work was stopped.
    class Stopped extends Error {}

    class Computer {
        #module;
        #source;
        #worker; // a promise of one that has the module
        #end;
        #waiting = new Map();
        #number = 0;

        // `module` is a promise of the compiled module, `source` the worker's script.
        constructor(module, source) {
            this.#module = module;
            this.#source = source;
            this.#begin();
        }

        #begin() {
            const place = URL.createObjectURL(new Blob([this.#source], { type: 'text/javascript' }));
            const worker = new Worker(place);
            URL.revokeObjectURL(place);
            worker.onmessage = ({ data }) => this.#take(data);
            this.#worker = this.#module.then((module) => {
                worker.postMessage(module);
                return worker;
            });
            this.#end = () => worker.terminate();
        }

        #take({ number, result, took, fault }) {
            const { resolve, reject } = this.#waiting.get(number);
            this.#waiting.delete(number);
            if (fault === undefined) resolve({ result, took });
            else reject(new Error(fault));
        }

        get isBusy() {
            return this.#waiting.size > 0;
        }

        // What comes of a job, and how many milliseconds it took.
        run(job) {
            this.#number += 1;
            const number = this.#number;
            return new Promise((resolve, reject) => {
                this.#waiting.set(number, { resolve, reject });
                this.#worker.then((worker) => worker.postMessage({ ...job, number }), reject);
            });
        }

        // Ends all work that is under way.
        stop() {
            this.#end();
            for (const { reject } of this.#waiting.values()) reject(new Stopped());
            this.#waiting.clear();
            this.#begin();
        }
    }

    return { Computer, Stopped };
})();
