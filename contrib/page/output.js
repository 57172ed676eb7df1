'use strict';
// A long text, of which only the first lines are shown until more are asked for.
const outputs = (() => {
    const LINES = 2000;

    class Output {
        #text = '';
        #shown = 0;
        #place;
        #rest;
        #note;

        // The element for the text, and those for the rest of it.
        constructor(place, rest, more, note) {
            this.#place = place;
            this.#rest = rest;
            this.#note = note;
            more.addEventListener('click', () => this.#showMore());
        }

        get text() {
            return this.#text;
        }

        set text(text) {
            this.#text = text;
            this.#shown = 0;
            this.#place.textContent = '';
            this.#showMore();
        }

        #showMore() {
            let end = this.#shown;
            for (let line = 0; line < LINES && end < this.#text.length; line++) {
                const feed = this.#text.indexOf('\n', end);
                end = feed < 0 ? this.#text.length : feed + 1;
            }
            this.#place.append(this.#text.slice(this.#shown, end));
            this.#shown = end;
            const left = this.#text.length - end;
            this.#rest.hidden = left === 0;
            this.#note.textContent = `${left.toLocaleString('en')} characters more are not shown yet.`;
        }
    }

    // Has the browser save a text as a file.
    function save(text, name) {
        const link = document.createElement('a');
        link.href = URL.createObjectURL(new Blob([text], { type: 'text/plain' }));
        link.download = name;
        link.click();
        setTimeout(() => URL.revokeObjectURL(link.href), 1000);
    }

    return { Output, save };
})();
