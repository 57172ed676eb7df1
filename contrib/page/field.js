'use strict';
// A field of lines in which the line can be marked that was refused.
const fields = (() => {
    const LINE_HEIGHT = 20; // as page.css has it
    const PADDING = 11;

    class Field {
        #area;
        #mark;
        #said;
        #line;

        // The text area and, in its place, the paragraph for what is wrong with a line.
        constructor(area, said) {
            this.#area = area;
            this.#said = said;
            this.#mark = area.parentElement.querySelector('.mark');
            area.addEventListener('scroll', () => this.#place());
        }

        get text() {
            return this.#area.value;
        }

        set text(text) {
            this.#area.value = text;
        }

        // Marks a line, the first with 1, and says what is wrong with it.
        mark(line, words) {
            this.#line = line;
            this.#area.setAttribute('aria-invalid', 'true');
            this.#mark.hidden = false;
            const button = document.createElement('button');
            button.type = 'button';
            button.textContent = 'Go there';
            button.addEventListener('click', () => this.go(line));
            this.#said.replaceChildren(words, button);
            this.#place();
        }

        clear() {
            this.#line = undefined;
            this.#area.removeAttribute('aria-invalid');
            this.#mark.hidden = true;
            this.#said.replaceChildren();
        }

        // Selects a line, and scrolls to it.
        go(line) {
            const lines = this.text.split('\n');
            const begin = lines.slice(0, line - 1).reduce((sum, text) => sum + text.length + 1, 0);
            this.#area.focus();
            this.#area.setSelectionRange(begin, begin + (lines[line - 1] ?? '').length);
            this.#area.scrollTop = Math.max(0, (line - 4) * LINE_HEIGHT);
        }

        #place() {
            if (this.#line === undefined) return;
            this.#mark.style.top = `${PADDING + (this.#line - 1) * LINE_HEIGHT - this.#area.scrollTop}px`;
        }
    }

    return { Field };
})();
