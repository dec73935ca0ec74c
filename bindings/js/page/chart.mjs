// SPDX-License-Identifier: MIT OR Apache-2.0
// Copyright (c) 2026 The rtp-wire developers (NOTICE)

// A picture over time: what all pictures have in common is the time axis, the cursor, and zooming.

const LEFT = 64, RIGHT = 8, TOP = 6, BOTTOM = 18;

/** What of the time the pictures show, and where the cursor is, in nanoseconds. */
export class Axis {
    #watchers = [];

    constructor(begin, end, isTimed) {
        this.begin = begin;
        this.end = Math.max(begin + 1, end);
        this.isTimed = isTimed;
        this.from = this.begin;
        this.to = this.end;
        this.cursor = undefined;
    }
    watch(watcher) { this.#watchers.push(watcher); }
    #tell(what) { for (const it of this.#watchers) it(what); }

    point(time) {
        this.cursor = Math.min(this.to, Math.max(this.from, time));
        this.#tell('cursor');
    }
    show(from, to) {
        const least = Math.min(this.end - this.begin, 1e6), width = Math.max(least, Math.abs(to - from));
        this.from = Math.max(this.begin, Math.min(from, to, this.end - width));
        this.to = Math.min(this.end, this.from + width);
        this.#tell('range');
    }
    showAll() { this.show(this.begin, this.end); }

    /** Zooms around the cursor. */
    zoom(factor) {
        const around = this.cursor ?? (this.from + this.to) / 2, width = (this.to - this.from) * factor;
        const from = around - (around - this.from) * factor;
        this.show(from, from + width);
    }
    text(time) { return this.isTimed ? `${(time / 1e9).toFixed(3)} s` : `datagram ${Math.round(time / 1e9) + 1}`; }
}

/** Distances between marks of an axis that has so many of them at most: 1, 2 or 5 times a power of ten. */
function stepOf(width, most) {
    const least = width / most, power = 10 ** Math.floor(Math.log10(least));
    return [1, 2, 5, 10].map(it => it * power).find(it => it >= least);
}

/** A number in few characters. */
function short(value) {
    const size = Math.abs(value), decimals = number => (Math.abs(number) < 10 ? 2 : Math.abs(number) < 100 ? 1 : 0);
    const digits = number => +number.toFixed(decimals(number));
    return size >= 1e6 ? `${digits(value / 1e6)}M` : size >= 1e4 ? `${digits(value / 1e3)}k` : `${digits(value)}`;
}

export class Chart {
    /**
     * `paint(chart)` draws what it shows by the functions x and y, `bounds()` returns the lowest and the highest value
     * of the range that is shown, `tell(time)` returns the words for the cursor, and `sum()` those for who can't see it.
     */
    constructor(axis, { title, unit = '', height = 92, bounds, paint, tell, sum, keys = [] }) {
        Object.assign(this, {axis, height, bounds, paint, tell, sum, title});
        this.element = document.createElement('figure');
        this.canvas = document.createElement('canvas');
        this.canvas.tabIndex = 0;
        this.canvas.setAttribute('role', 'img');
        this.caption = document.createElement('figcaption');
        const name = document.createElement('b');
        name.textContent = unit ? `${title} (${unit})` : title;
        this.caption.append(name);
        for (const [color, text] of keys) {
            const key = document.createElement('span');
            key.className = 'key';
            key.style.background = `var(${color})`;
            this.caption.append(key, text);
        }
        this.value = document.createElement('output');
        this.caption.append(' ', this.value);
        this.element.append(this.caption, this.canvas);
        this.#listen();
    }

    color(name) { return getComputedStyle(document.documentElement).getPropertyValue(name); }
    x(time) { return LEFT + (this.width - LEFT - RIGHT) * (time - this.axis.from) / (this.axis.to - this.axis.from); }
    y(value) { return TOP + (this.height - TOP - BOTTOM) * (1 - (value - this.low) / (this.high - this.low || 1)); }
    timeAt(x) {
        const { from, to } = this.axis;
        return from + (to - from) * Math.min(1, Math.max(0, (x - LEFT) / (this.width - LEFT - RIGHT)));
    }
    get bottom() { return this.height - BOTTOM; }
    get inner() { return this.width - LEFT - RIGHT; }

    draw() {
        const ratio = devicePixelRatio || 1;
        this.width = this.canvas.clientWidth || 1100;
        this.canvas.width = this.width * ratio;
        this.canvas.height = this.height * ratio;
        this.canvas.style.height = `${this.height}px`;
        this.g = this.canvas.getContext('2d');
        this.g.scale(ratio, ratio);
        [this.low, this.high] = this.bounds();
        this.#grid();
        this.g.save();
        this.g.beginPath();
        this.g.rect(LEFT, 0, this.inner, this.bottom + 1);
        this.g.clip();
        this.paint(this);
        this.g.restore();
        this.plain = undefined;
        this.canvas.setAttribute('aria-label', `${this.title}. ${this.sum()}`);
        this.mark();
    }
    #grid() {
        const { g, axis, low, high } = this;
        g.font = '11px system-ui, sans-serif';
        g.fillStyle = this.color('--soft');
        g.strokeStyle = this.color('--grid');
        g.textAlign = 'right';
        g.beginPath();
        for (const value of this.marks ?? [low, (low + high) / 2, high]) {
            g.fillText(this.label ? this.label(value) : short(value), LEFT - 5, this.y(value) + 4);
            g.moveTo(LEFT, Math.round(this.y(value)) + 0.5);
            g.lineTo(this.width - RIGHT, Math.round(this.y(value)) + 0.5);
        }
        g.textAlign = 'center';
        const unit = 1e9, step = stepOf((axis.to - axis.from) / unit, Math.max(2, this.inner / 90));
        for (let at = Math.ceil(axis.from / unit / step) * step; at <= axis.to / unit; at += step) {
            const x = this.x(at * unit);
            const text = `${+at.toFixed(6)}${axis.isTimed ? ' s' : ''}`;
            if (x > LEFT + 12 && x < this.width - 24) g.fillText(text, x, this.height - 5);
            g.moveTo(Math.round(x) + 0.5, TOP);
            g.lineTo(Math.round(x) + 0.5, this.bottom);
        }
        g.stroke();
    }

    /** Draws the cursor, and what is dragged over, over the picture as it is. */
    mark() {
        const { g, axis } = this;
        if (!g) return;
        this.plain ??= this.#copy();
        g.save();
        g.setTransform(1, 0, 0, 1, 0, 0);
        g.drawImage(this.plain, 0, 0);
        g.restore();
        if (this.dragged) {
            g.fillStyle = this.color('--one');
            g.globalAlpha = 0.2;
            g.fillRect(this.x(this.dragged[0]), TOP, this.x(this.dragged[1]) - this.x(this.dragged[0]), this.bottom - TOP);
            g.globalAlpha = 1;
        }
        if (axis.cursor === undefined || axis.cursor < axis.from || axis.cursor > axis.to) {
            this.value.textContent = '';
            return;
        }
        g.fillStyle = this.color('--ink');
        g.fillRect(Math.round(this.x(axis.cursor)), TOP, 1, this.bottom - TOP);
        this.value.textContent = `at ${axis.text(axis.cursor)}: ${this.tell(axis.cursor)}`;
    }
    #copy() {
        const copy = document.createElement('canvas');
        copy.width = this.canvas.width;
        copy.height = this.canvas.height;
        copy.getContext('2d').drawImage(this.canvas, 0, 0);
        const { g } = this;
        g.save();
        g.setTransform(1, 0, 0, 1, 0, 0);
        g.globalCompositeOperation = 'copy';
        g.drawImage(copy, 0, 0);
        g.restore();
        return copy;
    }

    #listen() {
        const { canvas, axis } = this, time = event => this.timeAt(event.clientX - canvas.getBoundingClientRect().left);
        canvas.onpointerdown = event => {
            canvas.setPointerCapture(event.pointerId);
            this.dragged = [time(event), time(event)];
        };
        canvas.onpointermove = event => {
            if (this.dragged) this.dragged[1] = time(event);
            axis.point(time(event));
        };
        canvas.onpointerup = () => {
            const [from, to] = this.dragged ?? [0, 0];
            this.dragged = undefined;
            if (Math.abs(this.x(to) - this.x(from)) > 4) axis.show(from, to);
            else this.mark();
        };
        canvas.ondblclick = () => axis.showAll();
        canvas.onkeydown = event => {
            const step = (axis.to - axis.from) / (event.shiftKey ? 10 : 100);
            const here = axis.cursor ?? (axis.from + axis.to) / 2;
            const action = {
                ArrowLeft: () => axis.point(here - step), ArrowRight: () => axis.point(here + step),
                Home: () => axis.point(axis.from), End: () => axis.point(axis.to),
                '+': () => axis.zoom(0.5), '=': () => axis.zoom(0.5), '-': () => axis.zoom(2), Escape: () => axis.showAll(),
            }[event.key];
            if (!action) return;
            event.preventDefault();
            action();
        };
    }
}
