// The strip: the whole run in one line. Each verdict has its place and height there beside its colour; below are times.

import { seconds } from './elements.js';
import { lowerBound } from './texts.js';

const HEIGHT = 46;
const AXIS = 34; // where the times begin
/* What is drawn last, so that it is never hidden. */
const RANKS = { __proto__: null, event: 2, nack: 3, refused: 4, broken: 5, failed: 5 };
/* From where to where a round of a class is drawn. */
const SHAPES = {
  __proto__: null, ack: [11, 25], ok: [11, 25], nack: [17, 25], refused: [11, 19], broken: [7, 29], poll: [16, 20],
  idle: [17, 19],
};
const LEAST_MOVE = 4; // pixels from which on a press is a drag

/* Steps of an axis that are at least so wide. */
export function stepOf(wanted) {
  const power = Math.pow(10, Math.floor(Math.log10(wanted)));
  return [1, 2, 5, 10].map(k => k * power).find(k => k >= wanted);
}
/* A time of an axis, with as many decimals as its steps ask for. */
const shortSeconds = (microseconds, step) =>
  (microseconds / 1e6).toFixed(Math.min(Math.max(Math.ceil(-Math.log10(step / 1e6) - 1e-9), 0), 6));

export class Strip {
  /* The rows, drawn once; where a press began. */
  picture = null;
  pressed = null;
  hasMoved = false;
  isOld = true;
  due = 0;

  constructor(app, canvas) {
    this.app = app;
    this.canvas = canvas;
    canvas.addEventListener('click', event => this.click(event));
    canvas.addEventListener('pointerdown', event => {
      canvas.setPointerCapture(event.pointerId);
      this.pressed = event.offsetX;
      this.hasMoved = false;
    });
    canvas.addEventListener('pointermove', event => this.move(event));
    for (const kind of ['pointerup', 'pointercancel']) {
      canvas.addEventListener(kind, () => {
        this.pressed = null;
      });
    }
  }
  get width() {
    return this.canvas.clientWidth;
  }
  x(instant) {
    return (instant / this.app.model.end) * this.width;
  }
  timeAt(x) {
    return (x / this.width) * this.app.model.end;
  }
  click(event) {
    if (!this.hasMoved) this.app.selectAt(event.offsetX / this.width);
    this.hasMoved = false;
  }
  /* The window of the rows in sight goes where the mouse drags it. */
  move(event) {
    if (this.pressed === null) return;
    if (Math.abs(event.offsetX - this.pressed) > LEAST_MOVE) this.hasMoved = true;
    if (this.hasMoved) this.app.chart.showTime(this.timeAt(event.offsetX));
  }

  /* Draws with the next picture of the browser, however often it was asked for. */
  drawSoon(isChanged) {
    this.isOld ||= isChanged;
    if (this.due) return;
    this.due = requestAnimationFrame(() => {
      this.due = 0;
      this.draw();
    });
  }
  draw() {
    const { canvas, app, width } = this;
    const { chart, model, colours, wave } = app;
    const scale = devicePixelRatio || 1;
    if (!width || !chart) return;
    const pixels = Math.max(Math.round(width * scale), 1);
    const isChanged = this.isOld;
    this.isOld = false;
    if (isChanged || !this.picture || this.picture.width !== pixels) this.picture = this.whole(pixels, scale);
    const pen = canvas.getContext('2d');
    canvas.width = this.picture.width;
    canvas.height = this.picture.height;
    pen.drawImage(this.picture, 0, 0);
    pen.scale(scale, scale);
    const [first, last] = chart.sight().map(i => chart.shown[i]);
    if (first) {
      const from = this.x(first.at);
      const size = Math.max(this.x(last.until ?? last.at) - from, 3);
      pen.strokeStyle = pen.fillStyle = colours.ink;
      pen.globalAlpha = 0.1;
      pen.fillRect(from, 0, size, AXIS);
      pen.globalAlpha = 0.6;
      pen.strokeRect(from + 0.5, 0.5, size - 1, AXIS - 1);
      pen.globalAlpha = 1;
    }
    if (!model.wave) return;
    const from = this.x(Math.max(wave.from, 0));
    pen.fillStyle = colours.ok;
    pen.fillRect(from, AXIS - 4, Math.max(this.x(wave.to) - from, 3), 4);
  }
  /* All rows, the more remarkable ones above the others; of those that are narrower than a pixel one is enough. */
  whole(pixels, scale) {
    const picture = new OffscreenCanvas(pixels, Math.round(HEIGHT * scale));
    const pen = picture.getContext('2d');
    pen.scale(scale, scale);
    const byRank = [[], [], [], [], [], []];
    for (const row of this.app.chart.shown) {
      if (row.type !== 'gap' && row.type !== 'end') byRank[RANKS[row.cls] || 0].push(row);
    }
    for (const rows of byRank) this.drawRows(pen, rows);
    this.drawAxis(pen);
    return picture;
  }
  drawRows(pen, rows) {
    const { colours, model } = this.app;
    const scale = this.width / model.end;
    const drawn = { __proto__: null }; // by class up to where
    for (const row of rows) {
      const from = row.at * scale;
      const to = Math.max((row.until ?? row.at) * scale, from + 1);
      if (to <= drawn[row.cls]) continue;
      drawn[row.cls] = Math.ceil(to);
      pen.fillStyle = colours[row.cls] || colours.dim;
      const [top, bottom] = SHAPES[row.cls] || SHAPES.idle;
      if (row.type === 'event') pen.fillRect(from - 1, 0, 2, 8);
      else if (row.type === 'test') pen.fillRect(from - 1, 0, 3, AXIS);
      else pen.fillRect(from, top, to - from, bottom - top);
    }
  }
  drawAxis(pen) {
    const { app, width } = this;
    const step = stepOf((app.model.end / width) * 90);
    pen.fillStyle = app.colours.dim;
    pen.font = '10px "DejaVu Sans Mono", monospace';
    pen.textBaseline = 'middle';
    for (let t = 0; t <= app.model.end; t += step) {
      const x = Math.round(this.x(t));
      pen.fillRect(x, AXIS - 4, 1, 4);
      const text = shortSeconds(t, step);
      if (x + 3 + text.length * 6.1 < width) pen.fillText(text, x + 3, AXIS + 7);
    }
  }
}

/* The place of the row that is nearest to an instant among rows without idle time. */
export function nearest(rows, instant) {
  const after = lowerBound(rows, instant, row => row.at);
  const distance = row => Math.max(row.at - instant, instant - (row.until ?? row.at), 0);
  return rows.slice(Math.max(after - 1, 0), after + 1).sort((a, b) => distance(a) - distance(b))[0] || null;
}
/* A time in seconds as the page displays it. */
export const timeInAddress = row => seconds(row.at);
