// The page: data in, selection, search, keys. Its parts are linked: what is selected in one is shown in all.

import { besideOf, differing } from './beside.js';
import { ByteMap } from './bytes.js';
import { asMermaid, Chart } from './chart.js';
import { byId, counted, html } from './elements.js';
import { finder, makeReady } from './find.js';
import { addWave, build, deviceAt, isWave } from './model.js';
import { commands, drawSweep, help, PANELS } from './panels.js';
import { acknowledgersOf, slotsOf } from './slots.js';
import { nearest, Strip, timeInAddress } from './strip.js';
import { asText, isAudit, isOfBytes, isOfFrames, isVerdict, kindOf, LIMITS, readDump } from './texts.js';
import { FINE, meaningOf, REMEDIES } from './words.js';
import { Wave, wavesHeight } from './wave.js';

const CHIPS = ['ack', 'ok', 'nack', 'refused', 'broken', 'poll', 'event'];
const FAILED = ['nack', 'refused', 'broken', 'failed'];
const COLOURS = ['ink', 'bg', 'dim', 'rule', 'low', 'ack', 'ok', 'nack', 'refused', 'broken', 'poll', 'event'];
const MOST_EXPORTED = 5000; // rows
const LATER = 1 << 20; // a wave of so many characters is read after the first picture
/** @type {(target: any) => boolean} */
const isInput = target => /^(INPUT|TEXTAREA|SELECT)$/.test(target.tagName);
const isFailed = row => FAILED.includes(row.cls) || (row.type === 'event' && row.o.verdict !== 'ok');

class App {
  model = build([]);
  texts = [];
  /* The run that stands beside this one. */
  other = null;
  /* What the page was made of: its readings, of which one is shown. */
  data = null;
  reading = 0;
  isReading = true;
  /* What stands in the chart's place until then. */
  waiting = 'The data is being read ..';
  isWaiting = false;
  selected = null;
  banded = null;
  hidden = new Set();
  unfolded = new Set();
  panel = 'selected';
  tableFrom = null;
  colours = {};
  exportedText = '';
  strip = null;
  chart = null;
  wave = null;
  map = null;
  mapBeside = null;
  quiet = 0;
  telling = 0;
  /* What else is to be done where a row is selected. */
  onSelect = () => {};

  constructor() {
    this.strip = new Strip(this, byId('strip'));
    this.chart = new Chart(this, byId('chart'), byId('heads'), byId('space'));
    this.wave = new Wave(this, byId('line'), byId('reading'));
    this.map = new ByteMap(this);
    this.mapBeside = new ByteMap(this, true);
  }

  /* Shows the data of a page. */
  async openData(data) {
    this.data = data;
    await this.openReading(data.first);
  }
  /* Shows one of the readings that are in the page: of a capture there is one for each flag that the program advises. */
  async openReading(index) {
    const { texts, readings, title } = this.data;
    const { texts: places } = readings[index];
    const parts = places.map((place, i) => ({ ...texts[place], ...(i === 0 ? { name: title || texts[place].name } : {}) }));
    const readOne = async part => ({ ...part, name: asText(part.name), text: await inflated(part) });
    const read = wanted => Promise.all(wanted.map(readOne));
    const waves = parts.filter(part => part.wave && part.size > LATER);
    this.reading = index;
    this.isWaiting = waves.length > 0;
    const first = await read(parts.filter(part => !waves.includes(part)));
    if (this.reading !== index) return; // another one was asked for meanwhile
    await this.load(first);
    if (index === 0) await this.readBeside();
    this.isWaiting = waves.length > 0;
    requestAnimationFrame(() => performance.mark('first picture'));
    if (waves.length > 0) await this.loadWaves(() => read(waves));
  }
  /* The run that stands beside this one, and both aligned, which is done once. */
  besideOf(model) {
    if (!model.beside) model.beside = besideOf(model, this.other);
    return model.beside;
  }
  async readBeside() {
    const index = this.data ? this.data.readings.findIndex(one => one.beside) : -1;
    if (index < 0) return;
    const { texts, readings } = this.data;
    const read = async place => ({ ...texts[place], text: await inflated(texts[place]) });
    const wanted = readings[index].texts.filter(place => !texts[place].wave);
    this.other = build(await Promise.all(wanted.map(read)));
    this.model.isBeside = true;
    this.panel = 'beside';
    const { pairs } = this.besideOf(this.model);
    if (this.model.edid && this.other.edid) {
      this.mapBeside.show(this.other.edid);
      [this.map, this.mapBeside].forEach((map, which) => {
        const bytes = differing(pairs, which);
        map.mark('differs', at => bytes.has(at));
      });
      this.drawPanel();
      return;
    }
    const first = pairs.find(([one, other]) => one && !other);
    if (first) this.select(first[0], { keepsPanel: true });
    this.drawPanel();
  }
  /* Of a sweep the page has the run of the first instant of each stretch. */
  readingOf(instant) {
    return this.data ? this.data.readings.findIndex(one => one.instant === instant) : -1;
  }
  hasInstant(instant) {
    return this.readingOf(instant) >= 0;
  }
  openInstant(instant) {
    const index = this.readingOf(instant);
    if (index >= 0) this.openReading(index);
    else this.say('the run of this instant is not in this page');
  }
  /* What the program says for the user, and what else the capture may be read with. */
  showBanner() {
    const readings = this.data ? this.data.readings : [];
    const none = { frames: 0, flags: '', said: [], hints: [], instant: null };
    const { frames, flags, said, hints, instant } = readings[this.reading] || none;
    const inWords = one => (one.flags ? `with ${one.flags}` : 'as it is');
    const more = one => {
      const difference = one.frames - frames;
      return `${counted(Math.abs(difference), 'frame')} ${difference < 0 ? 'fewer' : 'more'}`;
    };
    const button = index => html(
      'button', { click: () => this.openReading(index) }, `Read ${inWords(readings[index])}: ${more(readings[index])}`,
    );
    const says = ({ text }) => `The program says: ${text}. `;
    const from = readings.findIndex(one => one.said.some(line => line.readings.includes(this.reading)));
    const why = from < 0 ? null : readings[from].said.find(line => line.readings.includes(this.reading));
    const isInstant = Number.isFinite(instant);
    // A line of the program below the verdict may advise the same.
    const isBelow = index => said.some(line => line.readings.includes(index));
    const verdict = this.model.verdict && this.verdictLine(hints.filter(index => !isBelow(index)).map(button));
    const lines = [
      verdict,
      isInstant && html('p', {}, html('b', {}, `The run at ${instant} µs of the sweep. `),
        html('button', { click: () => this.openReading(0) }, 'The whole sweep')),
      this.reading !== 0 && !isInstant && html(
        'p', {}, html('b', {}, `Read with ${flags}. `), why && says(why), button(Math.max(from, 0))),
      said.map(line => html('p', {}, says(line), line.readings.filter(index => index !== this.reading).map(button))),
    ];
    const banner = byId('banner');
    banner.replaceChildren(html('div', {}, lines));
    const isAlone = this.reading === 0 && said.length === 0;
    banner.hidden = !verdict && isAlone;
    banner.classList.toggle('calm', isAlone && Boolean(verdict) && FINE.includes(this.model.verdict.word));
  }
  /* What the program says of a capture as a whole, with buttons for the reading that its flag gives, or with that flag. */
  verdictLine(buttons) {
    const { word, line, hint, value } = this.model.verdict;
    const isFine = FINE.includes(word);
    const says = line.replace(`verdict ${word}: `, '');
    const asked = [hint, value].filter(Boolean).join(' ');
    const isRead = !hint || buttons.length > 0 || this.data;
    return html(
      'p', { class: `verdict ${isFine ? 'fine' : 'wrong'}` }, html('b', {}, `${isFine ? '✓' : '⚠'} ${word}: `), `${says}. `,
      REMEDIES[word], buttons, !isRead && html('code', {}, `mon ${asked}`),
    );
  }

  /* Takes texts in the place of those that are there, or beside them. A long wave is added after the first picture. */
  async load(texts, isMore = false) {
    this.texts = isMore ? [...this.texts, ...texts] : texts;
    const loaded = this.texts;
    const later = loaded.filter(({ text }) => text.length > LATER && isWave(text));
    this.isWaiting = later.length > 0;
    this.show(loaded.filter(one => !later.includes(one)));
    if (later.length > 0) await this.loadWaves(async () => later);
  }
  /* Adds waves once the page was drawn. */
  async loadWaves(read) {
    const loaded = this.texts;
    this.isWaiting = true;
    this.wave.drawSoon();
    await new Promise(painted => requestAnimationFrame(() => setTimeout(painted)));
    const waves = await read();
    if (loaded !== this.texts) return; // others were loaded meanwhile
    for (const one of waves) if (!loaded.includes(one)) loaded.push(one);
    for (const one of waves) addWave(this.model, one);
    this.isWaiting = false;
    this.showWave();
    this.drawStrip(true);
    this.drawPanel();
  }
  show(texts) {
    this.isReading = false;
    this.selected = this.banded = this.tableFrom = null;
    this.unfolded.clear();
    try {
      this.model = build(texts);
    } catch (fault) {
      this.model = build([]);
      this.model.faults.push(`this data cannot be read: ${fault.message}`);
    }
    const { model } = this;
    byId('title').textContent = model.title || 'hdminet';
    document.title = model.title ? `${model.title} · hdminet` : 'hdminet';
    byId('counts').textContent = this.countsText();
    this.showBanner();
    this.panel = this.firstPanel();
    const isEmpty = model.rounds.length === 0 && !model.wave && !this.isWaiting;
    for (const id of ['wave', 'wave-bar', 'strip']) byId(id).hidden = isEmpty;
    this.map.show(model.edid);
    const { isOfEdid } = this;
    document.body.classList.toggle('edid', isOfEdid);
    document.body.classList.toggle('bare', texts.length === 0);
    byId('chart').hidden = isOfEdid;
    byId('bytes').hidden = !isOfEdid;
    byId('bytes').replaceChildren(...(isOfEdid ? [this.map.root] : []));
    this.filter();
    this.showWave();
    const isThere = model.rows.length > 0 || isOfEdid;
    setTimeout(() => makeReady(model), 100);
    const failure = model.tests.find(test => !test.holds);
    if (failure) this.showTest(failure);
    else this.drawPanel();
    if (isThere) this.goToAddress();
  }
  /* Whether the map of an EDID's bytes stands in the place of the chart. */
  get isOfEdid() {
    const { edid, rows, tests, stretches } = this.model;
    return Boolean(edid) && rows.length + tests.length + stretches.length === 0;
  }
  countsText() {
    const { rounds, tests, faults, edid, findings } = this.model;
    const ofEdid = edid && [counted(edid.bytes.length, 'byte'), counted(findings.length, 'broken rule')].join(', ');
    if (edid && rounds.length === 0) return ofEdid;
    if (rounds.length === 0 && tests.length === 0) return '';
    const failed = tests.filter(test => !test.holds).length;
    const all = counted(tests.length, 'test');
    return [
      counted(rounds.length, 'round'), tests.length > 0 && (failed > 0 ? `${failed} of ${all} failed` : `${all}, none failed`),
      faults.length > 0 && counted(faults.length, 'note'),
    ].filter(Boolean).join(', ');
  }
  firstPanel() {
    const { tests, stretches, faults, rows, meanings, edid } = this.model;
    if (tests.length > 0 || stretches.length > 0) return 'report';
    if (edid && rows.length === 0) return 'edids';
    if (faults.length > 0 && rows.length === 0) return 'notes';
    return rows.length > 0 ? 'look' : meanings.length > 0 ? 'edids' : 'selected';
  }
  /* The wave as high as its wires ask for, at what is selected or at the first rounds. */
  showWave() {
    const { model, wave, selected } = this;
    const height = model.wave ? Math.min(wavesHeight(wave.wires.length), innerHeight * 0.42) : 118;
    byId('wave').style.height = `${height}px`;
    wave.cursors = [null, null];
    const first = model.rounds[0];
    if (selected && selected.type === 'round') wave.showRound(selected.o);
    else if (first && model.wave) wave.see(first.begin - 5000, first.begin + 400000);
    else wave.showAll();
  }
  async loadFiles(files) {
    const isCut = file => file.size > LIMITS.text;
    const readOne = async file => ({ name: file.name, text: await readFile(file), isCut: isCut(file) });
    const texts = await Promise.all([...files].map(readOne));
    if (texts.length > 0) await this.loadGiven(texts);
  }
  /* Objects are a new run, and bytes another EDID where there is one. Anything else is added to what is there, also the audit of
     a run's line, what frames mean and the fields of an EDID. */
  loadGiven(texts) {
    this.data = null;
    this.reading = 0;
    const isRun = this.model.rounds.length > 0 && !this.model.isCapture;
    const isAdded = text => kindOf(text) !== 'objects' || isOfBytes(text) || isOfFrames(text);
    const isMore = ({ text }) => isAdded(text) || isVerdict(text) || (isRun && isAudit(text));
    const isAnother = this.model.bytes.length > 0 && texts.some(({ text }) => kindOf(text) === 'bytes');
    return this.load(texts, this.texts.length > 0 && !isAnother && texts.every(isMore));
  }
  loadPasted(text) {
    if (text.trim()) this.loadGiven([{ name: 'pasted', text }]);
  }

  /* Which rows are shown: those that the search finds, whose chip is on; attempts that failed alike and bad starts are folded. */
  filter() {
    const isFound = finder(this.model, byId('search').value);
    const rows = [];
    for (const row of this.model.rows) {
      row.folded = row.into = null;
      if (this.hidden.has(row.cls) && row.type !== 'test') continue;
      if (isFound && !isFound(row)) continue;
      const last = rows[rows.length - 1];
      if (!isFound && last && this.isFoldedInto(row, last)) {
        last.folded = last.folded || [last];
        last.folded.push(row);
        row.into = last;
      } else {
        rows.push(row);
      }
    }
    this.chart.show(rows);
    this.map.search(byId('search').value);
    if (this.selected) this.chart.reveal(this.selected);
    this.drawStrip(true);
    if (this.panel === 'table') this.openTable(null);
    else if (this.panel === 'edids') this.drawPanel();
  }
  isFoldedInto(row, last) {
    if (row.type !== 'round' || last.type !== 'round' || this.unfolded.has(row.first)) return false;
    const isOfKind = row.cls === 'nack' || row.cls === 'refused' || row.o.ending === 'bad-start';
    return row.first === last.first && row.cls === last.cls && isOfKind;
  }
  searchFor(text) {
    byId('search').value = text;
    this.filter();
  }

  /* What a device sends; what it is sent, where that is shown; and then all. */
  searchForLane(name) {
    const now = byId('search').value;
    this.searchFor(now === `from:${name}` ? `to:${name}` : now === `to:${name}` ? '' : `from:${name}`);
  }

  select(row, { keepsWave = false, keepsPanel = false } = {}) {
    if (row.into) {
      this.unfolded.add(row.first);
      this.filter();
    }
    if (this.chart.shown[row.place] !== row) {
      byId('search').value = '';
      this.hidden.clear();
      this.filter();
    }
    this.selected = row;
    if (!keepsPanel && !(this.panel === 'report' && this.banded) && this.panel !== 'room') this.panel = 'selected';
    this.chart.reveal(row);
    this.chart.draw();
    this.chart.mark(row);
    byId('chart').setAttribute('aria-activedescendant', `row${row.index}`);
    if (!keepsWave && this.model.wave) {
      if (row.type === 'round') this.wave.showRound(row.o);
      else this.wave.see(row.at - 60000, (row.until ?? row.at) + 60000);
    }
    this.wave.drawSoon();
    this.tellAddress();
    this.onSelect();
    if (!keepsPanel || this.panel === 'room') this.drawPanel();
  }
  /* Unfolds or folds attempts, or shows the wave of a round. */
  toggle(row) {
    const { first } = row;
    if (row.folded || this.unfolded.has(first)) {
      if (!this.unfolded.delete(first)) this.unfolded.add(first);
      this.filter();
      this.chart.draw();
    } else if (row.type === 'round') {
      this.wave.showRound(row.o);
    }
  }
  /* Marks the window of a test, and selects what was seen. */
  showTest(test) {
    this.banded = test;
    this.chart.drawn = null;
    this.panel = 'report';
    const { rows } = this.model;
    const { window } = test;
    const isWindow = window && window.from !== null;
    const seen = test.rows[0] || test.event || rows.find(one => one.test === test);
    const row = seen || rows.find(one => isWindow && one.at >= window.from);
    if (row) this.select(row);
    else this.drawPanel();
    if (isWindow && this.model.wave) this.wave.see(window.from - 20000, window.to + 20000);
  }
  isBanded(row) {
    const test = this.banded;
    if (!test) return false;
    const { window } = test;
    const isWindow = window && window.from !== null && row.type === 'round';
    return row === test.event || test.rows.includes(row) || (isWindow && row.at >= window.from && row.until <= window.to);
  }
  openPanel(name) {
    this.panel = name;
    this.tableFrom = null;
    this.drawPanel();
  }
  openTable(from) {
    this.tableFrom = from;
    this.drawPanel();
  }

  /* Draws what is neither chart nor wave. */
  drawPanel() {
    const { model } = this;
    const focused = document.activeElement && document.activeElement.closest('#tabs, #chips') ? document.activeElement.id : '';
    const tab = ([name, panel]) => html('button', {
      id: `tab-${name}`, role: 'tab', 'aria-selected': String(name === this.panel), 'aria-controls': 'panel',
      tabindex: name === this.panel ? 0 : -1,
      click: () => this.openPanel(name),
    }, panel.name);
    byId('tabs').replaceChildren(...Object.entries(PANELS).filter(([, panel]) => panel.isThere(model)).map(tab));
    const { rows, faults, tests, stretches, meanings, findings } = model;
    const isEmpty = !model.edid && [rows, faults, tests, stretches, meanings, findings].every(list => list.length === 0);
    const content = isEmpty ? [html('p', { class: 'dim' }, 'No data yet.')] : PANELS[this.panel].draw(this, model);
    byId('panel').replaceChildren(html('div', {}, content));
    const counts = new Map();
    for (const { cls } of model.rows) counts.set(cls, (counts.get(cls) || 0) + 1);
    const chip = cls => html('button', {
      id: `chip-${cls}`, class: `chip ${cls}`, 'aria-pressed': String(!this.hidden.has(cls)), click: () => this.toggleChip(cls),
    }, `${cls} ${counts.get(cls)}`);
    byId('chips').replaceChildren(...CHIPS.filter(cls => counts.get(cls)).map(chip));
    if (focused && byId(focused)) byId(focused).focus();
  }
  toggleChip(cls) {
    if (!this.hidden.delete(cls)) this.hidden.add(cls);
    this.filter();
    this.drawPanel();
  }
  /* What stands where no row is shown. */
  whatElse() {
    const { rows, stretches, tests, meanings } = this.model;
    if (rows.length > 0) return html('p', { class: 'empty dim' }, 'No row meets the search.');
    if (this.isReading) return html('p', { class: 'empty dim' }, this.waiting);
    if (stretches.length > 0) return html('div', { class: 'empty' }, drawSweep(this, this.model));
    if (tests.length > 0 || meanings.length > 0) return html('p', { class: 'empty dim' }, 'No rounds: the data is at the right.');
    return html(
      'div', { class: 'empty' },
      html('h2', {}, 'Look at a run, a capture or a report of hdminet'),
      html('p', {}, 'Drop files here, press ', html('kbd', {}, 'o'), ' to open or paste, or make a page with its data in it:'),
      html('pre', {}, 'tools/look x.net\ntools/look x.test\ntools/look capture.vcd'),
      html('p', {}, 'Files that it reads, several at a time:'), commands(),
    );
  }

  /* The whole run in one strip. The rows in sight and the wave's part are marked. */
  drawStrip(isChanged) {
    if (this.strip) this.strip.drawSoon(isChanged);
  }
  /* Selects the row that is nearest to a part of the whole; idle time is none. */
  selectAt(part) {
    this.goToTime(part * this.model.end);
  }
  goToTime(instant) {
    const row = nearest(this.chart.shown.filter(one => one.type !== 'gap'), instant);
    if (row) this.select(row);
  }
  /* The selected moment stands in the page's address, to share it: `#t=1.068400&sel=5`; of an EDID the byte, `#byte=134`. */
  tellAddress() {
    clearTimeout(this.telling);
    const { selected, map } = this;
    const ofByte = map.at === null ? '' : `#byte=${map.at}`;
    const address = selected ? `#t=${timeInAddress(selected)}&sel=${selected.index}` : ofByte;
    if (!address) return;
    this.telling = setTimeout(() => {
      try {
        history.replaceState(null, '', address);
      } catch {
        // a browser that does not let a file have an address of its own
      }
    }, 300);
  }
  /* Goes to the moment that the address names, and says whether it names one. */
  goToAddress() {
    const byte = /^#byte=(\d+)$/.exec(location.hash);
    if (byte) this.map.select(Number(byte[1]), { isFocused: false });
    const found = /^#t=(\d+(?:\.\d+)?)(?:&sel=(\d+))?$/.exec(location.hash);
    if (!found) return false;
    const row = this.model.rows[Number(found[2])];
    if (row && timeInAddress(row) === found[1]) this.select(row);
    else this.goToTime(Number(found[1]) * 1e6);
    return true;
  }
  askForTime() {
    const how = { type: 'text', inputmode: 'decimal', 'aria-label': 'Seconds', placeholder: 'seconds, as 3.127' };
    const field = html('input', how);
    const go = () => {
      const time = Number(field.value.trim());
      byId('dialog').close();
      byId('chart').focus();
      if (field.value.trim() !== '' && Number.isFinite(time)) this.goToTime(time * 1e6);
      else this.say('no time in seconds');
    };
    field.addEventListener('keydown', event => event.key === 'Enter' && go());
    this.showDialog(html('h2', {}, 'Go to a time'), html('p', {}, field, ' ', html('button', { click: go }, 'Go')));
    field.focus();
  }

  setTheme(name) {
    const root = document.documentElement;
    root.dataset.theme = name || (root.dataset.theme === 'dark' ? 'light' : 'dark');
    const style = getComputedStyle(root);
    for (const colour of COLOURS) this.colours[colour] = style.getPropertyValue(`--${colour}`).trim();
    this.colours.idle = this.colours.dim;
    this.colours.failed = this.colours.broken;
    this.drawStrip(true);
    this.wave.drawSoon();
  }

  hasNoPicture() {
    const { length } = this.chart.shown;
    if (length === 0) this.say('no rows for a picture');
    if (length > MOST_EXPORTED) this.say(`${length} rows are too many for a picture: search first, up to ${MOST_EXPORTED}.`);
    return length === 0 || length > MOST_EXPORTED;
  }
  /* The rows shown as one SVG, in the colours of the page. */
  exportSvg() {
    if (this.hasNoPicture()) return;
    const rules = [...document.styleSheets].flatMap(sheet => [...sheet.cssRules]).map(rule => rule.cssText);
    const isDark = document.documentElement.dataset.theme === 'dark';
    const colours = rules.find(rule => rule.startsWith(isDark ? ':root[data-theme' : ':root {')).replace(/^[^{]*/, 'svg ');
    const ofChart = rules.filter(rule => rule.includes('chart') && !/^[#@]/.test(rule));
    const before = [this.selected, this.banded];
    this.selected = this.banded = null;
    const picture = this.chart.exported([colours, 'text { font-family: monospace }', ...ofChart].join('\n'));
    [this.selected, this.banded] = before;
    this.exportedText = new XMLSerializer().serializeToString(picture);
    const url = URL.createObjectURL(new Blob([this.exportedText], { type: 'image/svg+xml' }));
    html('a', { href: url, download: `${(this.model.title || 'chart').replace(/\W+/g, '-')}.svg` }).click();
    setTimeout(() => URL.revokeObjectURL(url), 1000);
    this.say(`${this.chart.shown.length} rows as SVG, ${Math.ceil(this.exportedText.length / 1024)} KiB`);
  }
  copyMermaid() {
    if (this.hasNoPicture()) return;
    this.exportedText = asMermaid(this.model, this.chart.shown);
    this.copy(this.exportedText);
  }
  copy(text) {
    const failed = () => this.showDialog(html('p', {}, 'Copy this:'), html('pre', {}, text));
    if (navigator.clipboard) navigator.clipboard.writeText(text).then(() => this.say('copied'), failed);
    else failed();
  }
  say(text) {
    const status = byId('status');
    status.textContent = text;
    status.classList.add('on');
    clearTimeout(this.quiet);
    this.quiet = setTimeout(() => status.classList.remove('on'), 2500);
  }
  showDialog(...content) {
    const close = html('button', { class: 'close', click: () => byId('dialog').close() }, 'Close');
    byId('dialog').replaceChildren(html('div', {}, close, content));
    byId('dialog').showModal();
  }
  showHelp() {
    this.showDialog(help());
  }
  showOpen() {
    const area = html('textarea', { placeholder: 'or paste here', 'aria-label': 'Pasted data' });
    const see = () => {
      byId('dialog').close();
      this.loadPasted(area.value);
    };
    this.showDialog(
      html('h2', {}, 'Open'),
      html('p', {}, html('button', { click: () => byId('file').click() }, 'Choose files ..'),
        ' several at a time: objects of the run, its dump, its room'),
      area, html('p', {}, html('button', { click: see }, 'See what is pasted')), commands(),
    );
  }

  /* Keys of the page. Those of the wave are its own. */
  key(event) {
    const { target } = event;
    if (target.id === 'search' && event.key === 'Escape') {
      this.searchFor('');
      byId('chart').focus();
      return;
    }
    if (target.id === 'search' && event.key === 'Enter') {
      byId('chart').focus();
      if (this.chart.shown[0]) this.select(this.chart.shown[0]);
      return;
    }
    if (event.ctrlKey && event.key === 'g') {
      event.preventDefault();
      this.askForTime();
      return;
    }
    if (isInput(target) || event.ctrlKey || event.metaKey || event.altKey || byId('dialog').open) return;
    const isOfChart = /^(BODY|SECTION)$/.test(target.tagName);
    if (isOfChart && this.isOfEdid) this.map.key(event);
    if (event.defaultPrevented) return;
    const isOfTabs = target.getAttribute('role') === 'tab';
    const keys = { ...this.pageKeys(), ...(isOfChart ? this.chartKeys() : {}), ...(isOfTabs ? this.tabKeys() : {}) };
    if (!Object.hasOwn(keys, event.key)) return;
    keys[event.key]();
    event.preventDefault();
  }
  pageKeys() {
    return {
      '/': () => byId('search').focus(),
      '?': () => this.showHelp(),
      g: () => this.askForTime(),
      o: () => this.showOpen(),
      e: () => this.exportSvg(),
      m: () => this.copyMermaid(),
      t: () => this.setTheme(),
      w: () => byId('line').focus(),
      c: () => (this.isOfEdid ? this.map.focus() : byId('chart').focus()),
      n: () => (this.isOfEdid ? this.map.next(1) : this.goToFailed(1)),
      N: () => (this.isOfEdid ? this.map.next(-1) : this.goToFailed(-1)),
    };
  }
  chartKeys() {
    const page = Math.max(Math.floor(byId('chart').clientHeight / 36), 1);
    return {
      ArrowDown: () => this.goTo(this.place + 1),
      ArrowUp: () => this.goTo(this.place - 1),
      PageDown: () => this.goTo(this.place + page),
      PageUp: () => this.goTo(this.place - page),
      Home: () => this.goTo(0),
      End: () => this.goTo(this.chart.shown.length - 1),
      Enter: () => this.selected && this.toggle(this.selected),
    };
  }
  /* Between the tabs of the side panel. */
  tabKeys() {
    const tabs = [...byId('tabs').children];
    const at = tabs.indexOf(document.activeElement);
    const go = place => {
      const { id } = tabs[(place + tabs.length) % tabs.length];
      byId(id).click();
      byId(id).focus();
    };
    return { ArrowRight: () => go(at + 1), ArrowLeft: () => go(at - 1), Home: () => go(0), End: () => go(tabs.length - 1) };
  }
  /* The place of the selected row among those that are shown. */
  get place() {
    return this.selected && this.chart.shown[this.selected.place] === this.selected ? this.selected.place : -1;
  }
  goTo(place) {
    const { shown } = this.chart;
    if (shown.length > 0) this.select(shown[Math.min(Math.max(place, 0), shown.length - 1)]);
  }
  goToFailed(way) {
    const { shown } = this.chart;
    for (let i = this.place + way; i >= 0 && i < shown.length; i += way) {
      if (!isFailed(shown[i])) continue;
      this.goTo(i);
      return;
    }
    this.say('no further one');
  }
}

/* The text of a file, or the begin of one that is too long; of an EDID that is bytes these in hex. */
async function readFile(file) {
  const bytes = new Uint8Array(await file.slice(0, LIMITS.text).arrayBuffer());
  const isEdid = [0, 255, 255, 255, 255, 255, 255, 0].every((byte, i) => bytes[i] === byte);
  return isEdid ? [...bytes].map(byte => byte.toString(16).padStart(2, '0')).join('') : new TextDecoder().decode(bytes);
}

/* A bar between two parts, moved by the mouse or by arrow keys. */
function makeBar(bar, isVertical, size, resize) {
  const place = event => (isVertical ? event.clientX : event.clientY);
  const tell = value => bar.setAttribute('aria-valuenow', String(Math.round(value)));
  const set = value => {
    resize(Math.max(value, 60));
    tell(Math.max(value, 60));
  };
  bar.setAttribute('aria-valuemin', '60');
  tell(size());
  bar.addEventListener('pointerdown', down => {
    bar.setPointerCapture(down.pointerId);
    const before = size();
    bar.onpointermove = event => set(before + place(down) - place(event));
  });
  bar.addEventListener('pointerup', () => {
    bar.onpointermove = null;
  });
  bar.addEventListener('keydown', event => {
    const way = { ArrowLeft: 20, ArrowUp: 20, ArrowRight: -20, ArrowDown: -20 }[event.key];
    if (!way) return;
    set(size() + way);
    event.preventDefault();
    event.stopPropagation();
  });
}

/* The text of a part that tools/page put in: base64 of zlib, or as it is. */
async function inflated({ deflated, text }) {
  if (text !== undefined) return text;
  const packed = atob(deflated);
  const bytes = new Uint8Array(packed.length);
  for (let i = 0; i < packed.length; i++) bytes[i] = packed.charCodeAt(i);
  return new Response(new Blob([bytes]).stream().pipeThrough(new DecompressionStream('deflate'))).text();
}
async function loadEmbedded(app) {
  app.data = JSON.parse(byId('data').textContent);
  if (app.data) await app.openData(app.data);
  else await app.load([]);
  requestAnimationFrame(() => performance.mark('first picture'));
  performance.mark('loaded');
}

function listen(app) {
  const onClick = (id, act) => byId(id).addEventListener('click', act);
  onClick('open', () => app.showOpen());
  onClick('export', () => app.exportSvg());
  onClick('mermaid', () => app.copyMermaid());
  onClick('theme', () => app.setTheme());
  onClick('help', () => app.showHelp());
  byId('search').addEventListener('input', () => app.filter());
  byId('file').addEventListener('change', (/** @type {any} */ event) => {
    byId('dialog').close();
    app.loadFiles(event.target.files);
    event.target.value = '';
  });
  document.addEventListener('keydown', event => app.key(event));
  window.addEventListener('hashchange', () => app.goToAddress());
  window.addEventListener('beforeprint', () => app.chart.print());
  window.addEventListener('afterprint', () => app.chart.drawAnew());
  document.addEventListener('paste', event => {
    if (!isInput(event.target)) app.loadPasted(event.clipboardData.getData('text'));
  });
  for (const kind of ['dragenter', 'dragover', 'dragleave', 'drop']) {
    document.addEventListener(kind, (/** @type {any} */ event) => {
      event.preventDefault();
      byId('drop').hidden = kind === 'drop' || (kind === 'dragleave' && !event.relatedTarget);
      if (kind === 'drop') app.loadFiles(event.dataTransfer.files);
    });
  }
  const side = document.querySelector('aside');
  makeBar(byId('side-bar'), true, () => side.offsetWidth, width => {
    side.style.width = `${width}px`;
  });
  makeBar(byId('wave-bar'), false, () => byId('wave').offsetHeight, height => {
    byId('wave').style.height = `${height}px`;
  });
}

export const app = new App();
app.setTheme(matchMedia('(prefers-color-scheme: dark)').matches ? 'dark' : 'light');
listen(app);
loadEmbedded(app).catch(fault => {
  app.show([]);
  app.say(`the data of this page cannot be read: ${fault.message}`);
});
/* For the console of the browser, and for tests. */
window.hdminet = { app, PANELS, REMEDIES, acknowledgersOf, deviceAt, kindOf, LIMITS, meaningOf, readDump, slotsOf };
