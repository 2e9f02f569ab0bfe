/** A text in which marks can be put: what one types, over what is painted. */
import { placesOf, placesWith, lineAndColumn, MOST_MARKED } from './texts.mjs';

/** A text as one may put it into HTML. */
export const escaped = (text) => text.replace(/[&<>"]/g, (sign) => ({ '&': '&amp;', '<': '&lt;', '>': '&gt;', '"': '&quot;' })[sign]);

/**
 * One of the programs: its name in calls, what it is called on the page, its text, and where its parts stand.
 *
 * @typedef {{from: number, to: number, classes: string, title?: string}} Mark
 */
export class Editor {
  /**
   * @param {{key: string, title: string, hue: string, isShown?: boolean}} about `hue` is the class of its colour
   * @param {{typed: (editor: Editor) => void, moved: (editor: Editor) => void, removed?: (editor: Editor) => void}} events
   */
  constructor({ key, title, hue, isShown = false }, events) {
    this.key = key;
    this.title = title;
    this.hue = hue;
    this.canonical = null;
    this.wrong = null;
    this.places = { parts: [], finals: [] };
    this.#build(isShown, events);
  }

  #build(isShown, { typed, moved, removed }) {
    this.root = document.createElement('section');
    this.root.className = `editor ${this.hue}`;
    this.root.innerHTML =
      `<header><label for="text-${this.key}">${escaped(this.title)}</label><span class="note" id="note-${this.key}"></span></header>` +
      `<div class="box"><pre class="gutter" aria-hidden="true"></pre><pre class="paint" aria-hidden="true"></pre>` +
      `<textarea id="text-${this.key}" spellcheck="false" autocapitalize="off" autocomplete="off" wrap="off" aria-describedby="note-${this.key}"></textarea></div>`;
    [this.gutter, this.paint] = this.root.querySelectorAll('pre');
    this.area = this.root.querySelector('textarea');
    this.note = this.root.querySelector('.note');
    this.area.readOnly = isShown;
    this.area.addEventListener('input', () => typed(this));
    this.area.addEventListener('scroll', () => this.#scrolled());
    for (const event of ['click', 'keyup', 'focus']) {
      this.area.addEventListener(event, () => moved(this));
    }
    if (removed) {
      const button = document.createElement('button');
      button.textContent = 'Remove';
      button.setAttribute('aria-label', `Remove ${this.title}`);
      button.onclick = () => removed(this);
      this.root.querySelector('header').append(button);
    }
  }

  /** The name by which calls know the text. */
  get name() {
    return this.title.toLowerCase();
  }

  get text() {
    return this.area.value;
  }

  /** Gives the program another title and colour, where there are more variants or fewer. */
  retitle(title, hue) {
    this.root.classList.replace(this.hue, hue);
    this.title = title;
    this.hue = hue;
    this.root.querySelector('label').textContent = title;
    this.root.querySelector('button')?.setAttribute('aria-label', `Remove ${title}`);
  }

  set text(text) {
    this.area.value = text;
    this.changed();
  }

  /** Notes that the text is another one. */
  changed() {
    this.canonical = null;
    this.places = placesOf(this.text);
  }

  /** Notes the canonical text of the program, from which the parts have their contents. */
  told(canonical) {
    this.canonical = canonical;
    this.places = placesWith(this.text, canonical);
  }

  /** The part of the text that a vertex is, if it is one of its parts. */
  partOf({ tag, content }) {
    return tag === undefined ? undefined : this.places.parts.find((part) => part.tag === tag && part.content === content);
  }

  /**
   * Paints the text, with marks that don't overlap.
   *
   * @param {Mark[]} marks
   * @param {Map<number, string>} letters what stands beside a line, by its number from 1
   */
  show(marks, letters = new Map()) {
    const text = this.text;
    this.paint.innerHTML = `${text.length > MOST_MARKED ? escaped(text) : painted(text, marks)}\n`;
    // as many lines as the text has, so that both scroll alike
    const lines = letters.size === 0 ? 0 : text.split('\n').length + 1;
    this.gutter.textContent = Array.from({ length: lines }, (_, i) => letters.get(i + 1) ?? ' ').join('\n');
    this.#scrolled();
  }

  /** Says something beside the title, and marks the place in the text that it is of. */
  say(text, { isBad = false, at = null } = {}) {
    this.note.textContent = at === null ? text : `line ${at.line}, column ${at.column}: ${text}`;
    this.root.classList.toggle('refused', isBad);
    this.area.setAttribute('aria-invalid', String(isBad));
  }

  lineOf(at) {
    return lineAndColumn(this.text, at).line;
  }

  #scrolled() {
    this.paint.scrollTop = this.area.scrollTop;
    this.paint.scrollLeft = this.area.scrollLeft;
    this.gutter.scrollTop = this.area.scrollTop;
  }
}

/** The text with its marks and its comments, as HTML. */
function painted(text, marks) {
  let html = '';
  let at = 0;
  for (const mark of [...marks].sort((one, other) => one.from - other.from)) {
    if (mark.from >= at) {
      html += plain(text.slice(at, mark.from));
      const title = mark.title ? ` title="${escaped(mark.title)}"` : '';
      html += `<span class="${mark.classes}"${title}>${escaped(text.slice(mark.from, mark.to))}</span>`;
      at = mark.to;
    }
  }
  return html + plain(text.slice(at));
}

const plain = (text) => escaped(text).replace(/#[^\n]*/g, '<i>$&</i>');
