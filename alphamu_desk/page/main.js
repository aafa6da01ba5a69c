// What the hands do: clicks, keys, forms and files.
import {$} from './cards.js';
import {S, changed, go, openFile, review, start, stop, think} from './moment.js';
import {post} from './net.js';
import './answer.js';
import {given, write} from './layouts.js';
import * as sheets from './sheets.js';
import {decisions, played} from './table.js';

const root = document.documentElement;
const close = () => $('sheet').open && $('sheet').close();

function play(it) {
  if (it === played()) return go({at: S.at + 1});
  return go({line: [...S.line, it]});
}

function step(by) {
  if (S.line.length) return by < 0 && go({line: S.line.slice(0, -1)});
  const at = S.at + by;
  return at >= 0 && at <= S.where.length && go({at});
}

// The next decision that is known, or else the next turn of declarer's side.
function decision(by) {
  const turns = S.where.whole.flat().map(([seat], at) => S.where.defenders.includes(seat) ? -1 : at).filter(it => it >= 0);
  const known = decisions().length ? decisions() : turns, ahead = known.filter(it => by > 0 ? it > S.at : it < S.at);
  go({line: [], at: ahead.length ? by > 0 ? ahead[0] : ahead[ahead.length - 1] : by > 0 ? S.where.length : 0});
}

function show(layout) {
  S.layout = S.layout === layout || !S.drawn || layout > S.drawn.layouts.length ? 0 : layout;
  changed();
}

const DO = {
  real() { S.real = !S.real; changed(); },
  layouts() {
    S.hasDrawer = !S.hasDrawer;
    changed();
    const to = S.hasDrawer ? $('drawer').querySelector('button') : document.querySelector('#strip [data-do=layouts]');
    if (to) to.focus({preventScroll: true});
  },
  back: () => go({line: []}),
  stop: () => stop('stopped'),
  more() { if (S.round || S.state === 'spent') S.limit = Math.min(3600, 2 * S.limit); think(); },
  again: () => go({seed: S.seed + 1}),
  review: () => review([S.game]),
  reviewall() { close(); review(S.boards.map(it => it.game)); },
  unreview: () => S.reviewing && S.reviewing.stop(),
  csv: () => sheets.save('csv'),
  close,
  boards: sheets.boards, keep: sheets.keep, help: sheets.help, typing: sheets.typing,
  empty() { close(); stop(); sheets.empty(null); },
  colours() {
    const isTwo = root.dataset.suits === '2';
    root.dataset.suits = isTwo ? '4' : '2';
    const button = document.querySelector('[data-do=colours]');
    button.setAttribute('aria-pressed', String(isTwo));
    button.textContent = isTwo ? '4 colours' : '2 colours';
  },
  theme() {
    const isDark = (root.dataset.theme || (matchMedia('(prefers-color-scheme:dark)').matches ? 'dark' : 'light')) === 'dark';
    root.dataset.theme = isDark ? 'light' : 'dark';
  },
};

document.addEventListener('click', event => {
  const button = event.target.closest('button');
  if (!button) return;
  const told = button.dataset;
  if (button.id === 'pick') sheets.boards();
  else if (told.do) DO[told.do]();
  else if (told.go) go({line: [], at: Number(told.go)});
  else if (told.step) {
    if (told.step === 'start') go({line: [], at: 0});
    else if (told.step === 'next') decision(1);
    else step(Number(told.step));
  } else if (told.play) play(told.play);
  else if (told.keep) sheets.save(told.keep);
  else if (told.game) { close(); go(start(Number(told.game))); }
  else if (told.layout) {
    show(Number(told.layout));
    const cell = document.querySelector(`.cells [data-layout="${told.layout}"]`);
    if (cell && !S.hasDrawer) cell.focus({preventScroll: true});
  }
});

async function take(name, text) {
  try { await go(start(await sheets.open(name, text))); } catch (why) { if (!why.refused) throw why; }
}

document.addEventListener('submit', async event => {
  event.preventDefault();
  if (event.target.id === 'pasted') return take('pasted text', $('paste').value);
  if (event.target.id === 'cond') {
    const told = given();
    if (told.draw === null || told.seed === null) {
      $('fault').textContent = told.draw === null ? 'How many: a whole number from 1 to 256' : 'Seed: a whole number';
      return $(told.draw === null ? 'many' : 'seed').focus();
    }
    await go(told);
  } else if (event.target.id === 'typed') {
    const hands = Object.fromEntries([...document.querySelectorAll('[data-hand]')].map(it => [it.dataset.hand, it.value]));
    try {
      const game = openFile(await post('typed', {...hands, contract: $('bid').value, declarer: $('by').value}));
      close();
      await go(start(game));
    } catch (why) { $('typedfault').textContent = why.refused; }
  }
});

document.addEventListener('input', event => event.target.dataset.term && write());
document.addEventListener('change', async event => {
  if (event.target.id === 'letters') S.letters = event.target.checked;
  else if (event.target.id === 'file' && event.target.files[0]) await read(event.target.files[0]);
});

async function read(file) {
  if (file.size > 1 << 20) return sheets.empty({refused: `${file.name} is too long: a file may have 1 MiB`, by: 'the desk'});
  return take(file.name, await file.text());
}
document.addEventListener('dragover', event => event.preventDefault());
document.addEventListener('drop', event => {
  event.preventDefault();
  if (event.dataTransfer.files[0]) read(event.dataTransfer.files[0]);
});

document.addEventListener('keydown', event => {
  if (event.ctrlKey || event.metaKey || event.altKey || $('sheet').open || event.key !== 'Escape' && /INPUT|TEXTAREA|SELECT/.test(event.target.tagName)) return;
  const bars = [...document.querySelectorAll('#bars button')], at = bars.indexOf(document.activeElement);
  const moves = S.where ? {
    ArrowRight: () => event.shiftKey ? decision(1) : step(1), ArrowLeft: () => event.shiftKey ? decision(-1) : step(-1), Home: () => go({line: [], at: 0}), End: () => go({line: [], at: S.where.length}),
    ArrowDown: () => bars.length && bars[(at + 1) % bars.length].focus(), ArrowUp: () => bars.length && bars[(at - 1 + bars.length) % bars.length].focus(),
    Escape: () => S.line.length ? DO.back() : S.hasDrawer && DO.layouts(),
  } : {};
  const letters = S.where && S.letters ? {t: () => S.state === 'thinking' ? DO.stop() : DO.more(), l: DO.layouts, r: () => S.reviews[S.game] || S.reviewing || DO.review(), d: DO.again, '?': sheets.help, o: DO.empty, k: sheets.keep} : {};
  const act = moves[event.key] || letters[event.key] || S.where && S.letters && /^[0-9]$/.test(event.key) && (() => event.key === '0' ? show(S.layout) : show(Number(event.key)));
  if (act) { event.preventDefault(); act(); }
});
document.addEventListener('nothing', () => sheets.drop(S.fault));

async function begin() {
  const told = new URLSearchParams(location.hash.slice(1)), number = name => Number(told.get(name)) || 0;
  if (!told.get('file')) return changed();
  try {
    const first = openFile(await post('open', {file: told.get('file')}));
    const board = told.get('board') && S.boards.find(it => it.board === told.get('board'));
    for (const it of ['north', 'east', 'south', 'west']) S[it] = told.get(it) || '';
    Object.assign(S, {draw: number('draw') || 20, seed: told.get('seed') ? number('seed') : 1});
    const game = board ? board.game : S.boards[number('game') - 1] ? number('game') : first, {length = 0} = S.boards[game - 1];
    await go({game, at: told.has('at') ? Math.min(number('at'), length) : start(game).at, line: (told.get('line') || '').split(',').filter(Boolean)});
  } catch (why) {
    S.fault = why.refused ? why : {refused: String(why), field: '', by: 'the desk'};
    changed();
  }
}
begin();
