// The moment that is looked at, and the question about it.
import {esc} from './cards.js';
import {post, stream} from './net.js';

export const S = {
  file: '', name: '', boards: [], game: 0, at: 0, line: [], where: null, drawn: null, replies: null, round: null, state: '', words: null, fact: '', notice: '', fault: null,
  draw: 20, seed: 1, north: '', east: '', south: '', west: '', limit: 10, spent: 0, layout: 0, isOpen: false, hasDrawer: false, letters: true,
  reviewing: null, reviews: {}, tally: {},
};
const listeners = [];
export const onChange = listener => listeners.push(listener);
export const changed = () => listeners.forEach(it => it());
const CONDITIONS = ['north', 'east', 'south', 'west'];
let question = null, pulse = 0, turn = 0, begun = 0;

export const place = () => ({file: S.file, game: S.game, at: S.at, line: S.line, draw: S.draw, seed: S.seed, ...Object.fromEntries(CONDITIONS.map(it => [it, S[it]]))});
export const conditions = () => CONDITIONS.filter(it => S[it]).map(it => `${it}: ${S[it]}`);
export const says = fault => fault ? `${fault.by || 'the desk'} says: <b>${esc(fault.refused)}</b>` : '';
// Under this key the draws of one question are counted.
export const tallyKey = () => JSON.stringify({...place(), seed: 0});

function keepAddress() {
  const told = {file: S.file, game: S.game, at: S.at, line: S.line.join(','), draw: S.draw, seed: S.seed};
  for (const it of CONDITIONS) told[it] = S[it];
  history.replaceState(null, '', '#' + new URLSearchParams(Object.entries(told).filter(it => it[1] !== '')));
}

export function stop(state) {
  clearInterval(pulse);
  if (question) question.abort();
  question = null;
  if (state) { S.state = state; changed(); }
}

// Goes to a moment: shows it first, and thinks about it then.
export async function go(to) {
  stop();
  const mine = ++turn;
  Object.assign(S, {layout: 0, fault: null}, to);
  try {
    const where = await post('position', place());
    if (mine !== turn) return;
    S.where = where;
    if (where.review) S.reviews[S.game] = where.review;
  } catch (why) {
    if (mine !== turn) return;
    Object.assign(S, {fault: why, state: 'refused', where: null});
    return changed();
  }
  keepAddress();
  think();
}

export async function think() {
  stop();
  Object.assign(S, {drawn: null, replies: null, round: null, words: null, fact: '', state: 'thinking', spent: 0, fault: null, notice: ''});
  const mine = question = new AbortController();
  begun = performance.now();
  pulse = setInterval(() => {
    S.spent = (performance.now() - begun) / 1000;
    document.dispatchEvent(new CustomEvent('pulse'));
  }, 100);
  changed();
  try {
    await stream('think', {...place(), limit: S.limit}, heard, mine.signal);
  } catch (why) {
    if (mine.signal.aborted) return;
    Object.assign(S, {fault: why.refused ? why : {refused: 'the answer broke off', field: '', by: 'the desk'}, state: 'refused'});
  }
  if (mine === question) { clearInterval(pulse); question = null; changed(); }
}

function heard(line) {
  if (line.notice) S.notice = line.notice;
  // The time for thinking begins with the layouts.
  if (line.drawn) { S.drawn = line.drawn; S.notice = ''; begun = performance.now(); }
  if (line.replies) S.replies = line.replies;
  if (line.round) S.round = line.round;
  if (line.words) S.words = line.words;
  if (line.fact) S.fact = line.fact;
  if (line.refused) Object.assign(S, {fault: line, state: 'refused'});
  if (line.state || line.end) { S.state = line.state || line.end; clearInterval(pulse); }
  if (line.end && S.round) {
    const told = S.tally[tallyKey()] = S.tally[tallyKey()] || {};
    told[S.seed] = S.round;
  }
  changed();
}

export async function review(games) {
  const mine = new AbortController();
  S.reviewing = {part: 0, stop: () => { mine.abort(); S.reviewing = null; changed(); }, faults: {}};
  changed();
  try {
    await stream('review', {...place(), games}, line => {
      if (line.part && S.reviewing) { S.reviewing.part = line.part; S.reviewing.at = `card ${line.decision.number} of game ${line.game}`; }
      if (line.review) { S.reviews[line.game] = line.review; S.boards[line.game - 1].first = line.first; }
      if (line.refused && S.reviewing) S.reviewing.fault = line;
      changed();
    }, mine.signal);
  } catch (why) {
    if (mine.signal.aborted) return;
    S.fault = why;
  }
  S.reviewing = S.reviewing && S.reviewing.fault ? {fault: S.reviewing.fault, stop() { S.reviewing = null; changed(); }} : null;
  changed();
}

export function openFile(told) {
  stop();
  Object.assign(S, {file: told.file, name: told.name, boards: told.boards, command: told.command, reviews: {}, tally: {}, isOpen: true, north: '', east: '', south: '', west: '', seed: 1, reviewing: null});
  const first = told.boards.find(it => !it.fault);
  return first ? first.game : 1;
}

// The moment at which a board is opened.
export const start = game => ({game, at: (S.boards[game - 1] || {}).start || 0, line: []});
