// What lies above the table: the boards of a file, what can be kept, the keys, a hand typed in; and the page without a board.
import {$, SEAT, card, contract, esc, score, span} from './cards.js';
import {S, changed, openFile, place, says} from './moment.js';
import {post} from './net.js';

export function sheet(title, body) {
  const it = $('sheet');
  it.innerHTML = `<div class="headline"><h2 id="sheet-h">${title}</h2><button type="button" data-do="close" aria-label="Close">✕</button></div>${body}`;
  if (!it.open) it.showModal();
}

const KEYS = [['← →', 'one card back, on'], ['Shift ← →', 'the last, the next decision'], ['Home End', 'start, end of the play'], ['↑ ↓ Enter', 'choose a card, play it'], ['Esc', 'back to the play; close'],
  ['t', 'stop thinking, think on'], ['l', 'layouts'], ['1–9 0', 'put a layout on the table; none'], ['d', 'draw again'], ['r', 'review'], ['o', 'open'], ['k', 'keep']];
export function help() {
  const keys = KEYS.map(([key, what]) => `<span>${key.split(' ').map(it => `<kbd>${it}</kbd>`).join(' ')}</span><span>${what}</span>`).join('');
  sheet('Keys', `<div class="keys">${keys}</div><p><label><input type="checkbox" id="letters" ${S.letters ? 'checked' : ''}> Letters are keys</label></p>`);
}

function first(it) {
  if (it.fault) return esc(it.fault);
  if (it.first) return `${card(it.first.played)} in trick ${it.first.trick}, costs ${span(it.first.cost_from, it.first.cost_to)}`;
  return S.reviews[it.game] ? 'none for certain' : 'not reviewed';
}

export function boards() {
  const rows = S.boards.map(it => `<tr ${it.game === S.game ? 'aria-current="true"' : ''}><td class="num"><button type="button" class="link" data-game="${it.game}" >${esc(it.board || it.game)}</button></td>
<td>${it.fault ? '' : contract(it.contract)}</td><td>${it.fault ? '' : SEAT[it.declarer]}</td><td>${it.fault ? '' : score(it.result, it.goal) || '?'}</td><td class="soft">${first(it)}</td></tr>`);
  sheet(esc(S.name), `<p class="soft small">${S.boards.length} ${S.boards.length > 1 ? 'boards' : 'board'}</p><div class="scroll"><table class="boards"><thead><tr><th scope="col" class="num">Board</th><th scope="col">Contract</th><th scope="col">By</th><th scope="col">Result</th><th scope="col">First costly decision</th></tr></thead><tbody>${rows.join('')}</tbody></table></div>
<div class="row gap"><button type="button" data-do="empty">Open another file</button><button type="button" data-do="reviewall">Review all ${S.boards.length}</button></div>`);
}

function command() {
  const quoted = it => /^[\w.,/-]+$/.test(it) ? it : `'${it.replace(/'/g, `'\\''`)}'`;
  const told = {board: S.where.board, at: S.at + 1, line: S.line.join(','), draw: S.draw === 20 ? '' : S.draw, seed: S.seed === 1 ? '' : S.seed, north: S.north, east: S.east, south: S.south, west: S.west};
  return [S.command, quoted(S.name), ...Object.entries(told).filter(it => it[1]).map(([name, it]) => `--${name} ${quoted(String(it))}`)].join(' ');
}

export function keep() {
  const kinds = {page: 'The page of this position', pbn: `The board as PBN${S.line.length ? ', with the what-if line' : ', up to here'}`, layouts: 'The layouts'};
  sheet('Keep', `<div class="row">${Object.entries(kinds).map(([kind, it]) => `<button type="button" data-keep="${kind}">${it}</button>`).join('')}</div>
<div class="field gap"><label for="link">A command that opens this position again</label><input id="link" readonly value="${esc(command())}"></div><p id="kept" class="bad small" role="alert"></p>`);
}

export async function save(kind) {
  try {
    const told = await post('keep', {...place(), kind}), link = document.createElement('a');
    link.href = URL.createObjectURL(new Blob([told.text], {type: told.type}));
    link.download = told.name;
    link.click();
    setTimeout(() => URL.revokeObjectURL(link.href), 1000);
  } catch (why) {
    const at = $('kept');
    if (at) at.textContent = why.refused;
    else { S.fault = why; changed(); }
  }
}

export function typing() {
  const seats = Object.entries(SEAT).map(([seat, it]) => `<div class="field"><label for="type${seat}">${it}</label><input id="type${seat}" data-hand="${seat}" maxlength="40" placeholder="AKJ.T98.Q2.76543" autocomplete="off" spellcheck="false"></div>`);
  sheet('Type a hand', `<p class="small soft">Spades, hearts, diamonds and clubs, with full stops between them. Leave both defenders empty if you don’t know them.</p><form id="typed"><div class="two">${seats.join('')}<div class="field"><label for="bid">Contract</label><input id="bid" placeholder="3NT" maxlength="5" autocomplete="off"></div><div class="field"><label for="by">Declarer</label><select id="by">${Object.entries(SEAT).map(([seat, it]) => `<option value="${seat}" ${seat === 'S' ? 'selected' : ''}>${it}</option>`).join('')}</select></div></div>
<p id="typedfault" class="bad small" role="alert"></p><div class="row"><button class="main" type="submit">Open</button></div></form>`);
}

export async function open(name, text) {
  try {
    return openFile(await post('open', {name, text}));
  } catch (why) {
    empty({...why, refused: `${name}: ${why.refused}`});
    throw why;
  }
}

// The page without a board, or with a board that alphamu refuses.
export function empty(fault) {
  Object.assign(S, {isOpen: false, where: null, fault});
  changed();
}

export function drop(fault) {
  $('empty').innerHTML = `<h1>Which card should declarer play?</h1><p class="lede">Open a board, step through the play, and see what each card is worth without a sight of the defenders’ hands.</p>
<div class="drop"><p>Drop a PBN or LIN file here</p><label class="file"><input type="file" id="file" accept=".pbn,.lin,.txt,text/plain"><span>Open a file</span></label></div>
${fault ? `<div class="alert" role="alert">${says(fault)}</div>` : ''}
<form id="pasted"><div class="field"><label for="paste">or paste its text</label><textarea id="paste" rows="5" spellcheck="false" placeholder='[Deal "N:…"]'></textarea></div><div class="row"><button type="submit">Read the text</button><button type="button" data-do="typing">Type a hand</button>${S.boards.length ? '<button type="button" data-do="boards">The boards of the file</button>' : ''}</div></form>`;
}
