// The table: four hands, the trick in the middle, and where in the play it is.
import {$, RING, SEAT, SUIT, card, contract, esc, pip, put, said, score, sorted, span, ten} from './cards.js';
import {S, says} from './moment.js';

const isDefender = seat => S.where.defenders.includes(seat);
export const played = () => S.line.length ? '' : S.where.play[S.at] || '';
const name = seat => S.where.tags[SEAT[seat]] || '';

// The cards that can be played by a click, and those that are named.
function choices(seat) {
  if (S.where.turn !== seat) return {legal: [], named: []};
  if (S.replies) return {legal: Object.keys(S.replies), named: []};
  const round = S.round;
  return round ? {legal: round.cards.map(it => it.card), named: round.groups.find(it => it.includes(round.named))} : {legal: [], named: []};
}

function suits(held, seat) {
  const {legal, named} = choices(seat), was = played();
  return [...'SHDC'].map(suit => {
    const ranks = sorted(held.filter(it => it[0] === suit)).map(it => legal.includes(it)
      ? `<button type="button" data-play="${it}" class="${named.includes(it) ? 'named' : ''}${it === was ? ' was' : ''}" aria-label="Play the ${said(it)}${it === was ? ', as was played' : ''}">${ten(it[1])}</button>`
      : `<span>${ten(it[1])}</span>`).join('');
    return `<div class="suit">${pip(suit)}<span class="vh">${SUIT[suit][2]}</span><div>${ranks || '<span class="soft">–</span>'}</div></div>`;
  }).join('');
}

function hand(seat) {
  const defends = isDefender(seat), layout = S.layout && S.drawn ? S.drawn.layouts[S.layout - 1] : null;
  const held = defends && layout ? layout[seat] : S.where.hands[seat];
  const who = seat === S.where.declarer ? 'declarer' : seat === S.where.dummy ? 'dummy' : '';
  const head = `<h3><b>${SEAT[seat]}</b>${defends || 'WE'.includes(seat) ? '<br>' : ' '}${esc([name(seat), who].filter(Boolean).join(', '))}</h3>`;
  let body = suits(held, seat);
  if (defends && !layout && !S.real) {
    const count = S.where.count[seat];
    body = `<div class="backs" aria-hidden="true">${'<i></i>'.repeat(count)}</div><p class="small soft">${count} ${count === 1 ? 'card' : 'cards'} ${held.length ? '<button type="button" class="link" data-do="real">show</button>' : ''}</p>`;
  } else if (defends && !layout) body += '<button type="button" class="link small" data-do="real">hide</button>';
  return `<section class="hand ${seat}${S.where.turn === seat ? ' turn' : ''}" aria-label="${SEAT[seat]}">${head}${body}</section>`;
}

function felt() {
  const tricks = S.where.tricks, last = tricks.length ? tricks[tricks.length - 1] : [], isNew = last.length === 4 && S.where.turn;
  const trick = isNew ? [] : last, at = Object.fromEntries(trick), latest = trick.length ? trick[trick.length - 1][0] : '';
  const seats = [...'NWES'].map(seat => `<div class="f${seat}">${at[seat] ? `<span class="pc${seat === latest ? ' last' : ''}">${card(at[seat])}</span>`
    : `<span class="seat${seat === S.where.turn ? ' on' : ''}">${SEAT[seat]}</span>`}</div>`);
  return `<div class="felt" role="group" aria-label="The trick">${seats.join('')}</div>`;
}

function brief() {
  if (!S.round || S.round.groups.length < 2) return '';
  const it = S.round.cards.find(it => it.card === S.round.named);
  return `<span class="brief"><br>${card(it.card)} ${span(it.least, it.most)} of ${S.round.weight}</span>`;
}

export function table() {
  const where = S.where, total = where.length;
  put($('contract'), `${contract(where.contract)} by ${SEAT[where.declarer]}`);
  $('score').textContent = `${where.goal} needed · ${where.won} won, ${where.lost} lost`;
  $('diagram').classList.toggle('ew', 'WE'.includes(where.declarer));
  put($('diagram'), hand('N') + hand('W') + felt() + hand('E') + hand('S'));
  put($('where'), (S.line.length ? 'What if' : S.at < total ? `Card <b>${S.at + 1}</b> of ${total}` : !total ? 'Before the lead' : where.turn && where.result === null ? `After card <b>${total}</b>` : 'End of the play') + brief());
  $('whatbar').hidden = !S.line.length;
  if (S.line.length) put($('whatbar'), `<span>What if ${S.line.map(card).join(', ')}?</span><button type="button" data-do="back" aria-keyshortcuts="Escape">Back to the play</button>`);
  const title = [where.tags.Event || S.name, where.board ? `Board ${where.board}` : ''].filter(Boolean).join(' · ');
  put($('pick'), `<b>${esc(title)}</b> <span class="soft">${esc([where.tags.Date ? where.tags.Date.slice(0, 4) : '', score(where.result, where.goal)].filter(Boolean).join(' · '))}</span> <span aria-hidden="true">▾</span>`);
  document.title = `${title} · alphamu desk`;
}

function cost(number) {
  const told = (S.reviews[S.game] || []).find(it => it.number === number + 1);
  return told && told.cost_from > 0 ? `<span class="cost" title="layouts that this card cost">−${span(told.cost_from, told.cost_to)}</span>` : '';
}

export function rows() {
  const where = S.where, seats = [0, 1, 2, 3].map(it => RING[(RING.indexOf(where.lead) + it) % 4]);
  const all = where.whole.map((trick, row) => {
    const by = Object.fromEntries(trick.map(([seat, it], at) => [seat, [it, 4 * row + at]]));
    return `<tr><th scope="row">${row + 1}</th>${seats.map(seat => {
      if (!by[seat]) return '<td></td>';
      const [it, at] = by[seat], isNow = at === S.at && !S.line.length;
      const kind = [where.whole_winners[row] === seat && 'won', at === 4 * row && 'lead', isNow && 'now', at > S.at && 'ahead'].filter(Boolean).join(' ');
      return `<td><button type="button" data-go="${at}" class="${kind}" ${isNow ? 'aria-current="step"' : ''}>${card(it)}</button>${cost(at)}</td>`;
    }).join('')}</tr>`;
  });
  const button = S.reviews[S.game] || S.reviewing || !where.length ? '' : '<button type="button" data-do="review" aria-keyshortcuts="r">Review this board</button>';
  put($('play'), `<div class="headline"><h2 id="play-h">The play</h2>${button}</div>${where.length ? `<table class="tricks"><thead><tr><th scope="col"><span class="vh">Trick</span></th>${seats.map(it => `<th scope="col">${SEAT[it]}</th>`).join('')}</tr></thead><tbody>${all.join('')}</tbody></table>` : '<p class="soft">No card has been played.</p>'}`);
}

export function history() {
  const told = S.reviews[S.game], at = S.reviewing;
  if (at && at.fault) return put($('review'), `<div class="part"><p class="bad">${says(at.fault)}</p><button type="button" data-do="unreview">Close</button></div>`);
  if (at) return put($('review'), `<div class="part"><h2>Reviewing</h2><progress max="1" value="${at.part}" aria-label="Review"></progress><div class="headline"><span class="soft small">${esc(at.at || 'the first card')}</span><button type="button" data-do="unreview">Stop</button></div></div>`);
  if (!told) return put($('review'), '');
  const top = Math.max(4, ...told.map(it => it.cost_to)), costly = told.filter(it => it.cost_from > 0).length, open = told.filter(it => it.cost_to > it.cost_from).length;
  const one = it => `<button type="button" data-go="${it.number - 1}" ${it.number === S.at + 1 && !S.line.length ? 'aria-current="step"' : ''} aria-label="Card ${it.number}, ${said(it.played)}: costs ${span(it.cost_from, it.cost_to)}" title="card ${it.number}: ${span(it.cost_from, it.cost_to)}">${it.cost_to ? `<i class="may" data-h="${88 * it.cost_to / top}%"></i><i class="certain" data-h="${88 * it.cost_from / top}%"></i>` : '<i class="none"></i>'}</button>`;
  return put($('review'), `<div class="part"><div class="headline"><h2>Review</h2><button type="button" data-do="csv">Save CSV</button></div>
<p class="small">${told.length} decisions: <b>${costly}</b> costly for certain${open ? `, ${open} still open` : ''}.</p>
<div class="steplist">${told.map(one).join('')}</div><div class="stepnum" aria-hidden="true">${told.map(it => `<span>${it.number}</span>`).join('')}</div>
<p class="small soft">Cost in layouts of ${S.draw}${open ? '; hatched: still possible' : ''}.</p></div>`);
}
export const decisions = () => (S.reviews[S.game] || []).map(it => it.number - 1);
