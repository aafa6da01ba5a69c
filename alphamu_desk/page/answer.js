// The answer: what is best so far, a bar for each card, where it makes the contract, and the line in words.
import {$, SEAT, card, cards, either, esc, inSymbols, inText, num, put, said, size, sorted, span} from './cards.js';
import {S, changed, onChange, says, tallyKey} from './moment.js';
import {drawer} from './layouts.js';
import {history, played, rows, table} from './table.js';

const named = () => S.round.cards.find(it => it.card === S.round.named);
const group = () => S.round.groups.find(it => it.includes(S.round.named));
const side = () => S.where.turn === S.where.dummy ? 'dummy' : 'hand';
const player = seat => S.where.tags[SEAT[seat]] || SEAT[seat];

function bar(held) {
  const it = S.round.cards.find(it => it.card === held[0]), of = S.round.weight, isNamed = held.includes(S.round.named), percent = x => `${(100 * x / of).toFixed(2)}%`;
  const makes = it.final ? `exactly ${it.most}` : `at least ${it.least}, at most ${it.most}`;
  return `<div role="listitem"><button type="button" class="bar${isNamed ? ' named' : ''}" data-play="${held[0]}" ${isNamed ? 'aria-current="true"' : ''}
 aria-label="${held.map(said).join(' or ')}: makes ${makes} of ${of}; a simulation says ${it.sampled}${isNamed ? '; named' : ''}${held.includes(played()) ? '; played' : ''}">
<span class="name">${cards(held)}${held.includes(played()) ? '<span class="tag">played</span>' : ''}</span><span class="track"><i class="open" data-w="${percent(it.most)}"></i><i class="sure" data-w="${percent(it.least)}"></i><i class="tick" data-l="${percent(it.sampled)}"></i></span>
<span class="fig">${span(it.least, it.most)}</span><span class="sam">${it.sampled}</span></button></div>`;
}

function bars() {
  const of = S.round.weight, order = sorted(S.round.groups.map(it => sorted(it)[0])), first = it => S.round.groups.find(held => held.includes(it));
  return `<div class="bar barhead" aria-hidden="true"><span>Card</span><span></span><span>Makes</span><span><span class="lg">Simulation</span><span class="sm">Sim</span></span></div>
${order.map(it => bar(first(it))).join('')}<div class="bar axis" aria-hidden="true"><span></span><span class="nums"><span>0</span>${of >= 8 && of % 2 === 0 ? `<span>${of / 2}</span>` : ''}<span>${of}</span></span><span></span><span></span></div>`;
}

// The told line as a list that folds, two blanks of the text for each level.
function tell(lines) {
  const items = lines.map(it => ({depth: (it.length - it.trimStart().length) / 2, text: it.trim()}));
  const short = text => inText(text.replace(/ \(made in[^)]*\)| \(fails in[^)]*\)/, '').replace(/; the plan ends here/, ''));
  let at = 0;
  const level = depth => {
    let out = '';
    while (at < items.length && items[at].depth >= depth) {
      const it = items[at++], isDeep = at < items.length && items[at].depth > depth;
      out += isDeep ? `<li><details ${depth < 1 ? 'open' : ''}><summary>${short(it.text)}</summary><ul>${level(depth + 1)}</ul></details></li>` : `<li>${short(it.text)}</li>`;
    }
    return out;
  };
  return `<ul class="tell">${level(0)}</ul>`;
}

export function pulse() {
  const grow = document.querySelector('.grow i'), text = $('secs');
  if (grow) grow.style.width = `${Math.min(100, 100 * S.spent / S.limit)}%`;
  if (text) text.textContent = `${S.spent.toFixed(1)} of ${S.limit} s`;
}

function thinking() {
  const round = S.round, moves = round && (round.moves === 'all' ? 'every card planned' : `${round.moves} ${round.moves > 1 ? 'moves' : 'move'} planned`);
  if (S.state === 'thinking') {
    return `<span class="state">Thinking${round ? `<span class="lg"> · ${moves}</span>` : ''}</span><span class="grow" role="progressbar" aria-label="Time" aria-valuemin="0" aria-valuemax="${S.limit}" aria-valuenow="${Math.round(S.spent)}"><i></i></span><span class="soft" id="secs">${S.spent.toFixed(1)} of ${S.limit} s</span><button type="button" data-do="stop" aria-keyshortcuts="t">Stop</button>`;
  }
  if (!round) return '<button type="button" data-do="more" aria-keyshortcuts="t">Think on</button>';
  if (S.state === 'settled') return '<span class="state">Settled: more thought changes nothing</span>';
  const word = S.state === 'stopped' ? 'Stopped' : `Not settled in ${S.limit} s`;
  return `<span class="state">${word}</span><span class="soft">The bars hold; more time narrows them.</span><button type="button" data-do="more" aria-keyshortcuts="t">Think on</button>`;
}

function cost() {
  const was = S.round.cards.find(it => it.card === played());
  if (!was || group().includes(played())) return '';
  const told = (S.reviews[S.game] || []).find(it => it.number === S.at + 1);
  const much = told && told.cost_to ? `, which costs ${told.cost_from === told.cost_to ? told.cost_to : `${told.cost_from} to ${told.cost_to}`} of ${told.layouts}` : '';
  return ` <span class="soft">${esc(player(S.where.turn))} played ${card(played())}${much}.</span>`;
}

function verdict(part) {
  const it = named(), of = S.round.weight, held = either(group()), isDone = S.state === 'settled' || S.round.settled;
  if (S.round.groups.length === 1) part.verdict = `${held} is the only choice`;
  else if (it.most === 0) {
    part.verdict = 'No card makes it now';
    part.lede = `Against the best defence the contract fails in each of these ${of} layouts.`;
    return;
  } else part.verdict = isDone ? `Play ${held} from ${side()}` : `${held} from ${side()}, so far`;
  const fact = S.fact && it.sure ? ` It makes exactly those in which ${inSymbols(S.fact)}.` : '';
  part.lede = `Makes <b>${it.final ? it.most : `${it.least} to ${it.most}`} of ${of}</b> layouts against every defence${it.sampled > it.most ? `; a simulation, which sees all hands, says ${it.sampled}` : ''}.${fact}${cost()}`;
}

function strip() {
  const it = named(), vector = it.sure || it.may, press = S.layout ? `Layout ${S.layout} is on the table.` : 'Press one to see its hands.';
  const cells = [...vector].map((bit, at) => `<button type="button" class="${bit === '1' ? 'y' : 'n'}" data-layout="${at + 1}" aria-pressed="${S.layout === at + 1}" aria-label="Layout ${at + 1}: ${bit === '1' ? it.sure ? 'made' : 'may be made' : 'fails'}">${at + 1}<b aria-hidden="true">${bit === '1' ? '✓' : '✗'}</b></button>`);
  return `<div class="part"><div class="headline"><h2>Where ${either(group())} ${it.sure ? 'makes' : 'may make'} it</h2><button type="button" data-do="layouts" aria-expanded="${S.hasDrawer}" aria-keyshortcuts="l">${S.hasDrawer ? 'Close layouts' : 'Layouts'}</button></div>
<p class="small soft">${it.sure ? '✓ made against every defence, ✗ not by this line.' : 'As far as it is planned: ✓ may be made, ✗ not.'} ${press}</p><div class="cells">${cells.join('')}</div></div>`;
}

function answer(part) {
  if (!S.round) {
    part.verdict = S.drawn || S.state !== 'thinking' ? 'Thinking' : 'Drawing layouts';
    if (S.state === 'stopped') part.verdict = 'Stopped';
    else if (S.notice) {
      part.verdict = 'Getting ready';
      part.lede = `The program is being compiled, which takes about a minute and happens once: ${esc(S.notice)}.`;
      return;
    }
    part.think = thinking();
    return;
  }
  verdict(part);
  part.think = thinking();
  part.bars = bars();
  part.legend = '<span><i class="lsure"></i>sure</span><span><i class="lopen"></i>still open</span><span><i class="tk"></i>what a simulation believes</span>';
  part.strip = strip();
  if (S.words && S.words.lines.length && named().most && S.round.groups.length > 1) {
    part.words = `<div class="part"><div class="headline"><h2>The line, card by card</h2><span class="soft small">${S.words.moves} moves planned</span></div>${tell(S.words.lines)}</div>`;
  }
}

function defence(part) {
  const turn = S.where.turn, isLead = !S.where.tricks.length || S.where.tricks[S.where.tricks.length - 1].length === 4;
  part.verdict = `${SEAT[turn]} to ${isLead ? 'lead' : 'play'}`;
  const was = played() ? `${esc(player(turn))} played ${card(played())}. ` : '';
  part.lede = `${was}Cards are compared at the turns of declarer’s side.${S.replies ? ' What if another card is played? Beside each: in how many of the layouts it can be.' : ''}`;
  if (S.replies) part.bars = `<div class="replies gap">${sorted(Object.keys(S.replies)).map(it => `<button type="button" data-play="${it}" aria-label="${said(it)}, in ${S.replies[it]} of ${S.drawn.layouts.length} layouts" class="${it === played() ? 'was' : ''}">${card(it)} <span class="soft small">${S.replies[it]}</span></button>`).join('')}</div>`;
}

function moment() {
  const turn = S.where.turn, tricks = S.where.tricks, isLead = !tricks.length || tricks[tricks.length - 1].length === 4;
  if (!turn) return 'The play ends here';
  const link = S.drawn ? ` <button type="button" class="link" data-do="layouts" aria-expanded="${S.hasDrawer}" aria-keyshortcuts="l">${S.drawn.layouts.length} of ${num(S.drawn.fit)} layouts</button>` : '';
  return `<span>Trick ${tricks.length + (isLead ? 1 : 0)} · ${SEAT[turn]} to ${isLead ? 'lead' : 'play'}</span>${link}`;
}

function show() {
  const hasBoard = S.isOpen && S.where;
  $('desk').classList.toggle('none', !hasBoard);
  $('empty').hidden = Boolean(hasBoard);
  $('pick').hidden = !S.isOpen;
  document.querySelector('[data-do=keep]').hidden = !hasBoard;
  if (!hasBoard && S.isOpen) put($('pick'), `<b>${esc(S.name)}</b> <span aria-hidden="true">▾</span>`);
  if (!hasBoard) return document.dispatchEvent(new CustomEvent('nothing'));
  const part = {moment: moment(), verdict: '', lede: '', think: '', bars: '', legend: '', strip: '', words: '', notice: ''};
  table();
  const isEnd = !S.where.turn || S.at >= S.where.length && !S.line.length && S.where.length > 0 && S.where.result !== null;
  if (S.state === 'refused') {
    part.verdict = 'No answer';
    part.think = `<div class="alert" role="alert">${says(S.fault)}</div>`;
  } else if (S.where.turn && S.where.defenders.includes(S.where.turn)) defence(part);
  else if (S.where.turn) answer(part);
  if (isEnd && S.where.result !== null && !S.line.length) {
    part.verdict = `${S.where.result} tricks, ${S.where.goal} needed`;
    part.lede = S.where.turn ? 'The rest was claimed. From here on it is “what if”.' : '';
  } else if (!S.where.turn) part.verdict = `${S.where.won} tricks, ${S.where.goal} needed`;
  part.notice = S.drawn && S.drawn.unproved ? 'These answers come from a program that is compiled unproved: ./build makes the proved one.' : '';
  for (const id in part) put($(id), part[id]);
  drawer();
  rows();
  history();
  size();
  pulse();
  live();
}

// Speaks at the first round and at the last alone.
let spoken = '';
function live() {
  const key = S.round ? `${tallyKey()}${S.seed}${S.state === 'thinking' ? '' : S.state}` : '';
  if (!key || key === spoken) return;
  spoken = key;
  const it = named();
  $('live').textContent = `${said(S.round.named)}: ${it.final ? `exactly ${it.most}` : `at least ${it.least}, at most ${it.most}`} of ${S.round.weight}. ${S.state}.`;
}

onChange(show);
document.addEventListener('pulse', pulse);
export const refresh = changed;
