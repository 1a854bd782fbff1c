'use strict';
// The page computes no state: it shows what programs printed, and what their logs tell.
(() => {
  const scenes = JSON.parse(document.getElementById('data').textContent);
  const get = id => document.getElementById(id);
  const [ACTOR, TEXT, KIND, NOTES, STATE, LINES] = Array(6).keys();
  const [TURNS, OUTCOME, ENDING, FIRST, STEPS] = Array(5).keys();
  const PLACES = ['tmp', 'new', 'cur'];
  const OUTCOMES = { good: ['✓', 'nothing lost'], said: ['!', 'not done or lost, and said'], lost: ['✕', 'lost or told falsely'] };
  const MILLISECONDS = { step: 1300, slide: 420 };
  const isStill = matchMedia('(prefers-reduced-motion: reduce)');
  const isNarrow = matchMedia('(max-width: 40rem)');
  const now = { scene: 0, orders: [], step: 0, timer: 0 };

  const scene = () => scenes[now.scene];
  const sides = () => scene().sides;
  const orderOf = at => sides()[at].orders[now.orders[at]];
  const stepsOf = at => orderOf(at)[STEPS].map(number => sides()[at].steps[number]);
  const most = () => Math.max(...sides().map((_, at) => orderOf(at)[STEPS].length));
  const within = (value, top) => Math.max(0, Math.min(top, value));

  function add(parent, tag, text, kind) {
    const made = document.createElement(tag);
    if (text !== undefined) made.textContent = text;
    if (kind) made.className = kind;
    parent.append(made);
    return made;
  }

  // A text in parts, of which each second one is a name.
  function addText(parent, parts) {
    parts.forEach((part, at) => at % 2 ? add(parent, 'span', part, 'name') : parent.append(part));
  }

  function addWho(parent, side, actor) {
    add(parent, 'span', side.actors[actor][0], `who ${'abc'[actor]}`);
    parent.append(' ');
  }

  const saying = (side, step) => `${side.actors[step[ACTOR]][0]} ${step[TEXT].join('')}`;

  // The address of what is shown: the scene, the orders, the step.
  function address() {
    const [first, second] = now.orders;
    const isPaired = second === undefined || scene().partners[first] === second;
    return `#${scene().name}/${first + 1}${isPaired ? '' : `.${second + 1}`}/${now.step}`;
  }

  function openAddress() {
    const [name, orders, step] = decodeURIComponent(location.hash.slice(1)).split('/');
    const found = scenes.findIndex(one => one.name === name);
    if (found < 0) open(0);
    else open(found, (orders || '').split('.').map(number => Number(number) - 1), step);
  }

  // Opens a scene: at these orders, or at the one that shows the most; at this step, or at the end.
  function open(number, orders = [], step) {
    now.scene = number;
    const [first, second] = sides();
    const chosen = orders[0] >= 0 ? within(Math.floor(orders[0]), first.orders.length - 1) : first.own;
    now.orders = [chosen];
    if (second) now.orders.push(orders[1] >= 0 ? within(Math.floor(orders[1]), second.orders.length - 1) : scene().partners[chosen]);
    get('scene').value = String(number);
    showAbout();
    get('runs').replaceChildren(...sides().map((side, at) => column(side, at)));
    now.step = /^\d+$/.test(step || '') ? within(Number(step), most()) : most();
    show();
  }

  // What the race is, and what each side loses.
  function showAbout() {
    get('about').replaceChildren();
    add(get('about'), 'b', `${scene().title}.`);
    get('about').append(` ${scene().about}`);
    get('headline').replaceChildren(...sides().map(side => {
      const [outcome, words] = side.headline;
      const line = document.createElement('span');
      line.className = outcome;
      add(line, 'i', OUTCOMES[outcome][0], `dot ${outcome}`).setAttribute('aria-hidden', 'true');
      line.append(` ${words}`);
      return line;
    }));
  }

  function go(step) {
    const before = isStill.matches ? undefined : places();
    now.step = within(step, most());
    show();
    if (before) slide(before);
  }

  // Opens another order of a side. With one of the first side comes the one of the second that is most like it.
  function take(at, number) {
    stop();
    now.orders[at] = within(number, sides()[at].orders.length - 1);
    if (at === 0 && sides()[1]) now.orders[1] = scene().partners[now.orders[0]];
    now.step = within(now.step, most());
    show();
  }

  // What a column has whatever the step is.
  function column(side, at) {
    const run = document.createElement('article');
    run.className = `run ${side.outcome}`;
    run.setAttribute('aria-label', side.who);
    const head = add(run, 'h2', `${side.who} `);
    add(head, 'small', side.tag, 'soft');
    add(run, 'p', side.count, 'count');
    run.append(map(side, at));
    for (const kind of ['now', 'state', 'ending', 'notes']) add(run, 'div', undefined, kind);
    const more = add(run, 'div', undefined, 'more');
    const steps = add(more, 'details');
    steps.open = !isNarrow.matches;
    add(steps, 'summary', 'All steps');
    const actors = add(steps, 'ul', undefined, 'actors');
    side.actors.forEach(([, words], actor) => {
      const item = add(actors, 'li');
      addWho(item, side, actor);
      add(item, 'span', words, 'name');
    });
    add(steps, 'ol', undefined, 'steps');
    const made = add(more, 'details', undefined, 'made');
    add(made, 'summary', 'Log and command');
    add(made, 'p', side.about, 'soft');
    add(made, 'pre', side.repeat.join('\n'));
    add(made, 'button', 'Download this log').addEventListener('click', () => download(at));
    head.id = `run-${at}`;
    return run;
  }

  // All orders as dots. Arrow keys go from dot to dot.
  function map(side, at) {
    const box = document.createElement('div');
    box.className = side.orders.length > 40 ? 'map many' : 'map';
    box.setAttribute('role', 'radiogroup');
    box.setAttribute('aria-label', `Orders of ${side.who}`);
    side.orders.forEach((order, number) => {
      const [sign, words] = OUTCOMES[order[OUTCOME]];
      const dot = add(box, 'button', sign, `dot ${order[OUTCOME]}`);
      dot.type = 'button';
      dot.setAttribute('role', 'radio');
      dot.title = `order ${number + 1}, ${order[TURNS]}: ${words}`;
      dot.setAttribute('aria-label', dot.title);
      dot.addEventListener('click', () => take(at, number));
    });
    box.addEventListener('keydown', event => {
      const by = { ArrowLeft: -1, ArrowUp: -1, ArrowRight: 1, ArrowDown: 1 }[event.key];
      if (!by) return;
      event.preventDefault();
      event.stopPropagation();
      take(at, now.orders[at] + by);
      box.children[now.orders[at]].focus();
    });
    return box;
  }

  function showMap(run, at) {
    [...run.querySelector('.map').children].forEach((dot, number) => {
      const isHere = number === now.orders[at];
      dot.setAttribute('aria-checked', String(isHere));
      dot.tabIndex = isHere ? 0 : -1;
    });
  }

  function showNotes(run, step) {
    const box = run.querySelector('.notes');
    box.replaceChildren();
    for (const [kind, head, text] of step ? step[NOTES] : []) {
      const note = add(box, 'p', undefined, `note ${kind}`);
      if (kind === 'bad') note.append('breaks the law: ');
      if (head) add(note, 'b', head);
      note.append(head ? `: ${text}` : text);
    }
  }

  function showNow(run, side, step) {
    const box = run.querySelector('.now');
    box.replaceChildren();
    box.className = `now ${step ? step[KIND] : ''}`;
    if (!step) {
      box.textContent = 'The beginning: no step was taken.';
      return;
    }
    addWho(box, side, step[ACTOR]);
    addText(box, step[TEXT]);
  }

  const uniqueOf = name => name.split(':')[0];
  const flagsOf = name => name.includes(':2,') ? name.slice(name.indexOf(':2,') + 3) : '';

  // A name of a file; flags that no name of it had before stand out.
  function addName(list, name, before) {
    const item = add(list, 'li', undefined, 'name');
    item.dataset.name = name;
    item.append(name.slice(0, name.length - flagsOf(name).length));
    const had = before.filter(other => uniqueOf(other) === uniqueOf(name)).map(flagsOf).join('');
    for (const flag of flagsOf(name)) add(item, 'span', flag, had.includes(flag) ? 'flag' : 'flag fresh');
  }

  function showState(run, side, state, before) {
    const box = run.querySelector('.state');
    box.replaceChildren();
    state.forEach((folder, number) => folder.forEach((names, place) => {
      const directory = add(box, 'div', undefined, 'directory');
      const path = `${side.folders.length > 1 ? `${side.folders[number]}/` : ''}${PLACES[place]}/`;
      add(directory, 'b', path);
      const list = add(directory, 'ul');
      list.setAttribute('aria-label', path);
      for (const name of names) addName(list, name, before.flat(2));
    }));
  }

  function showSteps(run, side, at) {
    const list = run.querySelector('.steps');
    list.replaceChildren(...stepsOf(at).map((step, number) => {
      const item = document.createElement('li');
      item.className = `${number < now.step ? '' : 'later'} ${number + 1 === now.step ? 'here' : ''} ${step[KIND] === 'bad' ? 'bad' : ''}`;
      if (number + 1 === now.step) item.setAttribute('aria-current', 'step');
      addWho(item, side, step[ACTOR]);
      addText(item, step[TEXT]);
      item.addEventListener('click', () => { stop(); go(number + 1); });
      return item;
    }));
  }

  function showRun(side, at) {
    const run = get('runs').children[at];
    const steps = stepsOf(at);
    const done = Math.min(now.step, steps.length);
    const stateAt = step => side.states[step ? steps[step - 1][STATE] : orderOf(at)[FIRST]];
    showMap(run, at);
    showNow(run, side, steps[done - 1]);
    showNotes(run, steps[done - 1]);
    showState(run, side, stateAt(done), stateAt(Math.max(0, done - 1)));
    showSteps(run, side, at);
    const ending = run.querySelector('.ending');
    const isOver = done === steps.length;
    ending.textContent = isOver ? orderOf(at)[ENDING] : '';
    ending.className = `ending ${isOver ? orderOf(at)[OUTCOME] : ''}`;
    const parts = [side.who, done ? saying(side, steps[done - 1]) : 'the beginning'];
    if (isOver) parts.push(orderOf(at)[ENDING]);
    return parts.join(': ');
  }

  function show() {
    const said = sides().map(showRun);
    get('said').textContent = `Step ${now.step} of ${most()}. ${said.join(' ')}`;
    get('place').textContent = `${now.step} / ${most()}`;
    get('back').disabled = now.step === 0;
    get('forward').disabled = now.step === most();
    document.title = `${scene().title}: ${sides().map(side => side.who).join(' and ')}`;
    history.replaceState(null, '', address());
  }

  // What a shown name is found by: its directory and itself, or else its unique part.
  function keysOf(item) {
    const run = item.closest('.run').ariaLabel;
    return [`${run} ${item.parentElement.ariaLabel}${item.dataset.name}`, `${run} ${uniqueOf(item.dataset.name)}`];
  }

  // Where each name stands.
  function places() {
    const found = new Map();
    for (const item of document.querySelectorAll('.directory li')) {
      for (const key of keysOf(item)) found.set(key, item.getBoundingClientRect());
    }
    return found;
  }

  // Has each name slide from where it stood. One that is new fades in.
  function slide(before) {
    for (const item of document.querySelectorAll('.directory li')) {
      const [here, anywhere] = keysOf(item).map(key => before.get(key));
      const from = here || anywhere;
      const to = item.getBoundingClientRect();
      const way = from && [from.left - to.left, from.top - to.top];
      if (way && !way[0] && !way[1]) continue;
      const frames = way ? { transform: [`translate(${way[0]}px, ${way[1]}px)`, 'none'] } : { opacity: [0, 1] };
      item.animate(frames, { duration: MILLISECONDS.slide, easing: 'ease-in-out' });
    }
  }

  function stop() {
    clearInterval(now.timer);
    now.timer = 0;
    get('play').textContent = '▶ Play';
  }

  function play() {
    if (now.timer) {
      stop();
      return;
    }
    if (now.step === most()) go(0);
    get('play').textContent = '❚❚ Pause';
    now.timer = setInterval(() => {
      go(now.step + 1);
      if (now.step === most()) stop();
    }, MILLISECONDS.step);
    keepInSight();
  }

  // On a phone the directories may be below the screen, where nobody sees a name move.
  function keepInSight() {
    const sentence = document.querySelector('.now');
    const topOf = one => one.getBoundingClientRect().top;
    const last = [...document.querySelectorAll('.state')].pop().getBoundingClientRect().bottom;
    const bar = topOf(get('bar'));
    if (topOf(sentence) >= 0 && last <= bar) return;
    const first = last - topOf(get('run-0')) <= bar ? get('run-0') : sentence;
    first.scrollIntoView({ behavior: isStill.matches ? 'auto' : 'smooth' });
  }

  function move(step) {
    stop();
    go(step);
    keepInSight();
  }

  function download(at) {
    const text = [...sides()[at].head, ...stepsOf(at).flatMap(step => step[LINES])].join('\n');
    const link = document.createElement('a');
    link.href = URL.createObjectURL(new Blob([`${text}\n`], { type: 'text/plain' }));
    link.download = `${scene().name}-${sides()[at].who.replace(/\W+/g, '-')}-${now.orders[at] + 1}.log`;
    link.click();
    URL.revokeObjectURL(link.href);
  }

  async function copyLink() {
    try {
      await navigator.clipboard.writeText(location.href);
      get('link').textContent = 'Copied';
    } catch {
      get('link').textContent = 'Copy the address';
    }
    setTimeout(() => { get('link').textContent = 'Copy link'; }, 2000);
  }

  const KEYS = {
    ArrowLeft: () => move(now.step - 1),
    ArrowRight: () => move(now.step + 1),
    ArrowUp: () => take(0, now.orders[0] - 1),
    ArrowDown: () => take(0, now.orders[0] + 1),
    Home: () => move(0),
    End: () => move(most()),
    ' ': play,
  };

  scenes.forEach((one, number) => { add(get('scene'), 'option', one.label).value = String(number); });
  get('scene').addEventListener('change', () => { stop(); open(Number(get('scene').value)); });
  get('back').addEventListener('click', KEYS.ArrowLeft);
  get('forward').addEventListener('click', KEYS.ArrowRight);
  get('play').addEventListener('click', play);
  get('link').addEventListener('click', copyLink);
  addEventListener('hashchange', openAddress);
  document.addEventListener('keydown', event => {
    if (event.altKey || event.ctrlKey || event.metaKey || !KEYS[event.key]) return;
    if (event.target.closest('select') || (event.key === ' ' && event.target.closest('button, summary'))) return;
    event.preventDefault();
    KEYS[event.key]();
  });
  let touched = null;
  get('runs').addEventListener('touchstart', event => { touched = event.changedTouches[0]; }, { passive: true });
  get('runs').addEventListener('touchend', event => {
    const ended = event.changedTouches[0];
    const [across, down] = [ended.clientX - touched.clientX, ended.clientY - touched.clientY];
    if (Math.abs(across) > 50 && Math.abs(across) > 2 * Math.abs(down)) move(now.step - Math.sign(across));
  }, { passive: true });
  get('choose').hidden = get('about').hidden = scenes.length === 1;
  get('stepper').hidden = get('bar').hidden = false;
  get('tables').hidden = true;
  openAddress();
})();
