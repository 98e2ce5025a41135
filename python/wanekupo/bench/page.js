"use strict";
(() => {
  const at = (id) => document.getElementById(id);
  const SIGNS = { PASS: "\u2714", FAIL: "\u2718", LABEL: "\u2261", waiting: "\u25cb", working: "\u25b6" };
  const RESULTS = ["PASS", "FAIL", "LABEL"];
  // Pitches and seconds, and the form of the wave.
  const SOUNDS = { PASS: ["sine", [880, .12], [1320, .25]], FAIL: ["square", [220, .25], [150, .6]], LABEL: ["sine", [660, .15], [440, .15], [660, .2]] };
  // Millimetres of a panel: the least width, the height that is looked for, and the one with its sentence and its buttons.
  // Then what else the window has in height (its head, a banner, the bar), the counts' width, and the bar's least one.
  const WIDE = 50, HIGH = 66, NEEDED = 84, OTHERS = 62, ASIDE = 95, BAR = 215;
  // How narrow a word may become before its first part stands alone: letters half as wide as high are read well.
  const NARROWEST = 0.55;
  // How long the bar takes no press behind a change, in milliseconds: the second press of a glove is meant for the first.
  const HELD = 1000;
  let bar = "", held = 0;
  let board = null, words = null, version = -1, skew = 0, chosen = -1, results = {}, sound = null;

  // An element with attributes and children; a text is always a text and never markup.
  const made = (name, attributes, ...children) => {
    const element = document.createElement(name);
    for (const [key, value] of Object.entries(attributes)) element.setAttribute(key, value);
    element.append(...children);
    return element;
  };
  // A text is changed only where it differs: a reader would say it again.
  const put = (element, text) => { if (element.textContent !== text) element.textContent = text; };
  const time = (seconds) => new Date(seconds * 1000).toLocaleTimeString([], { hour12: false });
  const say = (word, facts = {}) => words.words[word].replace(/\{(\w+)(?:!r)?\}/g, (_, name) => String(facts[name] ?? ""));
  const reason = (name) => words.reasons[name] ?? name.replaceAll("_", " ");
  const isLoud = () => (localStorage.getItem("sound") ?? String(words.sound)) === "true";

  const post = async (path, told) => {
    try {
      const reply = await fetch(path, { method: "POST", headers: { "Content-Type": "application/json" },
        body: JSON.stringify(told), cache: "no-store", redirect: "error" });
      if (!reply.ok) throw new Error(String(reply.status));
    } catch {
      put(at("notice"), say("not_taken"));
    }
  };

  const play = ([wave, ...notes]) => {
    if (!isLoud()) return;
    sound ??= new AudioContext();
    sound.resume();
    let begin = sound.currentTime;
    for (const [pitch, seconds] of notes) {
      const tone = new OscillatorNode(sound, { type: wave, frequency: pitch });
      tone.connect(sound.destination);
      tone.start(begin);
      tone.stop(begin += seconds);
    }
  };

  // Sizes.

  const millimetre = () => words.inches ? Math.hypot(screen.width, screen.height) / words.inches / 25.4 : 96 / 25.4;

  // How many columns leave the panels the most room, beside the counts or without them, also with a banner.
  const grid = (width, height) => {
    const count = board.sockets.length;
    let best = { columns: 1, room: 0 };
    for (let columns = 1; columns <= count; columns += 1) {
      const wide = width / columns, high = height / Math.ceil(count / columns);
      const room = Math.min(wide / WIDE, high / HIGH);
      if (wide >= WIDE && room > best.room + .01) best = { columns, room };
    }
    return best;
  };

  const arrange = () => {
    const mm = millimetre(), width = innerWidth / mm - 6, height = innerHeight / mm - OTHERS;
    const whole = grid(width, height), beside = grid(width - ASIDE, height), isBeside = beside.room >= 1 && width - ASIDE >= BAR;
    const found = isBeside ? beside : whole;
    document.documentElement.style.setProperty("--mm", `${mm}px`);
    document.documentElement.style.setProperty("--columns", found.columns);
    document.body.classList.toggle("beside", isBeside);
    return Math.ceil(board.sockets.length / found.columns);
  };

  // Whether panels have no room for their buttons, by what the banner and the bar leave them.
  const isTight = () => at("sockets").className === "tight";
  const tighten = (rows) => {
    const { clientHeight, clientWidth } = at("sockets"), columns = Math.ceil(board.sockets.length / rows);
    const isSmall = clientHeight / rows < NEEDED * millimetre() || clientWidth / columns < WIDE * millimetre();
    at("sockets").className = isSmall ? "tight" : "";
    if (!isSmall) chosen = -1;
  };

  // A word from afar in one line, narrower where it has to be.
  const fit = (element, number, sign, text) => {
    const line = element.firstChild ?? element.appendChild(made("span", {}, made("bdi", { class: "number" }), made("bdi", { class: "sign" }), made("bdi", {})));
    const [numbers, signs, word] = line.children;
    put(numbers, number && `${number} `);
    put(signs, sign && `${sign} `);
    for (const part of [text, text.split(" ")[0]]) {
      put(word, part);
      line.style.transform = "";
      const scale = element.clientWidth / line.offsetWidth;
      line.style.transform = scale < 1 ? `scaleX(${scale})` : "";
      if (scale >= NARROWEST) break;
    }
  };

  // A sentence in smaller letters where it has more lines than room. In a small panel without room it stands in the bar
  // alone, once the panel is touched.
  const shrink = (element) => {
    element.style.fontSize = element.style.visibility = "";
    const least = 2.6 * millimetre(), isCut = () => element.scrollHeight > element.clientHeight + 1;
    for (let size = parseFloat(getComputedStyle(element).fontSize); isCut() && size > least;) {
      size = Math.max(least, size - 1);
      element.style.fontSize = `${size}px`;
    }
    if (isCut() && isTight()) element.style.visibility = "hidden";
  };

  // Sockets.

  const begins = (socket) => board.start === "key" && socket.state !== "working" && !board.stopped;
  const begin = (socket) => post("/begin", { socket: socket.name });
  const scrap = (socket) => post("/said", { text: `scrap ${socket.chip}` });

  const cardOf = (place) => {
    let card = document.querySelector(`[data-place="${place}"]`);
    if (!card) {
      const keys = [made("button", { type: "button", accesskey: String(place + 1) }), made("button", { type: "button" })];
      [begin, scrap].forEach((call, key) => keys[key].addEventListener("click", () => { call(board.sockets[place]); }));
      card = made("article", { "data-place": place }, made("h2", {}), made("p", { class: "word far" }), made("p", { class: "box far" }),
        made("p", { class: "told" }), made("p", { class: "more" }), made("div", { class: "keys" }, ...keys));
      card.addEventListener("click", () => { if (isTight()) { chosen = place; draw(); } });
      at("sockets").append(card);
    }
    return card;
  };

  const moreOf = (socket) => {
    const parts = [], isWorking = socket.state === "working";
    if (socket.chip) parts.push(say("chip_named", { chip: socket.chip }));
    if (socket.serial) parts.push(say("serial_named", { serial: socket.serial }));
    if (socket.state === "FAIL" && socket.step) parts.push(say("at_step", { step: socket.step }));
    if (isWorking) parts.push(`${Math.max(0, Math.floor(Date.now() / 1000 - skew - socket.since))} s`);
    else if (socket.took) parts.push(`${Math.round(socket.took)} s`);
    return parts.join(", ");
  };

  const toldOf = (socket) => socket.state === "working" ? socket.step : socket.sentence || (socket.was ? say("waiting") : "");

  // What a panel shows large: a result, also the last one while it waits; else the word of a chip that was begun there.
  const resultOf = (socket) => socket.state === "waiting" ? socket.was : socket.state;
  const isBegun = (socket) => socket.state === "waiting" && !socket.was && Boolean(socket.box);
  const wordOf = (socket) => isBegun(socket) ? words.boxes[socket.box] : say(resultOf(socket) || "waiting");

  const drawSocket = (socket, place) => {
    const card = cardOf(place), [name, , box, told, more, keys] = card.children, result = resultOf(socket);
    card.className = `socket ${socket.state}${isBegun(socket) ? " begun" : result ? "" : " new"}${chosen === place ? " chosen" : ""}`;
    put(name, `${place + 1} ${socket.name}`);
    box.hidden = !RESULTS.includes(result);
    put(told, toldOf(socket));
    put(more, moreOf(socket));
    put(keys.children[0], say("begin", { socket: socket.name }));
    put(keys.children[1], say("scrap_this"));
    keys.children[0].hidden = !begins(socket);
    keys.children[1].hidden = !socket.scraps;
    keys.hidden = !begins(socket) && !socket.scraps;
    announce(socket, place);
  };

  // Once all panels are there, each has its size, and its words are fitted into it.
  const fitSocket = (socket, place) => {
    const [, word, box, told] = cardOf(place).children, isWorking = socket.state === "working" && socket.place;
    fit(word, place + 1, SIGNS[socket.state], isWorking ? `${socket.place}/${board.steps}` : wordOf(socket));
    fit(box, "", "", words.boxes[socket.box] ?? "");
    shrink(told);
  };

  // A result is said and heard once, and not where the page is opened behind it.
  const announce = (socket, place) => {
    const said = RESULTS.includes(socket.state) ? `${socket.name}: ${say(socket.state)}. ${socket.sentence}` : "";
    const mark = said && `${socket.since} ${said}`;
    if (said && results[place] !== mark) {
      put(at("said"), said);
      if (place in results && !results[place].startsWith(String(socket.since))) play(SOUNDS[socket.state]);
    }
    results[place] = mark;
  };

  // The rest.

  const banner = (kind, word, text) => {
    document.body.classList.remove("STOPPED", "AWAY", "GONE");
    if (kind) document.body.classList.add(kind);
    at("banner").hidden = !kind;
    put(at("banner-text"), text);
    fit(at("banner-word"), "", "", word);
  };

  const drawBanner = () => {
    at("go").hidden = !board.stopped;
    if (board.stopped) banner("STOPPED", say("STOPPED"), board.stopped);
    else if (board.away) banner("AWAY", say("AWAY"), say("away_since", { time: time(board.away.since), why: board.away.why }));
    else banner("", "", "");
  };

  // A question as large as its box lets it be. The box grows where its smallest letters have no room.
  const fitQuestion = () => {
    const { style } = at("question");
    style.maxHeight = "";
    shrink(at("question"));
    if (at("question").scrollHeight > at("question").clientHeight + 1) style.maxHeight = "none";
    style.visibility = "";
  };

  // The bar: what is asked, with its answers; else the panel that was touched; else the bench's own buttons.
  const drawBar = () => {
    const asked = board.question, socket = asked || !isTight() ? null : board.sockets[chosen];
    const own = !asked && !socket;
    at("question").hidden = own;
    put(at("question"), asked ? asked.text : socket ? `${chosen + 1} ${socket.name}: ${toldOf(socket)} ${moreOf(socket)}` : "");
    put(at("notice"), board.notice || (own ? say(board.stopped ? "stands" : board.start) : ""));
    at("notice").hidden = !own && !board.notice;
    put(at("asked"), say(asked ? "answer_asked" : board.stopped ? "stands" : board.start));
    put(at("all"), say(asked ? "answer" : "begin_all"));
    put(at("begin"), socket ? say("begin", { socket: socket.name }) : "");
    const shown = { all: own && board.start !== "chip" && !board.stopped, stop: !board.stopped && !socket, shift: own, sound: own, back: socket,
      scrap: own || socket?.scraps, begin: socket && begins(socket), yes: asked?.answers.includes("yes"), no: asked?.answers.includes("no") };
    for (const [id, is] of Object.entries(shown)) at(id).hidden = !is;
    put(at("sound"), say(isLoud() ? "sound_on" : "sound_off"));
    put(at("scrap"), say(socket ? "scrap_this" : "scrap_chip"));
    fitQuestion();
  };

  // A bar that has other buttons or another question takes no press for a while, and is pale meanwhile. Only a press:
  // behind each of them the keyboard is the field's.
  const hold = () => {
    const line = at("line"), buttons = [...line.querySelectorAll("button")].filter((it) => !it.hidden).map((it) => it.id);
    const shown = JSON.stringify([buttons, board.question, chosen]);
    if (bar && bar !== shown) {
      line.classList.add("held");
      clearTimeout(held);
      held = setTimeout(() => { line.classList.remove("held"); }, HELD);
    }
    bar = shown;
  };

  const row = (name, ...texts) => made("tr", {}, made("th", { scope: "row" }, name), ...texts.map((it) => made("td", {}, String(it))));

  const drawCounts = () => {
    const { passed, first, failed: reasons, since } = board.shift, names = Object.keys(reasons).sort();
    const failed = names.reduce((sum, name) => sum + reasons[name], 0);
    const all = [[say("passed"), passed], [say("first"), first], [say("failed"), failed], ...names.map((name) => [`\u2003${reason(name)}`, reasons[name]])];
    at("counts").replaceChildren(...all.map((it) => row(...it)));
    put(at("tally"), `${say("this_shift")}: ${all.slice(0, 3).map((it) => it.join(" ")).join(", ")}`);
    put(at("since"), say("since", { time: new Date(since).toLocaleString() }));
    at("last").replaceChildren(...board.last.map((it) =>
      row(`${SIGNS[it.state]} ${say(it.state).split(" ")[0]}`, it.serial || it.chip, it.name, it.took ? `${Math.round(it.took)} s` : "", time(it.since))));
  };

  const LABELS = { go: "go_on", yes: "yes", no: "no", back: "back", stop: "stop_line", shift: "new_shift", "this-shift": "this_shift",
    "last-chips": "last_chips", "begun-word": "begun", "begun-told": "begun_told" };

  const draw = () => {
    document.title = board.product;
    document.documentElement.lang = say("lang");
    for (const [id, word] of Object.entries(LABELS)) put(at(id), say(word));
    put(at("product"), board.product);
    put(at("order"), say("order", { order: board.order }));
    put(at("rest"), board.rest === null ? say("left_unknown") : say("left", { count: board.rest }));
    put(at("who"), board.operator ? say("operator", { name: board.operator }) : say("nobody"));
    at("sockets").hidden = at("line").hidden = false;
    at("begun").hidden = !board.under_way.length;
    at("under-way").replaceChildren(...board.under_way.map((it) => made("li", {},
      `${say("chip_named", { chip: it.chip })}: ${say("begun_where", it)}, ${say("since", { time: new Date(it.since).toLocaleString() })}`)));
    const rows = arrange();
    drawCounts();
    drawBanner();
    drawBar();
    tighten(rows);
    drawBar();
    hold();
    board.sockets.forEach(drawSocket);
    board.sockets.forEach(fitSocket);
    shrink(at("banner-text"));
    document.body.dataset.version = board.version;
  };

  // Asks for the board again and again; a reply comes when it changes. The words are asked for at each start.
  const look = async () => {
    for (;;) {
      try {
        const asked = async (path) => {
          const reply = await fetch(path, { cache: "no-store", redirect: "error", signal: AbortSignal.timeout(20000) });
          if (!reply.ok) throw new Error(String(reply.status));
          return reply.json();
        };
        if (version < 0) words = await asked("/words");
        board = await asked(`/board?after=${version}`);
        version = board.version;
        skew = Date.now() / 1000 - board.now;
        draw();
      } catch {
        version = -1;
        at("sockets").hidden = at("line").hidden = at("go").hidden = true;
        banner("GONE", words ? say("NO_BENCH") : "NO BENCH", words ? say("no_bench") : "");
        await new Promise((resolve) => { setTimeout(resolve, 1000); });
      }
    }
  };

  at("line").addEventListener("submit", (event) => {
    event.preventDefault();
    const text = at("text").value;
    at("text").value = "";
    post("/said", { text });
  });
  for (const word of ["stop", "go", "shift", "yes", "no"]) at(word).addEventListener("click", () => { post("/said", { text: word }); });
  at("scrap").addEventListener("click", () => { const own = board.sockets[chosen]; if (own) scrap(own); else post("/said", { text: "scrap" }); });
  at("begin").addEventListener("click", () => { begin(board.sockets[chosen]); });
  at("sound").addEventListener("click", () => { localStorage.setItem("sound", String(!isLoud())); play(SOUNDS.PASS); draw(); });
  for (const id of ["begin", "scrap", "back", "all"]) at(id).addEventListener("click", () => { chosen = -1; draw(); });
  // Enter is the field's, whatever was touched before it; and a scanner types wherever the focus is.
  document.addEventListener("click", () => { at("text").focus({ preventScroll: true }); });
  document.addEventListener("keydown", (event) => {
    const isTyped = event.key.length === 1 && event.key !== " " && !event.ctrlKey && !event.altKey && !event.metaKey;
    const isLost = event.key === "Enter" && document.activeElement === document.body;
    if ((isTyped || isLost) && document.activeElement !== at("text")) at("text").focus();
  });
  addEventListener("resize", () => { if (board) draw(); });
  setInterval(() => { if (board) board.sockets.forEach((socket, place) => put(cardOf(place).querySelector(".more"), moreOf(socket))); }, 1000);
  look();
})();
