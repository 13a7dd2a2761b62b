// What the program tells over one WebSocket, drawn. All that came by radio is put in as text, never as HTML.
const FRAMES_SHOWN = 500;
const AGAIN = 1000; // milliseconds until the next attempt to reach the program
const byId = (name) => document.getElementById(name);
const stations = new Map();
const links = new Map();
let socket = null;
let about = { connected: false, settings: {} };
let stats = null;
let call = { state: "idle" };
let frameCount = 0;
let noticeTimer = 0;

// An element with a class and with what stands in it.
function element(name, className, ...inside) {
  const made = document.createElement(name);
  if (className) made.className = className;
  made.append(...inside);
  return made;
}

const clock = (seconds) => new Date(1000 * seconds).toLocaleTimeString([], { hourCycle: "h23" });
const way = (path) => path.split(",").flatMap((it, at) => [at ? ", " : " via ", element("span", "via", it)]);
const last = (items, count) => items.slice(Math.max(0, items.length - count));

// ---- frames

function drawFrame(frame) {
  const path = element("span", "path", ...(frame.via ? way(frame.via) : []));
  const details = element("span", "details", `${frame.kind} ${frame.details}`);
  const head = element("span", "head", element("b", "", frame.source), " > ", frame.to, path, " ", details);
  const row = element("li", frame.sent ? "sent" : "heard", element("time", "", clock(frame.time)),
    element("span", "way", frame.sent ? "sent" : "heard"), head);
  if (frame.text) row.append(element("span", "text", frame.text));
  row.frame = frame;
  row.words = `${frame.source} ${frame.to} ${frame.via} ${frame.kind} ${frame.text}`.toLowerCase();
  return row;
}

function filtered(row) {
  const { words, kind, way: sent } = byId("filter").elements;
  const wanted = words.value.toLowerCase().split(/\s+/).every((it) => row.words.includes(it));
  const isUi = row.frame.kind === "UI";
  return !wanted || (kind.value === "UI" && !isUi) || (kind.value === "links" && isUi)
    || (sent.value === "heard" && row.frame.sent) || (sent.value === "sent" && !row.frame.sent);
}

function addFrame(frame) {
  const row = drawFrame(frame);
  row.classList.toggle("hidden", filtered(row));
  byId("frame-list").prepend(row);
  while (byId("frame-list").children.length > FRAMES_SHOWN) byId("frame-list").lastChild.remove();
  frameCount = frame.number;
  byId("frame-count").textContent = frameCount;
}

function filterAgain() {
  for (const row of byId("frame-list").children) row.classList.toggle("hidden", filtered(row));
}

// ---- stations and links

function drawStations() {
  const newest = [...stations.values()].sort((a, b) => b.time - a.time);
  byId("station-count").textContent = newest.length || "";
  byId("station-list").replaceChildren(...newest.map((it) => {
    const name = element("button", "", it.call);
    name.title = "show its frames";
    name.onclick = () => { byId("filter").elements.words.value = it.call; filterAgain(); };
    return element("tr", "", element("td", "", name), element("td", "number", it.count),
      element("td", "", clock(it.time)),
      element("td", "", element("span", "via", it.to), ...(it.via ? way(it.via) : [])));
  }));
}

function drawLinks() {
  const newest = [...links.values()].sort((a, b) => b.last - a.last);
  byId("link-list").replaceChildren(...newest.flatMap((it) => it.ends.map((end, at) =>
    element("tr", "", element("td", "", end.call), element("td", "number", end.packets),
      element("td", "number", end.octets), element("td", "number", end.again),
      element("td", "", at === 0 ? it.state : `modulo ${it.modulus}`)))));
}

const keyOf = (link) => link.ends.map((it) => it.call).join(" ");

// ---- the station

function drawStatus() {
  const here = socket !== null && socket.readyState === WebSocket.OPEN;
  const text = !here ? "this page has lost its program, and tries again"
    : !about.connected ? "the station is gone; the program tries again"
      : about.port ? `connected, ${about.port}` : "connected";
  byId("status").textContent = text;
  byId("status").classList.toggle("gone", !here || !about.connected);
  const facts = [];
  const set = about.settings;
  if (stats) {
    facts.push(["busy", `${(100 * stats.share).toFixed(1)} % of ${stats.seconds} s`],
      ["level", `${(stats.peak / 327.68).toFixed(0)} %${stats.clipped ? `, ${stats.clipped} cut off` : ""}`],
      ["heard", stats.heard], ["sent", stats.sent], ["dropped", stats.dropped], ["hosts", stats.hosts]);
  }
  if (here && about.connected) {
    if ("links" in set) facts.push(["links", set.links], ["TXDELAY", `${set.TXDELAY} ms`], ["window", set.window]);
    facts.push(["waiting", about.waiting]);
  }
  byId("facts").replaceChildren(...facts.map(([name, value]) =>
    element("div", "", element("dt", "", name), element("dd", "", value))));
  drawCall();
}

function drawCall() {
  const ready = about.connected && socket !== null && socket.readyState === WebSocket.OPEN;
  byId("call-state").textContent = call.state === "idle" ? "" : `${call.state} ${call.other}`;
  byId("connect").disabled = !ready || call.state !== "idle";
  byId("hang-up").disabled = !ready || call.state === "idle" || call.state === "ending";
  const line = byId("line-form").elements.text;
  const wasOff = line.disabled;
  byId("say").disabled = line.disabled = !ready || call.state !== "connected";
  if (wasOff && !line.disabled) line.focus({ preventScroll: true });
  byId("frame-form").querySelector("button").disabled = !ready;
}

function addText(text) {
  const terminal = byId("terminal");
  terminal.append(text);
  terminal.scrollTop = terminal.scrollHeight;
}

function notify(text) {
  byId("notice").textContent = text;
  byId("notice").hidden = false;
  clearTimeout(noticeTimer);
  noticeTimer = setTimeout(() => { byId("notice").hidden = true; }, 10000);
}

// ---- what the program tells

const told = {
  everything(all) {
    byId("frame-list").replaceChildren();
    byId("frame-count").textContent = "";
    stations.clear();
    links.clear();
    last(all.frames, FRAMES_SHOWN).forEach(addFrame);
    all.stations.forEach((it) => stations.set(it.call, it));
    all.links.forEach((it) => links.set(keyOf(it), it));
    ({ status: about, stats, call } = all);
    byId("terminal").textContent = "";
    addText(call.text);
    drawStations();
    drawLinks();
    drawStatus();
  },
  frame: addFrame,
  station(it) { stations.set(it.call, it); drawStations(); },
  link(it) { links.set(keyOf(it), it); drawLinks(); },
  status(it) { about = it; drawStatus(); },
  stats(it) { stats = it; drawStatus(); },
  call(it) { call = it; drawCall(); },
  text: addText,
  notice: notify,
  refused: notify,
};

function listen(token) {
  socket = new WebSocket(`ws://${location.host}/live?token=${encodeURIComponent(token)}`);
  socket.onmessage = (event) => {
    for (const [name, value] of Object.entries(JSON.parse(event.data))) told[name]?.(value);
  };
  socket.onclose = () => { drawStatus(); setTimeout(listenAgain, AGAIN); };
}

// A program that was started again has another token, which its page has.
async function listenAgain() {
  try {
    const page = new DOMParser().parseFromString(await (await fetch("/")).text(), "text/html");
    listen(page.querySelector("meta[name=token]").content);
  } catch {
    setTimeout(listenAgain, AGAIN);
  }
}

// ---- what this page asks for

function ask(wish) {
  if (socket !== null && socket.readyState === WebSocket.OPEN) socket.send(JSON.stringify(wish));
}

function onSubmit(name, what, then) {
  byId(name).addEventListener("submit", (event) => {
    event.preventDefault();
    ask({ do: what, ...Object.fromEntries(new FormData(event.target)) });
    then?.(event.target);
  });
}

onSubmit("frame-form", "frame", (form) => { form.elements.text.value = ""; });
onSubmit("call-form", "call");
onSubmit("line-form", "say", (form) => { form.elements.text.value = ""; });
byId("hang-up").addEventListener("click", () => ask({ do: "hang up" }));
byId("filter").addEventListener("submit", (event) => event.preventDefault());
byId("filter").addEventListener("input", filterAgain);
listen(document.querySelector("meta[name=token]").content);
