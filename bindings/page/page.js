// Each byte that says: a module with a memory of 64-bit addresses.
const SMALLEST = new Uint8Array([0, 97, 115, 109, 1, 0, 0, 0, 5, 3, 1, 4, 0]);
const STATUS = ["", "The text is not UTF-8.", "Out of memory.", "The room is too small.", "The options are unknown.", "A number needs more than 128 bits."];
const WRONG_DICTIONARY = 7;
// More lines make the page slow; it says how many it leaves out.
const MOST_LINES = 1000;
const at = id => document.getElementById(id);
const coder = new TextEncoder(), decoder = new TextDecoder("utf-8", { ignoreBOM: true });
let library, dictionary = "";

// ---- The library. Its addresses are BigInt.

async function unpacked() {
  const coded = MODULE.replaceAll("é", "+").replaceAll("è", "/");
  const bytes = Uint8Array.from(atob(coded), character => character.charCodeAt(0));
  const stream = new Blob([bytes]).stream().pipeThrough(new DecompressionStream("gzip"));
  return new Response(stream).arrayBuffer();
}

const view = (kind, address, length) => new kind(library.memory.buffer, Number(address), Number(length));

// What a call returns that takes these bytes.
function withBytes(bytes, call) {
  const room = library.take(BigInt(bytes.length + 1));
  if (room === 0n) throw new Error(STATUS[2]);
  view(Uint8Array, room, bytes.length).set(bytes);
  try {
    return call(room, BigInt(bytes.length));
  } finally {
    library.give(room);
  }
}

const answered = () => view(BigUint64Array, library.answer(), 5);

// The status of a paragraph; and where that is 0 its text, and of each line the columns and the cost.
function laid(bytes, width, isLeast, breaks) {
  const status = withBytes(bytes, (text, length) => library.lay(text, length, BigInt(width), isLeast, breaks));
  if (status !== 0) return { status };
  const [text, textLength, lines, count] = answered();
  return { status, text: view(Uint8Array, text, textLength).slice(), lines: view(BigUint64Array, lines, 2n * count).slice() };
}

// ---- What is shown

// The lines of the text, with what all cost together.
function found(text, width, isLeast, breaks) {
  const rows = [];
  let sum = 0n;
  for (const paragraph of text.split("\n")) {
    const { status, text: filled, lines } = laid(coder.encode(paragraph), width, isLeast, breaks);
    if (status !== 0) throw new Error(STATUS[status] ?? `Status ${status}.`);
    const texts = decoder.decode(filled).split("\n");
    if (2 * texts.length !== lines.length) throw new Error("Lines and costs differ.");
    texts.forEach((line, i) => rows.push({ line, columns: Number(lines[2 * i]), cost: lines[2 * i + 1], isLast: i + 1 === texts.length }));
    sum += lines.reduce((all, number, i) => i % 2 ? all + number : all, 0n);
  }
  return { rows, sum };
}

function rowOf({ line, columns, cost, isLast }, width) {
  const row = document.createElement("tr"), shown = row.insertCell();
  shown.textContent = line;
  if (columns > width) shown.className = "over";
  if (columns < width && !isLast) {
    const gap = document.createElement("span");
    gap.className = "gap";
    gap.textContent = " ".repeat(width - columns);
    shown.append(gap);
  }
  row.insertCell().textContent = cost.toLocaleString("en");
  return row;
}

function show() {
  const width = Number(at("width").value), breaks = Number(document.querySelector("[name=breaks]:checked").value);
  const from = performance.now();
  const both = [0, 1].map(isLeast => found(at("text").value, width, isLeast, breaks));
  const took = performance.now() - from;
  at("shown").value = width;
  at("both").style.setProperty("--columns", width);
  both.forEach(({ rows, sum }, i) => {
    const count = `${rows.length.toLocaleString("en")} line${rows.length === 1 ? "" : "s"}`;
    at("title" + i).textContent = `${["First fit", "Least cost"][i]}: ${count}, cost ${sum.toLocaleString("en")}`;
    at("title" + i).className = sum < both[1 - i].sum ? "best" : "";
    at("lines" + i).replaceChildren(...rows.slice(0, MOST_LINES).map(row => rowOf(row, width)));
  });
  const most = Math.max(...both.map(({ rows }) => rows.length));
  const saved = both[0].sum - both[1].sum;
  at("said").textContent = [
    saved === 0n ? "Both cost the same." : `Least cost saves ${saved.toLocaleString("en")}.`,
    dictionary,
    most > MOST_LINES ? `The first ${MOST_LINES.toLocaleString("en")} lines are shown.` : "",
    `${took.toFixed(1)} ms.`,
  ].filter(Boolean).join(" ");
}

function showOrSay() {
  try {
    show();
  } catch (error) {
    at("said").textContent = error.message;
  }
}

// ---- The dictionary

// The bytes of a dictionary as UTF-8, where its first line names another charset that the browser knows.
function asUtf8(bytes) {
  const [first, name] = /^([\w-]+)\s*?\n/.exec(decoder.decode(bytes.subarray(0, 40))) ?? ["", "UTF-8"];
  const charset = name.replace(/^microsoft-cp/i, "windows-");
  if (/^(utf-8|\d.*)$/i.test(charset)) return bytes;
  try {
    return coder.encode("UTF-8\n" + new TextDecoder(charset).decode(bytes.subarray(first.length)));
  } catch {
    return bytes;
  }
}

async function take(file) {
  const bytes = asUtf8(new Uint8Array(await file.arrayBuffer()));
  const status = withBytes(bytes, library.read);
  const wrong = status === WRONG_DICTIONARY ? `its line ${answered()[4]} is wrong` : status === 1 ? "it is not UTF-8" : "there is no memory";
  dictionary = status === 0 ? `Hyphens are those of ${file.name}.` : `${file.name} is no dictionary: ${wrong}.`;
  at("forget").hidden = status !== 0;
  showOrSay();
}

function forget() {
  library.forget();
  dictionary = "";
  at("file").value = "";
  at("forget").hidden = true;
  at("file").focus();
  showOrSay();
}

// ---- All of it

function start() {
  for (const id of ["text", "width"]) at(id).addEventListener("input", showOrSay);
  for (const way of document.getElementsByName("breaks")) way.addEventListener("change", showOrSay);
  at("file").addEventListener("change", () => at("file").files[0] && take(at("file").files[0]));
  at("forget").addEventListener("click", forget);
  document.addEventListener("dragover", event => { event.preventDefault(); document.body.classList.add("dropping"); });
  document.addEventListener("dragleave", () => document.body.classList.remove("dropping"));
  document.addEventListener("drop", event => {
    if (event.dataTransfer.files.length === 0) return;
    event.preventDefault();
    document.body.classList.remove("dropping");
    take(event.dataTransfer.files[0]);
  });
  at("main").hidden = false;
  showOrSay();
}

function refuse(why) {
  at("cannot").hidden = false;
  at("cannot").textContent = why;
}

async function begin() {
  if (!globalThis.WebAssembly?.validate(SMALLEST) || !globalThis.DecompressionStream) {
    refuse("This browser cannot run the library: it has no WebAssembly with 64-bit memory. Chrome and Edge have it from version 133 on, Firefox from 134 on.");
    return;
  }
  library = (await WebAssembly.instantiate(await unpacked(), {})).instance.exports;
  start();
}

begin().catch(error => refuse(`The library does not run here: ${error.message}`));
