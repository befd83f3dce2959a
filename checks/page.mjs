// What page/index.html shows in a headless browser; checks/page.sh runs it: page.mjs TOP PROFILE [PICTURE].
import { spawn, spawnSync } from "node:child_process";
import fs from "node:fs";
import path from "node:path";
import { pathToFileURL } from "node:url";

const [top, profile, image] = process.argv.slice(2);
const read = (...names) => fs.readFileSync(path.join(top, ...names), "utf8");

// Lines with targets before and behind them, negative numbers, indexes, masks and vectors, at 0x1000; and lines that are no instruction's.
const TYPED = ["lghi %r2,-5", "aghi %r15,-160", "stmg %r6,%r15,48(%r15)", "lay %r1,-524288(%r2,%r3)", "larl %r4,0x1000", "brasl %r14,0x2000", "jne 0x1010", "jg 0xfff0",
  "locgre %r1,%r2", "risbgn %r1,%r2,3,61,7", "vlr %v31,%v17", "vag %v1,%v2,%v30", "vl %v20,16(%r3,%r4)", "mvhi 4095(%r1),-32768", "br %r14"];
const WRONG = ["agrk %r1,%r2", "agrk %r1,%r2,%r16", "agrk %r1,%r2,%r3 x", "lgr %r2", "lgrx %r2,%r3", "lghi %r2,32768", "lghi %r2,05", "je 0x1001", "lg %r1,4096(%q2)", ".short 0x0707",
  "agrk %r1,%r2,%r3".padEnd(300, "x"), "agrk %r1,%r2,%r3" + " ".repeat(300) + "x", "é %r1"];

// The browser by its debugging pipe: messages are JSON, each with a zero byte behind it.
class Browser {
  constructor() {
    const words = ["--headless", "--no-sandbox", "--disable-gpu", "--no-first-run", "--window-size=1280,1000", "--user-data-dir=" + profile, "--remote-debugging-pipe"];
    this.process = spawn("chromium", words, { stdio: ["ignore", "ignore", "ignore", "pipe", "pipe"] });
    this.waiting = new Map(); this.count = 0; this.rest = Buffer.alloc(0);
    this.process.on("error", error => fail("chromium doesn't start: " + error));
    this.process.stdio[4].on("data", data => this.take(data));
  }
  take(data) {
    this.rest = Buffer.concat([this.rest, data]);
    for (let end; (end = this.rest.indexOf(0)) >= 0; this.rest = this.rest.subarray(end + 1)) {
      const message = JSON.parse(this.rest.subarray(0, end).toString());
      const [done, failed] = this.waiting.get(message.id) || [];
      if (!done) continue;
      this.waiting.delete(message.id);
      if (message.error) failed(new Error(JSON.stringify(message.error))); else done(message.result);
    }
  }
  ask(method, params = {}) {
    const id = ++this.count;
    this.process.stdio[3].write(JSON.stringify({ id, method, params, sessionId: this.session }) + "\0");
    return new Promise((done, failed) => this.waiting.set(id, [done, failed]));
  }
  async open(file) {
    const { targetId } = await this.ask("Target.createTarget", { url: pathToFileURL(file).href });
    this.session = (await this.ask("Target.attachToTarget", { targetId, flatten: true })).sessionId;
    for (let k = 0; k < 200 && !(await this.value("document.body && document.body.dataset.ready")); k++) await new Promise(done => setTimeout(done, 50));
    if (!(await this.value("document.body.dataset.ready"))) fail("the page isn't ready: " + await this.value("document.getElementById('wrong').textContent"));
  }
  async value(expression) {
    const { result, exceptionDetails } = await this.ask("Runtime.evaluate", { expression, returnByValue: true, awaitPromise: true });
    if (exceptionDetails) fail(JSON.stringify(exceptionDetails));
    return result.value;
  }
  async type(id, text) {
    await this.value(`{ const box = document.getElementById("${id}"); box.focus(); box.select(); }`);
    await this.ask("Input.insertText", { text });
  }
  // A long text at once, since each line that is typed shows the page anew.
  async put(id, text) {
    await this.value(`{ const box = document.getElementById("${id}"); box.value = ${JSON.stringify(text)}; box.dispatchEvent(new Event("input")); }`);
  }
  async press(id) { await this.value(`document.getElementById("${id}").click()`); }
}

function fail(text) {
  console.error(text);
  process.exit(1);
}

function same(what, shown, wanted) {
  if (shown !== wanted) fail(`${what}: shown ${shown}, wanted ${wanted}`);
}

// The lines of the disassembler's stored output, but for data, are the page's; and each picture has its instruction's bits.
async function instructions(browser) {
  await browser.type("base", "0");
  await browser.type("code", read("crates", "s390x_disassembler_example", "stdin").trim());
  const cards = await browser.value(`[...document.querySelectorAll(".instruction")].map(card => ({
    line: [".address", ".bytes", ".text"].map(name => card.querySelector(name).textContent), sentence: card.querySelector(".sentence")?.textContent || "",
    bits: [...card.querySelectorAll(".digits")].map(part => part.textContent).join("") }))`);
  const lines = read("crates", "s390x_disassembler_example", "stdout").trim().split("\n").filter(line => !/ \.(short|byte) /.test(line));
  const found = cards.filter(card => card.line[2] !== "no instruction");
  same("how many instructions", found.length, lines.length);
  found.forEach((card, k) => {
    same("line " + (k + 1), `${card.line[0]}: ${card.line[1]} ${card.line[2]}`, lines[k]);
    same("the bits of " + card.line[1], card.bits, [...Buffer.from(card.line[1], "hex")].map(byte => byte.toString(2).padStart(8, "0")).join(""));
    if (!card.sentence) fail("no sentence for " + card.line[2]);
  });
  console.log(`${found.length} instructions are shown as the disassembler writes them, each with its bits and a sentence`);
}

// What GNU's assembler makes of lines at an address, each as digits; null where it lacks the instruction. A target is written as its distance.
function assembled(lines, base) {
  fs.mkdirSync(profile, { recursive: true });
  const [source, made, flat] = ["lines.s", "lines.o", "lines.bin"].map(name => path.join(profile, name)), lacking = new Set();
  const given = lines.map(line => line.replace(/0x([0-9a-f]+)$/, (_, target) => "here+(" + BigInt.asIntN(64, BigInt("0x" + target) - BigInt(base)) + ")"));
  for (;;) {
    fs.writeFileSync(source, ".text\nhere:\n" + given.map((line, k) => (lacking.has(k) ? "" : line) + "\n").join(""));
    const done = spawnSync("s390x-linux-gnu-as", ["-march=z16", "-mzarch", "-o", made, source], { encoding: "utf8" });
    if (done.error) fail("s390x-linux-gnu-as doesn't start: " + done.error);
    const wrong = [...done.stderr.matchAll(/:(\d+): (?:Fatal e|E)rror/g)].map(found => Number(found[1]) - 3);
    if (!wrong.length) break;
    wrong.forEach(k => lacking.add(k));
  }
  const copied = spawnSync("s390x-linux-gnu-objcopy", ["-O", "binary", "-j", ".text", made, flat]);
  if (copied.status) fail("s390x-linux-gnu-objcopy: " + (copied.error || copied.stderr));
  const code = fs.readFileSync(flat);
  let at = 0;
  return lines.map((_, k) => {
    if (lacking.has(k)) return null;
    const length = code[at] < 0x40 ? 2 : code[at] < 0xc0 ? 4 : 6;
    at += length;
    return code.subarray(at - length, at).toString("hex");
  });
}

const bytesShown = browser => browser.value('[...document.querySelectorAll(".instruction .bytes")].map(part => part.textContent)');

// Lines of assembly are read as GNU's assembler reads them: those of each machine row that it has, each at its own place, and those of `TYPED` together.
async function lines(browser) {
  const rows = read("crates", "s390x_disassembler_example", "stdout").trim().split("\n").map(line => line.match(/^([0-9a-f]+): [0-9a-f]+ (.*)$/));
  const texts = rows.map(row => row[2]).filter(text => !/^\.(short|byte) |0x[0-9a-f]+$/.test(text));
  const wanted = assembled(texts, 0), known = texts.filter((_, k) => wanted[k] !== null);
  await browser.type("base", "0");
  await browser.put("code", known.join("\n"));
  same("what is wrong", await browser.value('document.getElementById("wrong").textContent'), "");
  const shown = await bytesShown(browser);
  same("how many instructions", shown.length, known.length);
  wanted.filter(bytes => bytes !== null).forEach((bytes, k) => same(known[k], shown[k], bytes));
  console.log(`${known.length} lines of assembly are read as GNU's assembler reads them, which lacks ${texts.length - known.length} more`);
  await browser.type("base", "1000");
  await browser.type("code", TYPED.join("\n"));
  assembled(TYPED, 0x1000).forEach((bytes, k) => { if (bytes === null) fail("not GNU's: " + TYPED[k]); });
  same("the typed lines", (await bytesShown(browser)).join(" "), assembled(TYPED, 0x1000).join(" "));
  await browser.type("code", "  AGRK  %r1, %r2, %r3\n\nb9040023\nlg %r1,8(%r2,%r15)\nj 0x1000");
  same("lines and digits", (await bytesShown(browser)).join(" "), ["b9e83012", "b9040023", ...assembled(["lg %r1,8(%r2,%r15)"], 0), "a7f4fff9"].join(" "));
  for (const line of WRONG) {
    await browser.type("code", "lgr %r2,%r3\n" + line);
    if (!/^Line 2 /.test(await browser.value('document.getElementById("wrong").textContent'))) fail("not refused: " + line);
  }
  console.log("lines and digits stand together, and lines of no instruction are refused");
}

// A line of the stored steps as the machine before it and what is wanted of it; null where it is no such line, where the step stops or has no row,
// and where the storage is too small for it.
function storedStep(line) {
  const [, code, how, before, after] = line.match(/^([0-9a-f]+) (emulator|manual) (.*) > (.*)$/) || [];
  if (!code || /^[A-Zn]/.test(after)) return null;
  const set = (state, text) => {
    for (const word of text.split(" ")) {
      const [, kind, place, value] = word.match(/^([cprvmf])([0-9a-f]*)=([0-9a-f]+)$/);
      if (kind === "c") state.code = Number(value);
      else if (kind === "p") state.place = value;
      else if (kind === "m") state.memory.push([parseInt(place, 16), Buffer.from(value, "hex")]);
      else if (kind === "f") state.free[Number(place)] = value;
      else state[kind === "r" ? "general" : "vector"][Number(place)] = value;
    }
    return state;
  };
  const zeros = n => Array(n).fill("0");
  const first = set({ place: "1000", general: zeros(16), vector: zeros(32), memory: [], free: {} }, before);
  const starts = [0x1000, ...first.memory.map(([at]) => at)], ends = [0x1000 + code.length / 2, ...first.memory.map(([at, bytes]) => at + bytes.length)];
  const start = Math.min(...starts);
  if (Math.max(...ends) - start > 1024) return null;
  const next = (0x1000 + code.length / 2).toString(16);
  const last = set({ place: next, code: first.code, general: [...first.general], vector: [...first.vector], memory: [], free: {} }, after);
  const bytes = Buffer.alloc(1024);
  for (const [at, part] of [[0x1000, Buffer.from(code, "hex")], ...first.memory]) part.copy(bytes, at - start);
  const wanted = Buffer.from(bytes);
  for (const [at, part] of last.memory) part.copy(wanted, at - start);
  return { line, start: start.toString(16), ...first, bytes: bytes.toString("hex"), wanted: { ...last, bytes: wanted.toString("hex") } };
}

// The stored steps, in the page's own machine; what it shows is read again.
async function stored(browser) {
  const steps = read("crates", "s390x_step_vectors", "stdin").split("\n").map(storedStep).filter(Boolean);
  const answers = await browser.value(`(steps => steps.map(given => {
    const big = text => BigInt("0x" + text);
    before = undefined;
    machine = { general: given.general.map(big), vector: given.vector.map(big), access: Array(16).fill(0n), place: big(given.place), code: given.code, start: big(given.start),
      bytes: given.bytes.match(/../g).map(pair => parseInt(pair, 16)) };
    step();
    const shown = (name, n) => Array.from({ length: n }, (_, k) => document.getElementById(name + k).value.replace(/^0+(?=.)/, ""));
    return { end: document.getElementById("end").dataset.end, place: document.getElementById("place").value, code: Number(document.getElementById("code_number").value),
      general: shown("r", 16), vector: shown("v", 32), bytes: [...document.querySelectorAll("#storage td")].map(cell => cell.textContent).join("") };
  }))(${JSON.stringify(steps)})`);
  answers.forEach((shown, k) => {
    const { line, wanted } = steps[k];
    same("the end of " + line, shown.end, "0");
    for (const name of ["place", "code", "bytes"]) same(name + " of " + line, shown[name], wanted[name]);
    // bits of a vector register that a step leaves free
    const kept = registers => registers.map((value, n) => (BigInt("0x" + value) | BigInt("0x" + (wanted.free[n] || "0"))).toString(16));
    same("general of " + line, shown.general.join(" "), wanted.general.join(" "));
    same("vector of " + line, kept(shown.vector).join(" "), kept(wanted.vector).join(" "));
  });
  console.log(`${answers.length} stored steps end on the page as on the emulator and by the manual`);
}

// The sum of 5, 4, 3, 2 and 1 is stored behind the code; then a branch leads to bytes that are no instruction.
async function run(browser) {
  await browser.type("base", "2000");
  await browser.type("code", "a7280005 a7390000 b9080032 a72affff a774fffc 5030f080 07fe");
  for (let k = 0; k < 2 + 5 * 3 + 2; k++) { await browser.press("step"); same("step " + k, await browser.value('document.getElementById("end").dataset.end'), "0"); }
  same("the sum", await browser.value('document.getElementById("r3").value'), "000000000000000f");
  same("the code", await browser.value('document.getElementById("code_number").value'), "0");
  same("what is stored", await browser.value('[...document.querySelectorAll("#storage td")].slice(128, 132).map(cell => cell.textContent).join("")'), "0000000f");
  same("where it goes on", await browser.value('document.getElementById("place").value'), "23fe");
  await browser.press("step");
  same("the stop", await browser.value('document.getElementById("end").dataset.end'), "4");
  await browser.type("code", "07f");
  if (!(await browser.value('document.getElementById("wrong").textContent'))) fail("half a byte isn't refused");
  console.log("a loop runs on the page, stops at bytes that are no instruction, and half a byte is refused");
}

async function picture(browser) {
  await browser.type("base", "1000");
  await browser.type("code", "lhi %r2,5\nlghi %r3,0\nagr %r3,%r2\nahi %r2,-1\njne 0x1008\n5030f080 07fe");
  for (let k = 0; k < 7; k++) await browser.press("step");
  const { data } = await browser.ask("Page.captureScreenshot", { format: "png", clip: { x: 0, y: 0, width: 1280, height: 900, scale: 0.75 } });
  fs.writeFileSync(image, Buffer.from(data, "base64"));
}

const browser = new Browser();
await browser.open(path.join(top, "page", "index.html"));
await instructions(browser);
await lines(browser);
await stored(browser);
await run(browser);
if (image) await picture(browser);
browser.process.kill();
process.exit(0);
