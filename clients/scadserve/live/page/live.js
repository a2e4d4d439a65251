// The page of scadlive: what is typed is solved as it is typed, by the server that the page comes from.
//
// Each tab is a client of its own. An answer to an older text than the one that is shown already is dropped.

import { Page, Solid } from "./viewer.js";
import { CodeEditor, PlainEditor } from "./editor.js";
import { solidOf } from "./solid.js";

// Milliseconds from the last key to the export, and those after which it is told that the server is at work.
const PAUSE = 25;
const LONG = 400;
const VIEW = [30, 30];
const ENDING = ".scad";
const EXAMPLE = `// a plate with a hole; lengths are whole numbers
width = 30; // [10:60]
difference() {
    cube([width, 20, 4]);
    translate([8, 6, 0]) cube([8, 8, 4]);
}
`;

function element(id) {
  return document.getElementById(id);
}

/** A new element with this text or these elements in it. */
function made(name, values = {}, ...inside) {
  const found = Object.assign(document.createElement(name), values);
  found.append(...inside);
  return found;
}

/** What a name is in the address of a file. */
function address(name) {
  return `files/${name.split("/").map(encodeURIComponent).join("/")}`;
}

/** The fields of the parameters, and the values that were chosen in them. */
class Parameters {
  #shown = "";
  #known = [];
  values = new Map();

  constructor(onChange, onWrite) {
    this.onChange = onChange;
    this.onWrite = onWrite;
    element("write-all").addEventListener("click", () => this.onWrite(this.#known.filter(({ name }) => this.values.has(name))));
    element("reset-all").addEventListener("click", () => this.#reset([...this.values.keys()]));
  }

  /** What is assigned behind the text: NAME=VALUE of each value that is another one than the text's. */
  get definitions() {
    return [...this.values].map(([name, value]) => `${name}=${value}`);
  }

  /** Another text is edited. */
  forget() {
    this.values.clear();
  }

  /** Shows the parameters of a text. Fields stay as they are where nothing but their values have changed. */
  show(parameters) {
    this.#known = parameters;
    const names = new Set(parameters.map(({ name }) => name));
    for (const name of this.values.keys()) {
      const own = parameters.find((it) => it.name === name);
      if (!names.has(name) || own.value === this.values.get(name)) {
        this.values.delete(name);
      }
    }
    const form = JSON.stringify(parameters.map(({ start, end, value, ...others }) => others));
    if (form !== this.#shown) {
      this.#shown = form;
      this.#build();
    }
    this.#update();
  }

  #build() {
    element("parameters").hidden = !this.#known.length;
    const sections = new Map();
    for (const parameter of this.#known) {
      const { section } = parameter;
      if (!sections.has(section)) {
        sections.set(section, made("fieldset", {}, ...(section ? [made("legend", { textContent: section })] : [])));
      }
      sections.get(section).append(this.#field(parameter));
    }
    element("fields").replaceChildren(...sections.values());
  }

  #field(parameter) {
    const { name, kind, description } = parameter;
    const id = `parameter-${name}`;
    const field = made("div", { className: "field" });
    field.dataset.name = name;
    const value = made("div", { className: "value" });
    value.append(...this.#inputs(parameter, id));
    const label = kind === "list" ? made("span", { className: "name" }) : made("label", { htmlFor: id });
    label.textContent = name;
    const write = made("button", { type: "button", textContent: "Write", title: `write ${name} into the text` });
    write.addEventListener("click", () => this.onWrite(this.#known.filter((it) => it.name === name)));
    const reset = made("button", { type: "button", textContent: "Reset", title: `take ${name} as the text has it` });
    reset.addEventListener("click", () => this.#reset([name]));
    for (const button of [write, reset]) {
      button.setAttribute("aria-label", button.title);
    }
    field.append(label, value, made("div", { className: "both" }, write, reset));
    if (description) {
      const said = made("small", { id: `${id}-said`, textContent: description });
      value.querySelectorAll("input, select").forEach((it) => it.setAttribute("aria-describedby", said.id));
      field.append(said);
    }
    return field;
  }

  /** What a value is chosen by: a check, a list, a slider with a field, or fields. */
  #inputs(parameter, id) {
    const { name, kind, choices, low, high, step } = parameter;
    const set = (value) => this.#set(name, value);
    if (choices.length) {
      const select = made("select", { id }, ...choices.map((it) => made("option", { value: it.value, textContent: it.label })));
      select.addEventListener("change", () => set(select.value));
      return [select];
    }
    if (kind === "truth") {
      const check = made("input", { id, type: "checkbox" });
      check.addEventListener("change", () => set(String(check.checked)));
      return [check];
    }
    if (kind === "text") {
      const text = made("input", { id, type: "text", ...(high ? { maxLength: Number(high) } : {}) });
      text.addEventListener("input", () => set(JSON.stringify(text.value)));
      return [text];
    }
    const bounds = { ...(low === null ? {} : { min: low }), ...(high === null ? {} : { max: high }), step: step ?? "1" };
    if (kind === "list") {
      const count = parameter.value.split(",").filter((it) => it.replace(/[[\]\s]/g, "")).length;
      const fields = Array.from({ length: count }, () => made("input", { type: "number", ...bounds }));
      fields.forEach((it, at) => {
        it.setAttribute("aria-label", `${name}, number ${at + 1}`);
        it.addEventListener("input", () => {
          const values = fields.map((one) => one.value);
          if (values.every((value) => value !== "")) set(`[${values.join(", ")}]`);
        });
      });
      return fields;
    }
    const field = made("input", { id, type: "number", ...bounds });
    const take = (value) => value !== "" && set(value);
    field.addEventListener("input", () => take(field.value));
    if (low === null || high === null) {
      return [field];
    }
    const slider = made("input", { type: "range", ...bounds });
    slider.setAttribute("aria-label", `${name}, from ${low} to ${high}`);
    slider.addEventListener("input", () => take(slider.value));
    return [slider, field];
  }

  #set(name, value) {
    const own = this.#known.find((it) => it.name === name);
    if (own.value === value) {
      this.values.delete(name);
    } else {
      this.values.set(name, value);
    }
    this.#update();
    this.onChange();
  }

  #reset(names) {
    names.forEach((name) => this.values.delete(name));
    this.#update();
    this.onChange();
  }

  /** Shows the values in the fields, but in the one that is being typed in. */
  #update() {
    for (const { name, kind, value } of this.#known) {
      const field = element("fields").querySelector(`[data-name="${CSS.escape(name)}"]`);
      const now = this.values.get(name) ?? value;
      field.classList.toggle("is-other", this.values.has(name));
      field.querySelectorAll("button").forEach((it) => (it.disabled = !this.values.has(name)));
      const parts = kind === "list" ? now.replace(/[[\]\s]/g, "").split(",") : [];
      field.querySelectorAll("input, select").forEach((it, at) => {
        if (it.type === "checkbox") {
          it.checked = now === "true";
        } else if (it !== document.activeElement || it.type === "range" || !this.values.has(name)) {
          it.value = kind === "list" ? parts[at] : it.type === "text" ? JSON.parse(now.replace(/\n/g, "\\n")) : now;
        }
      });
    }
    element("write-all").disabled = element("reset-all").disabled = !this.values.size;
  }
}

/** What is told below: faults and notes, each a button that goes to its place. */
class Told {
  constructor(goTo) {
    this.goTo = goTo;
    this.first = null;
  }

  show(faults, notes) {
    const items = [...faults.map((it) => this.#item(it, "fault")), ...notes.map((it) => this.#item(it, "note"))];
    this.first = faults[0] ?? null;
    // (the same words are not said once more)
    const told = JSON.stringify([faults, notes]);
    if (told !== this.told) {
      this.told = told;
      element("faults").replaceChildren(...items);
    }
  }

  #item(it, kind) {
    const where = it.line ? `${it.file}:${it.line}:${it.column}` : (it.file ?? "");
    const item = made("button", { type: "button", className: `told ${kind}` });
    const place = made("span", { className: "where", textContent: where });
    item.append(made("b", { textContent: it.word ?? "note" }), " ", it.message, " ", place);
    if (it.cure) {
      item.append(made("span", { className: "cure", textContent: `cure: ${it.cure}` }));
    }
    item.addEventListener("click", () => this.goTo(it));
    return item;
  }
}

/** The page. */
class Live {
  #number = 0;
  #answered = 0;
  #marks = new Map();
  #libraries = 0;
  #mark = null;
  #saved = "";
  #file = null;
  #isReadOnly = false;

  constructor(begin) {
    this.begin = begin;
    this.client = Array.from(crypto.getRandomValues(new Uint8Array(12)), (it) => it.toString(16).padStart(2, "0")).join("");
    const Editor = begin.editor === "plain" ? PlainEditor : CodeEditor;
    this.editor = new Editor(element("editor"), () => this.#typed());
    this.parameters = new Parameters(() => this.#export(), (written) => this.#write(written));
    this.told = new Told((it) => this.#goTo(it));
    element("half").checked = begin.half;
    element("by").hidden = !begin.openscad;
    element("plain").hidden = !begin.codemirror;
    if (begin.editor === "plain") {
      Object.assign(element("plain"), { href: "./", textContent: "The page with CodeMirror" });
    }
    this.#listen();
    this.#start();
  }

  async #start() {
    const named = decodeURIComponent(window.location.hash.slice(1));
    const { files } = await (await fetch("files")).json();
    this.#heard({ files, libraries: 0 });
    const first = [named, this.begin.first].find((name) => name in files) ?? (this.begin.first ? null : Object.keys(files)[0]);
    if (first) {
      await this.#load(first);
    } else {
      this.#take(this.begin.first || null, EXAMPLE, null);
    }
    this.#connect();
    this.editor.focus();
  }

  #listen() {
    element("file").addEventListener("change", () => this.#choose(element("file").value));
    element("new").addEventListener("click", () => this.#makeNew());
    element("save").addEventListener("click", () => this.#save());
    element("half").addEventListener("change", () => this.#export());
    element("openscad").addEventListener("change", () => this.#export());
    element("download").addEventListener("click", () => this.#download());
    element("changed-load").addEventListener("click", () => this.#load(this.#file));
    element("changed-keep").addEventListener("click", () => {
      this.#mark = this.#marks.get(this.#file) ?? null;
      element("changed").hidden = true;
      this.editor.focus();
    });
    document.addEventListener("keydown", (event) => this.#pressed(event));
    document.addEventListener("visibilitychange", () => this.#connect());
    window.addEventListener("hashchange", () => this.#choose(decodeURIComponent(window.location.hash.slice(1))));
    window.addEventListener("beforeunload", (event) => this.isChanged && event.preventDefault());
    this.#divide();
  }

  get isChanged() {
    return this.editor.text !== this.#saved;
  }

  // Files.

  /** Listens to changes on disk while the page is seen: a browser has few connections to one server. */
  #connect() {
    if (document.hidden) {
      this.events?.close();
      this.events = null;
    } else if (!this.events) {
      this.events = new EventSource("events");
      this.events.addEventListener("message", ({ data }) => this.#heard(JSON.parse(data)));
      this.events.addEventListener("open", () => this.wasLost && this.#export());
      this.events.addEventListener("error", () => this.#say("the server isn't reached", true));
    }
  }

  /** The marks of all files have come. */
  #heard({ files, libraries }) {
    const before = this.#marks;
    this.#marks = new Map(Object.entries(files));
    this.#list();
    const mark = this.#marks.get(this.#file) ?? null;
    if (this.#file && mark !== this.#mark) {
      this.#changedOnDisk(mark);
    }
    const others = [...this.#marks].some(([name, it]) => name !== this.#file && before.get(name) !== it);
    if (this.#number && (others || libraries !== this.#libraries)) {
      this.#export();
    }
    this.#libraries = libraries;
  }

  #changedOnDisk(mark) {
    if (mark && !this.isChanged) {
      this.#load(this.#file);
      return;
    }
    element("changed-said").textContent = `${this.#file} ${mark ? "has another text on disk now." : "is no longer on disk."}`;
    element("changed-load").hidden = !mark;
    element("changed").hidden = false;
  }

  #list() {
    const names = [...this.#marks.keys()];
    if (this.#file && !this.#marks.has(this.#file)) {
      names.unshift(this.#file);
    }
    const list = element("file");
    const options = names.map((name) => made("option", { value: name, textContent: name }));
    if (!this.#file) {
      options.unshift(made("option", { value: "", textContent: "not saved yet" }));
    }
    if (list.textContent !== options.map((it) => it.textContent).join("")) {
      list.replaceChildren(...options);
    }
    list.value = this.#file ?? "";
  }

  /** Goes to another file, unless what is typed would be lost and that isn't wanted. */
  async #choose(name) {
    if (name === this.#file || !this.#marks.has(name)) {
      return;
    }
    if (this.isChanged && !window.confirm(`${this.#file ?? "The text"} isn't saved. Leave it?`)) {
      element("file").value = this.#file ?? "";
      return;
    }
    await this.#load(name);
  }

  async #load(name) {
    const response = await fetch(address(name));
    if (!response.ok) {
      this.#say(`${name} can't be read`, true);
      return;
    }
    const bytes = await response.arrayBuffer();
    const text = new TextDecoder("utf-8", { ignoreBOM: true }).decode(bytes);
    this.#take(name, text, response.headers.get("ETag").slice(1, -1));
    // (what is no UTF-8 would be saved as other bytes)
    this.#isReadOnly = new TextEncoder().encode(text).length !== bytes.byteLength;
    element("save").disabled = this.#isReadOnly;
    this.#say(this.#isReadOnly ? "no UTF-8: it can't be saved here" : "");
  }

  #take(name, text, mark) {
    const isOther = name !== this.#file || !this.#number;
    Object.assign(this, { isTaking: true });
    [this.#file, this.#mark] = [name, mark];
    if (isOther) {
      this.parameters.forget();
    }
    this.editor.set(text, isOther);
    this.#saved = mark === null ? "" : this.editor.text;
    this.isTaking = false;
    element("changed").hidden = true;
    document.title = `${name ?? "new"} - scadlive`;
    if (name) {
      window.history.replaceState(window.history.state, "", `#${encodeURIComponent(name)}`);
    }
    this.#list();
    this.#showState();
    this.#export();
  }

  async #save() {
    if (!this.#file) {
      await this.#makeNew();
    } else if (!this.#isReadOnly) {
      await this.#put(this.#file, this.#mark ? { "If-Match": `"${this.#mark}"` } : { "If-None-Match": "*" });
    }
  }

  /** Writes the text to a file, where that is as it was known. Whether it was written. */
  async #put(name, condition) {
    const text = this.editor.text;
    let response;
    try {
      response = await fetch(address(name), { method: "PUT", body: text, headers: condition });
    } catch {
      this.#say("not saved: the server isn't reached", true);
      return false;
    }
    if (response.status === 412) {
      return this.#resolve(name, response.headers.get("ETag").slice(1, -1));
    }
    if (!response.ok) {
      this.#say(`not saved: ${(await response.text()).trim()}`, true);
      return false;
    }
    this.#mark = response.headers.get("ETag").slice(1, -1);
    this.#marks.set(name, this.#mark);
    this.#saved = text;
    element("changed").hidden = true;
    this.#say("saved");
    this.#list();
    return true;
  }

  /** The file has another text on disk: asks what is to be done. */
  async #resolve(name, mark) {
    element("conflict-said").textContent = mark
      ? `${name} was changed on disk since it was loaded.`
      : `${name} was removed on disk since it was loaded.`;
    const wanted = await this.#ask("conflict");
    if (wanted === "mine") {
      return this.#put(name, mark ? { "If-Match": `"${mark}"` } : { "If-None-Match": "*" });
    }
    if (wanted === "theirs" && mark) {
      await this.#load(name);
    }
    return false;
  }

  async #makeNew() {
    element("name").value = this.#file ? "" : "part.scad";
    element("naming-fault").textContent = "";
    while ((await this.#ask("naming")) === "save") {
      const given = element("name").value.trim();
      const name = given.endsWith(ENDING) ? given : given + ENDING;
      if (this.#marks.has(name)) {
        element("naming-fault").textContent = `${name} is there already.`;
        continue;
      }
      const isFirst = !this.#file;
      const before = this.#file;
      this.#file = name;
      if (await this.#put(name, { "If-None-Match": "*" })) {
        this.#take(name, this.editor.text, this.#mark);
        return;
      }
      this.#file = isFirst ? null : before;
      this.#list();
      element("naming-fault").textContent = element("state").textContent;
    }
  }

  /** What a dialog is answered, by the value of its button. */
  #ask(id) {
    const dialog = element(id);
    dialog.returnValue = "";
    dialog.showModal();
    return new Promise((done) => dialog.addEventListener("close", () => done(dialog.returnValue), { once: true }));
  }

  // Solids.

  #typed() {
    if (!this.isTaking) {
      this.#showState();
      window.clearTimeout(this.pausing);
      this.pausing = window.setTimeout(() => this.#export(), PAUSE);
    }
  }

  #query(values) {
    const query = new URLSearchParams(values);
    if (this.#file) {
      query.set("file", this.#file);
    }
    query.set("half", Number(element("half").checked));
    if (element("openscad").checked) {
      query.set("openscad", 1);
      query.delete("half");
    }
    this.parameters.definitions.forEach((it) => query.append("D", it));
    return query;
  }

  async #export() {
    window.clearTimeout(this.pausing);
    const number = ++this.#number;
    window.clearTimeout(this.waiting);
    this.waiting = window.setTimeout(() => element("shown").setAttribute("aria-busy", "true"), LONG);
    const query = this.#query({ format: "json", client: this.client });
    let response, answer;
    try {
      response = await fetch(`solid?${query}`, { method: "POST", body: this.editor.text });
      if (response.status === 409) {
        return;
      }
      if (![200, 422, 503].includes(response.status)) {
        throw new Error((await response.text()).trim());
      }
      answer = await response.json();
    } catch (error) {
      if (number === this.#number) {
        this.wasLost = true;
        this.#say(error.message, true);
      }
      return;
    }
    if (number < this.#answered) {
      return;
    }
    this.#answered = number;
    this.wasLost = false;
    if (number === this.#number) {
      window.clearTimeout(this.waiting);
      element("shown").removeAttribute("aria-busy");
    }
    this.#show(answer);
  }

  #show(answer) {
    const faults = answer.faults ?? [];
    const found = answer.solid ? solidOf(answer.solid, answer.unit ?? "1") : null;
    if (answer.solid && !found) {
      faults.push({
        word: "Empty",
        message: "this source makes no solid at all",
        cure: "look for a * or %, an if, or a difference that leaves nothing",
      });
    }
    if (found) {
      this.#draw(new Solid(found.drawn));
      element("box").textContent = `${found.facts.box}${answer.unit ? " mm" : ""}`;
      element("box").title = found.facts.ends;
      element("volume").textContent = `${found.facts.volume}${answer.unit ? " mm³" : ""}`;
      element("count").textContent = found.facts.faces;
    }
    element("time").textContent = `${answer.milliseconds} ms`;
    element("shown").classList.toggle("is-old", !found);
    element("old").hidden = Boolean(found) || !this.page;
    element("empty").hidden = Boolean(this.page);
    element("download").disabled = !found;
    this.told.show(faults, answer.notes);
    const told = [...faults.map((it) => ["fault", it]), ...answer.notes.map((it) => ["note", it])];
    this.editor.mark(told.flatMap((it) => this.#place(...it)));
    this.parameters.show(answer.parameters);
    document.documentElement.dataset.shown = this.#answered;
    document.documentElement.dataset.faults = faults.map(({ word }) => word).join(" ");
  }

  #place(kind, it) {
    if (!it.line || it.file !== (this.#file ?? "source.scad")) {
      return [];
    }
    const said = it.cure ? `${it.message}\n${it.cure}` : it.message;
    return [{ kind, line: it.line, start: it.start ?? 0, end: it.end ?? 0, said }];
  }

  #draw(solid) {
    if (this.page) {
      this.page.replace(solid);
    } else {
      this.page = new Page(solid, VIEW, element("shown"));
    }
  }

  /** Goes to the place of a fault, in another file where it stands there. */
  async #goTo(it) {
    if (!it.line) {
      return;
    }
    const own = this.#file ?? "source.scad";
    if (it.file !== own) {
      await this.#choose(it.file);
    }
    if (it.file === (this.#file ?? "source.scad")) {
      this.editor.goTo(it.line, it.start ?? 0);
    }
  }

  /** Writes the values of parameters into the text, from the last to the first. */
  #write(parameters) {
    this.isTaking = true;
    for (const { name, start, end } of [...parameters].sort((one, other) => other.start - one.start)) {
      this.editor.replace(start, end, this.parameters.values.get(name));
    }
    this.isTaking = false;
    this.#showState();
    this.#export();
  }

  async #download() {
    const form = element("format").value;
    const response = await fetch(`solid?${this.#query({ format: form })}`, { method: "POST", body: this.editor.text });
    if (!response.ok) {
      const said = await response.text();
      this.#say(response.status === 422 ? `no file: ${JSON.parse(said).faults[0].message}` : said.trim(), true);
      return;
    }
    const link = made("a", { href: URL.createObjectURL(await response.blob()) });
    const name = (this.#file ?? "source.scad").split("/").pop().slice(0, -ENDING.length);
    link.download = name + this.begin.formats[form];
    link.click();
    window.setTimeout(() => URL.revokeObjectURL(link.href), 60000);
    this.#say(`${link.download} is made`);
  }

  // The page itself.

  #say(text, isBad = false) {
    element("state").textContent = text;
    element("state").classList.toggle("is-bad", isBad);
  }

  #showState() {
    this.#say(this.isChanged ? "changed" : "");
  }

  #pressed(event) {
    const isCommand = event.ctrlKey || event.metaKey;
    if (isCommand && !event.altKey && event.key.toLowerCase() === "s") {
      event.preventDefault();
      this.#save();
    } else if (event.key === "F8" && this.told.first) {
      event.preventDefault();
      this.#goTo(this.told.first);
    } else if (event.key === "F6") {
      event.preventDefault();
      this.#nextPart(event.shiftKey ? -1 : 1);
    }
  }

  /** Goes on to the next part of the page: the text, its parameters, the solid, what is told, what stands above. */
  #nextPart(by) {
    const parts = [
      [element("editor"), () => this.editor.focus()],
      [element("parameters"), () => element("parameters").querySelector("summary").focus()],
      [element("shown"), () => element("view").focus()],
      [element("faults"), () => element("faults").querySelector("button")?.focus()],
      [document.querySelector("header"), () => element("file").focus()],
    ].filter(([part]) => !part.hidden && part.childElementCount);
    const at = parts.findIndex(([part]) => part.contains(document.activeElement));
    parts[(at + by + parts.length) % parts.length][1]();
  }

  /** The line between text and solid moves by the pointer and by keys. */
  #divide() {
    const divider = element("divider");
    const set = (percent) => {
      const part = Math.round(Math.max(15, Math.min(85, percent)));
      divider.setAttribute("aria-valuenow", part);
      document.querySelector("main").style.setProperty("--split", `${part}%`);
      this.editor.editor?.refresh();
    };
    divider.addEventListener("pointerdown", (event) => divider.setPointerCapture(event.pointerId));
    divider.addEventListener("pointermove", (event) => {
      if (divider.hasPointerCapture(event.pointerId)) {
        set((100 * event.clientX) / document.querySelector("main").clientWidth);
      }
    });
    divider.addEventListener("keydown", (event) => {
      const by = { ArrowLeft: -3, ArrowRight: 3 }[event.key];
      if (by) {
        event.preventDefault();
        set(Number(divider.getAttribute("aria-valuenow")) + by);
      }
    });
  }
}

new Live(JSON.parse(element("begin").textContent));
