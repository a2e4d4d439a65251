// The two editors of a text, with the same calls: CodeMirror, and a text area with numbers of its lines.

const WORDS = {
  keyword: "module function if else for intersection_for let each true false undef use include assert echo",
  builtin:
    "cube polyhedron cylinder square polygon circle linear_extrude translate rotate mirror scale multmatrix union difference " +
    "intersection hull color render children abs sign floor ceil round min max len concat pow is_undef is_num is_bool is_list",
};
const KINDS = new Map(Object.entries(WORDS).flatMap(([kind, words]) => words.split(" ").map((word) => [word, kind])));

/** How CodeMirror colours a source. */
function mode() {
  return {
    startState: () => ({ isComment: false }),
    token(stream, state) {
      if (state.isComment || stream.match("/*")) {
        state.isComment = !stream.match(/^.*?\*\//);
        if (state.isComment) {
          stream.skipToEnd();
        }
        return "comment";
      }
      if (stream.match(/^\/\/.*/)) {
        return "comment";
      }
      if (stream.match(/^"(?:\\.|[^"\\])*"?/)) {
        return "string";
      }
      if (stream.match(/^(?:\d+\.?\d*|\.\d+)(?:[eE][+-]?\d+)?/)) {
        return "number";
      }
      const name = stream.match(/^\$?[A-Za-z_]\w*/);
      if (name) {
        return name[0].startsWith("$") ? "variable-2" : (KINDS.get(name[0]) ?? "variable");
      }
      stream.next();
      return null;
    },
    lineComment: "//",
    blockCommentStart: "/*",
    blockCommentEnd: "*/",
  };
}

/** An editor by CodeMirror. */
export class CodeEditor {
  #marks = [];

  constructor(place, onChange) {
    const { CodeMirror } = window;
    CodeMirror.defineMode("scad", mode);
    this.editor = CodeMirror(place, {
      mode: "scad",
      lineNumbers: true,
      matchBrackets: true,
      autoCloseBrackets: true,
      indentUnit: 4,
      lineSeparator: "\n",
      gutters: ["CodeMirror-linenumbers", "faults"],
      screenReaderLabel: "Source",
      // (Tab leaves the text, so that no key is needed to get out)
      extraKeys: { Tab: false, "Shift-Tab": false, "Ctrl-/": "toggleComment", "Cmd-/": "toggleComment" },
    });
    this.editor.on("change", onChange);
  }

  get text() {
    return this.editor.getValue();
  }

  /** Makes another text the whole one; the cursor and what is seen stay where they are, unless it is that of another file. */
  set(text, isOther) {
    const [cursor, scroll] = [this.editor.getCursor(), this.editor.getScrollInfo()];
    this.editor.setOption("lineSeparator", /\r\n/.test(text) && !/(^|[^\r])\n/.test(text) ? "\r\n" : "\n");
    this.editor.setValue(text);
    if (isOther) {
      this.editor.clearHistory();
    } else {
      this.editor.setCursor(cursor);
      this.editor.scrollTo(scroll.left, scroll.top);
    }
  }

  /** Puts a text between two places of the whole text. */
  replace(start, end, text) {
    this.editor.replaceRange(text, this.editor.posFromIndex(start), this.editor.posFromIndex(end));
  }

  /** Marks places, each with a line from 1, a start and an end from 0, and what is said there. */
  mark(places) {
    this.editor.operation(() => {
      this.#marks.forEach((mark) => mark.clear());
      this.editor.clearGutter("faults");
      this.#marks = places.flatMap((place) => this.#marked(place));
    });
  }

  #marked({ line, start, end, said, kind }) {
    const at = Math.min(line - 1, this.editor.lastLine());
    const length = this.editor.getLine(at).length;
    const from = line - 1 > at ? length : Math.min(start, length);
    const sign = document.createElement("span");
    sign.className = `sign ${kind}`;
    sign.title = said;
    sign.textContent = "●";
    this.editor.setGutterMarker(at, "faults", sign);
    const to = Math.max(from + 1, Math.min(end, length));
    const shown = from < length ? [from, to] : [Math.max(0, length - 1), length];
    return [
      this.editor.markText(
        { line: at, ch: shown[0] },
        { line: at, ch: shown[1] },
        { className: `marked ${kind}`, title: said },
      ),
    ];
  }

  goTo(line, column) {
    this.editor.focus();
    this.editor.setCursor({ line: line - 1, ch: column });
    this.editor.scrollIntoView(null, 80);
  }

  focus() {
    this.editor.focus();
  }
}

/** A text area beside the numbers of its lines. */
export class PlainEditor {
  #places = [];
  #hasReturns = false;

  constructor(place, onChange) {
    this.numbers = document.createElement("div");
    this.numbers.className = "numbers";
    this.numbers.setAttribute("aria-hidden", "true");
    this.area = document.createElement("textarea");
    this.area.spellcheck = false;
    this.area.wrap = "off";
    this.area.autocapitalize = "off";
    this.area.setAttribute("aria-label", "Source");
    this.area.setAttribute("aria-describedby", "faults");
    const around = document.createElement("div");
    around.className = "plain";
    around.append(this.numbers, this.area);
    place.append(around);
    this.area.addEventListener("input", () => {
      this.#number();
      onChange();
    });
    this.area.addEventListener("scroll", () => {
      this.numbers.scrollTop = this.area.scrollTop;
    });
    this.onChange = onChange;
    this.#number();
  }

  get text() {
    return this.#hasReturns ? this.area.value.replace(/\n/g, "\r\n") : this.area.value;
  }

  set(text, isOther) {
    const { selectionStart, selectionEnd, scrollTop } = this.area;
    this.#hasReturns = /\r\n/.test(text) && !/(^|[^\r])\n/.test(text);
    this.area.value = text;
    if (!isOther) {
      this.area.setSelectionRange(selectionStart, selectionEnd);
      this.area.scrollTop = scrollTop;
    }
    this.#number();
    this.onChange();
  }

  replace(start, end, text) {
    const before = this.text;
    this.set(before.slice(0, start) + text + before.slice(end), false);
  }

  mark(places) {
    this.#places = places;
    this.#number();
    this.area.setAttribute("aria-invalid", places.some(({ kind }) => kind === "fault"));
  }

  /** Writes the numbers of the lines, those with faults marked. */
  #number() {
    const count = this.area.value.split("\n").length;
    const said = new Map(this.#places.map(({ line, kind, said: words }) => [Math.min(line, count), [kind, words]]));
    const rows = Array.from({ length: count }, (_, at) => {
      const row = document.createElement("div");
      row.textContent = at + 1;
      const [kind, words] = said.get(at + 1) ?? [];
      if (kind) {
        row.className = kind;
        row.title = words;
      }
      return row;
    });
    this.numbers.replaceChildren(...rows);
    this.numbers.scrollTop = this.area.scrollTop;
  }

  goTo(line, column) {
    const lines = this.area.value.split("\n");
    const at = lines.slice(0, line - 1).reduce((sum, it) => sum + it.length + 1, 0) + column;
    this.area.focus();
    this.area.setSelectionRange(at, at);
    const height = this.area.scrollHeight / lines.length;
    this.area.scrollTop = Math.max(0, (line - 1) * height - this.area.clientHeight / 2);
  }

  focus() {
    this.area.focus();
  }
}
