// What is told below the editor as one types: the first fault with its place, or of what the script consists.

const PAUSE = 120;

class Checking {
  constructor(caller, editor) {
    this.caller = caller;
    this.editor = editor;
    this.turn = 0;
  }

  // Checks the text once nothing was typed for a moment.
  soon() {
    clearTimeout(this.timer);
    this.timer = setTimeout(() => this.now(), PAUSE);
  }

  async now() {
    clearTimeout(this.timer);
    this.turn += 1;
    const turn = this.turn;
    const files = { [SCRIPT]: this.editor.text };
    const why = await this.caller.call(["why", SCRIPT], files);
    const check = why.status === 0 ? await this.caller.call(["check", SCRIPT], files) : null;
    if (turn !== this.turn) return;
    if (check) this.tell_script(check.out);
    else this.tell_fault(why);
  }

  tell_script(text) {
    const [processes, channels] = text.match(/[0-9]+/g).map(Number);
    const parts = [counted(processes, "process", "es"), counted(channels, "channel")];
    this.editor.mark_fault(0, 0);
    found("state").replaceChildren(`A script: ${parts.join(" and ")}.`);
  }

  tell_fault({ out, broke }) {
    const told = /^fault [0-9]+(?: line ([0-9]+) column ([0-9]+))?: (.*)/.exec(out);
    if (!told) return found("state").replaceChildren(broke || out);
    const [line, column] = [Number(told[1] ?? 0), Number(told[2] ?? 0)];
    const go_to = () => this.editor.go_to(line, column);
    const place = made_button(`Line ${line}, column ${column}`, go_to, { class: "here" });
    const first = made("div", { class: "fault" }, ...(line ? [place, ": "] : []), ...quoted(`${told[3]}.`));
    const more = lines_of(out).filter((it) => it.startsWith("help: ") || it.startsWith("here may stand: "));
    const rest = more.map((it) => made("div", {}, ...quoted(`${it[0].toUpperCase()}${it.slice(1)}`)));
    this.editor.mark_fault(line, column);
    return found("state").replaceChildren(first, ...rest);
  }
}
