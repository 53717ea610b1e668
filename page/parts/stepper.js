// A run that the user makes: of the commits that may come next one is taken, and taken back. It begins with the journal
// that is shown, of whatever run that is.

class Stepper {
  constructor(play, show) {
    this.play = play;
    this.show = show;
    this.commits = [];
  }

  // Asks what may come next, and draws it with the chart of what was taken.
  async draw({ commits, kind, text }, of) {
    this.commits = commits;
    const files = { [JOURNAL]: text };
    const next = await this.play(["next", SCRIPT, JOURNAL], files);
    const why = await this.play(["why", SCRIPT, JOURNAL], files);
    const chart = await this.play(["chart", SCRIPT, JOURNAL], files);
    const choices = lines_of(next.out);
    const told = `${counted(commits.length, "commit")} taken. ` + (choices.length
      ? `${choices.length} may come next.` : "No commit may come next.");
    const label = `Chart of ${counted(commits.length, "commit")}`;
    return {
      told,
      asked: next,
      waiting: waiting_in(why.out),
      inside: [
        ...this.drawn_choices(commits, choices),
        this.drawn_moves(commits, choices),
        ...(kind === "own" || !commits.length ? [] : [drawn_hint(`These are the commits of ${of}.`)]),
        drawn_title("So far"),
        drawn_chart(chart.out, label),
        ...drawn_journal(commits),
      ],
    };
  }

  // A choice is of the commits that it was drawn behind, however often it is pressed.
  drawn_choices(commits, choices) {
    const end = "The run is at its end. Take commits back to go another way.";
    if (!choices.length) return [made("p", { class: "hint" }, end)];
    const buttons = choices.map((line) => made("li", {}, made_button(line, () => this.go([...commits, line]))));
    return [made("ul", { class: "commits", "aria-label": "Commits that may come next" }, ...buttons)];
  }

  drawn_moves(commits, choices) {
    const back = made_button("Take back", () => this.go(this.commits.slice(0, -1)));
    const over = made_button("Start over", () => this.go([]));
    const any = made_button("Take any", () => {
      this.go([...commits, choices[Math.floor(Math.random() * choices.length)]]);
    });
    back.disabled = over.disabled = !commits.length;
    any.disabled = !choices.length;
    return made("div", { class: "moves" }, back, over, any);
  }

  // Goes to a journal, and to the end of its chart. It keeps the place of the keyboard: at the button of that name, or
  // at the first choice.
  async go(commits) {
    const label = document.activeElement?.textContent;
    const picture = () => found("answer").querySelector(".picture");
    const left = picture()?.scrollLeft ?? 0;
    this.commits = commits;
    await this.show(commits);
    picture()?.scrollTo(left, picture().scrollHeight);
    const all = found("answer").querySelectorAll(".moves button, .commits button");
    const buttons = [...all].filter((it) => !it.disabled);
    (buttons.find((it) => it.textContent === label) ?? buttons[0])?.focus({ preventScroll: true });
  }
}
