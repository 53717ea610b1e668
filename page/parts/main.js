// How the page begins: what is loaded, and what each button and key does.

function told_lack() {
  found("lacks").textContent = "This browser has no 64-bit memories for WebAssembly (memory64), which the program "
    + "needs. Open the page in Chrome or Edge from version 133 on, or in Firefox from 134. Here you can read, write "
    + "and copy links.";
  found("lacks").hidden = false;
  for (const button of document.querySelectorAll(".acts button:not(.plain)")) button.disabled = true;
}

// The buttons behind the scripts of the language's page.
function let_try(load) {
  for (const block of document.querySelectorAll("#language pre")) {
    const text = block.textContent;
    if (!/^(channel|process) /.test(text)) continue;
    const button = made_button("Try it", () => {
      leave_link();
      load({ text, rows: ROWS });
    }, { class: "plain" });
    block.after(made("p", { class: "try" }, button));
  }
}

// Puts the tables of the language's page into frames, as those of the answers are.
function frame_tables() {
  for (const wide of document.querySelectorAll(".prose .wide")) {
    const place = made("div");
    wide.replaceWith(place);
    place.replaceWith(framed(wide, "Table"));
  }
}

async function load_fragment(load) {
  try {
    const held = await held_by(location.hash);
    if (held) load(held);
    return Boolean(held);
  } catch {
    found("notes").textContent = "The link holds no script that can be read.";
    found("notes").hidden = false;
    return false;
  }
}

// Lets one choose an example. What it answers loads the script that was kept, or else the first example.
function connect_examples(load) {
  const examples = JSON.parse(found("examples").textContent);
  const load_and_name = (held) => {
    load(held);
    found("example").value = examples.find((it) => it.text === held.text)?.name ?? "";
  };
  found("example").addEventListener("change", (event) => {
    leave_link();
    load_and_name(examples.find((it) => it.name === event.target.value));
  });
  return () => load_and_name(kept_script() ?? examples[0]);
}

function connect_link(held) {
  const button = found("copy-link");
  button.addEventListener("click", async () => {
    location.hash = await fragment_of(held());
    await copy(location.href);
    button.textContent = "Link copied";
    setTimeout(() => { button.textContent = "Copy link"; }, 1500);
  });
}

// Asks anew by what was chosen.
function choose(page, { id, value }) {
  if (id === "journal") page.choose_journal();
  if (["rows", "extent"].includes(id)) page.keep_held(false);
  page.show(page.view);
  if (id === "never") found(FIELDS[value] ?? "")?.focus();
}

function connect_buttons(page) {
  for (const button of document.querySelectorAll(".acts button")) {
    button.addEventListener("click", () => page.show(button.dataset.view));
  }
  found("again").addEventListener("click", () => page.show(page.view));
  found("stop").addEventListener("click", () => page.caller.stop());
  found("choices").addEventListener("submit", (event) => event.preventDefault());
  found("choices").addEventListener("change", ({ target }) => {
    if (target.id === "fit") fit_charts();
    else choose(page, target);
  });
  document.addEventListener("keydown", (event) => {
    if (event.key === "Escape" && page.caller.open.size) page.caller.stop();
    if (event.key === "Enter" && (event.ctrlKey || event.metaKey)) page.show("run");
  });
}

// The page without the program: the texts can be read and written all the same.
async function begin_without() {
  told_lack();
  const held = () => ({ text: editor.text, rows: ROWS, is_within: false });
  const editor = new Editor(() => {
    leave_link();
    keep_script(held(), true);
  });
  const load = ({ text }) => {
    editor.text = text;
    keep_script(held(), false);
  };
  connect_link(held);
  let_try(load);
  for (const button of document.querySelectorAll(".acts .plain")) {
    button.addEventListener("click", () => show_page(button.dataset.view));
  }
  show_page("language");
  const load_first = connect_examples(load);
  if (!(await load_fragment(load))) load_first();
}

async function begin() {
  frame_tables();
  if (!has_wide_memory()) return begin_without();
  const page = new Playground(compiled_module());
  const load = (held) => {
    page.load(held);
    page.show("run");
  };
  window.playground = page;
  connect_buttons(page);
  connect_link(() => page.held);
  let_try(load);
  const load_first = connect_examples(load);
  // A link that was copied here names the script that is there already.
  const load_other = (held) => held.text !== page.editor.text && load(held);
  window.addEventListener("hashchange", () => load_fragment(load_other));
  if (!(await load_fragment(load))) load_first();
}

begin();
