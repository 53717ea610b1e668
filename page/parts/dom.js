// Elements of the page.

function found(id) {
  return document.getElementById(id);
}

// Makes an element with attributes and what is in it. An attribute that is a function listens to the event of its name.
function made(name, attributes = {}, ...inside) {
  const element = document.createElement(name);
  for (const [attribute, value] of Object.entries(attributes)) {
    if (typeof value === "function") element.addEventListener(attribute, value);
    else element.setAttribute(attribute, value);
  }
  element.append(...inside);
  return element;
}

// A button with a text, and what it does.
function made_button(text, pressed, attributes = {}) {
  return made("button", { type: "button", click: pressed, ...attributes }, text);
}

// So many pixels are a margin.
const MARGIN = 16;

// Puts what scrolls sideways into a frame that shows on which side of it there is more.
function framed(scroller, label) {
  const more = made("p", { class: "more", "aria-hidden": "true" }, "more to the right \u2192");
  const frame = made("div", { class: "sideways" }, more, scroller);
  const look = () => {
    const left = scroller.scrollLeft;
    frame.classList.toggle("has-left", left > 0);
    frame.classList.toggle("has-right", scroller.scrollWidth - scroller.clientWidth - left > MARGIN);
  };
  scroller.setAttribute("aria-label", label);
  if (!scroller.hasAttribute("role")) scroller.setAttribute("role", "group");
  scroller.addEventListener("scroll", look, { passive: true });
  const watching = new ResizeObserver(look);
  for (const it of [scroller, ...scroller.children]) watching.observe(it);
  return frame;
}

// Puts a text where it can be pasted from. Where the browser keeps that from a page, a selection is copied.
async function copy(text) {
  try {
    await navigator.clipboard.writeText(text);
  } catch {
    const area = made("textarea", { "aria-hidden": "true" });
    area.value = text;
    document.body.append(area);
    area.select();
    document.execCommand("copy");
    area.remove();
  }
}

// A button that copies a text, and says for a while that it did.
function made_copier(label, text) {
  const button = made_button(label, async () => {
    await copy(text());
    button.textContent = "Copied";
    setTimeout(() => { button.textContent = label; }, 1500);
  }, { class: "plain" });
  return button;
}
