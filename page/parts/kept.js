// The script in the browser's own stores, so that a reload keeps it. Where a store is refused or full, it does not.

const KEPT = "puttolive";
// That of this tab goes first, so that two tabs keep two scripts.
const STORES = ["sessionStorage", "localStorage"];

// What a store comes to. The browser may throw as soon as it is named.
function of_store(name, ask) {
  try {
    return ask(window[name]);
  } catch {
    return null;
  }
}

// Keeps a script for this tab. A new tab begins with the last one that was written, so no example and no link is in
// the way of that.
function keep_script(held, is_written) {
  const text = JSON.stringify(held);
  for (const name of is_written ? STORES : STORES.slice(0, 1)) of_store(name, (store) => store.setItem(KEPT, text));
}

// The script that was kept, with how long its runs may be; null where none was, or where it cannot be read.
function read_script(text) {
  const { text: script, rows, is_within } = JSON.parse(text);
  return typeof script === "string" ? { text: script, rows: rows_of(rows), is_within: is_within === true } : null;
}

function kept_script() {
  for (const name of STORES) {
    const held = of_store(name, (store) => read_script(store.getItem(KEPT)));
    if (held) return held;
  }
  return null;
}

// An address that holds a script goes first on a reload. So it gives that script up once another stands in the page.
function leave_link() {
  if (location.hash) history.replaceState(null, "", location.href.split("#")[0]);
}
